//! C's queue: `vahepito_queue.c` by the calls of `vahepito.h`, which run.py compiles.
use crate::queues::{Ends, Queue};
use std::ffi::c_void;
use std::ptr::null_mut;
use std::sync::Arc;

#[repr(C)]
#[derive(Default)]
struct Item {
    place: u64,
    sender: u32,
    number: u32,
    count: usize,
    words: [u64; 4],
}

const ACCEPTED: u32 = 17;
const GOT: u32 = 23;

type Send = unsafe extern "C" fn(*mut c_void, u64, *mut u64) -> u32;
type Take = unsafe extern "C" fn(*mut c_void, u32, &mut Item, *mut u64) -> u32;

#[link(name = "vahepito_queue", kind = "static")]
unsafe extern "C" {
    fn vahepito_create(capacity: u32) -> *mut c_void;
    fn vahepito_send(queue: *mut c_void, word: u64, place: *mut u64) -> u32;
    fn vahepito_send_now(queue: *mut c_void, word: u64, place: *mut u64) -> u32;
    fn vahepito_take(queue: *mut c_void, group: u32, item: &mut Item, total: *mut u64) -> u32;
    fn vahepito_take_now(queue: *mut c_void, group: u32, item: &mut Item, total: *mut u64) -> u32;
    fn vahepito_close(queue: *mut c_void, total: *mut u64) -> u32;
    fn vahepito_destroy(queue: *mut c_void, left: *mut c_void, with: *mut c_void);
}

pub struct C;

struct Opened(*mut c_void);

// SAFETY: any thread may make its calls.
unsafe impl std::marker::Send for Opened {}
unsafe impl Sync for Opened {}

impl Drop for Opened {
    fn drop(&mut self) {
        // SAFETY: all handles are gone.
        unsafe { vahepito_destroy(self.0, null_mut(), null_mut()) }
    }
}

/// What the senders share. Its drop, with that of the last sender, closes the queue.
struct Senders(Arc<Opened>);

pub struct Sender(Arc<Senders>);

pub struct Receiver(Arc<Opened>);

impl Drop for Senders {
    fn drop(&mut self) {
        // SAFETY: the queue is open.
        unsafe { vahepito_close(self.0.0, null_mut()) };
    }
}

impl Sender {
    fn send_by(&self, send: Send, body: u64) -> bool {
        // SAFETY: the queue is open, and a place isn't asked for.
        unsafe { send(self.0.0.0, body, null_mut()) == ACCEPTED }
    }
}

impl Receiver {
    fn take_by(&self, take: Take) -> Option<u64> {
        let mut item = Item::default();
        // SAFETY: the queue is open, and the total isn't asked for.
        let code = unsafe { take(self.0.0, 1, &mut item, null_mut()) };
        (code == GOT).then(|| item.words[0])
    }
}

impl Queue for C {
    type Sender = Sender;
    type Receiver = Receiver;
    fn open(senders: usize, receivers: usize, capacity: usize, _: u32) -> Ends<Self> {
        // SAFETY: the pointer is looked at.
        let opened = Arc::new(Opened(unsafe { vahepito_create(capacity as u32) }));
        assert!(!opened.0.is_null());
        let all = Arc::new(Senders(opened.clone()));
        let senders = (0..senders).map(|_| Sender(all.clone())).collect();
        let receivers = (0..receivers).map(|_| Receiver(opened.clone())).collect();
        (senders, receivers)
    }
    fn send(sender: &mut Sender, body: u64) {
        assert!(sender.send_by(vahepito_send, body));
    }
    fn recv(receiver: &mut Receiver) -> Option<u64> {
        receiver.take_by(vahepito_take)
    }
    fn try_send(sender: &mut Sender, body: u64) -> bool {
        sender.send_by(vahepito_send_now, body)
    }
    fn try_recv(receiver: &mut Receiver) -> Option<u64> {
        receiver.take_by(vahepito_take_now)
    }
}
