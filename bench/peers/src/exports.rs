//! The exports of the proved library, as `bindings/c/vahepito.h` declares them: queues of one word, without a
//! channel above. The crate links the library.
use std::ffi::c_void;
use std::ptr::null_mut;
use std::sync::Arc;
use std::sync::atomic::{AtomicUsize, Ordering};
use std::thread;
use std::time::Duration;

#[repr(C)]
#[derive(Clone, Copy)]
pub struct Config {
    pub senders: u32,
    pub receivers: u32,
    pub capacity: u32,
    pub bound: u32,
    pub life: u64,
    pub per_sender: u32,
}

impl Config {
    pub const fn new(senders: usize, receivers: usize, capacity: usize, bound: u32) -> Config {
        Config {
            senders: senders as u32,
            receivers: receivers as u32,
            capacity: capacity as u32,
            bound,
            life: 1 << 48,
            per_sender: u32::MAX,
        }
    }
}

#[repr(C)]
struct Raw {
    at: *mut c_void,
    live: bool,
}

// SAFETY: each pass is used by `&mut` alone, and the library says that it goes to another thread.
unsafe impl Send for Raw {}

impl Drop for Raw {
    fn drop(&mut self) {
        vahepito_drop(self);
    }
}

#[repr(C)]
#[derive(Default)]
struct Item {
    place: u64,
    sender: u32,
    number: u32,
    body: u64,
}

const WAITING: u32 = 15;
const ACCEPTED: u32 = 17;
const FULL: u32 = 18;
const GOT: u32 = 23;
const EMPTY: u32 = 24;

// SAFETY, of the calls that are called safe: a pass is empty or was filled by an opening, and each other
// reference is that of a variable of its own.
unsafe extern "C" {
    fn vahepito_open_words(
        config: &Config,
        groups: u32,
        words: u32,
        senders: *mut Raw,
        sender_count: usize,
        receivers: *mut Raw,
        receiver_count: usize,
    ) -> u32;
    safe fn vahepito_drop(pass: &mut Raw) -> u32;
    safe fn vahepito_try_send(
        sender: &mut Raw,
        body: u64,
        place: &mut u64,
        served: &mut u32,
    ) -> u32;
    safe fn vahepito_turn_send(sender: &mut Raw, place: &mut u64, served: &mut u32) -> u32;
    safe fn vahepito_begin_close(sender: &mut Raw) -> u32;
    safe fn vahepito_turn_close(sender: &mut Raw, total: &mut u64, served: &mut u32) -> u32;
    safe fn vahepito_try_take(_: &mut Raw, _: &mut Item, total: &mut u64, served: &mut u32)
    -> u32;
    safe fn vahepito_turn_take(
        _: &mut Raw,
        _: &mut Item,
        total: &mut u64,
        served: &mut u32,
    ) -> u32;
}

/// The crate's back-off: 7 rounds that spin, then yields, and between two tries after 256 of these sleeps.
#[derive(Default)]
pub struct Backoff(u32);

impl Backoff {
    pub fn between_turns(&mut self) {
        match self.0 {
            0..7 => (0..1 << self.0).for_each(|_| std::hint::spin_loop()),
            _ => thread::yield_now(),
        }
        self.0 = self.0.saturating_add(1);
    }

    pub fn between_tries(&mut self) {
        let Some(slept) = self.0.checked_sub(7 + 256) else {
            return self.between_turns();
        };
        thread::sleep(Duration::from_micros(1000.min(50 << slept.min(8))));
        self.0 = self.0.saturating_add(1);
    }
}

/// The code of a call that gave this one first: if it is to be turned, it is.
fn answered(mut code: u32, mut turn: impl FnMut() -> u32) -> u32 {
    let mut backoff = Backoff::default();
    while code == WAITING {
        backoff.between_turns();
        code = turn();
    }
    code
}

/// The last one that is dropped closes the queue.
pub struct Sender {
    pass: Raw,
    left: Arc<AtomicUsize>,
}

pub struct Receiver(Raw);

/// The senders of a queue, and its receivers, group by group.
pub fn open(config: Config, groups: usize) -> (Vec<Sender>, Vec<Receiver>) {
    let empty = |_| Raw {
        at: null_mut(),
        live: false,
    };
    let mut senders: Vec<Raw> = (0..config.senders).map(empty).collect();
    let mut receivers: Vec<Raw> = (0..config.receivers * groups as u32).map(empty).collect();
    let (to, from) = (senders.as_mut_ptr(), receivers.as_mut_ptr());
    // SAFETY: the pointers and counts are those of two lists, and the passes of both are empty.
    let code = unsafe {
        vahepito_open_words(
            &config,
            groups as u32,
            1,
            to,
            senders.len(),
            from,
            receivers.len(),
        )
    };
    assert_eq!(code, 0);
    let left = Arc::new(AtomicUsize::new(senders.len()));
    let sender = |pass| Sender {
        pass,
        left: left.clone(),
    };
    (
        senders.into_iter().map(sender).collect(),
        receivers.into_iter().map(Receiver).collect(),
    )
}

impl Sender {
    /// Whether it is sent. If not, there is no room.
    pub fn try_send(&mut self, body: u64) -> bool {
        let (mut place, mut served) = (0, 0);
        let first = vahepito_try_send(&mut self.pass, body, &mut place, &mut served);
        match answered(first, || {
            vahepito_turn_send(&mut self.pass, &mut place, &mut served)
        }) {
            ACCEPTED => true,
            FULL => false,
            code => panic!("a send is answered by {code}"),
        }
    }

    pub fn send(&mut self, body: u64) {
        let mut backoff = Backoff::default();
        while !self.try_send(body) {
            backoff.between_tries();
        }
    }
}

impl Drop for Sender {
    fn drop(&mut self) {
        if self.left.fetch_sub(1, Ordering::AcqRel) == 1 {
            vahepito_begin_close(&mut self.pass);
            answered(WAITING, || {
                vahepito_turn_close(&mut self.pass, &mut 0, &mut 0)
            });
        }
    }
}

impl Receiver {
    /// An item; or whether none is left, as the queue is closed.
    fn take(&mut self) -> Result<u64, bool> {
        let (mut item, mut total, mut served) = (Item::default(), 0, 0);
        let first = vahepito_try_take(&mut self.0, &mut item, &mut total, &mut served);
        match answered(first, || {
            vahepito_turn_take(&mut self.0, &mut item, &mut total, &mut served)
        }) {
            GOT => Ok(item.body),
            code => Err(code != EMPTY),
        }
    }

    pub fn try_recv(&mut self) -> Option<u64> {
        self.take().ok()
    }

    /// None at the end.
    pub fn recv(&mut self) -> Option<u64> {
        let mut backoff = Backoff::default();
        loop {
            match self.take() {
                Ok(body) => return Some(body),
                Err(true) => return None,
                Err(false) => backoff.between_tries(),
            }
        }
    }
}
