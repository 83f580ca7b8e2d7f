//! The competitors: bounded queues of words, each by its own blocking calls, and by those that don't wait.
use crate::exports;
use std::collections::VecDeque;
use std::sync::{Arc, Condvar, Mutex, MutexGuard, mpsc};

/// The senders and the receivers of a queue.
pub type Ends<Q> = (Vec<<Q as Queue>::Sender>, Vec<<Q as Queue>::Receiver>);

/// The last sender that is dropped closes the queue.
pub trait Queue: Sized {
    type Sender: Send;
    type Receiver: Send;
    /// This number of each. With capacity 0 it holds any number of items, if it can. The bound is for those alone that
    /// have one.
    fn open(senders: usize, receivers: usize, capacity: usize, bound: u32) -> Ends<Self>;
    fn send(sender: &mut Self::Sender, body: u64);
    /// None where the queue is closed and empty.
    fn recv(receiver: &mut Self::Receiver) -> Option<u64>;
    fn try_send(sender: &mut Self::Sender, body: u64) -> bool;
    fn try_recv(receiver: &mut Self::Receiver) -> Option<u64>;
}

/// The proved queue, by the exports of its library.
pub struct Words;

impl Queue for Words {
    type Sender = exports::Sender;
    type Receiver = exports::Receiver;
    fn open(senders: usize, receivers: usize, capacity: usize, bound: u32) -> Ends<Self> {
        let config = exports::Config::new(senders, receivers, capacity, bound);
        exports::open(config, 1)
    }
    fn send(sender: &mut exports::Sender, body: u64) {
        sender.send(body);
    }
    fn recv(receiver: &mut exports::Receiver) -> Option<u64> {
        receiver.recv()
    }
    fn try_send(sender: &mut exports::Sender, body: u64) -> bool {
        sender.try_send(body)
    }
    fn try_recv(receiver: &mut exports::Receiver) -> Option<u64> {
        receiver.try_recv()
    }
}

/// A channel whose ends are cloned: its crate, how it is opened, and its calls that wait.
macro_rules! channel {
    ($name:ident, $of:ident, $open:expr, $send:ident, $recv:ident) => {
        pub struct $name;

        impl Queue for $name {
            type Sender = $of::Sender<u64>;
            type Receiver = $of::Receiver<u64>;
            fn open(senders: usize, receivers: usize, capacity: usize, _: u32) -> Ends<Self> {
                let (sender, receiver) = $open(capacity);
                (vec![sender; senders], vec![receiver; receivers])
            }
            fn send(sender: &mut Self::Sender, body: u64) {
                sender.$send(body).unwrap();
            }
            fn recv(receiver: &mut Self::Receiver) -> Option<u64> {
                receiver.$recv().ok()
            }
            fn try_send(sender: &mut Self::Sender, body: u64) -> bool {
                sender.try_send(body).is_ok()
            }
            fn try_recv(receiver: &mut Self::Receiver) -> Option<u64> {
                receiver.try_recv().ok()
            }
        }
    };
}

channel!(
    Typed,
    vahepito,
    |capacity| match capacity {
        0 => vahepito::unbounded(),
        _ => vahepito::bounded(capacity),
    },
    send,
    recv
);
#[cfg(feature = "crossbeam-channel")]
channel!(
    Crossbeam,
    crossbeam_channel,
    |capacity| match capacity {
        0 => crossbeam_channel::unbounded(),
        _ => crossbeam_channel::bounded(capacity),
    },
    send,
    recv
);
#[cfg(feature = "flume")]
channel!(
    Flume,
    flume,
    |capacity| match capacity {
        0 => flume::unbounded(),
        _ => flume::bounded(capacity),
    },
    send,
    recv
);
#[cfg(feature = "async-channel")]
channel!(
    Async,
    async_channel,
    async_channel::bounded,
    send_blocking,
    recv_blocking
);

/// std's channel: it has one receiver, so several share it under a lock.
pub struct Std;

impl Queue for Std {
    type Sender = mpsc::SyncSender<u64>;
    type Receiver = Arc<Mutex<mpsc::Receiver<u64>>>;
    fn open(senders: usize, receivers: usize, capacity: usize, _: u32) -> Ends<Self> {
        let (sender, receiver) = mpsc::sync_channel(capacity);
        (
            vec![sender; senders],
            vec![Arc::new(Mutex::new(receiver)); receivers],
        )
    }
    fn send(sender: &mut Self::Sender, body: u64) {
        sender.send(body).unwrap();
    }
    fn recv(receiver: &mut Self::Receiver) -> Option<u64> {
        receiver.lock().unwrap().recv().ok()
    }
    fn try_send(sender: &mut Self::Sender, body: u64) -> bool {
        sender.try_send(body).is_ok()
    }
    fn try_recv(receiver: &mut Self::Receiver) -> Option<u64> {
        receiver.lock().unwrap().try_recv().ok()
    }
}

/// A `VecDeque` under std's lock, with its two reasons to wait. A wake-up costs a call of the system, so the threads
/// that wait are counted, and only these are woken.
pub struct Locked {
    inner: Mutex<Inner>,
    capacity: usize,
    not_full: Condvar,
    not_empty: Condvar,
}

struct Inner {
    items: VecDeque<u64>,
    senders: usize,
    waiting_to_send: usize,
    waiting_to_take: usize,
}

impl Locked {
    /// Puts an item in, and releases the lock.
    fn push(&self, mut inner: MutexGuard<Inner>, body: u64) {
        inner.items.push_back(body);
        let is_awaited = inner.waiting_to_take > 0;
        drop(inner);
        if is_awaited {
            self.not_empty.notify_one();
        }
    }

    /// Takes an item out, if there is one, and releases the lock.
    fn pop(&self, mut inner: MutexGuard<Inner>) -> Option<u64> {
        let body = inner.items.pop_front();
        let is_awaited = body.is_some() && inner.waiting_to_send > 0;
        drop(inner);
        if is_awaited {
            self.not_full.notify_one();
        }
        body
    }
}

/// A sender of it, whose drop is counted.
pub struct LockedSender(Arc<Locked>);

impl Drop for LockedSender {
    fn drop(&mut self) {
        self.0.inner.lock().unwrap().senders -= 1;
        self.0.not_empty.notify_all();
    }
}

impl Queue for Locked {
    type Sender = LockedSender;
    type Receiver = Arc<Locked>;
    fn open(senders: usize, receivers: usize, capacity: usize, _: u32) -> Ends<Self> {
        let inner = Mutex::new(Inner {
            items: VecDeque::with_capacity(capacity),
            senders,
            waiting_to_send: 0,
            waiting_to_take: 0,
        });
        let queue = Arc::new(Locked {
            inner,
            capacity,
            not_full: Condvar::new(),
            not_empty: Condvar::new(),
        });
        (
            (0..senders).map(|_| LockedSender(queue.clone())).collect(),
            vec![queue; receivers],
        )
    }
    fn send(LockedSender(queue): &mut LockedSender, body: u64) {
        let mut inner = queue.inner.lock().unwrap();
        while inner.items.len() == queue.capacity {
            inner.waiting_to_send += 1;
            inner = queue.not_full.wait(inner).unwrap();
            inner.waiting_to_send -= 1;
        }
        queue.push(inner, body);
    }
    fn recv(queue: &mut Arc<Locked>) -> Option<u64> {
        let mut inner = queue.inner.lock().unwrap();
        while inner.items.is_empty() && inner.senders > 0 {
            inner.waiting_to_take += 1;
            inner = queue.not_empty.wait(inner).unwrap();
            inner.waiting_to_take -= 1;
        }
        queue.pop(inner)
    }
    fn try_send(LockedSender(queue): &mut LockedSender, body: u64) -> bool {
        let inner = queue.inner.lock().unwrap();
        let has_room = inner.items.len() < queue.capacity;
        if has_room {
            queue.push(inner, body);
        }
        has_room
    }
    fn try_recv(queue: &mut Arc<Locked>) -> Option<u64> {
        queue.pop(queue.inner.lock().unwrap())
    }
}
