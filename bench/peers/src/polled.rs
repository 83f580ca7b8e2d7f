//! Queues that don't wait: they are tried again until they give an answer.
use crate::queues::{Ends, Queue};
use std::sync::Arc;
use std::sync::atomic::{AtomicUsize, Ordering::*};
use std::thread;

/// Tries until there is an answer: first it spins between two tries, and then it yields.
fn until<T>(mut attempt: impl FnMut() -> Option<T>) -> T {
    for round in 0.. {
        if let Some(answer) = attempt() {
            return answer;
        }
        if round < 7 {
            (0..1 << round).for_each(|_| std::hint::spin_loop());
        } else {
            thread::yield_now();
        }
    }
    unreachable!()
}

/// A queue that neither waits nor knows an end, with the number of its senders that are left.
struct Polled<Q> {
    queue: Q,
    left: AtomicUsize,
}

/// A sender of it, whose drop is counted.
pub struct Counted<Q>(Arc<Polled<Q>>);

impl<Q> Drop for Counted<Q> {
    fn drop(&mut self) {
        self.0.left.fetch_sub(1, Release);
    }
}

/// A receiver of it.
pub struct Polling<Q>(Arc<Polled<Q>>);

/// A queue by its type, its opening, and its calls.
macro_rules! polled {
    ($name:ident, $of:ty, $open:expr) => {
        pub struct $name;

        impl Queue for $name {
            type Sender = Counted<$of>;
            type Receiver = Polling<$of>;
            fn open(senders: usize, receivers: usize, capacity: usize, _: u32) -> Ends<Self> {
                let all = Arc::new(Polled {
                    queue: $open(capacity),
                    left: AtomicUsize::new(senders),
                });
                let all = || all.clone();
                (
                    (0..senders).map(|_| Counted(all())).collect(),
                    (0..receivers).map(|_| Polling(all())).collect(),
                )
            }
            fn send(sender: &mut Self::Sender, body: u64) {
                until(|| sender.0.queue.push(body).ok());
            }
            fn recv(receiver: &mut Self::Receiver) -> Option<u64> {
                until(|| match Self::try_recv(receiver) {
                    Some(body) => Some(Some(body)),
                    // An item that was sent before the last sender's drop is found by a look after the drop.
                    None if receiver.0.left.load(Acquire) == 0 => Some(Self::try_recv(receiver)),
                    None => None,
                })
            }
            fn try_send(sender: &mut Self::Sender, body: u64) -> bool {
                sender.0.queue.push(body).is_ok()
            }
            fn try_recv(receiver: &mut Self::Receiver) -> Option<u64> {
                receiver.0.queue.pop().into_iter().next()
            }
        }
    };
}

#[cfg(feature = "crossbeam-queue")]
polled!(
    Array,
    crossbeam_queue::ArrayQueue<u64>,
    crossbeam_queue::ArrayQueue::new
);

/// crossbeam's queue without a bound, which accepts each item.
#[cfg(feature = "crossbeam-queue")]
pub struct Segments(crossbeam_queue::SegQueue<u64>);

#[cfg(feature = "crossbeam-queue")]
impl Segments {
    fn push(&self, body: u64) -> Result<(), u64> {
        self.0.push(body);
        Ok(())
    }

    fn pop(&self) -> Option<u64> {
        self.0.pop()
    }
}

#[cfg(feature = "crossbeam-queue")]
polled!(Seg, Segments, |_| Segments(
    crossbeam_queue::SegQueue::new()
));
#[cfg(feature = "concurrent-queue")]
polled!(
    Concurrent,
    concurrent_queue::ConcurrentQueue<u64>,
    concurrent_queue::ConcurrentQueue::bounded
);
