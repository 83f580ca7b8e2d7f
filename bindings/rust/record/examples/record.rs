//! Records the calls of four threads on a queue, as a log to be judged.
//!
//!     cargo run --release --example record QUEUE LOG [CALLS]
//!     ccq judge LOG
//!
//! The queue is `mpsc`, std's channel, or `fault`, one that gives each thousandth item to two threads. Each thread does this number of calls (10,000): two send, and two take.
use std::collections::VecDeque;
use std::io;
use std::sync::atomic::{AtomicU64, Ordering};
use std::sync::{Barrier, Mutex, mpsc};
use std::thread;
use vahepito_record::Log;
pub use vahepito_record::{Sent, Taken};

/// A queue of numbers that many threads share.
pub trait Queue: Sync {
    fn send(&self, item: u64) -> Sent;
    fn take(&self) -> Taken;
}

/// Std's channel, whose receiver is shared under a lock.
impl Queue for (mpsc::Sender<u64>, Mutex<mpsc::Receiver<u64>>) {
    fn send(&self, item: u64) -> Sent {
        self.0.send(item).map_or(Sent::Closed, |()| Sent::Accepted)
    }

    fn take(&self) -> Taken {
        match self.1.lock().expect("no call unwinds").try_recv() {
            Ok(item) => Taken::Item(item),
            Err(mpsc::TryRecvError::Empty) => Taken::None,
            Err(mpsc::TryRecvError::Disconnected) => Taken::Ended,
        }
    }
}

/// A queue under a lock that leaves each thousandth item that is taken in its place.
#[derive(Default)]
struct Fault(Mutex<VecDeque<u64>>, AtomicU64);

impl Queue for Fault {
    fn send(&self, item: u64) -> Sent {
        self.0.lock().expect("no call unwinds").push_back(item);
        Sent::Accepted
    }

    fn take(&self) -> Taken {
        let mut items = self.0.lock().expect("no call unwinds");
        let Some(item) = items.pop_front() else {
            return Taken::None;
        };
        if self.1.fetch_add(1, Ordering::Relaxed) % 1000 == 999 {
            items.push_front(item);
        }
        Taken::Item(item)
    }
}

/// Records the calls of two threads that send and two that take.
fn record(queue: &dyn Queue, log: &Log, calls: u64) {
    let all_there = Barrier::new(4);
    let sends = |thread| {
        let mut recorder = log.recorder();
        all_there.wait();
        for call in 0..calls {
            let item = 2 * call + thread;
            recorder.send(item, || queue.send(item));
        }
    };
    let takes = || {
        let mut recorder = log.recorder();
        all_there.wait();
        for _ in 0..calls {
            recorder.take(|| queue.take());
        }
    };
    thread::scope(|scope| {
        scope.spawn(|| sends(0));
        scope.spawn(|| sends(1));
        scope.spawn(takes);
        scope.spawn(takes);
    });
}

/// Records the queue in the file that the second word names. The third says how many calls.
pub fn write_record(queue: &dyn Queue) -> io::Result<()> {
    let Some(path) = std::env::args().nth(2) else {
        return Err(io::Error::other("usage: record QUEUE LOG [CALLS]"));
    };
    let calls = std::env::args()
        .nth(3)
        .map_or(10_000, |word| word.parse().expect("a number"));
    let log = Log::create(path)?;
    record(queue, &log, calls);
    Ok(log.finish()?)
}

pub fn main() -> io::Result<()> {
    match std::env::args().nth(1).as_deref() {
        Some("mpsc") => {
            let (sender, receiver) = mpsc::channel();
            write_record(&(sender, Mutex::new(receiver)))
        }
        Some("fault") => write_record(&Fault::default()),
        _ => Err(io::Error::other("the queue is mpsc or fault")),
    }
}
