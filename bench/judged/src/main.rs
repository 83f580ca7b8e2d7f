//! Records the calls of threads on a queue in Rust, as a log to be judged.
//!
//!     rust QUEUE LOG SENDERS TAKERS CALLS SEED STOPS
//!
//! Each thread makes this number of calls; if STOPS is 1, threads are stopped in the middle of them. A queue whose name
//! ends in `_closed` is closed by the first sender near the end. At the end the items that are left are taken, until
//! two takes have found none.
use std::collections::VecDeque;
use std::io;
use std::sync::atomic::{AtomicU64, Ordering};
use std::sync::{Barrier, Mutex, mpsc};
use std::thread;
use std::time::Duration;
use vahepito_record::{Log, Recorder, Sent, Taken};

const CAPACITY: usize = 16;

/// How long a thread sleeps that found no item or no room. It doesn't yield: on a busy machine a yield takes far
/// longer.
const PAUSE: Duration = Duration::from_micros(20);

/// A queue of numbers that many threads share. No call waits.
trait Queue: Sync {
    fn send(&self, item: u64) -> Sent;
    fn take(&self) -> Taken;
    fn close(&self) {}
}

/// A control: a deque under a lock.
struct Locked(Mutex<(VecDeque<u64>, bool)>);

impl Queue for Locked {
    fn send(&self, item: u64) -> Sent {
        let mut inner = self.0.lock().expect("no call unwinds");
        if inner.1 {
            return Sent::Closed;
        }
        if inner.0.len() == CAPACITY {
            return Sent::Full;
        }
        inner.0.push_back(item);
        Sent::Accepted
    }

    fn take(&self) -> Taken {
        let mut inner = self.0.lock().expect("no call unwinds");
        match inner.0.pop_front() {
            Some(item) => Taken::Item(item),
            None if inner.1 => Taken::Ended,
            None => Taken::None,
        }
    }

    fn close(&self) {
        self.0.lock().expect("no call unwinds").1 = true;
    }
}

/// A planted fault: of a closed queue each tenth send is accepted.
struct Reopened(Locked, AtomicU64);

impl Queue for Reopened {
    fn send(&self, item: u64) -> Sent {
        match self.0.send(item) {
            Sent::Closed if self.1.fetch_add(1, Ordering::Relaxed) % 10 == 9 => {
                let mut inner = self.0.0.lock().expect("no call unwinds");
                inner.0.push_back(item);
                Sent::Accepted
            }
            answer => answer,
        }
    }

    fn take(&self) -> Taken {
        self.0.take()
    }

    fn close(&self) {
        self.0.close();
    }
}

/// Dmitry Vyukov's bounded queue as published (1024cores.net, "Bounded MPMC queue"), but for stronger orders. A send
/// that was interrupted after it has claimed its place makes takes find none though items of later sends are there.
struct Vyukov {
    /// The turn of each place, and its item.
    places: Vec<(AtomicU64, AtomicU64)>,
    sends: AtomicU64,
    takes: AtomicU64,
}

impl Vyukov {
    fn new() -> Vyukov {
        let places = 0..CAPACITY as u64;
        let places = places.map(|at| (AtomicU64::new(at), AtomicU64::new(0)));
        Vyukov {
            places: places.collect(),
            sends: AtomicU64::new(0),
            takes: AtomicU64::new(0),
        }
    }

    /// The number and the place of the next call, whose turn has to be its number and `shift` more; None if it is
    /// behind.
    fn claim(&self, next: &AtomicU64, shift: u64) -> Option<(u64, &(AtomicU64, AtomicU64))> {
        let mut at = next.load(Ordering::SeqCst);
        loop {
            let place = &self.places[at as usize % CAPACITY];
            let turn = place.0.load(Ordering::SeqCst);
            if turn < at + shift {
                return None;
            }
            if turn > at + shift {
                at = next.load(Ordering::SeqCst);
                continue;
            }
            match next.compare_exchange(at, at + 1, Ordering::SeqCst, Ordering::SeqCst) {
                Ok(_) => return Some((at, place)),
                Err(now) => at = now,
            }
        }
    }
}

impl Queue for Vyukov {
    fn send(&self, item: u64) -> Sent {
        let Some((at, place)) = self.claim(&self.sends, 0) else {
            return Sent::Full;
        };
        place.1.store(item, Ordering::SeqCst);
        place.0.store(at + 1, Ordering::SeqCst);
        Sent::Accepted
    }

    fn take(&self) -> Taken {
        let Some((at, place)) = self.claim(&self.takes, 1) else {
            return Taken::None;
        };
        let item = place.1.load(Ordering::SeqCst);
        place.0.store(at + CAPACITY as u64, Ordering::SeqCst);
        Taken::Item(item)
    }
}

/// Std's channels, whose one receiver is shared under a lock.
impl Queue for (mpsc::SyncSender<u64>, Mutex<mpsc::Receiver<u64>>) {
    fn send(&self, item: u64) -> Sent {
        match self.0.try_send(item) {
            Ok(()) => Sent::Accepted,
            Err(mpsc::TrySendError::Full(_)) => Sent::Full,
            Err(mpsc::TrySendError::Disconnected(_)) => Sent::Closed,
        }
    }

    fn take(&self) -> Taken {
        let receiver = self.1.lock().expect("no call unwinds");
        receiver.try_recv().map_or(Taken::None, Taken::Item)
    }
}

impl Queue for (mpsc::Sender<u64>, Mutex<mpsc::Receiver<u64>>) {
    fn send(&self, item: u64) -> Sent {
        self.0.send(item).map_or(Sent::Closed, |()| Sent::Accepted)
    }

    fn take(&self) -> Taken {
        let receiver = self.1.lock().expect("no call unwinds");
        receiver.try_recv().map_or(Taken::None, Taken::Item)
    }
}

/// The channel of this repository.
impl Queue for (vahepito::Sender<u64>, vahepito::Receiver<u64>) {
    fn send(&self, item: u64) -> Sent {
        match self.0.try_send(item) {
            Ok(()) => Sent::Accepted,
            Err(vahepito::TrySendError::Full(_)) => Sent::Full,
            Err(vahepito::TrySendError::Disconnected(_)) => Sent::Closed,
        }
    }

    fn take(&self) -> Taken {
        match self.1.try_recv() {
            Ok(item) => Taken::Item(item),
            Err(vahepito::TryRecvError::Empty) => Taken::None,
            Err(vahepito::TryRecvError::Disconnected) => Taken::Ended,
        }
    }
}

#[cfg(feature = "crossbeam-channel")]
impl Queue
    for (
        crossbeam_channel::Sender<u64>,
        crossbeam_channel::Receiver<u64>,
    )
{
    fn send(&self, item: u64) -> Sent {
        self.0
            .try_send(item)
            .map_or(Sent::Full, |()| Sent::Accepted)
    }

    fn take(&self) -> Taken {
        self.1.try_recv().map_or(Taken::None, Taken::Item)
    }
}

#[cfg(feature = "crossbeam-queue")]
impl Queue for crossbeam_queue::ArrayQueue<u64> {
    fn send(&self, item: u64) -> Sent {
        self.push(item).map_or(Sent::Full, |()| Sent::Accepted)
    }

    fn take(&self) -> Taken {
        self.pop().map_or(Taken::None, Taken::Item)
    }
}

#[cfg(feature = "crossbeam-queue")]
impl Queue for crossbeam_queue::SegQueue<u64> {
    fn send(&self, item: u64) -> Sent {
        self.push(item);
        Sent::Accepted
    }

    fn take(&self) -> Taken {
        self.pop().map_or(Taken::None, Taken::Item)
    }
}

#[cfg(feature = "flume")]
impl Queue for (flume::Sender<u64>, flume::Receiver<u64>) {
    fn send(&self, item: u64) -> Sent {
        self.0
            .try_send(item)
            .map_or(Sent::Full, |()| Sent::Accepted)
    }

    fn take(&self) -> Taken {
        self.1.try_recv().map_or(Taken::None, Taken::Item)
    }
}

#[cfg(feature = "async-channel")]
impl Queue for (async_channel::Sender<u64>, async_channel::Receiver<u64>) {
    fn send(&self, item: u64) -> Sent {
        match self.0.try_send(item) {
            Ok(()) => Sent::Accepted,
            Err(async_channel::TrySendError::Full(_)) => Sent::Full,
            Err(async_channel::TrySendError::Closed(_)) => Sent::Closed,
        }
    }

    fn take(&self) -> Taken {
        match self.1.try_recv() {
            Ok(item) => Taken::Item(item),
            Err(async_channel::TryRecvError::Empty) => Taken::None,
            Err(async_channel::TryRecvError::Closed) => Taken::Ended,
        }
    }

    fn close(&self) {
        self.0.close();
    }
}

#[cfg(feature = "concurrent-queue")]
impl Queue for concurrent_queue::ConcurrentQueue<u64> {
    fn send(&self, item: u64) -> Sent {
        match self.push(item) {
            Ok(()) => Sent::Accepted,
            Err(concurrent_queue::PushError::Full(_)) => Sent::Full,
            Err(concurrent_queue::PushError::Closed(_)) => Sent::Closed,
        }
    }

    fn take(&self) -> Taken {
        match self.pop() {
            Ok(item) => Taken::Item(item),
            Err(concurrent_queue::PopError::Empty) => Taken::None,
            Err(concurrent_queue::PopError::Closed) => Taken::Ended,
        }
    }

    fn close(&self) {
        concurrent_queue::ConcurrentQueue::close(self);
    }
}

/// Tokio's channel, whose one receiver is shared under a lock.
#[cfg(feature = "tokio")]
impl Queue
    for (
        tokio::sync::mpsc::Sender<u64>,
        Mutex<tokio::sync::mpsc::Receiver<u64>>,
    )
{
    fn send(&self, item: u64) -> Sent {
        match self.0.try_send(item) {
            Ok(()) => Sent::Accepted,
            Err(tokio::sync::mpsc::error::TrySendError::Full(_)) => Sent::Full,
            Err(tokio::sync::mpsc::error::TrySendError::Closed(_)) => Sent::Closed,
        }
    }

    fn take(&self) -> Taken {
        let mut receiver = self.1.lock().expect("no call unwinds");
        match receiver.try_recv() {
            Ok(item) => Taken::Item(item),
            Err(tokio::sync::mpsc::error::TryRecvError::Empty) => Taken::None,
            Err(tokio::sync::mpsc::error::TryRecvError::Disconnected) => Taken::Ended,
        }
    }

    fn close(&self) {
        self.1.lock().expect("no call unwinds").close();
    }
}

/// The queue of a name.
fn queue_of(name: &str) -> Option<Box<dyn Queue>> {
    let locked = || Locked(Mutex::default());
    Some(match name.trim_end_matches("_closed") {
        "locked" => Box::new(locked()),
        "planted_reopened" => Box::new(Reopened(locked(), AtomicU64::new(0))),
        "vyukov" => Box::new(Vyukov::new()),
        "vahepito" => Box::new(vahepito::bounded(CAPACITY)),
        "sync_channel" => {
            let (sender, receiver) = mpsc::sync_channel(CAPACITY);
            Box::new((sender, Mutex::new(receiver)))
        }
        "channel" => {
            let (sender, receiver) = mpsc::channel();
            Box::new((sender, Mutex::new(receiver)))
        }
        #[cfg(feature = "crossbeam-queue")]
        "ArrayQueue" => Box::new(crossbeam_queue::ArrayQueue::new(CAPACITY)),
        #[cfg(feature = "crossbeam-queue")]
        "SegQueue" => Box::new(crossbeam_queue::SegQueue::new()),
        #[cfg(feature = "crossbeam-channel")]
        "crossbeam_bounded" => Box::new(crossbeam_channel::bounded(CAPACITY)),
        #[cfg(feature = "crossbeam-channel")]
        "crossbeam_unbounded" => Box::new(crossbeam_channel::unbounded()),
        #[cfg(feature = "flume")]
        "flume_bounded" => Box::new(flume::bounded(CAPACITY)),
        #[cfg(feature = "flume")]
        "flume_unbounded" => Box::new(flume::unbounded()),
        #[cfg(feature = "async-channel")]
        "async_bounded" => Box::new(async_channel::bounded(CAPACITY)),
        #[cfg(feature = "async-channel")]
        "async_unbounded" => Box::new(async_channel::unbounded()),
        #[cfg(feature = "concurrent-queue")]
        "concurrent_bounded" => Box::new(concurrent_queue::ConcurrentQueue::bounded(CAPACITY)),
        #[cfg(feature = "concurrent-queue")]
        "concurrent_single" => Box::new(concurrent_queue::ConcurrentQueue::bounded(1)),
        #[cfg(feature = "concurrent-queue")]
        "concurrent_unbounded" => Box::new(concurrent_queue::ConcurrentQueue::unbounded()),
        #[cfg(feature = "tokio")]
        "tokio" => {
            let (sender, receiver) = tokio::sync::mpsc::channel(CAPACITY);
            Box::new((sender, Mutex::new(receiver)))
        }
        _ => return None,
    })
}

/// The work of a thread.
#[derive(Clone, Copy)]
struct Work {
    thread: u64,
    senders: u64,
    calls: u64,
    seed: u64,
    /// The number of the call before which it closes the queue, if there is one.
    closes: u64,
}

fn work(queue: &dyn Queue, recorder: &mut Recorder, it: Work) {
    let mut random = it.seed * 7919 + it.thread * 104_729 + 1;
    for call in 0..it.calls {
        random ^= random << 13;
        random ^= random >> 7;
        random ^= random << 17;
        for _ in 0..random % 64 {
            std::hint::spin_loop();
        }
        if call == it.closes {
            recorder.close(|| queue.close());
        }
        let is_done = if it.thread < it.senders {
            let item = (it.thread + 1) << 32 | call;
            recorder.send(item, || queue.send(item)) == Sent::Accepted
        } else {
            matches!(recorder.take(|| queue.take()), Taken::Item(_))
        };
        if !is_done || (random >> 20) % 512 == 0 {
            thread::sleep(PAUSE);
        }
    }
}

fn main() -> io::Result<()> {
    let words: Vec<String> = std::env::args().collect();
    let [_, name, path, numbers @ ..] = &words[..] else {
        return Err(io::Error::other(
            "usage: rust QUEUE LOG SENDERS TAKERS CALLS SEED STOPS",
        ));
    };
    let numbers = numbers.iter().map(|word| word.parse::<u64>());
    let numbers: Vec<u64> = numbers
        .collect::<Result<_, _>>()
        .map_err(io::Error::other)?;
    let &[senders, takers, calls, seed, stops] = &numbers[..] else {
        return Err(io::Error::other(
            "usage: rust QUEUE LOG SENDERS TAKERS CALLS SEED STOPS",
        ));
    };
    let queue = queue_of(name).ok_or_else(|| io::Error::other("there is no such queue"))?;
    let log = Log::create(path)?;
    let stops = (stops == 1).then(|| log.stop_threads()).transpose()?;
    let all_there = Barrier::new((senders + takers) as usize);
    thread::scope(|scope| {
        for thread in 0..senders + takers {
            let (mut recorder, queue, all_there) = (log.recorder(), &*queue, &all_there);
            let closes = name.ends_with("_closed") && thread == 0;
            let closes = if closes { calls / 10 * 9 } else { u64::MAX };
            let it = Work {
                thread,
                senders,
                calls,
                seed,
                closes,
            };
            scope.spawn(move || {
                all_there.wait();
                work(queue, &mut recorder, it);
            });
        }
    });
    drop(stops);
    let (mut last, mut none) = (log.recorder(), 0);
    while none < 2 {
        none += u8::from(!matches!(last.take(|| queue.take()), Taken::Item(_)));
    }
    Ok(log.finish()?)
}
