//! Short bursts of pinned threads. A burst counts only if no thread lost its processor in it, so a busy machine gives
//! the figures of an idle one: the median and the quartiles of the nanoseconds of an item, and how many bursts counted.
use crate::queues::Queue;
use crate::timed::percentile;
use std::hint::{black_box, spin_loop};
use std::sync::atomic::{AtomicI64, AtomicU64, AtomicUsize, Ordering::SeqCst};
use std::thread;
use std::time::{Duration, Instant};

/// How long a burst is: some hundred items, and much less than a slice of the processor.
const BURST: Duration = Duration::from_micros(100);
/// How many calls a thread makes between two looks at the clock.
const CALLS: u64 = 8;
const THREAD: i32 = 1;

#[repr(C)]
struct Usage {
    times: [i64; 4],
    counts: [i64; 14],
}

unsafe extern "C" {
    safe fn getrusage(who: i32, usage: &mut Usage) -> i32;
    safe fn sched_setaffinity(thread: i32, bytes: usize, processors: &u64) -> i32;
}

/// How often this thread lost its processor: it gave it up, or another thread got it.
fn losses() -> i64 {
    let (times, counts) = ([0; 4], [0; 14]);
    let mut usage = Usage { times, counts };
    assert_eq!(getrusage(THREAD, &mut usage), 0);
    usage.counts[12] + usage.counts[13]
}

/// The counts that the threads of a burst share. The last round has the greatest number.
#[derive(Default)]
struct Round {
    number: AtomicU64,
    ready: AtomicUsize,
    started: AtomicUsize,
    done: AtomicUsize,
    lost: AtomicUsize,
    taken: AtomicU64,
    /// How many items more were sent than taken: in this burst, and in the one before.
    surplus: AtomicI64,
    surplus_before: AtomicI64,
}

/// Waits here for the others. No thread gives up its processor meanwhile.
fn meet(here: &AtomicUsize, threads: usize) {
    here.fetch_add(1, SeqCst);
    while here.load(SeqCst) < threads {
        spin_loop();
    }
}

impl Round {
    /// Makes this thread's calls in each burst. Each of these says whether an item passed.
    fn work(
        &self,
        processor: usize,
        threads: usize,
        takes: bool,
        mut call: impl FnMut(u64) -> bool,
    ) {
        assert_eq!(sched_setaffinity(0, 8, &(1 << processor)), 0);
        let mut number = 0;
        loop {
            while self.number.load(SeqCst) == number {
                thread::yield_now();
            }
            number = self.number.load(SeqCst);
            if number == u64::MAX {
                return;
            }
            // The first of each side makes the queue half full again.
            if processor < 2 {
                let surplus = self.surplus_before.load(SeqCst);
                (0..if takes { surplus } else { -surplus }).for_each(|_| assert!(call(0)));
            }
            meet(&self.ready, threads);
            let before = losses();
            meet(&self.started, threads);
            let (start, mut passed) = (Instant::now(), 0);
            while start.elapsed() < BURST {
                for body in 0..CALLS {
                    passed += u64::from(call(body));
                }
            }
            let (taken, surplus) = if takes {
                (passed, -(passed as i64))
            } else {
                (0, passed as i64)
            };
            self.taken.fetch_add(taken, SeqCst);
            self.surplus.fetch_add(surplus, SeqCst);
            self.lost.fetch_add(usize::from(losses() != before), SeqCst);
            self.done.fetch_add(1, SeqCst);
        }
    }

    /// Begins a burst, and gives the nanoseconds of an item, if no thread lost its processor.
    fn burst(&self, threads: usize) -> Option<f64> {
        self.ready.store(0, SeqCst);
        self.started.store(0, SeqCst);
        self.done.store(0, SeqCst);
        self.lost.store(0, SeqCst);
        self.taken.store(0, SeqCst);
        let surplus = self.surplus.swap(0, SeqCst);
        self.surplus_before.store(surplus, SeqCst);
        self.number.fetch_add(1, SeqCst);
        while self.done.load(SeqCst) < threads {
            thread::sleep(2 * BURST);
        }
        let item = BURST.as_nanos() as f64 / self.taken.load(SeqCst) as f64;
        (self.lost.load(SeqCst) == 0).then_some(item)
    }
}

/// Bursts for this time, at a queue that is half full. Senders and receivers are on processors in turn.
pub fn pinned<Q: Queue>(
    senders: Vec<Q::Sender>,
    receivers: Vec<Q::Receiver>,
    fill: usize,
    time: Duration,
) -> Vec<f64> {
    let (mut senders, round) = (senders, &Round::default());
    let (pairs, threads) = (
        senders.len().min(receivers.len()),
        senders.len() + receivers.len(),
    );
    let processor = move |at: usize, side: usize| {
        if at < pairs {
            2 * at + side
        } else {
            pairs + at
        }
    };
    for body in 0..fill {
        assert!(Q::try_send(&mut senders[0], body as u64));
    }
    let mut items = vec![];
    thread::scope(|scope| {
        for (at, mut sender) in senders.into_iter().enumerate() {
            let call = move |body| Q::try_send(&mut sender, body);
            scope.spawn(move || round.work(processor(at, 0), threads, false, call));
        }
        for (at, mut receiver) in receivers.into_iter().enumerate() {
            let call = move |_| black_box(Q::try_recv(&mut receiver)).is_some();
            scope.spawn(move || round.work(processor(at, 1), threads, true, call));
        }
        let start = Instant::now();
        while start.elapsed() < time {
            items.extend(round.burst(threads));
        }
        round.number.store(u64::MAX, SeqCst);
    });
    let counted = items.len() as f64;
    let parts = [0.5, 0.25, 0.75].map(|part| percentile(&mut items, part));
    parts.into_iter().chain([counted]).collect()
}
