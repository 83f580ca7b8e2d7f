//! One burst of one queue: `peers MODE QUEUE SENDERS RECEIVERS CAPACITY BOUND MILLISECONDS`; `run.py` calls it, and
//! has the words for what the numbers are that each mode prints.
mod c_queue;
#[path = "../../clock.rs"]
mod clock;
mod exports;
mod pinned;
#[cfg(any(feature = "crossbeam-queue", feature = "concurrent-queue"))]
mod polled;
mod queues;
mod steps;
#[path = "../../timed.rs"]
mod timed;

use clock::processors;
use queues::*;
use std::hint::black_box;
use std::sync::Barrier;
use std::sync::atomic::{AtomicBool, Ordering::Relaxed};
use std::thread;
use std::time::{Duration, Instant};
use timed::{percentile, timed};

const PROCESS: i32 = 2;
const THREAD: i32 = 3;

struct Burst {
    senders: usize,
    receivers: usize,
    capacity: usize,
    bound: u32,
    time: Duration,
}

impl Burst {
    fn open<Q: Queue>(&self) -> (Vec<Q::Sender>, Vec<Q::Receiver>) {
        Q::open(self.senders, self.receivers, self.capacity, self.bound)
    }
}

/// All senders and receivers at work: nanoseconds an item, of the clock and of the processors.
fn pass<Q: Queue>(it: &Burst) -> Vec<f64> {
    let (senders, receivers) = it.open::<Q>();
    let (stop, start) = (
        &AtomicBool::new(false),
        &Barrier::new(it.senders + it.receivers + 1),
    );
    thread::scope(|scope| {
        let receiving = receivers.into_iter().map(|mut receiver| {
            scope.spawn(move || {
                start.wait();
                let mut got = 0u64;
                while let Some(body) = Q::recv(&mut receiver) {
                    black_box(body);
                    got += 1;
                }
                got
            })
        });
        let receiving: Vec<_> = receiving.collect();
        let sending = senders.into_iter().map(|mut sender| {
            scope.spawn(move || {
                start.wait();
                let mut sent = 0u64;
                while !stop.load(Relaxed) {
                    Q::send(&mut sender, sent);
                    sent += 1;
                }
                sent
            })
        });
        let sending: Vec<_> = sending.collect();
        start.wait();
        let (clock, spent) = (Instant::now(), processors(PROCESS));
        thread::sleep(it.time);
        stop.store(true, Relaxed);
        let sent: u64 = sending
            .into_iter()
            .map(|thread| thread.join().unwrap())
            .sum();
        let got: u64 = receiving
            .into_iter()
            .map(|thread| thread.join().unwrap())
            .sum();
        let (clock, spent) = (
            clock.elapsed().as_nanos() as f64,
            processors(PROCESS) - spent,
        );
        assert_eq!(sent, got, "items were lost");
        vec![clock / got as f64, spent / got as f64]
    })
}

/// The nanoseconds of one call of this, done again and again for the burst's time.
fn each(it: &Burst, mut call: impl FnMut(u64)) -> Vec<f64> {
    let (start, mut calls) = (Instant::now(), 0);
    while start.elapsed() < it.time {
        for _ in 0..64 {
            call(calls);
            calls += 1;
        }
    }
    vec![start.elapsed().as_nanos() as f64 / calls as f64]
}

/// One thread: nanoseconds of a send and the take of its item.
fn alone<Q: Queue>(it: &Burst) -> Vec<f64> {
    let (mut senders, mut receivers) = it.open::<Q>();
    each(it, |body| {
        assert!(Q::try_send(&mut senders[0], body));
        assert_eq!(Q::try_recv(&mut receivers[0]), Some(body));
    })
}

/// One thread: nanoseconds of a send and the take of its item, in bursts of 100,000 items.
fn swell<Q: Queue>(it: &Burst) -> Vec<f64> {
    const ITEMS: u64 = 100_000;
    let (mut senders, mut receivers) = it.open::<Q>();
    let (start, mut bursts) = (Instant::now(), 0);
    while start.elapsed() < it.time {
        for body in 0..ITEMS {
            assert!(Q::try_send(&mut senders[0], body));
        }
        for body in 0..ITEMS {
            assert_eq!(Q::try_recv(&mut receivers[0]), Some(body));
        }
        bursts += 1;
    }
    vec![start.elapsed().as_nanos() as f64 / (bursts * ITEMS) as f64]
}

/// One thread: nanoseconds of a send that finds the queue full.
fn full<Q: Queue>(it: &Burst) -> Vec<f64> {
    let (mut senders, _receivers) = it.open::<Q>();
    while Q::try_send(&mut senders[0], 1) {}
    each(it, |body| assert!(!Q::try_send(&mut senders[0], body)))
}

/// Senders that don't wait, timed, and receivers that do this with their receiver, the number of their thread, and what
/// says whether the burst goes on: the nanoseconds of each accepted send, and what each receiver returned.
fn timed_sends<Q: Queue, R: Send>(
    it: &Burst,
    receives: impl Fn(&mut Q::Receiver, u64, &dyn Fn() -> bool) -> R + Sync,
) -> (Vec<f64>, Vec<R>) {
    let (senders, receivers) = it.open::<Q>();
    let stop = AtomicBool::new(false);
    let goes_on = || !stop.load(Relaxed);
    let start = Barrier::new(it.senders + it.receivers + 1);
    thread::scope(|scope| {
        let (start, goes_on, receives) = (&start, &goes_on, &receives);
        let receiving = receivers
            .into_iter()
            .zip(1..)
            .map(|(mut receiver, number)| {
                scope.spawn(move || {
                    start.wait();
                    receives(&mut receiver, number, goes_on)
                })
            });
        let receiving: Vec<_> = receiving.collect();
        let sending = senders.into_iter().zip(1001..).map(|(mut sender, seed)| {
            scope.spawn(move || {
                start.wait();
                timed(seed, || {
                    let sent = Q::try_send(&mut sender, seed);
                    goes_on().then_some(sent)
                })
            })
        });
        let sending: Vec<_> = sending.collect();
        start.wait();
        thread::sleep(it.time);
        stop.store(true, Relaxed);
        let sends = sending.into_iter().map(|thread| thread.join().unwrap());
        let sends = sends.flatten().collect();
        let received = receiving.into_iter().map(|thread| thread.join().unwrap());
        (sends, received.collect())
    })
}

/// Single calls that don't wait: the median and the 99th percentile of a send that is accepted, and of a take that gets
/// an item, in nanoseconds.
fn calls<Q: Queue>(it: &Burst) -> Vec<f64> {
    let takes = |receiver: &mut Q::Receiver, seed, goes_on: &dyn Fn() -> bool| {
        timed(seed, || {
            let taken = black_box(Q::try_recv(receiver)).is_some();
            goes_on().then_some(taken)
        })
    };
    let (sends, takes) = timed_sends::<Q, _>(it, takes);
    let both = [sends, takes.into_iter().flatten().collect()].into_iter();
    both.flat_map(|mut times| [0.5, 0.99].map(|part| percentile(&mut times, part)))
        .collect()
}

/// Sends that don't wait, with 0 to 10 us of other work before each, and receivers that block: the nanoseconds of an
/// accepted send at four percentiles (50, 99, 99.9, 99.99), and how many of a million took longer than 0.5 ms.
fn tail<Q: Queue>(it: &Burst) -> Vec<f64> {
    let takes_all = |receiver: &mut Q::Receiver, _, _: &dyn Fn() -> bool| {
        while let Some(body) = Q::recv(receiver) {
            black_box(body);
        }
    };
    let (mut times, _) = timed_sends::<Q, _>(it, takes_all);
    let long = times.iter().filter(|time| **time > 500_000.0).count();
    let parts = [0.5, 0.99, 0.999, 0.9999].map(|part| percentile(&mut times, part));
    let long = long as f64 * 1e6 / times.len() as f64;
    parts.into_iter().chain([long]).collect()
}

/// The same with the longer slice, which the threads inherit.
fn sliced<Q: Queue>(it: &Burst) -> Vec<f64> {
    vahepito::lengthen_slice().expect("the system has slices");
    tail::<Q>(it)
}

/// A receiver that waits, and an item each millisecond: the median and the 99th percentile of the microseconds from
/// before its send to after its take, and those that the processors gave the receiver for an item, and the sender.
fn paced<Q: Queue>(it: &Burst) -> Vec<f64> {
    let (mut senders, mut receivers) = it.open::<Q>();
    let (mut sender, mut receiver) = (senders.remove(0), receivers.remove(0));
    let start = Instant::now();
    let now = move || start.elapsed().as_nanos() as u64;
    thread::scope(|scope| {
        let receiving = scope.spawn(move || {
            let (spent, mut times) = (processors(THREAD), Vec::new());
            while let Some(sent) = Q::recv(&mut receiver) {
                times.push((now() - sent) as f64 / 1e3);
            }
            (processors(THREAD) - spent, times)
        });
        let sending = scope.spawn(move || {
            let spent = processors(THREAD);
            while start.elapsed() < it.time {
                thread::sleep(Duration::from_millis(1));
                Q::send(&mut sender, now());
            }
            processors(THREAD) - spent
        });
        let sender = sending.join().unwrap();
        let (receiver, mut times) = receiving.join().unwrap();
        let items = times.len() as f64;
        vec![
            percentile(&mut times, 0.5),
            percentile(&mut times, 0.99),
            receiver / 1e3 / items,
            sender / 1e3 / items,
        ]
    })
}

/// Receivers that wait, and nothing is sent: the processors' nanoseconds for each of them in a microsecond.
fn idle<Q: Queue>(it: &Burst) -> Vec<f64> {
    let (senders, receivers) = it.open::<Q>();
    thread::scope(|scope| {
        for mut receiver in receivers {
            scope.spawn(move || Q::recv(&mut receiver));
        }
        thread::sleep(Duration::from_millis(50));
        let (clock, spent) = (Instant::now(), processors(PROCESS));
        thread::sleep(it.time);
        let (clock, spent) = (
            clock.elapsed().as_nanos() as f64,
            processors(PROCESS) - spent,
        );
        drop(senders);
        vec![spent / clock * 1e3 / it.receivers as f64]
    })
}

/// Short bursts of pinned threads.
fn pinned<Q: Queue>(it: &Burst) -> Vec<f64> {
    let (senders, receivers) = it.open::<Q>();
    pinned::pinned::<Q>(senders, receivers, it.capacity / 2, it.time)
}

fn burst<Q: Queue>(mode: &str, it: &Burst) -> Vec<f64> {
    match mode {
        "pass" => pass::<Q>(it),
        "alone" => alone::<Q>(it),
        "full" => full::<Q>(it),
        "swell" => swell::<Q>(it),
        "calls" => calls::<Q>(it),
        "tail" => tail::<Q>(it),
        "sliced" => sliced::<Q>(it),
        "paced" => paced::<Q>(it),
        "idle" => idle::<Q>(it),
        "pinned" => pinned::<Q>(it),
        _ => panic!("no mode {mode}"),
    }
}

fn main() {
    let words: Vec<String> = std::env::args().skip(1).collect();
    let [mode, queue, numbers @ ..] = &words[..] else {
        panic!("peers MODE QUEUE and five numbers")
    };
    let numbers: Vec<usize> = numbers
        .iter()
        .map(|word| word.parse().expect("a number"))
        .collect();
    let &[senders, receivers, capacity, bound, time] = &numbers[..] else {
        panic!("five numbers")
    };
    let it = &Burst {
        senders,
        receivers,
        capacity,
        bound: bound as u32,
        time: Duration::from_millis(time as u64),
    };
    let told = match queue.as_str() {
        "words" => burst::<Words>(mode, it),
        "C" => burst::<c_queue::C>(mode, it),
        "typed" => burst::<Typed>(mode, it),
        "steps" => burst::<steps::ByHand>(mode, it),
        #[cfg(feature = "crossbeam-channel")]
        "crossbeam-channel" => burst::<Crossbeam>(mode, it),
        #[cfg(feature = "crossbeam-queue")]
        "crossbeam-queue" => burst::<polled::Array>(mode, it),
        #[cfg(feature = "crossbeam-queue")]
        "SegQueue" => burst::<polled::Seg>(mode, it),
        #[cfg(feature = "flume")]
        "flume" => burst::<Flume>(mode, it),
        #[cfg(feature = "async-channel")]
        "async-channel" => burst::<Async>(mode, it),
        #[cfg(feature = "concurrent-queue")]
        "concurrent-queue" => burst::<polled::Concurrent>(mode, it),
        "sync_channel" => burst::<Std>(mode, it),
        "Mutex+Condvar" => burst::<Locked>(mode, it),
        _ => panic!("no queue {queue}"),
    };
    println!(
        "{}",
        told.iter()
            .map(f64::to_string)
            .collect::<Vec<_>>()
            .join(" ")
    );
}
