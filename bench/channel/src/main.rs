//! One burst of a channel: `channel MODE QUEUE NUMBER MILLISECONDS`; `bench/channel.py` calls it, and has the
//! words for what the numbers are that each mode prints. The queue is this crate, or a peer.
#[path = "../../timed.rs"]
mod timed;

use std::collections::VecDeque;
use std::hint::black_box;
use std::pin::Pin;
use std::sync::atomic::{AtomicBool, Ordering::Relaxed};
use std::sync::{Arc, Barrier, Mutex};
use std::task::{Context, Wake, Waker};
use std::thread;
use std::time::{Duration, Instant};
use timed::{percentile, timed};

const CAPACITY: usize = 64;

/// A channel, by the calls that wait.
trait Channel {
    type Sender<T: Send + 'static>: Clone + Send + Sync + 'static;
    type Receiver<T: Send + 'static>: Clone + Send + Sync + 'static;
    fn open<T: Send + 'static>(capacity: usize) -> (Self::Sender<T>, Self::Receiver<T>);
    fn send<T: Send + 'static>(sender: &Self::Sender<T>, item: T);
    /// Whether it is sent. It doesn't wait.
    fn try_send<T: Send + 'static>(sender: &Self::Sender<T>, item: T) -> bool;
    fn recv<T: Send + 'static>(receiver: &Self::Receiver<T>) -> Option<T>;
    fn len<T: Send + 'static>(sender: &Self::Sender<T>) -> usize;
    #[cfg(feature = "select")]
    fn either<T: Send + 'static>(receivers: &[Self::Receiver<T>; 2]) -> Option<T>;
}

macro_rules! channel {
    ($name:ident, $of:ident, $open:expr) => {
        struct $name;

        impl Channel for $name {
            type Sender<T: Send + 'static> = $of::Sender<T>;
            type Receiver<T: Send + 'static> = $of::Receiver<T>;
            fn open<T: Send + 'static>(capacity: usize) -> ($of::Sender<T>, $of::Receiver<T>) {
                $open(capacity)
            }
            fn send<T: Send + 'static>(sender: &$of::Sender<T>, item: T) {
                assert!(sender.send(item).is_ok());
            }
            fn try_send<T: Send + 'static>(sender: &$of::Sender<T>, item: T) -> bool {
                sender.try_send(item).is_ok()
            }
            fn recv<T: Send + 'static>(receiver: &$of::Receiver<T>) -> Option<T> {
                receiver.recv().ok()
            }
            fn len<T: Send + 'static>(sender: &$of::Sender<T>) -> usize {
                sender.len()
            }
            #[cfg(feature = "select")]
            fn either<T: Send + 'static>([first, second]: &[$of::Receiver<T>; 2]) -> Option<T> {
                $of::select! {
                    recv(first) -> told => told.ok(),
                    recv(second) -> told => told.ok(),
                }
            }
        }
    };
}

channel!(Ours, vahepito, |capacity| vahepito::channel(capacity).unwrap());
#[cfg(feature = "crossbeam-channel")]
channel!(Crossbeam, crossbeam_channel, crossbeam_channel::bounded);

/// Nanoseconds for each call of this, for so long.
fn each(time: Duration, mut call: impl FnMut()) -> f64 {
    let (start, mut calls) = (Instant::now(), 0);
    while start.elapsed() < time {
        (0..500).for_each(|_| call());
        calls += 500;
    }
    start.elapsed().as_nanos() as f64 / f64::from(calls)
}

/// One thread sends an item of `WORDS` words and takes it.
fn alone<C: Channel, const WORDS: usize>(time: Duration) -> f64 {
    let (sender, receiver) = C::open(CAPACITY);
    each(time, || {
        C::send(&sender, [7_u64; WORDS]);
        black_box(C::recv(&receiver));
    })
}

/// Measures equal numbers of senders and receivers, each on a thread of its own, in nanoseconds an item.
fn shared<C: Channel>(each_side: usize, time: Duration) -> f64 {
    let (sender, receiver) = C::open::<u64>(CAPACITY);
    let (stop, start) = (&AtomicBool::new(false), &Barrier::new(2 * each_side + 1));
    thread::scope(|scope| {
        let receiving = (0..each_side).map(|_| {
            let receiver = receiver.clone();
            scope.spawn(move || {
                start.wait();
                let mut got = 0_u64;
                while let Some(item) = C::recv(&receiver) {
                    black_box(item);
                    got += 1;
                }
                got
            })
        });
        let receiving: Vec<_> = receiving.collect();
        for _ in 0..each_side {
            let sender = sender.clone();
            scope.spawn(move || {
                start.wait();
                while !stop.load(Relaxed) {
                    C::send(&sender, 7);
                }
            });
        }
        drop(sender);
        start.wait();
        let begin = Instant::now();
        thread::sleep(time);
        stop.store(true, Relaxed);
        let got: u64 = receiving.into_iter().map(|it| it.join().unwrap()).sum();
        begin.elapsed().as_nanos() as f64 / got as f64
    })
}

/// An item each half millisecond to a receiver that waits: the median of the nanoseconds until it has it.
fn blocked<C: Channel>(time: Duration) -> f64 {
    let (sender, receiver) = C::open::<Instant>(CAPACITY);
    let waits = thread::spawn(move || {
        let mut times = vec![];
        while let Some(sent) = C::recv(&receiver) {
            times.push(sent.elapsed().as_nanos());
        }
        times.sort();
        times[times.len() / 2] as f64
    });
    let begin = Instant::now();
    while begin.elapsed() < time {
        thread::sleep(Duration::from_micros(500));
        C::send(&sender, Instant::now());
    }
    drop(sender);
    waits.join().unwrap()
}

/// Sixteen threads send without a wait, with 0 to 10 us of other work before each call, to four that block: the time of
/// a call below which this number of ten thousand lie.
fn slowest<C: Channel>(part: usize, time: Duration) -> f64 {
    let (sender, receiver) = C::open(1024);
    let stop = &AtomicBool::new(false);
    thread::scope(|scope| {
        for _ in 0..4 {
            let receiver = receiver.clone();
            scope.spawn(move || while C::recv(&receiver).is_some_and(|item: u64| item < 16) {});
        }
        let sending = (0..16).map(|number: u64| {
            let sender = sender.clone();
            scope.spawn(move || timed(number, || (!stop.load(Relaxed)).then(|| C::try_send(&sender, number))))
        });
        let sending: Vec<_> = sending.collect();
        thread::sleep(time);
        stop.store(true, Relaxed);
        let mut times: Vec<_> = sending.into_iter().flat_map(|it| it.join().unwrap()).collect();
        (0..4).for_each(|_| C::send(&sender, 16));
        percentile(&mut times, part as f64 / 10_000.0)
    })
}

/// The same as `blocked`, of a select over two channels of this capacity, to which the items go in turn.
#[cfg(feature = "select")]
fn select<C: Channel>(capacity: usize, time: Duration) -> f64 {
    let (senders, receivers): (Vec<_>, Vec<_>) = (0..2).map(|_| C::open::<Instant>(capacity)).unzip();
    let receivers: [_; 2] = receivers.try_into().ok().expect("there are two");
    let waits = thread::spawn(move || {
        let mut times = vec![];
        while let Some(sent) = C::either(&receivers) {
            times.push(sent.elapsed().as_nanos());
        }
        times.sort();
        times[times.len() / 2] as f64
    });
    let begin = Instant::now();
    for sender in senders.iter().cycle() {
        if begin.elapsed() > time {
            break;
        }
        thread::sleep(Duration::from_micros(500));
        C::send(sender, Instant::now());
    }
    drop(senders);
    waits.join().unwrap()
}

/// Two threads send an item there and back by channels of capacity 0: nanoseconds a round.
#[cfg(feature = "select")]
fn meet<C: Channel>(time: Duration) -> f64 {
    let (there, here) = C::open::<u64>(0);
    let (back, answers) = C::open::<u64>(0);
    thread::scope(|scope| {
        scope.spawn(move || {
            while let Some(item) = C::recv(&here) {
                C::send(&back, item);
            }
        });
        let took = each(time, || {
            C::send(&there, 7);
            C::recv(&answers);
        });
        drop(there);
        took
    })
}

type Ready = Arc<Mutex<VecDeque<usize>>>;

struct Task(usize, Ready);

impl Wake for Task {
    fn wake(self: Arc<Self>) {
        self.1.lock().unwrap().push_back(self.0);
    }
}

/// Two tasks of one thread send an item there and back: nanoseconds a round.
fn tasks(time: Duration) -> f64 {
    const ROUNDS: u32 = 1000;
    let (there, here) = vahepito::channel::<u32>(1).unwrap();
    let (back, answers) = vahepito::channel::<u32>(1).unwrap();
    let ping = async move {
        loop {
            for round in 0..ROUNDS {
                there.send_async(round).await.unwrap();
                assert_eq!(answers.recv_async().await, Ok(round));
            }
            std::future::poll_fn(pause).await;
        }
    };
    let pong = async move {
        while let Ok(item) = here.recv_async().await {
            back.send_async(item).await.unwrap();
        }
    };
    let mut all: [Pin<Box<dyn Future<Output = ()>>>; 2] = [Box::pin(ping), Box::pin(pong)];
    let ready = Ready::new(Mutex::new(VecDeque::from([1, 0])));
    let wakers = [0, 1].map(|task| Waker::from(Arc::new(Task(task, ready.clone()))));
    let (begin, mut rounds) = (Instant::now(), 0);
    while begin.elapsed() < time {
        // Until the first task pauses.
        loop {
            let next = ready.lock().unwrap().pop_front().expect("a task is ready");
            let polled = all[next].as_mut().poll(&mut Context::from_waker(&wakers[next]));
            assert!(polled.is_pending());
            if PAUSED.swap(false, Relaxed) {
                break;
            }
        }
        rounds += ROUNDS;
    }
    begin.elapsed().as_nanos() as f64 / f64::from(rounds)
}

static PAUSED: AtomicBool = AtomicBool::new(false);

/// Pending once, so that the clock is looked at.
fn pause(context: &mut Context<'_>) -> std::task::Poll<()> {
    thread_local!(static HAS: std::cell::Cell<bool> = const { std::cell::Cell::new(false) });
    if HAS.replace(!HAS.get()) {
        return std::task::Poll::Ready(());
    }
    PAUSED.store(true, Relaxed);
    context.waker().wake_by_ref();
    std::task::Poll::Pending
}

fn burst<C: Channel>(mode: &str, number: usize, time: Duration) -> f64 {
    match mode {
        "alone" => match number {
            1 => alone::<C, 1>(time),
            2 => alone::<C, 2>(time),
            4 => alone::<C, 4>(time),
            _ => alone::<C, 5>(time),
        },
        "shared" => shared::<C>(number, time),
        "blocked" => blocked::<C>(time),
        "slowest" => slowest::<C>(number, time),
        #[cfg(feature = "select")]
        "select" => select::<C>(number, time),
        #[cfg(feature = "select")]
        "meet" => meet::<C>(time),
        "open" => each(time, || drop(C::open::<u64>(1))),
        "len" => {
            let (sender, _receiver) = C::open::<u64>(CAPACITY);
            each(time, || {
                black_box(C::len(black_box(&sender)));
            })
        }
        mode => panic!("no mode {mode}"),
    }
}

fn main() {
    let words: Vec<String> = std::env::args().skip(1).collect();
    let [mode, queue, number, milliseconds] = &words[..] else {
        panic!("channel MODE QUEUE NUMBER MILLISECONDS")
    };
    let number = number.parse().expect("a number");
    let time = Duration::from_millis(milliseconds.parse().expect("a number"));
    let took = match queue.as_str() {
        "vahepito" if mode == "tasks" => tasks(time),
        "vahepito" => burst::<Ours>(mode, number, time),
        #[cfg(feature = "crossbeam-channel")]
        "crossbeam" => burst::<Crossbeam>(mode, number, time),
        queue => panic!("no queue {queue}"),
    };
    println!("{took:.1}");
}
