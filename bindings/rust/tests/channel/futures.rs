//! Sends and takes as futures, polled by a loop that parks.
use crate::ends::ends;
use crate::polling::{Woken, poll};
use crate::rounds::rounds;
#[cfg(target_os = "linux")]
use crate::spent::spent;
use std::panic::{AssertUnwindSafe, catch_unwind};
use std::pin::pin;
use std::sync::Arc;
use std::task::{Context, Poll, Wake};
use std::thread;
use std::time::{Duration, Instant};
use vahepito::{RecvError, RecvFuture, SendError, SendFuture, after, channel, never, tick};

struct Unpark(thread::Thread);

impl Wake for Unpark {
    fn wake(self: Arc<Self>) {
        self.0.unpark();
    }
}

fn block_on<F: Future>(future: F) -> F::Output {
    let mut future = pin!(future);
    let waker = Arc::new(Unpark(thread::current())).into();
    let mut context = Context::from_waker(&waker);
    loop {
        match future.as_mut().poll(&mut context) {
            Poll::Ready(output) => return output,
            Poll::Pending => thread::park(),
        }
    }
}

#[test]
fn futures_of_many_threads() {
    for (senders, receivers) in [(1, 1), (3, 3)] {
        let (sender, receiver) = channel::<Box<u64>>(4).unwrap();
        let taken: u64 = thread::scope(|scope| {
            for number in 0..senders {
                let sender = sender.clone();
                scope.spawn(move || {
                    block_on(async {
                        for item in 0..1000 {
                            let sent = if item % 2 == number % 2 {
                                sender.send_async(Box::new(item)).await
                            } else {
                                sender.send(Box::new(item))
                            };
                            assert!(sent.is_ok());
                        }
                    })
                });
            }
            let taking = (0..receivers).map(|_| {
                let receiver = receiver.clone();
                scope.spawn(move || {
                    block_on(async {
                        let mut sum = 0;
                        while let Ok(item) = receiver.recv_async().await {
                            sum += *item;
                        }
                        sum
                    })
                })
            });
            let taking: Vec<_> = taking.collect();
            drop(sender);
            taking
                .into_iter()
                .map(|thread| thread.join().unwrap())
                .sum()
        });
        assert_eq!(taken, senders * 999 * 1000 / 2);
    }
}

/// An executor may wait by `thread::park` alone. So a call inside of a poll may not use up the token of its waker.
#[test]
fn a_call_that_parks_leaves_the_token_of_its_thread() {
    ends(|| {
        let (sender, receiver) = channel(1).unwrap();
        thread::current().unpark();
        let sending = thread::spawn(move || {
            thread::sleep(Duration::from_millis(50));
            sender.send(7)
        });
        assert_eq!(receiver.recv(), Ok(7));
        // Without the token it never returns.
        thread::park();
        assert!(sending.join().unwrap().is_ok());
    });
}

#[test]
fn a_take_is_woken_once_there_is_an_item() {
    let (sender, receiver) = channel(1).unwrap();
    let woken = Arc::new(Woken::default());
    let mut takes = receiver.recv_async();
    assert_eq!(poll(&mut takes, &woken), Poll::Pending);
    assert_eq!(poll(&mut takes, &woken), Poll::Pending);
    assert_eq!(woken.times(), 0);
    sender.send(5).unwrap();
    assert_eq!(woken.times(), 1);
    assert_eq!(poll(&mut takes, &woken), Poll::Ready(Ok(5)));
    assert_eq!(poll(&mut receiver.recv_async(), &woken), Poll::Pending);
    let mut takes = receiver.recv_async();
    assert_eq!(poll(&mut takes, &woken), Poll::Pending);
    drop(sender);
    assert_eq!(woken.times(), 2);
    assert_eq!(poll(&mut takes, &woken), Poll::Ready(Err(RecvError)));
    assert_eq!(format!("{takes:?}"), "RecvFuture { .. }");
}

#[test]
fn a_send_is_woken_once_there_is_room() {
    let (sender, receiver) = channel(1).unwrap();
    let woken = Arc::new(Woken::default());
    assert_eq!(poll(&mut sender.send_async(1), &woken), Poll::Ready(Ok(())));
    let mut sends = sender.send_async(2);
    assert_eq!(poll(&mut sends, &woken), Poll::Pending);
    assert_eq!(receiver.recv(), Ok(1));
    assert_eq!(woken.times(), 1);
    assert_eq!(poll(&mut sends, &woken), Poll::Ready(Ok(())));
    let mut sends = sender.send_async(3);
    assert_eq!(poll(&mut sends, &woken), Poll::Pending);
    drop(receiver);
    assert_eq!(woken.times(), 2);
    assert_eq!(poll(&mut sends, &woken), Poll::Ready(Err(SendError(3))));
}

/// A future that is dropped was never begun in the queue: it takes and sends nothing.
#[test]
fn a_future_that_is_dropped_does_nothing() {
    let (sender, receiver) = channel(1).unwrap();
    let woken = Arc::new(Woken::default());
    let mut takes = receiver.recv_async();
    assert_eq!(poll(&mut takes, &woken), Poll::Pending);
    drop(takes);
    sender.send(Arc::new(1)).unwrap();
    let item = Arc::new(2);
    let mut sends = sender.send_async(item.clone());
    assert!(poll(&mut sends, &woken).is_pending());
    drop(sends);
    assert_eq!(Arc::strong_count(&item), 1);
    assert_eq!(
        (woken.times(), receiver.recv(), receiver.len()),
        (0, Ok(Arc::new(1)), 0)
    );
}

/// A task is woken and then dropped: the next in line is woken in its place.
#[test]
fn a_task_that_is_dropped_passes_the_ring_on() {
    let (sender, receiver) = channel(4).unwrap();
    let (one, two) = (Arc::new(Woken::default()), Arc::new(Woken::default()));
    let (mut first, mut second) = (receiver.recv_async(), receiver.recv_async());
    assert!(poll(&mut first, &one).is_pending() && poll(&mut second, &two).is_pending());
    sender.send(7).unwrap();
    assert_eq!((one.times(), two.times()), (1, 0));
    drop(first);
    assert_eq!(two.times(), 1);
    assert_eq!(poll(&mut second, &two), Poll::Ready(Ok(7)));
}

/// Futures that have their handles: they go where they like, and a drop of one lets its handle go.
#[test]
fn futures_that_have_their_handles() {
    fn goes<T: Send + 'static>(it: T) -> T {
        it
    }
    let (sender, receiver) = channel(1).unwrap();
    let woken = Arc::new(Woken::default());
    let mut takes = goes(receiver.clone().into_recv_async());
    assert!(poll(&mut takes, &woken).is_pending());
    let mut sends = goes(sender.clone().into_send_async(Box::new(1)));
    assert_eq!(poll(&mut sends, &woken), Poll::Ready(Ok(())));
    assert_eq!(woken.times(), 1);
    assert_eq!(sender.sender_count(), 2);
    assert_eq!(block_on(takes), Ok(Box::new(1)));
    drop(sends);
    assert_eq!((sender.sender_count(), receiver.receiver_count()), (1, 1));
    let mut takes = receiver.into_recv_async();
    assert!(poll(&mut takes, &woken).is_pending());
    drop(takes);
    assert!(sender.is_closed());
}

/// This number of tasks waits in one line. Each is polled again, and keeps its place; then each leaves. The processor time of that.
#[cfg(target_os = "linux")]
fn polled_and_left(tasks: u64) -> Duration {
    let (sender, receiver) = channel::<u64>(1).unwrap();
    let woken = Arc::new(Woken::default());
    let mut all: Vec<_> = (0..tasks).map(|_| receiver.recv_async()).collect();
    assert!(all.iter_mut().all(|it| poll(it, &woken).is_pending()));
    let before = spent();
    assert!(all.iter_mut().rev().all(|it| poll(it, &woken).is_pending()));
    let again = spent() - before;
    sender.send(1).unwrap();
    assert_eq!(woken.times(), 1);
    // The first in line was woken, and its notification is passed on as long as tasks leave.
    let first = Arc::new(Woken::default());
    assert_eq!(poll(&mut all[0], &first), Poll::Ready(Ok(1)));
    let before = spent();
    while all.len() > 1 {
        drop(all.swap_remove(all.len() / 2));
    }
    again + (spent() - before)
}

/// A task takes as long in a line of a hundred thousand as in one of a fiftieth of that. In a line that is searched it takes fifty
/// times as long; a tenth of that is left for the caches.
#[cfg(target_os = "linux")]
#[test]
fn a_task_leaves_a_long_line_at_once() {
    const TIMES: u32 = 50;
    let few = rounds(100_000) / u64::from(TIMES);
    let short: Duration = (0..TIMES).map(|_| polled_and_left(few)).sum();
    let long = polled_and_left(few * u64::from(TIMES));
    println!("in short lines {short:?}, in a long one {long:?}");
    assert!(long < short * TIMES / 10, "{long:?}, {short:?}");
}

/// Whether a poll of this future, which is done, panics.
fn panics_if_polled<F: Future + Unpin>(future: &mut F) -> bool {
    let poll = AssertUnwindSafe(|| drop(poll(future, &Arc::default())));
    catch_unwind(poll).is_err()
}

/// A future that is done takes and sends nothing any more, at any capacity, and each further poll panics.
#[test]
fn a_future_that_is_done_panics_if_it_is_polled() {
    let woken = Arc::new(Woken::default());
    for capacity in [0, 1, 4] {
        let (sender, receiver) = channel(capacity).unwrap();
        let (mut takes, mut sends) = (receiver.recv_async(), sender.send_async(1));
        assert!(!takes.is_terminated() && !sends.is_terminated());
        if capacity == 0 {
            assert_eq!(poll(&mut sends, &woken), Poll::Pending);
            assert!(!sends.is_terminated());
        } else {
            assert_eq!(poll(&mut sends, &woken), Poll::Ready(Ok(())));
        }
        assert_eq!(poll(&mut takes, &woken), Poll::Ready(Ok(1)));
        if capacity == 0 {
            assert_eq!(poll(&mut sends, &woken), Poll::Ready(Ok(())));
        }
        assert!(takes.is_terminated() && sends.is_terminated());
        // Neither takes what is sent next, nor sends again.
        let mut second = sender.send_async(2);
        let is_sent = poll(&mut second, &woken).is_ready();
        assert_eq!(is_sent, capacity != 0);
        for _ in 0..3 {
            assert!(panics_if_polled(&mut takes) && panics_if_polled(&mut sends));
        }
        assert_eq!(receiver.try_recv(), Ok(2));
        assert!(receiver.try_recv().unwrap_err().is_empty());
        // The end, and an item that is handed back, are given once, too.
        let mut takes = receiver.recv_async();
        assert_eq!(poll(&mut takes, &woken), Poll::Pending);
        assert!(sender.close());
        let mut sends = sender.send_async(3);
        assert_eq!(poll(&mut sends, &woken), Poll::Ready(Err(SendError(3))));
        assert_eq!(poll(&mut takes, &woken), Poll::Ready(Err(RecvError)));
        assert!(takes.is_terminated() && sends.is_terminated());
        assert!(panics_if_polled(&mut takes) && panics_if_polled(&mut sends));
    }
}

/// A future of a take has the handle, or a reference, and its place in line; one of a send has the item, or its box, too.
#[test]
fn futures_are_small() {
    assert!(size_of::<RecvFuture<'static, [u64; 9]>>() <= 32);
    assert!(size_of::<SendFuture<'static, u64>>() <= 72);
    assert!(size_of::<SendFuture<'static, [u64; 9]>>() <= 72);
}

/// A thread wakes the futures of timers, each at its moment; and a close does.
#[test]
fn timers_have_futures() {
    const SOON: Duration = Duration::from_millis(10);
    let start = Instant::now();
    let (late, soon, ticks) = (after(3 * SOON), after(SOON), tick(SOON));
    let mut waits = pin!(late.recv_async());
    assert_eq!(poll(&mut waits, &Arc::default()), Poll::Pending);
    assert!(block_on(soon.recv_async()).unwrap() >= start + SOON);
    for number in 1..4 {
        let moment = block_on(ticks.recv_async()).unwrap();
        assert!(moment >= start + number * SOON && moment <= Instant::now());
    }
    assert!(block_on(waits).unwrap() >= start + 3 * SOON);
    // One whose future is dropped, one that is closed, and one that never comes.
    let (dropped, closed) = (after(SOON), after(Duration::from_secs(100)));
    assert_eq!(
        poll(&mut dropped.recv_async(), &Arc::default()),
        Poll::Pending
    );
    drop(dropped);
    thread::scope(|scope| {
        scope.spawn(|| {
            thread::sleep(SOON);
            closed.close();
        });
        assert_eq!(block_on(closed.recv_async()), Err(RecvError));
    });
    assert_eq!(
        poll(&mut never::<u8>().recv_async(), &Arc::default()),
        Poll::Pending
    );
}
