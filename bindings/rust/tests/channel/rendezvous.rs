//! Channels of capacity 0: pairs that are given up or outlast the time of a take, and tasks.
use crate::ends::ends;
use crate::polling::{Woken, poll};
use crate::rounds::rounds;
use std::panic::{AssertUnwindSafe, catch_unwind, resume_unwind};
use std::sync::Arc;
use std::sync::atomic::{AtomicBool, Ordering};
use std::sync::mpsc;
use std::task::Poll;
use std::thread;
use std::time::{Duration, Instant};
use vahepito::{
    Receiver, RecvError, Select, SendError, Sender, TryRecvError, TrySendError, channel, select,
};

const SOON: Duration = Duration::from_millis(30);
const LONG: Duration = Duration::from_secs(50);

fn open<T>(capacity: usize) -> (Sender<T>, Receiver<T>) {
    channel(capacity).unwrap()
}

/// A thread that selects a send, and has its item once this gives it; or panics then. It returns whether it sent.
fn selects_a_send(sender: &Sender<u32>) -> (thread::JoinHandle<bool>, mpsc::Sender<Option<u32>>) {
    let (sender, (gives, given)) = (sender.clone(), mpsc::channel::<Option<u32>>());
    let item = move || {
        given
            .recv()
            .unwrap()
            .unwrap_or_else(|| resume_unwind(Box::new("none")))
    };
    let selects = move || select! { send(sender, item()) -> sent => sent.is_ok() };
    let thread = thread::spawn(|| catch_unwind(AssertUnwindSafe(selects)).unwrap_or(false));
    thread::sleep(SOON);
    (thread, gives)
}

/// A select of two takes meets a send, whose item panics: it goes on with the other take.
#[test]
fn a_select_goes_on_with_its_other_arms() {
    ends(|| {
        let ((sender, receiver), (other, items)) = (open(0), open(4));
        let (selects, gives) = selects_a_send(&sender);
        let sends = thread::spawn(move || {
            thread::sleep(SOON);
            gives.send(None).unwrap();
            (0..4).for_each(|number| other.send(number).unwrap());
        });
        let told = select! {
            recv(receiver) -> _ => None,
            recv(items) -> number => number.ok(),
            default(LONG) => None,
        };
        assert_eq!(told, Some(0));
        sends.join().unwrap();
        assert!(!selects.join().unwrap());
    });
}

/// The same, without another arm that is ready: until its time is over, though the pair is given up.
#[test]
fn a_select_goes_on_with_its_time() {
    ends(|| {
        let ((sender, receiver), (_other, items)) = (open(0), open::<u32>(4));
        let (selects, gives) = selects_a_send(&sender);
        let gives_up = thread::spawn(move || {
            thread::sleep(SOON);
            gives.send(None).unwrap();
        });
        let start = Instant::now();
        let told = select! {
            recv(receiver) -> _ => "an item",
            recv(items) -> _ => "another item",
            default(4 * SOON) => "the default",
        };
        assert_eq!(told, "the default");
        assert!(start.elapsed() >= 4 * SOON);
        gives_up.join().unwrap();
        drop(receiver);
        assert!(!selects.join().unwrap());
    });
}

/// Waits until this moment is over, and some time more.
fn outwait(moment: Instant) {
    thread::sleep(moment.saturating_duration_since(Instant::now()) + SOON);
}

/// A take that has met a selected send gets its item, though that is made once the time of the take is over.
#[test]
fn a_take_that_has_met_a_send_waits_for_its_item() {
    ends(|| {
        let (sender, receiver) = open(0);
        for call in 0..4 {
            let (selects, gives) = selects_a_send(&sender);
            let mut posted = Select::new();
            posted.recv(&receiver);
            posted.ready();
            let over = Instant::now() + SOON;
            let item = thread::spawn(move || {
                outwait(over);
                gives.send(Some(call)).unwrap();
            });
            let taken = match call {
                0 => receiver.recv_deadline(over).ok(),
                1 => receiver.try_recv().ok(),
                2 => select! { recv(receiver) -> item => item.ok(), default(SOON) => None },
                _ => select! { recv(receiver) -> item => item.ok(), default => None },
            };
            assert_eq!(taken, Some(call));
            assert!(selects.join().unwrap());
            item.join().unwrap();
        }
    });
}

/// A select that has met a take ends, though the time of the take is over while the item is made. If it has met none,
/// another of its operations ends it.
#[test]
fn a_select_with_a_stop_can_be_stopped() {
    ends(|| {
        for _ in 0..rounds(20) {
            let ((sender, receiver), (stop, stopped)) = (open(0), open(1));
            let _stays = stopped.clone();
            let over = Instant::now() + SOON;
            let item = move || {
                outwait(over);
                7
            };
            let selects = thread::spawn(move || {
                select! { send(sender, item()) -> sent => sent == Ok(()), recv(stopped) -> _ => false }
            });
            let taken = receiver.recv_deadline(over);
            stop.send(()).unwrap();
            assert_eq!(selects.join().unwrap(), taken == Ok(7));
        }
    });
}

/// Items that take longer to make than takes have time: no selected send is refused, and none is lost.
#[test]
fn no_selected_send_is_refused_by_an_open_channel() {
    const TIME: Duration = Duration::from_millis(1);
    ends(|| {
        let (sender, receiver) = open(0);
        let is_over = AtomicBool::new(false);
        let (mut sent, mut refused) = ([0, 0], [0, 0]);
        let taken: u32 = thread::scope(|scope| {
            let takes = || {
                let mut taken = 0;
                while !is_over.load(Ordering::SeqCst) {
                    taken += u32::from(receiver.recv_timeout(TIME).is_ok());
                    thread::sleep(4 * TIME);
                }
                taken
            };
            let takes = [(); 2].map(|()| scope.spawn(takes));
            let item = |item| {
                thread::sleep(3 * TIME);
                item
            };
            for number in 0..rounds(300) {
                let told = select! {
                    send(sender, item(number)) -> sent => Some(sent.is_ok()),
                    default(20 * TIME) => None,
                };
                sent[0] += u32::from(told == Some(true));
                refused[0] += u32::from(told == Some(false));
                let mut select = Select::new();
                select.send(&sender);
                let operation = loop {
                    match select.try_select() {
                        Ok(operation) => break operation,
                        Err(_) => thread::yield_now(),
                    }
                };
                let told = operation.send(&sender, item(number));
                sent[1] += u32::from(told.is_ok());
                refused[1] += u32::from(told.is_err());
            }
            is_over.store(true, Ordering::SeqCst);
            takes.into_iter().map(|it| it.join().unwrap()).sum()
        });
        assert_eq!(refused, [0, 0], "by `select!`, and by `Select`");
        assert_eq!(taken, sent[0] + sent[1]);
    });
}

/// The take of a task that is dropped before its selected send has an item: the item goes to the take that waits, or to
/// the next one; or it is handed back, if the channel is closed by then.
#[test]
fn the_pair_of_a_dropped_task_is_for_the_next_take() {
    let woken = Arc::new(Woken::default());
    let (sender, receiver) = open(0);
    let mut select = Select::new();
    select.send(&sender);
    let mut met = || {
        let mut take = receiver.recv_async();
        assert!(poll(&mut take, &woken).is_pending());
        select.try_select().unwrap()
    };
    let operation = met();
    let mut waits = receiver.recv_async();
    assert!(poll(&mut waits, &woken).is_pending());
    assert_eq!(operation.send(&sender, 1), Ok(()));
    assert_eq!(poll(&mut waits, &woken), Poll::Ready(Ok(1)));
    let operation = met();
    assert_eq!(receiver.try_recv(), Err(TryRecvError::Empty));
    assert_eq!(operation.send(&sender, 2), Ok(()));
    assert_eq!(receiver.try_recv(), Ok(2));
    drop(met());
    assert_eq!(receiver.try_recv(), Err(TryRecvError::Empty));
    let operation = met();
    assert!(sender.close());
    assert_eq!(operation.send(&sender, 3), Err(SendError(3)));
    assert_eq!(receiver.recv(), Err(RecvError));
}

/// A pair that was made before a close is completed after it.
#[test]
fn a_close_leaves_a_pair() {
    ends(|| {
        let (sender, receiver) = open(0);
        let takes = thread::spawn(move || receiver.recv());
        let mut select = Select::new();
        select.send(&sender);
        let operation = select.select();
        assert!(sender.close());
        assert_eq!(operation.send(&sender, 1), Ok(()));
        assert_eq!(takes.join().unwrap(), Ok(1));
    });
}

/// No poll waits for a partner that has no item yet.
#[test]
fn a_poll_waits_for_nothing() {
    ends(|| {
        let (sender, receiver) = open(0);
        let woken = Arc::new(Woken::default());
        for item in [Some(7), None] {
            let (selects, gives) = selects_a_send(&sender);
            let mut take = receiver.recv_async();
            assert!(poll(&mut take, &woken).is_pending());
            assert!(poll(&mut take, &woken).is_pending());
            let before = woken.times();
            gives.send(item).unwrap();
            assert_eq!(selects.join().unwrap(), item.is_some());
            assert_eq!(woken.times(), before + 1);
            match item {
                Some(item) => assert_eq!(poll(&mut take, &woken), Poll::Ready(Ok(item))),
                None => assert!(poll(&mut take, &woken).is_pending()),
            }
        }
    });
}

/// Calls that don't wait meet tasks that do.
#[test]
fn tries_meet_tasks() {
    let (sender, receiver) = open(0);
    let woken = Arc::new(Woken::default());
    let mut take = receiver.recv_async();
    assert_eq!(sender.try_send(1), Err(TrySendError::Full(1)));
    assert!(poll(&mut take, &woken).is_pending());
    assert_eq!(sender.try_send(1), Ok(()));
    assert_eq!(sender.try_send(2), Err(TrySendError::Full(2)));
    assert_eq!(woken.times(), 1);
    assert_eq!(poll(&mut take, &woken), Poll::Ready(Ok(1)));
    assert!(take.is_terminated());
    let mut send = sender.send_async(3);
    assert!(poll(&mut send, &woken).is_pending());
    assert_eq!(receiver.try_recv(), Ok(3));
    assert_eq!(receiver.try_recv(), Err(TryRecvError::Empty));
    assert_eq!(woken.times(), 2);
    assert_eq!(poll(&mut send, &woken), Poll::Ready(Ok(())));
}

/// A task that was given an item is dropped: the item goes to the next one, or to the next take, also after a close.
#[test]
fn an_item_of_a_dropped_task_is_not_lost() {
    let (sender, receiver) = open(0);
    let woken = Arc::new(Woken::default());
    let (mut one, mut two) = (receiver.recv_async(), receiver.recv_async());
    assert!(poll(&mut one, &woken).is_pending() && poll(&mut two, &woken).is_pending());
    assert_eq!(sender.try_send(1), Ok(()));
    drop(one);
    assert_eq!(woken.times(), 2);
    assert_eq!(poll(&mut two, &woken), Poll::Ready(Ok(1)));
    let mut three = receiver.recv_async();
    assert!(poll(&mut three, &woken).is_pending());
    assert_eq!(sender.send(2), Ok(()));
    drop(three);
    let mut select = Select::new();
    select.recv(&receiver);
    assert_eq!(select.try_ready(), Ok(0));
    drop(sender);
    assert_eq!(receiver.try_recv(), Ok(2));
    assert_eq!(receiver.recv(), Err(RecvError));
    // The last receiver drops it.
    let (sender, receiver) = open(0);
    let item = Arc::new(());
    let mut four = receiver.recv_async();
    assert!(poll(&mut four, &woken).is_pending());
    assert_eq!(sender.try_send(item.clone()), Ok(()));
    drop(four);
    assert_eq!(Arc::strong_count(&item), 2);
    drop(receiver);
    assert_eq!(Arc::strong_count(&item), 1);
}

/// A close reaches a task by the waker of its last poll.
#[test]
fn a_close_wakes_tasks() {
    let (sender, receiver) = open::<u32>(0);
    let (first, last) = (Arc::new(Woken::default()), Arc::new(Woken::default()));
    let mut take = receiver.recv_async();
    assert!(poll(&mut take, &first).is_pending() && poll(&mut take, &last).is_pending());
    sender.close();
    assert_eq!((first.times(), last.times()), (0, 1));
    assert_eq!(poll(&mut take, &last), Poll::Ready(Err(RecvError)));
    assert!(take.is_terminated());
}

/// Tasks that are dropped at random moments, threads, and selects: each item that is sent is taken once.
#[test]
fn every_item_is_taken_once() {
    let items = rounds(3000);
    ends(move || {
        let (sender, receiver) = open(0);
        let mut taken = thread::scope(|scope| {
            for first in 0..3 {
                let sender = sender.clone();
                scope.spawn(move || {
                    let mut number = first;
                    while number < items {
                        let sent = match number % 5 {
                            0 => sender.try_send(number).is_ok(),
                            1 => select! {
                                send(sender, number) -> sent => sent.is_ok(),
                                default(Duration::from_micros(50)) => false,
                            },
                            2 => sender
                                .send_timeout(number, Duration::from_micros(50))
                                .is_ok(),
                            _ => sender.send(number).is_ok(),
                        };
                        number += if sent { 3 } else { 0 };
                    }
                });
            }
            drop(sender);
            let taking: Vec<_> = (0..3)
                .map(|thread| {
                    let (receiver, woken) = (receiver.clone(), Arc::new(Woken::default()));
                    scope.spawn(move || {
                        let mut all = vec![];
                        while !receiver.is_closed()
                            || receiver.recv().is_ok_and(|it| {
                                all.push(it);
                                true
                            })
                        {
                            let mut take = receiver.recv_async();
                            let taken = match thread {
                                0 => receiver.recv_timeout(Duration::from_micros(50)).ok(),
                                1 => receiver.try_recv().ok(),
                                _ => {
                                    let mut polls = (0..3).map(|_| poll(&mut take, &woken));
                                    let done = polls.find_map(|polled| match polled {
                                        Poll::Ready(item) => Some(item.ok()),
                                        Poll::Pending => {
                                            thread::yield_now();
                                            None
                                        }
                                    });
                                    done.flatten()
                                }
                            };
                            all.extend(taken);
                        }
                        all
                    })
                })
                .collect();
            drop(receiver);
            let taken = taking.into_iter().flat_map(|it| it.join().unwrap());
            taken.collect::<Vec<_>>()
        });
        taken.sort_unstable();
        assert!(taken.into_iter().eq(0..items));
    });
}
