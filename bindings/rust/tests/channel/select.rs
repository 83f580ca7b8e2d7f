//! Selects over several channels, channels of capacity 0, and timers.
use crate::parking::parked;
use crate::rounds::rounds;
use std::collections::HashSet;
use std::pin::pin;
use std::sync::Arc;
use std::sync::atomic::{AtomicUsize, Ordering};
use std::task::{Context, Poll, Wake, Waker};
use std::thread;
use std::time::{Duration, Instant};
use vahepito::{
    Receiver, RecvError, RecvTimeoutError, Select, SelectTimeoutError, SendError, SendTimeoutError,
    Sender, TryRecvError, TrySelectError, TrySendError, after, channel, groups, never, select,
    select_biased, tick,
};

const SOON: Duration = Duration::from_millis(20);
const LONG: Duration = Duration::from_secs(60);

fn open<T>(capacity: usize) -> (Sender<T>, Receiver<T>) {
    channel(capacity).unwrap()
}

/// Does this on a thread of its own, until it waits.
fn waits<R: Send + 'static>(what: impl FnOnce() -> R + Send + 'static) -> thread::JoinHandle<R> {
    let thread = thread::spawn(what);
    thread::sleep(SOON);
    assert!(!thread.is_finished(), "it doesn't wait");
    thread
}

/// Tries this until it is done, which is so once another thread waits: at most a minute's worth of tries.
fn soon<R>(attempt: impl Fn() -> Option<R>) -> R {
    let tries = (0..60_000).find_map(|_| {
        thread::sleep(Duration::from_millis(1));
        attempt()
    });
    tries.unwrap()
}

#[test]
fn a_select_makes_the_operation_that_is_ready() {
    let (numbers, words) = (open::<u32>(1), open::<String>(1));
    assert_eq!(Select::new().try_select().unwrap_err(), TrySelectError);
    words.0.send("hello".to_string()).unwrap();
    let told = select! {
        recv(numbers.1) -> number => number.unwrap().to_string(),
        recv(words.1) -> word => word.unwrap(),
    };
    assert_eq!(told, "hello");
    let told = select! {
        recv(numbers.1) -> _ => "a number",
        recv(&words.1) -> _ => "a word",
        default => "nothing",
    };
    assert_eq!(told, "nothing");
    let item = "moved if it is sent".to_string();
    let left = select! {
        send(words.0, item) -> sent => sent.map(|()| None).unwrap(),
        recv(numbers.1) -> _ => Some(item),
    };
    assert_eq!((left, words.1.len()), (None, 1));
    let start = Instant::now();
    let told = select! {
        send(words.0, String::new()) -> _ => true,
        recv(numbers.1) -> _ => true,
        default(SOON) => false,
    };
    assert!(!told && start.elapsed() >= SOON);
}

#[test]
fn a_closed_channel_is_ready() {
    let (sender, receiver) = open::<u32>(1);
    let (open, other) = open::<u32>(1);
    sender.send(7).unwrap();
    drop(sender);
    for left in [Ok(7), Err(RecvError)] {
        let told = select! { recv(receiver) -> told => told, recv(other) -> told => told };
        assert_eq!(told, left);
    }
    drop(other);
    let told = select! { send(open, 8) -> told => told };
    assert_eq!(told, Err(SendError(8)));
}

#[test]
fn a_select_that_waits_is_woken_by_any_channel() {
    for which in 0..3 {
        let (sends, takes): (Vec<_>, Vec<_>) = (0..2).map(|_| open::<u32>(1)).unzip();
        let (full, room) = open::<u32>(1);
        full.send(0).unwrap();
        let woken = waits({
            let (takes, full) = (takes.clone(), full.clone());
            move || {
                select! {
                    recv(takes[0]) -> number => number.unwrap(),
                    recv(takes[1]) -> number => number.unwrap(),
                    send(full, 9) -> sent => { sent.unwrap(); 100 }
                }
            }
        });
        match which {
            2 => assert_eq!(room.recv(), Ok(0)),
            _ => sends[which].send(which as u32).unwrap(),
        }
        assert_eq!(woken.join().unwrap(), [0, 1, 100][which]);
        assert_eq!(room.try_recv().ok(), [Some(0), Some(0), Some(9)][which]);
    }
}

/// Of several that are ready, one is made at random; a biased select takes the first.
#[test]
fn a_select_is_fair() {
    let channels: Vec<_> = (0..3).map(|_| open::<()>(1)).collect();
    let mut made = [[0; 3]; 2];
    for biased in [false, true] {
        for _ in 0..3000 {
            let mut select = if biased {
                Select::new_biased()
            } else {
                Select::new()
            };
            for (sender, receiver) in &channels {
                let _ = sender.try_send(());
                select.recv(receiver);
            }
            let operation = select.select();
            made[usize::from(biased)][operation.index()] += 1;
            let receiver = &channels[operation.index()].1;
            operation.recv(receiver).unwrap();
        }
    }
    assert!(made[0].iter().all(|&it| it > 500), "{made:?}");
    assert_eq!(made[1], [3000, 0, 0]);
    let first = select_biased! { recv(channels[1].1) -> _ => 1, recv(channels[2].1) -> _ => 2 };
    assert_eq!(first, 1);
}

#[test]
fn operations_are_removed_by_their_indices() {
    let (first, second) = (open(1), open(1));
    let mut select = Select::new();
    let indices = [
        select.recv(&first.1),
        select.send(&second.0),
        select.recv(&second.1),
    ];
    assert_eq!(indices, [0, 1, 2]);
    select.remove(1);
    first.0.send(1).unwrap();
    second.0.send(2).unwrap();
    let all: HashSet<usize> = (0..2)
        .map(|_| {
            let operation = select.select();
            let index = operation.index();
            let receiver = [&first.1, &first.1, &second.1][index];
            assert_eq!(operation.recv(receiver), Ok(1 + index / 2));
            index
        })
        .collect();
    assert_eq!(all, HashSet::from([0, 2]));
}

#[test]
#[should_panic = "the select has an operation with this index"]
fn an_index_is_removed_once() {
    let (_sender, receiver) = open::<()>(1);
    let mut select = Select::new();
    select.recv(&receiver);
    select.remove(0);
    select.remove(0);
}

#[test]
#[should_panic = "another handle was selected"]
fn an_operation_is_completed_by_its_own_handle() {
    let (_sender, receiver) = open::<()>(1);
    let other = receiver.clone();
    drop(_sender);
    let mut select = Select::new();
    select.recv(&receiver);
    let _ = select.select().recv(&other);
}

/// The room of a selected send is nobody else's, and comes back if nothing is sent.
#[test]
fn a_selected_send_has_its_room() {
    let (sender, receiver) = open(2);
    let mut select = Select::new();
    select.send(&sender);
    let operation = select.select();
    assert_eq!(sender.try_send(1), Ok(()));
    assert_eq!(sender.try_send(2), Err(TrySendError::Full(2)));
    assert_eq!(select.try_select().unwrap_err(), TrySelectError);
    assert_eq!(select.ready_timeout(SOON).ok(), None);
    operation.send(&sender, 3).unwrap();
    assert!(receiver.try_iter().eq([1, 3]));
    // A send that waits for room gets that of an operation that is dropped.
    let (first, second) = (select.select(), select.select());
    let waiting = waits({
        let sender = sender.clone();
        move || sender.send(4)
    });
    drop(first);
    waiting.join().unwrap().unwrap();
    second.send(&sender, 5).unwrap();
    assert!(receiver.try_iter().eq([4, 5]));
    // A close hands the item back.
    let operation = select.select();
    receiver.close();
    assert_eq!(operation.send(&sender, 6), Err(SendError(6)));
}

#[test]
fn a_selected_take_has_its_item() {
    let (sender, receiver) = open(2);
    let counted = Arc::new(());
    sender.send(counted.clone()).unwrap();
    let mut select = Select::new();
    select.recv(&receiver);
    let operation = select.select();
    assert_eq!(receiver.try_recv(), Err(TryRecvError::Empty));
    assert_eq!(Arc::strong_count(&counted), 2);
    drop(operation);
    assert_eq!(Arc::strong_count(&counted), 1);
    sender.send(counted.clone()).unwrap();
    select! { recv(receiver) -> _ => {} }
    assert_eq!(Arc::strong_count(&counted), 1);
    sender.send(counted.clone()).unwrap();
    let last = select.select();
    drop(sender);
    drop(last);
    assert_eq!(Arc::strong_count(&counted), 1);
}

/// One that waits until an operation is ready takes nothing, and keeps nobody's notification.
#[test]
fn ready_leaves_the_item_to_others() {
    let (sender, receiver) = open::<u32>(1);
    let looks: Vec<_> = (0..2)
        .map(|_| {
            let receiver = receiver.clone();
            waits(move || {
                let mut select = Select::new();
                select.recv(&receiver);
                select.ready()
            })
        })
        .collect();
    let takes = waits({
        let receiver = receiver.clone();
        move || receiver.recv()
    });
    sender.send(7).unwrap();
    assert_eq!(takes.join().unwrap(), Ok(7));
    // The item may be gone before they look: then they wait on.
    sender.send(8).unwrap();
    assert!(looks.into_iter().all(|it| it.join().unwrap() == 0));
    assert_eq!(receiver.try_recv(), Ok(8));
    let mut select = Select::new();
    select.recv(&receiver);
    assert!(select.try_ready().is_err());
    let room = select.send(&sender);
    assert_eq!(select.try_ready(), Ok(room));
}

#[test]
fn groups_are_selected_from() {
    let (sender, receivers) = groups::<u32>(2, 2).unwrap();
    sender.send(1).unwrap();
    sender.send(2).unwrap();
    let mut taken = [vec![], vec![]];
    for _ in 0..4 {
        select! {
            recv(receivers[0]) -> number => taken[0].push(number.unwrap()),
            recv(receivers[1]) -> number => taken[1].push(number.unwrap()),
        }
    }
    assert_eq!(taken, [[1, 2], [1, 2]]);
}

/// Each item is taken once, by selects and by others, from channels of these capacities.
fn everything_is_taken_once(capacities: [usize; 3], items: u64) {
    let (sends, takes): (Vec<_>, Vec<_>) = capacities.into_iter().map(open::<u64>).unzip();
    let taken = thread::scope(|scope| {
        for thread in 0..2 {
            let sends = sends.clone();
            scope.spawn(move || {
                for number in (thread..2 * items).step_by(2) {
                    select! {
                        send(sends[0], number) -> sent => sent.unwrap(),
                        send(sends[1], number) -> sent => sent.unwrap(),
                        send(sends[2], number) -> sent => sent.unwrap(),
                    }
                }
            });
        }
        let plain = sends[0].clone();
        scope.spawn(move || (2 * items..3 * items).for_each(|it| plain.send(it).unwrap()));
        drop(sends);
        let taking: Vec<_> = (0..3)
            .map(|thread| {
                let takes = takes.clone();
                scope.spawn(move || match thread {
                    0 => takes[0].iter().collect::<Vec<_>>(),
                    _ => {
                        let (mut all, mut select) = (vec![], Select::new());
                        takes.iter().for_each(|it| {
                            select.recv(it);
                        });
                        for _ in 0..takes.len() {
                            loop {
                                let operation = select.select();
                                let index = operation.index();
                                match operation.recv(&takes[index]) {
                                    Ok(number) => all.push(number),
                                    Err(RecvError) => break select.remove(index),
                                }
                            }
                        }
                        all
                    }
                })
            })
            .collect();
        let taken = taking.into_iter().map(|it| it.join().unwrap());
        taken.collect::<Vec<_>>()
    });
    let mut all = taken.concat();
    all.sort_unstable();
    assert!(all.into_iter().eq(0..3 * items));
}

#[test]
fn nothing_is_lost_or_taken_twice() {
    everything_is_taken_once([1, 1, 1], rounds(3000));
    everything_is_taken_once([1, 3, 64], rounds(3000));
    everything_is_taken_once([0, 1, 0], rounds(3000));
    everything_is_taken_once([0, 0, 0], rounds(3000));
}

#[test]
fn a_rendezvous_ends_with_the_take() {
    let (sender, receiver) = open::<u32>(0);
    assert_eq!(
        (sender.capacity(), sender.len(), sender.is_full()),
        (Some(0), 0, true)
    );
    assert_eq!(sender.try_send(1), Err(TrySendError::Full(1)));
    assert_eq!(receiver.try_recv(), Err(TryRecvError::Empty));
    let told = sender.send_timeout(2, SOON);
    assert_eq!(told, Err(SendTimeoutError::Timeout(2)));
    let told = receiver.recv_timeout(SOON);
    assert_eq!(told, Err(RecvTimeoutError::Timeout));
    let sends = waits({
        let sender = sender.clone();
        move || sender.send(3)
    });
    assert_eq!(soon(|| receiver.try_recv().ok()), 3);
    sends.join().unwrap().unwrap();
    let takes = waits({
        let receiver = receiver.clone();
        move || receiver.recv()
    });
    soon(|| sender.try_send(4).ok());
    assert_eq!(takes.join().unwrap(), Ok(4));
}

#[test]
fn a_close_ends_a_rendezvous() {
    let (sender, receiver) = open::<u32>(0);
    let sends = waits({
        let sender = sender.clone();
        move || sender.send(1)
    });
    let selects = waits({
        let sender = sender.clone();
        move || select! { send(sender, 2) -> sent => sent }
    });
    assert!(receiver.close() && !sender.close());
    assert_eq!(sends.join().unwrap(), Err(SendError(1)));
    assert_eq!(selects.join().unwrap(), Err(SendError(2)));
    assert_eq!(receiver.recv(), Err(RecvError));
    let (sender, receiver) = open::<u32>(0);
    let takes = waits(move || receiver.recv());
    drop(sender);
    assert_eq!(takes.join().unwrap(), Err(RecvError));
}

/// Two selects meet by one of their channels; one alone doesn't meet itself.
#[test]
fn selects_meet() {
    for _ in 0..rounds(300) {
        let (there, back) = (open::<u32>(0), open::<u32>(0));
        let other = {
            let (there, back) = (there.clone(), back.clone());
            thread::spawn(move || {
                select! { recv(there.1) -> told => told.unwrap(), send(back.0, 2) -> _ => 10 }
            })
        };
        let told = select! { send(there.0, 1) -> _ => 20, recv(back.1) -> told => told.unwrap() };
        let other = other.join().unwrap();
        assert!(
            (told, other) == (20, 1) || (told, other) == (2, 10),
            "{told} {other}"
        );
    }
    let (sender, receiver) = open::<u32>(0);
    let mut select = Select::new();
    select.send(&sender);
    select.recv(&receiver);
    assert_eq!(select.select_timeout(SOON).unwrap_err(), SelectTimeoutError);
    assert!(select.try_select().is_err());
}

/// If a pair is given up, the other one waits for a further one.
#[test]
fn a_pair_that_is_given_up_is_met_again() {
    let (sender, receiver) = open::<u32>(0);
    let takes = waits({
        let receiver = receiver.clone();
        move || receiver.recv()
    });
    let mut select = Select::new();
    select.send(&sender);
    drop(select.select());
    sender.send(1).unwrap();
    assert_eq!(takes.join().unwrap(), Ok(1));
    let sends = waits({
        let sender = sender.clone();
        move || select! { send(sender, 2) -> sent => sent.unwrap() }
    });
    let mut select = Select::new();
    select.recv(&receiver);
    let operation = select.select();
    // It met a select, which waits for nobody now: its item is this operation's.
    sends.join().unwrap();
    assert_eq!(operation.recv(&receiver), Ok(2));
}

#[derive(Default)]
struct Woken(AtomicUsize);

impl Wake for Woken {
    fn wake(self: Arc<Self>) {
        self.0.fetch_add(1, Ordering::SeqCst);
    }
}

fn poll<F: Future + Unpin>(future: &mut F, woken: &Arc<Woken>) -> Poll<F::Output> {
    let waker = Waker::from(woken.clone());
    pin!(future).poll(&mut Context::from_waker(&waker))
}

#[test]
fn futures_meet() {
    let (sender, receiver) = open::<u32>(0);
    let (sends, takes) = (Arc::new(Woken::default()), Arc::new(Woken::default()));
    let times = |woken: &Arc<Woken>| woken.0.load(Ordering::SeqCst);
    let mut take = receiver.recv_async();
    assert_eq!(poll(&mut take, &takes), Poll::Pending);
    let mut send = sender.send_async(1);
    assert_eq!(poll(&mut send, &sends), Poll::Ready(Ok(())));
    assert_eq!((times(&takes), times(&sends)), (1, 0));
    assert_eq!(poll(&mut take, &takes), Poll::Ready(Ok(1)));
    let mut send = sender.send_async(1);
    assert_eq!(poll(&mut send, &sends), Poll::Pending);
    let mut take = receiver.recv_async();
    assert_eq!(poll(&mut take, &takes), Poll::Ready(Ok(1)));
    assert_eq!((times(&takes), times(&sends)), (1, 1));
    assert_eq!(poll(&mut send, &sends), Poll::Ready(Ok(())));
    // One that is dropped takes its item with it.
    let mut send = sender.send_async(2);
    assert_eq!(poll(&mut send, &sends), Poll::Pending);
    drop(send);
    assert_eq!(receiver.try_recv(), Err(TryRecvError::Empty));
    // A thread takes from a task, and gives to one.
    let mut send = sender.send_async(3);
    assert_eq!(poll(&mut send, &sends), Poll::Pending);
    assert_eq!(receiver.recv(), Ok(3));
    assert_eq!(poll(&mut send, &sends), Poll::Ready(Ok(())));
    let mut take = receiver.recv_async();
    assert_eq!(poll(&mut take, &takes), Poll::Pending);
    assert_eq!(poll(&mut take, &takes), Poll::Pending);
    sender.send(4).unwrap();
    assert_eq!(poll(&mut take, &takes), Poll::Ready(Ok(4)));
    assert!(take.is_terminated());
    let mut send = sender.send_async(5);
    assert_eq!(poll(&mut send, &sends), Poll::Pending);
    let before = times(&sends);
    receiver.close();
    assert_eq!(times(&sends), before + 1);
    assert_eq!(poll(&mut send, &sends), Poll::Ready(Err(SendError(5))));
}

#[test]
fn timers_have_their_moments() {
    let start = Instant::now();
    let (once, ticks, none) = (after(SOON), tick(SOON), never::<u32>());
    let late = after(LONG);
    assert_eq!(late.try_recv(), Err(TryRecvError::Empty));
    let capacities = (once.capacity(), none.capacity());
    assert_eq!((late.len(), capacities), (0, (Some(1), Some(0))));
    assert!(once.recv().unwrap() >= start + SOON);
    assert!(start.elapsed() >= SOON);
    let told = once.recv_timeout(SOON);
    assert_eq!(told, Err(RecvTimeoutError::Timeout));
    assert_eq!(ticks.len(), 1);
    let all: Vec<Instant> = (0..3).map(|_| ticks.recv().unwrap()).collect();
    assert!(all[0] >= start + SOON && all.windows(2).all(|it| it[1] >= it[0] + SOON));
    assert!(all[2] <= Instant::now());
    assert_eq!(none.recv_timeout(SOON), Err(RecvTimeoutError::Timeout));
    // Of two that wait for one tick, one gets it.
    let both = after(SOON);
    let got = thread::scope(|scope| {
        let takes = [(); 2].map(|()| scope.spawn(|| both.recv_timeout(5 * SOON).is_ok()));
        takes.map(|it| it.join().unwrap())
    });
    assert_eq!(got.into_iter().filter(|got| *got).count(), 1);
    assert!(after(Duration::MAX).try_recv().is_err());
    let nothing = poll(&mut none.recv_async(), &Arc::default());
    assert_eq!(nothing, Poll::Pending);
    let start = Instant::now();
    select! {
        recv(never::<()>()) -> _ => unreachable!("it has none"),
        recv(after(LONG)) -> _ => unreachable!("it is too early"),
        recv(after(SOON)) -> moment => assert!(moment.unwrap() >= start + SOON),
    }
    let mut select = Select::new();
    select.recv(&none);
    select.recv(&late);
    assert!(select.try_ready().is_err());
    let once = after(SOON);
    select.recv(&once);
    assert_eq!(select.ready(), 2);
    assert!(once.try_recv().is_ok());
}

/// A select that waits costs no processor time.
#[test]
fn a_select_that_waits_is_parked() {
    let (channels, full) = ([open::<u32>(1), open(0)], open::<u32>(1));
    full.0.send(0).unwrap();
    let waits = || {
        select! {
            recv(channels[0].1) -> told => told,
            recv(channels[1].1) -> told => told,
            send(full.0, 1) -> _ => Ok(0),
            recv(after(LONG)) -> _ => Ok(0),
        }
    };
    let told = parked(waits, || channels[1].0.send(5).unwrap());
    assert_eq!(told, [Ok(5); 2]);
}

/// A select goes to other threads, and many threads share and clone one.
#[test]
fn a_select_goes_where_it_likes() {
    fn goes<T: Send + Sync>(it: T) -> T {
        it
    }
    for capacity in [0, 1, 4] {
        // Items that aren't `Sync`.
        let (sender, receiver) = open::<std::cell::Cell<u64>>(capacity);
        let mut shared = goes(Select::new());
        let (take, send) = (shared.recv(&receiver), shared.send(&sender));
        let (done, count) = (AtomicUsize::new(0), 10 * rounds(100) as usize);
        let sums = thread::scope(|scope| {
            let all = [1; 8].map(|number| {
                let (shared, done, sender, receiver) = (&shared, &done, &sender, &receiver);
                scope.spawn(move || {
                    let (mut select, mut sent, mut taken) = (shared.clone(), 0, 0);
                    loop {
                        let operation = select.select();
                        if operation.index() == take {
                            let Ok(item) = operation.recv(receiver) else {
                                return (sent, taken);
                            };
                            taken += item.get();
                        } else {
                            assert_eq!(operation.index(), send);
                            if operation.send(sender, number.into()).is_err() {
                                return (sent, taken);
                            }
                            sent += number;
                        }
                        if done.fetch_add(1, Ordering::SeqCst) == count {
                            sender.close();
                        }
                    }
                })
            });
            all.map(|it| it.join().unwrap())
        });
        let sent: u64 = sums.iter().map(|it| it.0).sum();
        let taken: u64 = sums.iter().map(|it| it.1).sum();
        let left: u64 = receiver.try_iter().map(|it| it.get()).sum();
        assert_eq!(sent, taken + left, "capacity {capacity}");
    }
}

/// The macros take items that stay on their thread.
#[test]
fn items_of_one_thread_are_selected() {
    let (sender, receiver) = open(1);
    select! {
        send(sender, std::rc::Rc::new(7)) -> sent => sent.unwrap(),
        recv(receiver) -> _ => unreachable!("there is none"),
    }
    let told = select_biased! {
        recv(receiver) -> item => *item.unwrap(),
        default => 0,
    };
    assert_eq!(told, 7);
}

/// A timer that is closed keeps the item that is due, and has none after that.
#[test]
fn a_closed_timer_gives_what_was_due() {
    let moment = Instant::now();
    for (timer, gives) in [
        (vahepito::at(moment), true),
        (tick(Duration::from_nanos(1)), true),
        (after(LONG), false),
        (tick(LONG), false),
    ] {
        thread::sleep(Duration::from_millis(1));
        assert!(timer.close() && timer.is_closed());
        assert_eq!((timer.len(), timer.is_empty()), (gives.into(), !gives));
        assert_eq!(timer.try_recv().is_ok(), gives);
        assert_eq!((timer.len(), timer.drain().len()), (0, 0));
        assert_eq!(timer.recv(), Err(RecvError));
        assert!(!timer.close());
    }
}

/// Owns its receivers, and changes itself in the arms of a select over them.
struct Actor {
    numbers: Receiver<u32>,
    stop: Receiver<()>,
    seen: u32,
}

impl Actor {
    fn add(&mut self, number: u32) {
        self.seen += number;
    }

    fn run(&mut self) {
        loop {
            select! {
                recv(self.numbers) -> number => match number {
                    Ok(number) => self.add(number),
                    Err(_) => self.numbers = never(),
                },
                recv(self.stop) -> _ => {
                    self.add(1);
                    break;
                }
            }
        }
    }
}

/// An arm may change what the select was over: its operation is done by then.
#[test]
fn arms_change_the_handles() {
    let ((sender, numbers), (stopper, stop)) = (open(2), open(1));
    sender.send(3).unwrap();
    let mut actor = Actor {
        numbers,
        stop,
        seen: 0,
    };
    thread::scope(|scope| {
        scope.spawn(|| actor.run());
        drop(sender);
        stopper.send(()).unwrap();
    });
    assert_eq!(actor.seen % 3, 1, "the stop may come before the number");

    let (sender, receiver) = open::<u32>(1);
    select! {
        recv(receiver) -> _ => unreachable!("there is none"),
        default => drop(receiver),
    }
    select! {
        send(sender, 7) -> sent => {
            assert!(sent.is_err(), "there is no receiver any more");
            drop(sender);
        }
    };
}
