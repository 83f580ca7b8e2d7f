//! A channel has no end: its queues accept a few items, and its senders begin a few sends.
use super::rounds::rounds;
use super::*;
use std::collections::BTreeMap;
use std::pin::pin;
use std::sync::Mutex;
use std::sync::atomic::{AtomicBool, Ordering::SeqCst};
use std::task::{Context, Waker};
use std::thread;
use std::time::Duration;

/// This number of items and sends, in addition to those that are moved over from the queue before.
fn short_config(capacity: u32, life: u64, per_sender: u32) -> Config {
    Config {
        life: life + u64::from(capacity),
        per_sender: per_sender + capacity,
        ..Config::new(1, 1, capacity)
    }
}

/// A channel whose queues accept this number of items, and whose senders begin this number of
/// sends.
fn short<T: Send>(capacity: u32, life: u64, per_sender: u32) -> (Sender<T>, Receiver<T>) {
    let config = short_config(capacity, life, per_sender);
    let (sender, mut receivers) = open(config, 1, Kind::alone::<T>()).unwrap();
    (sender, receivers.remove(0))
}

const SHORT: [(u64, u32); 5] = [(1, 1), (3, 1000), (1000, 2), (2, 3), (7, 5)];

#[test]
fn one_thread_meets_no_end() {
    for (life, per_sender) in SHORT {
        for capacity in [1, 2, 5] {
            let (sender, receiver) = short(capacity, life, per_sender);
            let other = receiver.clone();
            let mut taken = 0..;
            for number in 0..20.max(rounds(200)) {
                while let Err(result) = sender.try_send(number) {
                    assert!(result.is_full());
                    assert_eq!(sender.len(), capacity as usize, "it is full and has room");
                    let receiver = [&receiver, &other][number as usize % 2];
                    assert_eq!(receiver.recv().ok(), taken.next());
                }
                assert!(sender.len() <= capacity as usize);
            }
            sender.close();
            assert!(sender.try_send(0).unwrap_err().is_disconnected());
            let rest: Vec<u64> = receiver.iter().collect();
            assert!(rest.into_iter().eq(taken.take(capacity as usize)));
            assert_eq!(other.recv(), Err(RecvError));
        }
    }
}

/// A thread that passed several items since it was last asked is ahead of the other side.
#[test]
fn several_items_are_five() {
    let (sender, receiver) = crate::channel(1).unwrap();
    for (items, several) in [
        (0, false),
        (4, false),
        (4, false),
        (5, true),
        (0, false),
        (9, true),
    ] {
        for item in 0..items {
            sender.send(item).unwrap();
            assert_eq!(receiver.recv(), Ok(item));
        }
        for side in [&sender.core().senders, sender.core().side(1)] {
            assert_eq!(side.seats.check_ahead(), several, "{items}");
        }
    }
}

/// Between the sides there are the places of the senders, and the items of the receivers. A small channel has no distance.
#[test]
fn a_distance_is_of_places_or_items() {
    let channels = [
        (crate::channel(63), [0, 0]),
        (crate::channel(64), [61, 3]),
        (crate::try_unbounded(), [0, 3]),
    ];
    for (channel, distances) in channels {
        let (sender, _receiver) = channel.unwrap();
        (0..3).for_each(|item| sender.send(item).unwrap());
        let core = sender.core();
        assert_eq!([0, 1].map(|it| core.distance(core.side(it))), distances);
    }
}

/// A call that finds the one seat of its side taken lets the side have the others. The items stay in order, and the other side keeps
/// its one seat.
#[test]
fn a_side_whose_seat_is_taken_gets_the_others() {
    let (sender, receiver) = crate::channel(8).unwrap();
    let core = sender.core();
    let seats = || [0, 1].map(|side| core.side(side).seats.len());
    (0..5).for_each(|number| sender.send(number).unwrap());
    let mut number = 5;
    while seats() == [1, 1] {
        let held = core.senders.seats.acquire();
        thread::scope(|scope| {
            let sends = scope.spawn(|| sender.try_send(number));
            // If the thread begins later, it finds the seat free, and this is tried again.
            thread::sleep(Duration::from_millis(20));
            drop(held);
            assert_eq!(sends.join().unwrap(), Ok(()));
        });
        assert_eq!(receiver.try_recv(), Ok(number - 5));
        number += 1;
    }
    assert_eq!(seats(), [pool::seats(), 1]);
    assert!(receiver.try_iter().eq(number - 5..number));
    // Those of more items have all seats.
    let (sender, _receiver) = crate::channel::<u8>(65).unwrap();
    assert_eq!(sender.core().senders.seats.len(), pool::seats());
}

/// A thread that holds a seat may not run. A look of a select whose time is over, and a poll, don't wait for it.
#[test]
fn a_look_doesnt_wait_for_a_holder() {
    let channels = || [crate::channel(1), crate::channel(65), crate::channel(4097)];
    for (sender, receiver) in channels().map(Result::unwrap) {
        let mut takes = Select::new();
        takes.recv(&receiver);
        assert!(takes.try_ready().is_err());
        let held = sender.core().senders.seats.acquire();
        assert_eq!(takes.try_ready(), Ok(0));
        assert_eq!(takes.ready_timeout(Duration::ZERO), Ok(0));
        let context = &mut Context::from_waker(Waker::noop());
        assert!(pin!(receiver.recv_async()).poll(context).is_pending());
        assert_eq!(receiver.try_recv(), Err(TryRecvError::Empty));
        drop(held);
    }
    for (sender, receiver) in channels().map(Result::unwrap) {
        while sender.try_send(0).is_ok() {}
        let mut sends = Select::new();
        sends.send(&sender);
        assert!(sends.try_ready().is_err());
        let held = sender.core().side(1).seats.acquire();
        assert_eq!(sends.try_ready(), Ok(0));
        drop(held);
        assert_eq!(receiver.recv(), Ok(0));
        let operation = sends.select();
        assert!(sends.try_ready().is_err());
        let lock = sender.core().groups_lock.lock().unwrap();
        // In a row no lock is needed for this.
        assert_eq!(sends.try_ready().is_err(), sender.capacity() == Some(4097));
        drop(lock);
        drop(operation);
    }
}

/// Of a channel without a bound to speak of the calls that are possible are no fewer than any number.
#[test]
fn a_capacity_is_beyond_no_count() {
    let (sender, receiver) = crate::channel(usize::MAX).unwrap();
    sender.send(0).unwrap();
    assert_eq!(receiver.recv(), Ok(0));
    assert_eq!(sender.core().possible_sends(), Some(u64::MAX));
}

/// Sends that find no room are begun too, and wear a sender out.
#[test]
fn tries_that_find_no_room_meet_no_end() {
    let (sender, receiver) = short(2, 1000, 3);
    for number in 0..50 {
        sender.send(number).unwrap();
        sender.send(number).unwrap();
        for _ in 0..10 {
            assert_eq!(sender.try_send(number), Err(TrySendError::Full(number)));
        }
        assert_eq!((receiver.recv(), receiver.recv()), (Ok(number), Ok(number)));
        assert_eq!(receiver.try_recv(), Err(TryRecvError::Empty));
    }
}

/// A channel of numbered items of numbered senders.
pub type Numbered = (Sender<(u64, u64)>, Receiver<(u64, u64)>);

/// Each sender's items come in its order, no item is lost, and no more than `most` are there at any time. Each sender sends `count`.
pub fn pass_in_order(channel: Numbered, most: usize, senders: u64, receivers: usize, count: u64) {
    let (sender, receiver) = channel;
    let taken: Mutex<Vec<Vec<(u64, u64)>>> = Mutex::default();
    thread::scope(|scope| {
        for number in 0..senders {
            let sender = sender.clone();
            scope.spawn(move || (0..count).for_each(|n| sender.send((number, n)).unwrap()));
        }
        drop(sender);
        for _ in 0..receivers {
            let (receiver, taken) = (receiver.clone(), &taken);
            scope.spawn(move || {
                let mut items = vec![];
                while let Ok(item) = receiver.recv() {
                    assert!(receiver.len() <= most);
                    items.push(item);
                }
                taken.lock().unwrap().push(items);
            });
        }
        drop(receiver);
    });
    let taken = taken.into_inner().unwrap();
    for items in &taken {
        let mut last = BTreeMap::new();
        for (sender, number) in items {
            assert!(last.insert(sender, number) < Some(number), "{items:?}");
        }
    }
    let mut all: Vec<_> = taken.into_iter().flatten().collect();
    all.sort();
    let sent = (0..senders).flat_map(|sender| (0..count).map(move |n| (sender, n)));
    assert!(all.into_iter().eq(sent));
}

fn threads(capacity: u32, life: u64, per_sender: u32, senders: u64, receivers: usize) {
    let channel = short(capacity, life, per_sender);
    let count = 10.max(rounds(60));
    pass_in_order(channel, capacity as usize, senders, receivers, count);
}

#[test]
fn threads_meet_no_end() {
    for (life, per_sender) in SHORT {
        for capacity in [1, 3] {
            threads(capacity, life, per_sender, 3, 2);
        }
    }
    threads(2, 5, 4, 8, 8);
}

#[test]
fn groups_meet_no_end() {
    let config = short_config(2, 3, 2);
    let (sender, receivers) = open::<String>(config, 2, Kind::of_groups::<String>()).unwrap();
    let taken: Vec<Vec<String>> = thread::scope(|scope| {
        let taking = receivers
            .into_iter()
            .map(|receiver| scope.spawn(|| receiver.into_iter().collect()));
        let taking: Vec<_> = taking.collect();
        (0..50).for_each(|number| sender.send(number.to_string()).unwrap());
        drop(sender);
        taking
            .into_iter()
            .map(|thread| thread.join().unwrap())
            .collect()
    });
    let all: Vec<String> = (0..50).map(|number| number.to_string()).collect();
    assert_eq!(taken, [all.clone(), all]);
}

/// A handle that was idle while queues came and went goes on with the present one.
#[test]
fn an_idle_handle_goes_on() {
    let (sender, receiver) = short(2, 2, 2);
    let (idle, last) = (sender.clone(), receiver.clone());
    idle.send(0).unwrap();
    assert_eq!(last.recv(), Ok(0));
    for number in 0..40 {
        sender.send(number).unwrap();
        assert_eq!(receiver.recv(), Ok(number));
    }
    idle.send(7).unwrap();
    assert_eq!(last.recv(), Ok(7));
    sender.send(8).unwrap();
    drop((sender, receiver));
    idle.send(9).unwrap();
    assert!(last.try_iter().eq([8, 9]));
    drop(idle);
    assert_eq!(last.recv(), Err(RecvError));
}

/// A sender waits for room when one queue follows another, and a receiver that takes one item and
/// no more makes it.
#[test]
fn room_between_two_queues() {
    for life in 1..4 {
        let (sender, receiver) = short(1, life, 100);
        for number in 0..20 {
            sender.send(number).unwrap();
            thread::scope(|scope| {
                let waits = scope.spawn(|| sender.send(number + 100));
                if number % 4 == 0 {
                    thread::sleep(Duration::from_millis(1));
                }
                assert_eq!(receiver.recv(), Ok(number));
                assert_eq!(waits.join().unwrap(), Ok(()));
            });
            assert_eq!(receiver.recv(), Ok(number + 100));
        }
    }
}

/// An item and the place that was reserved for it count once: of two places, one is free for each of two threads that use at
/// most one.
#[test]
fn a_reserved_place_counts_once() {
    let (sender, receiver) = channel(2).unwrap();
    let (core, is_over) = (sender.core(), AtomicBool::new(false));
    thread::scope(|scope| {
        scope.spawn(|| {
            while !is_over.load(SeqCst) {
                assert_eq!(core.reserve(), Ok(()));
                core.give_back_room();
            }
        });
        for number in 0..rounds(10_000) {
            assert_eq!(core.reserve(), Ok(()));
            assert_eq!(core.send_to_room(&mut Some(sender.pack(number))), Ok(()));
            (0..200).for_each(|_| std::hint::spin_loop());
            assert_eq!(receiver.try_recv(), Ok(number));
        }
        is_over.store(true, SeqCst);
    });
}
