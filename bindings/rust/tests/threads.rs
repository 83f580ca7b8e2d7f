//! Many threads: each item once, each sender's in its order, and a close while senders wait.
#[path = "../src/channel/rounds.rs"]
mod rounds;

use rounds::rounds;
use std::cell::RefCell;
use std::collections::BTreeMap;
use std::sync::Barrier;
use std::thread::{self, ScopedJoinHandle};
use vahepito::{Receiver, Sender, channel, groups};

/// Which of its sender's items it is, from 0, behind the number of the sender.
type Item = (usize, u64);

/// How many items each sender sent, and what each receiver of a group took: each item once, and each sender's
/// in its order.
fn audit(sent: &[u64], taken: &[Vec<Item>]) {
    for items in taken {
        let mut last = BTreeMap::new();
        for (sender, number) in items {
            assert!(last.insert(sender, number) < Some(number), "{sender}");
        }
    }
    let mut all: Vec<Item> = taken.iter().flatten().copied().collect();
    all.sort();
    let numbers = |(sender, count): (usize, &u64)| (0..*count).map(move |number| (sender, number));
    let due = sent.iter().enumerate().flat_map(numbers);
    assert!(due.eq(all), "an item is lost, or was taken twice");
}

/// The results of these threads.
fn joined<T>(threads: Vec<ScopedJoinHandle<'_, T>>) -> Vec<T> {
    let given = threads.into_iter().map(|thread| thread.join().unwrap());
    given.collect()
}

/// A channel of this number of groups, and the first receiver of each.
fn open(capacity: usize, count: usize) -> (Sender<Item>, Vec<Receiver<Item>>) {
    if count > 1 {
        return groups(capacity, count).unwrap();
    }
    let (sender, receiver) = channel(capacity).unwrap();
    (sender, vec![receiver])
}

/// Each of these senders sends this number of items, and each receiver of each group takes until the end.
fn pass(senders: usize, groups: usize, receivers: usize, capacity: usize, items: u64) {
    let (sender, firsts) = open(capacity, groups);
    let taken: Vec<Vec<Vec<Item>>> = thread::scope(|scope| {
        for number in 0..senders {
            let sender = sender.clone();
            scope.spawn(move || (0..items).for_each(|n| sender.send((number, n)).unwrap()));
        }
        drop(sender);
        let group = |first: Receiver<Item>| {
            let taking = vec![first; receivers].into_iter();
            let taking = taking.map(|it| scope.spawn(|| it.into_iter().collect()));
            taking.collect::<Vec<_>>()
        };
        let taking: Vec<_> = firsts.into_iter().map(group).collect();
        taking.into_iter().map(joined).collect()
    });
    for group in &taken {
        audit(&vec![items; senders], group);
        // Groups of one receiver get all items in one order.
        assert!(receivers > 1 || group == &taken[0]);
    }
}

#[test]
fn eight_and_eight_threads() {
    for capacity in [1, 64, 4096] {
        pass(8, 1, 8, capacity, rounds(2_000));
    }
}

#[test]
fn other_numbers_of_threads() {
    for (senders, receivers) in [(1, 1), (1, 8), (8, 1), (64, 64)] {
        pass(senders, 1, receivers, 16, rounds(100));
    }
}

#[test]
fn numbers_of_groups() {
    pass(1, 2, 2, 4, rounds(1_000));
    for (senders, groups, receivers, capacity) in
        [(1, 8, 1, 1), (3, 3, 1, 4), (4, 3, 2, 16), (2, 8, 4, 64)]
    {
        pass(senders, groups, receivers, capacity, rounds(200));
    }
}

/// Eight senders wait, since the channel is full, and a ninth closes it: none of their items is taken.
#[test]
fn a_close_while_senders_wait() {
    for _ in 0..rounds(20) {
        let ((closer, receivers), full) = (open(4, 1), Barrier::new(9));
        let sent = thread::scope(|scope| {
            let send_all = |number| {
                let (sender, full) = (closer.clone(), &full);
                scope.spawn(move || {
                    let sent = (0..).find(|n| sender.try_send((number, *n)).is_err());
                    full.wait();
                    assert!(sender.send((number, 99)).is_err());
                    sent.unwrap()
                })
            };
            let sending = (0..8).map(send_all).collect();
            full.wait();
            thread::yield_now();
            assert!(closer.close());
            joined(sending)
        });
        assert_eq!(sent.iter().sum::<u64>(), 4);
        audit(&sent, &[receivers[0].iter().collect()]);
    }
}

/// Senders race with a close: what was accepted is taken, and no more.
#[test]
fn a_close_while_senders_send() {
    for round in 0..5.max(rounds(50)) {
        let (closer, receivers) = open(64, 1);
        let (sent, taken) = thread::scope(|scope| {
            let send_all = |number| {
                let sender = closer.clone();
                let sent = move || (0..).find(|n| sender.send((number, *n)).is_err());
                scope.spawn(move || sent().unwrap())
            };
            let sending = (0..4).map(send_all).collect();
            let take_all = |receiver| scope.spawn(|| Receiver::into_iter(receiver).collect());
            let taking = vec![receivers[0].clone(); 3].into_iter().map(take_all);
            let taking = taking.collect();
            (0..round * 20).for_each(|_| std::hint::spin_loop());
            assert!(closer.close());
            (joined(sending), joined(taking))
        });
        audit(&sent, &taken);
    }
}

/// A group goes while senders wait, and another one gets all there is.
#[test]
fn a_group_goes_while_senders_wait() {
    let (sender, mut receivers) = open(2, 2);
    let (goes, stays) = (receivers.remove(1), receivers.remove(0));
    let taken = thread::scope(|scope| {
        for number in 0..4 {
            let sender = sender.clone();
            scope.spawn(move || (0..100).for_each(|n| sender.send((number, n)).unwrap()));
        }
        drop(sender);
        scope.spawn(move || assert_eq!(goes.iter().take(50).count(), 50));
        let taking = vec![stays; 2].into_iter();
        joined(
            taking
                .map(|it| scope.spawn(|| it.into_iter().collect()))
                .collect(),
        )
    });
    audit(&[100; 4], &taken);
}

/// A receiver that waits sees the end, although the senders ended by a panic.
#[test]
fn a_panic_of_the_senders_ends_the_channel() {
    let (sender, receivers) = open(2, 1);
    let taken: Vec<Item> = thread::scope(|scope| {
        let taking = scope.spawn(|| receivers[0].iter().collect());
        let send_one = |number| {
            let sender = sender.clone();
            scope.spawn(move || {
                sender.send((number, 0)).unwrap();
                std::panic::resume_unwind(Box::new("a sender ends"));
            })
        };
        let sending: Vec<_> = (0..4).map(send_one).collect();
        drop(sender);
        assert!(sending.into_iter().all(|thread| thread.join().is_err()));
        taking.join().unwrap()
    });
    audit(&[1; 4], &[taken]);
}

/// A sender lies in a variable of its thread, and goes with it.
#[test]
fn a_sender_in_a_thread_local() {
    thread_local! {
        static SENDER: RefCell<Option<Sender<Item>>> = const { RefCell::new(None) };
    }
    let (sender, receivers) = open(4, 1);
    let sends = move || SENDER.with(|it| it.borrow_mut().insert(sender).send((0, 0)));
    assert_eq!(thread::spawn(sends).join().unwrap(), Ok(()));
    audit(&[1], &[receivers[0].iter().collect()]);
}

/// The pages that this process has in memory.
fn resident() -> usize {
    let pages = std::fs::read_to_string("/proc/self/statm").unwrap_or_default();
    let pages = pages.split(' ').nth(1).and_then(|it| it.parse().ok());
    pages.unwrap_or(0)
}

/// The last handle that is dropped frees the queue: 1,000 queues of 270 KB, one after another, take
/// the memory of a few.
#[test]
fn the_last_handle_frees_the_queue() {
    let before = resident();
    for number in 0..1000 {
        let (sender, receivers) = open(4096, 1);
        sender.send((0, number)).unwrap();
        assert_eq!(receivers[0].recv(), Ok((0, number)));
        if number % 2 == 0 {
            drop(sender);
            drop(receivers);
        } else {
            thread::spawn(move || drop(receivers)).join().unwrap();
            thread::spawn(move || drop(sender)).join().unwrap();
        }
    }
    let grown = resident().saturating_sub(before);
    assert!(grown < 20_000, "{grown} pages more than before");
}
