//! Boxes that threads fill, hand over, read and free, for the thread sanitizer (`tests/bindings.py`
//! has it on). It sees this crate's own atomics, the locks of shared handles among them, and neither the
//! queue's nor what std does within its locks and its `Arc`. So nobody parks here: who waits tries again;
//! and the handles are dropped by one thread, once the others are joined.
use std::thread;
use vahepito::{Receiver, Sender, TryRecvError, TrySendError, channel, groups};

const SENDERS: u64 = 3;
const EACH: u64 = 2000;

/// A box with a text of its own: a copy's memory is another's.
type Item = Box<(u64, String)>;

fn send_all(sender: &Sender<Item>, number: u64) {
    send_some(sender, number, EACH);
}

fn send_some(sender: &Sender<Item>, number: u64, items: u64) {
    for k in 0..items {
        let mut item = Box::new((k, String::new()));
        item.1 = format!("{number}: {k}");
        while let Err(told) = sender.try_send(item) {
            assert!(matches!(told, TrySendError::Full(_)), "{told}");
            item = told.into_inner();
            thread::yield_now();
        }
    }
}

/// Takes until the end, and adds up; each item is written to before it is freed.
fn take_all(receiver: &Receiver<Item>) -> u64 {
    let mut sum = 0;
    loop {
        match receiver.try_recv() {
            Ok(mut item) => {
                assert!(item.1.ends_with(&format!(": {}", item.0)));
                sum += item.0;
                item.0 = u64::MAX;
                item.1.clear();
            }
            Err(TryRecvError::Empty) => thread::yield_now(),
            Err(TryRecvError::Disconnected) => return sum,
        }
    }
}

/// Sends by these senders to these receivers, a thread for each, and adds up what was taken.
fn pass(senders: &[&Sender<Item>], receivers: &[&Receiver<Item>]) -> u64 {
    thread::scope(|scope| {
        let taking = receivers.iter().map(|it| scope.spawn(|| take_all(it)));
        let taking: Vec<_> = taking.collect();
        let sending = (0..).zip(senders);
        let sending = sending.map(|(number, it)| scope.spawn(move || send_all(it, number)));
        let sending: Vec<_> = sending.collect();
        sending.into_iter().for_each(|it| it.join().unwrap());
        senders[0].close();
        taking.into_iter().map(|it| it.join().unwrap()).sum()
    })
}

/// The same with a clone of the sender for each thread.
fn hand_over(sender: Sender<Item>, receivers: Vec<Receiver<Item>>) -> u64 {
    let senders: Vec<_> = (0..SENDERS).map(|_| sender.clone()).collect();
    let all: Vec<_> = senders.iter().collect();
    pass(&all, &receivers.iter().collect::<Vec<_>>())
}

const SUM: u64 = SENDERS * EACH * (EACH - 1) / 2;

#[test]
fn boxes_go_from_thread_to_thread() {
    let (sender, receiver) = channel(4).unwrap();
    let receivers = vec![receiver.clone(), receiver.clone(), receiver];
    assert_eq!(hand_over(sender, receivers), SUM);
}

#[test]
fn boxes_go_to_each_group() {
    let (sender, mut receivers) = groups(4, 2).unwrap();
    receivers.push(receivers[0].clone());
    assert_eq!(hand_over(sender, receivers), 2 * SUM);
}

#[test]
fn boxes_go_by_shared_handles() {
    let (sender, receiver) = channel(4).unwrap();
    assert_eq!(pass(&[&sender; 3], &[&receiver; 3]), SUM);
    let (sender, receivers) = groups(4, 2).unwrap();
    let [one, other] = [&receivers[0], &receivers[1]];
    assert_eq!(pass(&[&sender; 3], &[one, one, other, other]), 2 * SUM);
}

/// The one receiver takes by itself until it is cloned, which another thread does while it takes, and
/// while senders find no room.
#[test]
fn boxes_go_on_where_a_receiver_is_cloned() {
    for pause in 0..20 {
        let (sender, receiver) = channel(2).unwrap();
        let sums = thread::scope(|scope| {
            let first = scope.spawn(|| take_all(&receiver));
            let second = scope.spawn(|| {
                (0..pause).for_each(|_| thread::yield_now());
                let clone = receiver.clone();
                (take_all(&clone), clone)
            });
            let sending = [0, 1].map(|number| {
                let sender = &sender;
                scope.spawn(move || send_some(sender, number, 100))
            });
            sending.into_iter().for_each(|it| it.join().unwrap());
            sender.close();
            first.join().unwrap() + second.join().unwrap().0
        });
        assert_eq!(sums, 2 * 99 * 100 / 2);
    }
}
