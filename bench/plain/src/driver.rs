//! The driver by hand over a Mutex with two Condvars: threads that send beside threads that take, each with its
//! receipts, and an audit of them all by sorting.
use std::collections::VecDeque;
use std::sync::{Condvar, Mutex};
use std::thread;

#[derive(Clone, Copy, PartialEq, Eq, PartialOrd, Ord)]
struct Receipt {
    place: u64,
    sender: u32,
    number: u32,
    body: u64,
}

#[derive(Default)]
struct State {
    items: VecDeque<Receipt>,
    accepted: u64,
    closed: bool,
}

struct Locked {
    state: Mutex<State>,
    not_full: Condvar,
    not_empty: Condvar,
}

/// Sends the bodies from 1 to `items`, and gives the receipts.
fn send_all(queue: &Locked, sender: u32, capacity: usize, items: u64) -> Vec<Receipt> {
    let mut receipts = Vec::new();
    for body in 1..=items {
        let mut state = queue.state.lock().unwrap();
        while state.items.len() == capacity {
            state = queue.not_full.wait(state).unwrap();
        }
        let receipt = Receipt { place: state.accepted, sender, number: body as u32, body };
        state.accepted += 1;
        state.items.push_back(receipt);
        drop(state);
        queue.not_empty.notify_one();
        receipts.push(receipt);
    }
    receipts
}

/// Takes until the queue has ended, and gives the receipts.
fn take_all(queue: &Locked) -> Vec<Receipt> {
    let mut receipts = Vec::new();
    loop {
        let mut state = queue.state.lock().unwrap();
        while state.items.is_empty() && !state.closed {
            state = queue.not_empty.wait(state).unwrap();
        }
        let Some(item) = state.items.pop_front() else { return receipts };
        drop(state);
        queue.not_full.notify_one();
        receipts.push(item);
    }
}

/// Whether each accepted item was taken once, and each sender's numbers rise with its places.
fn is_clean(sent: &mut [Receipt], taken: &mut [Receipt], senders: usize) -> bool {
    sent.sort_unstable();
    taken.sort_unstable();
    let mut last = vec![0; senders];
    let rises = sent.iter().zip(0..).all(|(receipt, place)| {
        let before = std::mem::replace(&mut last[receipt.sender as usize - 1], receipt.number);
        receipt.place == place && before < receipt.number
    });
    rises && sent == taken
}

/// Drives such a queue, `items` items of each sender, and prints what `ccq drive` prints.
pub fn drive(senders: usize, receivers: usize, capacity: usize, items: u64) {
    let queue = Locked { state: Mutex::default(), not_full: Condvar::new(), not_empty: Condvar::new() };
    let (mut sent, mut taken) = thread::scope(|scope| {
        let queue = &queue;
        let takers: Vec<_> = (0..receivers).map(|_| scope.spawn(move || take_all(queue))).collect();
        let send = |s| scope.spawn(move || send_all(queue, s, capacity, items));
        let sending: Vec<_> = (1..=senders as u32).map(send).collect();
        let sent = sending.into_iter().flat_map(|thread| thread.join().unwrap()).collect::<Vec<_>>();
        queue.state.lock().unwrap().closed = true;
        queue.not_empty.notify_all();
        (sent, takers.into_iter().flat_map(|thread| thread.join().unwrap()).collect::<Vec<_>>())
    });
    let verdict = if is_clean(&mut sent, &mut taken, senders) { "audit clean" } else { "audit fault" };
    println!("sent {}\ntaken {}\n{verdict}", sent.len(), taken.len());
}
