//! User code that panics: each of the places that the table in `src/event.rs` lists, on every path.
//!
//! A run counts the pieces of user code in the order in which the crate runs them: the clone, the wake and the drop of a
//! waker, the clone and the drop of an item, the drop of a panic's payload. It's made again and again: the first piece
//! panics, then the second one, and so on; and once more, with all pieces from that one on. After each run every item
//! was dropped once, and every waker is gone.
use std::cell::{Cell, RefCell};
use std::mem::{ManuallyDrop, forget};
use std::panic::{AssertUnwindSafe, catch_unwind, resume_unwind};
use std::pin::Pin;
use std::sync::Arc;
use std::task::{Context, Poll, RawWaker, RawWakerVTable, Wake, Waker};
use std::thread::panicking;
use vahepito::{Receiver, Select, SendFuture, Sender, channel, groups};

thread_local! {
    /// How many pieces of user code run before the one that panics.
    static LEFT: Cell<u64> = const { Cell::new(u64::MAX) };
    /// Whether all after it panic too.
    static ALL: Cell<bool> = const { Cell::new(false) };
    static PANICS: Cell<u64> = const { Cell::new(0) };
    /// How often each item was dropped.
    static DROPS: RefCell<Vec<u32>> = const { RefCell::new(vec![]) };
    /// Whether a call of the crate runs, and how many items were dropped in one, so that no caller got them.
    static IN_CALL: Cell<bool> = const { Cell::new(false) };
    static LOST: Cell<u64> = const { Cell::new(0) };
    /// How many wakers there are.
    static WAKERS: Cell<i64> = const { Cell::new(0) };
}

/// The payload of a panic.
struct Payload;

impl Drop for Payload {
    fn drop(&mut self) {
        user_code();
    }
}

/// A piece of user code. It doesn't panic during a panic, which would end the program.
fn user_code() {
    let left = LEFT.get();
    if panicking() || left == u64::MAX {
        return;
    }
    if left > 0 {
        return LEFT.set(left - 1);
    }
    PANICS.set(PANICS.get() + 1);
    if !ALL.get() {
        LEFT.set(u64::MAX);
    }
    resume_unwind(Box::new(Payload));
}

/// An item of 8 bytes and this number of words more, which valgrind watches.
struct Item<const N: usize>(Box<usize>, #[allow(dead_code)] [u64; N]);

fn item<const N: usize>() -> Item<N> {
    DROPS.with_borrow_mut(|drops| {
        drops.push(0);
        Item(Box::new(drops.len() - 1), [7; N])
    })
}

impl<const N: usize> Clone for Item<N> {
    fn clone(&self) -> Item<N> {
        user_code();
        item()
    }
}

impl<const N: usize> Drop for Item<N> {
    fn drop(&mut self) {
        DROPS.with_borrow_mut(|drops| drops[*self.0] += 1);
        LOST.set(LOST.get() + u64::from(IN_CALL.get()));
        user_code();
    }
}

/// A waker, each clone of which has memory of its own.
fn waker() -> Waker {
    fn new() -> RawWaker {
        static CALLS: RawWakerVTable = RawWakerVTable::new(clone, wake, |_| user_code(), gone);
        WAKERS.set(WAKERS.get() + 1);
        RawWaker::new(Box::into_raw(Box::new(0_u64)).cast(), &CALLS)
    }
    fn clone(_: *const ()) -> RawWaker {
        user_code();
        new()
    }
    fn wake(data: *const ()) {
        gone(data);
    }
    fn gone(data: *const ()) {
        // SAFETY: `new` made it, and this is called once for it.
        drop(unsafe { Box::from_raw(data.cast_mut().cast::<u64>()) });
        WAKERS.set(WAKERS.get() - 1);
        user_code();
    }
    // SAFETY: the calls do what they are asked, or panic.
    unsafe { Waker::from_raw(new()) }
}

/// Runs this. Its panic ends here.
fn attempt<R>(call: impl FnOnce() -> R) -> Option<R> {
    let done = catch_unwind(AssertUnwindSafe(call));
    done.map_err(|panic| forget(catch_unwind(AssertUnwindSafe(|| drop(panic)))))
        .ok()
}

/// Makes this call of the crate.
fn make<R>(call: impl FnOnce() -> R) -> Option<R> {
    IN_CALL.set(true);
    let done = attempt(call);
    IN_CALL.set(false);
    done
}

/// Makes this call, and drops what it returns.
fn run<R>(call: impl FnOnce() -> R) {
    let done = make(call);
    attempt(|| drop(done));
}

/// Polls with a waker of its own. Returns whether it waits.
fn poll<F: Future + Unpin>(future: &mut F) -> bool {
    // Not in the frame of the poll, whose result would be lost with a panic.
    let waker = ManuallyDrop::new(waker());
    let polled = make(|| Pin::new(future).poll(&mut Context::from_waker(&waker)));
    let waits = matches!(polled, Some(Poll::Pending));
    attempt(|| drop(polled));
    attempt(|| drop(ManuallyDrop::into_inner(waker)));
    waits
}

fn poll_once<F: Future + Unpin>(future: &mut F) {
    poll(future);
}

fn drop_all<T>(all: impl IntoIterator<Item = T>) {
    all.into_iter().for_each(|it| run(|| it));
}

/// Makes this run until no piece of user code is left to panic. Each time nothing is dropped twice, lost or leaked.
fn every_piece_panics(scenario: impl Fn()) {
    for all in [false, true] {
        for first in 0.. {
            ALL.set(all);
            LEFT.set(first);
            PANICS.set(0);
            DROPS.take();
            scenario();
            LEFT.set(u64::MAX);
            let drops = DROPS.take();
            assert!(drops.iter().all(|it| *it == 1), "{first} {all}: {drops:?}");
            assert_eq!(WAKERS.get(), 0, "{first} {all}");
            if PANICS.get() == 0 {
                assert!(first > 5, "user code runs");
                break;
            }
        }
    }
    assert_eq!(LOST.get(), 0, "items that no caller got");
}

fn sends<const N: usize>() {
    let (sender, receiver) = channel::<Item<N>>(1).unwrap();
    run(|| sender.send(item()));
    let [mut one, mut two, mut three, mut four] = [(); 4].map(|()| sender.send_async(item()));
    poll(&mut one);
    poll(&mut two);
    poll(&mut three);
    poll(&mut two);
    run(|| receiver.try_recv()); // notifies the first
    poll(&mut three); // has the room, and leaves the line
    poll(&mut four);
    poll(&mut three);
    run(|| one);
    run(|| receiver.try_recv());
    poll(&mut two);
    poll(&mut four);
    run(|| receiver.try_recv());
    poll(&mut four);
    run(|| sender.try_send(item()));
    run(|| sender.try_send(item()));
    drop_all([two, three, four]);
    drop_all([sender]);
    drop_all([receiver]);
}

fn takes<const N: usize>() {
    let (sender, receiver) = channel::<Item<N>>(2).unwrap();
    let [mut one, mut two, mut three, mut four] = [(); 4].map(|()| receiver.recv_async());
    poll(&mut one);
    poll(&mut two);
    poll(&mut three);
    poll(&mut two);
    run(|| sender.try_send(item()));
    poll(&mut two);
    poll(&mut four);
    run(|| one);
    run(|| sender.try_send(item()));
    poll(&mut three);
    poll(&mut four);
    forget(four);
    drop_all([two, three]);
    run(|| sender.try_send(item()));
    run(|| sender.try_send(item()));
    drop_all([receiver]);
    drop_all([sender]);
}

/// A close, or the last drop of a side, while tasks wait: for room, or for items.
fn ends<const N: usize>(capacity: usize, end: fn(Sender<Item<N>>, Receiver<Item<N>>)) {
    for sends in [true, false] {
        let (sender, receiver) = channel::<Item<N>>(capacity).unwrap();
        let (to, from) = (sender.downgrade(), receiver.downgrade());
        let mut waiting = vec![];
        let mut taking = vec![];
        if sends {
            (0..capacity).for_each(|_| run(|| sender.try_send(item())));
            waiting.extend([(); 3].map(|()| Box::pin(sender.clone().into_send_async(item()))));
        } else {
            taking.extend([(); 3].map(|()| Box::pin(receiver.clone().into_recv_async())));
        }
        waiting.iter_mut().for_each(poll_once);
        taking.iter_mut().for_each(poll_once);
        end(sender, receiver);
        waiting.iter_mut().for_each(poll_once);
        taking.iter_mut().for_each(poll_once);
        drop_all(waiting);
        drop_all(taking);
        run(|| (to, from));
    }
}

fn of_groups<const N: usize>() {
    let (sender, mut receivers) = groups::<Item<N>>(2, 3).unwrap();
    run(|| sender.try_send(item()));
    run(|| sender.try_send(item()));
    run(|| receivers[0].try_recv());
    run(|| receivers[1].try_recv());
    run(|| receivers[2].try_recv());
    run(|| receivers[0].try_recv());
    let mut waits = receivers[0].clone().into_recv_async();
    poll(&mut waits);
    let mut sends = sender.send_async(item());
    poll(&mut sends);
    run(|| receivers.pop()); // the others go on, without what it hasn't taken
    poll(&mut sends);
    poll(&mut waits);
    let mut select = Select::new_biased();
    select.recv(&receivers[1]);
    select.recv(&receivers[0]);
    run(|| select.try_select());
    run(|| select.try_select().map(|it| it.recv(&receivers[1])));
    run(|| sender.try_send(item()));
    run(|| sender.try_send(item()));
    drop(select);
    drop_all([sends]);
    drop_all([waits]);
    drop_all(receivers);
    drop_all([sender]);
}

fn selects<const N: usize>() {
    let (sender, receiver) = channel::<Item<N>>(3).unwrap();
    (0..3).for_each(|_| run(|| sender.try_send(item())));
    let mut take = Select::new();
    take.recv(&receiver);
    let mut waits = sender.send_async(item());
    poll(&mut waits);
    run(|| take.try_select());
    run(|| take.try_select().map(|it| it.recv(&receiver)));
    run(|| take.try_select());
    poll(&mut waits);
    let mut send = Select::new();
    send.send(&sender);
    let mut waits_too = receiver.recv_async();
    run(|| send.try_select().map(|it| it.send(&sender, item())));
    run(|| send.try_select());
    poll(&mut waits_too);
    if let Some(Ok(room)) = make(|| send.try_select()) {
        run(|| sender.close());
        run(|| room.send(&sender, item()));
    }
    run(|| take.try_select());
    run(|| take.try_select());
    drop((send, take));
    drop_all([waits]);
    drop_all([waits_too]);
    drop_all([sender]);
    drop_all([receiver]);
}

fn rendezvous<const N: usize>() {
    let (sender, receiver) = channel::<Item<N>>(0).unwrap();
    // Takes of tasks that are posted.
    let [mut one, mut two, mut three, mut four] = [(); 4].map(|()| receiver.recv_async());
    poll(&mut one);
    poll(&mut two);
    poll(&mut one);
    run(|| sender.try_send(item()));
    run(|| one); // its item is the second one's
    poll(&mut two);
    poll(&mut three);
    run(|| sender.try_send(item()));
    drop_all([three]); // its item is kept
    poll(&mut four);
    // Sends of tasks that are posted.
    let [mut five, mut six, mut seven] = [(); 3].map(|()| sender.send_async(item()));
    poll(&mut five);
    poll(&mut six);
    poll(&mut five);
    run(|| receiver.try_recv());
    poll(&mut five);
    run(|| six);
    poll(&mut seven);
    let mut take = Select::new();
    take.recv(&receiver);
    run(|| take.try_select());
    poll(&mut seven);
    // Selected sends, and tasks that take.
    let mut send = Select::new();
    send.send(&sender);
    let [mut eight, mut nine] = [(); 2].map(|()| receiver.recv_async());
    poll(&mut eight);
    run(|| send.try_select());
    poll(&mut eight);
    let operation = make(|| send.try_select());
    poll(&mut eight);
    run(|| operation.map(|it| it.map(|it| it.send(&sender, item()))));
    poll(&mut eight);
    poll(&mut nine);
    let operation = make(|| send.try_select());
    drop_all([nine]);
    run(|| operation.map(|it| it.map(|it| it.send(&sender, item()))));
    let mut last = sender.send_async(item());
    poll(&mut last);
    drop_all([last]);
    drop((send, take));
    drop_all([two, four, eight]);
    drop_all([five, seven]);
    drop_all([sender]);
    drop_all([receiver]);
}

/// Items that travel in the queue's words, and items in boxes.
#[test]
fn of_sends() {
    every_piece_panics(sends::<0>);
    every_piece_panics(sends::<4>);
}

#[test]
fn of_takes() {
    every_piece_panics(takes::<0>);
    every_piece_panics(takes::<4>);
}

#[test]
fn of_closes_and_last_drops() {
    for capacity in [0, 2] {
        every_piece_panics(|| {
            ends::<0>(capacity, |sender, receiver| {
                run(|| sender.close());
                run(|| receiver);
                run(|| sender);
            })
        });
        every_piece_panics(|| {
            ends::<4>(capacity, |sender, receiver| {
                run(|| sender);
                run(|| receiver);
            })
        });
    }
}

#[test]
fn of_groups_of_receivers() {
    every_piece_panics(of_groups::<0>);
}

#[test]
fn of_selects() {
    every_piece_panics(selects::<0>);
    every_piece_panics(selects::<4>);
}

#[test]
fn of_rendezvous() {
    every_piece_panics(rendezvous::<0>);
    every_piece_panics(rendezvous::<4>);
}

/// A send's poll succeeds, and so drops the waker that was in line, whose drop panics.
#[test]
fn a_send_is_made_once_though_its_waker_panics() {
    struct Panics;
    impl Wake for Panics {
        fn wake(self: Arc<Self>) {}
    }
    impl Drop for Panics {
        fn drop(&mut self) {
            resume_unwind(Box::new("a waker's drop"));
        }
    }
    let poll = |future: &mut SendFuture<'_, Item<0>>, waker: &Waker| {
        Pin::new(future).poll(&mut Context::from_waker(waker))
    };
    let (sender, receiver) = channel(1).unwrap();
    assert!(sender.send(item()).is_ok());
    let (mut one, mut two) = (sender.send_async(item()), sender.send_async(item()));
    assert!(poll(&mut one, Waker::noop()).is_pending());
    let waker = Waker::from(Arc::new(Panics));
    assert!(poll(&mut two, &waker).is_pending());
    drop(waker); // the one in line is the last
    assert!(receiver.try_recv().is_ok()); // notifies the first
    assert!(matches!(poll(&mut two, Waker::noop()), Poll::Ready(Ok(()))));
    assert_eq!(receiver.try_recv().map(|it| *it.0), Ok(2));
    drop((one, two));
    assert!(receiver.try_recv().is_err());
    assert_eq!(DROPS.take(), [1; 3]);
}
