//! Channels of any type: every answer, handles, and what becomes of items.
use crate::rounds::rounds;
use std::collections::{BTreeSet, VecDeque};
use std::error::Error;
use std::panic::{AssertUnwindSafe, catch_unwind};
use std::sync::atomic::{AtomicI64, AtomicUsize, Ordering};
use std::sync::{Arc, Mutex};
use std::thread;
use std::time::{Duration, Instant};
use vahepito::{
    OpenError, ReadyTimeoutError, Receiver, RecvError, RecvTimeoutError, SelectTimeoutError,
    SendError, SendTimeoutError, Sender, TryReadyError, TryRecvError, TrySelectError, TrySendError,
    WeakReceiver, WeakSender, bounded, channel, groups, unbounded, unbounded_groups,
};

/// An item that counts how many of its kind there are.
#[derive(Debug)]
struct Counted(Arc<AtomicI64>, u64);

impl Counted {
    fn new(alive: &Arc<AtomicI64>, number: u64) -> Counted {
        alive.fetch_add(1, Ordering::SeqCst);
        Counted(alive.clone(), number)
    }
}

impl Clone for Counted {
    fn clone(&self) -> Counted {
        Counted::new(&self.0, self.1)
    }
}

impl Drop for Counted {
    fn drop(&mut self) {
        self.0.fetch_sub(1, Ordering::SeqCst);
    }
}

fn alive(count: &Arc<AtomicI64>) -> i64 {
    count.load(Ordering::SeqCst)
}

#[test]
fn openings_are_refused_out_of_their_range() {
    for number in [0, 9, usize::MAX] {
        let told = groups::<u8>(4, number).unwrap_err();
        assert_eq!(told, OpenError::Groups, "{number}");
        let told = unbounded_groups::<u8>(number).unwrap_err();
        assert_eq!(told, OpenError::Groups, "{number}");
    }
    assert!(channel::<[u64; 100]>(4096).is_ok());
    assert_eq!(groups::<u8>(0, 1).unwrap_err(), OpenError::Capacity);
    assert_eq!(groups::<u8>(1, 8).unwrap().1.len(), 8);
}

#[test]
fn items_come_in_order_and_are_handed_back() {
    let (sender, receiver) = channel(2).unwrap();
    assert_eq!(receiver.try_recv(), Err(TryRecvError::Empty));
    assert_eq!(sender.try_send("a".to_string()), Ok(()));
    assert_eq!(sender.clone().send("b".to_string()), Ok(()));
    let told = sender.try_send("c".to_string());
    assert_eq!(told, Err(TrySendError::Full("c".to_string())));
    assert!(told.unwrap_err().is_full());
    assert_eq!(receiver.clone().recv().as_deref(), Ok("a"));
    assert_eq!(receiver.try_recv().as_deref(), Ok("b"));
    drop(receiver);
    let told = sender.try_send("d".to_string()).unwrap_err();
    assert!(told.is_disconnected());
    assert_eq!(told.into_inner(), "d");
    assert_eq!(sender.send("e".to_string()).unwrap_err().into_inner(), "e");
}

#[test]
fn any_type_passes() {
    fn passes<T: Send + PartialEq + std::fmt::Debug>(items: [T; 3]) {
        let (sender, receiver) = channel(1).unwrap();
        for item in items {
            let kept = format!("{item:?}");
            sender.send(item).unwrap();
            assert_eq!(format!("{:?}", receiver.recv().unwrap()), kept);
        }
    }
    passes([(), (), ()]);
    passes([1_u8, 0, 255]);
    passes([[7_u64; 40], [0; 40], [u64::MAX; 40]]);
    // Each number of words, with bytes that nobody writes, and more alignment than a word has.
    passes([(1_u8, 7_u32), (0, 0), (255, u32::MAX)]);
    passes([7_u128, 0, u128::MAX]);
    passes([[7_u16; 5], [0; 5], [u16::MAX; 5]]);
    passes([(1_u8, [7_u64; 2]), (0, [0; 2]), (255, [u64::MAX; 2])]);
    passes([[7_u8; 31], [0; 31], [255; 31]]);
    passes([[7_u64; 4], [0; 4], [u64::MAX; 4]]);
    passes([[7_u8; 33], [0; 33], [255; 33]]);
    #[derive(PartialEq, Debug)]
    #[repr(align(64))]
    struct Aligned(u8);
    passes([Aligned(1), Aligned(0), Aligned(255)]);
    passes([vec!["a".to_string(); 3], vec![], vec![String::new()]]);
    passes([Some(Box::new(1)), None, Some(Box::new(3))]);
}

#[test]
fn len_is_that_of_a_queue_at_rest() {
    let (sender, receiver) = channel(3).unwrap();
    for round in 0..5 {
        assert!(sender.is_empty() && receiver.is_empty() && !sender.is_full());
        for number in 1..=3 {
            sender.send(round).unwrap();
            assert_eq!((sender.len(), receiver.len()), (number, number));
        }
        assert!(sender.is_full() && receiver.is_full() && !receiver.is_empty());
        assert!(sender.try_send(9).is_err());
        assert_eq!(receiver.clone().try_iter().count(), 3);
    }
    assert_eq!((sender.capacity(), receiver.capacity()), (Some(3), Some(3)));
}

#[test]
fn a_close_is_told() {
    let (sender, receiver) = channel(4).unwrap();
    let other = sender.clone();
    sender.send(1).unwrap();
    assert!(!sender.is_closed() && !receiver.is_closed());
    assert!(sender.close());
    assert!(!other.close() && !receiver.close());
    assert!(other.is_closed() && receiver.is_closed());
    assert_eq!(other.send(2), Err(SendError(2)));
    assert_eq!(other.try_send(2), Err(TrySendError::Disconnected(2)));
    let told = other.send_timeout(2, Duration::from_secs(60));
    assert_eq!(told, Err(SendTimeoutError::Disconnected(2)));
    assert_eq!(receiver.recv(), Ok(1));
    assert_eq!(receiver.recv(), Err(RecvError));
    assert_eq!(receiver.try_recv(), Err(TryRecvError::Disconnected));
    let told = receiver.recv_timeout(Duration::from_secs(60));
    assert_eq!(told, Err(RecvTimeoutError::Disconnected));

    let (sender, receiver) = channel(4).unwrap();
    sender.send(1).unwrap();
    assert!(receiver.close());
    assert_eq!(sender.send(2), Err(SendError(2)));
    assert_eq!(receiver.into_iter().collect::<Vec<_>>(), [1]);
}

#[test]
fn the_last_handle_of_a_side_closes() {
    let (sender, receiver) = channel(4).unwrap();
    let (second, third) = (sender.clone(), sender.clone());
    second.send(1).unwrap();
    drop((second, sender));
    assert!(!third.is_closed());
    drop(third);
    assert!(receiver.is_closed());
    assert_eq!(receiver.recv(), Ok(1));
    assert_eq!(receiver.recv(), Err(RecvError));

    let (sender, receiver) = channel(4).unwrap();
    let second = receiver.clone();
    drop(receiver);
    assert_eq!(sender.send(1), Ok(()));
    drop(second);
    assert!(sender.is_closed() && sender.is_empty());
    assert_eq!(sender.send(2), Err(SendError(2)));
}

/// Ten thousand handles of each side live at a time, and each of them sends and takes.
#[test]
fn any_number_of_handles() {
    const MANY: usize = 10_000;
    let (sender, receiver) = channel(64).unwrap();
    for _ in 0..2 {
        let senders: Vec<_> = (1..MANY).map(|_| sender.clone()).collect();
        let receivers: Vec<_> = (1..MANY).map(|_| receiver.clone()).collect();
        assert_eq!(sender.sender_count(), MANY);
        assert_eq!(receiver.receiver_count(), MANY);
        for (number, (sender, receiver)) in senders.iter().zip(&receivers).enumerate() {
            sender.send(number).unwrap();
            assert_eq!(receiver.recv(), Ok(number));
        }
    }
    assert_eq!((sender.sender_count(), receiver.receiver_count()), (1, 1));
    assert!(!sender.is_closed());
    assert!(sender.same_channel(&sender.clone()));
    assert!(receiver.same_channel(&receiver.clone()));
    assert!(!receiver.same_channel(&channel(1).unwrap().1));

    let (sender, groups) = groups(4, 2).unwrap();
    let clones: Vec<_> = (1..MANY).map(|_| groups[1].clone()).collect();
    assert_eq!(
        (groups[0].receiver_count(), groups[1].receiver_count()),
        (1, MANY)
    );
    for (number, receiver) in clones.iter().enumerate() {
        sender.send(number).unwrap();
        assert_eq!(
            (groups[0].recv(), receiver.recv()),
            (Ok(number), Ok(number))
        );
    }
    assert!(groups[0].same_channel(&clones[0]));
}

#[test]
fn weak_handles_keep_nothing_open() {
    let (sender, receivers) = groups(4, 2).unwrap();
    let (weak, weaks) = (
        sender.downgrade(),
        receivers.iter().map(Receiver::downgrade),
    );
    let weaks: Vec<_> = weaks.collect();
    assert_eq!(
        format!("{weak:?} {:?}", weaks[0]),
        "WeakSender { .. } WeakReceiver { .. }"
    );
    weak.clone().upgrade().unwrap().send(7).unwrap();
    assert_eq!(weaks[1].clone().upgrade().unwrap().recv(), Ok(7));
    drop(receivers);
    assert!(sender.is_closed() && weaks[0].upgrade().is_none() && weaks[1].upgrade().is_none());
    assert_eq!(weak.upgrade().unwrap().send(8), Err(SendError(8)));
    drop(sender);
    assert!(weak.upgrade().is_none());
}

#[test]
fn times_that_are_over() {
    let time = Duration::from_millis(20);
    let (sender, receiver) = channel(1).unwrap();
    let start = Instant::now();
    let told = receiver.recv_timeout(time);
    assert_eq!(told, Err(RecvTimeoutError::Timeout));
    let told = receiver.recv_deadline(start + 2 * time);
    assert_eq!(told, Err(RecvTimeoutError::Timeout));
    assert!(start.elapsed() >= 2 * time);
    sender.send(1).unwrap();
    let start = Instant::now();
    let told = sender.send_timeout(2, time);
    assert_eq!(told, Err(SendTimeoutError::Timeout(2)));
    let told = sender.send_deadline(3, start + 2 * time).unwrap_err();
    assert!(told.is_timeout() && told.into_inner() == 3);
    assert!(start.elapsed() >= 2 * time);
    // A moment that has passed is no reason not to try.
    assert_eq!(receiver.recv_deadline(start), Ok(1));
    assert_eq!(sender.send_deadline(4, start), Ok(()));
    assert_eq!(receiver.recv_timeout(Duration::ZERO), Ok(4));
    assert_eq!(sender.send_timeout(5, Duration::MAX), Ok(()));
    assert_eq!(receiver.recv_timeout(Duration::MAX), Ok(5));
}

#[test]
fn iterators_end_where_they_say() {
    let (sender, receiver) = channel(8).unwrap();
    (1..=6).for_each(|number| sender.send(number).unwrap());
    assert!(receiver.iter().take(2).eq([1, 2]));
    assert!(receiver.try_iter().eq(3..=6));
    sender.send(7).unwrap();
    sender.send(8).unwrap();
    drop(sender);
    assert_eq!((&receiver).into_iter().next(), Some(7));
    let mut rest = receiver.into_iter();
    assert_eq!(rest.next(), Some(8));
    assert_eq!((rest.next(), rest.next()), (None, None));
}

/// A drain takes what is there at once, and nothing that is sent later.
#[test]
fn a_drain_takes_what_is_there() {
    let (sender, receiver) = channel(8).unwrap();
    (1..=3).for_each(|number| sender.send(number).unwrap());
    let mut drain = receiver.drain();
    assert_eq!((drain.len(), receiver.len()), (3, 0));
    sender.send(4).unwrap();
    assert_eq!(drain.next(), Some(1));
    assert_eq!(drain.size_hint(), (2, Some(2)));
    assert_eq!(receiver.clone().recv(), Ok(4));
    assert!(drain.by_ref().eq([2, 3]));
    sender.send(5).unwrap();
    assert_eq!(drain.next(), None);
    // The items that a drain hasn't given go with it.
    receiver.drain();
    assert_eq!(receiver.try_recv(), Err(TryRecvError::Empty));
    sender.send(6).unwrap();
    drop(sender);
    assert!(receiver.drain().eq([6]));
    assert_eq!(receiver.drain().next(), None);
}

/// A drain ends while others send and take, and has no more than the channel can hold.
#[test]
fn a_drain_ends_beside_others() {
    let all = rounds(20_000) as u32;
    let (sender, receiver) = channel(8).unwrap();
    thread::scope(|scope| {
        scope.spawn(move || (0..all).for_each(|number| sender.send(number).unwrap()));
        let other = receiver.clone();
        let takes = scope.spawn(move || other.iter().count());
        let mut drained = 0;
        while !receiver.is_closed() || !receiver.is_empty() {
            let items: Vec<u32> = receiver.drain().collect();
            assert!(items.len() <= 8 && items.is_sorted(), "{items:?}");
            drained += items.len();
        }
        assert_eq!(drained + takes.join().unwrap(), all as usize);
    });
}

/// Each side counts its own handles, and those of the other one.
#[test]
fn handles_of_both_sides_are_counted() {
    let (sender, receivers) = groups::<u8>(1, 2).unwrap();
    let counts = |receiver: &Receiver<u8>| (receiver.sender_count(), receiver.receiver_count());
    let (other, third) = (sender.clone(), receivers[1].clone());
    assert_eq!((sender.sender_count(), sender.receiver_count()), (2, 3));
    assert_eq!((counts(&receivers[0]), counts(&third)), ((2, 1), (2, 2)));
    let weak = other.downgrade();
    drop((other, receivers));
    assert_eq!((sender.sender_count(), sender.receiver_count()), (1, 1));
    let upgraded = weak.upgrade();
    assert_eq!(counts(&third), (2, 1));
    drop((upgraded, sender));
    assert_eq!(counts(&third), (0, 1));
    assert_eq!(vahepito::never::<u8>().sender_count(), 0);
}

/// `bounded` is `channel`, and gives the handles themselves.
#[test]
fn bounded_has_a_bound() {
    let (sender, receiver) = bounded(1);
    assert_eq!((sender.send('a'), receiver.capacity()), (Ok(()), Some(1)));
    assert!(sender.try_send('b').unwrap_err().is_full());
    assert_eq!(bounded::<u8>(4097).0.capacity(), Some(4097));
}

#[test]
fn errors_say_what_is_wrong() {
    const CLOSED: &str = "sending on a disconnected channel";
    const ENDED: &str = "receiving on an empty and disconnected channel";
    // An item without `Debug`.
    struct Item;
    let errors: [(&str, &str, Box<dyn Error>); 14] = [
        (CLOSED, "SendError(..)", SendError(Item).into()),
        (
            "sending on a full channel",
            "Full(..)",
            TrySendError::Full(Item).into(),
        ),
        (
            CLOSED,
            "Disconnected(..)",
            TrySendError::from(SendError(Item)).into(),
        ),
        (
            "timed out waiting on send operation",
            "SendTimeoutError(..)",
            SendTimeoutError::Timeout(Item).into(),
        ),
        (
            CLOSED,
            "SendTimeoutError(..)",
            SendTimeoutError::from(SendError(Item)).into(),
        ),
        (ENDED, "RecvError", RecvError.into()),
        (
            "receiving on an empty channel",
            "Empty",
            TryRecvError::Empty.into(),
        ),
        (ENDED, "Disconnected", TryRecvError::from(RecvError).into()),
        (
            "timed out waiting on receive operation",
            "Timeout",
            RecvTimeoutError::Timeout.into(),
        ),
        (
            "channel is empty and disconnected",
            "Disconnected",
            RecvTimeoutError::from(RecvError).into(),
        ),
        (
            "all operations in select would block",
            "TrySelectError",
            TrySelectError.into(),
        ),
        (
            "timed out waiting on select",
            "SelectTimeoutError",
            SelectTimeoutError.into(),
        ),
        (
            "all operations in select would block",
            "TryReadyError",
            TryReadyError.into(),
        ),
        (
            "timed out waiting on select",
            "ReadyTimeoutError",
            ReadyTimeoutError.into(),
        ),
    ];
    for (display, debug, error) in errors {
        assert_eq!(
            (error.to_string(), format!("{error:?}")),
            (display.into(), debug.into())
        );
    }
    assert!(TryRecvError::Empty.is_empty() && TryRecvError::Disconnected.is_disconnected());
    assert!(RecvTimeoutError::Timeout.is_timeout());
    assert!(RecvTimeoutError::Disconnected.is_disconnected());
    let (sender, receiver) = channel::<Item>(1).unwrap();
    assert_eq!(
        format!("{sender:?} {receiver:?}"),
        "Sender { .. } Receiver { .. }"
    );
}

#[test]
fn handles_go_where_they_may() {
    fn goes<T: Send + Sync + std::panic::UnwindSafe + std::panic::RefUnwindSafe + Unpin>() {}
    // An item that isn't `Sync`.
    goes::<Sender<std::cell::Cell<u8>>>();
    goes::<Receiver<std::cell::Cell<u8>>>();
    goes::<WeakSender<std::cell::Cell<u8>>>();
    goes::<WeakReceiver<std::cell::Cell<u8>>>();
}

/// Items that stay on their thread pass too: the handles are asked whether they may go, and not the opening.
#[test]
fn items_of_one_thread_pass() {
    let (sender, receiver) = channel(1).unwrap();
    let item = std::rc::Rc::new(7);
    sender.send(item.clone()).unwrap();
    assert!(std::rc::Rc::ptr_eq(&receiver.recv().unwrap(), &item));
}

/// An item that is left is dropped with the last receiver, or by its taker.
#[test]
fn what_is_left_is_dropped() {
    for left in 0..9 {
        let count = Arc::default();
        let (sender, receiver) = channel(8).unwrap();
        let (second, other) = (sender.clone(), receiver.clone());
        for number in 0..left.min(8) {
            let sender = [&sender, &second][number as usize % 2];
            sender.send(Counted::new(&count, number)).unwrap();
        }
        drop(receiver);
        assert_eq!(alive(&count), left.min(8) as i64);
        if left % 2 == 0 {
            drop(other);
            assert_eq!(alive(&count), 0);
            let told = sender.send(Counted::new(&count, 9)).unwrap_err();
            assert_eq!((told.0.1, alive(&count)), (9, 1));
        } else {
            drop((sender, second));
            assert_eq!(alive(&count), left.min(8) as i64);
            drop(other);
        }
        assert_eq!(alive(&count), 0);
    }
}

/// An item's drop panics: the others are dropped all the same, and the panic goes on.
#[test]
fn a_drop_that_panics_breaks_nothing() {
    struct Panics(Option<u32>, #[allow(dead_code)] Counted);
    impl Drop for Panics {
        fn drop(&mut self) {
            if let Some(number) = self.0 {
                std::panic::resume_unwind(Box::new(number));
            }
        }
    }
    let count = Arc::default();
    let (sender, receiver) = channel(8).unwrap();
    for number in 0..8 {
        let panics = (number % 3 == 1).then_some(number);
        let item = Panics(panics, Counted::new(&count, 0));
        assert!(sender.send(item).is_ok());
    }
    let panic = catch_unwind(AssertUnwindSafe(|| drop(receiver))).unwrap_err();
    assert_eq!(panic.downcast_ref(), Some(&1_u32));
    assert_eq!(alive(&count), 0);
    assert!(sender.is_closed());
    let told = sender.send(Panics(None, Counted::new(&count, 0)));
    assert!(told.is_err());
}

/// An item's drop sends again on its own channel, and it holds a sender of it.
#[test]
fn a_drop_that_sends_breaks_nothing() {
    struct Sends(Sender<Sends>, Arc<AtomicUsize>);
    impl Drop for Sends {
        fn drop(&mut self) {
            if self.1.fetch_add(1, Ordering::SeqCst) < 5 {
                let again = Sends(self.0.clone(), self.1.clone());
                match self.0.try_send(again) {
                    Ok(()) | Err(TrySendError::Full(_)) => panic!("it was open"),
                    Err(TrySendError::Disconnected(back)) => drop(back),
                }
            }
        }
    }
    let drops = Arc::new(AtomicUsize::new(0));
    let (sender, receiver) = channel(4).unwrap();
    for _ in 0..4 {
        let item = Sends(sender.clone(), drops.clone());
        assert!(sender.send(item).is_ok());
    }
    drop(receiver);
    assert!(drops.load(Ordering::SeqCst) >= 4);
    assert!(sender.is_closed());
}

fn many(senders: usize, receivers: usize, capacity: usize, items: u64) {
    let count = Arc::default();
    let (sender, receiver) = channel(capacity).unwrap();
    let sum: u64 = thread::scope(|scope| {
        for _ in 1..senders {
            let (sender, count) = (sender.clone(), &count);
            scope.spawn(move || {
                (1..=items).for_each(|n| sender.send(Counted::new(count, n)).unwrap())
            });
        }
        (scope.spawn(|| {
            let sender = sender;
            (1..=items).for_each(|n| sender.send(Counted::new(&count, n)).unwrap())
        }));
        let handles: Vec<_> = (0..receivers).map(|_| receiver.clone()).collect();
        drop(receiver);
        let taking = handles
            .into_iter()
            .map(|receiver| scope.spawn(|| receiver.into_iter().map(|item| item.1).sum::<u64>()));
        let taking: Vec<_> = taking.collect();
        taking
            .into_iter()
            .map(|thread| thread.join().unwrap())
            .sum()
    });
    assert_eq!(sum, senders as u64 * items * (items + 1) / 2);
    assert_eq!(alive(&count), 0);
}

#[test]
fn many_threads() {
    for capacity in [1, 3, 64] {
        for (senders, receivers) in [(1, 1), (4, 4), (3, 1), (1, 3), (8, 8)] {
            many(senders, receivers, capacity, rounds(500));
        }
    }
    many(63, 63, 16, 20);
}

/// One sender and one receiver that many threads share.
#[test]
fn shared_handles() {
    let (sender, receiver) = channel(4).unwrap();
    let taken = Mutex::new(BTreeSet::new());
    thread::scope(|scope| {
        for from in 0..4 {
            let (sender, receiver, taken) = (&sender, &receiver, &taken);
            scope.spawn(move || (0..200).for_each(|n| sender.send(from * 1000 + n).unwrap()));
            scope.spawn(move || {
                for item in receiver.iter().take(200) {
                    assert!(taken.lock().unwrap().insert(item));
                }
            });
        }
    });
    assert_eq!(taken.into_inner().unwrap().len(), 800);
    assert!(receiver.is_empty());
}

/// Receivers leave in the middle of it all, and then the channel is closed.
#[test]
fn receivers_leave_while_senders_wait() {
    for _ in 0..rounds(10) {
        let count = Arc::default();
        let (sender, receiver) = channel(3).unwrap();
        thread::scope(|scope| {
            for _ in 0..4 {
                let (sender, count) = (sender.clone(), &count);
                scope.spawn(move || {
                    let mut sent = (0..).map(|n| sender.send(Counted::new(count, n)));
                    assert!(sent.any(|sent| sent.is_err()));
                });
                let receiver = receiver.clone();
                scope.spawn(move || assert_eq!(receiver.iter().take(100).count(), 100));
            }
            drop((sender, receiver));
        });
        assert_eq!(alive(&count), 0);
    }
}

#[test]
fn every_group_gets_every_item() {
    let count = Arc::default();
    let (sender, receivers) = groups(2, 3).unwrap();
    assert!(receivers.iter().map(Receiver::group).eq(1..=3));
    sender.send(Counted::new(&count, 1)).unwrap();
    sender.send(Counted::new(&count, 2)).unwrap();
    assert_eq!(alive(&count), 2);
    let [one, two, three] = receivers.try_into().unwrap();
    let first = [one.recv().unwrap(), two.recv().unwrap()];
    assert_eq!((first.map(|item| item.1), alive(&count)), ([1, 1], 2));
    assert_eq!(
        (one.len(), two.len(), three.len(), sender.len()),
        (1, 1, 2, 2)
    );
    assert!(
        sender
            .try_send(Counted::new(&count, 3))
            .unwrap_err()
            .is_full()
    );
    // The last one gets the item itself, so nothing is copied.
    let last = three.recv().unwrap();
    assert_eq!((last.1, alive(&count)), (1, 2));
    drop(last);
    assert_eq!(alive(&count), 1);
    sender.send(Counted::new(&count, 3)).unwrap();
    drop(sender);
    let (again, rest) = (one.clone(), |it: Receiver<Counted>| -> Vec<u64> {
        it.into_iter().map(|item| item.1).collect()
    });
    assert_eq!(again.recv().unwrap().1, 2);
    assert_eq!(
        (rest(one), rest(two), rest(three)),
        (vec![3], vec![2, 3], vec![2, 3])
    );
    assert_eq!(
        (again.recv().map(|item| item.1), alive(&count)),
        (Err(RecvError), 0)
    );
}

/// A group that has lost its last receiver holds nobody up, and keeps no item.
#[test]
fn a_group_that_is_gone_delays_no_call() {
    let count = Arc::default();
    let (sender, mut receivers) = groups(2, 2).unwrap();
    let (gone, stays) = (receivers.remove(1), receivers.remove(0));
    sender.send(Counted::new(&count, 1)).unwrap();
    sender.send(Counted::new(&count, 2)).unwrap();
    assert_eq!(stays.recv().unwrap().1, 1);
    thread::scope(|scope| {
        let waits = scope.spawn(|| sender.send(Counted::new(&count, 3)));
        thread::sleep(Duration::from_millis(10));
        drop(gone);
        assert!(waits.join().unwrap().is_ok());
    });
    assert_eq!((stays.recv().unwrap().1, stays.recv().unwrap().1), (2, 3));
    assert_eq!(alive(&count), 0);
    for number in 0..10 {
        sender.send(Counted::new(&count, number)).unwrap();
        let taken = stays.recv().unwrap().1;
        assert_eq!((taken, alive(&count)), (number, 0));
    }
    assert!(!sender.is_closed());
    sender.send(Counted::new(&count, 0)).unwrap();
    drop(stays);
    assert!(sender.is_closed());
    assert_eq!(alive(&count), 0);
}

/// A clone panics: its receiver's call does, and the other group gets the item.
#[test]
fn a_clone_that_panics_breaks_nothing() {
    struct Refuses(Counted, Arc<AtomicUsize>);
    impl Clone for Refuses {
        fn clone(&self) -> Refuses {
            if self.1.fetch_add(1, Ordering::SeqCst) == 0 {
                std::panic::resume_unwind(Box::new("no clone"));
            }
            Refuses(self.0.clone(), self.1.clone())
        }
    }
    let count = Arc::default();
    let clones = Arc::new(AtomicUsize::new(0));
    let (sender, receivers) = groups(1, 2).unwrap();
    let send = |number| sender.send(Refuses(Counted::new(&count, number), clones.clone()));
    assert!(send(1).is_ok());
    assert!(catch_unwind(AssertUnwindSafe(|| receivers[0].recv().is_ok())).is_err());
    assert_eq!(receivers[1].recv().map(|item| item.0.1), Ok(1));
    for number in 2..200 {
        assert!(send(number).is_ok());
        assert_eq!(receivers[1].recv().map(|item| item.0.1), Ok(number));
        assert_eq!(receivers[0].recv().map(|item| item.0.1), Ok(number));
        assert_eq!(alive(&count), 0);
    }
}

/// A clone panics in a drain: the items that were taken before it are dropped, and those after it stay.
#[test]
fn a_clone_panics_in_a_drain() {
    struct Second(Counted);
    impl Clone for Second {
        fn clone(&self) -> Second {
            if self.0.1 == 2 {
                std::panic::resume_unwind(Box::new("no clone"));
            }
            Second(self.0.clone())
        }
    }
    let count = Arc::default();
    let (sender, receivers) = groups(3, 2).unwrap();
    for number in 1..=3 {
        assert!(sender.send(Second(Counted::new(&count, number))).is_ok());
    }
    let drained = || receivers[0].drain().len();
    assert!(catch_unwind(AssertUnwindSafe(drained)).is_err());
    assert_eq!(alive(&count), 3);
    let numbers = |receiver: &Receiver<Second>| receiver.drain().map(|item| item.0.1).collect();
    let [first, second]: [Vec<u64>; 2] = [numbers(&receivers[0]), numbers(&receivers[1])];
    assert_eq!((first, second), (vec![3], vec![1, 2, 3]));
    assert_eq!(alive(&count), 0);
}

#[test]
fn groups_of_threads() {
    for (senders, kinds, each, capacity) in [(1, 8, 1, 1), (4, 3, 2, 16), (2, 2, 4, 3)] {
        let (items, count) = (rounds(300), Arc::default());
        let (sender, receivers) = groups(capacity, kinds).unwrap();
        let sums: Vec<u64> = thread::scope(|scope| {
            for _ in 0..senders {
                let (sender, count) = (sender.clone(), &count);
                scope.spawn(move || {
                    (1..=items).for_each(|n| sender.send(Counted::new(count, n)).unwrap())
                });
            }
            drop(sender);
            let taking = receivers.into_iter().map(|receiver| {
                let handles: Vec<_> = (0..each).map(|_| receiver.clone()).collect();
                let taking = handles.into_iter().map(|receiver| {
                    scope.spawn(|| receiver.into_iter().map(|item| item.1).sum::<u64>())
                });
                taking.collect::<Vec<_>>()
            });
            let taking: Vec<_> = taking.collect();
            let sum = |group: Vec<thread::ScopedJoinHandle<'_, u64>>| {
                group.into_iter().map(|thread| thread.join().unwrap()).sum()
            };
            taking.into_iter().map(sum).collect()
        });
        assert!(
            sums.iter()
                .all(|sum| *sum == senders * items * (items + 1) / 2)
        );
        assert_eq!(alive(&count), 0);
    }
}

/// Batches keep the order of their sender beside each other and beside single calls, in every kind of channel; and each
/// item wakes a receiver.
#[test]
fn batches_of_many_threads() {
    const SENDERS: usize = 3;
    let items = rounds(2000) as usize;
    let opened = [0, 1, 7, 64, 4097].map(|it| channel(it).unwrap());
    for (sender, receiver) in opened.into_iter().chain([unbounded()]) {
        let taken: Vec<Vec<(usize, usize)>> = thread::scope(|scope| {
            for number in 0..SENDERS {
                let sender = sender.clone();
                scope.spawn(move || {
                    let mut next = 0;
                    while next < items {
                        let end = items.min(next + 1 + (7 * next + number) % 90);
                        let mut some: VecDeque<_> = (next..end).map(|it| (number, it)).collect();
                        if next % 2 == 0 {
                            sender.send_many(&mut some).unwrap();
                        } else if let Err(told) = sender.try_send_many(&mut some) {
                            assert!(told.is_full());
                            sender
                                .send(some.pop_front().expect("one isn't sent"))
                                .unwrap();
                        }
                        next = end - some.len();
                    }
                });
            }
            drop(sender);
            let takes = (0..3).map(|number| {
                let receiver = receiver.clone();
                scope.spawn(move || {
                    let mut all = vec![];
                    while receiver.recv_many(&mut all, 1 + 50 * number) > 0 {
                        all.extend(receiver.drain());
                    }
                    all
                })
            });
            let takes: Vec<_> = takes.collect();
            takes.into_iter().map(|it| it.join().unwrap()).collect()
        });
        for number in 0..SENDERS {
            let of_sender = |all: &Vec<(usize, usize)>| -> Vec<usize> {
                let own = all.iter().filter(|it| it.0 == number);
                own.map(|it| it.1).collect()
            };
            let each: Vec<_> = taken.iter().map(of_sender).collect();
            assert!(each.iter().all(|it| it.is_sorted()));
            let mut all = each.concat();
            all.sort();
            assert!(all.into_iter().eq(0..items));
        }
    }
}

/// What a batch can't send stays, in its order; and a batch of groups comes to each of them.
#[test]
fn batches_end_where_the_channel_does() {
    let (sender, receivers) = groups::<Box<usize>>(40, 2).unwrap();
    let mut items: VecDeque<_> = (0..70).map(Box::new).collect();
    assert!(sender.try_send_many(&mut items).unwrap_err().is_full());
    assert!(items.iter().map(|it| **it).eq(40..70));
    for receiver in &receivers {
        let mut all = vec![];
        assert_eq!(receiver.recv_many(&mut all, 0), 0);
        assert_eq!(receiver.recv_many(&mut all, 33), 33);
        assert_eq!(receiver.recv_many(&mut all, 33), 7);
        assert!(all.into_iter().map(|it| *it).eq(0..40));
    }
    sender.close();
    assert!(sender.send_many(&mut items).is_err());
    assert!(
        sender
            .try_send_many(&mut items)
            .unwrap_err()
            .is_disconnected()
    );
    assert_eq!((items.len(), *items[0]), (30, 40));
    assert_eq!(receivers[0].recv_many(&mut vec![], 5), 0);
}

/// A permit has its room until it is used or dropped, in every kind of channel.
#[test]
fn permits_have_their_room() {
    let closed = |sender: &Sender<u64>| sender.try_reserve().unwrap_err().is_disconnected();
    for (sender, receiver) in [bounded(2), bounded(4097), unbounded()] {
        let permits = [sender.reserve().unwrap(), sender.try_reserve().unwrap()];
        let is_full = sender.capacity() == Some(2);
        assert_eq!(sender.try_send(9).is_err(), is_full);
        assert_eq!(sender.try_reserve().is_err(), is_full);
        let [first, second] = permits;
        drop(first);
        assert_eq!((sender.send(1), second.send(2)), (Ok(()), Ok(())));
        assert!(
            receiver
                .try_iter()
                .eq(if is_full { vec![1, 2] } else { vec![9, 1, 2] })
        );
        let late = sender.reserve().unwrap();
        drop(receiver);
        assert_eq!(late.send(3), Err(SendError(3)));
        assert!(sender.reserve().is_err() && closed(&sender));
    }
    // With capacity 0 it has a receiver.
    let (sender, receiver) = bounded(0);
    assert!(sender.try_reserve().unwrap_err().is_full());
    thread::scope(|scope| {
        let takes = scope.spawn(|| receiver.recv());
        drop(sender.reserve().unwrap());
        sender.reserve().unwrap().send(4).unwrap();
        assert_eq!(takes.join().unwrap(), Ok(4));
    });
}
