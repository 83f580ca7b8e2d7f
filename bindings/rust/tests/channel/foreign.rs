//! User code (an item's drop or clone, a waker) that takes long, blocks, panics, or comes back to
//! the channel: it holds up nobody, and loses nobody's notification.
use crate::ends::ends;
use crate::polling::{Woken, poll};
use std::panic::{AssertUnwindSafe, catch_unwind, resume_unwind};
use std::pin::Pin;
use std::sync::atomic::{AtomicBool, AtomicUsize, Ordering};
use std::sync::mpsc;
use std::sync::{Arc, Mutex};
use std::task::{Context, Poll, Wake, Waker};
use std::thread;
use std::time::Duration;
use vahepito::{Receiver, RecvError, Sender, TryRecvError, channel, groups};

const SOON: Duration = Duration::from_millis(30);

/// An item whose drop does this. A clone does nothing.
struct OnDrop(Option<Arc<dyn Fn() + Send + Sync>>);

impl Clone for OnDrop {
    fn clone(&self) -> OnDrop {
        OnDrop(None)
    }
}

impl Drop for OnDrop {
    fn drop(&mut self) {
        if let Some(does) = self.0.take() {
            does();
        }
    }
}

fn on_drop(does: impl Fn() + Send + Sync + 'static) -> OnDrop {
    OnDrop(Some(Arc::new(does)))
}

/// The receivers of two groups.
fn two<T>((sender, mut receivers): (Sender<T>, Vec<Receiver<T>>)) -> (Sender<T>, [Receiver<T>; 2]) {
    let (other, one) = (receivers.pop().unwrap(), receivers.pop().unwrap());
    (sender, [one, other])
}

/// The drop of a lost group's item takes as long as the others need for their calls: they continue meanwhile.
#[test]
fn a_slow_drop_of_a_lost_group_delays_no_call() {
    ends(|| {
        let (sender, [one, lost]) = two(groups(1, 2).unwrap());
        let ((begins, begun), (ends, ended)) = (mpsc::channel(), mpsc::channel::<()>());
        let of_the_drop = Mutex::new((begins, ended));
        let slow = move || {
            let (begins, ended) = &*of_the_drop.lock().unwrap();
            begins.send(()).unwrap();
            ended.recv().unwrap();
        };
        sender.send(on_drop(slow)).ok().unwrap();
        drop(one.recv().unwrap());
        let drops = thread::spawn(move || drop(lost));
        begun.recv().unwrap();
        assert!(sender.try_send(OnDrop(None)).is_ok());
        assert!(one.recv().is_ok());
        assert!(sender.send(OnDrop(None)).is_ok());
        assert!(one.try_recv().is_ok() && sender.is_empty());
        assert!(!drops.is_finished());
        ends.send(()).unwrap();
        drops.join().unwrap();
    });
}

/// Such a drop sends, and waits for room, on the same channel.
#[test]
fn a_drop_of_a_lost_group_that_blocks_delays_no_call() {
    ends(|| {
        let (sender, [one, lost]) = two(groups(1, 2).unwrap());
        let again = sender.clone();
        let sends = move || drop(again.send(OnDrop(None)));
        sender.send(on_drop(sends)).ok().unwrap();
        drop(one.recv().unwrap());
        // The group is lost: there is room for one, and for no second one until it is taken.
        assert!(thread::spawn(move || drop(lost)).join().is_ok());
        let sends = thread::spawn(move || sender.send(OnDrop(None)).is_ok());
        assert!(one.recv().is_ok());
        assert!(sends.join().unwrap());
        assert!(one.recv().is_ok());
        assert!(one.recv().is_err());
    });
}

/// Such a drop panics: the receiver's drop goes on with that, once all are dropped, and no send does.
#[test]
fn a_drop_of_a_lost_group_that_panics_is_the_receivers() {
    let dropped = Arc::new(AtomicUsize::new(0));
    let (sender, [one, lost]) = two(groups(4, 2).unwrap());
    for _ in 0..3 {
        let dropped = dropped.clone();
        let panics = move || {
            dropped.fetch_add(1, Ordering::SeqCst);
            resume_unwind(Box::new("on purpose"));
        };
        sender.send(on_drop(panics)).ok().unwrap();
        // The item itself is the last group's.
        drop(one.recv().unwrap());
    }
    let panic = catch_unwind(AssertUnwindSafe(|| drop(lost))).unwrap_err();
    assert_eq!(panic.downcast_ref(), Some(&"on purpose"));
    assert_eq!(dropped.load(Ordering::SeqCst), 3);
    for _ in 0..10 {
        assert!(sender.send(OnDrop(None)).is_ok());
        assert!(one.recv().is_ok());
    }
}

/// A group is lost while senders wait for room that it doesn't make.
#[test]
fn the_loss_of_a_group_wakes_those_that_wait_for_room() {
    ends(|| {
        for _ in 0..50 {
            let (sender, [one, lost]) = two(groups(2, 2).unwrap());
            sender.send(1).unwrap();
            sender.send(2).unwrap();
            assert!(one.try_iter().eq([1, 2]));
            let sending = [3, 4].map(|number| {
                let sender = sender.clone();
                thread::spawn(move || sender.send(number))
            });
            thread::sleep(Duration::from_millis(1));
            drop(lost);
            assert!(
                sending
                    .map(|it| it.join().unwrap())
                    .iter()
                    .all(Result::is_ok)
            );
            assert_eq!(one.try_iter().sum::<i32>(), 7);
            assert_eq!((sender.len(), one.len()), (0, 0));
        }
    });
}

/// Groups are lost one after another while others send and take: each that stays gets all, in order.
#[test]
fn groups_are_lost_while_others_go_on() {
    ends(|| {
        const ITEMS: u32 = 3000;
        let (sender, receivers) = groups(3, 5).unwrap();
        thread::scope(|scope| {
            for (number, receiver) in (0_u32..).zip(receivers) {
                scope.spawn(move || {
                    let takes = [ITEMS, ITEMS, 700, 0, 1900][number as usize];
                    assert!(receiver.iter().take(takes as usize).eq(0..takes));
                });
            }
            scope.spawn(move || (0..ITEMS).for_each(|number| sender.send(number).unwrap()));
        });
    });
}

/// A waker that panics.
fn panicking() -> Arc<Woken> {
    Arc::new(Woken {
        panics: true,
        ..Woken::default()
    })
}

/// A close wakes all that wait, though a waker panics; then it goes on with the panic.
#[test]
fn a_waker_that_panics_strands_no_waiter_at_a_close() {
    ends(|| {
        let (sender, receiver) = channel::<u64>(1).unwrap();
        let (bad, good) = (panicking(), Arc::new(Woken::default()));
        let (mut first, mut last) = (receiver.recv_async(), receiver.recv_async());
        assert!(poll(&mut first, &bad).is_pending());
        let waits = {
            let receiver = receiver.clone();
            thread::spawn(move || receiver.recv())
        };
        thread::sleep(SOON);
        assert!(poll(&mut last, &good).is_pending());
        let panic = catch_unwind(AssertUnwindSafe(|| sender.close())).unwrap_err();
        assert_eq!(panic.downcast_ref(), Some(&"no wake"));
        assert_eq!(waits.join().unwrap(), Err(RecvError));
        assert_eq!((bad.times(), good.times()), (1, 1));
        assert!(!sender.close());
    });
}

/// The drops of the last handles do the same.
#[test]
fn a_waker_that_panics_strands_no_waiter_at_a_drop() {
    ends(|| {
        let (sender, receiver) = channel::<u64>(1).unwrap();
        sender.send(1).unwrap();
        let bad = panicking();
        let mut first = sender.send_async(2);
        assert!(poll(&mut first, &bad).is_pending());
        let waits = {
            let sender = sender.clone();
            thread::spawn(move || sender.send(3))
        };
        thread::sleep(SOON);
        assert!(catch_unwind(AssertUnwindSafe(|| drop(receiver))).is_err());
        assert!(waits.join().unwrap().is_err());
        assert!(sender.is_closed());
    });
}

/// A send whose item is in doesn't panic, nor does a take that has its item; and the notification of a waker that
/// panics is the next one's.
#[test]
fn a_waker_that_panics_is_no_matter_of_a_send_or_a_take() {
    ends(|| {
        let (sender, receiver) = channel::<u64>(1).unwrap();
        let (bad, good) = (panicking(), Arc::new(Woken::default()));
        let (mut first, mut second) = (receiver.recv_async(), receiver.recv_async());
        assert!(poll(&mut first, &bad).is_pending() && poll(&mut second, &good).is_pending());
        assert_eq!(sender.send(5), Ok(()));
        assert_eq!((bad.times(), good.times()), (1, 1));
        assert_eq!(poll(&mut second, &good), Poll::Ready(Ok(5)));
        assert_eq!(sender.try_send(6), Ok(()));
        let (mut third, mut fourth) = (sender.send_async(7), sender.send_async(8));
        assert!(poll(&mut third, &bad).is_pending() && poll(&mut fourth, &good).is_pending());
        assert_eq!(receiver.recv(), Ok(6));
        assert_eq!((bad.times(), good.times()), (2, 2));
        assert_eq!(poll(&mut fourth, &good), Poll::Ready(Ok(())));
    });
}

/// A waker that sends and takes on the channel that wakes it.
#[test]
fn a_waker_that_calls_the_channel_comes_back() {
    struct Calls(Sender<u64>, Receiver<u64>, AtomicBool);
    impl Wake for Calls {
        fn wake(self: Arc<Self>) {
            assert_eq!(self.1.try_recv(), Ok(1));
            assert_eq!(self.0.try_send(2), Ok(()));
            self.2.store(true, Ordering::SeqCst);
        }
    }
    ends(|| {
        let (sender, receiver) = channel::<u64>(1).unwrap();
        let calls = Calls(sender.clone(), receiver.clone(), AtomicBool::new(false));
        let calls = Arc::new(calls);
        let mut takes = receiver.recv_async();
        let waker = Waker::from(calls.clone());
        let polled = Pin::new(&mut takes).poll(&mut Context::from_waker(&waker));
        assert!(polled.is_pending());
        sender.send(1).unwrap();
        assert!(calls.2.load(Ordering::SeqCst));
        assert_eq!(receiver.try_recv(), Ok(2));
        assert_eq!(receiver.try_recv(), Err(TryRecvError::Empty));
    });
}

/// A clone that takes long holds up neither its own group nor another.
#[test]
fn a_slow_clone_delays_no_call() {
    struct Slow(Arc<AtomicBool>);
    impl Clone for Slow {
        fn clone(&self) -> Slow {
            while !self.0.load(Ordering::SeqCst) {
                thread::yield_now();
            }
            Slow(self.0.clone())
        }
    }
    ends(|| {
        let (sender, [one, other]) = two(groups(1, 2).unwrap());
        let goes_on = Arc::new(AtomicBool::new(false));
        sender.send(Slow(goes_on.clone())).ok().unwrap();
        let clones = {
            let one = one.clone();
            thread::spawn(move || one.recv().is_ok())
        };
        while one.len() == 1 {
            thread::yield_now();
        }
        assert!(matches!(one.try_recv(), Err(TryRecvError::Empty)));
        // The other group takes it too, and the room is free while the first one copies it.
        let second = thread::spawn(move || other.recv().is_ok());
        while !sender.is_empty() {
            thread::yield_now();
        }
        assert!(
            sender
                .try_send(Slow(Arc::new(AtomicBool::new(true))))
                .is_ok()
        );
        assert!(one.recv().is_ok());
        goes_on.store(true, Ordering::SeqCst);
        assert!(clones.join().unwrap() && second.join().unwrap());
    });
}
