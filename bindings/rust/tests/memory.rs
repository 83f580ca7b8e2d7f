//! How much memory a channel takes, and which calls ask for some: what each thread asks the allocator
//! for is counted, and what the C library has handed out.
use std::alloc::{GlobalAlloc, Layout, System};
use std::cell::Cell;
use std::hint::black_box;
use std::sync::Barrier;
use std::thread;
use std::time::Duration;
use vahepito::{
    RecvTimeoutError, Select, SendTimeoutError, TryRecvError, bounded, channel, groups, select,
};

struct Counts;

thread_local! {
    static ASKED: Cell<u64> = const { Cell::new(0) };
}

// SAFETY: each call is handed to the system's allocator as it is.
unsafe impl GlobalAlloc for Counts {
    unsafe fn alloc(&self, layout: Layout) -> *mut u8 {
        let _ = ASKED.try_with(|asked| asked.set(asked.get() + 1));
        unsafe { System.alloc(layout) }
    }

    unsafe fn dealloc(&self, at: *mut u8, layout: Layout) {
        unsafe { System.dealloc(at, layout) }
    }
}

#[global_allocator]
static COUNTS: Counts = Counts;

/// How often this asks for memory, on its own thread.
fn asked(call: impl FnOnce()) -> u64 {
    let before = ASKED.get();
    call();
    ASKED.get() - before
}

#[test]
fn what_asks_is_counted() {
    assert_eq!(asked(|| drop(black_box(Box::new([7; 9])))), 1);
    assert!(asked(|| drop(channel::<u8>(1))) > 0);
}

/// By the first handles and by clones of them, from each one's first call on: an item of up to 32 bytes
/// asks for none, and a larger one, or one of groups, for a box.
#[test]
fn calls_that_do_not_wait_ask_for_none() {
    fn fill_and_empty<T: Send + Copy>(item: T, boxes: u64) {
        let (sender, receiver) = channel(20).unwrap();
        let rounds = asked(|| {
            for round in 0..30 {
                let (sent, taken) = (sender.clone(), receiver.clone());
                let senders = [&sender, &sent].into_iter().cycle();
                let many = senders.take(20).all(|sender| sender.try_send(item).is_ok());
                assert!(many && sender.is_full(), "{round}");
                assert_eq!(receiver.try_iter().take(15).count(), 15);
                assert_eq!(taken.try_iter().count(), 5);
                assert!(receiver.try_recv().is_err() && sender.is_empty());
            }
            sender.close();
        });
        assert_eq!(rounds, 600 * boxes);
    }
    fill_and_empty((), 0);
    fill_and_empty(7_u64, 0);
    fill_and_empty([7_u8; 17], 0);
    fill_and_empty([7_u64; 4], 0);
    fill_and_empty([7_u8; 33], 1);

    let (sender, receivers) = groups(20, 3).unwrap();
    let rounds = asked(|| {
        for number in 0..100_u64 {
            sender.send(number).unwrap();
            for receiver in &receivers {
                assert_eq!(receiver.recv(), Ok(number));
                assert_eq!(receiver.try_recv(), Err(TryRecvError::Empty));
            }
        }
    });
    assert_eq!(rounds, 100);
}

/// A thread's first wait takes some, and the first wait on a channel, and no later one does.
#[test]
fn a_second_wait_asks_for_none() {
    const SOON: Duration = Duration::from_millis(2);
    // On busy processors a short time is over before the thread parks, and so before its first wait.
    const LATER: Duration = Duration::from_millis(60);
    let (sender, receiver) = channel(1).unwrap();
    let waits = |time| {
        assert_eq!(receiver.recv_timeout(time), Err(RecvTimeoutError::Timeout));
        sender.send(1).unwrap();
        let told = sender.send_timeout(2, time);
        assert_eq!(told, Err(SendTimeoutError::Timeout(2)));
        assert_eq!(receiver.recv(), Ok(1));
    };
    (0..3).for_each(|_| waits(LATER));
    assert_eq!(asked(|| waits(SOON)), 0);

    let (there, here) = channel(1).unwrap();
    let ready = &Barrier::new(2);
    thread::scope(|scope| {
        let takes = scope.spawn(move || {
            for _ in 0..3 {
                assert_eq!(here.recv_timeout(LATER), Err(RecvTimeoutError::Timeout));
            }
            ready.wait();
            asked(|| assert!(here.iter().eq(0..6)))
        });
        ready.wait();
        for number in 0..6 {
            thread::sleep(SOON);
            there.send(number).unwrap();
        }
        drop(there);
        assert_eq!(takes.join().unwrap(), 0);
    });
}

/// With capacity 0 a thread's first waits take some, and no later call does, nor does a select in vain.
#[test]
fn capacity_0_asks_for_none() {
    const ITEMS: usize = 1000;
    let ((sender, receiver), (_other, never)) = (bounded(0), bounded::<usize>(0));
    // A call and a select of either side meet a call and a select of the other.
    let sends = || {
        for item in 0..ITEMS {
            match item % 2 {
                0 => sender.send(item).unwrap(),
                _ => select! { send(sender, item) -> sent => sent.unwrap() },
            }
        }
    };
    let takes = || {
        for item in 0..ITEMS {
            let taken = match item % 3 {
                0 => receiver.recv(),
                _ => select! { recv(receiver) -> it => it, recv(never) -> _ => unreachable!() },
            };
            assert_eq!(taken, Ok(item));
        }
    };
    thread::scope(|scope| {
        let sent = scope.spawn(|| asked(sends));
        let asked = [asked(takes), sent.join().unwrap()];
        assert!(asked.iter().all(|it| *it < 20), "{asked:?}");
    });
    let mut waits = Select::new();
    waits.recv(&receiver);
    waits.recv(&never);
    let in_vain = asked(|| {
        for _ in 0..ITEMS {
            assert!(waits.try_select().is_err());
            select! { recv(receiver) -> _ => panic!(), send(sender, 0) -> _ => panic!(), default => {} }
        }
    });
    assert_eq!(in_vain, 0);
}
