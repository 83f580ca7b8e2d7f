//! Rows of queues so small that they follow one another all the time: of few places, few items, and few sends of each sender.
use super::rounds::rounds;
use super::tests::pass_in_order;
use super::*;
use std::task::{Context, Poll, Waker};
use std::thread;
use std::time::Duration;

/// A first queue of the first number of places, and further ones of the second. Each accepts this number of items, and this number
/// of sends of each sender.
pub fn small_shape(places: [u32; 2], life: u64, per_sender: u32) -> Shape {
    places.map(|capacity| Config {
        life,
        per_sender,
        ..config(capacity as usize)
    })
}

/// Places, items, and sends of each sender.
pub const SMALL: [([u32; 2], u64, u32); 6] = [
    ([1, 1], 1 << 48, u32::MAX),
    ([1, 2], 1 << 48, u32::MAX),
    ([3, 2], 1 << 48, u32::MAX),
    ([2, 2], 1, 1),
    ([4, 4], 1000, 2),
    ([4, 4], 3, 1000),
];

/// A row of small queues, with this limit.
pub fn small<T>(which: ([u32; 2], u64, u32), limit: Option<usize>) -> (Sender<T>, Receiver<T>) {
    let (places, life, per_sender) = which;
    let shape = small_shape(places, life, per_sender);
    pair(Core::open_row(shape, limit, 1, Kind::alone::<T>()).unwrap())
}

/// The same of two groups.
fn small_groups(which: ([u32; 2], u64, u32)) -> (Sender<Arc<u64>>, Vec<Receiver<Arc<u64>>>) {
    let (places, life, per_sender) = which;
    let shape = small_shape(places, life, per_sender);
    handles(Core::open_row(shape, None, 2, Kind::of_groups::<Arc<u64>>()).unwrap())
}

#[test]
fn one_thread_has_no_bound() {
    for which in SMALL {
        let (sender, receiver) = small(which, None);
        for number in 0..100 {
            assert_eq!(sender.try_send(number), Ok(()));
            assert_eq!((sender.len(), sender.is_full()), (number + 1, false));
        }
        let other = receiver.clone();
        for number in 0..100 {
            let receiver = [&receiver, &other][number % 2];
            assert_eq!(receiver.try_recv(), Ok(number));
        }
        assert_eq!(receiver.try_recv(), Err(TryRecvError::Empty));
        sender.send(7).unwrap();
        assert!(sender.close() && !receiver.close());
        assert_eq!(sender.try_send(8), Err(TrySendError::Disconnected(8)));
        assert!(other.iter().eq([7]));
        assert_eq!(receiver.recv(), Err(RecvError));
    }
}

/// It is full exactly at its limit.
#[test]
fn a_limit_is_exact() {
    for which in SMALL {
        for limit in [1, 2, 5, 9] {
            let (sender, receiver) = small(which, Some(limit));
            let mut taken = 0..100;
            for number in 0..100 {
                if sender.len() == limit {
                    assert!(sender.is_full());
                    assert_eq!(sender.try_send(number), Err(TrySendError::Full(number)));
                    assert_eq!(receiver.recv().ok(), taken.next());
                    assert!(Select::new().try_ready().is_err());
                }
                assert_eq!(sender.try_send(number), Ok(()), "{which:?}, {limit}");
            }
            drop(sender);
            assert!(receiver.into_iter().eq(taken));
        }
    }
}

fn threads(which: ([u32; 2], u64, u32), limit: Option<usize>, senders: u64, receivers: usize) {
    let most = limit.unwrap_or(usize::MAX);
    let count = 20.max(rounds(400));
    pass_in_order(small(which, limit), most, senders, receivers, count);
}

#[test]
fn threads_go_on_in_order() {
    for which in SMALL {
        for limit in [None, Some(1), Some(3), Some(40)] {
            threads(which, limit, 3, 2);
        }
    }
    threads(SMALL[0], None, 8, 8);
    threads(SMALL[2], Some(6), 8, 1);
}

/// A queue is exhausted after three sends of a seat, which are 2^32 elsewhere. So these are as many queues as 2^48 sends of one
/// thread would need.
#[test]
fn wear_has_no_end() {
    let (sender, receiver) = small(([64, 64], 3, 3), None);
    for number in 0..3 * rounds(1 << 16) {
        sender.send(number).unwrap();
        assert_eq!(receiver.recv(), Ok(number));
    }
}

/// A receiver that takes late finds what was sent meanwhile, and a group that is slow holds nobody up.
#[test]
fn groups_go_on_by_themselves() {
    for which in SMALL {
        let (sender, receivers) = small_groups(which);
        for number in 0..50 {
            sender.send(Arc::new(number)).unwrap();
            assert_eq!(receivers[0].recv(), Ok(Arc::new(number)));
        }
        assert_eq!((receivers[0].len(), receivers[1].len()), (0, 50));
        assert!(receivers[1].try_iter().take(20).eq((0..20).map(Arc::new)));
        drop(sender);
        assert!(receivers[1].iter().eq((20..50).map(Arc::new)));
        assert_eq!(receivers[0].recv(), Err(RecvError));
    }
}

/// The items that a lost group hasn't taken are dropped at once, and the channel goes on without it.
#[test]
fn a_lost_group_leaves_nothing() {
    for which in SMALL {
        let (sender, mut receivers) = small_groups(which);
        let item = Arc::new(7);
        let count = |it: &Arc<u64>| Arc::strong_count(it) - 1;
        (0..20).for_each(|_| sender.send(item.clone()).unwrap());
        assert_eq!(count(&item), 20);
        assert_eq!(receivers[1].try_iter().count(), 20);
        assert_eq!(
            count(&item),
            20,
            "one group has clones, the other one the items"
        );
        drop(receivers.remove(0));
        assert_eq!(count(&item), 0);
        for _ in 0..20 {
            sender.send(item.clone()).unwrap();
            assert_eq!(receivers[0].recv(), Ok(item.clone()));
        }
        (0..20).for_each(|_| sender.send(item.clone()).unwrap());
        drop(receivers);
        assert_eq!(count(&item), 0);
        assert!(sender.try_send(item).unwrap_err().is_disconnected());
    }
}

/// Items that aren't taken are dropped with the last receiver, and once.
#[test]
fn what_is_left_is_dropped() {
    for which in SMALL {
        for limit in [None, Some(100)] {
            let item = Arc::new(());
            let (sender, receiver) = small(which, limit);
            (0..50).for_each(|_| sender.send(item.clone()).unwrap());
            assert_eq!(receiver.try_iter().take(13).count(), 13);
            assert_eq!(Arc::strong_count(&item), 38);
            drop(receiver);
            assert_eq!(Arc::strong_count(&item), 1);
            assert!(sender.send(item.clone()).is_err());
            drop(sender);
            assert_eq!(Arc::strong_count(&item), 1);
        }
    }
}

/// The further queues have a configuration that the library refuses, as if there were no memory: nothing is lost, and sends wait.
#[test]
fn without_memory_sends_wait() {
    const SOON: Duration = Duration::from_millis(5);
    let shape = small_shape([2, 0], 1 << 48, u32::MAX);
    for limit in [None, Some(5)] {
        let (sender, receiver) =
            pair::<u64>(Core::open_row(shape, limit, 1, Kind::alone::<u64>()).unwrap());
        sender.send(1).unwrap();
        sender.send(2).unwrap();
        assert_eq!(sender.try_send(3), Err(TrySendError::Full(3)));
        let told = sender.send_timeout(3, SOON);
        assert_eq!(told, Err(SendTimeoutError::Timeout(3)));
        thread::scope(|scope| {
            scope.spawn(|| sender.send(3).unwrap());
            thread::sleep(SOON);
            assert_eq!(receiver.recv(), Ok(1));
        });
        assert!(sender.close());
        assert!(receiver.iter().eq([2, 3]));
    }
}

/// A handle that was idle while queues came and went goes on with the last one.
#[test]
fn an_idle_handle_of_a_row_goes_on() {
    for which in SMALL {
        let (sender, receiver) = small(which, None);
        let (idle, last) = (sender.clone(), receiver.clone());
        idle.send(0).unwrap();
        assert_eq!(last.recv(), Ok(0));
        for number in 0..40 {
            sender.send(number).unwrap();
            assert_eq!(receiver.recv(), Ok(number));
        }
        thread::scope(|scope| scope.spawn(|| idle.send(7)).join().unwrap()).unwrap();
        assert_eq!(last.recv(), Ok(7));
        drop((sender, receiver));
        idle.send(9).unwrap();
        drop(idle);
        assert!(last.iter().eq([9]));
    }
}

#[test]
fn selects_reserve_room_of_rows() {
    for which in SMALL {
        let (sender, receiver) = small(which, Some(2));
        for number in 0..30 {
            let mut select = Select::new();
            select.send(&sender);
            let (one, two) = (select.select(), select.select());
            assert_eq!(sender.try_send(0), Err(TrySendError::Full(0)));
            assert!(select.try_ready().is_err());
            drop(one);
            assert_eq!(sender.try_send(number), Ok(()));
            two.send(&sender, number + 100).unwrap();
            assert!(select.try_select().is_err());
            assert!(receiver.try_iter().eq([number, number + 100]));
        }
        let (sender, receiver) = small(which, None);
        for number in 0..30 {
            let mut select = Select::new();
            select.send(&sender);
            select.select().send(&sender, number).unwrap();
        }
        let mut select = Select::new();
        select.recv(&receiver);
        for number in 0..30 {
            assert_eq!(select.select().recv(&receiver), Ok(number));
        }
        assert!(select.try_select().is_err());
        sender.close();
        assert_eq!(select.select().recv(&receiver), Err(RecvError));
    }
}

#[test]
fn futures_go_on() {
    let context = &mut Context::from_waker(Waker::noop());
    for which in SMALL {
        let (sender, receiver) = small(which, Some(20));
        for number in 0..20 {
            let sent = std::pin::pin!(sender.send_async(number)).poll(context);
            assert_eq!(sent, Poll::Ready(Ok(())));
        }
        let mut waits = std::pin::pin!(sender.send_async(20));
        assert!(waits.as_mut().poll(context).is_pending());
        for number in 0..21 {
            let taken = std::pin::pin!(receiver.recv_async()).poll(context);
            assert_eq!(taken, Poll::Ready(Ok(number)));
            if number == 0 {
                assert_eq!(waits.as_mut().poll(context), Poll::Ready(Ok(())));
            }
        }
        assert!(
            std::pin::pin!(receiver.recv_async())
                .poll(context)
                .is_pending()
        );
    }
}
