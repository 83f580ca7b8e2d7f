//! Threads that wait, in an order that the machine chooses: they stop for good if a wake-up is lost. `tests/explore`
//! has all orders of a few steps.
use crate::ends::ends;
use crate::parking::parked;
use crate::rounds::rounds;
use std::thread;
use std::time::{Duration, Instant};
use vahepito::{Receiver, RecvTimeoutError, SendError, Sender, channel};

/// Now and then so long a pause that the other side parks.
fn pause(number: u64, every: u64) {
    if number % every == 0 {
        thread::sleep(Duration::from_micros(40 + number % 50));
    }
}

#[test]
fn ping_pong() {
    ends(|| {
        let (there, here) = channel(1).unwrap();
        let (back, answers) = channel(1).unwrap();
        let other = thread::spawn(move || {
            for number in here {
                pause(number, 7);
                back.send(number + 1).unwrap();
            }
        });
        for number in 0..rounds(20_000) {
            there.send(number).unwrap();
            pause(number, 11);
            assert_eq!(answers.recv(), Ok(number + 1));
        }
        drop(there);
        other.join().unwrap();
    });
}

fn sending(sender: &Sender<u64>, items: u64) -> thread::JoinHandle<()> {
    let sender = sender.clone();
    thread::spawn(move || {
        for number in 0..items {
            sender.send(number).unwrap();
            pause(number + 1, 50);
        }
    })
}

/// Takes all there is, with calls whose time is soon over.
fn taking(receiver: &Receiver<u64>, time: Duration) -> thread::JoinHandle<u64> {
    let receiver = receiver.clone();
    thread::spawn(move || {
        let mut taken = 0;
        loop {
            match receiver.recv_timeout(time) {
                Ok(_) => taken += 1,
                Err(RecvTimeoutError::Timeout) => {}
                Err(RecvTimeoutError::Disconnected) => return taken,
            }
        }
    })
}

fn many_wait(capacity: usize, times: [u64; 4], items: u64) {
    ends(move || {
        let (sender, receiver) = channel(capacity).unwrap();
        let sending: Vec<_> = (0..4).map(|_| sending(&sender, items)).collect();
        let taking = times.map(|time| taking(&receiver, Duration::from_micros(time)));
        drop((sender, receiver));
        sending.into_iter().for_each(|it| it.join().unwrap());
        let taken: u64 = taking.into_iter().map(|it| it.join().unwrap()).sum();
        assert_eq!(taken, 4 * items);
    });
}

#[test]
fn many_waiters() {
    const NEVER: u64 = 1 << 50;
    many_wait(1, [NEVER; 4], rounds(2000));
    many_wait(3, [NEVER; 4], rounds(2000));
    // One that waits without end is notified though others give up.
    many_wait(1, [NEVER, 20, 50, 100], rounds(2000));
}

/// A close wakes the waiters of both sides.
#[test]
fn a_close_wakes_all() {
    const SOON: Duration = Duration::from_millis(30);
    ends(|| {
        let (sender, receiver) = channel(1).unwrap();
        sender.send(0).unwrap();
        thread::scope(|scope| {
            let sends = (1..4).map(|number| {
                let sender = sender.clone();
                scope.spawn(move || sender.send(number))
            });
            let sends: Vec<_> = sends.collect();
            thread::sleep(SOON);
            assert!(receiver.close());
            let told = sends.into_iter().map(|it| it.join().unwrap());
            assert!(told.eq((1..4).map(|number| Err(SendError(number)))));
        });
        assert_eq!(receiver.recv(), Ok(0));
    });
    ends(|| {
        let (sender, receiver) = channel::<u64>(1).unwrap();
        thread::scope(|scope| {
            let takes = [(); 3].map(|()| {
                let receiver = receiver.clone();
                scope.spawn(move || receiver.recv())
            });
            thread::sleep(SOON);
            assert!(sender.close());
            assert!(
                takes
                    .map(|it| it.join().unwrap())
                    .iter()
                    .all(Result::is_err)
            );
        });
    });
}

/// A wait leaves no token of its thread: a later park ends by its time.
#[test]
fn a_wait_leaves_no_token() {
    const SOON: Duration = Duration::from_millis(30);
    ends(|| {
        let (sender, receiver) = channel(1).unwrap();
        let waits = thread::spawn(move || {
            receiver.recv().unwrap();
            let begin = Instant::now();
            thread::park_timeout(SOON);
            assert!(begin.elapsed() >= SOON);
        });
        thread::sleep(SOON);
        sender.send(7).unwrap();
        waits.join().unwrap();
    });
}

/// A waiter takes no processor time.
#[test]
fn waiting_is_parking() {
    ends(|| {
        let (sender, receiver) = channel::<u64>(1).unwrap();
        let told = parked(|| receiver.recv(), || sender.send(5).unwrap());
        assert_eq!(told, [Ok(5); 2]);
    });
}
