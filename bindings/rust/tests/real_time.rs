//! No call spins: a thread of the class SCHED_FIFO shares one processor with two ordinary threads, which it stops in the middle of
//! their calls. Each of its calls has to leave the processor to the thread that it waits for. So what counts is how long the call itself
//! runs, however busy the machine is. Without the right to set the class, or on another system than Linux, nothing is tested.
#![cfg(target_os = "linux")]
#[path = "../src/channel/rounds.rs"]
mod rounds;
mod spent;

use rounds::rounds;
use spent::spent;
use std::sync::Mutex;
use std::sync::atomic::{AtomicBool, Ordering};
use std::thread;
use std::time::{Duration, Instant};
use vahepito::{Select, channel, groups, select};

/// How long an ordinary thread waits for room.
const WAIT: Duration = Duration::from_millis(500);

/// A call that spins runs until the kernel stops the threads of its class, for the rest of each second: half of what it lets them run.
fn limit() -> Duration {
    let share = std::fs::read_to_string("/proc/sys/kernel/sched_rt_runtime_us");
    let share = share.ok().and_then(|it| it.trim().parse().ok());
    Duration::from_micros(share.unwrap_or(950_000) / 2)
}

unsafe extern "C" {
    safe fn sched_setaffinity(thread: i32, size: usize, processors: &[u64; 16]) -> i32;
    safe fn sched_setscheduler(thread: i32, class: i32, priority: &i32) -> i32;
    safe fn sched_getcpu() -> i32;
}

/// Lets this thread run on this processor alone.
fn stay_on(processor: i32) {
    let mut set = [0; 16];
    set[processor as usize / 64] = 1 << (processor % 64);
    assert_eq!(sched_setaffinity(0, size_of_val(&set), &set), 0);
}

/// Makes this thread one of the class SCHED_FIFO. Returns whether it may be.
fn set_class() -> bool {
    sched_setscheduler(0, 1, &1) == 0
}

/// The longest of this call's processor times in a thread of the class, beside two ordinary threads that make these calls. None without
/// the right to set the class.
fn longest(others: [&(dyn Fn() + Sync); 2], mut call: impl FnMut() + Send) -> Option<Duration> {
    let processor = sched_getcpu();
    let is_over = &AtomicBool::new(false);
    thread::scope(|scope| {
        for other in others {
            scope.spawn(move || {
                stay_on(processor);
                while !is_over.load(Ordering::Relaxed) {
                    other();
                }
            });
        }
        let measured = scope.spawn(move || {
            stay_on(processor);
            let may = set_class();
            let (start, mut longest) = (Instant::now(), Duration::ZERO);
            let time = Duration::from_millis(rounds(1000).max(300));
            while may && start.elapsed() < time {
                // The sleep ends while one of the others is somewhere in a call.
                thread::sleep(Duration::from_micros(150));
                let before = spent();
                call();
                longest = longest.max(spent() - before);
            }
            is_over.store(true, Ordering::Relaxed);
            may.then_some(longest)
        });
        measured.join().unwrap()
    })
}

/// Prints a processor time, and holds it to the limit.
fn check(name: &str, longest: Option<Duration>) {
    match longest {
        Some(longest) => {
            println!("{name}: {longest:?}");
            assert!(longest < limit(), "{name}: {longest:?}");
        }
        None => println!("{name}: skipped, without the right to set the class"),
    }
}

#[test]
fn calls_beside_ordinary_threads() {
    let (sender, receiver) = channel::<u64>(64).unwrap();
    let sends = || _ = sender.try_send(1);
    let takes = || _ = receiver.try_recv();
    check(
        "try_send",
        longest([&sends, &takes], || {
            _ = sender.try_send(2);
        }),
    );
    check(
        "try_recv",
        longest([&sends, &takes], || {
            _ = receiver.try_recv();
        }),
    );
    check(
        "select! of a send with a default",
        longest([&sends, &takes], || {
            select! {
                send(sender, 3) -> _ => {},
                default => {},
            }
        }),
    );
    check(
        "select! of a take with a default",
        longest([&sends, &takes], || {
            select! {
                recv(receiver) -> _ => {},
                default => {},
            }
        }),
    );
    check(
        "try_ready",
        longest([&sends, &takes], || {
            let mut select = Select::new();
            select.send(&sender);
            select.recv(&receiver);
            _ = select.try_ready();
        }),
    );
    // Each of these waits ends: at the end, the other thread may have stopped first.
    let waits = (
        || {
            _ = sender.send_timeout(1, WAIT);
        },
        || {
            _ = receiver.recv_timeout(Duration::from_millis(1));
        },
    );
    check(
        "send",
        longest([&waits.0, &waits.1], || {
            _ = sender.send_timeout(4, WAIT / 5);
        }),
    );
}

#[test]
fn the_last_handles_beside_ordinary_threads() {
    let open = || {
        let (sender, mut receivers) = groups::<u64>(4, 2).unwrap();
        let lost = receivers.pop().unwrap();
        (sender, receivers, lost)
    };
    let shared = Mutex::new(open());
    let sends = || {
        let sender = shared.lock().unwrap().0.clone();
        (0..100).for_each(|number| {
            _ = sender.try_send(number);
        });
    };
    let takes = || {
        let receiver = shared.lock().unwrap().1[0].clone();
        (0..100).for_each(|_| {
            _ = receiver.try_recv();
        });
    };
    check(
        "the loss of a group",
        longest([&sends, &takes], || {
            // A lock that an ordinary thread has is no matter of the channel.
            let (_sender, _receivers, lost) = match shared.try_lock() {
                Ok(mut channel) => std::mem::replace(&mut *channel, open()),
                Err(_) => return,
            };
            let before = spent();
            drop(lost);
            let it_took = spent() - before;
            assert!(it_took < limit(), "{it_took:?}");
        }),
    );
    let weak = Mutex::new(channel::<u64>(1).unwrap().0.downgrade());
    let drops = || {
        let (sender, _receiver) = channel::<u64>(1).unwrap();
        *weak.lock().unwrap() = sender.downgrade();
    };
    check(
        "upgrade",
        longest([&drops, &drops], || {
            if let Ok(weak) = weak.try_lock() {
                drop(weak.upgrade());
            }
        }),
    );
}
