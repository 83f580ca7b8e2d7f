//! The memory of a channel without a bound, as the C library has handed it out: while many items wait, and after that.
mod heap;
#[path = "../src/channel/rounds.rs"]
mod rounds;

use heap::used;
use rounds::rounds;
use std::thread::{self, available_parallelism};
use vahepito::{unbounded, unbounded_groups};

/// The bytes that are handed out after this, beyond those before. Freed memory that a thread keeps counts as handed out until the
/// thread ends, so a thread of its own does it.
fn used_after(before: usize, call: impl FnOnce() + Send) -> usize {
    thread::scope(|scope| scope.spawn(call).join().unwrap());
    used().saturating_sub(before)
}

#[test]
fn a_burst_is_cheap_in_memory() {
    let items = rounds(1_000_000).max(250_000);
    let tenth = items / 10;
    // A side has twice as many seats as there are processors, and 64 at most. The queue has a pass for each; the rest is the same
    // for all machines.
    let processors = available_parallelism().map_or(1, usize::from);
    let limit = (104 + 6 * (2 * processors).next_power_of_two().min(64)) * 1024;
    let before = used();
    let (sender, receiver) = unbounded();
    for round in 0..rounds(3) {
        let sent = used_after(before, || {
            (0..items).for_each(|item| sender.send(item).unwrap());
        });
        let each = sent as f64 / items as f64;
        println!("{each:.1} bytes for an item that waits");
        assert!(each < 80.0 || processors > 4, "{each}");
        let left = used_after(before, || assert!(receiver.try_iter().eq(0..items)));
        println!("{left} bytes after burst {round}");
        assert!(left < limit, "{left}");
    }
    let left = used_after(before, || {
        thread::scope(|scope| {
            let threads: Vec<_> = (0..4)
                .flat_map(|_| {
                    let sends = || (0..tenth).for_each(|item| sender.send(item).unwrap());
                    let takes =
                        || assert_eq!(receiver.iter().take(tenth as usize).count() as u64, tenth);
                    [scope.spawn(sends), scope.spawn(takes)]
                })
                .collect();
            threads.into_iter().for_each(|it| it.join().unwrap());
        });
    });
    println!("{left} bytes after bursts of four threads");
    assert!(sender.is_empty(), "{} items are left", sender.len());
    assert!(left < limit, "{left}");
    let left = used_after(before, || drop((sender, receiver)));
    println!("{left} bytes after the drop");
    // The C library itself takes that for eight threads at once.
    assert!(left < 32 * 1024, "{left}");

    let (sender, mut receivers) = unbounded_groups(2).unwrap();
    let left = used_after(before, || {
        (0..tenth).for_each(|item| sender.send(item).unwrap());
        assert!(receivers[0].try_iter().eq(0..tenth));
        drop(receivers.remove(1)); // which has taken none
    });
    println!("{left} bytes after the loss of a group");
    assert!(left < limit, "{left}");
}
