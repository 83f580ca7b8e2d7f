//! The costs of a channel: its memory, as the C library has handed it out, and its opening. The README's table has these figures
//! for four processors.
mod heap;

use heap::used;
use std::thread::available_parallelism;
use std::time::Instant;
use vahepito::{channel, groups, never};

/// The bytes that this holds: the mean of many at once, as what a thread keeps of freed memory counts as
/// handed out.
fn bytes<R>(name: &str, open: impl Fn() -> R) -> usize {
    const MANY: usize = 64;
    let mut all = Vec::with_capacity(MANY);
    let before = used();
    all.extend((0..MANY).map(|_| open()));
    let taken = used().saturating_sub(before) / MANY;
    drop(all);
    println!("{name}: {taken} bytes");
    taken
}

/// The median of the nanoseconds that this takes.
fn nanoseconds(rounds: usize, call: impl Fn()) -> u128 {
    let times = (0..rounds).map(|_| {
        let start = Instant::now();
        call();
        start.elapsed().as_nanos()
    });
    let mut times: Vec<_> = times.collect();
    times.sort();
    times[rounds / 2]
}

#[test]
fn a_channel_is_cheap_in_memory() {
    const KB: usize = 1024;
    // A side has twice as many seats as there are processors, and 64 at most.
    let processors = available_parallelism().map_or(1, usize::from);
    let seats = (2 * processors).next_power_of_two().min(64);
    let sixteen = 16 * KB * seats.max(8) / 8;
    // A channel of few items has one seat for a side at first.
    let small = bytes("channel::<u64>(1)", || channel::<u64>(1));
    assert!(small < 4 * KB, "{small}");
    let rendezvous = bytes("channel::<u64>(0)", || channel::<u64>(0));
    assert!(rendezvous < 7 * KB / 4, "{rendezvous}");
    let timer = bytes("never::<u64>()", never::<u64>);
    assert!(timer < KB / 4, "{timer}");
    let of_words = bytes("channel::<[u64; 4]>(1)", || channel::<[u64; 4]>(1));
    assert!(of_words < 4 * KB, "{of_words}");
    let large = bytes("channel::<[u8; 65536]>(1)", || channel::<[u8; 65536]>(1));
    assert!(large < 4 * KB, "{large}");
    let filled = bytes("channel::<[u8; 65536]>(1) with an item", || {
        let (sender, receiver) = channel::<[u8; 65536]>(1).unwrap();
        sender.send([7; 65536]).unwrap();
        (sender, receiver)
    });
    assert!(filled < 72 * KB, "{filled}");
    let deep = bytes("channel::<u64>(64)", || channel::<u64>(64));
    assert!(deep < 8 * KB, "{deep}");
    let deepest = bytes("channel::<u64>(4096)", || channel::<u64>(4096));
    assert!(deepest < sixteen + 260 * KB, "{deepest}");
    let shared = bytes("groups::<u64>(64, 8)", || groups::<u64>(64, 8));
    assert!(shared < 20 * KB, "{shared}");
    let (sender, receiver) = channel::<u64>(1).unwrap();
    let clones = bytes("a thousand clones of each side", || {
        let clones = (0..1000).map(|_| (sender.clone(), receiver.clone()));
        clones.collect::<Vec<_>>()
    });
    // The handles themselves, of 8 and 16 bytes: nothing is behind them.
    assert!(clones < 1000 * 25 + KB, "{clones}");

    let open = nanoseconds(101, || drop(channel::<u64>(1)));
    println!("channel::<u64>(1): opened and dropped in {open} ns");
    let look = nanoseconds(101, || {
        for _ in 0..1000 {
            std::hint::black_box((sender.len(), receiver.is_empty()));
        }
    });
    println!("len and is_empty: {} ns", look / 1000);
}
