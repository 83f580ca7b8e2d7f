//! One queue with groups of one receiver each, and as many separate queues to which the same senders send each item:
//! each round passes the items through both once, and the medians of the rounds are printed, in nanoseconds an item of
//! the clock, and in brackets of all processors.
//!
//!     cargo run --release --offline [-- --rounds N] [--items N]
//!
//! The queues are those of the library, by its exports.
#[path = "../../clock.rs"]
mod clock;
#[path = "../../peers/src/exports.rs"]
#[expect(dead_code, reason = "bench/peers uses all of it")]
mod exports;

use clock::processors;
use exports::{Config, open};
use std::hint::black_box;
use std::thread;
use std::time::Instant;
use vahepito as _;

/// The numbers of senders and receivers, the capacity, and how many items pass.
#[derive(Clone, Copy)]
struct Shape {
    senders: usize,
    receivers: usize,
    capacity: usize,
    items: u64,
}

/// A queue's name, and what passes the items through it and says how many were taken.
type Queue = (&'static str, fn(Shape) -> u64);

/// The receivers are as many groups of one, or on a queue each.
const IN_GROUPS: [Queue; 2] = [("groups", groups), ("queues", queues)];

/// The bound of the crate.
const BOUND: u32 = 64;

/// With one receiver in each group.
fn one_each(it: Shape) -> Config {
    Config::new(it.senders, 1, it.capacity, BOUND)
}

/// Each item to every group of one queue; how many items each of them got.
fn groups(it: Shape) -> u64 {
    let (senders, receivers) = open(one_each(it), it.receivers);
    let senders = senders.into_iter().map(|sender| vec![sender]).collect();
    copied(it, senders, receivers)
}

/// Each item to every queue; how many items each of them passed.
fn queues(it: Shape) -> u64 {
    let mut senders: Vec<Vec<exports::Sender>> = (0..it.senders).map(|_| Vec::new()).collect();
    let mut receivers = Vec::new();
    for _ in 0..it.receivers {
        let (of_queue, mut taker) = open(one_each(it), 1);
        for (senders, sender) in senders.iter_mut().zip(of_queue) {
            senders.push(sender);
        }
        receivers.append(&mut taker);
    }
    copied(it, senders, receivers)
}

/// A thread for each list of senders, which sends its items by all of them, and one for each
/// receiver; how many items each receiver got, where all got as many.
fn copied(it: Shape, senders: Vec<Vec<exports::Sender>>, receivers: Vec<exports::Receiver>) -> u64 {
    thread::scope(|scope| {
        for mut all in senders {
            scope.spawn(move || {
                for body in 0..it.items / it.senders as u64 {
                    for sender in &mut all {
                        sender.send(body);
                    }
                }
            });
        }
        let takers: Vec<_> = receivers
            .into_iter()
            .map(|mut receiver| {
                scope.spawn(move || std::iter::from_fn(|| receiver.recv().map(black_box)).count())
            })
            .collect();
        let got: Vec<usize> = takers
            .into_iter()
            .map(|taker| taker.join().unwrap())
            .collect();
        assert!(
            got.iter().all(|count| *count == got[0]),
            "a receiver lost items"
        );
        got[0] as u64
    })
}

/// The nanoseconds an item, of the clock and of all processors.
fn timed((name, queue): Queue, it: Shape) -> (f64, f64) {
    const PROCESS: i32 = 2;
    let (start, before) = (Instant::now(), processors(PROCESS));
    assert_eq!(queue(it), it.items, "{name} lost items");
    let (clock, processors) = (start.elapsed().as_nanos(), processors(PROCESS) - before);
    (clock as f64 / it.items as f64, processors / it.items as f64)
}

fn median(times: impl Iterator<Item = f64>) -> f64 {
    let mut times: Vec<f64> = times.collect();
    times.sort_by(f64::total_cmp);
    times[times.len() / 2]
}

/// Prints the medians of these queues on a line of a table.
fn compare(title: &str, queues: &[Queue], it: Shape, rounds: usize) {
    let mut times = vec![Vec::new(); queues.len()];
    for _ in 0..rounds {
        for (times, queue) in times.iter_mut().zip(queues) {
            times.push(timed(*queue, it));
        }
    }
    print!("| {title} | {} |", it.capacity);
    for times in &times {
        let (clock, processors) = (
            median(times.iter().map(|t| t.0)),
            median(times.iter().map(|t| t.1)),
        );
        print!(" {clock:.0} ({processors:.0}) |");
    }
    println!();
}

/// The number behind this word of the command line.
fn option(name: &str, default: u64) -> u64 {
    let mut words = std::env::args().skip_while(|word| word != name);
    words
        .nth(1)
        .map_or(default, |word| word.parse().expect("a number"))
}

fn main() {
    let rounds = option("--rounds", 11) as usize;
    let items = option("--items", 400_000);
    println!(
        "{rounds} rounds of {items} items: nanoseconds an item of the clock (of all processors)"
    );
    println!("| senders and groups | capacity | groups | queues |\n|---|---|---|---|");
    for senders in [1, 4] {
        for receivers in [2, 4, 8] {
            let it = Shape {
                senders,
                receivers,
                capacity: 64,
                items: items / 4,
            };
            let title = format!("{senders} and {receivers}");
            compare(&title, &IN_GROUPS, it, rounds);
        }
    }
}
