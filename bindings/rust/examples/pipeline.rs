//! A pipeline of three stages: one thread gives numbers, four count the steps of each to 1 (halved
//! if it is even, else three times and one more), and one looks for the greatest count.
//!
//!     cargo run --release --example pipeline [LIMIT]
//!
//! prints the number below LIMIT (100,000) that takes the most steps. Each stage ends when the one
//! before it has ended: its last sender is dropped, and that closes the channel.
use std::thread;
use vahepito::{OpenError, channel};

fn steps_to_one(mut n: u64) -> u64 {
    let mut steps = 0;
    while n > 1 {
        n = if n % 2 == 0 { n / 2 } else { 3 * n + 1 };
        steps += 1;
    }
    steps
}

fn main() -> Result<(), OpenError> {
    let limit: u32 = std::env::args()
        .nth(1)
        .map_or(100_000, |word| word.parse().expect("a number"));
    let (giver, numbers) = channel(64)?;
    let (counter, counts) = channel(64)?;
    let most = thread::scope(|scope| {
        scope.spawn(move || {
            for n in 1..u64::from(limit) {
                giver.send(n).expect("the next stage goes on to the end");
            }
        });
        for (numbers, counter) in vec![(numbers, counter); 4] {
            scope.spawn(move || {
                for n in numbers {
                    counter
                        .send((steps_to_one(n), n))
                        .expect("the last stage goes on to the end");
                }
            });
        }
        // Of those with the most steps, the least number.
        counts
            .into_iter()
            .max_by_key(|&(steps, n)| (steps, u64::MAX - n))
    });
    match most {
        Some((steps, n)) => println!("{n} takes {steps} steps"),
        None => println!("there is no number"),
    }
    Ok(())
}
