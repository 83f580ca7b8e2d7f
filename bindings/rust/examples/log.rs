//! A log that two services read. Four threads write events into it; the archive counts them all, by
//! two threads that share them, and the alarm looks at each of them for the severe ones.
//!
//! ```text
//!                                     .-->  r1  r2    the archive
//!  w1  w2  w3  w4  -->  event event --|
//!                                     '-->  r3        the alarm
//! ```
//!
//!     cargo run --release --example log [EVENTS]
//!
//! prints how many events were archived, and how many alarms there were, when each thread writes
//! this number of events (10,000). Each service is a group of receivers: it gets every event once.
use std::thread;
use vahepito::{OpenError, groups};

/// How severe an event is, 0 to 9: its last digit.
fn severity(event: u64) -> u64 {
    event % 10
}

fn main() -> Result<(), OpenError> {
    let events: u64 = std::env::args()
        .nth(1)
        .map_or(10_000, |word| word.parse().expect("a number"));
    let (writer, mut services) = groups(64, 2)?;
    let (archive, alarm) = (services.remove(0), services.remove(0));
    let (archived, alarms) = thread::scope(|scope| {
        for writer in vec![writer; 4] {
            scope.spawn(move || {
                for event in 0..events {
                    writer.send(event).expect("both services read to the end");
                }
            });
        } // the last writer that is dropped closes the log
        let readers = vec![archive; 2].into_iter();
        let archive: Vec<_> = readers
            .map(|reader| scope.spawn(|| reader.into_iter().count()))
            .collect();
        let alarms = alarm.iter().filter(|event| severity(*event) == 9).count();
        let archived = archive.into_iter().map(|thread| thread.join().unwrap());
        (archived.sum::<usize>(), alarms)
    });
    println!("{archived} events in the archive, {alarms} alarms");
    Ok(())
}
