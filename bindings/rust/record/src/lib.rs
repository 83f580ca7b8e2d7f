//! Records the calls on any queue, as a log that can be judged: is it linearizable (`docs/JUDGE.md`)?
//!
//! Each thread does its calls through a [`Recorder`] of its own. The [`Log`] writes them while the program runs, so a queue
//! that hangs leaves its log too. Items are numbers, and no two sends that are accepted have the same.
//!
//! ```
//! use vahepito_record::{Log, Sent, Taken};
//!
//! # let path = std::env::temp_dir().join(format!("vahepito {}.log", std::process::id()));
//! let (sender, receiver) = std::sync::mpsc::channel();
//! let log = Log::create(&path)?;
//! let (mut one, mut other) = (log.recorder(), log.recorder());
//! one.send(7, || sender.send(7).map_or(Sent::Closed, |()| Sent::Accepted));
//! other.take(|| receiver.recv().map_or(Taken::Ended, Taken::Item));
//! log.finish()?;
//! # assert_eq!(std::fs::read_to_string(&path)?.lines().count(), 3);
//! # std::fs::remove_file(&path)?;
//! # Ok::<(), std::io::Error>(())
//! ```
//!
//! **What the file has.** It is written in rounds: every tenth of a second, if a recorder is full, and at the end. After a
//! round it is the log of the run up to a moment of that round. Calls that had ended before that moment are in it, and calls
//! that were pending are in it as calls that haven't returned. So it is right if the program hangs or is killed, and it
//! lacks only what came after the last round. If a round is killed while it writes, the log is refused, by the line that begins
//! with `!`.
//!
//! **A pipe**, as `mkfifo` makes it, gets whole lines of calls that have ended, and those of pending calls at the end.
//! So if the program is killed, its log ends early: the pending calls aren't in it. If the reader has gone, nothing
//! more is written. The pipe is closed when the log is finished and the recorders are dropped.
//!
//! **Whether it is whole.** A write that fails and a limit that is reached end the log early: it stays as the last round left it,
//! and [`Log::finish`] returns an [`Early`]. The last line of the file says so too: `{"ends":"whole"}` or `{"ends":"early"}`. The log of
//! a program that was killed has no such line.
//!
//! **Time.** Stamps are nanoseconds of a [`Clock`], which a caller can read too: the lines of two files of one clock are one log, if the
//! recorder's file comes last.
//!
//! **Stops.** With the feature `stops`, `Log::stop_threads` stops recorded threads in the middle of their calls. Faults
//! that need a thread to be interrupted between two of its steps are found far sooner so.
//!
//! **What it costs.** A call costs two reads of the monotonic clock, two fences and some ten stores; a thread takes a
//! lock once in [`SLOTS`] calls, between two of them. That was 20 ns a call on one thread, and 110 in rounds, without the two reads
//! of the clock. A recorder has 32 bytes a slot.
//!
//! **Why it is right.** A round reads the clock first, then what each thread has. A thread notes that a call has begun
//! before it makes the call, with a fence between them. So a call that the round doesn't see had no effect before the
//! round's moment, and no call that had ended by then depends on it. All that ends or begins later is left to the next round.
#![deny(missing_docs, unsafe_code)]
#![cfg_attr(not(feature = "stops"), forbid(unsafe_code))]

mod lane;
mod log;
#[cfg(feature = "stops")]
mod stops;
#[cfg(test)]
mod tests;
mod writer;

pub use crate::log::{Clock, Log, Options, Recorder};
#[cfg(feature = "stops")]
pub use crate::stops::Stops;
pub use crate::writer::Early;

/// The number of calls that a recorder holds before it is written.
pub const SLOTS: u64 = 256;

/// The answer of a send.
#[derive(Clone, Copy, Debug, PartialEq, Eq)]
pub enum Sent {
    /// The queue accepted the item.
    Accepted,
    /// The queue was full. Such a call is counted, and judged if the capacity is known.
    Full,
    /// The queue was closed. Such a call is judged if a close is recorded, and else counted.
    Closed,
}

/// The answer of a take.
#[derive(Clone, Copy, Debug, PartialEq, Eq)]
pub enum Taken {
    /// It got this item.
    Item(u64),
    /// The queue held none.
    None,
    /// The queue was closed, and held none.
    Ended,
}
