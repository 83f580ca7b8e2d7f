//! Records the calls of four threads on a ring of one's own, as a log to be judged.
//!
//!     cargo run --release --example ring LOG [right|early|hasty] [ITEMS]
//!     cargo run --release --features stops --example ring LOG [right|early|hasty] [ITEMS] stops
//!     ccq judge LOG
//!
//! The ring is like that of Dmitry Vyukov: each place has a number that says whose turn it is. `early` plants a fault: now and then
//! a send gives its place to the takes before it has written the item. `hasty` is the ring as he published it: a call that finds
//! another one at work at its place says that there is no item or no room. Each of two threads sends this number of items
//! (5,000), and two take until all is sent and the ring is empty. With `stops` these threads are stopped in the middle of calls.
use std::io;
use std::sync::Barrier;
use std::sync::atomic::{AtomicU64, Ordering};
use std::thread;
use std::time::Duration;
use vahepito_record::{Log, Recorder, Sent, Taken};

/// The time until a call that found no room or no item is made again: each such call is a line of the log.
const PAUSE: Duration = Duration::from_micros(20);

struct Place {
    turn: AtomicU64,
    item: AtomicU64,
}

/// A bounded queue of numbers.
struct Ring {
    places: Vec<Place>,
    sends: AtomicU64,
    takes: AtomicU64,
    early: bool,
    hasty: bool,
}

impl Ring {
    fn new(capacity: u64, kind: &str) -> Ring {
        let place = |turn| Place {
            turn: AtomicU64::new(turn),
            item: AtomicU64::new(0),
        };
        Ring {
            places: (0..capacity).map(place).collect(),
            sends: AtomicU64::new(0),
            takes: AtomicU64::new(0),
            early: kind == "early",
            hasty: kind == "hasty",
        }
    }

    /// The place of the next call, whose turn has to be its number and `shift` more. Or None if the other side's number
    /// says that there is no room or no item. If it doesn't say so, a call of the other side is at work at the place, and this
    /// one waits: None would be wrong, as an item whose send has returned may be after that place. The hasty ring gives None.
    fn claim(&self, next: &AtomicU64, other: &AtomicU64, shift: u64) -> Option<(&Place, u64)> {
        let room = if shift == 0 {
            self.places.len() as u64
        } else {
            0
        };
        let mut at = next.load(Ordering::SeqCst);
        loop {
            let place = &self.places[at as usize % self.places.len()];
            let turn = place.turn.load(Ordering::SeqCst);
            if turn != at + shift {
                let is_left = self.hasty || other.load(Ordering::SeqCst) + room == at;
                if turn < at + shift && is_left {
                    return None;
                }
                thread::yield_now();
                at = next.load(Ordering::SeqCst);
                continue;
            }
            match next.compare_exchange(at, at + 1, Ordering::SeqCst, Ordering::SeqCst) {
                Ok(_) => return Some((place, at)),
                Err(now) => at = now,
            }
        }
    }

    fn send(&self, item: u64) -> Sent {
        let Some((place, at)) = self.claim(&self.sends, &self.takes, 0) else {
            return Sent::Full;
        };
        if self.early && at % 100 == 99 {
            place.turn.store(at + 1, Ordering::SeqCst);
            thread::sleep(Duration::from_micros(200)); // so that a take comes in between
            place.item.store(item, Ordering::SeqCst);
        } else {
            place.item.store(item, Ordering::SeqCst);
            place.turn.store(at + 1, Ordering::SeqCst);
        }
        Sent::Accepted
    }

    fn take(&self) -> Taken {
        let Some((place, at)) = self.claim(&self.takes, &self.sends, 1) else {
            return Taken::None;
        };
        let item = place.item.load(Ordering::SeqCst);
        let next = at + self.places.len() as u64;
        place.turn.store(next, Ordering::SeqCst);
        Taken::Item(item)
    }
}

/// Sends the items 2, 4, .. or 3, 5, ..
fn sends(ring: &Ring, recorder: &mut Recorder, first: u64, items: u64) {
    for item in (first..).step_by(2).take(items as usize) {
        while recorder.send(item, || ring.send(item)) == Sent::Full {
            thread::sleep(PAUSE);
        }
    }
}

/// Takes until all is sent, and then until the ring is empty: a lost item shows only if a later take finds none.
fn takes(ring: &Ring, recorder: &mut Recorder, left: &AtomicU64) {
    loop {
        let is_last = left.load(Ordering::SeqCst) == 0;
        if recorder.take(|| ring.take()) == Taken::None {
            if is_last {
                return;
            }
            thread::sleep(PAUSE);
        }
    }
}

#[cfg(feature = "stops")]
fn stop_threads(log: &Log) -> io::Result<vahepito_record::Stops> {
    log.stop_threads()
}

#[cfg(not(feature = "stops"))]
fn stop_threads(_: &Log) -> io::Result<()> {
    Err(io::Error::other("stops are there with --features stops"))
}

fn main() -> io::Result<()> {
    let words: Vec<String> = std::env::args().skip(1).collect();
    let words: Vec<&str> = words.iter().map(String::as_str).collect();
    let (path, kind, items, stops) = match words[..] {
        [path] => (path, "right", "5000", false),
        [path, kind] => (path, kind, "5000", false),
        [path, kind, items] => (path, kind, items, false),
        [path, kind, items, "stops"] => (path, kind, items, true),
        _ => {
            return Err(io::Error::other(
                "usage: ring LOG [right|early|hasty] [ITEMS] [stops]",
            ));
        }
    };
    let items = items.parse().map_err(io::Error::other)?;
    let (ring, left, all_there) = (Ring::new(64, kind), AtomicU64::new(2), Barrier::new(4));
    let log = Log::create(path)?;
    let _stops = stops.then(|| stop_threads(&log)).transpose()?;
    thread::scope(|scope| {
        for number in 0..2 {
            let mut recorder = log.recorder();
            let (ring, left, all_there) = (&ring, &left, &all_there);
            scope.spawn(move || {
                all_there.wait();
                sends(ring, &mut recorder, 2 + number, items);
                left.fetch_sub(1, Ordering::SeqCst);
            });
        }
        for _ in 0..2 {
            let mut recorder = log.recorder();
            let (ring, left, all_there) = (&ring, &left, &all_there);
            scope.spawn(move || {
                all_there.wait();
                takes(ring, &mut recorder, left);
            });
        }
    });
    Ok(log.finish()?)
}
