//! How a thread passes the time between its tries, before it parks; and how a seat's calls let others of their side go
//! ahead.
//!
//! Each wait is a time by the clock, since a pause takes 4 ns on one processor and 60 on another. `bindings/WAITS.md` has
//! the reasons.
use crate::host::hint::spin_loop;
use crate::host::sync::OnceLock;
use crate::host::sync::atomic::{AtomicU64, Ordering};
use crate::host::thread;
use crate::host::time::{Duration, Instant};
use crate::scheduler::KNOWS_PROCESSORS;
use std::ops::RangeInclusive;

/// How long a thread spins, and how long it then yields the processor, before it parks.
pub struct Wait {
    spins: Duration,
    yields: Duration,
}

const fn micros(spins: u64, yields: u64) -> Wait {
    let (spins, yields) = (Duration::from_micros(spins), Duration::from_micros(yields));
    Wait { spins, yields }
}

/// Until something comes from the other side: a park costs some microseconds. A thread that yields beside other programs' threads may
/// run again some milliseconds later, though an item came at once, while one that is parked is woken.
pub const FOR_OTHERS: Wait = micros(1, 0);
/// The same while many items pass: then the threads that a yield lets run are the channel's own, and parks take longer than items.
const FOR_OTHERS_AT_PACE: Wait = micros(1, 4);

/// Until something comes from the other side, which is slow or isn't.
pub const fn for_others(is_slow: bool) -> &'static Wait {
    if is_slow {
        &FOR_OTHERS
    } else {
        &FOR_OTHERS_AT_PACE
    }
}

/// A side is slow if an item takes longer than this: longer than the park of a sender and that of a receiver.
pub const PACE: Duration = Duration::from_micros(20);
/// Until a call that has a seat is over, if it runs: a call takes some hundred nanoseconds.
pub const FOR_A_LOOK: Wait = micros(1, 0);
/// Until the own side goes on. A thread that parks beside threads that compute is woken at once, and then waits some
/// milliseconds for a processor; with yields before the park the slowest calls last longer. So it is long, unless a
/// preempted call of the side may need this thread's processor: where that isn't known, the wait is short. The thread
/// sanitizer sees neither std's parks nor what std does within its locks: under it no thread parks here.
pub const FOR_OWN_SIDE: Wait = micros(
    if KNOWS_PROCESSORS { 150 } else { 20 },
    if cfg!(vahepito_tsan) { u64::MAX } else { 0 },
);
/// A call that runs is over by then. So a call that isn't may be preempted.
const OF_A_CALL: Duration = Duration::from_nanos(1500);

/// The pause after the first try: as long as a service. Each try takes the call's cache line from the thread that is
/// about to write the answer there. Each further pause is twice as long, up to the longest.
const FIRST_PAUSE: Duration = Duration::from_nanos(150);
const LONGEST_PAUSE: Duration = Duration::from_micros(1);

impl Wait {
    /// Tries until it is done, or until it is time to park, or this moment: then None.
    pub fn try_until<T>(
        &self,
        until: Option<Instant>,
        attempt: impl FnMut() -> Option<T>,
    ) -> Option<T> {
        self.try_unless(|| false, until, attempt)
    }

    /// The same, and it is time to park too if this holds and a call that runs would be over.
    pub fn try_unless<T>(
        &self,
        parks_now: impl Fn() -> bool,
        until: Option<Instant>,
        mut attempt: impl FnMut() -> Option<T>,
    ) -> Option<T> {
        let (begin, mut pause) = (Instant::now(), FIRST_PAUSE);
        let rest = until.map_or(Duration::MAX, |it| it.saturating_duration_since(begin));
        let spins = self.spins.min(rest);
        let all = self.spins.saturating_add(self.yields).min(rest);
        loop {
            let done = attempt();
            let spent = begin.elapsed();
            if done.is_some() || spent >= all || (spent >= OF_A_CALL && parks_now()) {
                return done;
            }
            if spent < spins {
                spin_until(begin, spent + pause);
                pause = LONGEST_PAUSE.min(2 * pause);
            } else {
                thread::yield_now();
            }
        }
    }
}

/// Spins until this time is over from that moment on.
fn spin_until(from: Instant, time: Duration) {
    while from.elapsed() < time {
        spin_loop();
    }
}

/// How long a thread looks for a partner that is to exchange an item with it: as long as an exchange takes.
const FOR_AN_EXCHANGE: Duration = Duration::from_nanos(400);
/// How often it then yields its processor, which the partner may wait for, before it parks.
const YIELDS: u32 = 4;

/// Waits until this holds, by looks at a word that the partner alone writes; or until it is time to park, or this
/// moment.
pub fn wait_for_partner(until: Option<Instant>, is_done: impl Fn() -> bool) {
    let (begin, mut yields) = (Instant::now(), 0);
    while !is_done() {
        let spent = begin.elapsed();
        if spent < FOR_AN_EXCHANGE {
            spin_loop();
        } else if yields < YIELDS && until.is_none_or(|it| begin + spent < it) {
            yields += 1;
            thread::yield_now();
        } else {
            return;
        }
    }
}

/// How long the other side goes ahead: some items, and less than a park costs.
const AHEAD: Duration = Duration::from_micros(1);

/// Lets the other side go ahead.
pub fn let_ahead() {
    spin_until(Instant::now(), AHEAD);
}

/// How long others go ahead of a call: some of their calls.
const OTHERS_AHEAD: Duration = Duration::from_micros(2);
/// A thread that does other work for longer than this between two calls doesn't contend for its side.
const AT_ONCE: u64 = 500;
/// After this time without a call that another one served, a seat's thread is taken to be alone on its side.
const ALONE_AFTER: u64 = 20_000;
/// A side is close behind the other one if there are so few items, or places, between both. With one or none its next
/// call waits, or one thread makes the calls of both sides.
const CLOSE: RangeInclusive<u64> = 2..=8;
/// In this time the other side passes an item, if it runs.
const OF_AN_ITEM: Duration = Duration::from_nanos(250);

/// Whether the calls of a seat contend for cache lines. Then the next one first lets others go ahead. The call before has
/// ended by then: its seat is free, and whoever waits for its item is notified.
///
/// - **With its own side.** Two threads of a side that call again and again meet at each call: each waits until the other
///   has served it, and for the other's cache lines. So if two calls in a row of a seat waited, and the next one comes at
///   once, the others make some calls alone.
/// - **With the other side.** A thread that is close behind the other side waits for a cache line at each item, and so
///   does the other side. Both are as slow then, and stay so, though neither finds the queue empty or full.
///
/// It is four times the moment at which the last call ended that another one served, or at which a call had let its own
/// side go ahead; and what the next call asks.
#[derive(Default)]
pub struct Contention(AtomicU64);

/// Whether it comes at once: the last call came at once after another one that was served, and was served too.
const OWN_SIDE: u64 = 1;
/// Whether the other side is close.
const OTHER_SIDE: u64 = 2;

/// The nanoseconds since the first question.
fn now() -> u64 {
    static FIRST: OnceLock<Instant> = OnceLock::new();
    FIRST.get_or_init(Instant::now).elapsed().as_nanos() as u64
}

impl Contention {
    /// Whether a call was served within this time.
    fn was_served_within(&self, time: u64) -> bool {
        let moment = self.0.load(Ordering::Relaxed) / 4;
        moment != 0 && now().saturating_sub(moment) < time
    }

    /// Makes a call of the seat that another one serves, and notes its end.
    pub fn note_served<R>(&self, call: impl FnOnce() -> R) -> R {
        let comes_at_once = self.was_served_within(AT_ONCE);
        let done = call();
        self.0
            .store(4 * now() + u64::from(comes_at_once), Ordering::Relaxed);
        done
    }

    /// The next call looks at the other side.
    #[inline]
    pub fn look_next(&self) {
        let now = self.0.load(Ordering::Relaxed);
        self.0.store(now | OTHER_SIDE, Ordering::Relaxed);
    }

    /// Whether the next call may let others go ahead.
    #[inline]
    pub fn asks(&self) -> bool {
        self.0.load(Ordering::Relaxed) % 4 != 0
    }

    /// Before such a call, by a thread that holds no lock. The distance is the number of items, or places, between both
    /// sides.
    pub fn let_ahead(&self, distance: impl Fn() -> u64) {
        let before = self.0.load(Ordering::Relaxed);
        self.0.store(before - before % 4, Ordering::Relaxed);
        if before & OWN_SIDE != 0 && self.was_served_within(AT_ONCE) {
            spin_until(Instant::now(), OTHERS_AHEAD);
            self.0.store(4 * now(), Ordering::Relaxed);
        } else if !self.was_served_within(ALONE_AFTER) && comes_closer(distance) {
            spin_until(Instant::now(), OTHERS_AHEAD);
        }
    }
}

/// Whether the other side is close, and runs.
fn comes_closer(distance: impl Fn() -> u64) -> bool {
    let first = distance();
    CLOSE.contains(&first) && {
        spin_until(Instant::now(), OF_AN_ITEM);
        distance() != first
    }
}
