//! Timers, and a receiver that has no item. None has a queue: a call that waits parks until the moment, and futures
//! that wait are woken by a thread, which is the same for all timers.
use super::Receiver;
use super::body::Item;
use super::side::Source;
use crate::event::{Again, Event, Panics, Try, lock};
use crate::host::sync::atomic::{AtomicBool, AtomicU64, Ordering};
use crate::host::sync::{Arc, Mutex};
use crate::host::time::{Duration, Instant};
use std::collections::BTreeMap;
use std::marker::PhantomData;
use std::sync::Weak;
use std::thread::{self, Thread};

/// When there is an item, which is the moment.
pub struct Timer {
    /// None if there is none any more.
    due: Mutex<Option<Instant>>,
    every: Option<Duration>,
    /// One of a channel of `Instant`s, or it has none at all.
    pub has_items: bool,
    closed: AtomicBool,
    /// How many items were taken. It grows under the lock of `due`.
    pub taken: AtomicU64,
    /// The line of those that wait for the moment, or for a close.
    pub line: Event,
}

/// The timers for whose moments futures wait, by the moments and the timers' addresses. Now and then those that are
/// gone are taken out.
static AWAITED: Mutex<BTreeMap<(Instant, usize), Weak<Timer>>> = Mutex::new(BTreeMap::new());

/// The thread that wakes the futures, once one waits.
static THREAD: Mutex<Option<Thread>> = Mutex::new(None);

/// Notifies the line of each timer at its moment.
fn notify_at_moments() {
    loop {
        let mut awaited = lock(&AWAITED);
        let next = awaited.first_key_value().map(|it| it.0.0);
        let rest = next.map_or(Duration::MAX, |it| {
            it.saturating_duration_since(Instant::now())
        });
        let due = if rest.is_zero() {
            awaited.pop_first()
        } else {
            None
        };
        drop(awaited);
        match due {
            None => thread::park_timeout(rest),
            Some((_, timer)) => {
                let notify = |it: Arc<Timer>| it.line.notify_all(&mut Panics::default());
                timer.upgrade().map(notify);
            }
        }
    }
}

impl Timer {
    /// Takes the item of a moment that has come; or gives None if none will come. The next one comes a period after it,
    /// or, if a whole period has passed, after now.
    pub fn try_take(&self) -> Try<Option<Item>> {
        let mut due = lock(&self.due);
        let Some(at) = *due else {
            return Again::unless(self.is_closed()).map(|()| None);
        };
        let now = Instant::now();
        if now < at {
            return Err(Again::At(at));
        }
        let next = |every: Duration| {
            let from = if now - at < every { at } else { now };
            from.checked_add(every)
        };
        *due = self.every.filter(|_| !self.is_closed()).and_then(next);
        self.taken.fetch_add(1, Ordering::SeqCst);
        Ok(Some(Item::alone(at)))
    }

    /// A thread notifies the line at the next moment. Returns whether there is such a thread.
    pub fn notify_when_due(self: &Arc<Timer>) -> bool {
        let Some(due) = *lock(&self.due) else {
            return true;
        };
        let mut awaited = lock(&AWAITED);
        let key = (due, Arc::as_ptr(self).addr());
        let is_new = awaited.insert(key, Arc::downgrade(self)).is_none();
        if is_new && awaited.len().is_power_of_two() {
            awaited.retain(|_, it| it.strong_count() > 0);
        }
        drop(awaited);
        let mut thread = lock(&THREAD);
        if thread.is_none() {
            let builder = thread::Builder::new().name("vahepito timers".to_string());
            let started = builder.spawn(notify_at_moments);
            *thread = started.ok().map(|it| it.thread().clone());
        }
        let unpark = |it: &Thread| {
            if is_new {
                it.unpark();
            }
        };
        thread.as_ref().map(unpark).is_some()
    }

    /// Whether there is an item, or none will come.
    pub fn look(&self) -> Try<()> {
        match *lock(&self.due) {
            None => Again::unless(self.is_closed()),
            Some(at) if Instant::now() < at => Err(Again::At(at)),
            Some(_) => Ok(()),
        }
    }

    /// How many items there have been, and maybe one more. None if it is closed.
    pub fn possible(&self) -> Option<u64> {
        let left = self.len() as u64;
        (!self.is_closed()).then(|| self.taken.load(Ordering::SeqCst) + left)
    }

    pub fn len(&self) -> usize {
        let is_due = |at| at <= Instant::now();
        lock(&self.due).is_some_and(is_due).into()
    }

    pub fn is_closed(&self) -> bool {
        self.closed.load(Ordering::SeqCst)
    }

    /// A moment that has come stays, and none follows.
    pub fn close(&self) -> bool {
        let mut due = lock(&self.due);
        *due = due.filter(|at| *at <= Instant::now());
        let was_open = !self.closed.swap(true, Ordering::SeqCst);
        drop(due);
        let mut panics = Panics::default();
        self.line.notify_all(&mut panics);
        panics.raise();
        was_open
    }
}

fn timer<T>(due: Option<Instant>, every: Option<Duration>, has_items: bool) -> Receiver<T> {
    let timer = Arc::new(Timer {
        due: Mutex::new(due),
        every,
        has_items,
        closed: AtomicBool::new(false),
        taken: AtomicU64::new(0),
        line: Event::default(),
    });
    Receiver(Source::Timer(timer), PhantomData)
}

/// A receiver with one item, which is there at this moment, and is the moment. Then it is empty for ever.
///
/// ```
/// use std::time::{Duration, Instant};
///
/// let soon = Instant::now() + Duration::from_millis(5);
/// let receiver = vahepito::at(soon);
/// assert!(receiver.try_recv().is_err());
/// assert_eq!(receiver.recv(), Ok(soon));
/// assert!(Instant::now() >= soon);
/// ```
#[must_use]
pub fn at(moment: Instant) -> Receiver<Instant> {
    timer(Some(moment), None, true)
}

/// As [`at`], with the moment that comes after this time.
///
/// ```
/// use std::time::Duration;
/// use vahepito::{after, channel, select};
///
/// let (_sender, receiver) = channel::<u32>(1)?;
/// let over = after(Duration::from_millis(5));
/// let result = select! {
///     recv(receiver) -> number => number.ok(),
///     recv(over) -> _ => None,
/// };
/// assert_eq!(result, None);
/// # Ok::<(), vahepito::OpenError>(())
/// ```
#[must_use]
pub fn after(time: Duration) -> Receiver<Instant> {
    // A moment beyond the clock's range never comes.
    let moment = Instant::now().checked_add(time);
    timer(moment, None, true)
}

/// A receiver with an item, its moment, once in each such period, the first one a period from now. Those that
/// aren't taken in time are left out: there is one at most.
///
/// ```
/// use std::time::{Duration, Instant};
///
/// let (start, period) = (Instant::now(), Duration::from_millis(5));
/// let ticks = vahepito::tick(period);
/// assert!(ticks.recv().unwrap() >= start + period);
/// assert!(ticks.recv().unwrap() >= start + 2 * period);
/// ```
#[must_use]
pub fn tick(period: Duration) -> Receiver<Instant> {
    let first = Instant::now().checked_add(period);
    timer(first, Some(period), true)
}

/// A receiver that has no item, ever, and doesn't end: for an arm of a select that isn't wanted this time.
///
/// ```
/// use std::time::Duration;
/// use vahepito::{channel, never, select};
///
/// let (sender, receiver) = channel(1)?;
/// sender.send(1).unwrap();
/// for wanted in [true, false] {
///     let none = never();
///     select! {
///         recv(if wanted { &receiver } else { &none }) -> number => assert_eq!(number, Ok(1)),
///         default(Duration::from_millis(5)) => assert!(!wanted),
///     }
/// }
/// # Ok::<(), vahepito::OpenError>(())
/// ```
#[must_use]
pub fn never<T>() -> Receiver<T> {
    timer(None, None, false)
}
