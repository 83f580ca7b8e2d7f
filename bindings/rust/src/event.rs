//! The lines in which callers wait. `bindings/WAITS.md` says step by step why no wake-up is lost.
//!
//! An event is a line of those that wait: for an item, for room, for a free seat, or until their call is served. A waiter is a
//! [`Waker`]: a task's, or that of a thread that parks. `waiting` is written under the lock of the line, and *check*
//! only loads it. A task that is polled again while it is in line keeps its place, and may look once more.
//!
//! A seat is acquired by a sequentially consistent exchange. A look at counts that finds nothing loads each seat's flag so, until
//! the seat was free once; beside a seat that stays held it asks the queue. So a look at counts comes after a holder of the seat, and
//! sees what that holder has counted; or before, and then the holder's *check* comes after the look's *stand*. The other accesses to
//! seats and counts need no more than acquire and release.
//!
//! # User code
//!
//! Wakers and items have calls that the user wrote: a waker's clone, wake and drop; an item's clone and drop; the drop
//! of a panic's payload. Each may block, call the channel, or panic. None runs while a lock or a seat is held. This
//! table has every place at which one runs, what was done before it, and what becomes of its panic. [`Panics`] catches
//! panics, and [`Offer::send_by`](crate::channel::body::Offer::send_by) forgets an item that the queue has.
//! `tests/channel/user_code.rs` makes each of them panic.
//!
//! | user code | place | done before it | its panic |
//! |---|---|---|---|
//! | a waker's clone | a poll, before it enters or stays in line, or is posted | the last attempt found nothing; the item is in the future | leaves the poll |
//! | a waker's drop | a poll that replaces the waker, `Event::stay` and those of `rendezvous` | the new waker is in its place | is raised at the end of the poll, if that is pending |
//! | | a poll that is done, `Event::leave`, `rendezvous` | the item is sent or taken, the future is out of the line, a notification that it had is passed on | ends |
//! | | the drop of a future | as above; an item of capacity 0 went to the next take | is raised after the other drops |
//! | a waker's wake | a send, a take, a selected operation, `Event::notify_one` | the item is sent or taken, the waker is out of the line | ends; the next waiter of the line is woken instead, and an item of capacity 0 stays with its take |
//! | | a close, the drop of a last handle | the channel is closed, all wakers are out of their lines | is raised once all are woken, and what is left is dropped |
//! | | a poll without memory for a further queue | the future is in line | is raised at the end of the poll |
//! | an item's drop | the drop of a last handle | the item is out of the queue, the channel is closed or goes on without the group | is raised once all are dropped |
//! | | a send that finds a lost group in the queue | a further queue is in place, the send's item is put back, or sent | ends |
//! | | the drop of a future or a selected operation | the future is out of the line, the take is given up | is raised after the other drops |
//! | | `Item::unpack`, of the last share | the copy is made | ends |
//! | an item's clone | `Item::unpack`, in a take of a group | the item is taken, and one that waits for room is notified | is raised once the share is given up |
//! | items and wakers that are left | the drop of the channel, if futures that wait were forgotten | both sides are gone | is raised once all of its list are dropped |
//! | the expression of a selected item | `select!`, while the operation is held | the room is reserved, or a take is met | leaves the select; the operation's drop gives the room back, or the take up |
//! | a payload's drop | the end of a panic | all of the above | ends; the second payload is forgotten |
//!
//! An item's drop on an error that a call returned, or on what it took, is the caller's.
//!
//! `tests/explore` runs this code in every schedule of a few threads with one preemption, also with stores that wait in
//! buffers, and finds the lost wake-up if a step is left out.
use crate::backoff::{Wait, wait_for_partner};
use crate::host::sync::atomic::{AtomicBool, AtomicU32, AtomicUsize, Ordering};
use crate::host::sync::{Arc, Mutex, MutexGuard, PoisonError};
use crate::host::thread::{self, Thread, panicking};
use crate::host::time::{Duration, Instant};
use crate::numbered::Numbered;
use crate::scheduler::ask_processor;
use std::any::Any;
use std::cell::RefCell;
use std::mem::{forget, replace, swap};
use std::ops::Deref;
use std::panic::{AssertUnwindSafe, catch_unwind, resume_unwind};
use std::task::{Poll, Wake, Waker};

pub fn lock<T>(mutex: &Mutex<T>) -> MutexGuard<'_, T> {
    mutex.lock().unwrap_or_else(PoisonError::into_inner)
}

/// Runs user code, and keeps its first panic. The others end at once, and the first one with this, unless it is raised.
#[derive(Default)]
pub struct Panics(Option<Box<dyn Any + Send>>);

impl Panics {
    /// Runs user code for each of these.
    pub fn run_each<I>(&mut self, all: impl IntoIterator<Item = I>, mut user_code: impl FnMut(I)) {
        for it in all {
            let panic = catch_unwind(AssertUnwindSafe(|| user_code(it))).err();
            drop(Panics(if self.0.is_none() {
                replace(&mut self.0, panic)
            } else {
                panic
            }));
        }
    }

    /// Raises the first panic again, unless this thread panics already.
    pub fn raise(mut self) {
        if !panicking() {
            if let Some(panic) = self.0.take() {
                resume_unwind(panic);
            }
        }
    }
}

/// Ends the panic. The drop of its payload is user code; if that panics, the second payload is forgotten.
impl Drop for Panics {
    fn drop(&mut self) {
        if let Some(panic) = self.0.take() {
            forget(catch_unwind(AssertUnwindSafe(|| drop(panic))));
        }
    }
}

/// Runs user code for each of these, whose panics end here.
pub fn ignore_panics<I>(all: impl IntoIterator<Item = I>, user_code: impl FnMut(I)) {
    Panics::default().run_each(all, user_code);
}

/// The wakers of those that stand in line, by the numbers of their tickets. None until somebody stands in line.
#[derive(Default)]
struct Line(Option<Numbered<Waker>>);

/// There are some if futures were forgotten.
impl Drop for Line {
    #[inline]
    fn drop(&mut self) {
        if let Some(mut wakers) = self.0.take() {
            let mut panics = Panics::default();
            panics.run_each(wakers.take_all(), drop);
            panics.raise();
        }
    }
}

/// It has a cache line for itself: waiters write a line of waiters, and each call of its side reads what is near.
#[derive(Default)]
#[repr(align(64))]
pub struct Apart<T>(T);

impl<T> Deref for Apart<T> {
    type Target = T;

    #[inline]
    fn deref(&self) -> &T {
        &self.0
    }
}

/// The number of a waiter in the line of an event, until a notification takes it out.
#[derive(Clone, Copy)]
pub struct Ticket(u64);

/// How a call of the queue waits until another one has served it, or handed over to it.
pub trait Served {
    /// Turns the call until it is answered.
    fn wait<R>(self, turn: impl FnMut() -> Option<R>) -> R;
}

/// When a thread that waits parks, and what it says of that.
pub trait Parks {
    /// Whether it parks now: another thread of its side may need its processor.
    fn parks_now(&self) -> bool;

    /// It parks, or it runs again.
    fn note_park(&self, parks: bool);
}

/// A thread that parks when its time to spin is over, and says nothing of that.
impl Parks for () {
    fn parks_now(&self) -> bool {
        false
    }

    fn note_park(&self, _: bool) {}
}

/// A line in which callers wait.
#[derive(Default)]
pub struct Event {
    /// Twice the length of the line, and 1; or 0 if no waiter was in it, or its use is forgotten.
    waiting: AtomicUsize,
    line: Mutex<Line>,
}

impl Event {
    /// Changes the line, and then writes its length. A waker that it returns is used, or dropped, once the
    /// lock is released.
    fn with_line<R>(&self, change: impl FnOnce(&mut Numbered<Waker>) -> R) -> R {
        let mut line = lock(&self.line);
        let line = line.0.get_or_insert_default();
        let changed = change(line);
        // It is written under the lock alone.
        let waiting = 2 * line.len() + 1;
        if self.waiting.load(Ordering::Relaxed) != waiting {
            self.waiting.store(waiting, Ordering::SeqCst);
        }
        changed
    }

    /// Stands in line. The waiter has to try after this, before it waits.
    pub fn stand(&self, waker: Waker) -> Ticket {
        Ticket(self.with_line(|line| line.push(waker)))
    }

    /// Stays in line with this waker, after a try that found nothing. Returns whether it was still
    /// there.
    pub fn stay(&self, ticket: Ticket, waker: &Waker, panics: &mut Panics) -> bool {
        let is_same = |line: &mut Line| Some(line.0.as_mut()?.get_mut(ticket.0)?.will_wake(waker));
        match is_same(&mut lock(&self.line)) {
            Some(false) => {}
            there => return there.is_some(),
        }
        let mut waker = waker.clone();
        let is_there = self.with_line(|line| {
            let noted = line.get_mut(ticket.0);
            noted.map(|noted| swap(noted, &mut waker)).is_some()
        });
        // The one that isn't in line.
        panics.run_each([waker], drop);
        is_there
    }

    /// Leaves the line. Returns whether a notification took this one out.
    pub fn leave(&self, ticket: Ticket, panics: &mut Panics) -> bool {
        let waker = self.with_line(|line| line.remove(ticket.0));
        let notified = waker.is_none();
        panics.run_each(waker, drop);
        notified
    }

    /// Leaves the line without a further try: a notification that took this one out is passed on.
    pub fn pass_on(&self, ticket: Ticket, panics: &mut Panics) {
        if self.leave(ticket, panics) {
            self.notify_one();
        }
    }

    /// If no waiter is in line, it is as one in which there never was a waiter.
    #[cold]
    pub fn forget_use(&self) {
        let line = lock(&self.line);
        if line.0.as_ref().is_none_or(|it| it.len() == 0) {
            self.waiting.store(0, Ordering::SeqCst);
        }
    }

    /// Whether a waiter was in line, since its use was last forgotten.
    #[inline]
    pub fn was_used(&self) -> bool {
        self.waiting.load(Ordering::SeqCst) != 0
    }

    #[inline]
    pub fn has_waiters(&self) -> bool {
        self.waiting.load(Ordering::SeqCst) > 1
    }

    /// Wakes the first in line, if there is one. It never panics.
    #[inline]
    pub fn notify_one(&self) {
        if self.has_waiters() {
            self.wake_first();
        }
    }

    #[cold]
    fn wake_first(&self) {
        while let Some(waker) = self.with_line(Numbered::pop_first) {
            let mut panics = Panics::default();
            panics.run_each([waker], Waker::wake);
            if panics.0.is_none() {
                return;
            }
        }
    }

    /// Wakes all that stand in line now.
    pub fn notify_all(&self, panics: &mut Panics) {
        if self.has_waiters() {
            let all: Vec<_> = self.with_line(|line| line.take_all().collect());
            panics.run_each(all, Waker::wake);
        }
    }
}

/// What a [`Parker`] is: idle, or its thread parks, or it was woken.
const IDLE: u32 = 0;
const PARKED: u32 = 1;
const WOKEN: u32 = 2;

/// A thread that parks until it is woken.
pub struct Parker {
    thread: Thread,
    state: AtomicU32,
    /// Whether a park used up a token of the thread that no waker of this one gave. Its own thread alone has it.
    took_token: AtomicBool,
}

impl Wake for Parker {
    fn wake(self: Arc<Self>) {
        if self.state.swap(WOKEN, Ordering::SeqCst) == PARKED {
            self.thread.unpark();
        }
    }
}

thread_local! {
    /// Those of this thread that are idle. A wait inside of another (for a seat, or by an item's own
    /// drop or clone) has one of its own, so that it doesn't use up the other's notification.
    static PARKERS: RefCell<Vec<Arc<Parker>>> = const { RefCell::new(Vec::new()) };
}

#[cfg(vahepito_explore)]
pub fn forget_parkers() {
    PARKERS.take();
}

impl Parker {
    /// Waits by one of this thread that is idle.
    pub fn with<R>(wait: impl FnOnce(&Arc<Parker>) -> R) -> R {
        let idle = PARKERS.try_with(|idle| idle.borrow_mut().pop());
        let parker = idle.ok().flatten().unwrap_or_else(|| {
            Arc::new(Parker {
                thread: thread::current(),
                state: AtomicU32::new(IDLE),
                took_token: AtomicBool::new(false),
            })
        });
        let done = wait(&parker);
        // The token was for another waiter, such as an executor whose poll this is.
        if parker.took_token.swap(false, Ordering::Relaxed) {
            parker.thread.unpark();
        }
        // If the thread locals are gone already, it goes too.
        let _ = PARKERS.try_with(|idle| idle.borrow_mut().push(parker));
        done
    }

    /// Until it is woken, or this moment. It waits a little for a waker that is near, and then parks.
    pub fn wait(&self, until: Option<Instant>) {
        wait_for_partner(until, || self.state.load(Ordering::SeqCst) == WOKEN);
        self.park(until);
    }

    /// Until it is woken, or this moment. It may be woken by a notification of an earlier wait. After a park the thread
    /// may run on another processor.
    pub fn park(&self, until: Option<Instant>) {
        let order = (Ordering::SeqCst, Ordering::SeqCst);
        let set = |from, to| self.state.compare_exchange(from, to, order.0, order.1);
        while set(IDLE, PARKED).is_ok() {
            match until.map(|until| until.saturating_duration_since(Instant::now())) {
                None => thread::park(),
                Some(rest) if !rest.is_zero() => thread::park_timeout(rest),
                Some(_) => {
                    let _ = set(PARKED, IDLE);
                    break;
                }
            }
            ask_processor();
            if set(PARKED, IDLE).is_ok() {
                self.took_token.store(true, Ordering::Relaxed);
            }
        }
        let _ = set(WOKEN, IDLE);
    }
}

/// The result of a try; or when the try is made again.
pub type Try<R> = Result<R, Again>;

/// When a try is made again that found nothing. The lesser of two is the earlier one.
#[derive(Clone, Copy, Debug, PartialEq, Eq, PartialOrd, Ord)]
pub enum Again {
    /// From this moment on, though nobody notifies.
    At(Instant),
    /// Once somebody notifies.
    WhenNotified,
}

impl Again {
    /// After a millisecond, though nobody notifies.
    pub fn soon() -> Again {
        Again::At(Instant::now() + Duration::from_millis(1))
    }

    /// A try that is done if this holds, and is made again once somebody notifies if not.
    #[inline]
    pub fn unless(is_done: bool) -> Try<()> {
        is_done.then_some(()).ok_or(Again::WhenNotified)
    }

    /// The moment until which a waiter parks whose time is over at this one.
    pub fn before(self, until: Option<Instant>) -> Option<Instant> {
        match self {
            Again::At(moment) => Some(until.map_or(moment, |until| until.min(moment))),
            Again::WhenNotified => until,
        }
    }
}

/// Whether this moment has passed.
pub fn is_over(until: Option<Instant>) -> bool {
    until.is_some_and(|until| until <= Instant::now())
}

/// Polls until it is ready, or until this moment: then None. Between the polls it parks.
pub fn poll_until<R>(until: Option<Instant>, mut poll: impl FnMut(&Waker) -> Poll<R>) -> Option<R> {
    Parker::with(|parker| {
        let waker = parker.clone().into();
        loop {
            match poll(&waker) {
                Poll::Ready(done) => return Some(done),
                Poll::Pending if is_over(until) => return None,
                Poll::Pending => {}
            }
            parker.wait(until);
        }
    })
}

/// Tries until it is done. It tries again each millisecond at the latest, since a notification may be missed.
pub fn wait_without_end<R>(
    event: &Event,
    before: &Wait,
    parks: &dyn Parks,
    mut attempt: impl FnMut() -> Option<R>,
) -> R {
    let attempt = || attempt().ok_or_else(Again::soon);
    wait(event, before, None, parks, attempt).expect("it waits without end")
}

/// Tries until it is done, or until this moment: then None. After this wait it parks, and waits for notifications
/// between its tries.
pub fn wait<R>(
    event: &Event,
    before: &Wait,
    until: Option<Instant>,
    parks: &dyn Parks,
    mut attempt: impl FnMut() -> Try<R>,
) -> Option<R> {
    let mut done = None;
    wait_in_line(event, before, until, parks, &mut || {
        done = Some(attempt()?);
        Ok(())
    })?;
    done
}

/// The same, compiled once for all attempts.
#[inline(never)]
fn wait_in_line(
    event: &Event,
    before: &Wait,
    until: Option<Instant>,
    parks: &dyn Parks,
    attempt: &mut dyn FnMut() -> Try<()>,
) -> Option<()> {
    if let Some(done) = before.try_unless(|| parks.parks_now(), until, || attempt().ok()) {
        return Some(done);
    }
    Parker::with(|parker| {
        loop {
            if is_over(until) {
                return attempt().ok();
            }
            let ticket = event.stand(parker.clone().into());
            match attempt() {
                Ok(done) => {
                    event.pass_on(ticket, &mut Panics::default());
                    return Some(done);
                }
                Err(again) => {
                    parks.note_park(true);
                    parker.park(again.before(until));
                    parks.note_park(false);
                }
            }
            event.leave(ticket, &mut Panics::default());
            if let Ok(done) = attempt() {
                return Some(done);
            }
        }
    })
}
