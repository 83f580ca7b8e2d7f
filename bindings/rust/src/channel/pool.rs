//! The seats of one side. A seat has a pass of the queue; a call acquires a free seat, makes one call of
//! the pass, and gives the seat back. So there may be any number of handles.
//!
//! To acquire a seat is one exchange, and to give it back one store, after which the line is looked at. A
//! caller that finds none free tries a few times more, and then parks: see [`event`](crate::event).
//!
//! A held seat says on which processor its holder was last. A call that waits parks soon if the holder of another seat
//! was on its own processor: that thread may be preempted, and the call may need it. If none was, the call spins for
//! longer: a thread that parks may have to wait for a processor once its call is served.
//!
//! **A side begins with one seat**, which is enough as long as one thread at a time calls. A call that finds the seat held asks
//! for the other seats ([`Core::acquire_seat`](super::core::Core::acquire_seat)). They are added once, while all seats are held.
#![allow(unsafe_code)]

use crate::backoff::{Contention, FOR_A_LOOK, FOR_OWN_SIDE};
use crate::event::{Apart, Event, Panics, Parks, Served, lock, wait_without_end};
use crate::host::sync::atomic::{
    AtomicBool, AtomicU16, AtomicU32, AtomicU64, AtomicUsize, Ordering,
};
use crate::host::sync::{Mutex, OnceLock};
use crate::host::thread::available_parallelism;
use crate::host::thread_number;
use crate::host::time::{Duration, Instant};
use crate::queue::handle::{Handle, NO_ITEM, Taken, Word, code, word_of};
use crate::scheduler::{ask_processor, last_processor};
use std::cell::{Cell, UnsafeCell};
use std::mem::ManuallyDrop;

/// The passes of a side are no more than these.
const MOST: usize = 64;
/// A thread is ahead of the other side once it passed this many items since it was asked.
const AHEAD_AFTER: u64 = 5;
/// After this number of items the next call of a seat looks at the other side.
const ROUND: u64 = 64;

/// After this time the processors are asked for again.
const ASKED_AGAIN: Duration = Duration::from_secs(1);

/// How many seats a side of a channel has that is opened now: twice as many as processors, as a power of two. A process may be
/// bound to a few processors for a while.
pub fn seats() -> usize {
    static ASKED: Mutex<Option<(Instant, usize)>> = Mutex::new(None);
    let mut asked = lock(&ASKED);
    let known = asked.filter(|it| it.0.elapsed() < ASKED_AGAIN);
    let (_, processors) = asked.insert(known.unwrap_or_else(|| {
        let processors = available_parallelism().map_or(1, usize::from);
        (Instant::now(), processors)
    }));
    (2 * *processors).next_power_of_two().min(MOST)
}

/// How long a look waits for the threads that hold a seat, or the lock of the groups.
#[derive(Clone, Copy, PartialEq)]
pub enum Patience {
    /// Until each was done once: the look finds nothing only if there was nothing.
    Waits,
    /// For some pauses: if a thread isn't done by then, which may not run, the look says that there is something.
    Pauses,
}

/// A pass, and which of the channel's queues it is of.
pub struct QueueHandle {
    pub handle: Handle,
    pub queue: u64,
    /// How many groups that queue has.
    pub shares: usize,
}

impl QueueHandle {
    #[inline]
    pub fn new(handle: Handle, queue: u64, shares: usize) -> QueueHandle {
        QueueHandle {
            handle,
            queue,
            shares,
        }
    }
}

/// What a free seat says.
const FREE: u32 = 0;
/// What a held seat says at least. Its holder's processor is added, from 1.
const HELD: u32 = 1;

/// What a seat says that this thread holds.
#[inline]
fn holder() -> u32 {
    HELD + last_processor()
}

/// A cache line for itself.
#[repr(align(64))]
struct Seat {
    /// [`FREE`], or what [`holder`] returned to the thread that holds it. [`HELD`] while that is parked, or if nobody
    /// knows where it runs.
    held: AtomicU32,
    /// At the ends of how many of its last calls no call was parked. The holder alone writes it.
    quiet: AtomicU16,
    /// Its number among the seats, from 1.
    number: u16,
    contention: Contention,
    /// How many items went through it. The holder alone writes it.
    count: AtomicU64,
    /// The count at the last question for it, by [`Pool::check_ahead`].
    asked: AtomicU64,
    pass: UnsafeCell<QueueHandle>,
}

/// With seats of two lines an item takes 1.25 times as long at 1/1.
#[cfg(not(vahepito_unproved))]
const _: () = assert!(size_of::<Seat>() == 64);

// SAFETY: `pass` is reached by the holder of the seat alone ([`SeatGuard`]), and there is one at a time:
// whoever exchanges `FREE` in `held`, until that is stored there again. Threads so have the pass one after
// another, each with what the one before it did, by an acquire and a release; which is to send it from
// one to the next, and `QueueHandle` is `Send`.
unsafe impl Sync for Seat where QueueHandle: Send {}

/// A seat beside others: it also has the line that is fetched with its own.
#[repr(align(128))]
struct Other(Seat);

pub struct Pool {
    first: Seat,
    /// The other seats, once there are some. Their number is a power of two less one.
    others: OnceLock<Box<[Other]>>,
    /// Whether there are: the thread sanitizer sees this, and not what the cell of `others` does.
    has_others: AtomicBool,
    /// How many seats there are up to the last one that an item went through.
    used: AtomicUsize,
    /// The line in which callers wait for a free seat.
    free: Apart<Event>,
    /// The line in which callers wait until another one has served their call, or handed over to it.
    served: Apart<Event>,
}

/// A call in a seat, which waits until another one has served it.
#[derive(Clone, Copy)]
pub struct InSeat<'a> {
    pool: &'a Pool,
    seat: &'a Seat,
}

/// A seat that is held, until the drop.
pub struct SeatGuard<'a> {
    pub pool: &'a Pool,
    seat: &'a Seat,
}

impl Seat {
    fn new(number: u16, pass: QueueHandle) -> Seat {
        Seat {
            held: AtomicU32::new(FREE),
            quiet: AtomicU16::new(0),
            number,
            contention: Contention::default(),
            count: AtomicU64::new(0),
            asked: AtomicU64::new(0),
            pass: UnsafeCell::new(pass),
        }
    }

    #[inline]
    fn count(&self) -> u64 {
        self.count.load(Ordering::Acquire)
    }

    #[inline]
    fn is_held(&self) -> bool {
        self.held.load(Ordering::SeqCst) != FREE
    }

    /// Acquires it, if it is free. A seat that is held keeps its mark.
    #[inline(always)]
    fn try_hold(&self) -> bool {
        let order = (Ordering::SeqCst, Ordering::SeqCst);
        let held = self.held.compare_exchange(FREE, holder(), order.0, order.1);
        held.is_ok()
    }
}

impl<'a> SeatGuard<'a> {
    /// Its pass, and where a call of the pass waits until it is served.
    #[inline]
    pub fn pass(&mut self) -> (&mut QueueHandle, InSeat<'a>) {
        // SAFETY: this is the holder of the seat, so there is no other reference to its pass; and this
        // one lasts no longer than the borrow of `self`, which gives the seat back at its drop.
        let pass = unsafe { &mut *self.seat.pass.get() };
        let (pool, seat) = (self.pool, self.seat);
        (pass, InSeat { pool, seat })
    }

    /// Sends this word by its pass, and waits for the answer: the code of a send.
    #[inline(always)]
    pub fn send_word(&mut self, word: Word) -> u32 {
        match self.pass().0.handle.try_send_word(word) {
            code::WAITING => self.pool.wait_for_send(self.seat),
            code => code,
        }
    }

    /// Takes a word by its pass, and waits for the answer. If there is no item, it returns the code of the take.
    #[inline(always)]
    pub fn take_word(&mut self) -> Result<Word, u32> {
        let mut item = NO_ITEM;
        let code = match self.pass().0.handle.try_take_word(&mut item) {
            code::WAITING => self.pool.wait_for_take(self.seat, &mut item),
            code => code,
        };
        match code {
            code::GOT => Ok(word_of(&item)),
            code => Err(code),
        }
    }

    /// Wakes the waiters that the call of this seat may have served. The holder does so before its next call, which may wait
    /// for them, and before it waits for a lock, which may be theirs.
    #[inline]
    pub fn wake_served(&self) {
        if self.pool.served.was_used() {
            store_and_wake(self.seat, holder(), &self.pool.served);
        }
    }

    /// Closes the queue of its pass. Returns whether that was open.
    pub fn close(&mut self) -> bool {
        let (pass, in_seat) = self.pass();
        pass.handle.close(in_seat)
    }

    /// Its index among the seats, from 0.
    pub fn index(&self) -> usize {
        usize::from(self.seat.number) - 1
    }

    /// Counts an item that went through the seat.
    #[inline]
    pub fn count_one(&mut self) {
        let count = self.seat.count.load(Ordering::Relaxed);
        if count % ROUND == 0 {
            self.pool.end_round(self.seat, count);
        }
        self.seat.count.store(count + 1, Ordering::Release);
    }

    /// The seat, which stays held.
    fn keep(self) -> &'a Seat {
        ManuallyDrop::new(self).seat
    }

    /// Gives the seat back. This is the drop, in the caller's own code: so the guard has no address there, and stays in
    /// registers.
    #[inline(always)]
    pub fn give_back(self) {
        let pool = self.pool;
        pool.give_back(self.keep());
    }
}

/// After this number of calls of a seat at whose ends no call was parked, seats are given back by a store again.
const FORGET_AFTER: u16 = 1024;

/// Gives a seat back, or keeps it, by an exchange. The exchange waits until the stores of the seat's call are in memory: one of them may
/// have served a waiter of this line. Then it wakes all waiters.
#[cold]
fn store_and_wake(seat: &Seat, held: u32, served: &Event) {
    let is_quiet = !served.has_waiters();
    let before = seat.quiet.load(Ordering::Relaxed);
    let quiet = if is_quiet { before + 1 } else { 0 };
    seat.quiet.store(quiet % FORGET_AFTER, Ordering::Relaxed);
    seat.held.swap(held, Ordering::SeqCst);
    if served.has_waiters() {
        served.notify_all(&mut Panics::default());
    } else if quiet == FORGET_AFTER {
        served.forget_use();
    }
}

impl Drop for SeatGuard<'_> {
    #[inline]
    fn drop(&mut self) {
        self.pool.give_back_far(self.seat);
    }
}

impl Served for InSeat<'_> {
    fn wait<R>(self, turn: impl FnMut() -> Option<R>) -> R {
        let line = &self.pool.served;
        let wait = || wait_without_end(line, &FOR_OWN_SIDE, &self, turn);
        self.seat.contention.note_served(wait)
    }
}

impl Parks for InSeat<'_> {
    fn parks_now(&self) -> bool {
        self.pool
            .is_beside_holder(|it| it.number != self.seat.number)
    }

    fn note_park(&self, parks: bool) {
        let held = if parks { HELD } else { holder() };
        self.seat.held.store(held, Ordering::Relaxed);
    }
}

/// A thread that has no seat.
impl Parks for Pool {
    fn parks_now(&self) -> bool {
        self.is_beside_holder(|_| true)
    }

    fn note_park(&self, _: bool) {}
}

thread_local! {
    /// Which seat this thread tries first, of each pool, by the lowest bits; 0 before the first question.
    static HINT: Cell<usize> = const { Cell::new(0) };
}

/// Which seat this thread tries first.
fn hint() -> usize {
    match HINT.get() {
        0 => begin_at(thread_number()),
        hint => hint,
    }
}

#[cfg(vahepito_explore)]
pub fn forget_hint() {
    HINT.set(0);
}

/// This thread tries this seat first from now on.
fn begin_at(seat: usize) -> usize {
    let hint = MOST + seat % MOST;
    HINT.set(hint);
    hint
}

impl Pool {
    /// With a seat for each of these passes, whose number is a power of two.
    #[inline]
    pub fn new(mut passes: impl Iterator<Item = QueueHandle>) -> Pool {
        let first = passes.next().expect("a side has a seat");
        let others = Pool::seats_of(passes);
        Pool {
            first: Seat::new(1, first),
            has_others: AtomicBool::new(others.is_some()),
            others: others.map_or_else(OnceLock::new, OnceLock::from),
            used: AtomicUsize::new(0),
            free: Apart::default(),
            served: Apart::default(),
        }
    }

    /// From here on a call was in the line of those that wait until they are served.
    #[cfg(vahepito_explore)]
    pub fn use_line(&self) {
        let ticket = self.served.stand(std::task::Waker::noop().clone());
        self.served.leave(ticket, &mut Panics::default());
    }

    /// Other seats with these passes, if there are some.
    fn seats_of(passes: impl Iterator<Item = QueueHandle>) -> Option<Box<[Other]>> {
        let seat = |(number, pass)| Other(Seat::new(number, pass));
        let others: Box<[Other]> = (2..).zip(passes).map(seat).collect();
        debug_assert!((1 + others.len()).is_power_of_two());
        (!others.is_empty()).then_some(others)
    }

    /// Adds seats with these passes, if there are some. The caller has all seats, and none was added before. With the one seat
    /// that there is they are a power of two.
    pub fn add(&self, passes: impl Iterator<Item = QueueHandle>) {
        if let Some(others) = Pool::seats_of(passes) {
            let added = self.others.set(others);
            debug_assert!(added.is_ok());
            self.has_others.store(true, Ordering::Release);
        }
    }

    /// The other seats.
    #[inline]
    fn others(&self) -> &[Other] {
        if cfg!(vahepito_tsan) && !self.has_others.load(Ordering::Acquire) {
            return &[];
        }
        self.others.get().map_or(&[], |it| it)
    }

    /// How many seats there are.
    pub fn len(&self) -> usize {
        1 + self.others().len()
    }

    /// How many items went through all seats.
    #[inline]
    pub fn count(&self) -> u64 {
        let first = self.first.count();
        match self.used.load(Ordering::Acquire) {
            0 | 1 => first,
            used => self.count_others(first, used - 1),
        }
    }

    /// The number of items that went through the first seat, which is given, and through this number of other seats.
    #[inline(never)]
    fn count_others(&self, first: u64, others: usize) -> u64 {
        let others = self.others().iter().take(others);
        first + others.map(|it| it.0.count()).sum::<u64>()
    }

    /// The seat that this thread tries first.
    #[inline]
    fn seat(&self) -> &Seat {
        match self.others() {
            [] => &self.first,
            others => match HINT.get() {
                0 => self.seat_of_new_thread(),
                hint => self.seat_at(others, hint),
            },
        }
    }

    #[cold]
    #[inline(never)]
    fn seat_of_new_thread(&self) -> &Seat {
        self.seat_at(self.others(), hint())
    }

    /// The seat at this index, of which the lowest bits count.
    #[inline]
    fn seat_at<'a>(&'a self, others: &'a [Other], at: usize) -> &'a Seat {
        let other = others.get((at & others.len()).wrapping_sub(1));
        other.map_or(&self.first, |it| &it.0)
    }

    /// Whether several items went through the seat that this thread tries first, since this was last asked of it.
    pub fn check_ahead(&self) -> bool {
        let seat = self.seat();
        let count = seat.count.load(Ordering::Relaxed);
        count.saturating_sub(seat.asked.swap(count, Ordering::Relaxed)) >= AHEAD_AFTER
    }

    /// Acquires this seat, if it is free.
    #[inline]
    fn try_seat<'a>(&'a self, seat: &'a Seat) -> Option<SeatGuard<'a>> {
        seat.try_hold().then(|| SeatGuard { pool: self, seat })
    }

    /// Acquires the seat that this thread tries first, if that is free and its calls don't contend. Else `another`
    /// acquires a seat of this pool. The guard has the caller's pool, and so needs no register for the pool.
    #[inline(always)]
    pub fn acquire_or<'a>(&'a self, another: impl FnOnce() -> SeatGuard<'a>) -> SeatGuard<'a> {
        let mut seat = self.seat();
        if seat.contention.asks() || !seat.try_hold() {
            seat = another().keep();
        }
        SeatGuard { pool: self, seat }
    }

    /// Gives a seat back that is held, and wakes those that wait for it.
    #[inline(always)]
    fn give_back(&self, seat: &Seat) {
        if self.served.was_used() {
            store_and_wake(seat, FREE, &self.served);
        } else {
            seat.held.store(FREE, Ordering::Release);
        }
        self.free.notify_one();
    }

    /// Turns the send of this seat until it is answered. The seat says where its pass is, so a caller needs no register
    /// for the pass.
    #[cold]
    #[inline(never)]
    fn wait_for_send(&self, seat: &Seat) -> u32 {
        let mut held = ManuallyDrop::new(SeatGuard { pool: self, seat });
        let (pass, in_seat) = held.pass();
        pass.handle.wait_for_send(in_seat)
    }

    /// The same of its take.
    #[cold]
    #[inline(never)]
    fn wait_for_take(&self, seat: &Seat, item: &mut Taken) -> u32 {
        let mut held = ManuallyDrop::new(SeatGuard { pool: self, seat });
        let (pass, in_seat) = held.pass();
        pass.handle.wait_for_take(item, in_seat)
    }

    /// Gives the seat back as above, by a call: for the drop, which is rare.
    #[inline(never)]
    fn give_back_far(&self, seat: &Seat) {
        self.give_back(seat);
    }

    /// Before the first item of a seat, and each 64th one.
    #[cold]
    fn end_round(&self, seat: &Seat, count: u64) {
        if count == 0 {
            self.used
                .fetch_max(usize::from(seat.number), Ordering::AcqRel);
        }
        seat.contention.look_next();
        ask_processor();
    }

    /// The same if its calls may contend, by a thread that holds no lock, once others have gone ahead.
    pub fn try_acquire_behind(&self, distance: impl Fn() -> u64) -> Option<SeatGuard<'_>> {
        let seat = self.seat();
        if !seat.contention.asks() {
            return None;
        }
        seat.contention.let_ahead(distance);
        self.try_seat(seat)
    }

    /// Acquires a free seat, and waits for one.
    pub fn acquire(&self) -> SeatGuard<'_> {
        let seat = self.try_seat(self.seat());
        seat.unwrap_or_else(|| self.acquire_another())
    }

    /// Waits in line for a free seat. The holder's look at the line may come before this thread sees the store that frees the seat.
    fn wait_for_free<R>(&self, attempt: impl FnMut() -> Option<R>) -> R {
        wait_without_end(&self.free, &FOR_OWN_SIDE, self, attempt)
    }

    #[cold]
    pub fn acquire_another(&self) -> SeatGuard<'_> {
        let hint = hint();
        let (at, held) = self.wait_for_free(|| {
            let others = self.others();
            let mut around = hint..=hint + others.len();
            around.find_map(|at| Some((at, self.try_seat(self.seat_at(others, at))?)))
        });
        begin_at(at);
        held
    }

    /// All seats. A caller that comes to the end of the others knows those that were added before it came to the first one.
    fn seats(&self) -> impl Iterator<Item = &Seat> {
        (0..).map_while(|at| match at {
            0 => Some(&self.first),
            at => Some(&self.others().get(at - 1)?.0),
        })
    }

    /// Whether the holder of such a seat was last on this thread's processor.
    fn is_beside_holder(&self, is_such: impl Fn(&Seat) -> bool) -> bool {
        let is_known = ask_processor() != 0;
        let is_beside = |it: &Seat| it.held.load(Ordering::Relaxed) == holder() && is_such(it);
        is_known && self.seats().any(is_beside)
    }

    /// Acquires each seat that is free.
    pub fn acquire_free(&self) -> impl Iterator<Item = SeatGuard<'_>> {
        self.seats().filter_map(|seat| self.try_seat(seat))
    }

    /// Waits until each seat was free once. So whoever had a seat has counted what went through it; and whoever
    /// acquires a seat after that sees what this thread did before. Returns true.
    ///
    /// It looks for the other seats after it saw the first one free. A thread that adds seats has the first one
    /// meanwhile. So a seat that isn't looked at was added later, and what went through it came later.
    #[inline(never)]
    pub fn wait_for_holders(&self) -> bool {
        self.sees_each_free(|seat| self.wait_for(seat))
    }

    /// Whether each seat was free once, now or after some pauses. A holder that doesn't run isn't waited for.
    #[inline]
    pub fn pause_for_holders(&self) -> bool {
        self.sees_each_free(Pool::pause_for)
    }

    /// Whether each seat was free once, with this patience for the holders.
    #[inline(always)]
    pub fn sees_holders_done(&self, patience: Patience) -> bool {
        match patience {
            Patience::Waits => self.wait_for_holders(),
            Patience::Pauses => self.pause_for_holders(),
        }
    }

    /// Whether each seat was free once; of one that is held, this says whether it was.
    #[inline(always)]
    fn sees_each_free(&self, becomes_free: impl Fn(&Seat) -> bool) -> bool {
        let is_free = |seat: &Seat| !seat.is_held() || becomes_free(seat);
        is_free(&self.first) && self.others().iter().all(|it| is_free(&it.0))
    }

    /// Whether there is one seat, and that is free now.
    #[inline(always)]
    pub fn is_one_free(&self) -> bool {
        !self.first.is_held() && self.others().is_empty()
    }

    /// Waits until this seat was free once, in line. A notification that it used up goes to the next in line, since the
    /// seat is still free.
    #[cold]
    fn wait_for(&self, seat: &Seat) -> bool {
        let was_free = self.wait_for_free(|| (!seat.is_held()).then_some(true));
        self.free.notify_one();
        was_free
    }

    #[cold]
    fn pause_for(seat: &Seat) -> bool {
        let free = FOR_A_LOOK.try_until(None, || (!seat.is_held()).then_some(()));
        free.is_some()
    }

    /// Acquires all seats, in the order in which they are free: so it has a use for the notification of each. The
    /// caller has the lock of the groups, so no other thread does this, and no seat is added.
    pub fn acquire_all(&self) -> Vec<SeatGuard<'_>> {
        let acquire = |_| self.wait_for_free(|| self.acquire_free().next());
        self.seats().map(acquire).collect()
    }
}

#[cfg(test)]
mod tests {
    use super::{FREE, HELD, Pool, QueueHandle, Seat};
    use crate::backoff::FOR_OWN_SIDE;
    use crate::event::Parks;
    use crate::queue::handle::Handle;
    use crate::scheduler::{KNOWS_PROCESSORS, ask_processor};
    use std::sync::atomic::Ordering;

    fn pool() -> Pool {
        Pool::new((0..4).map(|_| QueueHandle::new(Handle::empty(), 0, 1)))
    }

    /// Whether this holds, with the processor of this thread meanwhile.
    fn on_one_processor(holds: impl Fn(u32) -> bool) -> bool {
        loop {
            let here = ask_processor();
            let held = holds(here);
            if ask_processor() == here {
                return held;
            }
        }
    }

    #[test]
    fn a_thread_parks_soon_beside_the_holder_of_another_seat_alone() {
        let pool = pool();
        let [own, other] = [1, 2].map(|hint| pool.seat_at(pool.others(), hint));
        let parks_beside = |of: fn(u32) -> u32| {
            on_one_processor(|here| {
                let (mut own, other) = (pool.try_seat(own).unwrap(), pool.try_seat(other).unwrap());
                other.seat.held.store(of(here), Ordering::Relaxed);
                own.pass().1.parks_now()
            })
        };
        assert_eq!(parks_beside(|here| HELD + here), KNOWS_PROCESSORS);
        assert!(!parks_beside(|here| HELD + here + 1));
        assert!(!parks_beside(|_| HELD));
        assert!(!parks_beside(|_| FREE));
        let parks_for_a_seat = |_| pool.try_seat(own).is_some_and(|_held| pool.parks_now());
        assert_eq!(on_one_processor(parks_for_a_seat), KNOWS_PROCESSORS);
    }

    #[test]
    fn a_seat_says_where_its_holder_runs_unless_that_parks() {
        let pool = pool();
        let says = |seat: &Seat| seat.held.load(Ordering::Relaxed);
        assert!(on_one_processor(|here| {
            let mut guard = pool.acquire();
            let (seat, in_seat) = (guard.seat, guard.pass().1);
            let begin = says(seat);
            in_seat.note_park(true);
            let parked = says(seat);
            in_seat.note_park(false);
            [begin, parked, says(seat)] == [HELD + here, HELD, HELD + here]
        }));
        assert!(pool.seats().all(|seat| says(seat) == FREE));
    }

    #[test]
    fn a_wait_that_parks_soon_tries_a_few_times() {
        let mut tries = 0;
        let attempt = || {
            tries += 1;
            None::<()>
        };
        assert_eq!(FOR_OWN_SIDE.try_unless(|| true, None, attempt), None);
        assert!((1..=5).contains(&tries), "{tries}");
    }
}
