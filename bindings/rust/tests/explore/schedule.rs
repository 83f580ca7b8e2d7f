//! A search over the schedules of a few threads: it runs the crate's own code, and decides before each step which
//! thread makes it.
//!
//! `src/host.rs` puts the locks, the atomics, the parks and the clock of this file in the place of std's, if the crate
//! is built with `--cfg vahepito_explore`. They have the paths and the calls of std, as those of loom and shuttle, so
//! that either one may come in their place. A process is a thread that the search runs. One runs at a time, and may be
//! stopped before each lock, try of a lock, park and unpark, and before each access of an atomic that isn't relaxed.
//!
//! A **preemption** is a change to another process at a moment at which the process that runs could continue. The
//! search makes every choice in every schedule that has no more preemptions than its bound; it runs all from the
//! beginning for each schedule. Which process continues if one waits or is done is a choice without a price.
//!
//! **Store buffers**, if they are wanted: a store that isn't sequentially consistent may wait in a buffer, behind which
//! all later stores of the process wait too, until its next locked instruction (a lock or its release, an exchange, a
//! sequentially consistent store, a park, an unpark, or its end). That costs a preemption too. A process sees its own
//! stores at once. On x86-64 a store may also leave the buffer between two of these instructions, which the search
//! doesn't have. Otherwise all steps have one order.
//!
//! **Time**: each question for it takes 200 microseconds, so no wait spins twice. A park with a limit of over a
//! millisecond may end at any moment. One of a millisecond ends only if nothing else can happen: then it is counted,
//! since the notification was missed.
use std::cell::{Cell, RefCell, UnsafeCell};
use std::collections::VecDeque;
use std::ops::{Add, Deref, DerefMut, Sub};
use std::panic::{AssertUnwindSafe, Location, catch_unwind};
use std::process::exit;
use std::sync::Mutex as StdMutex;
use std::sync::atomic::{AtomicUsize as StdUsize, Ordering::SeqCst};
use std::thread::Thread;

/// What a process does.
#[derive(Clone, Copy, PartialEq, Debug)]
enum State {
    Ready,
    /// It waits for the lock at this address.
    WaitsFor(usize),
    Parked,
    /// It is parked, and its time may be over now.
    ParkedInTime,
    /// It is parked for a millisecond at most.
    ParkedSoon,
    /// It begins once no other process continues.
    WaitsForRest,
    Done,
}

/// An atomic that has stores in buffers.
trait Buffered {
    /// The first of this process leaves its buffer.
    fn leave(&self, process: usize);
}

/// A run of the processes, by one schedule.
struct Run {
    states: Vec<State>,
    tokens: Vec<bool>,
    parks: Vec<usize>,
    /// Whether a park of each process ended by its time.
    ended: Vec<bool>,
    processes: Vec<Option<Process>>,
    workers: Vec<Thread>,
    main: Thread,
    /// By processes: where their stores are that wait.
    buffers: Vec<VecDeque<*const dyn Buffered>>,
    /// The choices: which was made, and of how many.
    path: Vec<(usize, usize)>,
    /// How many choices were made in this run.
    made: usize,
    /// How many preemptions it may still have.
    left: usize,
    search: Search,
    /// The state of random numbers; 0 if no choice is random.
    random: u64,
    clock: u64,
    steps: Vec<(usize, &'static Location<'static>)>,
    told: Told,
}

// SAFETY: a place in a buffer is used by the process that runs, which is one at a time.
unsafe impl Send for Run {}

/// What a search found.
#[derive(Clone, Copy, Default)]
pub struct Told {
    pub runs: u64,
    /// How often a wait ended by its millisecond alone.
    pub missed: u64,
    /// How many runs had other choices than the run before with the same schedule.
    pub mixed: u64,
    /// Whether all schedules were run.
    pub is_whole: bool,
}

static RUN: StdMutex<Option<Run>> = StdMutex::new(None);
/// The process that runs; or [`MAIN`].
static NOW: StdUsize = StdUsize::new(MAIN);
/// The thread that searches has its turn once all processes are done.
const MAIN: usize = usize::MAX;

thread_local! {
    /// The number of this process; None of a thread that is no process.
    static PROCESS: Cell<Option<usize>> = const { Cell::new(None) };
}

fn with_run<R>(f: impl FnOnce(&mut Run) -> R) -> R {
    f(RUN.lock().unwrap().as_mut().expect("a process is of a run"))
}

/// The number of this process, from 0.
pub fn number() -> usize {
    PROCESS.get().unwrap_or(0)
}

/// The most steps of a run.
const MOST_STEPS: usize = 20_000;

impl Run {
    /// Ends the search: this schedule is wrong.
    fn fail(&self, what: &str) -> ! {
        println!("{what}: {:?} after these steps:", self.states);
        for (process, at) in self.steps.iter().take(1000) {
            println!("  {process} {at}");
        }
        exit(1)
    }

    /// The first choice of this many, or a random one. While preemptions are left, most choices are to continue.
    fn draw(&mut self, options: usize) -> usize {
        self.random ^= self.random << 13;
        self.random ^= self.random >> 7;
        self.random ^= self.random << 17;
        let is_first = self.left > 0 && self.random % 16 != 0;
        (self.random >> 32) as usize % if is_first { 1 } else { options }
    }

    /// A choice of this many: that of the path, or a further one.
    fn decide(&mut self, options: usize) -> usize {
        if options == 1 {
            return 0;
        }
        match self.path.get(self.made) {
            Some(&(_, before)) if before == options => {}
            Some(_) => {
                self.told.mixed += 1;
                self.path[self.made] = (0, 1);
            }
            None => {
                let chosen = self.draw(options);
                self.path.push((chosen, options));
            }
        }
        self.made += 1;
        self.path[self.made - 1].0
    }

    /// Chooses which process continues. None if all are done.
    fn choose(&mut self, own: usize) -> Option<usize> {
        if self.steps.len() > MOST_STEPS {
            self.fail("no end");
        }
        let is_ready = self.states[own] == State::Ready;
        let mut options: Vec<usize> = (0..self.states.len()).collect();
        options.retain(|&it| matches!(self.states[it], State::Ready | State::ParkedInTime));
        // The first choice is to continue.
        options.sort_by_key(|&it| !(is_ready && it == own));
        if is_ready && self.left == 0 {
            options.truncate(1);
        }
        if options.is_empty() {
            let is_soon = |it: &State| *it == State::ParkedSoon;
            if self.states.iter().any(is_soon) {
                self.told.missed += 1;
                if self.search.is_strict {
                    self.fail("a notification is missed");
                }
                let soon = self.states.iter_mut().filter(|it| is_soon(it));
                soon.for_each(|it| *it = State::ParkedInTime);
                return self.choose(own);
            }
            let last = self.states.len() - 1;
            if self.states[last] == State::WaitsForRest {
                self.states[last] = State::Ready;
                return Some(last);
            }
            if self.states.iter().any(|it| *it != State::Done) {
                self.fail("nothing continues");
            }
            return None;
        }
        let next = options[self.decide(options.len())];
        self.left -= usize::from(is_ready && next != own);
        Some(next)
    }

    /// Lets this time pass, in nanoseconds. Returns the moment.
    fn pass(&mut self, time: u64) -> u64 {
        self.clock += time;
        self.clock
    }

    /// Whether a store of this process waits in its buffer.
    fn delays(&mut self, process: usize) -> bool {
        if !self.search.has_buffers || !self.buffers[process].is_empty() {
            return self.search.has_buffers;
        }
        let delays = self.left > 0 && self.decide(2) == 1;
        self.left -= usize::from(delays);
        delays
    }
}

/// Lets the chosen process run, and returns once this one is chosen.
fn hand_over(own: usize) {
    let mut guard = RUN.lock().unwrap();
    let run = guard.as_mut().expect("a process is of a run");
    let next = run.choose(own);
    if next == Some(own) {
        return;
    }
    NOW.store(next.unwrap_or(MAIN), SeqCst);
    next.map_or(&run.main, |it| &run.workers[it]).unpark();
    let is_done = run.states[own] == State::Done;
    drop(guard);
    if !is_done {
        wait_for_turn(own);
    }
}

fn wait_for_turn(own: usize) {
    while NOW.load(SeqCst) != own {
        std::thread::park();
    }
}

/// Another process may come before what follows.
#[track_caller]
pub fn step() {
    if let Some(own) = PROCESS.get() {
        let at = Location::caller();
        with_run(|run| run.steps.push((own, at)));
        hand_over(own);
    }
}

/// The stores of this process leave its buffer.
pub fn flush() {
    let Some(own) = PROCESS.get() else { return };
    let stores = with_run(|run| std::mem::take(&mut run.buffers[own]));
    for store in stores {
        // SAFETY: an atomic that is dropped takes its stores out of the buffers.
        unsafe { (*store).leave(own) };
    }
}

/// A step by a locked instruction.
#[track_caller]
pub fn locked_step() {
    step();
    flush();
}

/// This process is in this state until it is ready again, or its time is over. Returns whether that is so.
fn block(state: State) -> bool {
    let own = PROCESS.get().expect("a wait outside of a run");
    with_run(|run| run.states[own] = state);
    hand_over(own);
    with_run(|run| std::mem::replace(&mut run.states[own], State::Ready) != State::Ready)
}

pub mod sync {
    pub use super::{Mutex, MutexGuard};
    pub use std::sync::{Arc, OnceLock, PoisonError, TryLockError};

    pub mod atomic {
        pub use super::super::Atomic;
        pub use std::sync::atomic::Ordering;
        pub type AtomicBool = Atomic<bool>;
        pub type AtomicU16 = Atomic<u16>;
        pub type AtomicU32 = Atomic<u32>;
        pub type AtomicU64 = Atomic<u64>;
        pub type AtomicUsize = Atomic<usize>;
    }
}

use sync::atomic::Ordering;

/// An atomic, and the stores of processes that wait.
#[derive(Default)]
pub struct Atomic<T: 'static> {
    value: Cell<T>,
    waiting: RefCell<Vec<(usize, T)>>,
}

// SAFETY: one process runs at a time, and a mutex of std comes between two of them.
unsafe impl<T: Send> Sync for Atomic<T> {}

impl<T: Copy + PartialEq> Buffered for Atomic<T> {
    fn leave(&self, process: usize) {
        let mut waiting = self.waiting.borrow_mut();
        let first = waiting.iter().position(|it| it.0 == process);
        self.value.set(waiting.remove(first.expect("it waits")).1);
    }
}

impl<T> Drop for Atomic<T> {
    fn drop(&mut self) {
        let this = std::ptr::from_ref(self).addr();
        if !self.waiting.get_mut().is_empty() {
            with_run(|run| {
                let buffers = run.buffers.iter_mut();
                buffers.for_each(|it| it.retain(|store| store.addr() != this));
            });
        }
    }
}

impl<T: Copy + PartialEq> Atomic<T> {
    pub const fn new(value: T) -> Self {
        Atomic {
            value: Cell::new(value),
            waiting: RefCell::new(vec![]),
        }
    }

    #[track_caller]
    pub fn load(&self, order: Ordering) -> T {
        if order != Ordering::Relaxed {
            step();
        }
        let (waiting, own) = (self.waiting.borrow(), PROCESS.get());
        let last = waiting.iter().rfind(|it| Some(it.0) == own);
        last.map_or(self.value.get(), |it| it.1)
    }

    #[track_caller]
    pub fn store(&self, value: T, order: Ordering) {
        if order != Ordering::Relaxed {
            step();
        }
        match PROCESS.get() {
            Some(own) if order != Ordering::SeqCst && with_run(|run| run.delays(own)) => {
                self.waiting.borrow_mut().push((own, value));
                let this: &dyn Buffered = self;
                with_run(|run| run.buffers[own].push_back(this));
            }
            _ => {
                flush();
                self.value.set(value);
            }
        }
    }

    #[track_caller]
    pub fn fetch_update(
        &self,
        _: Ordering,
        _: Ordering,
        mut change: impl FnMut(T) -> Option<T>,
    ) -> Result<T, T> {
        locked_step();
        let before = self.value.get();
        self.value.set(change(before).ok_or(before)?);
        Ok(before)
    }

    #[track_caller]
    fn change(&self, change: impl Fn(T) -> T) -> T {
        locked_step();
        self.value.replace(change(self.value.get()))
    }

    #[track_caller]
    pub fn swap(&self, value: T, _: Ordering) -> T {
        self.change(|_| value)
    }

    #[track_caller]
    pub fn compare_exchange(&self, old: T, new: T, _: Ordering, _: Ordering) -> Result<T, T> {
        let before = self.change(|it| if it == old { new } else { it });
        if before == old { Ok(old) } else { Err(before) }
    }
}

impl<T: Copy + Ord + Add<Output = T> + Sub<Output = T>> Atomic<T> {
    #[track_caller]
    pub fn fetch_add(&self, by: T, _: Ordering) -> T {
        self.change(|it| it + by)
    }

    #[track_caller]
    pub fn fetch_sub(&self, by: T, _: Ordering) -> T {
        self.change(|it| it - by)
    }

    #[track_caller]
    pub fn fetch_max(&self, by: T, _: Ordering) -> T {
        self.change(|it| it.max(by))
    }
}

#[derive(Default)]
pub struct Mutex<T> {
    is_locked: Cell<bool>,
    value: UnsafeCell<T>,
}

// SAFETY: as of `Atomic`; and the value is reached by the guard alone.
unsafe impl<T: Send> Sync for Mutex<T> {}

pub struct MutexGuard<'a, T>(&'a Mutex<T>);

impl<T> Mutex<T> {
    pub const fn new(value: T) -> Self {
        Mutex {
            is_locked: Cell::new(false),
            value: UnsafeCell::new(value),
        }
    }

    fn address(&self) -> usize {
        std::ptr::from_ref(self).addr()
    }

    #[track_caller]
    pub fn lock(&self) -> Result<MutexGuard<'_, T>, sync::PoisonError<MutexGuard<'_, T>>> {
        locked_step();
        while self.is_locked.replace(true) {
            block(State::WaitsFor(self.address()));
        }
        Ok(MutexGuard(self))
    }

    #[track_caller]
    pub fn try_lock(&self) -> Result<MutexGuard<'_, T>, sync::TryLockError<MutexGuard<'_, T>>> {
        locked_step();
        let was_locked = self.is_locked.replace(true);
        let guard = (!was_locked).then(|| MutexGuard(self));
        guard.ok_or(sync::TryLockError::WouldBlock)
    }
}

impl<T> Drop for MutexGuard<'_, T> {
    fn drop(&mut self) {
        flush();
        self.0.is_locked.set(false);
        let waits = State::WaitsFor(self.0.address());
        if PROCESS.get().is_some() {
            with_run(|run| {
                let waiting = run.states.iter_mut().filter(|it| **it == waits);
                waiting.for_each(|it| *it = State::Ready);
            });
        }
    }
}

impl<T> Deref for MutexGuard<'_, T> {
    type Target = T;

    fn deref(&self) -> &T {
        // SAFETY: the lock is held.
        unsafe { &*self.0.value.get() }
    }
}

impl<T> DerefMut for MutexGuard<'_, T> {
    fn deref_mut(&mut self) -> &mut T {
        // SAFETY: as above.
        unsafe { &mut *self.0.value.get() }
    }
}

pub mod hint {
    pub fn spin_loop() {}
}

pub mod thread {
    use super::{State, block, locked_step, number, step, with_run};
    use std::num::NonZero;
    use std::sync::atomic::{AtomicUsize, Ordering::Relaxed};
    pub use std::thread::panicking;
    use std::time::Duration;

    const PARKED: [State; 3] = [State::Parked, State::ParkedInTime, State::ParkedSoon];

    #[derive(Clone)]
    pub struct Thread(usize);

    pub fn current() -> Thread {
        Thread(number())
    }

    impl Thread {
        #[track_caller]
        pub fn unpark(&self) {
            locked_step();
            with_run(|run| {
                run.tokens[self.0] = true;
                if PARKED.contains(&run.states[self.0]) {
                    run.states[self.0] = State::Ready;
                }
            });
        }
    }

    #[track_caller]
    fn park_as(state: State) -> bool {
        locked_step();
        let take_token = || with_run(|run| std::mem::take(&mut run.tokens[number()]));
        with_run(|run| run.parks[number()] += 1);
        let is_over = !take_token() && block(state);
        take_token();
        is_over
    }

    /// How often this process was parked.
    pub fn parks() -> usize {
        with_run(|run| run.parks[number()])
    }

    /// Whether this process has a token, though no park of it ended by its time. With several preemptions that may be
    /// over before the process parks, while a waker is about to give it a token.
    pub fn has_stray_token() -> bool {
        let of = number();
        with_run(|run| run.tokens[of] && !run.ended[of] && run.search.bound <= 1)
    }

    #[track_caller]
    pub fn park() {
        park_as(State::Parked);
    }

    #[track_caller]
    pub fn park_timeout(time: Duration) {
        let is_soon = time <= Duration::from_millis(1);
        if park_as(PARKED[if is_soon { 2 } else { 1 }]) {
            with_run(|run| {
                run.pass(time.as_nanos() as u64);
                run.ended[number()] = true;
            });
        }
    }

    #[track_caller]
    pub fn yield_now() {
        step();
    }

    #[track_caller]
    pub fn sleep(_: Duration) {
        step();
    }

    /// How many processors there seem to be.
    pub static PROCESSORS: AtomicUsize = AtomicUsize::new(1);

    pub fn available_parallelism() -> std::io::Result<NonZero<usize>> {
        Ok(NonZero::new(PROCESSORS.load(Relaxed)).expect("there is one"))
    }
}

pub mod time {
    use std::ops::{Add, Sub};
    use std::sync::atomic::{AtomicU64, Ordering::Relaxed};
    pub use std::time::Duration;

    /// How long a question for the time takes, in nanoseconds.
    const TICK: u64 = 200_000;

    #[derive(Clone, Copy, PartialEq, Eq, PartialOrd, Ord, Debug, Hash)]
    pub struct Instant(u64);

    impl Instant {
        pub fn now() -> Instant {
            static OUTSIDE: AtomicU64 = AtomicU64::new(0);
            Instant(match super::PROCESS.get() {
                Some(_) => super::with_run(|run| run.pass(TICK)),
                None => OUTSIDE.fetch_add(TICK, Relaxed),
            })
        }

        pub fn elapsed(&self) -> Duration {
            Instant::now().saturating_duration_since(*self)
        }

        pub fn saturating_duration_since(&self, from: Instant) -> Duration {
            Duration::from_nanos(self.0.saturating_sub(from.0))
        }

        pub fn checked_add(&self, time: Duration) -> Option<Instant> {
            let time = time.as_nanos().try_into().ok()?;
            self.0.checked_add(time).map(Instant)
        }
    }

    impl Sub for Instant {
        type Output = Duration;

        fn sub(self, from: Instant) -> Duration {
            self.saturating_duration_since(from)
        }
    }

    impl Add<Duration> for Instant {
        type Output = Instant;

        fn add(self, time: Duration) -> Instant {
            self.checked_add(time).expect("it is in the clock's range")
        }
    }
}

/// What a process does.
pub type Process = Box<dyn FnOnce() + Send>;

/// The processes of a run, of which the last one begins once no other continues; and what is looked at once all are
/// done.
pub type World = (Vec<Process>, Box<dyn FnOnce()>);

/// The threads that run processes, and continue with those of the next run.
static WORKERS: StdMutex<Vec<Thread>> = StdMutex::new(vec![]);

/// Waits for a turn, and runs its process to the end.
fn work(number: usize) {
    loop {
        wait_for_turn(number);
        PROCESS.set(Some(number));
        let process = with_run(|run| run.processes[number].take()).expect("it has one");
        if catch_unwind(AssertUnwindSafe(process)).is_err() {
            with_run(|run| run.fail("a panic"));
        }
        // Others may come before its last stores.
        if with_run(|run| !run.buffers[number].is_empty()) {
            locked_step();
        }
        with_run(|run| run.states[number] = State::Done);
        hand_over(number);
        PROCESS.set(None);
    }
}

/// What is searched.
#[derive(Clone, Copy)]
pub struct Search {
    /// The most preemptions.
    pub bound: usize,
    /// Whether stores may wait.
    pub has_buffers: bool,
    /// Whether no wait may end by its millisecond alone.
    pub is_strict: bool,
    /// Whether the choices are random ones, which may come again.
    pub is_random: bool,
    /// The most runs.
    pub runs: u64,
}

/// Runs these processes in every schedule, or in so many.
pub fn explore(search: Search, begin: impl Fn() -> World) -> Told {
    let (mut path, mut told) = (vec![], Told::default());
    loop {
        let (processes, check) = begin();
        let count = processes.len();
        let mut workers = WORKERS.lock().unwrap();
        for number in workers.len()..count {
            workers.push(std::thread::spawn(move || work(number)).thread().clone());
        }
        let mut run = Run {
            states: vec![State::Ready; count],
            tokens: vec![false; count],
            parks: vec![0; count],
            ended: vec![false; count],
            processes: processes.into_iter().map(Some).collect(),
            workers: workers.clone(),
            main: std::thread::current(),
            buffers: vec![VecDeque::new(); count],
            path,
            made: 0,
            left: search.bound,
            search,
            random: (u64::from(search.is_random) * told.runs).wrapping_mul(0x9e37_79b9_7f4a_7c15),
            clock: 1 << 40,
            steps: vec![],
            told,
        };
        drop(workers);
        run.states[count - 1] = State::WaitsForRest;
        let first = run.decide(count - 1);
        let thread = run.workers[first].clone();
        *RUN.lock().unwrap() = Some(run);
        NOW.store(first, SeqCst);
        thread.unpark();
        wait_for_turn(MAIN);
        if catch_unwind(AssertUnwindSafe(check)).is_err() {
            with_run(|run| run.fail("a wrong end"));
        }
        let run = RUN.lock().unwrap().take().expect("the run is over");
        (path, told) = (run.path, run.told);
        told.runs += 1;
        if search.is_random {
            path.clear();
        }
        while path.last().is_some_and(|it| it.0 + 1 == it.1) {
            path.pop();
        }
        match path.last_mut() {
            None if !search.is_random => told.is_whole = true,
            _ if told.runs == search.runs => {}
            last => {
                last.into_iter().for_each(|it| it.0 += 1);
                continue;
            }
        }
        return told;
    }
}
