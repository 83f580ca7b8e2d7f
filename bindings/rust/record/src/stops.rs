//! Stops recorded threads in the middle of their calls: a signal comes, and its handler sleeps.
#![allow(unsafe_code)]
use crate::lane::Lane;
use crate::log::{Log, Shared};
use std::ffi::{c_int, c_long, c_void};
use std::io;
use std::process;
use std::ptr;
use std::sync::Arc;
use std::sync::atomic::{AtomicU64, Ordering};
use std::sync::mpsc::{self, RecvTimeoutError};
use std::thread::{self, JoinHandle};
use std::time::{Duration, Instant};

#[cfg(not(all(
    target_os = "linux",
    target_pointer_width = "64",
    any(
        target_arch = "x86_64",
        target_arch = "aarch64",
        target_arch = "riscv64"
    )
)))]
compile_error!("the feature `stops` is for Linux on x86_64, aarch64 or riscv64");

/// The shortest stop, and how much longer the longest one is, in nanoseconds.
const SHORTEST: u64 = 20_000;
const LONGER: u64 = 200_000;

/// The longest time between two stops.
const PAUSE: u64 = 60_000;

/// The signal of urgent data at a socket. Nothing happens if it comes after its handler is gone.
const SIGURG: c_int = 23;
const SIG_DFL: usize = 0;
const SIG_IGN: usize = 1;
const SIG_ERR: usize = usize::MAX;

const GETTID: c_long = if cfg!(target_arch = "x86_64") {
    186
} else {
    178
};
const TGKILL: c_long = if cfg!(target_arch = "x86_64") {
    234
} else {
    131
};

/// C's time of 64 bits.
#[repr(C)]
struct Timespec {
    seconds: i64,
    nanoseconds: i64,
}

unsafe extern "C" {
    fn signal(signal: c_int, handler: usize) -> usize;
    fn syscall(number: c_long, ...) -> c_long;
    fn prctl(option: c_int, ...) -> c_int;
    fn nanosleep(time: *const Timespec, left: *mut c_void) -> c_int;
    fn __errno_location() -> *mut c_int;
}

/// The setting of how much longer the sleeps of a thread may take.
const PR_SET_TIMERSLACK: c_int = 29;

/// How often a pending call is looked for after a pause: calls are short.
const LOOKS: u32 = 1000;

/// A number that changes with each stop, from which the times come.
static TURN: AtomicU64 = AtomicU64::new(0);

/// The handler. It calls what a handler may call, takes no lock, and leaves `errno` as it was.
extern "C" fn stop(_: c_int) {
    let turn = TURN.fetch_add(0x9E37_79B9_7F4A_7C15, Ordering::Relaxed);
    let time = Timespec {
        seconds: 0,
        nanoseconds: (SHORTEST + (turn >> 40) % LONGER) as i64,
    };
    // SAFETY: the place of errno is the thread's own, and a sleep reads the time alone.
    unsafe {
        let errno = __errno_location();
        let before = *errno;
        nanosleep(&raw const time, ptr::null_mut());
        *errno = before;
    }
}

/// The system's number of this thread.
pub(crate) fn this_thread() -> i32 {
    thread_local! {
        // SAFETY: the call has no argument, and only returns a number.
        static NUMBER: i32 = i32::try_from(unsafe { syscall(GETTID) }).unwrap_or(0);
    }
    NUMBER.with(|number| *number)
}

/// Installs the handler, if the signal has none of the program's own.
fn install() -> io::Result<()> {
    let mine = stop as *const () as usize;
    // SAFETY: the handler is a function that may run at any moment, and stays.
    match unsafe { signal(SIGURG, mine) } {
        SIG_ERR => Err(io::Error::last_os_error()),
        before if before == mine || before == SIG_DFL || before == SIG_IGN => Ok(()),
        before => {
            // SAFETY: this handler was there before.
            unsafe { signal(SIGURG, before) };
            let why = "the program has a handler of SIGURG, so no thread can be stopped by it";
            Err(io::Error::new(io::ErrorKind::ResourceBusy, why))
        }
    }
}

/// The threads of a log that are stopped now and then. If this is dropped, the stops end.
#[derive(Debug)]
#[must_use = "if it is dropped, the stops end"]
pub struct Stops {
    /// The thread that stops the others, and what ends it.
    stopper: Option<(mpsc::Sender<()>, JoinHandle<()>)>,
    count: Arc<AtomicU64>,
}

impl Log {
    /// Stops threads that record in this log, in the middle of their calls, until the answer is dropped: again and again a thread
    /// whose call is pending sleeps for 20 to 220 microseconds, and the others go on.
    ///
    /// **Limits.** It is for tests. The thread gets the signal SIGURG, of which the program may have no other handler. A system call that
    /// the signal interrupts is restarted if it can be; `nanosleep`, `poll`, `select`, `epoll_wait`, System V's
    /// queues and semaphores, and waits with a time limit return EINTR, which the queue has to expect. The handler needs some
    /// kilobytes of the thread's stack, takes no lock and leaves `errno` as it was. A thread that blocks SIGURG isn't stopped. A stop takes effect
    /// a microsecond after it was sent: it may come after the call.
    pub fn stop_threads(&self) -> io::Result<Stops> {
        install()?;
        let (end, ends) = mpsc::channel();
        let (shared, count) = (Arc::clone(&self.shared), Arc::new(AtomicU64::new(0)));
        let its = Arc::clone(&count);
        let stopper = thread::Builder::new()
            .name("stop".into())
            .spawn(move || stop_until(&shared, &its, &ends))?;
        Ok(Stops {
            stopper: Some((end, stopper)),
            count,
        })
    }
}

impl Stops {
    /// How many stops there were.
    #[must_use]
    pub fn count(&self) -> u64 {
        self.count.load(Ordering::Relaxed)
    }
}

impl Drop for Stops {
    fn drop(&mut self) {
        if let Some((end, stopper)) = self.stopper.take() {
            drop(end);
            // It doesn't unwind.
            let _ = stopper.join();
        }
    }
}

/// Stops threads, and counts the stops, until the channel is closed.
fn stop_until(shared: &Shared, count: &AtomicU64, ends: &mpsc::Receiver<()>) {
    // SAFETY: the call has a number, and changes how long this thread sleeps: 50 microseconds less than usual.
    unsafe { prctl(PR_SET_TIMERSLACK, c_long::from(1)) };
    let (mut turn, mut seen) = (1_u64, Instant::now());
    let mut lanes = shared.writer().lanes.clone();
    loop {
        turn ^= turn << 13;
        turn ^= turn >> 7;
        turn ^= turn << 17;
        let pause = Duration::from_nanos(turn % PAUSE);
        if ends.recv_timeout(pause) == Err(RecvTimeoutError::Disconnected) {
            return;
        }
        if seen.elapsed() > Duration::from_millis(10) {
            lanes.clone_from(&shared.writer().lanes);
            seen = Instant::now();
        }
        let first = usize::try_from(turn >> 33).unwrap_or(0);
        let pending = (0..LOOKS).find_map(|_| pending_of(&lanes, first));
        if pending.is_some_and(|lane| stop_thread(lane.thread.load(Ordering::Relaxed))) {
            count.fetch_add(1, Ordering::Relaxed);
        }
    }
}

/// The first lane whose call is pending, from a place on.
fn pending_of(lanes: &[Arc<Lane>], first: usize) -> Option<&Lane> {
    let all = lanes.len();
    let mut wanted = (0..all).map(|at| &*lanes[(first + at) % all]);
    wanted.find(|lane| lane.is_pending())
}

/// Sends the signal to a thread of this process. Whether it is there.
fn stop_thread(thread: i32) -> bool {
    let process = c_long::from(process::id());
    // SAFETY: the call reads its numbers alone. A thread that has ended is none, and one that has its number is stopped.
    thread > 0
        && unsafe { syscall(TGKILL, process, c_long::from(thread), c_long::from(SIGURG)) } == 0
}

/// Errno is as it was before the handler.
#[cfg(test)]
#[test]
fn the_handler_leaves_errno() {
    // SAFETY: the place is this thread's own.
    let errno = || unsafe { &mut *__errno_location() };
    *errno() = 7;
    stop(SIGURG);
    assert_eq!(*errno(), 7);
}
