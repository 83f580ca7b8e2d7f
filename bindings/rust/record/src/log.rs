//! A log, its clock and its recorders.
use crate::lane::{CLOSE, CLOSED, DONE, ENDED, FULL, Lane, NONE, OPEN, SEND, TAKE, act_of};
use crate::writer::{Early, Writer};
use crate::{SLOTS, Sent, Taken};
use std::fs::File;
use std::io;
use std::path::Path;
use std::sync::atomic::{AtomicU64, Ordering, fence};
use std::sync::mpsc::{self, RecvTimeoutError};
use std::sync::{Arc, Mutex, MutexGuard, PoisonError};
use std::thread::{self, JoinHandle};
use std::time::{Duration, Instant};

/// The time between two rounds, if no recorder is full.
const PAUSE: Duration = Duration::from_millis(100);

/// The clock of a log: the stamps of its lines.
#[derive(Clone, Copy, Debug)]
pub struct Clock {
    start: Instant,
}

impl Clock {
    /// Nanoseconds of the monotonic clock, from the moment at which the log was made.
    #[must_use]
    pub fn now(self) -> u64 {
        u64::try_from(self.start.elapsed().as_nanos()).unwrap_or(u64::MAX)
    }

    /// The first moment after one.
    fn after(self, moment: u64) -> u64 {
        loop {
            let now = self.now();
            if now > moment || now == u64::MAX {
                return now;
            }
        }
    }
}

/// The part that the log and its recorders share.
#[derive(Debug)]
pub(crate) struct Shared {
    clock: Clock,
    names: AtomicU64,
    writer: Mutex<Writer>,
}

impl Shared {
    pub(crate) fn writer(&self) -> MutexGuard<'_, Writer> {
        self.writer.lock().unwrap_or_else(PoisonError::into_inner)
    }

    /// A name that no thread has.
    fn name(&self) -> u64 {
        self.names.fetch_add(1, Ordering::Relaxed)
    }

    /// Writes the log up to now.
    fn round(&self) {
        let mut writer = self.writer();
        let moment = self.clock.after(self.clock.now());
        fence(Ordering::SeqCst);
        writer.round(moment);
    }
}

/// How a log is written: without a limit.
#[derive(Clone, Copy, Debug, Default)]
pub struct Options {
    limit: Option<u64>,
}

impl Options {
    /// The log has at most this number of bytes. If it would have more it ends early.
    #[must_use]
    pub fn limit(mut self, bytes: u64) -> Options {
        self.limit = Some(bytes);
        self
    }

    /// A log in a new file.
    pub fn create(self, path: impl AsRef<Path>) -> io::Result<Log> {
        let shared = Arc::new(Shared {
            clock: Clock {
                start: Instant::now(),
            },
            names: AtomicU64::new(0),
            writer: Mutex::new(Writer::new(File::create(path)?, self.limit)),
        });
        let (end, ends) = mpsc::channel::<()>();
        let its = Arc::clone(&shared);
        let rounds = thread::Builder::new()
            .name("record".into())
            .spawn(move || {
                while ends.recv_timeout(PAUSE) == Err(RecvTimeoutError::Timeout) {
                    its.round();
                }
            })?;
        Ok(Log {
            shared,
            rounds: Some((end, rounds)),
        })
    }
}

/// A log of calls, which is written while they are made. If it is dropped it is finished, and nobody hears whether it is whole.
#[derive(Debug)]
pub struct Log {
    pub(crate) shared: Arc<Shared>,
    /// The thread that does the rounds, and what ends it.
    rounds: Option<(mpsc::Sender<()>, JoinHandle<()>)>,
}

impl Log {
    /// A log in a new file, without a limit.
    pub fn create(path: impl AsRef<Path>) -> io::Result<Log> {
        Log::options().create(path)
    }

    /// The options of a log.
    #[must_use]
    pub fn options() -> Options {
        Options::default()
    }

    /// The clock of its lines. A caller who stamps calls by it writes them into a file of his own, with thread names that
    /// aren't numbers: both files together are one log, his own before this one.
    #[must_use]
    pub fn clock(&self) -> Clock {
        self.shared.clock
    }

    /// The recorder of a further thread, whose name is its number, from 0.
    #[must_use]
    pub fn recorder(&self) -> Recorder {
        let shared = Arc::clone(&self.shared);
        let lane = Arc::new(Lane::new(shared.name()));
        shared.writer().lanes.push(Arc::clone(&lane));
        Recorder {
            shared,
            lane,
            calls: 0,
            last: 0,
            is_pending: false,
        }
    }

    /// Writes all calls, and the last line. A call that is pending now hasn't returned, and later calls aren't written. The log is whole,
    /// or the error says why it ends early.
    pub fn finish(mut self) -> Result<(), Early> {
        self.end()
    }

    /// Ends the rounds, by a last one.
    fn end(&mut self) -> Result<(), Early> {
        let Some((end, rounds)) = self.rounds.take() else {
            return Ok(());
        };
        drop(end);
        // It doesn't unwind.
        let _ = rounds.join();
        self.shared.round();
        self.shared.writer().end()
    }
}

impl Drop for Log {
    fn drop(&mut self) {
        let _ = self.end();
    }
}

/// The calls of one thread.
#[derive(Debug)]
pub struct Recorder {
    shared: Arc<Shared>,
    lane: Arc<Lane>,
    /// The number of calls that have ended, and the end of the last one.
    calls: u64,
    last: u64,
    is_pending: bool,
}

impl Recorder {
    /// Sends the item by this call, and records it. If the call unwinds it is one that hasn't returned, and later calls
    /// are those of a thread with a new name.
    pub fn send(&mut self, item: u64, call: impl FnOnce() -> Sent) -> Sent {
        self.begin(SEND, item);
        let answer = call();
        let said = match answer {
            Sent::Accepted => DONE,
            Sent::Full => FULL,
            Sent::Closed => CLOSED,
        };
        self.end(SEND | said, item);
        answer
    }

    /// Takes by this call, and records it. If the call unwinds it is one that hasn't returned, and later calls are those of
    /// a thread with a new name.
    pub fn take(&mut self, call: impl FnOnce() -> Taken) -> Taken {
        self.begin(TAKE, 0);
        let answer = call();
        let (said, item) = match answer {
            Taken::Item(item) => (DONE, item),
            Taken::None => (NONE, 0),
            Taken::Ended => (ENDED, 0),
        };
        self.end(TAKE | said, item);
        answer
    }

    /// Closes by this call, and records it: also a close of a queue that was closed already. If the call unwinds it is one that
    /// hasn't returned, and later calls are those of a thread with a new name.
    pub fn close<T>(&mut self, call: impl FnOnce() -> T) -> T {
        self.begin(CLOSE, 0);
        let answer = call();
        self.end(CLOSE | DONE, 0);
        answer
    }

    /// Notes a call that begins now, and after the last one had ended. All that the call does comes later.
    fn begin(&mut self, act: u64, item: u64) {
        if self.is_pending {
            self.give_up();
            while self.lane.written.load(Ordering::Acquire) < self.calls {
                self.shared.round();
            }
            let name = self.shared.name();
            self.lane.name.store(name, Ordering::Relaxed);
        }
        while self.calls - self.lane.written.load(Ordering::Acquire) >= SLOTS {
            self.shared.round();
        }
        let slot = self.lane.slot(self.calls);
        slot.item.store(item, Ordering::Relaxed);
        slot.what.store(act, Ordering::Relaxed);
        #[cfg(feature = "stops")]
        self.lane
            .thread
            .store(crate::stops::this_thread(), Ordering::Relaxed);
        let begin = self.shared.clock.after(self.last);
        slot.begin.store(begin, Ordering::Relaxed);
        self.lane.stage.store(2 * self.calls + 1, Ordering::Release);
        fence(Ordering::SeqCst);
        self.is_pending = true;
    }

    /// Notes that the last call ends now. All that it did came before.
    fn end(&mut self, what: u64, item: u64) {
        fence(Ordering::SeqCst);
        self.last = self.shared.clock.now();
        let slot = self.lane.slot(self.calls);
        slot.end.store(self.last, Ordering::Relaxed);
        slot.item.store(item, Ordering::Relaxed);
        slot.what.store(what, Ordering::Relaxed);
        self.calls += 1;
        self.lane.stage.store(2 * self.calls, Ordering::Release);
        self.is_pending = false;
    }

    /// Notes that the pending call won't return.
    fn give_up(&mut self) {
        let slot = self.lane.slot(self.calls);
        let act = act_of(slot.what.load(Ordering::Relaxed));
        let item = slot.item.load(Ordering::Relaxed);
        self.end(act | OPEN, item);
    }
}

impl Drop for Recorder {
    fn drop(&mut self) {
        if self.is_pending {
            self.give_up();
        }
        self.lane.left.store(true, Ordering::Release);
    }
}
