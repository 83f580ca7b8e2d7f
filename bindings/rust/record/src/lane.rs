//! The calls of a thread that aren't written yet, and their lines.
use crate::SLOTS;
use std::sync::atomic::{AtomicBool, AtomicU64, Ordering};

/// The acts of a call, and its answers: a slot's `what` is the sum of one of each.
pub(crate) const SEND: u64 = 0;
pub(crate) const TAKE: u64 = 1;
pub(crate) const CLOSE: u64 = 2;
const ACTS: u64 = 3;
pub(crate) const OPEN: u64 = 0;
pub(crate) const DONE: u64 = 4;
pub(crate) const FULL: u64 = 8;
pub(crate) const CLOSED: u64 = 12;
pub(crate) const NONE: u64 = 16;
pub(crate) const ENDED: u64 = 20;

/// The act of a word.
pub(crate) fn act_of(what: u64) -> u64 {
    what & ACTS
}

/// A call. Of one that is pending, a round reads `begin`, `what` and the item of a send alone.
#[derive(Debug, Default)]
pub(crate) struct Slot {
    pub(crate) begin: AtomicU64,
    pub(crate) end: AtomicU64,
    pub(crate) item: AtomicU64,
    pub(crate) what: AtomicU64,
}

/// The calls of one thread that aren't written yet. The thread writes the slots, and rounds read them.
#[derive(Debug)]
pub(crate) struct Lane {
    /// The thread's name. It changes if all calls are written.
    pub(crate) name: AtomicU64,
    slots: Box<[Slot]>,
    /// Twice the number of calls that have ended; one more while the next one is pending.
    pub(crate) stage: AtomicU64,
    /// The number of calls that are written.
    pub(crate) written: AtomicU64,
    /// Whether the recorder is dropped.
    pub(crate) left: AtomicBool,
    /// The system's number of the thread that made the last call.
    #[cfg(feature = "stops")]
    pub(crate) thread: std::sync::atomic::AtomicI32,
}

impl Lane {
    /// The lane of a thread with this name.
    pub(crate) fn new(name: u64) -> Lane {
        Lane {
            name: AtomicU64::new(name),
            slots: (0..SLOTS).map(|_| Slot::default()).collect(),
            stage: AtomicU64::new(0),
            written: AtomicU64::new(0),
            left: AtomicBool::new(false),
            #[cfg(feature = "stops")]
            thread: std::sync::atomic::AtomicI32::new(0),
        }
    }

    /// Whether a call is pending.
    #[cfg(feature = "stops")]
    pub(crate) fn is_pending(&self) -> bool {
        self.stage.load(Ordering::Relaxed) % 2 == 1
    }

    /// The slot of the call with this number.
    pub(crate) fn slot(&self, call: u64) -> &Slot {
        &self.slots[usize::try_from(call % SLOTS).expect("a small number")]
    }

    /// Writes the calls that had ended before a moment, and the call that was pending then, if there was one. Whether
    /// there may be more.
    pub(crate) fn write(&self, moment: u64, ended: &mut Vec<u8>, pending: &mut Vec<u8>) -> bool {
        let left = self.left.load(Ordering::Acquire);
        let stage = self.stage.load(Ordering::Acquire);
        let mut call = self.written.load(Ordering::Relaxed);
        let mut is_pending = stage % 2 == 1;
        while call < stage / 2 {
            if self.slot(call).end.load(Ordering::Relaxed) >= moment {
                is_pending = true;
                break;
            }
            self.line(call, true, ended);
            call += 1;
        }
        self.written.store(call, Ordering::Release);
        if is_pending && self.slot(call).begin.load(Ordering::Relaxed) < moment {
            self.line(call, false, pending);
        }
        is_pending || !left
    }

    /// Writes the line of a call that had ended, or had not.
    fn line(&self, call: u64, ended: bool, text: &mut Vec<u8>) {
        let slot = self.slot(call);
        let what = slot.what.load(Ordering::Relaxed);
        let act = act_of(what);
        let answer = if ended { what - act } else { OPEN };
        text.extend(br#"{"thread":""#);
        number(self.name.load(Ordering::Relaxed), text);
        text.extend(br#"","begin":"#);
        number(slot.begin.load(Ordering::Relaxed), text);
        if answer != OPEN {
            text.extend(br#","end":"#);
            number(slot.end.load(Ordering::Relaxed), text);
        }
        text.extend(match act {
            SEND => br#","send":"#.as_slice(),
            TAKE => br#","take":"#,
            _ => br#","close":"#,
        });
        if act == SEND || act == TAKE && answer == DONE {
            text.push(b'[');
            number(slot.item.load(Ordering::Relaxed), text);
            text.push(b']');
        } else {
            text.extend(if act == TAKE { b"null" } else { b"true" });
        }
        text.extend(match answer {
            FULL => br#","answer":"full""#.as_slice(),
            CLOSED => br#","answer":"closed""#,
            ENDED => br#","answer":"ended""#,
            _ => b"",
        });
        text.extend(b"}\n");
    }
}

/// Writes a number.
fn number(mut number: u64, text: &mut Vec<u8>) {
    let mut digits = [0; 20];
    let mut at = digits.len();
    loop {
        at -= 1;
        digits[at] = b'0' + (number % 10) as u8;
        number /= 10;
        if number == 0 {
            break;
        }
    }
    text.extend(&digits[at..]);
}
