//! The handles of both sides: their count, the end of a side, and the wait.
use super::body::Unsent;
use super::core::{Core, NotSent, SENDERS, Sent, or_closed};
use super::rendezvous::is_sent;
use super::select::Case;
use super::timer::Timer;
use crate::backoff::{FOR_OTHERS, for_others, let_ahead};
use crate::event::{Try, is_over, lock, wait, wait_without_end};
use crate::host::time::Instant;
use std::panic::RefUnwindSafe;
use std::sync::Arc;
use std::sync::atomic::Ordering;

/// The least capacity with which a side goes ahead: a smaller channel is full or empty before, and below 8 this
/// costs more than it saves. A channel without a queue, which has no seats either, has capacity 0 or 1.
const ROOM_AHEAD: usize = 16;

/// A handle of the senders of a channel.
pub struct Target(pub Arc<Core>);

/// A handle of a group of receivers; or that of a timer.
pub enum Source {
    Channel(Arc<Core>, u32),
    Timer(Arc<Timer>),
}

impl Clone for Target {
    fn clone(&self) -> Target {
        Target(self.0.for_another(SENDERS as u32))
    }
}

impl Drop for Target {
    #[inline]
    fn drop(&mut self) {
        self.0.handle_dropped(SENDERS);
    }
}

impl Clone for Source {
    fn clone(&self) -> Source {
        match self {
            Source::Channel(core, group) => Source::Channel(core.for_another(*group), *group),
            Source::Timer(timer) => Source::Timer(timer.clone()),
        }
    }
}

impl Drop for Source {
    #[inline]
    fn drop(&mut self) {
        if let Source::Channel(core, group) = self {
            core.handle_dropped(*group as usize);
        }
    }
}

impl Source {
    /// A take of it.
    #[inline]
    pub fn case(&self) -> Case<'_> {
        match self {
            Source::Channel(core, group) => Case::Of(core, *group as usize),
            Source::Timer(timer) => Case::Timer(timer),
        }
    }
}

// Each call leaves the channel as it is to be, also one that unwinds.
impl RefUnwindSafe for Core {}

impl Core {
    /// For a further handle of this side, which has one.
    fn for_another(self: &Arc<Core>, side: u32) -> Arc<Core> {
        let handles = &self.side(side as usize).handles;
        handles.fetch_add(1, Ordering::SeqCst);
        self.clone()
    }

    fn handle_dropped(&self, side: usize) {
        if self.side(side).handles.fetch_sub(1, Ordering::SeqCst) == 1 {
            self.last_handle_dropped(side);
        }
    }

    /// For a further handle of this side, if one is left.
    pub fn upgrade(self: &Arc<Core>, side: u32) -> Option<Arc<Core>> {
        let order = (Ordering::SeqCst, Ordering::SeqCst);
        let side = self.side(side as usize);
        let (core, another) = (self.clone(), |count| (count > 0).then_some(count + 1));
        if side.handles.fetch_update(order.0, order.1, another).is_ok() {
            return Some(core);
        }
        // Another thread may be dropping the last one, which then wakes the side's line: this waits until all is done
        // that comes of it. Nobody else waits there any more, so it takes away no notification.
        wait_without_end(&side.line, &FOR_OTHERS, &(), || {
            side.is_lost().then_some(())
        });
        drop(lock(&self.groups_lock));
        None
    }

    /// How many handles this side has.
    pub fn handle_count(&self, side: usize) -> usize {
        self.side(side).handles.load(Ordering::SeqCst)
    }

    /// Tries to send until it is done, or until this moment.
    #[inline]
    pub fn send_until(&self, item: &mut Unsent, until: Option<Instant>) -> Sent {
        let sent = self.try_send(item);
        sent.or_else(|_| self.send_later(item, until))
    }

    /// The same after a try: tries to send until it is done, or until this moment.
    #[cold]
    pub fn send_later(&self, item: &mut Unsent, until: Option<Instant>) -> Sent {
        if let Some(meeting) = self.meeting(SENDERS) {
            let is_done = meeting.wait(item, until);
            return is_sent(item).map_err(|it| if is_done { it } else { NotSent::Full });
        }
        let sent = self.wait(SENDERS, until, || or_closed(self.try_send(item)));
        sent.unwrap_or(Err(NotSent::Full))
    }

    /// Tries a call of this side until it is done, or until this moment: then None. Between the tries it waits for
    /// notifications.
    ///
    /// A thread that passed several items since its last wait is faster than the other side. If it tries again at
    /// once, both meet at each item, and wait for the same cache line. So it lets the other side go ahead.
    pub fn wait<R>(
        &self,
        side: usize,
        until: Option<Instant>,
        mut attempt: impl FnMut() -> Try<R>,
    ) -> Option<R> {
        if is_over(until) {
            return attempt().ok();
        }
        // A sender waits for the first group.
        let other = if side == SENDERS { 1 } else { SENDERS };
        let (own, other) = (self.side(side), &self.side(other).seats);
        let has_room = self.capacity().is_none_or(|it| it >= ROOM_AHEAD);
        if has_room && own.seats.check_ahead() {
            let_ahead();
        }
        let (begin, passed) = (Instant::now(), other.count());
        let before_park = for_others(own.is_slow.load(Ordering::Relaxed));
        let done = wait(&own.line, before_park, until, &(), attempt);
        own.note_wait(begin.elapsed(), other.count() - passed);
        done
    }
}
