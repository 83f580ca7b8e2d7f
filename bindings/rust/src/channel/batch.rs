//! Batches: sends and takes of many items, one after another. Each item is a send or a take of its own, and items of
//! other threads may come between two of them; but many are made in one seat, and so cost less.
//!
//! While the seat is held no user code runs, and no memory is asked for: those that wait are notified, once for each
//! item, when the seat is free, and items that lie in boxes go one by one. A call for one item does all else: a wait,
//! the next queue, capacity 0, and a send beside reserved places.
use super::body::{Item, Kind, lend};
use super::core::{Core, NotSent, Side};
use super::pool::SeatGuard;
use super::select::Case;
use super::{Receiver, SendError, Sender, TrySendError};
use crate::queue::handle::{code, has_taken};
use std::collections::VecDeque;
use std::sync::atomic::Ordering;

/// How many items of a batch are passed in one seat. Another thread may wait for the seat meanwhile.
const IN_ONE_SEAT: usize = 32;

impl Core {
    /// Whether items may pass in one seat.
    fn has_seats(&self) -> bool {
        self.rendezvous().is_none() && !self.kind.is_boxed()
    }

    /// Makes this call again and again in one seat of this side, until it isn't made. Returns how often it was.
    #[inline]
    fn in_one_seat(&self, side: &Side, mut call: impl FnMut(&mut SeatGuard) -> bool) -> usize {
        let (mut seat, mut made) = (self.acquire_seat(side), 0);
        while made < IN_ONE_SEAT && call(&mut seat) {
            made += 1;
            // The next call may wait for a thread whose call this one has served.
            seat.wake_served();
        }
        seat.give_back();
        made
    }
}

impl<T> Sender<T> {
    /// Sends an item by this seat. Returns it if the queue refuses it.
    #[inline]
    fn send_in(&self, seat: &mut SeatGuard, item: Item) -> Result<(), Item> {
        let core = self.core();
        if !Kind::is_one_word::<T>() {
            let mut item = Some(item);
            core.send_by(seat, &mut item);
            return item.map_or(Ok(()), Err);
        }
        let sent = lend(item, |mut it| match core.send_by(seat, &mut it) {
            code::ACCEPTED => Ok(()),
            _ => Err(NotSent::Full),
        });
        sent.map_err(|(_, item)| item)
    }

    /// Sends items in one seat, from the front on, as long as that is possible.
    fn send_some(&self, items: &mut VecDeque<T>) {
        let core = self.core();
        if !core.has_seats() || core.finds_no_room() {
            return;
        }
        let sent = core.in_one_seat(&core.senders, |seat| {
            let is_free = core.reserved.load(Ordering::SeqCst) == 0;
            let next = if is_free { items.pop_front() } else { None };
            next.is_some_and(|item| {
                let sent = self.send_in(seat, self.pack(item));
                sent.map_err(|it| items.push_front(self.unpack(it))).is_ok()
            })
        });
        (0..sent).for_each(|_| core.notify_item());
    }

    /// Sends items from the front on: some in one seat, and then one by this call. Those that aren't sent stay.
    fn send_each(
        &self,
        items: &mut VecDeque<T>,
        send: impl Fn(T) -> Result<(), (NotSent, T)>,
    ) -> Result<(), NotSent> {
        while !items.is_empty() {
            self.send_some(items);
            if let Some((why, item)) = items.pop_front().and_then(|it| send(it).err()) {
                items.push_front(item);
                return Err(why);
            }
        }
        Ok(())
    }

    /// Sends these items, from the front on, and waits for room. Each is a send of its own, and they keep their order;
    /// items of other senders may come between two of them. This takes less time than as many calls of
    /// [`send`](Sender::send).
    ///
    /// # Errors
    ///
    /// The channel is closed. The items that weren't sent are left.
    ///
    /// ```
    /// use std::collections::VecDeque;
    ///
    /// let (sender, receiver) = vahepito::channel(64)?;
    /// let mut items = VecDeque::from([1, 2, 3]);
    /// assert_eq!(sender.send_many(&mut items), Ok(()));
    /// assert!(items.is_empty());
    /// assert!(receiver.try_iter().eq([1, 2, 3]));
    /// drop(receiver);
    /// items.push_back(4);
    /// assert!(sender.send_many(&mut items).is_err());
    /// assert_eq!(items, [4]);
    /// # Ok::<(), vahepito::OpenError>(())
    /// ```
    pub fn send_many(&self, items: &mut VecDeque<T>) -> Result<(), SendError<()>> {
        let sent = self.send_each(items, |item| self.send_item(item, None));
        sent.map_err(|_| SendError(()))
    }

    /// Sends these items, from the front on, as long as there is room: see [`send_many`](Sender::send_many).
    ///
    /// # Errors
    ///
    /// There is no room for the first of those that are left, or the channel is closed.
    ///
    /// ```
    /// use std::collections::VecDeque;
    /// use vahepito::TrySendError;
    ///
    /// let (sender, receiver) = vahepito::channel(2)?;
    /// let mut items = VecDeque::from([1, 2, 3]);
    /// assert_eq!(sender.try_send_many(&mut items), Err(TrySendError::Full(())));
    /// assert_eq!(items, [3]);
    /// assert!(receiver.try_iter().eq([1, 2]));
    /// # Ok::<(), vahepito::OpenError>(())
    /// ```
    pub fn try_send_many(&self, items: &mut VecDeque<T>) -> Result<(), TrySendError<()>> {
        let send = |item| self.send_by(Some(self.pack(item)), Core::try_send);
        self.send_each(items, send).map_err(|why| match why {
            NotSent::Closed => TrySendError::Disconnected(()),
            _ => TrySendError::Full(()),
        })
    }
}

impl<T> Receiver<T> {
    /// Takes items in one seat, as long as there are some, and appends them, up to this length.
    fn take_some(&self, buffer: &mut Vec<T>, end: usize) {
        let Case::Of(core, group) = self.0.case() else {
            return;
        };
        let side = core.side(group);
        if !core.has_seats() || core.finds_no_item(side) {
            return;
        }
        buffer.reserve(IN_ONE_SEAT.min(end - buffer.len()));
        let taken = core.in_one_seat(side, |seat| {
            buffer.len() < end && {
                let taken = match Kind::is_one_word::<T>() {
                    true => core.take_word_by(seat).map(|it| it.item().ok()),
                    false => core.take_by(seat).map(Some),
                };
                let is_empty = taken.as_ref().err() == Some(&code::EMPTY);
                if is_empty {
                    side.found_none.store(true, Ordering::Relaxed);
                }
                taken.ok().flatten().is_some_and(|item| {
                    seat.count_one();
                    buffer.push(self.unpack(item));
                    true
                })
            }
        });
        if taken > 0 {
            has_taken(core);
        }
        (0..taken).for_each(|_| core.senders.line.notify_one());
    }

    /// Takes up to this number of items that are there, and appends them; the first one by this call, if there is none.
    pub(super) fn take_many(
        &self,
        buffer: &mut Vec<T>,
        limit: usize,
        first: impl Fn() -> Option<T>,
    ) -> usize {
        let begin = buffer.len();
        let end = begin.saturating_add(limit);
        while buffer.len() < end {
            let before = buffer.len();
            self.take_some(buffer, end);
            if buffer.len() == end || buffer.len() == before + IN_ONE_SEAT {
                continue;
            }
            let is_first = buffer.len() == begin;
            match if is_first {
                first()
            } else {
                self.try_recv().ok()
            } {
                Some(item) => buffer.push(item),
                None => break,
            }
        }
        buffer.len() - begin
    }

    /// Takes up to `limit` items, and appends them: waits for the first one, and takes those that are there then.
    /// Returns how many: 0 at the end of the channel, or if `limit` is 0. This takes less time than as many calls of
    /// [`recv`](Receiver::recv).
    ///
    /// # Panics
    ///
    /// The clone of a group's item panics. The items before that one are in the buffer.
    ///
    /// ```
    /// let (sender, receiver) = vahepito::channel(64)?;
    /// (1..=5).for_each(|number| sender.send(number).unwrap());
    /// let mut all = vec![];
    /// assert_eq!(receiver.recv_many(&mut all, 3), 3);
    /// drop(sender);
    /// assert_eq!(receiver.recv_many(&mut all, 3), 2);
    /// assert_eq!(receiver.recv_many(&mut all, 3), 0);
    /// assert_eq!(all, [1, 2, 3, 4, 5]);
    /// # Ok::<(), vahepito::OpenError>(())
    /// ```
    pub fn recv_many(&self, buffer: &mut Vec<T>, limit: usize) -> usize {
        self.take_many(buffer, limit, || self.recv().ok())
    }
}
