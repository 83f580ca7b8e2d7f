//! The limit of a [`row`](super::row): how many items it holds at most.
//!
//! A send acquires a seat, gets room, and sends. It gets room by one exchange, if fewer items were given room than the limit and than
//! what every group has taken since; so there are never too many. A selected send gets its room at its selection, before
//! it has a seat: that is its reservation. Room that isn't used is given back.
//!
//! **No room** is reported only if there was none at some moment of the call. The call reads how many items were given room, and
//! then waits until each of the senders' seats was free once: at that moment `m` each of these items is accepted, or reserved. Then it
//! waits so for each seat of a group: each item that was taken before `m` is counted by then. If the difference is the limit, and no room was
//! given back meanwhile, the channel was full at `m`. Else the call tries again.
//!
//! The counts of given room alone don't say so: of two takes the later one may have counted its item, and the earlier one not yet.
use super::body::Unsent;
use super::core::{Core, Sent, Side};
use super::pool::{Patience, SeatGuard};
use super::row::Row;
use crate::event::{Again, Try, lock};
use crate::host::sync::atomic::{AtomicU64, Ordering};

/// The limit of a row, and the counts by which it is kept.
#[derive(Default)]
pub struct Limit {
    pub capacity: usize,
    /// How many items were given room.
    given: AtomicU64,
    /// How many of these have given it back. It grows after `given`, so a number that was read before is too small at most.
    given_back: AtomicU64,
    /// No more than the number of items that every group has taken that has receivers.
    taken: AtomicU64,
}

impl Limit {
    pub fn new(capacity: usize) -> Limit {
        let counts = Limit::default();
        Limit { capacity, ..counts }
    }

    /// Whether these items are fewer than the limit, if this many were taken.
    fn has_room(&self, items: u64, taken: u64) -> bool {
        items.saturating_sub(taken) < self.capacity as u64
    }

    /// Gives room to an item, if there is some. This looks how many items every group has taken; None if there is no group.
    fn give_room(&self, taken_by_all: impl Fn() -> Option<u64>) -> bool {
        let given_back = self.given_back.load(Ordering::SeqCst);
        let give = |given: u64| {
            let items = given.saturating_sub(given_back);
            let has_room = self.has_room(items, self.taken.load(Ordering::Relaxed)) || {
                let taken = taken_by_all()?;
                self.taken.fetch_max(taken, Ordering::Relaxed);
                self.has_room(items, taken)
            };
            has_room.then_some(given + 1)
        };
        let (set, fetch) = (Ordering::SeqCst, Ordering::SeqCst);
        self.given.fetch_update(set, fetch, give).is_ok()
    }

    /// Gives room back that was given to an item.
    pub fn give_back(&self) {
        self.given_back.fetch_add(1, Ordering::SeqCst);
    }
}

impl Core {
    /// Gets room for an item, if there is some.
    fn get_room(&self, row: &Row) -> bool {
        let taken_by_all = || self.alive().map(|group| group.seats.count()).min();
        let limit = row.limit.as_ref();
        limit.is_none_or(|it| it.give_room(taken_by_all))
    }

    /// Whether there seems to be room, or none will come. If it says no, there was none at some moment of this call.
    pub fn row_seems_to_have_room(&self, row: &Row, patience: Patience) -> Try<()> {
        let Some(limit) = &row.limit else {
            return Ok(());
        };
        if self.alive().next().is_none() {
            // The channel is closed under this lock.
            drop(lock(&self.groups_lock));
            return Ok(());
        }
        let given_back = limit.given_back.load(Ordering::SeqCst);
        let given = limit.given.load(Ordering::SeqCst);
        let items = given.saturating_sub(given_back);
        let has_room = |it: &Side| limit.has_room(items, it.seats.count());
        // The look without the seats is cheaper.
        if self.alive().all(has_room) {
            return Ok(());
        }
        let is_done = |it: &Side| it.seats.sees_holders_done(patience);
        let is_full = is_done(&self.senders) && self.alive().any(|it| is_done(it) && !has_room(it));
        let is_same = given_back == limit.given_back.load(Ordering::SeqCst);
        Again::unless(!is_full || !is_same || self.is_closed())
    }

    /// Tries to send by this seat, if there is room. The seat is held until the item is accepted.
    pub fn send_within_limit<'a>(
        &'a self,
        row: &Row,
        item: &mut Unsent,
        mut seat: SeatGuard<'a>,
    ) -> Sent {
        while !self.get_room(row) {
            drop(seat);
            self.look_again(row)?;
            seat = self.senders.seats.acquire();
        }
        let sent = self.send_in_row(row, item, seat);
        sent.inspect_err(|_| self.give_back_room())
    }

    /// Reserves room for one send.
    pub fn reserve_in_row(&self, row: &Row) -> Sent {
        while !self.get_room(row) {
            self.look_again(row)?;
        }
        self.check_open().inspect_err(|_| self.give_back_room())
    }

    /// Whether there may be room by now.
    fn look_again(&self, row: &Row) -> Sent {
        self.row_seems_to_have_room(row, Patience::Waits)?;
        self.check_open()
    }
}
