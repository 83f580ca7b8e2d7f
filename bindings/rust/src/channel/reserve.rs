//! Room that is reserved for selected sends, and the looks of a select: see [`select`](super::select).
//!
//! **A look counts by seats, and not by the queue's own words.** The queue's count of accepted items may miss one that can be taken
//! already, and its count of taken items may have one whose place isn't free yet. So a look at these two that finds nothing could
//! come before a refused send that finds no room. A look by seats that finds nothing loads each seat's flag, and waits for the
//! holders that there are: so its answer is the queue's at some moment of the call.
//!
//! A look before a take, or before a send after a Full, saves the price of a call in vain. It pauses for holders that
//! run, and then leaves the answer to the queue, which waits for no thread of the other side. So does the look of a
//! poll. The look of a select whose time is over says then that the operation is ready.
use super::body::Unsent;
use super::core::{Core, Flavor, NotSent, Sent, Side};
use super::limit::Limit;
use super::pool::{Patience, SeatGuard};
use crate::event::{Again, Try, lock};
use crate::host::thread;
use crate::queue::handle::code;
use std::sync::atomic::Ordering;
use std::time::Duration;

impl Core {
    /// Whether there seems to be an item for this group, or none will come. If it says no, there was none at
    /// some moment of this call.
    #[inline(always)]
    pub fn seems_to_have_item(&self, group: &Side, patience: Patience) -> Try<()> {
        // In this order, so that the number of items is never too small.
        let taken = group.seats.count();
        let senders = &self.senders.seats;
        let has_item = || taken < senders.count();
        // If there is one seat and it is free, one count is enough. Else a count alone is cheaper than a look at seats.
        let is_seen = senders.is_one_free();
        let seems = !is_seen && (has_item() || !senders.sees_holders_done(patience)) || has_item();
        Again::unless(seems || self.is_closed())
    }

    /// Whether there seems to be room that isn't reserved, or none will come. If it says no, there was none at
    /// some moment of this call.
    pub fn seems_to_have_room(&self, patience: Patience) -> Try<()> {
        if let Flavor::Row(row) = &self.flavor {
            return self.row_seems_to_have_room(row, patience);
        }
        if self.reserved.load(Ordering::SeqCst) == 0 {
            return self.has_room_beside(0, patience);
        }
        let _groups = match (self.groups_lock.try_lock(), patience) {
            (Ok(groups), _) => groups,
            (_, Patience::Waits) => lock(&self.groups_lock),
            (_, Patience::Pauses) => return Ok(()),
        };
        self.has_room_beside_reserved(0, patience)
    }

    /// How many items were sent, each of which a group may take: all that were accepted before this call, and maybe more. None if
    /// a send is under way, or the channel is closed.
    pub fn possible_takes(&self) -> Option<u64> {
        let seats = &self.senders.seats;
        let is_sure = seats.pause_for_holders() && !self.is_closed();
        is_sure.then(|| seats.count())
    }

    /// How many items may be sent, if no place is reserved: the capacity, and what the slowest group had taken before this call, and
    /// maybe more. None if a take is under way, if any number may be sent, or the channel is closed.
    pub fn possible_sends(&self) -> Option<u64> {
        let capacity = self.capacity()? as u64;
        let is_sure = self.alive().all(|it| it.seats.pause_for_holders()) && !self.is_closed();
        let taken = self.alive().map(|it| it.seats.count());
        let slowest = taken.min().filter(|_| is_sure);
        slowest.map(|it| capacity.saturating_add(it))
    }

    /// Whether the last try of this group found no item, and a look finds none now.
    #[inline]
    pub fn finds_no_item(&self, group: &Side) -> bool {
        group.has_found_none() && self.still_finds_no_item(group)
    }

    /// The look. A send under way whose thread doesn't run may have an item: the queue's own answer doesn't wait for
    /// that thread.
    #[inline(always)]
    pub fn still_finds_no_item(&self, group: &Side) -> bool {
        group.note_look(self.seems_to_have_item(group, Patience::Pauses))
    }

    /// Whether the last send found no room, and a look finds none now.
    #[inline]
    pub fn finds_no_room(&self) -> bool {
        self.senders.has_found_none() && self.still_finds_no_room()
    }

    /// The look. Beside a take under way whose thread doesn't run the queue is asked.
    #[inline(always)]
    pub fn still_finds_no_room(&self) -> bool {
        let look = self.has_room_beside(0, Patience::Pauses);
        self.senders.note_look(look)
    }

    /// Whether there is room beside the reserved places, of which these are the caller's, or none will come. If it says no, there
    /// was none at some moment of this call. The caller has the lock of the groups, so nothing more is reserved meanwhile.
    ///
    /// A selected send counts its item, then its place down, and then gives its seat back. So no item is overlooked here. And none is
    /// counted beside its place, if as many places are reserved after each seat was free once.
    fn has_room_beside_reserved(&self, own: usize, patience: Patience) -> Try<()> {
        loop {
            let reserved = self.reserved.load(Ordering::SeqCst);
            let beside = reserved.saturating_sub(own);
            let has_room = self.has_room_beside(beside, patience);
            if has_room.is_ok() || !self.senders.seats.sees_holders_done(patience) {
                return Ok(());
            }
            if reserved == self.reserved.load(Ordering::SeqCst) {
                return has_room;
            }
        }
    }

    /// Whether there is room beside these reserved places, or none will come. If it says no, there was none at
    /// some moment of this call, if they were reserved all the time.
    #[inline(always)]
    fn has_room_beside(&self, reserved: usize, patience: Patience) -> Try<()> {
        // In this order, so that the number of items is never too large.
        let sent = self.senders.seats.count();
        let has_none = |group: &Side| {
            let items = sent.saturating_sub(group.seats.count()) as usize;
            items + reserved >= self.config.capacity as usize
        };
        // The look without the seats is cheaper.
        let is_full = |it: &Side| {
            !it.is_lost() && has_none(it) && it.seats.sees_holders_done(patience) && has_none(it)
        };
        Again::unless(!self.groups.any(is_full) || self.is_closed())
    }

    /// Reserves room for one send.
    ///
    /// It counts the place first, and then waits until each of the senders' seats was free once. A send that had a seat before
    /// has counted its item then. One that acquires a seat later sees that a place is reserved, and waits for the lock.
    pub fn reserve(&self) -> Sent {
        if let Flavor::Row(row) = &self.flavor {
            return self.reserve_in_row(row);
        }
        if self.finds_no_room() {
            return Err(NotSent::Full);
        }
        let _groups = lock(&self.groups_lock);
        self.reserved.fetch_add(1, Ordering::SeqCst);
        self.senders.seats.wait_for_holders();
        let room = self.has_room_beside_reserved(1, Patience::Waits);
        let found_none = &self.senders.found_none;
        found_none.store(room.is_err(), Ordering::Relaxed);
        let reserved = room.map_err(NotSent::from).and_then(|()| self.check_open());
        if reserved.is_err() {
            self.reserved.fetch_sub(1, Ordering::SeqCst);
        }
        reserved
    }

    /// Gives back room that was reserved.
    pub fn give_back_room(&self) {
        match &self.flavor {
            Flavor::Row(row) => row.limit.iter().for_each(Limit::give_back),
            _ => drop(self.reserved.fetch_sub(1, Ordering::SeqCst)),
        }
        self.senders.line.notify_one();
    }

    /// Sends to room that was reserved.
    pub fn send_to_room(&self, item: &mut Unsent) -> Sent {
        let mut sent = self.try_send_to_room(item);
        while let Err(NotSent::NoMemory | NotSent::Full) = sent {
            // Memory is wanting for a further queue.
            thread::sleep(Duration::from_millis(1));
            sent = self.try_send_to_room(item);
        }
        sent.inspect_err(|_| self.give_back_room())
    }

    fn try_send_to_room(&self, item: &mut Unsent) -> Sent {
        let mut seat = self.senders.seats.acquire();
        if let Flavor::Row(row) = &self.flavor {
            return self.send_in_row(row, item, seat);
        }
        let code = self.send_by(&mut seat, item);
        if code != code::ACCEPTED {
            self.replace_refusing(code, seat)?;
            return self.try_send_to_room(item);
        }
        self.reserved.fetch_sub(1, Ordering::SeqCst);
        drop(seat);
        self.notify_item();
        Ok(())
    }

    /// Tries to send while room is reserved for others. It does so under the lock of the groups: so nobody else sends, and no more
    /// room is reserved meanwhile. In a row it does so at this seat.
    #[cold]
    pub fn send_beside_reserved<'a>(&'a self, item: &mut Unsent, seat: SeatGuard<'a>) -> Sent {
        if let Flavor::Row(row) = &self.flavor {
            return self.send_within_limit(row, item, seat);
        }
        drop(seat);
        let groups = lock(&self.groups_lock);
        self.has_room_beside_reserved(0, Patience::Waits)?;
        let mut seat = self.senders.seats.acquire();
        let code = self.send_by(&mut seat, item);
        drop(groups);
        self.end_send(item, code, seat)
    }
}

impl Side {
    /// Whether its last try found nothing.
    #[inline(always)]
    pub fn has_found_none(&self) -> bool {
        self.found_none.load(Ordering::Relaxed)
    }

    /// After that, and a look: whether there is nothing now.
    #[inline(always)]
    fn note_look(&self, look: Try<()>) -> bool {
        if look.is_ok() {
            self.found_none.store(false, Ordering::Relaxed);
        }
        look.is_err()
    }
}
