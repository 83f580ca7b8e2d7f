//! A row of queues: a channel without a bound, or with more places than one queue has.
//!
//! A send that finds its queue full or used up closes that queue, and appends a further one. A take that finds its queue ended goes
//! on to the next one. So two rules hold:
//!
//! 1. a send or a close at a queue begins after a close of the queue before it has returned;
//! 2. a take of a group at a queue begins after a take of the group at the queue before it has found the end.
//!
//! **A row that keeps these rules is one queue**, linearizable and first in, first out, that is never full and never used up. That is
//! proved of all runs of the proved queues (`rows_are_linearizable` of the crate `cc_row` in the repository). That this file keeps the
//! rules is tested.
//!
//! **How it keeps them.** The row has a lock, and a number for each queue. A seat has a pass of one queue. A call locks the row
//! only when its queue refuses it. The last queue is closed under the lock alone, and before another one is put behind it; so a
//! seat gets a pass of a queue after the close of the queue before. A group has a number too, that of the queue at which
//! it takes. It goes on under the lock, by a seat that has found the end of that queue; so its seats get passes of the next
//! queue after that. A call by a pass of an earlier queue is refused there, and goes on.
//!
//! **Memory.** A queue lives as long as its passes. A seat has one pass, and the row has those that no seat has fetched. The
//! senders' go when a further queue is appended, and a group's when it goes on. A call that goes on fetches passes for all free seats
//! of its side. So a queue that is done with is kept by those seats at most that were in use at that moment, until their
//! next call, or until the side goes on again.
//!
//! **A queue is opened beforehand**: a send that has appended one opens the next one afterwards, without a lock. So the
//! other senders, which wait for the lock then, don't wait for an opening, which takes some ten microseconds.
//!
//! **Without memory** for a further queue nothing changes, and the send is tried again later.
use super::body::{Item, Unsent};
use super::core::{Core, NotSent, SENDERS, Sent};
use super::limit::Limit;
use super::pool::{QueueHandle, SeatGuard};
use crate::event::{ignore_panics, lock};
use crate::host::sync::{Mutex, MutexGuard};
use crate::queue::handle::{Handle, code};
use crate::queue::{self, Config, OpenError, Passes};
use std::collections::VecDeque;
use std::mem::{self, replace};
use std::sync::atomic::Ordering;

/// A list of fewer queues doesn't shrink.
const FEW: usize = 64;

/// The configurations of the queues of a row: that of the first one, and that of all others. A seat needs a pass of
/// each.
pub type Shape = [Config; 2];

/// A queue of the row.
struct Queue {
    /// The groups that it has, in its order.
    groups: Vec<usize>,
    /// By sides, and in each by seats: the passes that no seat has fetched. In the place of each other one is an empty pass.
    passes: Passes,
}

/// The part of a row that is locked.
struct Queues {
    /// The number of the first one of these queues. The first one of all has 0.
    first: u64,
    /// Those that some group is at, and all behind them. There is one at least.
    queues: VecDeque<Queue>,
    /// The number of the queue that each group is at. None once it has found the end of the last one that has it.
    at: Vec<Option<u64>>,
    /// The queue that is opened beforehand.
    spare: Option<Passes>,
    /// Whether the last queue is closed for good.
    is_closed: bool,
    /// The groups without receivers that are in no queue from the last one on, and have items left.
    left: Vec<usize>,
}

/// The queues of a channel.
pub struct Row {
    further: Config,
    /// The number of words of a body.
    words: usize,
    /// None if it holds any number of items.
    pub limit: Option<Limit>,
    queues: Mutex<Queues>,
}

/// A row that is locked.
struct Locked<'a> {
    queues: MutexGuard<'a, Queues>,
    /// Passes that are dropped once the lock is released, as that is the field before: the last pass of a queue frees the queue.
    released: Vec<Handle>,
}

impl Row {
    /// Opens a row of one queue, whose passes it gives.
    pub fn open(
        [first, further]: Shape,
        limit: Option<usize>,
        groups: usize,
        words: usize,
    ) -> Result<(Row, Passes), OpenError> {
        let passes = queue::open(&first, groups, words)?;
        let first = Queue {
            groups: (1..passes.len()).collect(),
            passes: passes.iter().map(|_| vec![]).collect(),
        };
        let queues = Queues {
            first: 0,
            at: vec![Some(0); first.groups.len()],
            queues: [first].into(),
            spare: None,
            is_closed: false,
            left: vec![],
        };
        let row = Row {
            further,
            words,
            limit: limit.map(Limit::new),
            queues: Mutex::new(queues),
        };
        Ok((row, passes))
    }

    fn lock(&self) -> Locked<'_> {
        Locked {
            queues: lock(&self.queues),
            released: vec![],
        }
    }

    /// Opens a queue beforehand, if there is none. If there is no memory, the next send that appends one tries again.
    fn open_spare(&self) {
        let locked = self.lock();
        if locked.queues.is_closed || locked.queues.spare.is_some() {
            return;
        }
        let groups = locked.queues.last().groups.len();
        drop(locked);
        let opened = queue::open(&self.further, groups, self.words).ok();
        self.lock().set_spare(opened);
    }
}

impl Queues {
    /// The number of the last queue, which is that of the senders.
    fn last_number(&self) -> u64 {
        self.first + self.queues.len() as u64 - 1
    }

    fn last(&self) -> &Queue {
        self.queues.back().expect("a row has a queue")
    }

    fn queue(&mut self, number: u64) -> &mut Queue {
        &mut self.queues[(number - self.first) as usize]
    }
}

impl Locked<'_> {
    /// Drops these passes, once the lock is released.
    fn release(&mut self, passes: Passes) {
        self.released.extend(passes.into_iter().flatten());
    }

    fn set_spare(&mut self, spare: Option<Passes>) {
        let before = replace(&mut self.queues.spare, spare);
        self.release(before.unwrap_or_default());
    }

    /// A further queue of this number of groups: the one that was opened beforehand, or one that is opened now.
    fn take_spare(&mut self, row: &Row, groups: usize) -> Result<Passes, OpenError> {
        match self.queues.spare.take() {
            Some(passes) if passes.len() == 1 + groups => return Ok(passes),
            other => self.release(other.unwrap_or_default()),
        }
        queue::open(&row.further, groups, row.words)
    }

    /// Closes the last queue by this seat, which is at it, and appends a further one for these groups. Gives None if there is
    /// no memory: nothing has changed then.
    fn append(&mut self, row: &Row, groups: Vec<usize>, seat: &mut SeatGuard) -> Option<()> {
        self.queues.queues.try_reserve(1).ok()?;
        let mut opened = self.take_spare(row, groups.len()).ok()?.into_iter();
        seat.close();
        let mut passes: Passes = self.queues.at.iter().map(|_| vec![]).collect();
        passes.insert(SENDERS, opened.next().expect("a queue has senders"));
        for (&group, opened) in groups.iter().zip(opened) {
            passes[group] = opened;
        }
        let last = self.queues.last_number();
        let last = self.queues.queue(last);
        self.released.append(&mut last.passes[SENDERS]);
        let lost = last.groups.iter().filter(|it| !groups.contains(it));
        let lost: Vec<usize> = lost.copied().collect();
        self.queues.left.extend(lost);
        self.queues.queues.push_back(Queue { groups, passes });
        Some(())
    }

    /// Lets this seat, and those of its side that are free, have their passes of the queue that the side is at.
    fn fetch(&mut self, side: usize, number: u64, seat: &mut SeatGuard) {
        let queue = self.queues.queue(number);
        let shares = queue.groups.len();
        let mut fetch = |seat: &mut SeatGuard| {
            let (index, pass) = (seat.index(), seat.pass().0);
            if pass.queue < number {
                let handle = replace(&mut queue.passes[side][index], Handle::empty());
                let next = QueueHandle::new(handle, number, shares);
                self.released.push(replace(pass, next).handle);
            }
        };
        fetch(seat);
        let free = seat.pool.acquire_free();
        free.for_each(|mut free| fetch(&mut free));
    }

    /// After a take of this group has found the end of the queue of this number: the queue that the group is at from now on. Gives
    /// None at the end of the row.
    fn go_on(&mut self, group: usize, ended: u64) -> Option<u64> {
        let at = self.queues.at[group - 1]?;
        if ended < at {
            return Some(at);
        }
        if at == self.queues.last_number() {
            return None;
        }
        let next = self.queues.queue(at + 1);
        let next = next.groups.contains(&group).then_some(at + 1);
        self.queues.at[group - 1] = next;
        let done = &mut self.queues.queue(at).passes[group];
        self.released.append(done);
        self.shorten();
        next
    }

    /// Drops the queues that every group is done with.
    fn shorten(&mut self) {
        let last = self.queues.last_number();
        let numbers = self.queues.at.iter().flatten().copied();
        let least = numbers.min().unwrap_or(last);
        while self.queues.first < least {
            let done = self.queues.queues.pop_front();
            self.queues.first += 1;
            done.into_iter().for_each(|it| self.release(it.passes));
        }
        // After a burst the list is no longer than it has to be.
        let queues = &mut self.queues.queues;
        if queues.capacity() >= FEW.max(4 * queues.len()) {
            queues.shrink_to(2 * queues.len());
        }
    }
}

impl Core {
    /// The groups of a queue that is appended: those that have receivers. If none has, the channel is about to be closed, and this
    /// queue with it.
    fn groups_of_next(&self, queues: &Queues) -> Vec<usize> {
        let groups = &queues.last().groups;
        let alive = groups.iter().filter(|&&it| !self.side(it).is_lost());
        match alive.copied().collect() {
            none if Vec::is_empty(&none) => groups.clone(),
            alive => alive,
        }
    }

    /// After the queue of this seat refused an item: the seat goes on to the last queue, behind which it appends one if it
    /// was there already. Returns whether it did.
    fn next_for_senders(&self, row: &Row, seat: &mut SeatGuard) -> Result<bool, NotSent> {
        // The refused call may have served a close whose caller has the lock, or handed over to a call that is before
        // the next one of this seat.
        seat.wake_served();
        let mut locked = row.lock();
        let appends = seat.pass().0.queue == locked.queues.last_number();
        if appends {
            if locked.queues.is_closed {
                return Err(NotSent::Closed);
            }
            let groups = self.groups_of_next(&locked.queues);
            let appended = locked.append(row, groups, seat);
            appended.ok_or(NotSent::NoMemory)?;
        }
        let last = locked.queues.last_number();
        locked.fetch(SENDERS, last, seat);
        Ok(appends)
    }

    /// Sends an item by this seat, in the queue of the seat or one behind it. The seat is held until the item is
    /// accepted.
    #[cold]
    pub fn send_in_row<'a>(
        &'a self,
        row: &Row,
        item: &mut Unsent,
        mut seat: SeatGuard<'a>,
    ) -> Sent {
        let code = self.send_by(&mut seat, item);
        self.end_in_row(row, item, code, seat)
    }

    /// Ends a send to which the queue of this seat gave this code: while it is refused, goes on to a further queue.
    #[cold]
    pub fn end_in_row<'a>(
        &'a self,
        row: &Row,
        item: &mut Unsent,
        mut code: u32,
        mut seat: SeatGuard<'a>,
    ) -> Sent {
        let mut has_appended = false;
        while code != code::ACCEPTED {
            has_appended |= self.next_for_senders(row, &mut seat)?;
            code = self.send_by(&mut seat, item);
        }
        drop(seat);
        self.notify_item();
        if has_appended {
            row.open_spare();
            // The item is sent: a panic of others' drops ends here.
            ignore_panics(self.left_by_lost(row), drop);
        }
        Ok(())
    }

    /// After the queue of this seat has ended: the seat goes on to the queue that its group is at. Returns whether
    /// there is one.
    pub fn next_for_group(&self, row: &Row, group: usize, mut seat: SeatGuard) -> bool {
        let mut locked = row.lock();
        let next = locked.go_on(group, seat.pass().0.queue);
        next.map(|it| locked.fetch(group, it, &mut seat)).is_some()
    }

    /// Closes the last queue for good. Returns whether it was open.
    pub fn close_row(&self, row: &Row) -> bool {
        let mut seat = self.senders.seats.acquire();
        let mut locked = row.lock();
        let last = locked.queues.last_number();
        locked.fetch(SENDERS, last, &mut seat);
        seat.close();
        locked.set_spare(None);
        // Under the lock, so that whoever found the queue closed knows it.
        self.closed.store(true, Ordering::SeqCst);
        !replace(&mut locked.queues.is_closed, true)
    }

    /// Appends a queue without the groups that have lost their receivers, and gives what they haven't taken. If there is no memory,
    /// the next queue that is appended is without them.
    pub fn go_on_without_lost(&self, row: &Row) -> Vec<Item> {
        let mut seat = self.senders.seats.acquire();
        let mut locked = row.lock();
        let groups = self.groups_of_next(&locked.queues);
        if !locked.queues.is_closed && groups.len() < locked.queues.last().groups.len() {
            let last = locked.queues.last_number();
            locked.fetch(SENDERS, last, &mut seat);
            locked.append(row, groups, &mut seat);
        }
        drop(locked);
        drop(seat);
        self.left_by_lost(row)
    }

    /// The items that are left by groups which have lost their receivers, and are in no queue from the last one on.
    fn left_by_lost(&self, row: &Row) -> Vec<Item> {
        let left = mem::take(&mut row.lock().queues.left);
        left.into_iter().flat_map(|it| self.drain(it)).collect()
    }
}
