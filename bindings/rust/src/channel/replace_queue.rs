//! A further queue in the place of a channel's present one.
use super::body::Item;
use super::core::{Core, Side};
use super::pool::{self, QueueHandle};
use crate::event::{Panics, ignore_panics};
use crate::queue::handle::{Handle, code, unexpected};
use crate::queue::{self, Config};
use std::sync::atomic::Ordering;
use std::{iter, ptr};

impl Core {
    /// Lets this side have all its seats, if it has one alone: a further queue with more passes takes the place of this one. It
    /// does nothing if the channel is closed, if there is no memory, or if another thread has the lock of the groups: then calls
    /// go on with the seat that there is.
    pub fn add_seats(&self, side: &Side) {
        let Ok(groups) = self.groups_lock.try_lock() else {
            return;
        };
        if side.seats.len() > 1 || self.is_closed() {
            return;
        }
        let left_by_lost = self.replace_queue(Some(side));
        drop(groups);
        if let Some(left_by_lost) = left_by_lost {
            self.end_replacing(left_by_lost);
        }
    }

    /// Drops what lost groups haven't taken, and wakes those that wait for the room. The caller's item isn't sent yet,
    /// but this call goes on for others: it doesn't panic.
    pub fn end_replacing(&self, left_by_lost: Vec<Item>) {
        ignore_panics(left_by_lost, drop);
        self.senders.line.notify_all(&mut Panics::default());
    }

    /// The configuration of a further queue: with as many passes for each side as it has seats, and all for the side that grows.
    fn next_config(&self, groups: &[&Side], grows: Option<&Side>) -> Config {
        let count = |side: &Side| match grows {
            Some(grown) if ptr::eq(grown, side) => pool::seats() as u32,
            _ => side.seats.len() as u32,
        };
        let receivers = groups.iter().map(|it| count(it));
        Config {
            senders: count(&self.senders),
            receivers: receivers.max().unwrap_or(1),
            ..self.config
        }
    }

    /// Puts a further queue, of the groups that have receivers, in the place of this one, and moves over
    /// what they haven't taken. Gives what the other groups haven't taken; or None if there is no memory:
    /// nothing has changed then. A closed queue stays as it is. The side that grows has all its seats then; if that is a group,
    /// so have the other groups. The caller has the lock of the groups.
    ///
    /// A queue accepts more items, and a sender begins more sends, than the capacity: so that there are some
    /// in addition to those by which items are moved over.
    pub fn replace_queue(&self, grows: Option<&Side>) -> Option<Vec<Item>> {
        let (words, capacity) = (self.kind.words, self.config.capacity as usize);
        let is_in_queue = |it: &&Side| it.in_queue.load(Ordering::Relaxed);
        let in_queue = self.groups.iter().filter(is_in_queue);
        let (lost, alive): (Vec<_>, Vec<_>) = in_queue.partition(|it| it.is_lost());
        let config = self.next_config(&alive, grows);
        let mut handles = queue::open(&config, alive.len(), words).ok()?;
        let (mut kept, mut left_by_lost) = (vec![], vec![]);
        kept.try_reserve_exact(capacity).ok()?;
        left_by_lost.try_reserve_exact(lost.len() * capacity).ok()?;
        // From here on no other thread makes a call, until the seats are given back.
        let sides = || iter::once(&self.senders).chain(alive.iter().copied());
        let mut seats: Vec<_> = sides().map(|it| it.seats.acquire_all()).collect();
        let mut others: Vec<_> = lost.iter().map(|it| it.seats.acquire_all()).collect();
        if self.is_closed() {
            return Some(left_by_lost);
        }
        for seats in &mut others {
            left_by_lost.extend(iter::from_fn(|| self.take_by(&mut seats[0]).ok()));
            for seat in seats {
                seat.pass().0.handle = Handle::empty();
            }
        }
        // The items that the others have left are the end of those that the slowest group has left.
        let left = |group: usize| self.senders.seats.count() - alive[group].seats.count();
        let slowest = (0..alive.len()).max_by_key(|&it| left(it))?;
        // No call of these handles waits in this line.
        let (from, line) = seats[1 + slowest][0].pass();
        kept.extend(iter::from_fn(|| from.handle.take(words, line).ok()));
        for body in &kept {
            let code = handles[0][0].send(body, words, line);
            if code != code::ACCEPTED {
                unexpected(code);
            }
        }
        for (group, handles) in handles[1..].iter_mut().enumerate() {
            for _ in left(group)..kept.len() as u64 {
                let skipped = handles[0].take(words, line);
                skipped.unwrap_or_else(|code| unexpected(code));
            }
        }
        let queue = seats[0][0].pass().0.queue + 1;
        for ((side, seats), handles) in sides().zip(&mut seats).zip(handles) {
            let passes = handles.into_iter();
            let mut passes = passes.map(|it| QueueHandle::new(it, queue, alive.len()));
            for (seat, pass) in seats.iter_mut().zip(passes.by_ref()) {
                *seat.pass().0 = pass;
            }
            side.seats.add(passes);
        }
        lost.iter()
            .for_each(|it| it.in_queue.store(false, Ordering::Relaxed));
        Some(left_by_lost)
    }
}
