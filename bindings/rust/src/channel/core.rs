//! The state that the handles of a channel share: the seats of either side, the lines, and the calls that
//! don't wait.
//!
//! The queue below accepts a limited number of items in all, and each of its senders begins a limited number
//! of sends. When either is used up, a further queue takes its place, and so it does when a group has lost
//! its last receiver: while all seats are held, the remaining items are moved over. For all other calls this
//! is one step. A channel without a bound, or with more places than one queue has, is a [`row`](super::row) of queues:
//! no item is moved over there.
//!
//! **Order of locks**: the groups, all seats, the row, a line. A holder of a seat makes one call of the queue, and
//! takes no other lock; that of a row takes the row's lock. User code (an item's drop or copy, a waker) runs while none is held.
use super::body::{Answer, Item, Kind, Lent, NoItem, Offer, Unsent};
use super::pool::{Pool, QueueHandle, SeatGuard};
use super::rendezvous::{Meeting, Rendezvous, is_sent};
use super::row::{Row, Shape};
use crate::backoff::PACE;
use crate::event::{Again, Apart, Event, Panics, Try, lock};
use crate::host::sync::atomic::{AtomicBool, AtomicUsize, Ordering};
use crate::host::sync::{Arc, Mutex};
use crate::queue::handle::{Handle, code, has_taken, unexpected};
use crate::queue::{self, Config, OpenError, Passes};
use std::iter;
use std::mem::ManuallyDrop;
use std::ptr;
use std::time::Duration;

/// A side of the channel: its senders, or a group of receivers.
pub struct Side {
    /// The line in which its calls wait: for room, or for items.
    pub line: Apart<Event>,
    pub seats: Pool,
    /// How many handles there are.
    pub handles: AtomicUsize,
    /// Whether its last try found no item, or no room: then the next one looks first, since a look costs less than a
    /// call in vain.
    pub found_none: AtomicBool,
    /// Whether few items passed while the last call waited that did: then a call that waits doesn't yield.
    pub is_slow: AtomicBool,
    /// Whether it has lost its last handle. The groups are locked until the channel is closed, or goes on without it.
    lost: AtomicBool,
    /// Whether the queue has this group; a row has all. It changes while the groups are locked, and all seats are held.
    pub in_queue: AtomicBool,
}

impl Side {
    /// With these passes of a queue of this number of groups.
    #[inline]
    fn new(handles: Vec<Handle>, shares: usize) -> Side {
        let passes = handles.into_iter();
        let passes = passes.map(|it| QueueHandle::new(it, 0, shares));
        Side {
            line: Apart::default(),
            seats: Pool::new(passes),
            handles: AtomicUsize::new(1),
            found_none: AtomicBool::new(false),
            is_slow: AtomicBool::new(false),
            lost: AtomicBool::new(false),
            in_queue: AtomicBool::new(true),
        }
    }

    #[inline]
    pub fn is_lost(&self) -> bool {
        self.lost.load(Ordering::SeqCst)
    }

    /// Notes how long a call waited, and how many items the other side passed meanwhile.
    pub fn note_wait(&self, time: Duration, items: u64) {
        let is_slow = time.as_nanos() > PACE.as_nanos() * u128::from(1 + items);
        if self.is_slow.load(Ordering::Relaxed) != is_slow {
            self.is_slow.store(is_slow, Ordering::Relaxed);
        }
    }
}

/// The number of the senders' side. Those of the groups follow, from 1.
pub const SENDERS: usize = 0;

/// The least capacity with which a thread lets the other side go ahead that is close.
const ROOM_APART: usize = 64;

/// A side of a channel of more items has all its seats from the opening on, so that no call has to move them over.
pub const MOST_MOVED: usize = if cfg!(vahepito_explore) { 2 } else { 64 };

/// The groups of receivers. The first one needs no box.
pub struct Groups {
    first: Side,
    others: Box<[Side]>,
}

impl Groups {
    /// How many groups there are.
    pub fn len(&self) -> usize {
        1 + self.others.len()
    }

    /// The group of this number, from 1.
    #[inline]
    pub fn of(&self, group: usize) -> &Side {
        match group {
            1 => &self.first,
            group => &self.others[group - 2],
        }
    }

    /// Whether this holds for one of them. Without an iterator over two parts, which costs more.
    #[inline]
    pub fn any(&self, holds: impl Fn(&Side) -> bool) -> bool {
        holds(&self.first) || self.others.iter().any(holds)
    }

    #[inline]
    pub fn iter(&self) -> impl Iterator<Item = &Side> {
        iter::once(&self.first).chain(&self.others)
    }
}

/// Why a send, or a reservation of room for one, isn't made.
#[derive(Clone, Copy, Debug, PartialEq)]
pub enum NotSent {
    Closed,
    /// There is no room: a take or a loss of receivers notifies.
    Full,
    /// There is no memory for a further queue: nobody notifies when there is.
    NoMemory,
}

pub type Sent = Result<(), NotSent>;

/// Of looks for room.
impl From<Again> for NotSent {
    fn from(_: Again) -> NotSent {
        NotSent::Full
    }
}

/// A send that is tried until it is made, or the channel is closed.
#[inline]
pub fn or_closed(sent: Sent) -> Try<Sent> {
    match sent {
        Err(NotSent::Full) => Err(Again::WhenNotified),
        Err(NotSent::NoMemory) => Err(Again::soon()),
        sent => Ok(sent),
    }
}

/// The item of a take, or why there is none.
#[inline]
pub fn or_none(taken: Try<Option<Item>>) -> Result<Item, NoItem> {
    taken.map_err(|_| NoItem::Empty)?.ok_or(NoItem::Ended)
}

/// The kind of a channel: how an item goes from its senders to its receivers.
pub enum Flavor {
    /// One queue, in the place of which another one may come.
    Queue,
    Row(Box<Row>),
    /// No queue: the channel has capacity 0.
    Rendezvous(Box<Rendezvous>),
}

/// A channel that is opened.
pub type Opened = Result<Arc<Core>, OpenError>;

pub struct Core {
    pub flavor: Flavor,
    /// The configuration of its queue, whose sides may have more seats by now; of a row, that of the first one.
    pub config: Config,
    /// That of its items.
    pub kind: &'static Kind,
    pub senders: Side,
    pub groups: Groups,
    pub closed: AtomicBool,
    /// The lock of the groups: under it a further queue takes the place of this one, and a side ends.
    pub groups_lock: Mutex<()>,
    /// How many places are reserved for selected sends. It grows under the lock of the groups. Of a row with a limit it
    /// is 1 for good, so that each send asks for room: see [`limit`](super::limit).
    pub reserved: AtomicUsize,
}

impl Core {
    /// Opens a channel over a queue of this configuration.
    pub fn open(config: Config, groups: usize, kind: &'static Kind) -> Opened {
        let sides = queue::open(&config, groups, kind.words)?;
        Ok(Core::new(Flavor::Queue, config, kind, sides))
    }

    /// Opens a channel over a row of queues of this shape. It holds this number of items at most; if there is none, any number.
    pub fn open_row(
        shape: Shape,
        limit: Option<usize>,
        groups: usize,
        kind: &'static Kind,
    ) -> Opened {
        let (row, sides) = Row::open(shape, limit, groups, kind.words)?;
        let flavor = Flavor::Row(Box::new(row));
        Ok(Core::new(flavor, shape[0], kind, sides))
    }

    /// A channel of capacity 0. Its sides have no pass.
    pub fn of_rendezvous(kind: &'static Kind) -> Arc<Core> {
        let flavor = Flavor::Rendezvous(Box::default());
        let sides = [(); 2].map(|()| vec![Handle::empty()]);
        Core::new(flavor, Config::new(1, 1, 0), kind, sides.into())
    }

    /// With these passes: those of the senders, and then those of each group.
    fn new(flavor: Flavor, config: Config, kind: &'static Kind, sides: Passes) -> Arc<Core> {
        let shares = sides.len() - 1;
        let mut sides = sides.into_iter().map(|it| Side::new(it, shares));
        let mut side = || sides.next().expect("a channel has both sides");
        let (senders, first) = (side(), side());
        let has_limit = matches!(&flavor, Flavor::Row(row) if row.limit.is_some());
        Arc::new(Core {
            flavor,
            config,
            kind,
            senders,
            groups: Groups {
                first,
                others: sides.collect(),
            },
            closed: AtomicBool::new(false),
            groups_lock: Mutex::new(()),
            reserved: AtomicUsize::new(has_limit.into()),
        })
    }

    /// The side of this number.
    pub fn side(&self, number: usize) -> &Side {
        match number {
            SENDERS => &self.senders,
            group => self.groups.of(group),
        }
    }

    /// The rendezvous of a channel of capacity 0; None of any other channel.
    #[inline]
    pub fn rendezvous(&self) -> Option<&Rendezvous> {
        match &self.flavor {
            Flavor::Rendezvous(rendezvous) => Some(rendezvous),
            _ => None,
        }
    }

    /// A call of this side of a channel of capacity 0; None of any other channel.
    #[inline]
    pub fn meeting(&self, side: usize) -> Option<Meeting<'_>> {
        let (core, of) = (self, self.rendezvous()?);
        Some(Meeting { core, of, side })
    }

    /// How many items it may hold; None if any number.
    pub fn capacity(&self) -> Option<usize> {
        match &self.flavor {
            Flavor::Row(row) => row.limit.as_ref().map(|it| it.capacity),
            _ => Some(self.config.capacity as usize),
        }
    }

    pub fn is_closed(&self) -> bool {
        self.closed.load(Ordering::SeqCst)
    }

    /// Refuses a send if the channel is closed.
    pub fn check_open(&self) -> Sent {
        (!self.is_closed()).then_some(()).ok_or(NotSent::Closed)
    }

    /// The groups that have receivers.
    pub fn alive(&self) -> impl Iterator<Item = &Side> {
        self.groups.iter().filter(|it| !it.is_lost())
    }

    /// How many items this group hasn't taken; for the senders, some group that has receivers.
    pub fn len(&self, side: usize) -> usize {
        let sent = self.senders.seats.count();
        let taken = match side {
            SENDERS => self.alive().map(|group| group.seats.count()).min(),
            group => Some(self.side(group).seats.count()),
        };
        let len = sent.saturating_sub(taken.unwrap_or(sent)) as usize;
        self.capacity().map_or(len, |it| len.min(it))
    }

    /// How many items are between the sides for this one: if it is the senders', how many places for items. It is 0 if the
    /// channel is small, since its sides are close at any time.
    pub fn distance(&self, side: &Side) -> u64 {
        let (sent, capacity) = (self.senders.seats.count(), self.capacity());
        if capacity.is_some_and(|it| it < ROOM_APART) {
            return 0;
        }
        if !ptr::eq(side, &self.senders) {
            return sent.saturating_sub(side.seats.count());
        }
        let items = sent.saturating_sub(self.groups.of(1).seats.count());
        capacity.map_or(0, |it| (it as u64).saturating_sub(items))
    }

    /// Acquires a free seat of this side, by a thread that holds no lock, and waits for one. If the side has one seat alone and that is
    /// held, it gets its others.
    #[inline]
    pub fn acquire_seat<'a>(&'a self, side: &'a Side) -> SeatGuard<'a> {
        side.seats.acquire_or(|| self.acquire_another_seat(side))
    }

    #[cold]
    fn acquire_another_seat<'a>(&'a self, side: &'a Side) -> SeatGuard<'a> {
        if let Some(seat) = side.seats.try_acquire_behind(|| self.distance(side)) {
            return seat;
        }
        if side.seats.len() == 1 && matches!(self.flavor, Flavor::Queue) {
            self.add_seats(side);
        }
        side.seats.acquire_another()
    }

    /// Tries to send this item.
    #[inline(never)]
    pub fn try_send(&self, item: &mut Unsent) -> Sent {
        if self.finds_no_room() {
            return Err(NotSent::Full);
        }
        self.try_to_send(item)
    }

    /// Tries to send this item of one word.
    #[inline(always)]
    pub fn try_send_word(&self, item: Lent) -> Sent {
        match self.senders.has_found_none() {
            true => self.look_and_send_word(item),
            false => self.send_word(item),
        }
    }

    #[inline(never)]
    fn look_and_send_word(&self, item: Lent) -> Sent {
        match self.still_finds_no_room() {
            true => Err(NotSent::Full),
            false => self.send_word(item),
        }
    }

    #[inline(never)]
    fn send_word(&self, mut item: Lent) -> Sent {
        self.try_to_send(&mut item)
    }

    #[inline(always)]
    fn try_to_send(&self, item: &mut impl Offer) -> Sent {
        if let Some(meeting) = self.meeting(SENDERS) {
            return item.by_itself(self.kind, move |it| {
                meeting.try_now(it)?;
                is_sent(it)
            });
        }
        let mut seat = self.acquire_seat(&self.senders);
        if self.reserved.load(Ordering::SeqCst) > 0 {
            return item.by_itself(self.kind, move |it| self.send_beside_reserved(it, seat));
        }
        let code = self.send_by(&mut seat, item);
        self.end_send(item, code, seat)
    }

    /// Ends a send by this seat, to which the queue gave this code.
    #[inline(always)]
    pub fn end_send(&self, item: &mut impl Offer, code: u32, seat: SeatGuard) -> Sent {
        if code != code::ACCEPTED {
            return item.by_itself(self.kind, move |it| self.send_further(it, code, seat));
        }
        seat.give_back();
        self.notify_item();
        Ok(())
    }

    /// After the queue of this seat refused an item with this code: tries again, if there is a further queue.
    #[cold]
    fn send_further(&self, item: &mut Unsent, code: u32, seat: SeatGuard) -> Sent {
        if let Flavor::Row(row) = &self.flavor {
            return self.end_in_row(row, item, code, seat);
        }
        self.replace_refusing(code, seat)?;
        self.try_send(item)
    }

    /// Sends by this seat. Returns the queue's code. If the item is accepted, somebody has to be notified of it.
    #[inline(always)]
    pub fn send_by(&self, seat: &mut SeatGuard, item: &mut impl Offer) -> u32 {
        let code = item.send_by(self, seat);
        if code == code::ACCEPTED {
            seat.count_one();
        } else if ![code::FULL, code::CLOSED, code::SPENT, code::WORN].contains(&code) {
            unexpected(code);
        }
        code
    }

    #[inline]
    pub fn notify_item(&self) {
        self.groups.first.line.notify_one();
        if !self.groups.others.is_empty() {
            self.notify_other_groups();
        }
    }

    #[cold]
    fn notify_other_groups(&self) {
        self.groups
            .others
            .iter()
            .for_each(|group| group.line.notify_one());
    }

    /// After the queue of this seat refused an item with this code: there is another queue now, if it gives no error.
    pub fn replace_refusing(&self, code: u32, mut seat: SeatGuard) -> Sent {
        let &mut QueueHandle { queue, shares, .. } = seat.pass().0;
        drop(seat);
        // Whether a lost group is in the queue, and holds up the others.
        let is_stale = shares != self.alive().count();
        match code {
            code::CLOSED => self.closed.store(true, Ordering::SeqCst),
            code::FULL if !is_stale => {
                self.senders.found_none.store(true, Ordering::Relaxed);
                return Err(NotSent::Full);
            }
            _ => {}
        }
        let groups = lock(&self.groups_lock);
        self.check_open()?;
        let mut left_by_lost = vec![];
        if self.senders.seats.acquire().pass().0.queue == queue {
            left_by_lost = self.replace_queue(None).ok_or(NotSent::NoMemory)?;
        }
        drop(groups);
        self.end_replacing(left_by_lost);
        Ok(())
    }

    /// Tries to take an item for a group. It gives None at the end of the channel.
    #[inline]
    pub fn try_recv(&self, group: usize) -> Try<Option<Item>> {
        if self.finds_no_item(self.groups.of(group)) {
            return Err(Again::WhenNotified);
        }
        self.take_if_there(group)
    }

    /// The same, without a look that comes first.
    #[inline]
    pub fn take_if_there(&self, group: usize) -> Try<Option<Item>> {
        if let Some(meeting) = self.meeting(group) {
            let mut item = None;
            return meeting.try_now(&mut item).map(|()| item);
        }
        match self.take_in_seat(group, Core::take_by) {
            Ok(item) => Ok(Some(item)),
            Err((code, seat)) => self.take_further(group, code, seat),
        }
    }

    /// Takes an item, if there is one in the queue that a seat of the group is at.
    #[inline]
    pub fn take(&self, group: usize) -> Option<Item> {
        if self.rendezvous().is_some() {
            return None;
        }
        self.take_in_seat(group, Core::take_by).ok()
    }

    /// The same of items of one word.
    #[inline(never)]
    pub fn take_word(&self, group: usize) -> Answer {
        if self.rendezvous().is_some() {
            return Answer::none(NoItem::Empty);
        }
        let taken = self.take_in_seat(group, Core::take_word_by);
        taken.unwrap_or_else(|_| Answer::none(NoItem::Empty))
    }

    /// Tries to take an item of one word for a group.
    #[inline(always)]
    pub fn try_take_word(&self, group: usize) -> Answer {
        let side = self.groups.of(group);
        match side.has_found_none() {
            true => self.look_and_take_word(side, group),
            false => self.take_word_of(side, group),
        }
    }

    #[inline(never)]
    fn look_and_take_word(&self, side: &Side, group: usize) -> Answer {
        match self.still_finds_no_item(side) {
            true => Answer::none(NoItem::Empty),
            false => self.take_word_of(side, group),
        }
    }

    /// Takes an item of one word for this group, which has this number, without a look first.
    #[inline(never)]
    fn take_word_of(&self, side: &Side, group: usize) -> Answer {
        if self.rendezvous().is_some() {
            return self.take_word_if_there(group);
        }
        match self.take_of(side, Core::take_word_by) {
            Ok(item) => item,
            Err((code, seat)) => self.take_word_further(group, code, seat),
        }
    }

    #[cold]
    fn take_word_if_there(&self, group: usize) -> Answer {
        or_none(self.take_if_there(group)).into()
    }

    #[cold]
    fn take_word_further(&self, group: usize, code: u32, seat: SeatGuard) -> Answer {
        or_none(self.take_further(group, code, seat)).into()
    }

    /// Takes by a seat of this group. If there is no item, it gives the queue's code, and the seat.
    #[inline(always)]
    fn take_in_seat<R>(
        &self,
        group: usize,
        take: impl FnOnce(&Core, &mut SeatGuard) -> Result<R, u32>,
    ) -> Result<R, (u32, SeatGuard<'_>)> {
        self.take_of(self.groups.of(group), take)
    }

    /// Takes by a seat of this group, as above.
    #[inline(always)]
    fn take_of<'a, R>(
        &'a self,
        group: &'a Side,
        take: impl FnOnce(&Core, &mut SeatGuard) -> Result<R, u32>,
    ) -> Result<R, (u32, SeatGuard<'a>)> {
        let mut seat = self.acquire_seat(group);
        let item = match take(self, &mut seat) {
            // The count doesn't panic, so nothing has to drop the item: the compiler leaves it in registers.
            Ok(item) => ManuallyDrop::new(item),
            Err(code) => return Err((code, seat)),
        };
        seat.count_one();
        seat.give_back();
        has_taken(self);
        self.senders.line.notify_one();
        Ok(ManuallyDrop::into_inner(item))
    }

    /// After the queue of this seat returned this code in place of an item: at its end tries again, if there is a next
    /// queue.
    #[cold]
    fn take_further(&self, group: usize, code: u32, seat: SeatGuard) -> Try<Option<Item>> {
        match (code, &self.flavor) {
            (code::EMPTY, _) => {
                self.side(group).found_none.store(true, Ordering::Relaxed);
                return Err(Again::WhenNotified);
            }
            (code::ENDED, Flavor::Row(row)) => {
                if self.next_for_group(row, group, seat) {
                    return self.take_if_there(group);
                }
            }
            (code::ENDED, _) => self.closed.store(true, Ordering::SeqCst),
            (code, _) => unexpected(code),
        }
        Ok(None)
    }

    /// Takes what is left for this group, one item after another.
    pub fn drain(&self, group: usize) -> impl Iterator<Item = Item> {
        iter::from_fn(move || self.try_recv(group).ok().flatten())
    }

    /// Takes an item by this seat. Gives the queue's code if there is none.
    #[allow(unsafe_code)]
    #[inline]
    pub fn take_by(&self, seat: &mut SeatGuard) -> Result<Item, u32> {
        let (pass, line) = seat.pass();
        let words = pass.handle.take(self.kind.words, line)?;
        // SAFETY: what is in the queue was sent as the words of items of this kind; each was
        // for as many groups as the queue has; and a group takes each item of the queue once.
        Ok(unsafe { Item::taken(words, self.kind) })
    }

    /// The same of an item of one word.
    #[allow(unsafe_code)]
    #[inline(always)]
    pub fn take_word_by(&self, seat: &mut SeatGuard) -> Result<Answer, u32> {
        let word = seat.take_word()?;
        // SAFETY: as of `take_by`. The queue gives no item of more words by this call.
        Ok(unsafe { Answer::taken(word, self.kind) })
    }

    /// Closes the channel. Returns whether it was open.
    pub fn close(&self) -> bool {
        let closed = self.close_queue();
        if closed {
            let mut panics = Panics::default();
            self.notify_all(&mut panics);
            panics.raise();
        }
        closed
    }

    fn close_queue(&self) -> bool {
        match &self.flavor {
            Flavor::Rendezvous(rendezvous) => !rendezvous.close(&self.closed),
            Flavor::Row(row) => self.close_row(row),
            Flavor::Queue => {
                let mut seat = self.senders.seats.acquire();
                let closed = seat.close();
                // While the seat is held, so that whoever has all seats knows it.
                self.closed.store(true, Ordering::SeqCst);
                closed
            }
        }
    }

    /// Wakes all that wait.
    fn notify_all(&self, panics: &mut Panics) {
        let sides = iter::once(&self.senders).chain(self.groups.iter());
        sides.for_each(|it| it.line.notify_all(panics));
        if let Some(rendezvous) = self.rendezvous() {
            rendezvous.wake_all(panics);
        }
    }

    /// Whether this group has lost its receivers, and may not have taken all items of a closed channel.
    fn has_left(&self, group: usize) -> bool {
        let side = self.side(group);
        side.is_lost() && side.in_queue.load(Ordering::Relaxed) && {
            // A thread that has a seat may have to count its item.
            self.senders.seats.wait_for_holders();
            let taken = side.seats.count();
            self.rendezvous().is_some() || taken < self.senders.seats.count()
        }
    }

    /// The last handle of this side is gone: the channel is closed, or goes on without this group. The items
    /// that the group hasn't taken are dropped.
    pub fn last_handle_dropped(&self, side: usize) {
        let groups = lock(&self.groups_lock);
        self.side(side).lost.store(true, Ordering::SeqCst);
        let mut left_by_lost = vec![];
        if side == SENDERS || self.alive().next().is_none() {
            if !self.is_closed() {
                self.close_queue();
            }
        } else if let Flavor::Row(row) = &self.flavor {
            left_by_lost = self.go_on_without_lost(row);
        } else {
            // Or there is no memory: a send tries again, once it finds no room.
            left_by_lost = self.replace_queue(None).unwrap_or_default();
        }
        let is_closed = side != SENDERS && self.is_closed();
        let has_left = |it: &usize| is_closed && self.has_left(*it);
        let lost: Vec<_> = (1..=self.groups.len()).filter(has_left).collect();
        drop(groups);
        let mut panics = Panics::default();
        self.notify_all(&mut panics);
        panics.run_each(left_by_lost, drop);
        for group in lost {
            panics.run_each(self.drain(group), drop);
        }
        panics.raise();
    }
}
