//! A channel of capacity 0: a send and a take meet.
//!
//! It works without the queue, under locks of its own, and rests on nothing of the queue's proof.
//!
//! A call looks first whether one of the other side is posted, and meets that one; if there is none, it posts itself,
//! by a [`Waiter`]. A call that was met is met by no other. A send of a thread or a task has its item with it, and
//! gives the item to the take at once. A selected send has no item yet: it gives the item to the take that it has met
//! when it is completed, or gives the take up when it is dropped. A thread that waits makes the polls of a task, and
//! parks between two of them. Sends and takes make the same polls: a poll that is done has exchanged the item, or the
//! channel is closed.
//!
//! **A call allocates nothing**: a thread keeps the waiters of its calls that are over, and uses them again. A thread
//! or a select that has met a waiter doesn't touch the waiter after the waiter's call is over, but to drop its
//! reference.
//!
//! **None is missed.** A call looks for others and posts itself, in all the channels of its select, in one step: it
//! has the locks of all of them. So of two that might meet, one is posted first, and the other one finds it. Before
//! it goes on it takes itself off, and then looks whether somebody met it meanwhile.
//!
//! **None is met twice.** A waiter notes that it is met, under a lock ([`Waiter::try_meet`]); it may be posted in
//! several channels. The item of a send is taken out of the one list in which it is.
//!
//! **Only the send may give a take up.** A take that a selected send has met, and a select of one, returns only once it
//! has its item, also if its time is over before: so a selected send that is completed has a take. If the send gives
//! the take up, the take is woken, and goes on: with the other operations of its select, and until its time is over.
//! The take of a task may be dropped: its item goes to the next take.
//!
//! **A time that is over** hands the item back exactly if nobody took it: a send takes it off itself then.
//!
//! **A poll waits for nothing.** The take of a task is a waiter too. A waker is noted under the lock under which the
//! poll looks at what the waker is to report, so that whoever changes that finds the waker. If a task is dropped, its
//! item goes to the next take, or the channel keeps it for one, also after a close.
//!
//! **Those that only look** ([`Select::ready`](crate::Select::ready)) aren't posted. They wait in the lines of their sides, for which each
//! post notifies: see [`event`](crate::event).
//!
//! **Order of locks**: the lists, by their address; a waiter. User code runs while none is held.
use super::body::{Item, Unsent};
use super::core::{Core, NotSent, SENDERS, Sent};
use super::future::Waiting;
use super::select::{Begun, Case, Entry, Place};
use crate::event::{Again, Panics, Try, ignore_panics, lock, poll_until};
use crate::host::sync::atomic::{AtomicBool, Ordering};
use crate::host::sync::{Arc, Mutex, MutexGuard};
use crate::host::time::Instant;
use crate::numbered::Numbered;
use std::cell::RefCell;
use std::collections::VecDeque;
use std::mem::{self, replace, swap};
use std::ptr;
use std::task::{Poll, Waker};

/// The side of the takes.
const TAKES: usize = 1;

/// A call that is posted, until another one meets it. If that is a selected send, it is where a take waits for its
/// item.
#[derive(Default)]
pub struct Waiter(Mutex<Waits>);

#[derive(Default)]
struct Waits {
    /// None once it is used, until it is noted again.
    waker: Option<Waker>,
    /// The number under which it was posted, if it isn't a select.
    number: u64,
    /// In which operation of its select it was met.
    met: Option<usize>,
    /// Of a selected send that was met: the take, to which it gives its item.
    take: Option<Arc<Waiter>>,
    /// Of a send that isn't selected: its item, until it is taken. Of a take: the item that it got.
    item: Unsent,
    end: Option<End>,
}

/// How the call of a waiter ends.
#[derive(PartialEq)]
enum End {
    /// Its item was taken, or it got one.
    Exchanged,
    /// It is a take, whose selected send has given it up.
    GivenUp,
    /// It is a take, which was dropped before its selected send had an item.
    Dropped,
}

/// How many waiters a thread keeps.
const KEPT: usize = 4;

thread_local! {
    /// Waiters of calls that are over. They have neither a waker nor an item.
    static IDLE: RefCell<Vec<Arc<Waiter>>> = const { RefCell::new(Vec::new()) };
}

impl Waiter {
    /// One of this thread that is idle, if it has one.
    pub fn idle() -> Arc<Waiter> {
        let idle = IDLE.try_with(|idle| idle.borrow_mut().pop());
        idle.ok().flatten().unwrap_or_default()
    }

    /// The call of this waiter is over.
    pub fn put_by(self: Arc<Self>) {
        // If the thread locals are gone already, it goes too.
        let _ = IDLE.try_with(|idle| {
            let mut idle = idle.borrow_mut();
            if idle.len() < KEPT {
                idle.push(self);
            }
        });
    }

    /// Begins a call: one that is posted, or a take that is met already.
    fn begin(&self, waker: Option<Waker>, number: u64, met: Option<usize>, item: Unsent) {
        let (take, end) = (None, None);
        *lock(&self.0) = Waits {
            waker,
            number,
            met,
            take,
            item,
            end,
        };
    }

    /// What a selected send gives to its take, which wakes. The item is handed back if the take was dropped.
    fn give(&self, item: Unsent, end: End) -> Unsent {
        let mut waits = lock(&self.0);
        if waits.end.is_some() {
            return item;
        }
        (waits.item, waits.end) = (item, Some(end));
        let waker = waits.waker.take();
        drop(waits);
        ignore_panics(waker, Waker::wake);
        None
    }

    /// The selected send of this take isn't completed.
    pub fn give_up(&self) {
        self.give(None, End::GivenUp);
    }

    /// Returns how the call ends, and the item that it has then. If it goes on, it wakes this waker.
    fn poll(&self, item: &mut Unsent, waker: &Waker, panics: &mut Panics) -> Poll<End> {
        let mut take = |waits: &mut Waits| {
            let end = waits.end.take()?;
            *item = waits.item.take();
            Some(end)
        };
        if let Some(end) = take(&mut lock(&self.0)) {
            return Poll::Ready(end);
        }
        let mut waker = Some(waker.clone());
        let mut waits = lock(&self.0);
        let end = take(&mut waits);
        if end.is_none() {
            swap(&mut waits.waker, &mut waker);
        }
        drop(waits);
        // The one that isn't noted, or isn't any more.
        panics.run_each(waker, drop);
        end.map_or(Poll::Pending, Poll::Ready)
    }

    /// Waits until a take that a selected send has met has its item. Gives None if the send has given it up.
    pub fn wait_for_item(self: Arc<Self>) -> Unsent {
        let mut item = None;
        poll_until(None, |waker| {
            self.poll(&mut item, waker, &mut Panics::default())
        });
        self.put_by();
        item
    }
}

/// A waiter in a list, and the index of its operation in the order of its select.
struct Posted(Arc<Waiter>, usize);

#[derive(Default)]
struct Lists {
    is_closed: bool,
    /// By their sides.
    posted: [Numbered<Posted>; 2],
    /// Items of tasks that were dropped.
    returned: VecDeque<Item>,
}

/// There are some if futures were forgotten.
impl Drop for Lists {
    fn drop(&mut self) {
        let mut panics = Panics::default();
        for Posted(waiter, _) in self.posted.iter_mut().flat_map(Numbered::take_all) {
            let waits = mem::take(&mut *lock(&waiter.0));
            panics.run_each(waits.waker, drop);
            panics.run_each(waits.item, drop);
        }
        panics.run_each(mem::take(&mut self.returned), drop);
        panics.raise();
    }
}

impl Lists {
    /// Meets the first of the other side that no call has met. If the send has its item, both exchange the item, and
    /// the other one wakes.
    fn meet(&mut self, side: usize, item: &mut Unsent, woken: &mut Option<Waker>) -> Option<Begun> {
        let returned = (side == TAKES).then(|| self.returned.pop_front());
        if let Some(item) = returned.flatten() {
            return Some(Begun::Taken(item));
        }
        if self.is_closed {
            return Some(Begun::Closed);
        }
        while let Some(Posted(waiter, at)) = self.posted[1 - side].pop_first() {
            let mut waits = lock(&waiter.0);
            if waits.met.is_some() {
                continue;
            }
            waits.met = Some(at);
            if item.is_some() || waits.item.is_some() {
                swap(&mut waits.item, item);
                waits.end = Some(End::Exchanged);
            }
            if side == TAKES || waits.end.is_some() {
                *woken = waits.waker.take();
            }
            return Some(match item.take() {
                Some(item) => Begun::Taken(item),
                None if side == SENDERS => {
                    drop(waits);
                    Begun::Met(waiter)
                }
                None => {
                    let take = Waiter::idle();
                    take.begin(None, 0, Some(0), None);
                    waits.take = Some(take.clone());
                    Begun::Met(take)
                }
            });
        }
        None
    }

    /// Posts a waiter, whose operation has this index in its select, and returns its number.
    fn post(&mut self, side: usize, waiter: &Arc<Waiter>, at: usize) -> u64 {
        self.posted[side].push(Posted(waiter.clone(), at))
    }
}

/// The lists of the channels of a select, which are locked. For the first few it needs no memory.
#[derive(Default)]
struct Locked<'a>([Option<LockedLists<'a>>; 4], Vec<LockedLists<'a>>);

type LockedLists<'a> = (*const Rendezvous, MutexGuard<'a, Lists>);

impl<'a> Locked<'a> {
    /// Locks each once, in the order of their addresses.
    fn of(entries: &[Entry<'a>]) -> Locked<'a> {
        let (mut locked, mut last) = (Locked::default(), ptr::null());
        let mut free = locked.0.iter_mut();
        loop {
            let meetings = entries.iter().filter_map(|it| it.case.meeting());
            let later = meetings
                .map(|it| it.of)
                .filter(|it| ptr::from_ref(*it) > last);
            let Some(next) = later.min_by_key(|it| ptr::from_ref(*it)) else {
                return locked;
            };
            last = next;
            match free.next() {
                Some(place) => *place = Some((last, lock(&next.0))),
                None => locked.1.push((last, lock(&next.0))),
            }
        }
    }

    fn lists(&mut self, of: &Rendezvous) -> &mut Lists {
        let mut all = self.0.iter_mut().flatten().chain(&mut self.1);
        &mut all.find(|it| ptr::eq(it.0, of)).expect("it is locked").1
    }
}

/// Meets one that is posted for one of these operations, and gives its index. If there is none, it posts a waiter for
/// all that may meet another, at these places, which wakes this waker, a thread's. Or it posts nothing: then none was
/// posted at one moment.
pub fn meet_each(
    entries: &[Entry],
    posted: Option<(&mut [Place], Waker)>,
) -> Result<(usize, Begun), Option<Arc<Waiter>>> {
    let (mut locked, mut woken) = (Locked::of(entries), None);
    let found = entries.iter().enumerate().find_map(|(at, it)| {
        let Meeting { of, side, .. } = it.case.meeting()?;
        Some((at, locked.lists(of).meet(side, &mut None, &mut woken)?))
    });
    let found = found.ok_or_else(|| {
        let ((places, waker), waiter) = (posted?, Waiter::idle());
        waiter.begin(Some(waker), 0, None, None);
        for (at, it) in entries.iter().enumerate() {
            if let Some(Meeting { of, side, .. }) = it.case.meeting() {
                places[at].number = locked.lists(of).post(side, &waiter, at);
            }
        }
        Some(waiter)
    });
    drop(locked);
    ignore_panics(woken, Waker::wake);
    found
}

/// Takes the waiter of a select off all lists. Gives the operation in which it was met.
pub fn withdraw_each(
    entries: &[Entry],
    places: &[Place],
    waiter: Arc<Waiter>,
) -> Option<(usize, Begun)> {
    for (it, place) in entries.iter().zip(places) {
        if let Some(Meeting { of, side, .. }) = it.case.meeting() {
            lock(&of.0).posted[side].remove(place.number);
        }
    }
    let mut waits = lock(&waiter.0);
    let (met, item, take) = (waits.met, waits.item.take(), waits.take.take());
    waits.waker = None; // a thread's: no user code
    drop(waits);
    match item.map(Begun::Taken).or(take.map(Begun::Met)) {
        None if met.is_some() => Some((met?, Begun::Met(waiter))),
        begun => {
            waiter.put_by();
            Some((met?, begun?))
        }
    }
}

/// The lists of a channel of capacity 0.
#[derive(Default)]
pub struct Rendezvous(Mutex<Lists>);

impl Rendezvous {
    /// Nobody meets any more. Sets this flag in the same step, and returns what it was.
    pub fn close(&self, closed: &AtomicBool) -> bool {
        let mut lists = lock(&self.0);
        lists.is_closed = true;
        closed.swap(true, Ordering::SeqCst)
    }

    /// Wakes all that are posted.
    pub fn wake_all(&self, panics: &mut Panics) {
        let mut lists = lock(&self.0);
        let posted = lists.posted.iter_mut().flat_map(Numbered::iter_mut);
        let wakers = posted.filter_map(|it| lock(&it.0.0).waker.take());
        let wakers: Vec<_> = wakers.collect();
        drop(lists);
        panics.run_each(wakers, Waker::wake);
    }
}

/// A send is made if its item isn't here any more. Else the channel is closed.
pub fn is_sent(item: &Unsent) -> Sent {
    item.as_ref().map_or(Ok(()), |_| Err(NotSent::Closed))
}

/// A send or a take of a channel of capacity 0. It is done if the item is exchanged, or the channel is closed: then a
/// send has its item still, and a take has none.
#[derive(Clone, Copy)]
pub struct Meeting<'a> {
    pub core: &'a Core,
    pub of: &'a Rendezvous,
    pub side: usize,
}

impl Meeting<'_> {
    /// Meets one that is posted. A send may have its item.
    pub fn meet(self, item: &mut Unsent) -> Try<Begun> {
        let mut woken = None;
        let found = lock(&self.of.0).meet(self.side, item, &mut woken);
        ignore_panics(woken, Waker::wake);
        found.ok_or(Again::WhenNotified)
    }

    /// Exchanges an item with one that is posted.
    pub fn try_now(self, item: &mut Unsent) -> Try<()> {
        loop {
            match self.meet(item)? {
                Begun::Taken(taken) => *item = Some(taken),
                Begun::Met(take) if self.side == TAKES => {
                    *item = take.wait_for_item();
                    if item.is_none() {
                        continue;
                    }
                }
                _ => {}
            }
            return Ok(());
        }
    }

    /// Whether there seems to be one to meet, or nobody will be.
    pub fn look(self) -> Try<()> {
        let lists = lock(&self.of.0);
        let has_item = self.side == TAKES && !lists.returned.is_empty();
        let has_other = lists.posted[1 - self.side].len() > 0;
        Again::unless(has_item || has_other || lists.is_closed)
    }

    /// Completes a selected send. The item is put back if its take was dropped, and the channel is closed.
    pub fn complete(self, take: &Waiter, item: &mut Unsent) -> Sent {
        if let Some(left) = take.give(item.take(), End::Exchanged) {
            *item = self.hand_on(left, false);
        }
        is_sent(item)
    }

    /// Gives an item whose take was dropped to the next take, or keeps it for one. Gives it back if it isn't sent yet,
    /// and the channel is closed.
    fn hand_on(self, item: Item, is_sent: bool) -> Unsent {
        let (mut item, mut woken) = (Some(item), None);
        let mut lists = lock(&self.of.0);
        lists.meet(SENDERS, &mut item, &mut woken);
        if is_sent || !lists.is_closed {
            lists.returned.extend(item.take());
        }
        drop(lists);
        ignore_panics(woken, Waker::wake);
        // The item may be kept for a take that only looks.
        self.core.notify_item();
        item
    }

    /// Takes this call off its list, with the item that it has. Returns false if a selected send has met it, which is
    /// to give it an item; unless the call is dropped.
    fn withdraw(self, it: &Waiter, drops: bool, item: &mut Unsent, panics: &mut Panics) -> bool {
        let number = lock(&it.0).number;
        lock(&self.of.0).posted[self.side].remove(number);
        let mut waits = lock(&it.0);
        if waits.met.is_some() && waits.end.is_none() {
            if !drops {
                return false;
            }
            waits.end = Some(End::Dropped);
        }
        *item = waits.item.take();
        let waker = waits.waker.take();
        drop(waits);
        panics.run_each(waker, drop);
        true
    }

    /// A task's call is no more: an item that its take got goes to the next one. Gives the item of a send, if nobody
    /// has it.
    pub fn leave(self, waiter: &Waiter, panics: &mut Panics) -> Unsent {
        let mut item = None;
        self.withdraw(waiter, true, &mut item, panics);
        if self.side == TAKES {
            item.take().map(|item| self.hand_on(item, true));
        }
        item
    }

    /// One poll: meets another call, or posts itself, and then looks whether it was met.
    pub fn poll(
        self,
        waiting: &mut Waiting,
        item: &mut Unsent,
        waker: &Waker,
        panics: &mut Panics,
    ) -> Poll<()> {
        loop {
            if let Waiting::Posted(waiter) = waiting {
                let polled = waiter.poll(item, waker, panics);
                let is_closed = || self.core.is_closed();
                if polled.is_pending()
                    && !(is_closed() && self.withdraw(waiter, false, item, panics))
                {
                    return Poll::Pending;
                }
                if let Waiting::Posted(waiter) = replace(waiting, Waiting::No) {
                    waiter.put_by();
                }
                if polled != Poll::Ready(End::GivenUp) {
                    return Poll::Ready(());
                }
            }
            let (mut waker, mut woken) = (Some(waker.clone()), None);
            let mut lists = lock(&self.of.0);
            let found = lists.meet(self.side, item, &mut woken);
            if found.is_none() {
                let waiter = Waiter::idle();
                let number = lists.post(self.side, &waiter, 0);
                waiter.begin(waker.take(), number, None, item.take());
                *waiting = Waiting::Posted(waiter);
            }
            drop(lists);
            panics.run_each(waker, drop);
            ignore_panics(woken, Waker::wake);
            match found {
                None => {
                    Case::Of(self.core, self.side).notify_posted();
                    return Poll::Pending;
                }
                Some(Begun::Met(take)) if self.side == TAKES => *waiting = Waiting::Posted(take),
                Some(found) => {
                    if let Begun::Taken(taken) = found {
                        *item = Some(taken);
                    }
                    return Poll::Ready(());
                }
            }
        }
    }

    /// Waits until this moment. Returns whether it was done before. Else the item may be exchanged as well.
    #[cold]
    pub fn wait(self, item: &mut Unsent, until: Option<Instant>) -> bool {
        let (mut waiting, mut panics) = (Waiting::No, Panics::default());
        let poll = |waker: &Waker| self.poll(&mut waiting, item, waker, &mut panics);
        let is_done = poll_until(until, poll).is_some();
        if let Waiting::Posted(waiter) = waiting {
            if self.withdraw(&waiter, false, item, &mut panics) {
                waiter.put_by();
            } else {
                *item = waiter.wait_for_item();
            }
        }
        is_done
    }
}
