//! One of several operations, over channels of any types: [`Select`] and [`select!`](crate::select!).
//!
//! A select tries each operation, in a random order. If none is ready, its thread stands in the line of each, and goes on as
//! [`event`](crate::event) says of a waiter in several lines: it looks, parks until one of the lines is notified, leaves all, and
//! tries again. It passes on the notification of each line from which it takes nothing. So no wake-up is lost, and while it is
//! blocked it costs nothing.
//!
//! **None is ready**, it says after its time only if none was ready at one moment. Each operation has a number of calls that
//! were made, and a number of calls that are possible: of a take the items that its group has taken, and those that were
//! sent; of a send the items that were sent, and those that the slowest group has taken, and the capacity. Both only grow, and the
//! operation isn't ready if they are equal. The select reads the first number of each operation, and then the second number of
//! each; see `Turn::is_none_ready`. Where these numbers say nothing it stands in all lines, tries, and leaves: if no line
//! was notified until then, none was ready. That is so for capacity 0 beside queues, beside reserved places, and beside
//! a call whose thread doesn't run; then others that wait in the same line may be notified in its place, and the
//! moments may differ. If all operations are of capacity 0, the select looks once while it has the locks of all their
//! lists, and posts nothing.
//!
//! **A selected take has its item.** The try is the take itself, so there is one, and no other receiver gets the item.
//! [`SelectedOperation`] keeps it until [`recv`](SelectedOperation::recv) hands it over.
//!
//! **A selected send has its room**, since its item may come after the selection. `Core::reserve` counts a place
//! as reserved, and then waits until each of the senders' seats was free once: no send that hasn't seen it is on its way then. If
//! the place isn't free it counts it down again. Each other send sees by its seat that places are reserved; it then sends under a
//! lock, and leaves those places free. So items and reserved places together are never more than the capacity, and
//! [`SelectedOperation::send`] finds room without waiting. A send that gives its place back notifies one that waits for room. In a
//! [`row`](super::row) of queues a place is counted, and no seat is taken for it: see [`limit`](super::limit).
//!
//! **Room and items are counted here**, not asked of the queue: a send and a take each count by their seat,
//! give it back, and then look whether somebody waits. A look that finds nothing waits until each of those seats was free once, which
//! is a load of each, and counts again. A holder before that has counted; a holder after that sees the waiter in line. So a look that finds nothing
//! is the look of [`event`](crate::event)'s argument: at some moment of it there was nothing.
use super::body::{Item, Unsent};
use super::core::{Core, NotSent, SENDERS, Sent, or_closed};
use super::pool::Patience;
use super::rendezvous::{Meeting, Waiter, meet_each, withdraw_each};
use super::timer::Timer;
use super::{
    ReadyTimeoutError, Receiver, RecvError, SelectTimeoutError, SendError, Sender, TryReadyError,
    TrySelectError,
};
use crate::backoff::FOR_OTHERS;
use crate::event::{Event, Panics, Parker, Ticket, Try, is_over};
use crate::host::time::{Duration, Instant};
use std::cell::Cell;
use std::hash::{BuildHasher, Hasher, RandomState};
use std::marker::PhantomData;
use std::ptr;
use std::sync::Arc;
use std::sync::atomic::Ordering;

/// The state of a selected operation, until it is completed.
pub enum Begun {
    /// It is a take, which has the item.
    Taken(Item),
    /// A place is reserved.
    Room,
    /// It has met another one: this is the take, to which the item is given.
    Met(Arc<Waiter>),
    /// The channel is closed.
    Closed,
}

/// An operation of a select or of a future.
#[derive(Clone, Copy)]
pub enum Case<'a> {
    /// A send or a take of this side of a channel.
    Of(&'a Core, usize),
    /// A take.
    Timer(&'a Timer),
}

impl<'a> Case<'a> {
    /// The line in which one waits for it.
    pub fn line(self) -> &'a Event {
        match self {
            Case::Of(core, side) => &core.side(side).line,
            Case::Timer(timer) => &timer.line,
        }
    }

    /// The number of its side.
    pub fn side(self) -> usize {
        match self {
            Case::Of(_, side) => side,
            Case::Timer(_) => 1,
        }
    }

    /// If its channel has capacity 0.
    pub fn meeting(self) -> Option<Meeting<'a>> {
        match self {
            Case::Of(core, side) => core.meeting(side),
            Case::Timer(_) => None,
        }
    }

    /// Tries to take an item. It gives None at the end of the channel.
    #[inline]
    pub fn try_take(self) -> Try<Option<Item>> {
        match self {
            Case::Of(core, group) => core.try_recv(group),
            Case::Timer(timer) => timer.try_take(),
        }
    }

    /// It is posted: notifies those of the other side that aren't.
    pub fn notify_posted(self) {
        match self {
            Case::Of(core, SENDERS) => core.notify_item(),
            Case::Of(core, _) => core.senders.line.notify_one(),
            Case::Timer(_) => {}
        }
    }

    /// Begins it, if it is ready.
    #[inline]
    fn begin(self, begun: &mut Option<Begun>) -> Try<()> {
        *begun = Some(match self {
            Case::Of(core, SENDERS) => match core.meeting(SENDERS) {
                Some(meeting) => meeting.meet(&mut None)?,
                None => or_closed(core.reserve())?.map_or(Begun::Closed, |()| Begun::Room),
            },
            _ => self.try_take()?.map_or(Begun::Closed, Begun::Taken),
        });
        Ok(())
    }

    /// Whether it is ready. It may say so though it isn't.
    pub fn look(self, patience: Patience) -> Try<()> {
        match (self, self.meeting()) {
            (_, Some(meeting)) => meeting.look(),
            (Case::Of(core, SENDERS), None) => core.seems_to_have_room(patience),
            (Case::Of(core, group), None) => core.seems_to_have_item(core.side(group), patience),
            (Case::Timer(timer), _) => timer.look(),
        }
    }

    /// How many calls of this operation were made: no more than at any later moment.
    fn made(self) -> u64 {
        match self {
            Case::Of(core, side) => core.side(side).seats.count(),
            Case::Timer(timer) => timer.taken.load(Ordering::SeqCst),
        }
    }

    /// How many calls of this operation are possible, with those that were made: no fewer than at any earlier moment. None if
    /// that isn't known, or the channel is closed.
    fn possible(self) -> Option<u64> {
        match self {
            _ if self.meeting().is_some() => None,
            Case::Of(core, SENDERS) => core.possible_sends(),
            Case::Of(core, _) => core.possible_takes(),
            Case::Timer(timer) => timer.possible(),
        }
    }

    /// It isn't completed.
    fn give_up(self, begun: Begun) {
        match (self, begun) {
            (Case::Of(core, _), Begun::Room) => core.give_back_room(),
            (_, Begun::Met(take)) => take.give_up(),
            _ => {}
        }
    }
}

impl Core {
    /// Sends by a selected send.
    fn complete(&self, begun: &mut Option<Begun>, item: &mut Unsent) -> Sent {
        let sent = match (&*begun, self.meeting(SENDERS)) {
            (Some(Begun::Met(take)), Some(meeting)) => meeting.complete(take, item),
            (Some(Begun::Room), _) => self.send_to_room(item),
            _ => Err(NotSent::Closed),
        };
        *begun = None;
        sent
    }
}

/// An operation, and its index.
#[derive(Clone, Copy)]
pub struct Entry<'a> {
    index: usize,
    pub case: Case<'a>,
    /// The address of its handle.
    handle: usize,
}

/// Where an operation waits.
#[derive(Clone, Copy, Default)]
pub struct Place {
    ticket: Option<Ticket>,
    /// Whether its line was notified before it left the line.
    is_notified: bool,
    /// The number under which it is posted, in a channel of capacity 0.
    pub number: u64,
}

/// An arm of the macros, whose select stays on its thread: so its items are of any type.
#[doc(hidden)]
#[derive(Clone, Copy)]
pub struct Arm<'a>(Entry<'a>, PhantomData<*const ()>);

impl<'a> Arm<'a> {
    pub fn recv<T>(receiver: &'a Receiver<T>) -> Arm<'a> {
        Arm::of(receiver.0.case(), receiver)
    }

    pub fn send<T>(sender: &'a Sender<T>) -> Arm<'a> {
        Arm::of(Case::Of(sender.core(), SENDERS), sender)
    }

    fn of<H>(case: Case<'a>, handle: &H) -> Arm<'a> {
        let entry = Entry {
            index: 0,
            case,
            handle: ptr::from_ref(handle).addr(),
        };
        Arm(entry, PhantomData)
    }
}

/// How often a select tries after its time, before it stands in all lines.
const LAST_TRIES: usize = 4;

/// Whether a select begins the operation that is ready, or only looks.
#[derive(Clone, Copy, PartialEq)]
enum Aim {
    Begin,
    Look,
}

thread_local! {
    /// The state of this thread's random numbers, from random keys.
    static RANDOM: Cell<u64> = Cell::new(RandomState::new().build_hasher().finish() | 1);
}

/// A random number below this one, by Marsaglia's xorshift.
pub fn random_below(limit: usize) -> usize {
    let mut random = RANDOM.get();
    random ^= random << 13;
    random ^= random >> 7;
    random ^= random << 17;
    RANDOM.set(random);
    (random >> 32) as usize % limit
}

/// Waits until one of several operations is ready, and makes it, or says which it is.
///
/// Add operations by [`recv`](Select::recv) and [`send`](Select::send), which give their indices: 0, 1, and
/// so on. Then [`select`](Select::select) begins one that is ready, and [`SelectedOperation`] completes it;
/// [`ready`](Select::ready) only says that one is. The channels may have items of different types. An
/// operation of a channel that is closed is ready: it gives the error. [`select!`](crate::select!) is a
/// shorter form.
///
/// If several are ready, one of them is made at random, unless the select [is biased](Select::new_biased). One with no
/// operation waits until its time is over.
///
/// A select may go to another thread, so the items are `Send`. That of the macros stays on its thread, and takes items of any type.
///
/// ```
/// use vahepito::{Select, channel};
///
/// let (numbers, words) = (channel::<u32>(1)?, channel::<String>(1)?);
/// words.0.send("hello".to_string()).unwrap();
/// let mut select = Select::new();
/// let number = select.recv(&numbers.1);
/// let word = select.recv(&words.1);
/// let operation = select.select();
/// assert_eq!(operation.index(), word);
/// assert_eq!(operation.recv(&words.1).unwrap(), "hello");
/// assert!(select.try_select().is_err());
/// let room = select.send(&numbers.0);
/// let operation = select.select();
/// assert_eq!(operation.index(), room);
/// operation.send(&numbers.0, 7).unwrap();
/// assert_eq!(select.ready(), number);
/// assert_eq!(numbers.1.try_recv(), Ok(7));
/// # Ok::<(), vahepito::OpenError>(())
/// ```
#[derive(Clone, Default)]
pub struct Select<'a> {
    entries: Vec<Entry<'a>>,
    next: usize,
    is_biased: bool,
}

impl<'a> Select<'a> {
    fn add(&mut self, Arm(mut entry, _): Arm<'a>) -> usize {
        entry.index = self.next;
        self.next += 1;
        self.entries.push(entry);
        entry.index
    }

    /// One without operations.
    ///
    /// ```
    /// let mut select = vahepito::Select::new();
    /// assert!(select.try_ready().is_err());
    /// ```
    #[must_use]
    pub fn new() -> Select<'a> {
        Select::default()
    }

    /// One that prefers the operation with the lowest index.
    ///
    /// ```
    /// use vahepito::{Select, channel};
    ///
    /// let (urgent, others) = (channel(1)?, channel(1)?);
    /// others.0.send(2).unwrap();
    /// urgent.0.send(1).unwrap();
    /// let mut select = Select::new_biased();
    /// let first = select.recv(&urgent.1);
    /// select.recv(&others.1);
    /// assert_eq!(select.ready(), first);
    /// # Ok::<(), vahepito::OpenError>(())
    /// ```
    #[must_use]
    pub fn new_biased() -> Select<'a> {
        Select {
            is_biased: true,
            ..Select::default()
        }
    }

    /// Adds a send, and returns its index.
    ///
    /// ```
    /// use vahepito::{Select, channel};
    ///
    /// let (sender, receiver) = channel(1)?;
    /// let mut select = Select::new();
    /// assert_eq!(select.send(&sender), 0);
    /// select.select().send(&sender, 'a').unwrap();
    /// assert_eq!(receiver.recv(), Ok('a'));
    /// # Ok::<(), vahepito::OpenError>(())
    /// ```
    pub fn send<T: Send>(&mut self, sender: &'a Sender<T>) -> usize {
        self.add(Arm::send(sender))
    }

    /// Adds a take, and returns its index.
    ///
    /// ```
    /// use vahepito::{Select, channel};
    ///
    /// let (sender, receiver) = channel(1)?;
    /// sender.send('a').unwrap();
    /// let mut select = Select::new();
    /// assert_eq!(select.recv(&receiver), 0);
    /// assert_eq!(select.select().recv(&receiver), Ok('a'));
    /// # Ok::<(), vahepito::OpenError>(())
    /// ```
    pub fn recv<T: Send>(&mut self, receiver: &'a Receiver<T>) -> usize {
        self.add(Arm::recv(receiver))
    }

    /// Removes an operation. The others keep their indices.
    ///
    /// # Panics
    ///
    /// It has no operation with this index.
    ///
    /// ```
    /// use vahepito::{Select, channel};
    ///
    /// let (one, two) = (channel::<u8>(1)?, channel::<u8>(1)?);
    /// let mut select = Select::new();
    /// let (first, second) = (select.recv(&one.1), select.recv(&two.1));
    /// drop((one.0, two.0)); // both takes are ready, since they give an error
    /// select.remove(first);
    /// assert_eq!(select.ready(), second);
    /// # Ok::<(), vahepito::OpenError>(())
    /// ```
    pub fn remove(&mut self, index: usize) {
        let at = self.entries.iter().position(|it| it.index == index);
        let at = at.expect("the select has an operation with this index");
        self.entries.remove(at);
    }
}

/// A select of these operations, in the order in which they are tried, until this moment.
struct Turn<'s, 'a> {
    entries: &'s [Entry<'a>],
    aim: Aim,
    until: Option<Instant>,
    /// The operation that it has begun.
    begun: Option<Begun>,
}

impl<'s, 'a> Turn<'s, 'a> {
    /// Of operations that are in the order of their indices. If the select isn't biased, they get a random one.
    #[inline]
    fn new(entries: &'s mut [Entry<'a>], biased: bool, aim: Aim, until: Option<Instant>) -> Self {
        if !biased {
            for last in (1..entries.len()).rev() {
                entries.swap(last, random_below(last + 1));
            }
        }
        Turn {
            entries,
            aim,
            until,
            begun: None,
        }
    }

    /// Begins an operation.
    #[inline]
    fn select(mut self) -> Option<SelectedOperation<'a>> {
        let at = self.wait()?;
        Some(SelectedOperation {
            entry: self.entries[at],
            begun: self.begun,
            stays: PhantomData,
        })
    }

    /// Tries each until one is done, or the time is over. Gives the place of the one that is begun, or is ready.
    #[inline]
    fn wait(&mut self) -> Option<usize> {
        let done = self.try_each(0..);
        done.or_else(|| self.park())
    }

    #[inline]
    fn attempt(&mut self, case: Case) -> Try<()> {
        match self.aim {
            Aim::Begin => case.begin(&mut self.begun),
            Aim::Look if is_over(self.until) => case.look(Patience::Pauses),
            Aim::Look => case.look(Patience::Waits),
        }
    }

    /// Tries the operations of these places, until one is done.
    #[inline]
    fn try_each(&mut self, places: impl Iterator<Item = usize>) -> Option<usize> {
        for at in places {
            let entry = self.entries.get(at)?;
            if self.attempt(entry.case).is_ok() {
                return Some(at);
            }
        }
        None
    }

    /// Whether it is posted for others to meet: then it isn't in a line.
    fn is_posted(&self, entry: &Entry) -> bool {
        self.aim == Aim::Begin && entry.case.meeting().is_some()
    }

    /// Parks until one is done, or the time is over, after a few further tries.
    #[cold]
    fn park(&mut self) -> Option<usize> {
        if is_over(self.until) {
            // A try of one operation says itself that it wasn't ready.
            if self.entries.len() == 1 {
                return None;
            }
            if let Some(end) = self.end() {
                return end;
            }
            if self.entries.iter().all(|it| self.is_posted(it)) {
                return self.meet_at_the_end();
            }
        }
        let mut done = None;
        // Those that may meet another are posted at once.
        if !self.entries.iter().any(|it| self.is_posted(it)) {
            done = FOR_OTHERS.try_until(self.until, || self.try_each(0..));
        }
        if done.is_some() {
            return done;
        }
        // The places of few operations need no memory.
        let (mut few, mut many) = ([Place::default(); 4], vec![]);
        let places = few.get_mut(..self.entries.len()).unwrap_or_else(|| {
            many.resize(self.entries.len(), Place::default());
            &mut many
        });
        Parker::with(|parker| {
            loop {
                match self.stand_and_park(places, parker) {
                    Ok(done) => return Some(done),
                    Err(quiet) if is_over(self.until) => {
                        let end = self.end();
                        if let Some(end) = end.or(quiet.then_some(None)) {
                            return end;
                        }
                    }
                    Err(_) => {}
                }
            }
        })
    }

    /// After the time of a select over channels of capacity 0 alone: meets one that is posted, or finds that none was
    /// posted at one moment. It posts nothing.
    fn meet_at_the_end(&mut self) -> Option<usize> {
        loop {
            let (at, met) = meet_each(self.entries, None).ok()?;
            // Or its send has given it up.
            if let Some(at) = self.complete_meeting(at, met) {
                return Some(at);
            }
        }
    }

    /// After the time: begins one that is ready, or finds that none was ready at one moment. None if it finds neither.
    fn end(&mut self) -> Option<Option<usize>> {
        for _ in 0..LAST_TRIES {
            if self.is_none_ready()? {
                return Some(None);
            }
            if let Some(done) = self.try_each(0..) {
                return Some(Some(done));
            }
        }
        None
    }

    /// Whether no operation was ready at one moment `m` of this call: that between the two sums. None if that isn't known.
    ///
    /// `made` of each operation is read before `m`, and so is no more than at `m`. `possible` is read after `m`, and so is
    /// no less than at `m`: a call that made an item or a place before `m` had a seat, which is seen free after `m`, and so has counted.
    /// No more calls are made than are possible, so of each operation `made` is `possible` at most. So if the sums are equal, then both
    /// numbers are equal for each operation, and were equal at `m`: no call of it was possible.
    fn is_none_ready(&self) -> Option<bool> {
        let made: u64 = self.entries.iter().map(|it| it.case.made()).sum();
        let possible: Option<u64> = self.entries.iter().map(|it| it.case.possible()).sum();
        Some(possible? == made)
    }

    /// Stands in all lines, looks, and parks; leaves all, and tries again: the one that was notified comes first. The
    /// notification of a line is passed on if its operation wasn't tried after it, or was only looked at and is ready. If none is
    /// ready, it returns whether no line was notified: at the end none was ready then.
    fn stand_and_park(
        &mut self,
        places: &mut [Place],
        parker: &Arc<Parker>,
    ) -> Result<usize, bool> {
        let (entries, mut until, mut done) = (self.entries, self.until, None);
        let is_posted = |it: &Entry| self.aim == Aim::Begin && it.case.meeting().is_some();
        for (it, place) in entries.iter().zip(&mut *places) {
            let stands = !is_posted(it);
            place.ticket = stands.then(|| it.case.line().stand(parker.clone().into()));
        }
        let has_posted = entries.iter().any(is_posted);
        for (at, it) in entries.iter().enumerate() {
            match self.attempt(it.case) {
                Err(again) => until = again.before(until),
                Ok(()) => {
                    done = Some(at);
                    break;
                }
            }
        }
        if done.is_none() && has_posted {
            done = self.meet(places, until, parker);
        } else if done.is_none() {
            parker.park(until);
        }
        for (it, place) in entries.iter().zip(&mut *places) {
            // The waker is a parker's, whose drop doesn't panic.
            let leaves = |ticket| it.case.line().leave(ticket, &mut Panics::default());
            place.is_notified = place.ticket.is_some_and(leaves);
        }
        let first = places.iter().position(|it| it.is_notified);
        let tries = done.is_none();
        if tries {
            done = self.try_each(first.into_iter().chain(0..));
        }
        for (at, it) in entries.iter().enumerate() {
            let is_used = done.is_none() || self.aim == Aim::Begin && done == Some(at);
            if places[at].is_notified && !(tries && is_used) {
                it.case.line().notify_one();
            }
        }
        done.ok_or(first.is_none())
    }

    /// Posts the operations of channels of capacity 0, parks, and takes them off. Gives the place of one that has met
    /// another; if that is a take, once it has its item.
    fn meet(
        &mut self,
        places: &mut [Place],
        until: Option<Instant>,
        parker: &Arc<Parker>,
    ) -> Option<usize> {
        let posted = Some((&mut *places, parker.clone().into()));
        let found = meet_each(self.entries, posted).or_else(|waiter| {
            for it in self.entries.iter().filter(|it| it.case.meeting().is_some()) {
                it.case.notify_posted();
            }
            parker.wait(until);
            let met = waiter.and_then(|it| withdraw_each(self.entries, places, it));
            met.ok_or(())
        });
        let (at, met) = found.ok()?;
        self.complete_meeting(at, met)
    }

    /// Begins the operation of this place, which has met another: if it is a take, once it has its item.
    fn complete_meeting(&mut self, at: usize, met: Begun) -> Option<usize> {
        self.begun = Some(match met {
            Begun::Met(take) if self.entries[at].case.side() != SENDERS => {
                Begun::Taken(take.wait_for_item()?)
            }
            met => met,
        });
        Some(at)
    }
}

impl<'a> Select<'a> {
    fn turn(&mut self, aim: Aim, until: Option<Instant>) -> Turn<'_, 'a> {
        Turn::new(&mut self.entries, self.is_biased, aim, until)
    }

    fn select_until(&mut self, until: Option<Instant>) -> Option<SelectedOperation<'a>> {
        self.turn(Aim::Begin, until).select()
    }

    /// Begins an operation, if one is ready.
    ///
    /// # Errors
    ///
    /// None is ready.
    ///
    /// ```
    /// use vahepito::{Select, channel};
    ///
    /// let (sender, receiver) = channel(1)?;
    /// let mut select = Select::new();
    /// select.recv(&receiver);
    /// assert!(select.try_select().is_err());
    /// sender.send('a').unwrap();
    /// let operation = select.try_select().expect("there is an item");
    /// assert_eq!(operation.recv(&receiver), Ok('a'));
    /// # Ok::<(), vahepito::OpenError>(())
    /// ```
    pub fn try_select(&mut self) -> Result<SelectedOperation<'a>, TrySelectError> {
        let now = Some(Instant::now());
        self.select_until(now).ok_or(TrySelectError)
    }

    /// Waits until an operation is ready, and begins it.
    ///
    /// ```
    /// use std::thread;
    /// use vahepito::{Select, channel};
    ///
    /// let (one, two) = (channel::<u8>(1)?, channel(1)?);
    /// thread::spawn(move || two.0.send('b'));
    /// let mut select = Select::new();
    /// select.recv(&one.1);
    /// let second = select.recv(&two.1);
    /// let operation = select.select();
    /// assert_eq!(operation.index(), second);
    /// assert_eq!(operation.recv(&two.1), Ok('b'));
    /// # Ok::<(), vahepito::OpenError>(())
    /// ```
    pub fn select(&mut self) -> SelectedOperation<'a> {
        self.select_until(None).expect("it waits without end")
    }

    /// Waits until an operation is ready, but not longer than this, and begins it.
    ///
    /// # Errors
    ///
    /// None was ready in that time.
    ///
    /// ```
    /// use std::time::Duration;
    /// use vahepito::{Select, SelectTimeoutError, channel};
    ///
    /// let (_sender, receiver) = channel::<u8>(1)?;
    /// let mut select = Select::new();
    /// select.recv(&receiver);
    /// let told = select.select_timeout(Duration::from_millis(5));
    /// assert_eq!(told.err(), Some(SelectTimeoutError));
    /// # Ok::<(), vahepito::OpenError>(())
    /// ```
    pub fn select_timeout(
        &mut self,
        time: Duration,
    ) -> Result<SelectedOperation<'a>, SelectTimeoutError> {
        // A moment beyond the clock's range never comes.
        let until = Instant::now().checked_add(time);
        self.select_until(until).ok_or(SelectTimeoutError)
    }

    /// Waits until an operation is ready, but not beyond this moment, and begins it.
    ///
    /// # Errors
    ///
    /// None was ready in that time.
    ///
    /// ```
    /// use std::time::{Duration, Instant};
    /// use vahepito::{Select, channel};
    ///
    /// let (sender, _receiver) = channel(1)?;
    /// sender.send('a').unwrap();
    /// let mut select = Select::new();
    /// select.send(&sender);
    /// let soon = Instant::now() + Duration::from_millis(5);
    /// assert!(select.select_deadline(soon).is_err()); // there is no room
    /// # Ok::<(), vahepito::OpenError>(())
    /// ```
    pub fn select_deadline(
        &mut self,
        until: Instant,
    ) -> Result<SelectedOperation<'a>, SelectTimeoutError> {
        self.select_until(Some(until)).ok_or(SelectTimeoutError)
    }

    fn ready_until(&mut self, until: Option<Instant>) -> Option<usize> {
        let mut turn = self.turn(Aim::Look, until);
        let at = turn.wait()?;
        Some(turn.entries[at].index)
    }

    /// Returns the index of an operation that is ready, if there is one. Another thread may make it
    /// first; so call `try_recv` or `try_send` then. Beside a call whose thread doesn't run, an operation
    /// counts as ready that may not be.
    ///
    /// # Errors
    ///
    /// None is ready.
    ///
    /// ```
    /// use vahepito::{Select, channel};
    ///
    /// let (sender, receiver) = channel(1)?;
    /// let mut select = Select::new();
    /// let take = select.recv(&receiver);
    /// assert!(select.try_ready().is_err());
    /// sender.send('a').unwrap();
    /// assert_eq!(select.try_ready(), Ok(take));
    /// assert_eq!(receiver.try_recv(), Ok('a')); // the item is still there
    /// # Ok::<(), vahepito::OpenError>(())
    /// ```
    pub fn try_ready(&mut self) -> Result<usize, TryReadyError> {
        let now = Some(Instant::now());
        self.ready_until(now).ok_or(TryReadyError)
    }

    /// Waits until an operation is ready, and returns its index, as [`try_ready`](Select::try_ready).
    ///
    /// ```
    /// use vahepito::{Select, channel};
    ///
    /// let (numbers, words) = (channel::<u32>(1)?, channel(1)?);
    /// words.0.send("hello").unwrap();
    /// let mut select = Select::new();
    /// let number = select.recv(&numbers.1);
    /// let word = select.recv(&words.1);
    /// match select.ready() {
    ///     it if it == number => println!("{:?}", numbers.1.try_recv()),
    ///     it if it == word => assert_eq!(words.1.try_recv(), Ok("hello")),
    ///     _ => unreachable!(),
    /// }
    /// # Ok::<(), vahepito::OpenError>(())
    /// ```
    pub fn ready(&mut self) -> usize {
        self.ready_until(None).expect("it waits without end")
    }

    /// Waits until an operation is ready, but not longer than this, and returns its index.
    ///
    /// # Errors
    ///
    /// None was ready in that time.
    ///
    /// ```
    /// use std::time::Duration;
    /// use vahepito::{ReadyTimeoutError, Select, channel};
    ///
    /// let (_sender, receiver) = channel::<u8>(1)?;
    /// let mut select = Select::new();
    /// select.recv(&receiver);
    /// let told = select.ready_timeout(Duration::from_millis(5));
    /// assert_eq!(told, Err(ReadyTimeoutError));
    /// # Ok::<(), vahepito::OpenError>(())
    /// ```
    pub fn ready_timeout(&mut self, time: Duration) -> Result<usize, ReadyTimeoutError> {
        let until = Instant::now().checked_add(time);
        self.ready_until(until).ok_or(ReadyTimeoutError)
    }

    /// Waits until an operation is ready, but not beyond this moment, and returns its index.
    ///
    /// # Errors
    ///
    /// None was ready in that time.
    ///
    /// ```
    /// use std::time::{Duration, Instant};
    /// use vahepito::{Select, channel};
    ///
    /// let (sender, _receiver) = channel::<u8>(1)?;
    /// let mut select = Select::new();
    /// let room = select.send(&sender);
    /// let soon = Instant::now() + Duration::from_millis(5);
    /// assert_eq!(select.ready_deadline(soon), Ok(room));
    /// # Ok::<(), vahepito::OpenError>(())
    /// ```
    pub fn ready_deadline(&mut self, until: Instant) -> Result<usize, ReadyTimeoutError> {
        self.ready_until(Some(until)).ok_or(ReadyTimeoutError)
    }
}

/// The select of the macros: waits until one of these operations is ready, but not longer than this, and begins it. It
/// stays on its thread, so it takes items of any type.
#[doc(hidden)]
#[inline]
pub fn select_arms<'a, const N: usize>(
    arms: [Arm<'a>; N],
    is_biased: bool,
    time: Option<Duration>,
) -> Option<SelectedOperation<'a>> {
    let mut entries = arms.map(|Arm(entry, _)| entry);
    for (index, it) in entries.iter_mut().enumerate() {
        it.index = index;
    }
    // A moment beyond the clock's range never comes.
    let until = time.and_then(|time| Instant::now().checked_add(time));
    Turn::new(&mut entries, is_biased, Aim::Begin, until).select()
}

fmt_by_text! { impl Debug for Select<'_>: _ => "Select { .. }" }

/// An operation that a [`Select`] has begun: a take that has its item, or a send that has its room.
///
/// Complete it by [`recv`](SelectedOperation::recv) or [`send`](SelectedOperation::send). If it is dropped instead, the
/// item that was taken is dropped too, and the room is given back. If it is forgotten, the item isn't dropped, and the room stays
/// reserved. With capacity 0 a send has met a receiver, which waits until the send is completed, even if
/// its timeout is over: so complete the send soon, and forget no operation. If the send is dropped, the receiver
/// continues with its other operations.
#[must_use = "complete it by `recv` or `send`"]
pub struct SelectedOperation<'a> {
    entry: Entry<'a>,
    /// Until it is completed.
    pub(super) begun: Option<Begun>,
    /// Its item may be one that stays on its thread.
    stays: PhantomData<*const ()>,
}

impl<'a> SelectedOperation<'a> {
    /// The index of the operation, as it was given when the operation was added.
    ///
    /// ```
    /// use vahepito::{Select, channel};
    ///
    /// let (one, two) = (channel(1)?, channel(1)?);
    /// two.0.send('b').unwrap();
    /// let mut select = Select::new();
    /// let first = select.recv(&one.1);
    /// let second = select.recv(&two.1);
    /// let operation = select.select();
    /// let told = match operation.index() {
    ///     it if it == first => operation.recv(&one.1),
    ///     it if it == second => operation.recv(&two.1),
    ///     _ => unreachable!(),
    /// };
    /// assert_eq!(told, Ok('b'));
    /// # Ok::<(), vahepito::OpenError>(())
    /// ```
    #[must_use]
    pub fn index(&self) -> usize {
        self.entry.index
    }

    /// Whether it is the operation of this handle.
    #[inline]
    fn check<H>(&self, handle: &H) {
        let is_this = ptr::from_ref(handle).addr() == self.entry.handle;
        assert!(is_this, "another handle was selected");
    }

    /// Completes a take.
    ///
    /// # Errors
    ///
    /// The channel is closed, and its group has all its items.
    ///
    /// # Panics
    ///
    /// This isn't the receiver that was added: `&receiver` is to be the same reference.
    ///
    /// ```
    /// use vahepito::{RecvError, Select, channel};
    ///
    /// let (sender, receiver) = channel::<u8>(1)?;
    /// drop(sender);
    /// let mut select = Select::new();
    /// select.recv(&receiver);
    /// assert_eq!(select.select().recv(&receiver), Err(RecvError));
    /// # Ok::<(), vahepito::OpenError>(())
    /// ```
    pub fn recv<T>(mut self, receiver: &Receiver<T>) -> Result<T, RecvError> {
        self.check(receiver);
        match self.begun.take() {
            Some(Begun::Taken(item)) => Ok(receiver.unpack(item)),
            _ => Err(RecvError),
        }
    }

    /// Completes a send. It doesn't wait, unless memory is wanting for a further queue. With capacity 0 its receiver
    /// waits for the item. If that receiver is a future that was dropped meanwhile, the item goes to the next take.
    ///
    /// # Errors
    ///
    /// The channel is closed. The item is handed back. With capacity 0 a receiver that the send has met gets the item
    /// also after a close.
    ///
    /// # Panics
    ///
    /// This isn't the sender that was added: `&sender` is to be the same reference.
    ///
    /// ```
    /// use vahepito::{Select, channel};
    ///
    /// let (sender, receiver) = channel(1)?;
    /// let mut select = Select::new();
    /// select.send(&sender);
    /// let operation = select.select();
    /// operation.send(&sender, "made once there is room".to_string()).unwrap();
    /// assert_eq!(receiver.recv().unwrap(), "made once there is room");
    /// # Ok::<(), vahepito::OpenError>(())
    /// ```
    pub fn send<T>(mut self, sender: &Sender<T>, item: T) -> Result<(), SendError<T>> {
        self.check(sender);
        let send = |core: &Core, item: &mut Unsent| core.complete(&mut self.begun, item);
        let sent = sender.send_by(Some(sender.pack(item)), send);
        sent.map_err(|(_, item)| SendError(item))
    }
}

impl Drop for SelectedOperation<'_> {
    #[inline]
    fn drop(&mut self) {
        if let Some(begun) = self.begun.take() {
            self.entry.case.give_up(begun);
        }
    }
}

fmt_by_text! { impl Debug for SelectedOperation<'_>: _ => "SelectedOperation { .. }" }
