//! The receivers of a channel.
use super::body::{Item, Kind, NoItem, Of};
use super::core::{Core, SENDERS, or_none};
use super::future::RecvFuture;
use super::select::Case;
use super::side::Source;
use super::timer::Timer;
use super::{RecvError, RecvTimeoutError, TryRecvError};
use crate::backoff::FOR_OTHERS;
use crate::event::wait;
use crate::host::time::{Duration, Instant};
use std::borrow::Cow;
use std::iter::FusedIterator;
use std::marker::PhantomData;
use std::ptr;
use std::sync::{Arc, Weak};
use std::vec;

/// A receiver of a channel, which [`channel`](crate::channel()) or [`groups`](crate::groups()) opens.
///
/// Its calls take `&self`, so threads may share a receiver. A clone is a further receiver of its group. The drop of
/// the last receiver closes the channel, and drops the items that are left.
///
/// # Panics
///
/// The drop of the last receiver of a group panics if the drop of an item panics, or the waker of a task that waits
/// for the channel. All other items are dropped before, and all others woken.
///
/// ```
/// let (sender, receiver) = vahepito::channel(2)?;
/// let other = receiver.clone();
/// sender.send(1).unwrap();
/// sender.send(2).unwrap();
/// assert_eq!((receiver.recv(), other.recv()), (Ok(1), Ok(2))); // each item goes to one of them
/// # Ok::<(), vahepito::OpenError>(())
/// ```
pub struct Receiver<T>(pub(super) Source, pub(super) Of<T>);

impl Source {
    /// Takes an item, and waits for one until this moment.
    #[cold]
    fn wait_for_item(&self, until: Option<Instant>) -> Result<Item, RecvTimeoutError> {
        let attempt = || self.case().try_take();
        let taken = match self.case() {
            Case::Of(core, group) => match core.meeting(group) {
                Some(meeting) => {
                    let mut item = None;
                    let is_done = meeting.wait(&mut item, until);
                    (is_done || item.is_some()).then_some(item)
                }
                None => core.wait(group, until, attempt),
            },
            Case::Timer(timer) => wait(&timer.line, &FOR_OTHERS, until, &(), attempt),
        };
        let taken = taken.ok_or(RecvTimeoutError::Timeout)?;
        taken.ok_or(RecvTimeoutError::Disconnected)
    }
}

impl<T> Receiver<T> {
    /// Takes an item, if the channel has a queue, and the queue an item. An item of one word comes in a register.
    #[inline(always)]
    fn take(core: &Core, group: usize) -> Option<Item> {
        match Kind::is_one_word::<T>() {
            true => core.take_word(group).item().ok(),
            false => core.take(group),
        }
    }

    /// An item of the channel.
    #[allow(unsafe_code)]
    #[inline]
    pub(super) fn unpack(&self, item: Item) -> T {
        // SAFETY: all items of the channel are `T`s: their senders say so, which were opened with its receivers.
        unsafe { item.unpack() }
    }

    /// Takes an item, if there is one. It doesn't wait for an item; but if another thread serves the
    /// calls of its group at this moment, it waits for its answer. With capacity 0 a take that has met a
    /// selected send waits until that is completed, also one whose time is over.
    ///
    /// # Errors
    ///
    /// There is none now, or the channel is closed and there are no more.
    ///
    /// ```
    /// use vahepito::TryRecvError;
    ///
    /// let (sender, receiver) = vahepito::channel(4)?;
    /// assert_eq!(receiver.try_recv(), Err(TryRecvError::Empty));
    /// sender.send('a').unwrap();
    /// drop(sender);
    /// assert_eq!(receiver.try_recv(), Ok('a'));
    /// assert_eq!(receiver.try_recv(), Err(TryRecvError::Disconnected));
    /// # Ok::<(), vahepito::OpenError>(())
    /// ```
    #[inline]
    pub fn try_recv(&self) -> Result<T, TryRecvError> {
        match &self.0 {
            Source::Channel(core, group) if Kind::is_one_word::<T>() => {
                self.answer(core.try_take_word(*group as usize).item())
            }
            _ => self.try_item(),
        }
    }

    /// The same of an item that has several words, and of a timer.
    #[inline(never)]
    fn try_item(&self) -> Result<T, TryRecvError> {
        self.answer(or_none(self.0.case().try_take()))
    }

    #[inline(always)]
    fn answer(&self, taken: Result<Item, NoItem>) -> Result<T, TryRecvError> {
        match taken {
            Ok(item) => Ok(self.unpack(item)),
            Err(NoItem::Ended) => Err(TryRecvError::Disconnected),
            Err(NoItem::Empty) => Err(TryRecvError::Empty),
        }
    }

    /// Takes an item, and waits for one until this moment.
    #[inline]
    fn recv_until(&self, until: Option<Instant>) -> Result<T, RecvTimeoutError> {
        let taken = match self.0.case() {
            Case::Of(core, group) => Self::take(core, group),
            _ => None,
        };
        if let Some(item) = taken {
            return Ok(self.unpack(item));
        }
        self.0.wait_for_item(until).map(|item| self.unpack(item))
    }

    /// Takes an item, and waits while there is none. It parks after a few tries.
    ///
    /// # Errors
    ///
    /// The channel is closed, and its group has all its items.
    ///
    /// ```
    /// use std::thread;
    ///
    /// let (sender, receiver) = vahepito::channel(4)?;
    /// thread::spawn(move || sender.send('a')); // and then drops its sender, the last one
    /// assert_eq!(receiver.recv(), Ok('a'));
    /// assert!(receiver.recv().is_err());
    /// # Ok::<(), vahepito::OpenError>(())
    /// ```
    #[inline]
    pub fn recv(&self) -> Result<T, RecvError> {
        self.recv_until(None).map_err(|_| RecvError)
    }

    /// Takes an item, and waits for one, but not longer than this.
    ///
    /// # Errors
    ///
    /// There was none in that time, or the channel is closed and there are no more.
    ///
    /// ```
    /// use std::time::Duration;
    /// use vahepito::RecvTimeoutError;
    ///
    /// let (_sender, receiver) = vahepito::channel::<u8>(1)?;
    /// let result = receiver.recv_timeout(Duration::from_millis(5));
    /// assert_eq!(result, Err(RecvTimeoutError::Timeout));
    /// # Ok::<(), vahepito::OpenError>(())
    /// ```
    pub fn recv_timeout(&self, time: Duration) -> Result<T, RecvTimeoutError> {
        // A moment beyond the clock's range never comes.
        self.recv_until(Instant::now().checked_add(time))
    }

    /// Takes an item, and waits for one, but not beyond this moment.
    ///
    /// # Errors
    ///
    /// As of [`recv_timeout`](Receiver::recv_timeout).
    ///
    /// ```
    /// use std::time::{Duration, Instant};
    ///
    /// let (sender, receiver) = vahepito::channel(4)?;
    /// sender.send(1).unwrap();
    /// // All that comes within five milliseconds.
    /// let soon = Instant::now() + Duration::from_millis(5);
    /// let mut all = vec![];
    /// while let Ok(number) = receiver.recv_deadline(soon) {
    ///     all.push(number);
    /// }
    /// assert_eq!(all, [1]);
    /// # Ok::<(), vahepito::OpenError>(())
    /// ```
    pub fn recv_deadline(&self, until: Instant) -> Result<T, RecvTimeoutError> {
        self.recv_until(Some(until))
    }

    /// Takes an item, as a future of any runtime. If it is dropped before it is done, nothing was
    /// taken: with capacity 0 an item that it was given goes to the next receiver.
    ///
    /// The first future of [`after`](crate::after), [`at`](crate::at) or [`tick`](crate::tick) that waits starts a
    /// thread, which wakes the futures of all timers. If the system gives no thread, the task is polled all the time.
    ///
    /// ```
    /// async fn sum(numbers: vahepito::Receiver<u32>) -> u32 {
    ///     let mut sum = 0;
    ///     while let Ok(number) = numbers.recv_async().await {
    ///         sum += number;
    ///     }
    ///     sum
    /// }
    /// ```
    pub fn recv_async(&self) -> RecvFuture<'_, T> {
        RecvFuture::new(Cow::Borrowed(self))
    }

    /// The same as [`recv_async`](Receiver::recv_async), as a future that has the receiver. So a task may
    /// return the future, or keep it beside other values.
    ///
    /// ```
    /// use vahepito::{Receiver, RecvFuture};
    ///
    /// fn next_line(lines: &Receiver<String>) -> RecvFuture<'static, String> {
    ///     lines.clone().into_recv_async()
    /// }
    /// ```
    pub fn into_recv_async(self) -> RecvFuture<'static, T> {
        RecvFuture::new(Cow::Owned(self))
    }

    /// Takes items until the end, by [`recv`](Receiver::recv).
    ///
    /// ```
    /// let (sender, receiver) = vahepito::channel(4)?;
    /// (1..=3).for_each(|number| sender.send(number).unwrap());
    /// drop(sender);
    /// assert_eq!(receiver.iter().sum::<u32>(), 6);
    /// # Ok::<(), vahepito::OpenError>(())
    /// ```
    pub fn iter(&self) -> Iter<'_, T> {
        Iter(self)
    }

    /// Takes items as long as there are some, by [`try_recv`](Receiver::try_recv).
    ///
    /// ```
    /// let (sender, receiver) = vahepito::channel(4)?;
    /// (1..=3).for_each(|number| sender.send(number).unwrap());
    /// assert!(receiver.try_iter().eq(1..=3)); // though the channel is open
    /// # Ok::<(), vahepito::OpenError>(())
    /// ```
    pub fn try_iter(&self) -> TryIter<'_, T> {
        TryIter(self)
    }

    /// Takes as many items as there are now, or fewer if another receiver takes some of them. Then later items may come in their place.
    /// The items leave the channel at once, also if the iterator isn't used: the drop of the iterator drops those that it hasn't given.
    ///
    /// A channel of capacity 0 has a length of 0, so the iterator gives none.
    ///
    /// # Panics
    ///
    /// The clone of a group's item panics. The items that were taken before it are dropped.
    ///
    /// ```
    /// let (sender, receiver) = vahepito::channel(4)?;
    /// sender.send(1).unwrap();
    /// sender.send(2).unwrap();
    /// let mut all = vec![];
    /// for number in receiver.drain() {
    ///     sender.send(10 * number).unwrap();
    ///     all.push(number);
    /// }
    /// assert_eq!(all, [1, 2]);
    /// assert_eq!(receiver.drain().len(), 2);
    /// assert!(receiver.is_empty());
    /// # Ok::<(), vahepito::OpenError>(())
    /// ```
    pub fn drain(&self) -> Drain<'_, T> {
        let mut items = vec![];
        self.take_many(&mut items, self.len(), || self.try_recv().ok());
        Drain(items.into_iter(), PhantomData)
    }

    /// Closes the channel. No item is accepted any more. The receivers take what was sent before, and then see
    /// the end. Returns whether the channel was open.
    ///
    /// # Panics
    ///
    /// The channel is closed, and the waker of a task that waited panicked. All others are woken before.
    ///
    /// ```
    /// let (sender, receiver) = vahepito::channel(4)?;
    /// sender.send(1).unwrap();
    /// assert!(receiver.close());
    /// assert!(sender.send(2).is_err());
    /// assert!(receiver.iter().eq([1]));
    /// # Ok::<(), vahepito::OpenError>(())
    /// ```
    pub fn close(&self) -> bool {
        match self.0.case() {
            Case::Of(core, _) => core.close(),
            Case::Timer(timer) => timer.close(),
        }
    }

    /// Whether the channel is closed: by a call, by the drop of all senders, or by that of all receivers. It may
    /// still hold items.
    ///
    /// ```
    /// let (sender, receiver) = vahepito::channel(4)?;
    /// sender.send('a').unwrap();
    /// drop(sender);
    /// assert!(receiver.is_closed());
    /// assert_eq!(receiver.recv(), Ok('a'));
    /// # Ok::<(), vahepito::OpenError>(())
    /// ```
    #[must_use]
    pub fn is_closed(&self) -> bool {
        match self.0.case() {
            Case::Of(core, _) => core.is_closed(),
            Case::Timer(timer) => timer.is_closed(),
        }
    }

    /// How many items there are that its group hasn't taken. While other threads send and take, the number is
    /// close to the true one.
    ///
    /// ```
    /// let (sender, services) = vahepito::groups(4, 2)?;
    /// sender.send('a').unwrap();
    /// services[0].recv().unwrap();
    /// assert_eq!((services[0].len(), services[1].len()), (0, 1));
    /// # Ok::<(), vahepito::OpenError>(())
    /// ```
    #[must_use]
    pub fn len(&self) -> usize {
        match self.0.case() {
            Case::Of(core, group) => core.len(group),
            Case::Timer(timer) => timer.len(),
        }
    }

    /// Whether [`len`](Receiver::len) is 0.
    ///
    /// ```
    /// let (sender, receiver) = vahepito::channel(4)?;
    /// assert!(receiver.is_empty());
    /// sender.send('a').unwrap();
    /// assert!(!receiver.is_empty());
    /// # Ok::<(), vahepito::OpenError>(())
    /// ```
    #[must_use]
    pub fn is_empty(&self) -> bool {
        self.len() == 0
    }

    /// Whether [`len`](Receiver::len) is the capacity. A channel of capacity 0 is always full, and one without a bound
    /// never.
    ///
    /// ```
    /// let (sender, receiver) = vahepito::channel(1)?;
    /// assert!(!receiver.is_full());
    /// sender.send('a').unwrap();
    /// assert!(receiver.is_full());
    /// # Ok::<(), vahepito::OpenError>(())
    /// ```
    #[must_use]
    pub fn is_full(&self) -> bool {
        Some(self.len()) == self.capacity()
    }

    /// How many items the channel may hold; None if it has no bound.
    ///
    /// ```
    /// let (_sender, receiver) = vahepito::channel::<u8>(8)?;
    /// assert_eq!(receiver.capacity(), Some(8));
    /// # Ok::<(), vahepito::OpenError>(())
    /// ```
    #[must_use]
    pub fn capacity(&self) -> Option<usize> {
        match self.0.case() {
            Case::Of(core, _) => core.capacity(),
            Case::Timer(timer) => Some(timer.has_items.into()),
        }
    }

    /// Whether both receivers are of one channel. They may be of different groups.
    ///
    /// ```
    /// let (_sender, services) = vahepito::groups::<u8>(1, 2)?;
    /// let (_, other) = vahepito::channel::<u8>(1)?;
    /// assert!(services[0].same_channel(&services[1]));
    /// assert!(!services[0].same_channel(&other));
    /// # Ok::<(), vahepito::OpenError>(())
    /// ```
    #[must_use]
    pub fn same_channel(&self, other: &Receiver<T>) -> bool {
        match (self.0.case(), other.0.case()) {
            (Case::Of(one, _), Case::Of(other, _)) => ptr::eq(one, other),
            (Case::Timer(one), Case::Timer(other)) => ptr::eq(one, other),
            _ => false,
        }
    }

    /// Its group, from 1. A channel of [`channel`](crate::channel()) has one.
    ///
    /// ```
    /// let (_sender, services) = vahepito::groups::<u8>(1, 2)?;
    /// assert_eq!((services[0].group(), services[1].group()), (1, 2));
    /// # Ok::<(), vahepito::OpenError>(())
    /// ```
    #[must_use]
    pub fn group(&self) -> usize {
        self.0.case().side()
    }

    /// How many receivers its group has.
    ///
    /// ```
    /// let (_sender, services) = vahepito::groups::<u8>(1, 2)?;
    /// let _other = services[0].clone();
    /// assert_eq!(services[0].receiver_count(), 2);
    /// assert_eq!(services[1].receiver_count(), 1);
    /// # Ok::<(), vahepito::OpenError>(())
    /// ```
    #[must_use]
    pub fn receiver_count(&self) -> usize {
        match &self.0 {
            Source::Channel(core, group) => core.handle_count(*group as usize),
            Source::Timer(timer) => Arc::strong_count(timer),
        }
    }

    /// How many senders the channel has.
    ///
    /// ```
    /// let (sender, receiver) = vahepito::channel::<u8>(1)?;
    /// assert_eq!(receiver.sender_count(), 1);
    /// drop(sender);
    /// assert_eq!(receiver.sender_count(), 0);
    /// # Ok::<(), vahepito::OpenError>(())
    /// ```
    #[must_use]
    pub fn sender_count(&self) -> usize {
        match self.0.case() {
            Case::Of(core, _) => core.handle_count(SENDERS),
            Case::Timer(_) => 0,
        }
    }

    /// A receiver that doesn't keep the channel open, nor its group from being lost.
    ///
    /// ```
    /// let (sender, receiver) = vahepito::channel(1)?;
    /// let weak = receiver.downgrade();
    /// sender.send('a').unwrap();
    /// assert_eq!(weak.upgrade().expect("there is a receiver").recv(), Ok('a'));
    /// drop(receiver);
    /// assert!(weak.upgrade().is_none() && sender.is_closed());
    /// # Ok::<(), vahepito::OpenError>(())
    /// ```
    #[must_use]
    pub fn downgrade(&self) -> WeakReceiver<T> {
        let source = match &self.0 {
            Source::Channel(core, group) => WeakSource::Channel(core.clone(), *group),
            Source::Timer(timer) => WeakSource::Timer(Arc::downgrade(timer)),
        };
        WeakReceiver(source, PhantomData)
    }
}

/// A further receiver of its group.
impl<T> Clone for Receiver<T> {
    fn clone(&self) -> Receiver<T> {
        Receiver(self.0.clone(), PhantomData)
    }
}

fmt_by_text! { impl<T> Debug for Receiver<T>: _ => "Receiver { .. }" }

/// A receiver that keeps neither the channel nor its group: see [`Receiver::downgrade`].
pub struct WeakReceiver<T>(WeakSource, Of<T>);

/// The channel with the group; or the timer.
#[derive(Clone)]
enum WeakSource {
    Channel(Arc<Core>, u32),
    Timer(Weak<Timer>),
}

impl<T> WeakReceiver<T> {
    /// A receiver, if its group has one still.
    ///
    /// ```
    /// let (_sender, receiver) = vahepito::channel::<u8>(1)?;
    /// let weak = receiver.downgrade();
    /// assert!(weak.upgrade().is_some());
    /// drop(receiver);
    /// assert!(weak.upgrade().is_none());
    /// # Ok::<(), vahepito::OpenError>(())
    /// ```
    #[must_use]
    pub fn upgrade(&self) -> Option<Receiver<T>> {
        let source = match &self.0 {
            WeakSource::Channel(core, group) => Source::Channel(core.upgrade(*group)?, *group),
            WeakSource::Timer(timer) => Source::Timer(timer.upgrade()?),
        };
        Some(Receiver(source, PhantomData))
    }
}

impl<T> Clone for WeakReceiver<T> {
    fn clone(&self) -> WeakReceiver<T> {
        WeakReceiver(self.0.clone(), PhantomData)
    }
}

fmt_by_text! { impl<T> Debug for WeakReceiver<T>: _ => "WeakReceiver { .. }" }

/// Takes items until the end: see [`Receiver::iter`].
#[derive(Debug)]
#[must_use = "an iterator takes nothing unless it is used"]
pub struct Iter<'a, T>(&'a Receiver<T>);

impl<T> Iterator for Iter<'_, T> {
    type Item = T;

    fn next(&mut self) -> Option<T> {
        self.0.recv().ok()
    }
}

impl<T> FusedIterator for Iter<'_, T> {}

/// Takes items as long as there are some: see [`Receiver::try_iter`].
#[derive(Debug)]
#[must_use = "an iterator takes nothing unless it is used"]
pub struct TryIter<'a, T>(&'a Receiver<T>);

impl<T> Iterator for TryIter<'_, T> {
    type Item = T;

    fn next(&mut self) -> Option<T> {
        self.0.try_recv().ok()
    }
}

/// Items that were taken at once: see [`Receiver::drain`].
#[derive(Debug)]
pub struct Drain<'a, T>(vec::IntoIter<T>, PhantomData<&'a Receiver<T>>);

impl<T> Iterator for Drain<'_, T> {
    type Item = T;

    fn next(&mut self) -> Option<T> {
        self.0.next()
    }

    fn size_hint(&self) -> (usize, Option<usize>) {
        self.0.size_hint()
    }
}

impl<T> ExactSizeIterator for Drain<'_, T> {}

impl<T> FusedIterator for Drain<'_, T> {}

/// Takes items until the end, and has the receiver.
///
/// ```
/// let (sender, receiver) = vahepito::channel(4)?;
/// sender.send(1).unwrap();
/// drop(sender);
/// let mut items = receiver.into_iter();
/// assert_eq!((items.next(), items.next()), (Some(1), None));
/// # Ok::<(), vahepito::OpenError>(())
/// ```
#[derive(Debug)]
#[must_use = "an iterator takes nothing unless it is used"]
pub struct IntoIter<T>(Receiver<T>);

impl<T> Iterator for IntoIter<T> {
    type Item = T;

    fn next(&mut self) -> Option<T> {
        self.0.recv().ok()
    }
}

impl<T> FusedIterator for IntoIter<T> {}

impl<'a, T> IntoIterator for &'a Receiver<T> {
    type Item = T;
    type IntoIter = Iter<'a, T>;

    fn into_iter(self) -> Iter<'a, T> {
        self.iter()
    }
}

impl<T> IntoIterator for Receiver<T> {
    type Item = T;
    type IntoIter = IntoIter<T>;

    fn into_iter(self) -> IntoIter<T> {
        IntoIter(self)
    }
}
