//! The senders of a channel.
use super::body::{Item, Kind, Of, Refused, Unsent, lend, put_back};
use super::core::{Core, NotSent, SENDERS, Sent};
use super::future::SendFuture;
use super::side::Target;
use super::{SendError, SendTimeoutError, TrySendError};
use crate::host::time::{Duration, Instant};
use std::borrow::Cow;
use std::marker::PhantomData;
use std::mem::forget;
use std::sync::Arc;
use std::sync::atomic::Ordering;

/// A sender of a channel, which [`channel`](crate::channel()) or [`groups`](crate::groups()) opens.
///
/// Its calls take `&self`, so threads may share a sender. A clone is a further sender of the channel. The drop of
/// the last sender closes the channel.
///
/// # Panics
///
/// The drop of the last sender panics if the waker of a task that waits for the channel panics. All others are woken
/// before.
///
/// ```
/// let (sender, receiver) = vahepito::channel(2)?;
/// let other = sender.clone();
/// sender.send(1).unwrap();
/// other.send(2).unwrap();
/// drop((sender, other));
/// assert!(receiver.into_iter().eq([1, 2]));
/// # Ok::<(), vahepito::OpenError>(())
/// ```
pub struct Sender<T>(pub(super) Target, pub(super) Of<T>);

impl<T> Sender<T> {
    pub(super) fn core(&self) -> &Arc<Core> {
        &self.0.0
    }

    /// An item for the channel.
    #[allow(unsafe_code)]
    #[inline]
    pub(super) fn pack(&self, item: T) -> Item {
        // SAFETY: the channel was opened for items of `T`, with a kind of that type; its handles come from each other.
        unsafe { Item::pack(item, self.core().kind) }
    }

    /// An item that this channel didn't send.
    #[allow(unsafe_code)]
    #[inline]
    pub(super) fn unpack(&self, item: Item) -> T {
        // SAFETY: as of `pack`.
        unsafe { item.unpack() }
    }

    /// Sends an item by this call. If it isn't sent, the error has it.
    #[inline(always)]
    pub(super) fn send_by(
        &self,
        mut item: Unsent,
        send: impl FnOnce(&Core, &mut Unsent) -> Sent,
    ) -> Result<(), (NotSent, T)> {
        if let Err(why) = send(self.core(), &mut item) {
            return Err((why, self.unpack(put_back(item))));
        }
        // Without a look whether there is something to drop.
        forget(item);
        Ok(())
    }

    /// Tries to send an item of one word, in a register.
    #[inline(always)]
    fn try_word(&self, item: T) -> Result<(), Refused> {
        lend(self.pack(item), |it| self.core().try_send_word(it))
    }

    /// Sends, if there is room. It doesn't wait for room; but if another thread serves the calls of
    /// all senders at this moment, it waits for its answer.
    ///
    /// # Errors
    ///
    /// There is no room, or no memory for a further queue, or the channel is closed: the item is handed back.
    ///
    /// ```
    /// use vahepito::TrySendError;
    ///
    /// let (sender, receiver) = vahepito::channel(1)?;
    /// assert_eq!(sender.try_send('a'), Ok(()));
    /// assert_eq!(sender.try_send('b'), Err(TrySendError::Full('b')));
    /// drop(receiver);
    /// assert_eq!(sender.try_send('b'), Err(TrySendError::Disconnected('b')));
    /// # Ok::<(), vahepito::OpenError>(())
    /// ```
    pub fn try_send(&self, item: T) -> Result<(), TrySendError<T>> {
        let sent = match Kind::is_one_word::<T>() {
            true => self
                .try_word(item)
                .map_err(|(why, item)| (why, self.unpack(item))),
            false => self.send_by(Some(self.pack(item)), Core::try_send),
        };
        sent.map_err(|(why, item)| match why {
            NotSent::Closed => TrySendError::Disconnected(item),
            _ => TrySendError::Full(item),
        })
    }

    /// Sends, and waits for room until this moment.
    #[inline]
    fn send_until(&self, item: T, until: Option<Instant>) -> Result<(), SendTimeoutError<T>> {
        let sent = self.send_item(item, until);
        sent.map_err(|(why, item)| match why {
            NotSent::Closed => SendTimeoutError::Disconnected(item),
            _ => SendTimeoutError::Timeout(item),
        })
    }

    /// The same, with the reason if it isn't sent.
    #[inline(always)]
    pub(super) fn send_item(&self, item: T, until: Option<Instant>) -> Result<(), (NotSent, T)> {
        if !Kind::is_one_word::<T>() {
            let send = |core: &Core, item: &mut Unsent| core.send_until(item, until);
            return self.send_by(Some(self.pack(item)), send);
        }
        let Err((_, item)) = self.try_word(item) else {
            return Ok(());
        };
        self.send_by(Some(item), |core, item| core.send_later(item, until))
    }

    /// Sends, and waits while there is no room. It parks after a few tries.
    ///
    /// # Errors
    ///
    /// The channel is closed: the item is handed back.
    ///
    /// ```
    /// let (sender, receiver) = vahepito::channel(2)?;
    /// sender.send("one").unwrap();
    /// drop(receiver);
    /// assert_eq!(sender.send("two").unwrap_err().into_inner(), "two");
    /// # Ok::<(), vahepito::OpenError>(())
    /// ```
    #[inline]
    pub fn send(&self, item: T) -> Result<(), SendError<T>> {
        let sent = self.send_item(item, None);
        sent.map_err(|(_, item)| SendError(item))
    }

    /// Sends, and waits for room, but not longer than this.
    ///
    /// # Errors
    ///
    /// There was no room in that time, or the channel is closed: the item is handed back.
    ///
    /// ```
    /// use std::time::Duration;
    /// use vahepito::SendTimeoutError;
    ///
    /// let (sender, _receiver) = vahepito::channel(1)?;
    /// sender.send(1).unwrap();
    /// let result = sender.send_timeout(2, Duration::from_millis(5));
    /// assert_eq!(result, Err(SendTimeoutError::Timeout(2)));
    /// # Ok::<(), vahepito::OpenError>(())
    /// ```
    pub fn send_timeout(&self, item: T, time: Duration) -> Result<(), SendTimeoutError<T>> {
        // A moment beyond the clock's range never comes.
        self.send_until(item, Instant::now().checked_add(time))
    }

    /// Sends, and waits for room, but not beyond this moment.
    ///
    /// # Errors
    ///
    /// As of [`send_timeout`](Sender::send_timeout).
    ///
    /// ```
    /// use std::time::{Duration, Instant};
    ///
    /// let (sender, _receiver) = vahepito::channel(1)?;
    /// let soon = Instant::now() + Duration::from_millis(5);
    /// assert!(sender.send_deadline(1, soon).is_ok());
    /// assert!(sender.send_deadline(2, soon).unwrap_err().is_timeout());
    /// # Ok::<(), vahepito::OpenError>(())
    /// ```
    pub fn send_deadline(&self, item: T, until: Instant) -> Result<(), SendTimeoutError<T>> {
        self.send_until(item, Some(until))
    }

    /// Sends, as a future of any runtime. If it is dropped before it is done, the item wasn't sent,
    /// and is dropped with it; with capacity 0, unless a receiver has taken it since the last poll. A panic of the
    /// item's drop, or of a waker's, is raised again at the end of that drop.
    ///
    /// ```
    /// use vahepito::{Receiver, SendError, Sender};
    ///
    /// async fn double(from: Receiver<u32>, to: Sender<u32>) -> Result<(), SendError<u32>> {
    ///     while let Ok(number) = from.recv_async().await {
    ///         to.send_async(2 * number).await?;
    ///     }
    ///     Ok(())
    /// }
    /// ```
    pub fn send_async(&self, item: T) -> SendFuture<'_, T> {
        SendFuture::new(Cow::Borrowed(self), item)
    }

    /// The same as [`send_async`](Sender::send_async), as a future that has the sender. So a task may return
    /// the future, or keep it beside other values.
    ///
    /// ```
    /// use vahepito::{SendFuture, Sender};
    ///
    /// struct Report {
    ///     sends: SendFuture<'static, String>,
    /// }
    ///
    /// fn report(to: &Sender<String>, line: &str) -> Report {
    ///     let sends = to.clone().into_send_async(line.to_string());
    ///     Report { sends }
    /// }
    /// ```
    pub fn into_send_async(self, item: T) -> SendFuture<'static, T> {
        SendFuture::new(Cow::Owned(self), item)
    }

    /// Closes the channel. No item is accepted any more. The receivers take what was sent before, and then see
    /// the end. Returns whether the channel was open.
    ///
    /// # Panics
    ///
    /// The channel is closed, and the waker of a task that waited panicked. All others are woken before.
    ///
    /// ```
    /// let (sender, receiver) = vahepito::channel(4)?;
    /// sender.send(1).unwrap();
    /// assert!(sender.close());
    /// assert!(!sender.close());
    /// assert!(sender.send(2).is_err());
    /// assert!(receiver.iter().eq([1]));
    /// # Ok::<(), vahepito::OpenError>(())
    /// ```
    pub fn close(&self) -> bool {
        self.core().close()
    }

    /// Whether the channel is closed: by a call, by the drop of all senders, or by that of all receivers. It may
    /// still hold items.
    ///
    /// ```
    /// let (sender, receiver) = vahepito::channel::<u8>(4)?;
    /// assert!(!sender.is_closed());
    /// drop(receiver);
    /// assert!(sender.is_closed());
    /// # Ok::<(), vahepito::OpenError>(())
    /// ```
    #[must_use]
    pub fn is_closed(&self) -> bool {
        self.core().is_closed()
    }

    /// How many items there are that some group of receivers hasn't taken. While other threads send and take,
    /// the number is close to the true one.
    ///
    /// ```
    /// let (sender, services) = vahepito::groups(4, 2)?;
    /// sender.send('a').unwrap();
    /// services[0].recv().unwrap();
    /// assert_eq!(sender.len(), 1);
    /// services[1].recv().unwrap();
    /// assert_eq!(sender.len(), 0);
    /// # Ok::<(), vahepito::OpenError>(())
    /// ```
    #[must_use]
    pub fn len(&self) -> usize {
        self.core().len(SENDERS)
    }

    /// Whether [`len`](Sender::len) is 0.
    ///
    /// ```
    /// let (sender, _receiver) = vahepito::channel(4)?;
    /// assert!(sender.is_empty());
    /// sender.send('a').unwrap();
    /// assert!(!sender.is_empty());
    /// # Ok::<(), vahepito::OpenError>(())
    /// ```
    #[must_use]
    pub fn is_empty(&self) -> bool {
        self.len() == 0
    }

    /// Whether [`len`](Sender::len) is the capacity. A channel of capacity 0 is always full, and one without a bound
    /// never.
    ///
    /// ```
    /// let (sender, _receiver) = vahepito::channel(1)?;
    /// assert!(!sender.is_full());
    /// sender.send('a').unwrap();
    /// assert!(sender.is_full());
    /// # Ok::<(), vahepito::OpenError>(())
    /// ```
    #[must_use]
    pub fn is_full(&self) -> bool {
        Some(self.len()) == self.core().capacity()
    }

    /// How many items the channel may hold; None if it has no bound.
    ///
    /// ```
    /// let (sender, _receiver) = vahepito::channel::<u8>(8)?;
    /// assert_eq!(sender.capacity(), Some(8));
    /// # Ok::<(), vahepito::OpenError>(())
    /// ```
    #[must_use]
    pub fn capacity(&self) -> Option<usize> {
        self.core().capacity()
    }

    /// Whether both senders are of one channel.
    ///
    /// ```
    /// let (sender, _receiver) = vahepito::channel::<u8>(1)?;
    /// let (other, _) = vahepito::channel::<u8>(1)?;
    /// assert!(sender.same_channel(&sender.clone()));
    /// assert!(!sender.same_channel(&other));
    /// # Ok::<(), vahepito::OpenError>(())
    /// ```
    #[must_use]
    pub fn same_channel(&self, other: &Sender<T>) -> bool {
        Arc::ptr_eq(self.core(), other.core())
    }

    /// How many senders the channel has.
    ///
    /// ```
    /// let (sender, _receiver) = vahepito::channel::<u8>(1)?;
    /// let _other = sender.clone();
    /// assert_eq!(sender.sender_count(), 2);
    /// # Ok::<(), vahepito::OpenError>(())
    /// ```
    #[must_use]
    pub fn sender_count(&self) -> usize {
        self.core().handle_count(SENDERS)
    }

    /// How many receivers the channel has, of all groups together.
    ///
    /// ```
    /// let (sender, services) = vahepito::groups::<u8>(1, 3)?;
    /// let _other = services[0].clone();
    /// assert_eq!(sender.receiver_count(), 4);
    /// # Ok::<(), vahepito::OpenError>(())
    /// ```
    #[must_use]
    pub fn receiver_count(&self) -> usize {
        let groups = self.core().groups.iter();
        groups.map(|it| it.handles.load(Ordering::SeqCst)).sum()
    }

    /// A sender that doesn't keep the channel open.
    ///
    /// ```
    /// let (sender, receiver) = vahepito::channel(1)?;
    /// let weak = sender.downgrade();
    /// weak.upgrade().expect("there is a sender").send('a').unwrap();
    /// drop(sender);
    /// assert!(weak.upgrade().is_none() && receiver.is_closed());
    /// # Ok::<(), vahepito::OpenError>(())
    /// ```
    #[must_use]
    pub fn downgrade(&self) -> WeakSender<T> {
        WeakSender(self.core().clone(), PhantomData)
    }
}

/// A further sender of the channel.
impl<T> Clone for Sender<T> {
    fn clone(&self) -> Sender<T> {
        Sender(self.0.clone(), PhantomData)
    }
}

fmt_by_text! { impl<T> Debug for Sender<T>: _ => "Sender { .. }" }

/// A sender that doesn't keep the channel open: see [`Sender::downgrade`].
pub struct WeakSender<T>(Arc<Core>, Of<T>);

impl<T> WeakSender<T> {
    /// A sender, if the channel has one still.
    ///
    /// ```
    /// let (sender, _receiver) = vahepito::channel::<u8>(1)?;
    /// let weak = sender.downgrade();
    /// assert!(weak.upgrade().is_some());
    /// drop(sender);
    /// assert!(weak.upgrade().is_none());
    /// # Ok::<(), vahepito::OpenError>(())
    /// ```
    #[must_use]
    pub fn upgrade(&self) -> Option<Sender<T>> {
        let core = self.0.upgrade(SENDERS as u32)?;
        Some(Sender(Target(core), PhantomData))
    }
}

impl<T> Clone for WeakSender<T> {
    fn clone(&self) -> WeakSender<T> {
        WeakSender(self.0.clone(), PhantomData)
    }
}

fmt_by_text! { impl<T> Debug for WeakSender<T>: _ => "WeakSender { .. }" }
