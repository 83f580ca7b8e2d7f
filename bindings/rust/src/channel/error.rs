//! Why a channel's call wasn't done. An item that wasn't sent is handed back. The texts are crossbeam-channel's.

/// Why [`send`](crate::Sender::send) didn't send: the channel is closed. It has the item. A selected send with
/// capacity 0 has a further reason: see [`SelectedOperation::send`](crate::SelectedOperation::send).
#[derive(Clone, Copy, PartialEq, Eq, Hash)]
pub struct SendError<T>(pub T);

impl<T> SendError<T> {
    /// The item.
    ///
    /// ```
    /// assert_eq!(vahepito::SendError('a').into_inner(), 'a');
    /// ```
    #[must_use]
    pub fn into_inner(self) -> T {
        self.0
    }
}

fmt_by_text! { impl<T> Debug for SendError<T>: _ => "SendError(..)" }

error_by_text! { impl<T> for SendError<T>: _ => "sending on a disconnected channel" }

/// Why [`try_send`](crate::Sender::try_send) didn't send. It has the item.
#[derive(Clone, Copy, PartialEq, Eq, Hash)]
pub enum TrySendError<T> {
    /// There is no room now.
    Full(T),
    /// The channel is closed: see [`SendError`].
    Disconnected(T),
}

impl<T> TrySendError<T> {
    /// Whether it is `Full`.
    ///
    /// ```
    /// assert!(vahepito::TrySendError::Full('a').is_full());
    /// ```
    #[must_use]
    pub fn is_full(&self) -> bool {
        matches!(self, TrySendError::Full(_))
    }

    /// Whether it is `Disconnected`.
    ///
    /// ```
    /// assert!(!vahepito::TrySendError::Full('a').is_disconnected());
    /// ```
    #[must_use]
    pub fn is_disconnected(&self) -> bool {
        matches!(self, TrySendError::Disconnected(_))
    }

    /// The item.
    ///
    /// ```
    /// assert_eq!(vahepito::TrySendError::Full('a').into_inner(), 'a');
    /// ```
    #[must_use]
    pub fn into_inner(self) -> T {
        match self {
            TrySendError::Full(item) | TrySendError::Disconnected(item) => item,
        }
    }
}

fmt_by_text! {
    impl<T> Debug for TrySendError<T>:
    TrySendError::Full(_) => "Full(..)",
    TrySendError::Disconnected(_) => "Disconnected(..)",
}

error_by_text! {
    impl<T> for TrySendError<T>:
    TrySendError::Full(_) => "sending on a full channel",
    TrySendError::Disconnected(_) => "sending on a disconnected channel",
}

error_from! { impl<T> for TrySendError<T>, SendError<T>: SendError(item) => Self::Disconnected(item) }

/// Why [`send_timeout`](crate::Sender::send_timeout) or [`send_deadline`](crate::Sender::send_deadline) didn't
/// send. It has the item.
#[derive(Clone, Copy, PartialEq, Eq, Hash)]
pub enum SendTimeoutError<T> {
    /// There was no room in that time.
    Timeout(T),
    /// The channel is closed: see [`SendError`].
    Disconnected(T),
}

impl<T> SendTimeoutError<T> {
    /// Whether it is `Timeout`.
    ///
    /// ```
    /// assert!(vahepito::SendTimeoutError::Timeout('a').is_timeout());
    /// ```
    #[must_use]
    pub fn is_timeout(&self) -> bool {
        matches!(self, SendTimeoutError::Timeout(_))
    }

    /// Whether it is `Disconnected`.
    ///
    /// ```
    /// assert!(!vahepito::SendTimeoutError::Timeout('a').is_disconnected());
    /// ```
    #[must_use]
    pub fn is_disconnected(&self) -> bool {
        matches!(self, SendTimeoutError::Disconnected(_))
    }

    /// The item.
    ///
    /// ```
    /// assert_eq!(vahepito::SendTimeoutError::Timeout('a').into_inner(), 'a');
    /// ```
    #[must_use]
    pub fn into_inner(self) -> T {
        match self {
            SendTimeoutError::Timeout(item) | SendTimeoutError::Disconnected(item) => item,
        }
    }
}

fmt_by_text! { impl<T> Debug for SendTimeoutError<T>: _ => "SendTimeoutError(..)" }

error_by_text! {
    impl<T> for SendTimeoutError<T>:
    SendTimeoutError::Timeout(_) => "timed out waiting on send operation",
    SendTimeoutError::Disconnected(_) => "sending on a disconnected channel",
}

error_from! { impl<T> for SendTimeoutError<T>, SendError<T>: SendError(item) => Self::Disconnected(item) }

/// Why [`recv`](crate::Receiver::recv) gave no item: the channel is closed, and the receiver's group
/// has all its items.
#[derive(Clone, Copy, Debug, PartialEq, Eq, Hash)]
pub struct RecvError;

error_by_text! { impl for RecvError: _ => "receiving on an empty and disconnected channel" }

/// Why [`try_recv`](crate::Receiver::try_recv) gave no item.
#[derive(Clone, Copy, Debug, PartialEq, Eq, Hash)]
pub enum TryRecvError {
    /// There is none now.
    Empty,
    /// The channel is closed: see [`RecvError`].
    Disconnected,
}

impl TryRecvError {
    /// Whether it is `Empty`.
    ///
    /// ```
    /// assert!(vahepito::TryRecvError::Empty.is_empty());
    /// ```
    #[must_use]
    pub fn is_empty(&self) -> bool {
        *self == TryRecvError::Empty
    }

    /// Whether it is `Disconnected`.
    ///
    /// ```
    /// assert!(!vahepito::TryRecvError::Empty.is_disconnected());
    /// ```
    #[must_use]
    pub fn is_disconnected(&self) -> bool {
        *self == TryRecvError::Disconnected
    }
}

error_by_text! {
    impl for TryRecvError:
    TryRecvError::Empty => "receiving on an empty channel",
    TryRecvError::Disconnected => "receiving on an empty and disconnected channel",
}

error_from! { impl for TryRecvError, RecvError: RecvError => Self::Disconnected }

/// Why [`recv_timeout`](crate::Receiver::recv_timeout) or [`recv_deadline`](crate::Receiver::recv_deadline) gave
/// no item.
#[derive(Clone, Copy, Debug, PartialEq, Eq, Hash)]
pub enum RecvTimeoutError {
    /// There was none in that time.
    Timeout,
    /// The channel is closed: see [`RecvError`].
    Disconnected,
}

impl RecvTimeoutError {
    /// Whether it is `Timeout`.
    ///
    /// ```
    /// assert!(vahepito::RecvTimeoutError::Timeout.is_timeout());
    /// ```
    #[must_use]
    pub fn is_timeout(&self) -> bool {
        *self == RecvTimeoutError::Timeout
    }

    /// Whether it is `Disconnected`.
    ///
    /// ```
    /// assert!(!vahepito::RecvTimeoutError::Timeout.is_disconnected());
    /// ```
    #[must_use]
    pub fn is_disconnected(&self) -> bool {
        *self == RecvTimeoutError::Disconnected
    }
}

error_by_text! {
    impl for RecvTimeoutError:
    RecvTimeoutError::Timeout => "timed out waiting on receive operation",
    RecvTimeoutError::Disconnected => "channel is empty and disconnected",
}

error_from! { impl for RecvTimeoutError, RecvError: RecvError => Self::Disconnected }

/// Why [`try_select`](crate::Select::try_select) began nothing.
#[derive(Clone, Copy, Debug, PartialEq, Eq, Hash)]
pub struct TrySelectError;

error_by_text! { impl for TrySelectError: _ => "all operations in select would block" }

/// Why [`select_timeout`](crate::Select::select_timeout) or [`select_deadline`](crate::Select::select_deadline)
/// began nothing.
#[derive(Clone, Copy, Debug, PartialEq, Eq, Hash)]
pub struct SelectTimeoutError;

error_by_text! { impl for SelectTimeoutError: _ => "timed out waiting on select" }

/// Why [`try_ready`](crate::Select::try_ready) has no index.
#[derive(Clone, Copy, Debug, PartialEq, Eq, Hash)]
pub struct TryReadyError;

error_by_text! { impl for TryReadyError: _ => "all operations in select would block" }

/// Why [`ready_timeout`](crate::Select::ready_timeout) or [`ready_deadline`](crate::Select::ready_deadline) has
/// no index.
#[derive(Clone, Copy, Debug, PartialEq, Eq, Hash)]
pub struct ReadyTimeoutError;

error_by_text! { impl for ReadyTimeoutError: _ => "timed out waiting on select" }
