//! async-channel's names over vahepito: what its tests call.
mod wrapped;

use futures_core::Stream;
use std::future::Future;
use std::ops::Deref;
use std::pin::Pin;
use std::sync::Mutex;
use std::task::{Context, Poll};
pub use vahepito::{RecvError, SendError};
use wrapped::wrapped;

#[derive(Debug, PartialEq)]
pub enum TryRecvError {
    Empty,
    Closed,
}

#[derive(Debug, PartialEq)]
pub enum TrySendError<T> {
    Full(T),
    Closed(T),
}

pub fn unbounded<T>() -> (Sender<T>, Receiver<T>) {
    let (sender, receiver) = vahepito::unbounded();
    (Sender(sender), Receiver::of(receiver))
}

pub fn bounded<T>(capacity: usize) -> (Sender<T>, Receiver<T>) {
    let (sender, receiver) = vahepito::bounded(capacity);
    (Sender(sender), Receiver::of(receiver))
}

wrapped!(Sender);

impl<T> Sender<T> {
    pub fn send(&self, item: T) -> vahepito::SendFuture<'_, T> {
        self.0.send_async(item)
    }

    pub fn try_send(&self, item: T) -> Result<(), TrySendError<T>> {
        self.0.try_send(item).map_err(|error| match error {
            vahepito::TrySendError::Full(item) => TrySendError::Full(item),
            vahepito::TrySendError::Disconnected(item) => TrySendError::Closed(item),
        })
    }

    pub fn send_blocking(&self, item: T) -> Result<(), SendError<T>> {
        self.0.send(item)
    }

    pub fn downgrade(&self) -> WeakSender<T> {
        WeakSender(self.0.downgrade())
    }
}

pub struct WeakSender<T>(vahepito::WeakSender<T>);

impl<T> WeakSender<T> {
    pub fn upgrade(&self) -> Option<Sender<T>> {
        self.0.upgrade().map(Sender)
    }
}

type Next<T> = Pin<Box<dyn Future<Output = Result<T, RecvError>> + Send>>;

pub struct Receiver<T> {
    receiver: vahepito::Receiver<T>,
    /// The take of a stream that waits.
    next: Mutex<Option<Next<T>>>,
}

impl<T> Receiver<T> {
    fn of(receiver: vahepito::Receiver<T>) -> Receiver<T> {
        Receiver { receiver, next: Mutex::new(None) }
    }

    pub fn recv(&self) -> vahepito::RecvFuture<'_, T> {
        self.receiver.recv_async()
    }

    pub fn try_recv(&self) -> Result<T, TryRecvError> {
        self.receiver.try_recv().map_err(|error| match error {
            vahepito::TryRecvError::Empty => TryRecvError::Empty,
            vahepito::TryRecvError::Disconnected => TryRecvError::Closed,
        })
    }

    pub fn recv_blocking(&self) -> Result<T, RecvError> {
        self.receiver.recv()
    }

    pub fn downgrade(&self) -> WeakReceiver<T> {
        WeakReceiver(self.receiver.downgrade())
    }
}

impl<T> Clone for Receiver<T> {
    fn clone(&self) -> Receiver<T> {
        Receiver::of(self.receiver.clone())
    }
}

impl<T> Deref for Receiver<T> {
    type Target = vahepito::Receiver<T>;

    fn deref(&self) -> &vahepito::Receiver<T> {
        &self.receiver
    }
}

impl<T: Send + 'static> Stream for Receiver<T> {
    type Item = T;

    fn poll_next(self: Pin<&mut Self>, context: &mut Context<'_>) -> Poll<Option<T>> {
        let mut next = self.next.lock().unwrap();
        let takes = || Box::pin(self.receiver.clone().into_recv_async()) as Next<T>;
        let taken = next.get_or_insert_with(takes).as_mut().poll(context);
        if taken.is_ready() {
            *next = None;
        }
        taken.map(Result::ok)
    }
}

pub struct WeakReceiver<T>(vahepito::WeakReceiver<T>);

impl<T> WeakReceiver<T> {
    pub fn upgrade(&self) -> Option<Receiver<T>> {
        self.0.upgrade().map(Receiver::of)
    }
}
