//! flume's names over vahepito: what its tests call.
mod wrapped;

use futures::future::{MapErr, TryFutureExt};
use futures::Stream;
use std::future::Future;
use std::ops::Deref;
use std::pin::Pin;
use std::task::{Context, Poll};
pub use vahepito::{Drain, RecvTimeoutError, SendError, SendTimeoutError, TryRecvError, TrySendError};
use vahepito_futures::{RecvStream, SendSink};
use wrapped::wrapped;

#[derive(Debug, PartialEq)]
pub enum RecvError {
    Disconnected,
}

impl RecvError {
    fn of(_: vahepito::RecvError) -> RecvError {
        RecvError::Disconnected
    }
}

impl std::fmt::Display for RecvError {
    fn fmt(&self, formatter: &mut std::fmt::Formatter<'_>) -> std::fmt::Result {
        vahepito::RecvError.fmt(formatter)
    }
}

impl std::error::Error for RecvError {}

pub fn unbounded<T>() -> (Sender<T>, Receiver<T>) {
    let (sender, receiver) = vahepito::unbounded();
    (Sender(sender), Receiver(receiver))
}

pub fn bounded<T>(capacity: usize) -> (Sender<T>, Receiver<T>) {
    let (sender, receiver) = vahepito::bounded(capacity);
    (Sender(sender), Receiver(receiver))
}

/// A future, a stream or a sink, with the methods of its handle.
pub struct Of<'a, H, F> {
    handle: &'a H,
    inner: F,
}

impl<H, F> Deref for Of<'_, H, F> {
    type Target = H;

    fn deref(&self) -> &H {
        self.handle
    }
}

impl<H, F: Future + Unpin> Future for Of<'_, H, F> {
    type Output = F::Output;

    fn poll(mut self: Pin<&mut Self>, context: &mut Context<'_>) -> Poll<F::Output> {
        Pin::new(&mut self.inner).poll(context)
    }
}

impl<H, F: Stream + Unpin> Stream for Of<'_, H, F> {
    type Item = F::Item;

    fn poll_next(mut self: Pin<&mut Self>, context: &mut Context<'_>) -> Poll<Option<F::Item>> {
        Pin::new(&mut self.inner).poll_next(context)
    }
}

wrapped!(Sender);

impl<T> Sender<T> {
    pub fn is_disconnected(&self) -> bool {
        self.0.is_closed()
    }

    pub fn send_async(&self, item: T) -> Of<'_, Sender<T>, vahepito::SendFuture<'_, T>> {
        Of { handle: self, inner: self.0.send_async(item) }
    }

    pub fn sink(&self) -> Of<'_, Sender<T>, SendSink<T>> {
        Of { handle: self, inner: SendSink::from(self.0.clone()) }
    }

    pub fn into_sink(self) -> SendSink<T> {
        SendSink::from(self.0)
    }
}

wrapped!(Receiver);

impl<T> IntoIterator for Receiver<T> {
    type Item = T;
    type IntoIter = vahepito::IntoIter<T>;

    fn into_iter(self) -> vahepito::IntoIter<T> {
        self.0.into_iter()
    }
}

impl<'a, T> IntoIterator for &'a Receiver<T> {
    type Item = T;
    type IntoIter = vahepito::Iter<'a, T>;

    fn into_iter(self) -> vahepito::Iter<'a, T> {
        self.0.iter()
    }
}

type Take<'a, T> = MapErr<vahepito::RecvFuture<'a, T>, fn(vahepito::RecvError) -> RecvError>;

impl<T> Receiver<T> {
    pub fn is_disconnected(&self) -> bool {
        self.0.is_closed()
    }

    pub fn recv(&self) -> Result<T, RecvError> {
        self.0.recv().map_err(RecvError::of)
    }

    pub fn recv_async(&self) -> Of<'_, Receiver<T>, Take<'_, T>> {
        Of { handle: self, inner: self.0.recv_async().map_err(RecvError::of as fn(_) -> _) }
    }

    pub fn stream(&self) -> Of<'_, Receiver<T>, RecvStream<T>> {
        Of { handle: self, inner: RecvStream::from(self.0.clone()) }
    }

    pub fn into_stream(self) -> RecvStream<T> {
        RecvStream::from(self.0)
    }
}

type Makes<'a, R> = Box<dyn FnOnce(vahepito::SelectedOperation<'a>) -> R + 'a>;

/// Operations, of which the first one that is ready is made.
pub struct Selector<'a, R> {
    select: vahepito::Select<'a>,
    makes: Vec<Makes<'a, R>>,
}

impl<'a, R: 'a> Selector<'a, R> {
    #[allow(clippy::new_without_default)]
    pub fn new() -> Selector<'a, R> {
        Selector { select: vahepito::Select::new(), makes: vec![] }
    }

    pub fn recv<T: Send>(mut self, receiver: &'a Receiver<T>, then: impl FnOnce(Result<T, RecvError>) -> R + 'a) -> Selector<'a, R> {
        self.select.recv(&receiver.0);
        self.makes.push(Box::new(move |operation| then(operation.recv(&receiver.0).map_err(RecvError::of))));
        self
    }

    pub fn send<T: Send + 'a>(mut self, sender: &'a Sender<T>, item: T, then: impl FnOnce(Result<(), SendError<T>>) -> R + 'a) -> Selector<'a, R> {
        self.select.send(&sender.0);
        self.makes.push(Box::new(move |operation| then(operation.send(&sender.0, item))));
        self
    }

    pub fn wait(mut self) -> R {
        let operation = self.select.select();
        self.makes.swap_remove(operation.index())(operation)
    }
}
