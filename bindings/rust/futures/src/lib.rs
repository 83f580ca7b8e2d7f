//! A [`Stream`] of what a receiver of a [`vahepito`] channel takes, a [`Sink`] that sends, and its futures as [`FusedFuture`]s.
//!
//! ```
//! use vahepito_futures::{RecvStream, SendSink};
//!
//! let (sender, receiver) = vahepito::channel::<u32>(16)?;
//! let sink = SendSink::from(sender);
//! let stream = RecvStream::from(receiver);
//! # drop((sink, stream));
//! # Ok::<(), vahepito::OpenError>(())
//! ```
#![deny(missing_docs, unsafe_code)]

use futures_core::future::FusedFuture;
use futures_core::stream::{FusedStream, Stream};
use futures_sink::Sink;
use std::pin::Pin;
use std::task::{Context, Poll, ready};
use vahepito::{Receiver, RecvFuture, SendError, SendFuture, Sender};

/// The items of a receiver, until the end of its channel. While it waits it keeps its place in line.
#[derive(Debug)]
#[must_use = "a stream does nothing unless it is polled"]
pub struct RecvStream<T: 'static> {
    /// None once the channel has ended.
    receiver: Option<Receiver<T>>,
    /// While it waits.
    takes: Option<RecvFuture<'static, T>>,
}

impl<T: 'static> From<Receiver<T>> for RecvStream<T> {
    fn from(receiver: Receiver<T>) -> RecvStream<T> {
        RecvStream {
            receiver: Some(receiver),
            takes: None,
        }
    }
}

impl<T: 'static> Stream for RecvStream<T> {
    type Item = T;

    fn poll_next(mut self: Pin<&mut Self>, context: &mut Context<'_>) -> Poll<Option<T>> {
        let RecvStream { receiver, takes } = &mut *self;
        let Some(waits) = receiver else {
            return Poll::Ready(None);
        };
        let takes_one = || waits.clone().into_recv_async();
        let taken = ready!(Pin::new(takes.get_or_insert_with(takes_one)).poll(context));
        *takes = None;
        if taken.is_err() {
            *receiver = None;
        }
        Poll::Ready(taken.ok())
    }
}

impl<T: 'static> FusedStream for RecvStream<T> {
    fn is_terminated(&self) -> bool {
        self.receiver.is_none()
    }
}

/// Sends items, one after another. A close sends what was begun, and lets the sender go.
#[derive(Debug)]
#[must_use = "a sink does nothing unless it is polled"]
pub struct SendSink<T: 'static> {
    /// None once it is closed.
    sender: Option<Sender<T>>,
    sends: Option<SendFuture<'static, T>>,
}

impl<T: 'static> From<Sender<T>> for SendSink<T> {
    fn from(sender: Sender<T>) -> SendSink<T> {
        SendSink {
            sender: Some(sender),
            sends: None,
        }
    }
}

impl<T: 'static> Sink<T> for SendSink<T> {
    type Error = SendError<T>;

    /// Ready once the item before is sent.
    fn poll_ready(
        self: Pin<&mut Self>,
        context: &mut Context<'_>,
    ) -> Poll<Result<(), SendError<T>>> {
        self.poll_flush(context)
    }

    /// # Errors
    ///
    /// The sink is closed, or the item before isn't sent yet, since `poll_ready` wasn't called: the item is handed back.
    fn start_send(mut self: Pin<&mut Self>, item: T) -> Result<(), SendError<T>> {
        let (Some(sender), None) = (&self.sender, &self.sends) else {
            return Err(SendError(item));
        };
        self.sends = Some(sender.clone().into_send_async(item));
        Ok(())
    }

    fn poll_flush(
        mut self: Pin<&mut Self>,
        context: &mut Context<'_>,
    ) -> Poll<Result<(), SendError<T>>> {
        let Some(sends) = &mut self.sends else {
            return Poll::Ready(Ok(()));
        };
        let sent = ready!(Pin::new(sends).poll(context));
        self.sends = None;
        Poll::Ready(sent)
    }

    fn poll_close(
        mut self: Pin<&mut Self>,
        context: &mut Context<'_>,
    ) -> Poll<Result<(), SendError<T>>> {
        let sent = ready!(self.as_mut().poll_flush(context));
        self.sender = None;
        Poll::Ready(sent)
    }
}

/// A future of the crate as a [`FusedFuture`], for `futures::select!` without a `fuse()`.
///
/// ```
/// use futures_core::future::FusedFuture;
/// use vahepito_futures::Fused;
///
/// let (_sender, receiver) = vahepito::channel::<u32>(16)?;
/// let takes = Fused(receiver.recv_async());
/// assert!(!takes.is_terminated());
/// # Ok::<(), vahepito::OpenError>(())
/// ```
#[derive(Debug)]
#[must_use = "a future does nothing unless it is polled"]
pub struct Fused<F>(pub F);

impl<F: Future + Unpin> Future for Fused<F> {
    type Output = F::Output;

    fn poll(mut self: Pin<&mut Self>, context: &mut Context<'_>) -> Poll<F::Output> {
        Pin::new(&mut self.0).poll(context)
    }
}

impl<T> FusedFuture for Fused<RecvFuture<'_, T>> {
    fn is_terminated(&self) -> bool {
        self.0.is_terminated()
    }
}

impl<T> FusedFuture for Fused<SendFuture<'_, T>> {
    fn is_terminated(&self) -> bool {
        self.0.is_terminated()
    }
}
