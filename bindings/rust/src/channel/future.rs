//! Sends and takes as futures. A poll makes a call of the queue to its end, and so may wait until it
//! is served, but none is left begun between two polls: it would stop its side. A poll waits for nothing else: with
//! capacity 0 it is posted, as [`rendezvous`](super::rendezvous) says.
//!
//! **A poll after the call is done** panics, as that of an async block does.
//!
//! **Panics of wakers** that are dropped end in the poll that is done, whose result would be lost; another poll
//! raises the first of them again at its end, and so does the drop of a future.
use super::body::{Item, Unsent, put_back};
use super::core::{Core, SENDERS, Sent, or_closed};
use super::pool::Patience;
use super::rendezvous::{Waiter, is_sent};
use super::select::Case;
use super::side::Source;
use super::{Receiver, RecvError, SendError, Sender};
use crate::event::{Again, Panics, Ticket, Try};
use std::borrow::Cow;
use std::pin::Pin;
use std::sync::Arc;
use std::task::{Context, Poll, Waker};

/// How a task waits.
pub enum Waiting {
    No,
    InLine(Ticket),
    /// In a channel of capacity 0.
    Posted(Arc<Waiter>),
}

impl Waiting {
    /// Tries, and stays in line; or stands in line, and tries again if there seems to be something. A future that is
    /// still in line needs no second try: the notification that takes it out is to come.
    fn poll_in_line<R>(
        &mut self,
        case: Case,
        waker: &Waker,
        panics: &mut Panics,
        mut attempt: impl FnMut() -> Try<R>,
    ) -> Poll<R> {
        let mut tried = attempt();
        let stays = match self {
            Waiting::InLine(ticket) => tried.is_err() && case.line().stay(*ticket, waker, panics),
            _ => false,
        };
        if tried.is_err() && !stays {
            *self = Waiting::InLine(case.line().stand(waker.clone()));
            tried = case.look(Patience::Pauses).and_then(|()| attempt());
        }
        match tried {
            Ok(done) => {
                if let Waiting::InLine(ticket) = *self {
                    case.line().pass_on(ticket, panics);
                }
                return Poll::Ready(done);
            }
            // A thread notifies the line of a timer.
            Err(Again::At(_)) if matches!(case, Case::Timer(_)) => {}
            // Nobody else wakes it at that moment.
            Err(Again::At(_)) => panics.run_each([waker], Waker::wake_by_ref),
            Err(Again::WhenNotified) => {}
        }
        Poll::Pending
    }
}

/// None once the future is done.
type State = Option<Waiting>;

/// One poll by this call, which keeps the panics of wakers.
fn poll_state<R>(
    state: &mut State,
    call: impl FnOnce(&mut Waiting, &mut Panics) -> Poll<R>,
) -> Poll<R> {
    let begun = state.as_mut();
    let begun = begun.expect("the future is done, and was polled again");
    let mut panics = Panics::default();
    let polled = call(begun, &mut panics);
    match polled {
        Poll::Pending => panics.raise(),
        Poll::Ready(_) => *state = None,
    }
    polled
}

/// One poll of a take. It gives None if the channel is closed.
fn poll_take(state: &mut State, case: Case, waker: &Waker) -> Poll<Option<Item>> {
    poll_state(state, |waiting, panics| match case.meeting() {
        Some(meeting) => {
            let mut item = None;
            let polled = meeting.poll(waiting, &mut item, waker, panics);
            polled.map(|()| item)
        }
        None => waiting.poll_in_line(case, waker, panics, || case.try_take()),
    })
}

/// One poll of a send. The item is put back if the channel is closed.
fn poll_send(state: &mut State, core: &Core, item: &mut Unsent, waker: &Waker) -> Poll<Sent> {
    let case = Case::Of(core, SENDERS);
    poll_state(state, |waiting, panics| match case.meeting() {
        Some(meeting) => {
            let polled = meeting.poll(waiting, item, waker, panics);
            polled.map(|()| is_sent(item))
        }
        None => waiting.poll_in_line(case, waker, panics, || or_closed(core.try_send(item))),
    })
}

/// The task is no more, nor is the item of a send.
fn end(waiting: Waiting, case: Case, mut item: Unsent) {
    let mut panics = Panics::default();
    match (waiting, case.meeting()) {
        (Waiting::InLine(ticket), _) => case.line().pass_on(ticket, &mut panics),
        (Waiting::Posted(waiter), Some(meeting)) => {
            let posted = meeting.leave(&waiter, &mut panics);
            item = item.or(posted);
        }
        _ => {}
    }
    panics.run_each(item, drop);
    panics.raise();
}

/// A take: see [`recv_async`](crate::Receiver::recv_async).
///
/// # Panics
///
/// It was ready, and is polled again.
#[must_use = "a future does nothing unless it is polled"]
pub struct RecvFuture<'a, T> {
    /// It borrows the receiver, or has it.
    receiver: Cow<'a, Receiver<T>>,
    state: State,
}

impl<'a, T> RecvFuture<'a, T> {
    pub(super) fn new(receiver: Cow<'a, Receiver<T>>) -> Self {
        let state = Some(Waiting::No);
        RecvFuture { receiver, state }
    }

    /// Whether a poll was ready, as `is_terminated` of a `FusedFuture` says.
    ///
    /// ```
    /// use std::pin::Pin;
    /// use std::task::{Context, Poll, Waker};
    ///
    /// let (sender, receiver) = vahepito::channel(2)?;
    /// let mut takes = receiver.recv_async();
    /// let mut poll = |context: &mut Context| Pin::new(&mut takes).poll(context);
    /// let context = &mut Context::from_waker(Waker::noop());
    /// assert_eq!(poll(context), Poll::Pending);
    /// sender.send('a').unwrap();
    /// assert_eq!(poll(context), Poll::Ready(Ok('a')));
    /// assert!(takes.is_terminated());
    /// # Ok::<(), vahepito::OpenError>(())
    /// ```
    #[must_use]
    pub fn is_terminated(&self) -> bool {
        self.state.is_none()
    }
}

impl<T> Future for RecvFuture<'_, T> {
    type Output = Result<T, RecvError>;

    fn poll(mut self: Pin<&mut Self>, context: &mut Context<'_>) -> Poll<Self::Output> {
        let RecvFuture { receiver, state } = &mut *self;
        let taken = poll_take(state, receiver.0.case(), context.waker());
        if let (Source::Timer(timer), Poll::Pending) = (&receiver.0, &taken) {
            if !timer.notify_when_due() {
                context.waker().wake_by_ref();
            }
        }
        taken.map(|item| item.map(|item| receiver.unpack(item)).ok_or(RecvError))
    }
}

impl<T> Drop for RecvFuture<'_, T> {
    fn drop(&mut self) {
        if let Some(waiting) = self.state.take() {
            end(waiting, self.receiver.0.case(), None);
        }
    }
}

fmt_by_text! { impl<T> Debug for RecvFuture<'_, T>: _ => "RecvFuture { .. }" }

/// A send: see [`send_async`](crate::Sender::send_async).
///
/// # Panics
///
/// It was ready, and is polled again.
#[must_use = "a future does nothing unless it is polled"]
pub struct SendFuture<'a, T> {
    /// It borrows the sender, or has it.
    sender: Cow<'a, Sender<T>>,
    state: State,
    /// Until it is sent or posted.
    item: Unsent,
}

impl<'a, T> SendFuture<'a, T> {
    pub(super) fn new(sender: Cow<'a, Sender<T>>, item: T) -> Self {
        SendFuture {
            state: Some(Waiting::No),
            item: Some(sender.pack(item)),
            sender,
        }
    }

    /// Whether a poll was ready, as `is_terminated` of a `FusedFuture` says.
    ///
    /// ```
    /// use std::pin::Pin;
    /// use std::task::{Context, Poll, Waker};
    ///
    /// let (sender, receiver) = vahepito::channel(2)?;
    /// let mut sends = sender.send_async('a');
    /// assert!(!sends.is_terminated());
    /// let context = &mut Context::from_waker(Waker::noop());
    /// assert_eq!(Pin::new(&mut sends).poll(context), Poll::Ready(Ok(())));
    /// assert!(sends.is_terminated());
    /// assert!(receiver.try_iter().eq(['a']));
    /// # Ok::<(), vahepito::OpenError>(())
    /// ```
    #[must_use]
    pub fn is_terminated(&self) -> bool {
        self.state.is_none()
    }
}

impl<T> Future for SendFuture<'_, T> {
    type Output = Result<(), SendError<T>>;

    fn poll(mut self: Pin<&mut Self>, context: &mut Context<'_>) -> Poll<Self::Output> {
        let SendFuture {
            sender,
            state,
            item,
        } = &mut *self;
        let sent = poll_send(state, sender.core(), item, context.waker());
        sent.map(|sent| sent.map_err(|_| SendError(sender.unpack(put_back(item.take())))))
    }
}

impl<T> Drop for SendFuture<'_, T> {
    fn drop(&mut self) {
        if let Some(waiting) = self.state.take() {
            let case = Case::Of(self.sender.core(), SENDERS);
            end(waiting, case, self.item.take());
        }
    }
}

fmt_by_text! { impl<T> Debug for SendFuture<'_, T>: _ => "SendFuture { .. }" }
