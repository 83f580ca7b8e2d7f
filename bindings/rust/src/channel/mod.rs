//! Channels of any type, over queues of words.
#[macro_use]
mod texts;

mod batch;
mod body;
mod core;
mod error;
mod future;
#[cfg(test)]
mod judged;
mod limit;
#[cfg(test)]
mod linear;
mod permit;
mod pool;
mod receiver;
mod rendezvous;
mod replace_queue;
mod reserve;
#[cfg(test)]
mod rounds;
mod row;
#[cfg(test)]
mod row_tests;
mod select;
mod select_macro;
mod sender;
mod side;
#[cfg(test)]
mod tests;
mod timer;

pub use error::{
    ReadyTimeoutError, RecvError, RecvTimeoutError, SelectTimeoutError, SendError,
    SendTimeoutError, TryReadyError, TryRecvError, TrySelectError, TrySendError,
};
pub use future::{RecvFuture, SendFuture};
pub use permit::Permit;
pub use receiver::{Drain, IntoIter, Iter, Receiver, TryIter, WeakReceiver};
#[doc(hidden)]
pub use select::{Arm, select_arms};
pub use select::{Select, SelectedOperation};
pub use sender::{Sender, WeakSender};
pub use timer::{after, at, never, tick};

use self::body::Kind;
use self::core::{Core, MOST_MOVED, Opened};
use self::row::Shape;
use self::side::{Source, Target};
use crate::queue::{Config, OpenError};
use std::alloc::{Layout, handle_alloc_error};
use std::marker::PhantomData;
use std::sync::Arc;

/// The configuration of a queue with this number of places.
fn config(capacity: usize) -> Config {
    let seats = pool::seats() as u32;
    Config::new(seats, seats, capacity as u32)
}

/// The most places of one queue. A few send the search to the end of a queue.
const MOST_PLACES: usize = if cfg!(vahepito_explore) { 3 } else { 4096 };

/// The queues of a row: the first one is small, and the others are opened in some ten microseconds.
fn shape() -> Shape {
    let places = if cfg!(vahepito_explore) {
        [1, 1]
    } else {
        [64, 512]
    };
    places.map(config)
}

/// This thread has the state of a new one.
#[cfg(vahepito_explore)]
#[doc(hidden)]
#[allow(missing_docs)]
pub fn forget_thread() {
    crate::event::forget_parkers();
    pool::forget_hint();
}

/// From here on each call gives its seat back by an exchange.
#[cfg(vahepito_explore)]
#[doc(hidden)]
#[allow(missing_docs)]
pub fn use_lines<T>(sender: &Sender<T>) {
    let core = sender.core();
    (0..=core.groups.len()).for_each(|it| core.side(it).seats.use_line());
}

/// A channel with a queue of this capacity; or with a row of them, if one isn't enough.
fn of_capacity(capacity: usize, groups: usize, kind: &'static Kind) -> Opened {
    if capacity > MOST_PLACES {
        return Core::open_row(shape(), Some(capacity), groups, kind);
    }
    // Once a side of few items needs more than one seat, it asks how many.
    let config = if capacity > MOST_MOVED {
        config(capacity)
    } else {
        Config::new(1, 1, capacity as u32)
    };
    Core::open(config, groups, kind)
}

/// The first handles of a channel, which was opened with a kind of this type.
fn pair<T>(core: Arc<Core>) -> (Sender<T>, Receiver<T>) {
    let receiver = Receiver(Source::Channel(core.clone(), 1), PhantomData);
    (Sender(Target(core), PhantomData), receiver)
}

/// The same, with a receiver of each group.
fn handles<T>(core: Arc<Core>) -> (Sender<T>, Vec<Receiver<T>>) {
    let receiver = |group| Receiver(Source::Channel(core.clone(), group), PhantomData);
    let receivers = (1..=core.groups.len() as u32).map(receiver).collect();
    (Sender(Target(core), PhantomData), receivers)
}

/// Opens a channel of items of one type, and gives its first sender and its first receiver.
///
/// Both can be cloned any number of times. Each item goes to one of the receivers. The channel holds at
/// most `capacity` items. A send allocates if an item has more than 32 bytes: it then lies in a box until it is taken. A
/// take allocates only if it waits.
///
/// With 1 to 4,096 items the channel has one proved queue, and memory for all of them from the opening on. Up to 64 items a side has one
/// seat at first. A call that finds it taken by another thread lets the side have more seats, which takes memory once; without memory
/// the call waits for the seat. With more than 4,096 items the channel has a row of queues, as [`unbounded`] says, and counts what it holds.
///
/// With capacity 0 a send is over when a receiver has the item. If its time is over before, nobody has it, and it is
/// handed back. `try_send` succeeds if a take or a select waits, of a thread or a task, and `try_recv` if a send waits.
/// A take that has met a selected send waits for the item, even if the take's time is over. Such a channel has no
/// queue: it uses locks, and rests on nothing that is proved.
///
/// The channel is closed by [`Sender::close`] or [`Receiver::close`], by the drop of the last sender,
/// or by that of the last receiver, which also drops what is left in the channel.
///
/// ```
/// use std::thread;
///
/// let (sender, receiver) = vahepito::channel::<String>(16)?;
/// let greeter = sender.clone();
/// thread::spawn(move || greeter.send("hello".to_string()));
/// thread::spawn(move || sender.send("world".to_string()));
/// let mut words: Vec<String> = receiver.into_iter().collect(); // until both senders are dropped
/// words.sort();
/// assert_eq!(words, ["hello", "world"]);
/// # Ok::<(), vahepito::OpenError>(())
/// ```
///
/// # Errors
///
/// The linked library is another one than this crate is for; or lack of memory for the queue.
#[doc(alias("mpsc", "mpmc", "sync_channel"))]
pub fn channel<T>(capacity: usize) -> Result<(Sender<T>, Receiver<T>), OpenError> {
    let kind = Kind::alone::<T>();
    Ok(pair(match capacity {
        0 => Core::of_rendezvous(kind),
        _ => of_capacity(capacity, 1, kind)?,
    }))
}

/// The handles of a channel; or the end of the program, as of `Vec` where there is no memory.
fn opened<H>(handles: Result<H, OpenError>) -> H {
    handles.unwrap_or_else(|error| match error {
        OpenError::NoMemory => handle_alloc_error(Layout::new::<Core>()),
        error => panic!("{error}"),
    })
}

/// Opens a channel as [`channel`] does, and gives the handles themselves, as crossbeam-channel, flume and async-channel
/// do. Without memory for the queue the program is aborted, as by `Vec`.
///
/// ```
/// let (sender, receiver) = vahepito::bounded(1);
/// sender.send('a').unwrap();
/// assert!(sender.try_send('b').unwrap_err().is_full());
/// assert_eq!(receiver.recv(), Ok('a'));
/// ```
///
/// # Panics
///
/// The linked library is another one than this crate is for.
#[must_use]
pub fn bounded<T>(capacity: usize) -> (Sender<T>, Receiver<T>) {
    opened(channel(capacity))
}

/// Opens a channel that holds any number of items, and gives its first sender and its first receiver. Without memory
/// for the first queue the program is aborted, as by `Vec`; [`try_unbounded`] returns an error then.
///
/// A send never waits for room, and [`try_send`](Sender::try_send) never finds the channel full; all else is as of
/// [`channel`]. [`capacity`](Sender::capacity) is None.
///
/// The channel has a row of proved queues: the first one has 64 places, and each further one 512. A send that finds its queue
/// full closes it and appends a further one. A take goes on to the next queue once its queue has ended, and a queue that is empty
/// is freed. An item that waits takes about 77 bytes, and after a burst an empty channel keeps two queues, of 40 KB each on four
/// processors. That a row of such queues is one queue is proved; the code of the row is tested.
///
/// **Without memory** for a further queue, `send` tries again each millisecond until there is some, and `try_send` returns
/// [`Full`](TrySendError::Full). No item is lost. So a sender that is faster than its receivers for long uses up the
/// memory: where that may be, a bound is better.
///
/// ```
/// let (sender, receiver) = vahepito::unbounded();
/// (0..100_000).for_each(|number| sender.send(number).unwrap());
/// assert_eq!((sender.len(), sender.capacity()), (100_000, None));
/// drop(sender);
/// assert!(receiver.into_iter().eq(0..100_000));
/// ```
///
/// # Panics
///
/// As of [`bounded`].
#[must_use]
pub fn unbounded<T>() -> (Sender<T>, Receiver<T>) {
    opened(try_unbounded())
}

/// Opens a channel as [`unbounded`] does.
///
/// ```
/// let (sender, receiver) = vahepito::try_unbounded()?;
/// sender.send('a').unwrap();
/// assert_eq!(receiver.recv(), Ok('a'));
/// # Ok::<(), vahepito::OpenError>(())
/// ```
///
/// # Errors
///
/// As of [`channel`].
pub fn try_unbounded<T>() -> Result<(Sender<T>, Receiver<T>), OpenError> {
    Ok(pair(Core::open_row(shape(), None, 1, Kind::alone::<T>())?))
}

/// Opens a channel each of whose groups gets every item, and gives its first sender, and the first
/// receiver of each group.
///
/// There are 1 to 8 groups. A receiver is cloned within its group, and those of a group share the items:
/// each item goes to one of them. A group gets a clone of each item, or the item itself if all other groups
/// have it already. An item takes up room until every group has it, so the slowest group sets the pace. A
/// group that has lost its last receiver holds nobody up: the channel goes on without it.
///
/// ```
/// let (sender, mut services) = vahepito::groups::<String>(16, 2)?;
/// let (archive, alarm) = (services.remove(0), services.remove(0));
/// sender.send("disk full".to_string())?;
/// assert_eq!(archive.recv()?, "disk full");
/// assert_eq!(alarm.recv()?, "disk full");
/// # Ok::<(), Box<dyn std::error::Error>>(())
/// ```
///
/// Items are `Sync`, since two groups may clone one at the same time. If a clone panics, that receiver's
/// call does, and its group has lost the item; the others get theirs. A send allocates a box, in which the
/// item lies until the last group has it.
///
/// # Errors
///
/// As of [`channel`]; a capacity of 0, and a number of groups out of its range.
#[doc(alias("broadcast", "fan_out"))]
pub fn groups<T: Clone + Sync>(
    capacity: usize,
    groups: usize,
) -> Result<(Sender<T>, Vec<Receiver<T>>), OpenError> {
    let core = of_capacity(capacity, groups, Kind::of_groups::<T>())?;
    Ok(handles(core))
}

/// Opens a channel of [`groups`] that holds any number of items, as [`unbounded`] does.
///
/// An item takes up memory until every group has it. So a slow group holds nobody up, and what it hasn't taken is kept for it.
///
/// ```
/// let (sender, services) = vahepito::unbounded_groups::<u64>(2)?;
/// (0..10_000).for_each(|number| sender.send(number).unwrap());
/// assert!(services[0].try_iter().eq(0..10_000));
/// assert_eq!((services[0].len(), services[1].len()), (0, 10_000));
/// # Ok::<(), vahepito::OpenError>(())
/// ```
///
/// # Errors
///
/// As of [`channel`], and a number of groups that isn't from 1 to 8.
pub fn unbounded_groups<T: Clone + Sync>(
    groups: usize,
) -> Result<(Sender<T>, Vec<Receiver<T>>), OpenError> {
    let core = Core::open_row(shape(), None, groups, Kind::of_groups::<T>())?;
    Ok(handles(core))
}

/// Opens a channel with this configuration.
#[cfg(test)]
fn open<T>(
    config: Config,
    groups: usize,
    kind: &'static Kind,
) -> Result<(Sender<T>, Vec<Receiver<T>>), OpenError> {
    Ok(handles(Core::open(config, groups, kind)?))
}

/// These don't compile: a handle doesn't go to another thread if its items can't, no group clones items
/// on one thread while another reads them unless they are made for it, and no item borrows what is dropped before its channel.
///
/// ```compile_fail,E0277
/// fn goes<T: Send>() {}
/// goes::<vahepito::Sender<std::rc::Rc<u8>>>();
/// ```
///
/// ```compile_fail,E0277
/// fn shared<T: Sync>() {}
/// shared::<vahepito::Receiver<std::rc::Rc<u8>>>();
/// ```
///
/// ```compile_fail,E0277
/// let _ = vahepito::groups::<std::cell::Cell<u8>>(1, 2);
/// ```
///
/// ```compile_fail,E0597
/// struct Reads<'a>(&'a String);
/// impl Drop for Reads<'_> {
///     fn drop(&mut self) {
///         println!("{}", self.0);
///     }
/// }
/// let (sender, _receiver) = vahepito::channel(1)?;
/// let text = String::new();
/// assert!(sender.try_send(Reads(&text)).is_ok());
/// # Ok::<(), vahepito::OpenError>(())
/// ```
#[cfg(doctest)]
mod refused {}
