//! Topics by name: a broker opens a channel for each.
use crate::{OpenError, Receiver, Sender, channel, groups, try_unbounded, unbounded_groups};
use std::error::Error;
use std::fmt::{Display, Formatter, Result as Written};

/// The most topics of a broker.
const MOST_TOPICS: usize = 64;

/// A topic that is asked for: its name, how many items it holds (None: any number), and how many groups of receivers it
/// has. The name is any text, and is compared byte for byte.
pub type Topic<'a> = (&'a str, Option<usize>, usize);

/// The first sender of a topic, and a receiver of each of its groups.
type Handles<T> = (Sender<T>, Vec<Receiver<T>>);

/// Why a broker wasn't opened. Places are from 0. A fault comes before those below it, and of two topics the first is
/// reported.
///
/// ```
/// use vahepito::{Broker, BrokerError, OpenError};
///
/// let opened = Broker::<u8>::open(&[("a", Some(1), 9), ("b", None, 1), ("a", None, 1)]);
/// assert_eq!(opened.err(), Some(BrokerError::DoubleName(2)));
/// let opened = Broker::<u8>::open(&[("b", None, 1), ("a", Some(1), 9)]);
/// assert_eq!(opened.err(), Some(BrokerError::Topic(1, OpenError::Groups)));
/// ```
#[derive(Clone, Copy, Debug, PartialEq, Eq, Hash)]
#[non_exhaustive]
pub enum BrokerError {
    /// There are more than 64 topics.
    TooMany,
    /// The topic at this place has the name of an earlier one.
    DoubleName(usize),
    /// The topic at this place can't be opened.
    Topic(usize, OpenError),
}

impl Display for BrokerError {
    fn fmt(&self, f: &mut Formatter<'_>) -> Written {
        match self {
            Self::TooMany => write!(f, "there are more than {MOST_TOPICS} topics"),
            Self::DoubleName(at) => write!(f, "the topic at {at} has the name of an earlier one"),
            Self::Topic(at, why) => write!(f, "the topic at {at}: {why}"),
        }
    }
}

impl Error for BrokerError {
    fn source(&self) -> Option<&(dyn Error + 'static)> {
        match self {
            Self::Topic(_, why) => Some(why),
            _ => None,
        }
    }
}

/// Up to 64 topics by name, each a channel with its own capacity and groups.
///
/// The broker has a sender and a receiver of each group, so as long as it is there no topic is closed by a drop, and no
/// group is lost. Drop the broker once each thread has its handles; or close a topic by a handle's `close`.
///
/// ```
/// use vahepito::Broker;
///
/// let broker = Broker::open(&[("orders", Some(64), 1), ("events", None, 2)])?;
/// let (orders, _) = broker.topic("orders").expect("there is this topic");
/// let (events, services) = broker.topic("events").expect("there is this topic");
/// orders.send("a book".to_string()).unwrap();
/// events.send("ordered".to_string()).unwrap();
/// let [archive, alarm] = &services[..] else { unreachable!() };
/// assert_eq!((archive.recv().unwrap(), alarm.recv().unwrap()), ("ordered".into(), "ordered".into()));
/// let (_, workers) = broker.topic("orders").expect("there is this topic");
/// assert_eq!(workers[0].recv().unwrap(), "a book");
/// assert!(broker.topic("others").is_none());
/// # Ok::<(), vahepito::BrokerError>(())
/// ```
#[derive(Debug)]
pub struct Broker<T>(Vec<(String, Handles<T>)>);

impl<T: Clone + Sync> Broker<T> {
    /// Opens all of these topics, or none. A topic of one group is a channel as of [`channel`] or
    /// [`unbounded`](crate::unbounded), and one of several as of [`groups`] or [`unbounded_groups`].
    ///
    /// # Errors
    ///
    /// There are more than 64 topics, a name occurs twice, or a topic can't be opened, in this order.
    pub fn open(topics: &[Topic]) -> Result<Broker<T>, BrokerError> {
        if topics.len() > MOST_TOPICS {
            return Err(BrokerError::TooMany);
        }
        let is_double = |at: &usize| topics[..*at].iter().any(|it| it.0 == topics[*at].0);
        if let Some(at) = (0..topics.len()).find(is_double) {
            return Err(BrokerError::DoubleName(at));
        }
        let open = |(at, &(name, capacity, number)): (usize, &Topic)| {
            let alone = |(sender, receiver)| (sender, vec![receiver]);
            let handles = match (capacity, number) {
                (Some(capacity), 1) => channel(capacity).map(alone),
                (Some(capacity), _) => groups(capacity, number),
                (None, 1) => try_unbounded().map(alone),
                (None, _) => unbounded_groups(number),
            };
            let named = handles.map(|it| (name.to_string(), it));
            named.map_err(|why| BrokerError::Topic(at, why))
        };
        let opened: Result<_, _> = topics.iter().enumerate().map(open).collect();
        opened.map(Broker)
    }
}

impl<T> Broker<T> {
    /// Further handles of the topic with this name: a sender, and a receiver of each group, in the order of the groups.
    #[must_use]
    pub fn topic(&self, name: &str) -> Option<(Sender<T>, Vec<Receiver<T>>)> {
        let (_, handles) = self.0.iter().find(|it| it.0 == name)?;
        Some(handles.clone())
    }

    /// The names of the topics, in the order in which they were opened.
    ///
    /// ```
    /// let broker = vahepito::Broker::<u8>::open(&[("b", Some(1), 1), ("a", None, 8)])?;
    /// assert!(broker.names().eq(["b", "a"]));
    /// # Ok::<(), vahepito::BrokerError>(())
    /// ```
    pub fn names(&self) -> impl Iterator<Item = &str> {
        self.0.iter().map(|it| it.0.as_str())
    }
}
