#![doc = include_str!("../README.md")]
#![deny(missing_docs, unsafe_code)]

mod backoff;
mod broker;
mod channel;
mod event;
#[cfg(vahepito_explore)]
#[doc(hidden)]
#[allow(missing_docs, unsafe_code)]
#[path = "../tests/explore/schedule.rs"]
pub mod explore;
mod host;
mod numbered;
mod queue;
mod scheduler;

pub use broker::{Broker, BrokerError, Topic};
pub use channel::*;
pub use queue::{IS_PROVED, OpenError};
pub use scheduler::lengthen_slice;
