//! The queue below a channel: its opening, and its calls. It is the proved one, unless `--cfg vahepito_unproved`
//! puts another with the same calls in its place.
mod config;
mod error;
#[cfg(not(vahepito_unproved))]
pub mod handle;
#[cfg(vahepito_unproved)]
#[cfg_attr(not(vahepito_explore), path = "unproved.rs")]
#[cfg_attr(vahepito_explore, path = "../../tests/explore/combining.rs")]
pub mod handle;
#[cfg(test)]
mod tests;

pub use config::Config;
pub use error::OpenError;
use handle::Handle;
use std::mem::{MaybeUninit, replace};

/// Whether the library is below the channels: without `--cfg vahepito_unproved`. With the feature `strict` it is the
/// library as it was proved; by default some of its stores are release stores. The channels themselves are tested.
///
/// Whoever builds a program sets that, and no dependency can. A program that is to have the proved queue says so:
///
/// ```
/// # #[cfg(any())]
/// const _: () = assert!(vahepito::IS_PROVED);
/// ```
pub const IS_PROVED: bool = cfg!(not(vahepito_unproved));

/// One word of a body. It may have bytes that nobody wrote.
pub type Word = MaybeUninit<u64>;

/// The words of a body, of which some may not be used.
pub type Words = [Word; 4];

/// The most groups that a queue has.
pub const MOST_GROUPS: usize = 8;

/// The handles of a queue: those of its senders, and then those of each of its groups.
pub type Passes = Vec<Vec<Handle>>;

/// Opens a queue, and gives the handles of its sides.
pub fn open(config: &Config, groups: usize, words: usize) -> Result<Passes, OpenError> {
    // A number that is too large is refused, with any handles.
    let groups = groups.try_into().unwrap_or(u32::MAX);
    let some = |count: u32| (0..count.min(MOST_GROUPS as u32 * 64)).map(|_| Handle::empty());
    let mut senders: Vec<_> = some(config.senders).collect();
    let mut receivers: Vec<_> = some(groups.saturating_mul(config.receivers)).collect();
    handle::fill(config, groups, words, &mut senders, &mut receivers)?;
    let mut sides = Vec::with_capacity(1 + groups as usize);
    sides.push(senders);
    for _ in 1..groups {
        let others = receivers.split_off(config.receivers as usize);
        sides.push(replace(&mut receivers, others));
    }
    sides.push(receivers);
    Ok(sides)
}

/// The codes that a call returns, by the header's names.
#[cfg_attr(vahepito_unproved, allow(dead_code))]
pub mod code {
    pub const DONE: u32 = 0;
    pub const BAD_CAPACITY: u32 = 3;
    pub const NO_MEMORY: u32 = 7;
    pub const WORN: u32 = 13;
    pub const BEGUN: u32 = 14;
    pub const WAITING: u32 = 15;
    pub const ACCEPTED: u32 = 17;
    pub const FULL: u32 = 18;
    pub const CLOSED: u32 = 19;
    pub const SPENT: u32 = 20;
    pub const SHUT: u32 = 21;
    pub const GOT: u32 = 23;
    pub const EMPTY: u32 = 24;
    pub const ENDED: u32 = 25;
    pub const BAD_GROUPS: u32 = 26;
    #[cfg(vahepito_unproved)]
    pub const WIDE: u32 = 30;
}

/// A code that the call doesn't return.
#[cold]
pub fn unexpected(code: u32) -> ! {
    panic!("the linked library isn't the one of this crate: it told {code} where it can't")
}
