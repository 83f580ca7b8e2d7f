//! Why a queue wasn't opened.
use std::error::Error;
use std::fmt::{Display, Formatter, Result};

/// Why a channel wasn't opened.
///
/// ```
/// use vahepito::{OpenError, groups};
///
/// assert_eq!(groups::<u8>(0, 2).err(), Some(OpenError::Capacity));
/// ```
#[derive(Clone, Copy, Debug, PartialEq, Eq, Hash)]
#[non_exhaustive]
pub enum OpenError {
    /// The capacity of groups is 0.
    Capacity,
    /// The number of groups isn't from 1 to 8.
    Groups,
    /// Memory was refused.
    NoMemory,
    /// The linked library isn't the one that this crate is for: it is of another version, or of the
    /// same with other sizes of what is passed to it. Nothing was asked of it but these.
    OtherLibrary {
        /// The library's version: a million times the first of its three numbers, a thousand times
        /// the second, and the third.
        linked: u32,
        /// The one that this crate is for.
        wanted: u32,
    },
}

impl Display for OpenError {
    fn fmt(&self, f: &mut Formatter<'_>) -> Result {
        let dotted = |it: u32| format!("{}.{}.{}", it / 1_000_000, it / 1_000 % 1_000, it % 1_000);
        let said = match *self {
            Self::Capacity => "the capacity of groups is 0",
            Self::Groups => "the number of groups isn't from 1 to 8",
            Self::NoMemory => "there is no memory for the queue",
            Self::OtherLibrary { linked, wanted } => {
                let (library, this) = (dotted(linked), dotted(wanted));
                write!(
                    f,
                    "the linked library is version {library}, and this crate is for {this}"
                )?;
                match linked == wanted {
                    true => ", of other sizes: it was built from other sources",
                    false => "",
                }
            }
        };
        f.write_str(said)
    }
}

impl Error for OpenError {}
