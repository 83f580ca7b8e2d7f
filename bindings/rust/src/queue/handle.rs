//! The exports of the proved library, as `bindings/c/handles.h` declares them, and a handle that
//! keeps what they ask for. No other file calls them.
#![allow(unsafe_code)]

use super::{Config, OpenError};
pub use super::{Word, Words, code, unexpected};
use crate::event::Served;
use std::ffi::c_void;
use std::mem::{MaybeUninit, size_of};
use std::ptr::{null_mut, read_volatile};

#[repr(C)]
struct Raw {
    at: *mut c_void,
    live: bool,
}

/// The version that this crate is for, as the library returns its own: this crate's own version.
const VERSION: u32 = number(env!("CARGO_PKG_VERSION_MAJOR")) * 1_000_000
    + number(env!("CARGO_PKG_VERSION_MINOR")) * 1_000
    + number(env!("CARGO_PKG_VERSION_PATCH"));

/// The number of such digits.
const fn number(digits: &str) -> u32 {
    match u32::from_str_radix(digits, 10) {
        Ok(number) => number,
        Err(_) => panic!("cargo gives numbers"),
    }
}

/// An item with all words of its body, by words: place, sender and number, count, and the words. It has room
/// for an item of one word, too, whose body is the third.
pub type Taken = [Word; 7];

// SAFETY, of the calls that are called safe: a pass is empty, or was filled by `vahepito_open_words`, since its
// type and the field of a handle are private; a handle isn't copied, so that a call has it alone, by `&mut`;
// and each other reference is that of a variable of its own.
unsafe extern "C" {
    safe fn vahepito_version() -> u32;
    // It writes the sizes of a configuration, a pass, an item, and an item of words.
    safe fn vahepito_sizes(_: &mut usize, _: &mut usize, _: &mut usize, _: &mut usize);
    fn vahepito_open_words(
        config: &Config,
        groups: u32,
        words: u32,
        senders: *mut Handle,
        sender_count: usize,
        receivers: *mut Handle,
        receiver_count: usize,
    ) -> u32;
    safe fn vahepito_drop(pass: &mut Raw) -> u32;
    safe fn vahepito_begin_close(sender: &mut Raw) -> u32;
    // These write the item's place, or the total of items at the end, and how many calls were served.
    safe fn vahepito_try_send(_: &mut Raw, body: Word, place: &mut Word, _: &mut Count) -> u32;
    fn vahepito_try_send_words(
        sender: &mut Raw,
        words: *const Word,
        count: usize,
        place: &mut Word,
        served: &mut Count,
    ) -> u32;
    safe fn vahepito_turn_send(_: &mut Raw, place: &mut Word, served: &mut Count) -> u32;
    safe fn vahepito_turn_close(_: &mut Raw, total: &mut Word, served: &mut Count) -> u32;
    safe fn vahepito_turn_take(_: &mut Raw, _: &mut Taken, _: &mut Word, _: &mut Count) -> u32;
    safe fn vahepito_turn_take_words(
        _: &mut Raw,
        _: &mut Taken,
        _: &mut Word,
        _: &mut Count,
    ) -> u32;
    safe fn vahepito_try_take(_: &mut Raw, _: &mut Taken, _: &mut Word, _: &mut Count) -> u32;
    safe fn vahepito_try_take_words(_: &mut Raw, _: &mut Taken, _: &mut Word, _: &mut Count)
    -> u32;
}

/// How many calls were served.
type Count = MaybeUninit<u32>;

/// Room for a place, a total or a count, which a call writes and nobody reads here.
fn unread<T>() -> MaybeUninit<T> {
    MaybeUninit::uninit()
}

/// A take writes it, or nothing is read of it.
pub const NO_ITEM: Taken = [Word::uninit(); 7];

/// A word of an item that the library has just written, by itself: what reads two fields at once waits until both are
/// written.
#[inline(always)]
fn field_of(item: &Taken, at: usize) -> Word {
    // SAFETY: it is read from a reference.
    unsafe { read_volatile(&item[at]) }
}

/// The word of an item of one word, in the same way.
#[inline(always)]
pub fn word_of(item: &Taken) -> Word {
    field_of(item, 2)
}

/// One pass of a queue. It is empty, or `open` filled it; it isn't copied, and its drop lets the
/// pass go.
#[repr(transparent)]
pub struct Handle(Raw);

// SAFETY: the library proves its handle `Send` (`unsafe impl Send for Held`, with its proof). Calls
// on one handle don't overlap, since each takes it by `&mut`; and moving a value between threads
// orders what was done on either.
unsafe impl Send for Handle {}

impl Handle {
    pub const fn empty() -> Handle {
        Handle(Raw {
            at: null_mut(),
            live: false,
        })
    }

    /// Sends these words, of this number, and waits for the answer in this line: the code of a send.
    #[inline]
    pub fn send(&mut self, words: &Words, count: usize, served: impl Served) -> u32 {
        let at = words.as_ptr();
        let code = match count {
            1 => self.try_send_word(words[0]),
            // SAFETY: there are four words, and the library refuses to read more.
            _ => unsafe {
                vahepito_try_send_words(&mut self.0, at, count, &mut unread(), &mut unread())
            },
        };
        match code {
            code::WAITING => self.wait_for_send(served),
            code => code,
        }
    }

    /// Begins to send this word, and makes one turn of the call: the code of a send, or that it waits.
    #[inline(always)]
    pub fn try_send_word(&mut self, word: Word) -> u32 {
        vahepito_try_send(&mut self.0, word, &mut unread(), &mut unread())
    }

    /// Waits until a send that began is served: its code.
    #[inline]
    pub fn wait_for_send(&mut self, served: impl Served) -> u32 {
        wait_until_served(served, || {
            vahepito_turn_send(&mut self.0, &mut unread(), &mut unread())
        })
    }

    /// Takes the words of an item, of this number, and waits until the take is served. If there is no item, it returns
    /// the code of the take.
    #[inline]
    pub fn take(&mut self, count: usize, served: impl Served) -> Result<Words, u32> {
        let mut item = NO_ITEM;
        let mut code = match count {
            1 => self.try_take_word(&mut item),
            _ => vahepito_try_take_words(&mut self.0, &mut item, &mut unread(), &mut unread()),
        };
        if code == code::WAITING {
            code = match count {
                1 => self.wait_for_take(&mut item, served),
                _ => wait_until_served(served, || {
                    vahepito_turn_take_words(&mut self.0, &mut item, &mut unread(), &mut unread())
                }),
            };
        }
        let other = Word::uninit();
        match (code, count) {
            (code::GOT, 1) => Ok([word_of(&item), other, other, other]),
            (code::GOT, _) => Ok([3, 4, 5, 6].map(|at| field_of(&item, at))),
            (code, _) => Err(code),
        }
    }

    /// Begins to take an item of one word, and makes one turn of the call: the code of a take, or that it waits.
    #[inline(always)]
    pub fn try_take_word(&mut self, item: &mut Taken) -> u32 {
        vahepito_try_take(&mut self.0, item, &mut unread(), &mut unread())
    }

    /// Waits until such a take that began is served: its code.
    #[inline]
    pub fn wait_for_take(&mut self, item: &mut Taken, served: impl Served) -> u32 {
        wait_until_served(served, || {
            vahepito_turn_take(&mut self.0, item, &mut unread(), &mut unread())
        })
    }

    /// Closes the queue, and waits until the close is served. Returns whether it was open.
    pub fn close(&mut self, served: impl Served) -> bool {
        match vahepito_begin_close(&mut self.0) {
            code::BEGUN => {}
            code => unexpected(code),
        }
        let mut turn = || vahepito_turn_close(&mut self.0, &mut unread(), &mut unread());
        let code = match turn() {
            code::WAITING => wait_until_served(served, turn),
            code => code,
        };
        code == code::SHUT
    }
}

/// Turns a call until it is answered.
#[cold]
fn wait_until_served(served: impl Served, mut turn: impl FnMut() -> u32) -> u32 {
    served.wait(|| match turn() {
        code::WAITING => None,
        code => Some(code),
    })
}

impl Drop for Handle {
    fn drop(&mut self) {
        // Of an empty handle no call is made: the linked library may be another one, of which the version alone was asked.
        if !self.0.at.is_null() {
            vahepito_drop(&mut self.0);
        }
    }
}

/// Looks whether the linked library is the one that this crate is for. Of another one no other call
/// is made.
pub fn check_library() -> Result<(), OpenError> {
    let (linked, wanted, word) = (vahepito_version(), VERSION, size_of::<Word>());
    let mut sizes = [0; 4];
    if linked == wanted {
        let [config, pass, item, item_of_words] = &mut sizes;
        vahepito_sizes(config, pass, item, item_of_words);
    }
    let here = [size_of::<Config>(), size_of::<Raw>(), 3 * word, 7 * word];
    let error = OpenError::OtherLibrary { linked, wanted };
    (sizes == here).then_some(()).ok_or(error)
}

/// Opens a queue, and fills the handles of its senders, and those of the groups of receivers, one group after another. They are
/// empty, and as many as the configuration says, if its numbers are in their ranges.
pub fn fill(
    config: &Config,
    groups: u32,
    words: usize,
    senders: &mut [Handle],
    receivers: &mut [Handle],
) -> Result<(), OpenError> {
    check_library()?;
    // SAFETY: the pointers and counts are those of two lists. The library refuses other counts, and handles that aren't empty.
    let code = unsafe {
        vahepito_open_words(
            config,
            groups,
            words as u32,
            senders.as_mut_ptr(),
            senders.len(),
            receivers.as_mut_ptr(),
            receivers.len(),
        )
    };
    match code {
        code::DONE => Ok(()),
        code::BAD_CAPACITY => Err(OpenError::Capacity),
        code::BAD_GROUPS => Err(OpenError::Groups),
        code::NO_MEMORY => Err(OpenError::NoMemory),
        code => unexpected(code),
    }
}

// SAFETY: the address is a name, and nothing is read there.
#[cfg(vahepito_tsan)]
unsafe extern "C" {
    safe fn __tsan_release(at: *const c_void);
    safe fn __tsan_acquire(at: *const c_void);
}

/// Announces to the thread sanitizer, as the library isn't built for it, that what is done before a send on
/// this channel comes before what is done after a take.
pub fn hands_over<C>(_channel: &C) {
    #[cfg(vahepito_tsan)]
    __tsan_release((&raw const *_channel).cast());
}

/// The same after a take.
pub fn has_taken<C>(_channel: &C) {
    #[cfg(vahepito_tsan)]
    __tsan_acquire((&raw const *_channel).cast());
}
