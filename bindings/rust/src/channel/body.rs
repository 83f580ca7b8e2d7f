//! Items as bodies of the queue, whatever their type is.
//!
//! An item of up to 32 bytes is its body: its bytes are copied into one to four words, and out of them.
//! A larger one lies in a box, and the body is the word of its pointer. So does an item that several groups
//! get: its body is sent once, and taken once by each group.
//!
//! **The code below the handles is compiled once**, and not for each type of items: it has items as [`Item`], with the [`Kind`] of
//! their type. A handle knows the type. It packs what it sends, and unpacks what the channel gives it.
#![allow(unsafe_code)]

use super::core::{Core, NotSent, Sent};
use super::pool::SeatGuard;
use crate::event::ignore_panics;
use crate::host::sync::atomic::{AtomicUsize, Ordering};
use crate::host::sync::{Arc, Mutex};
use crate::queue::handle::{Word, Words, code, hands_over};
use std::marker::PhantomData;
use std::mem::{ManuallyDrop, MaybeUninit, forget, size_of};
use std::panic::{AssertUnwindSafe, catch_unwind, resume_unwind};
use std::process::abort;
use std::ptr;

/// The greatest number of bytes of an item that travels in a body itself. From 9 bytes on a box costs fewer instructions than the
/// words: 895 a pair of 32 bytes in place of 1,096. But one thread asks for its memory and another one frees it: between four pairs of
/// threads an item of 16 to 32 bytes takes 1.5 to 2.4 times as long in a box.
const INLINE: usize = size_of::<Words>();

/// In a handle: all items of its channel are of this type. So a handle is `Send` and `Sync` if the items are `Send`.
pub type Of<T> = PhantomData<Arc<Mutex<T>>>;

/// The type of a channel's items, as the code below the handles knows it.
pub struct Kind {
    /// How many words a body has.
    pub words: usize,
    /// Whether an item lies in a [`Boxed`], and the word is its pointer.
    is_boxed: bool,
    /// Gives up a share of the item, and drops the item with the last one.
    drop: unsafe fn(&Words),
    /// Writes a copy of an item, for a group that isn't the last one.
    copy: Option<unsafe fn(from: *const (), to: *mut ())>,
}

impl Kind {
    /// Whether a body of each kind of `T` has one word.
    pub const fn is_one_word<T>() -> bool {
        !matches!(size_of::<T>(), 9..=INLINE)
    }

    /// Whether an item asks for memory of its own.
    pub fn is_boxed(&self) -> bool {
        self.is_boxed
    }

    /// Of items that one receiver each gets.
    pub fn alone<T>() -> &'static Kind {
        const { &Kind::new::<T>(None) }
    }

    /// Of items that groups of receivers get.
    pub fn of_groups<T: Clone>() -> &'static Kind {
        const { &Kind::new::<T>(Some(copy::<T>)) }
    }

    const fn new<T>(copy: Option<unsafe fn(*const (), *mut ())>) -> Kind {
        let is_boxed = copy.is_some() || size_of::<T>() > INLINE;
        let words = match size_of::<T>().div_ceil(8) {
            words @ 2.. if !is_boxed => words,
            _ => 1,
        };
        Kind {
            words,
            is_boxed,
            drop: match is_boxed {
                true => drop_boxed::<T>,
                false => drop_inline::<T>,
            },
            copy,
        }
    }
}

/// # Safety
///
/// They point to a `T`, and to room for one.
unsafe fn copy<T: Clone>(from: *const (), to: *mut ()) {
    // SAFETY: the caller says so.
    unsafe { to.cast::<T>().write((*from.cast::<T>()).clone()) }
}

/// # Safety
///
/// The words are a `T`, which isn't used after this.
unsafe fn drop_inline<T>(words: &Words) {
    // SAFETY: the caller says so.
    drop(unsafe { get::<T>(words) });
}

/// # Safety
///
/// The words are a pointer to a `Boxed<T>`, and their share isn't used after this.
unsafe fn drop_boxed<T>(words: &Words) {
    // SAFETY: the caller says so.
    drop(unsafe { open::<T>(words) });
}

/// An item in a box.
#[repr(C)]
struct Boxed<T> {
    /// How many groups haven't taken it. Its sender alone has it before it is sent.
    left: AtomicUsize,
    item: T,
}

/// The words with this value in them.
fn words_with<V>(value: V) -> Words {
    assert!(size_of::<V>() <= INLINE);
    let mut words = [MaybeUninit::uninit(); 4];
    // SAFETY: the words have room for the value, and may be less aligned than it.
    unsafe { words.as_mut_ptr().cast::<V>().write_unaligned(value) };
    words
}

/// # Safety
///
/// The words have a `V` in them, which isn't used after it was moved out.
#[inline]
unsafe fn get<V>(words: &Words) -> V {
    // SAFETY: the caller says so.
    unsafe { words.as_ptr().cast::<V>().read_unaligned() }
}

/// Gives up a share of an item, and gives the item if it was the last one.
///
/// # Safety
///
/// The words are a pointer to a `Boxed<T>`, and their share isn't used after this.
unsafe fn open<T>(words: &Words) -> Option<T> {
    // SAFETY: the caller says so.
    let at = unsafe { get::<*mut Boxed<T>>(words) };
    // SAFETY: the box is there as long as this share of it is.
    let left = unsafe { &(*at).left };
    // All uses of the other shares happen before the item is used or dropped.
    if left.fetch_sub(1, Ordering::AcqRel) != 1 {
        return None;
    }
    // SAFETY: this was the last share, so nobody else has the box.
    Some(unsafe { Box::from_raw(at) }.item)
}

/// How many shares there are of an item of this kind, if it lies in a box. The word is its first one, and somebody owns
/// the item for as long as the word is borrowed.
#[inline(always)]
fn shares_of<'a>(word: &'a Word, kind: &Kind) -> Option<&'a AtomicUsize> {
    // SAFETY: then the word is a pointer to a `Boxed<T>`, which begins with them, and is there as long as its share is.
    let shares = || unsafe { &*ptr::from_ref(word).cast::<*const AtomicUsize>().read() };
    kind.is_boxed.then(shares)
}

/// Sets that number.
#[inline(always)]
fn set_shares_of(word: &Word, kind: &Kind, groups: usize) {
    if let Some(shares) = shares_of(word, kind) {
        shares.store(groups, Ordering::Relaxed);
    }
}

/// An item on its way, as the words of a body. It owns the item, or its group's share of it.
pub struct Item {
    words: Words,
    kind: &'static Kind,
}

impl Item {
    /// Puts an item into words.
    ///
    /// # Safety
    ///
    /// The kind is one of `T`.
    #[inline]
    pub unsafe fn pack<T>(item: T, kind: &'static Kind) -> Item {
        let words = if size_of::<T>() > INLINE || kind.is_boxed {
            let left = AtomicUsize::new(1);
            words_with(Box::into_raw(Box::new(Boxed { left, item })))
        } else {
            words_with(item)
        };
        Item { words, kind }
    }

    /// One that no groups get, and isn't of a channel.
    pub fn alone<T>(item: T) -> Item {
        // SAFETY: it is the kind of its type.
        unsafe { Item::pack(item, Kind::alone::<T>()) }
    }

    /// An item that was taken, by its words.
    ///
    /// # Safety
    ///
    /// They are the words of an item of this kind that was sent, to as many groups as its share says, and this
    /// group takes it for the first time.
    #[inline]
    pub unsafe fn taken(words: Words, kind: &'static Kind) -> Item {
        Item { words, kind }
    }

    /// Of this one word.
    #[inline(always)]
    fn of_word(word: Word, kind: &'static Kind) -> Item {
        let other = Word::uninit();
        let words = [word, other, other, other];
        Item { words, kind }
    }

    /// How many shares of it there are, if it lies in a box.
    #[inline]
    fn shares(&self) -> Option<&AtomicUsize> {
        shares_of(&self.words[0], self.kind)
    }

    /// Sets the number of shares of an item that the caller alone has: the groups that are to get it, or
    /// 1 for its one owner.
    #[inline]
    fn set_shares(&self, groups: usize) {
        set_shares_of(&self.words[0], self.kind, groups);
    }

    /// The item. If other groups are to take it, a copy: this runs user code. A panic of the copy is raised again
    /// once the share is given up; one of the item's drop ends here, since the copy is there.
    ///
    /// # Safety
    ///
    /// Its kind is one of `T`.
    #[inline]
    pub unsafe fn unpack<T>(self) -> T {
        let this = ManuallyDrop::new(self);
        if size_of::<T>() <= INLINE && !this.kind.is_boxed {
            // SAFETY: the words are the item, by `pack`, and it isn't used after this, nor dropped.
            return unsafe { get(&this.words) };
        }
        // SAFETY: the caller says so, and the item is in a box, by `pack`, so that it has one word.
        unsafe { Item::unpack_boxed(this.words[0], this.kind) }
    }

    /// The item in its box, or a copy.
    ///
    /// # Safety
    ///
    /// It is the word of an item of this kind, a `T` that lies in a box, and that isn't used after this.
    #[inline(never)]
    unsafe fn unpack_boxed<T>(word: Word, kind: &'static Kind) -> T {
        let this = ManuallyDrop::new(Item::of_word(word, kind));
        if let (Some(copy), Some(shares)) = (this.kind.copy, this.shares()) {
            if shares.load(Ordering::Acquire) != 1 {
                // SAFETY: the caller says so.
                return unsafe { ManuallyDrop::into_inner(this).copy(copy) };
            }
        }
        // SAFETY: the caller says so. The item isn't used after this, nor dropped.
        unsafe { open(&this.words) }.expect("nobody else has a share")
    }

    /// A copy of an item that lies in a box. Its share is given up.
    ///
    /// # Safety
    ///
    /// The item is a `T`, and this copies such items.
    #[cold]
    unsafe fn copy<T>(self, copy: unsafe fn(*const (), *mut ())) -> T {
        let mut item = MaybeUninit::<T>::uninit();
        let copied = catch_unwind(AssertUnwindSafe(|| {
            // SAFETY: the caller says so, and the box is there as long as this share of it is.
            unsafe {
                let boxed = get::<*const Boxed<T>>(&self.words);
                copy((&raw const (*boxed).item).cast(), item.as_mut_ptr().cast());
            }
        }));
        ignore_panics([self], drop); // the share may be the last one by now
        copied.unwrap_or_else(|panic| resume_unwind(panic));
        // SAFETY: the copy was written there.
        unsafe { item.assume_init() }
    }
}

/// Drops the item, or gives the share of it up. This runs user code.
impl Drop for Item {
    fn drop(&mut self) {
        // SAFETY: the words are those of an item of this kind, which goes.
        unsafe { (self.kind.drop)(&self.words) };
    }
}

/// An item that is to be sent, until it is.
pub type Unsent = Option<Item>;

/// An item that was refused.
#[inline]
pub fn put_back(item: Unsent) -> Item {
    item.expect("a refused item is put back")
}

/// Why an item isn't sent, and the item.
pub type Refused = (NotSent, Item);

/// Why a take gives no item.
#[derive(Clone, Copy)]
pub enum NoItem {
    Empty,
    Ended,
}

/// What a take of an item of one word gives: two words, which a call returns in registers. If it is dropped, its item
/// leaks.
#[must_use]
pub struct Answer {
    /// The item's kind, if there is an item. Without one the word is 1 if the channel has ended, and 0 if it hasn't.
    kind: Option<&'static Kind>,
    word: Word,
}

impl Answer {
    /// # Safety
    ///
    /// As of [`Item::taken`]. The kind has one word.
    #[inline(always)]
    pub unsafe fn taken(word: Word, kind: &'static Kind) -> Answer {
        Answer {
            kind: Some(kind),
            word,
        }
    }

    #[inline(always)]
    pub fn none(why: NoItem) -> Answer {
        Answer {
            kind: None,
            word: Word::new(matches!(why, NoItem::Ended).into()),
        }
    }

    #[inline(always)]
    pub fn item(self) -> Result<Item, NoItem> {
        let Some(kind) = self.kind else {
            // SAFETY: without a kind the word was written by `none`.
            let has_ended = unsafe { self.word.assume_init() } != 0;
            return Err([NoItem::Empty, NoItem::Ended][usize::from(has_ended)]);
        };
        Ok(Item::of_word(self.word, kind))
    }
}

/// Of an item of one word.
impl From<Result<Item, NoItem>> for Answer {
    fn from(taken: Result<Item, NoItem>) -> Answer {
        let item = match taken {
            Ok(item) => ManuallyDrop::new(item),
            Err(why) => return Answer::none(why),
        };
        assert!(item.kind.words == 1, "the item has one word");
        // SAFETY: the item is forgotten.
        unsafe { Answer::taken(item.words[0], item.kind) }
    }
}

/// An item of one word that its owner lends to a call which sends it. The call gets the word in a register.
pub struct Lent(Word);

/// Sends an item of one word by this call, which says whether it is sent: then it isn't here any more. If the call
/// panics, the item leaks.
#[inline(always)]
pub fn lend(item: Item, send: impl FnOnce(Lent) -> Sent) -> Result<(), Refused> {
    let item = ManuallyDrop::new(item);
    match send(Lent(item.words[0])) {
        Ok(()) => Ok(()),
        Err(why) => Err((why, ManuallyDrop::into_inner(item))),
    }
}

/// What a call sends. It is here still if the call returns an error.
pub trait Offer {
    /// Sends it by this seat of the channel to all groups that the queue has, and returns the call's code.
    ///
    /// No user code runs between the queue's acceptance and the moment at which the item isn't here any more.
    fn send_by(&mut self, core: &Core, seat: &mut SeatGuard) -> u32;

    /// Sends the item by this call, which takes items in memory.
    fn by_itself(&mut self, kind: &'static Kind, send: impl FnOnce(&mut Unsent) -> Sent) -> Sent;
}

impl Offer for Lent {
    #[inline(always)]
    fn send_by(&mut self, core: &Core, seat: &mut SeatGuard) -> u32 {
        set_shares_of(&self.0, core.kind, seat.pass().0.shares);
        hands_over(core);
        let unwinds = Unwinds;
        let code = seat.send_word(self.0);
        forget(unwinds);
        code
    }

    #[inline(always)]
    fn by_itself(&mut self, kind: &'static Kind, send: impl FnOnce(&mut Unsent) -> Sent) -> Sent {
        send_lent(self.0, kind, send)
    }
}

/// Sends an item that is lent, as one in memory. If it isn't sent, its lender has it.
#[cold]
#[inline(never)]
fn send_lent(word: Word, kind: &'static Kind, send: impl FnOnce(&mut Unsent) -> Sent) -> Sent {
    let item = Item::of_word(word, kind);
    item.set_shares(1);
    send(&mut ManuallyDrop::new(Some(item)))
}

impl Offer for Unsent {
    #[inline(always)]
    fn send_by(&mut self, core: &Core, seat: &mut SeatGuard) -> u32 {
        let sent = self.as_ref().expect("the item isn't sent yet");
        let (pass, line) = seat.pass();
        sent.set_shares(pass.shares);
        hands_over(core);
        let unwinds = Unwinds;
        let code = pass.handle.send(&sent.words, sent.kind.words, line);
        forget(unwinds);
        if code == code::ACCEPTED {
            forget(self.take());
        } else {
            sent.set_shares(1);
        }
        code
    }

    #[inline(always)]
    fn by_itself(&mut self, _: &'static Kind, send: impl FnOnce(&mut Unsent) -> Sent) -> Sent {
        send(self)
    }
}

/// Ends the program if a call of the queue panics, which may have its item by then.
struct Unwinds;

impl Drop for Unwinds {
    fn drop(&mut self) {
        abort();
    }
}
