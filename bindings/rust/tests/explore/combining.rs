//! A small queue that combines, in the place of the proved one: a call may be served by another call of its side, or be
//! handed over to. Its items are those of the queue of `--cfg vahepito_unproved`.
//!
//! The calls of a side are a chain. A call exchanges the tail for a further place, and links itself to that. A turn of
//! a call looks at the state of its place. If the call has to serve, it makes its own call and those that are linked
//! behind it, up to a bound, and hands over to the next place. An item, a take of one and a close are made by a locked
//! instruction, and so is the answer to a send; the answers to takes, links and hand-overs are stores. In all this it
//! is as the proved queue is on x86-64.
use super::{Config, MOST_GROUPS, OpenError};
pub use super::{Word, Words, code, unexpected};
use crate::event::Served;
use crate::explore::{flush, locked_step, step};
use crate::host::sync::atomic::{AtomicBool, AtomicU32, Ordering};
use std::cell::Cell;
use std::mem::take;
use std::sync::{Arc, Mutex};

#[path = "../../src/queue/unproved.rs"]
#[allow(dead_code, unused_imports)]
mod items;
pub use items::{NO_ITEM, Taken, hands_over, has_taken, word_of};

/// How many calls a call serves at most, itself too.
const BOUND: u32 = 2;

/// The states of a place.
const WAITS: u32 = 0;
const SERVES: u32 = 1;
const SERVED: u32 = 2;

/// What a call asks for, and its answer.
#[derive(Clone, Copy)]
enum Call {
    Send(Words),
    Take,
    Close,
    /// The code, and the item.
    Answer(u32, Words),
}

/// A place in the chain of a side.
#[derive(Default)]
struct Place {
    state: AtomicU32,
    is_linked: AtomicBool,
    next: Mutex<Option<Arc<Place>>>,
    /// The call here, and the handle by which it is made.
    call: Mutex<Option<(Call, items::Handle)>>,
}

/// The end of a chain: the place of the next call.
type Chain = Mutex<Arc<Place>>;

thread_local! {
    static LAST_CALL: Cell<(bool, u32)> = const { Cell::new((false, 0)) };
}

/// Whether the last call of this thread waited, and how many calls it served, itself too: for faults.
#[allow(dead_code)]
pub fn last_call() -> (bool, u32) {
    LAST_CALL.get()
}

/// No call of the items waits.
struct Alone;

impl Served for Alone {
    fn wait<R>(self, _: impl FnMut() -> Option<R>) -> R {
        unreachable!("the items are asked by one call at a time")
    }
}

impl Place {
    /// Makes the call of this place, and stores its answer.
    fn serve(&self) {
        let mut call = self.call.lock().unwrap();
        let (call, handle) = call.as_mut().expect("a linked place has a call");
        let is_send = matches!(call, Call::Send(_));
        step();
        let (code, item) = match call {
            Call::Send(words) => (handle.send(words, 1, Alone), NO_ITEM),
            Call::Close if handle.close(Alone) => (code::SHUT, NO_ITEM),
            Call::Close => (code::CLOSED, NO_ITEM),
            _ => match handle.take(1, Alone) {
                Ok(item) => (code::GOT, item),
                Err(code) => (code, NO_ITEM),
            },
        };
        if code != code::EMPTY {
            flush();
        }
        *call = Call::Answer(code, item);
        match is_send {
            true => drop(self.state.swap(SERVED, Ordering::SeqCst)),
            false => self.state.store(SERVED, Ordering::Release),
        }
    }
}

/// A handle, and the place of its call.
#[derive(Default)]
pub struct Handle {
    items: items::Handle,
    chain: Option<Arc<Chain>>,
    place: Arc<Place>,
}

impl Handle {
    pub fn empty() -> Handle {
        Handle::default()
    }

    /// Begins this call, and makes a turn of it: its code, or that it waits.
    fn begin(&mut self, call: Call, item: &mut Taken) -> u32 {
        let chain = self.chain.as_ref().expect("an empty handle makes no call");
        let next = Arc::default();
        locked_step();
        self.place = std::mem::replace(&mut *chain.lock().unwrap(), Arc::clone(&next));
        *self.place.call.lock().unwrap() = Some((call, take(&mut self.items)));
        *self.place.next.lock().unwrap() = Some(next);
        self.place.is_linked.store(true, Ordering::Release);
        LAST_CALL.set((false, 0));
        self.turn(item)
    }

    /// Makes a turn of the call: its code, or that it waits.
    fn turn(&mut self, item: &mut Taken) -> u32 {
        match self.place.state.load(Ordering::Acquire) {
            WAITS => {
                LAST_CALL.set((true, 0));
                return code::WAITING;
            }
            SERVES => self.serve(),
            _ => {}
        }
        let call = self.place.call.lock().unwrap().take();
        let Some((Call::Answer(code, taken), handle)) = call else {
            unreachable!("it is served")
        };
        (self.items, *item) = (handle, taken);
        code
    }

    /// Makes this call and those behind it.
    fn serve(&self) {
        let (mut place, has_waited) = (self.place.clone(), LAST_CALL.get().0);
        while LAST_CALL.get().1 < BOUND && place.is_linked.load(Ordering::Acquire) {
            place.serve();
            LAST_CALL.set((has_waited, LAST_CALL.get().1 + 1));
            let next = place.next.lock().unwrap().clone();
            place = next.expect("it is linked");
        }
        place.state.store(SERVES, Ordering::Release);
    }

    fn end(&mut self, code: u32, item: &mut Taken, served: impl Served) -> u32 {
        match code {
            code::WAITING => served.wait(|| {
                let code = self.turn(item);
                (code != code::WAITING).then_some(code)
            }),
            code => code,
        }
    }

    pub fn send(&mut self, words: &Words, _count: usize, served: impl Served) -> u32 {
        let code = self.begin(Call::Send(*words), &mut { NO_ITEM });
        self.end(code, &mut { NO_ITEM }, served)
    }

    pub fn try_send_word(&mut self, word: Word) -> u32 {
        let other = Word::uninit();
        self.begin(Call::Send([word, other, other, other]), &mut { NO_ITEM })
    }

    pub fn wait_for_send(&mut self, served: impl Served) -> u32 {
        self.end(code::WAITING, &mut { NO_ITEM }, served)
    }

    pub fn take(&mut self, _count: usize, served: impl Served) -> Result<Words, u32> {
        let mut item = NO_ITEM;
        let code = self.begin(Call::Take, &mut item);
        match self.end(code, &mut item, served) {
            code::GOT => Ok(item),
            code => Err(code),
        }
    }

    pub fn try_take_word(&mut self, item: &mut Taken) -> u32 {
        self.begin(Call::Take, item)
    }

    pub fn wait_for_take(&mut self, item: &mut Taken, served: impl Served) -> u32 {
        self.end(code::WAITING, item, served)
    }

    pub fn close(&mut self, served: impl Served) -> bool {
        let code = self.begin(Call::Close, &mut { NO_ITEM });
        self.end(code, &mut { NO_ITEM }, served) == code::SHUT
    }
}

/// As of the queue of `--cfg vahepito_unproved`.
pub fn fill(
    config: &Config,
    groups: u32,
    words: usize,
    senders: &mut [Handle],
    receivers: &mut [Handle],
) -> Result<(), OpenError> {
    let some = |count: usize| (0..count).map(|_| items::Handle::empty()).collect();
    let mut filled: [Vec<_>; 2] = [senders.len(), receivers.len()].map(some);
    let [of_senders, of_receivers] = &mut filled;
    items::fill(config, groups, words, of_senders, of_receivers)?;
    let in_each = receivers.chunks_mut(config.receivers as usize);
    let mut items = filled.into_iter().flatten();
    for side in [senders].into_iter().chain(in_each) {
        let state = AtomicU32::new(SERVES);
        let first = Place {
            state,
            ..Place::default()
        };
        let chain: Option<Arc<Chain>> = Some(Arc::new(Mutex::new(Arc::new(first))));
        side.fill_with(|| Handle {
            items: items.next().expect("each side has its handles"),
            chain: chain.clone(),
            place: Arc::default(),
        });
    }
    Ok(())
}
