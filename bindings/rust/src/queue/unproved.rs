//! The queue of `--cfg vahepito_unproved`: std's `VecDeque` under std's `Mutex`, with the calls and the answers of the
//! proved one. It builds for any target, and nothing of it is proved.
use super::{Config, MOST_GROUPS, OpenError};
pub use super::{Word, Words, code, unexpected};
use crate::event::Served;
use std::collections::VecDeque;
use std::sync::{Arc, Mutex, PoisonError};

/// Room for an item of one word: the word and others.
pub type Taken = Words;

/// A take writes it, or nothing is read of it.
pub const NO_ITEM: Taken = [Word::uninit(); 4];

/// The word of an item of one word.
pub fn word_of(item: &Taken) -> Word {
    item[0]
}

/// The part that the handles of a queue share.
struct Queue {
    capacity: usize,
    /// How many words an item has.
    words: usize,
    /// How many items it still accepts.
    life: u64,
    closed: bool,
    /// The items that some group hasn't taken.
    items: VecDeque<Words>,
    /// How many of these each group has taken.
    taken: Vec<usize>,
}

/// A handle of a queue, or an empty one.
#[derive(Default)]
pub struct Handle {
    queue: Option<Arc<Mutex<Queue>>>,
    /// Of a receiver: the place of its group.
    group: usize,
    /// Of a sender: how many sends it may still begin.
    sends: u32,
}

impl Handle {
    pub fn empty() -> Handle {
        Handle::default()
    }

    /// Makes this call while no other is made.
    fn call<R>(&self, call: impl FnOnce(&mut Queue) -> R) -> R {
        let queue = self.queue.as_ref().expect("an empty handle makes no call");
        call(&mut queue.lock().unwrap_or_else(PoisonError::into_inner))
    }

    /// Sends these words, and returns the code of the send.
    pub fn send(&mut self, words: &Words, _count: usize, _served: impl Served) -> u32 {
        self.try_send(words)
    }

    /// The same of one word.
    pub fn try_send_word(&mut self, word: Word) -> u32 {
        let other = Word::uninit();
        self.try_send(&[word, other, other, other])
    }

    /// No call of this queue waits.
    pub fn wait_for_send(&mut self, served: impl Served) -> u32 {
        served.wait(|| unreachable!("a call of this queue doesn't wait"))
    }

    fn try_send(&mut self, words: &Words) -> u32 {
        let Some(left) = self.sends.checked_sub(1) else {
            return code::WORN;
        };
        self.sends = left;
        self.call(|queue| {
            if queue.closed {
                code::CLOSED
            } else if queue.life == 0 {
                code::SPENT
            } else if queue.items.len() == queue.capacity {
                code::FULL
            } else {
                queue.life -= 1;
                queue.items.push_back(*words);
                code::ACCEPTED
            }
        })
    }

    /// Takes the words of an item. If there is none, it returns the code of the take.
    pub fn take(&mut self, _count: usize, _served: impl Served) -> Result<Words, u32> {
        self.try_take()
    }

    fn try_take(&mut self) -> Result<Words, u32> {
        self.call(|queue| {
            let Some(&words) = queue.items.get(queue.taken[self.group]) else {
                return Err([code::EMPTY, code::ENDED][usize::from(queue.closed)]);
            };
            queue.taken[self.group] += 1;
            if queue.taken.iter().all(|&taken| taken > 0) {
                queue.items.pop_front();
                queue.taken.iter_mut().for_each(|taken| *taken -= 1);
            }
            Ok(words)
        })
    }

    /// Takes an item of one word, and returns the code of the take.
    pub fn try_take_word(&mut self, item: &mut Taken) -> u32 {
        if self.call(|queue| queue.words) != 1 {
            return code::WIDE;
        }
        let taken = self.try_take();
        taken.map_or_else(
            |code| code,
            |words| {
                *item = words;
                code::GOT
            },
        )
    }

    /// No call of this queue waits.
    pub fn wait_for_take(&mut self, _item: &mut Taken, served: impl Served) -> u32 {
        self.wait_for_send(served)
    }

    /// Closes the queue. Returns whether it was open.
    pub fn close(&mut self, _served: impl Served) -> bool {
        self.call(|queue| !std::mem::replace(&mut queue.closed, true))
    }
}

/// Opens a queue, and fills the handles of its senders, and those of the groups of receivers, one group after another.
pub fn fill(
    config: &Config,
    groups: u32,
    words: usize,
    senders: &mut [Handle],
    receivers: &mut [Handle],
) -> Result<(), OpenError> {
    let capacity = config.capacity as usize;
    if !(1..=4096).contains(&capacity) {
        return Err(OpenError::Capacity);
    }
    if !(1..=MOST_GROUPS).contains(&(groups as usize)) {
        return Err(OpenError::Groups);
    }
    let mut items = VecDeque::new();
    let refused = items.try_reserve_exact(capacity);
    refused.map_err(|_| OpenError::NoMemory)?;
    let queue = Arc::new(Mutex::new(Queue {
        capacity,
        words,
        life: config.life,
        closed: false,
        items,
        taken: vec![0; groups as usize],
    }));
    let of_group = |group| Handle {
        queue: Some(queue.clone()),
        group,
        sends: config.per_sender,
    };
    senders.fill_with(|| of_group(0));
    let in_each = config.receivers as usize;
    for (group, receivers) in receivers.chunks_mut(in_each).enumerate() {
        receivers.fill_with(|| of_group(group));
    }
    Ok(())
}

/// The lock says to a sanitizer that a send comes before its take.
pub fn hands_over<C>(_channel: &C) {}

/// The same after a take.
pub fn has_taken<C>(_channel: &C) {}
