//! The answers of each call that the channel makes, on one thread.
use super::handle::{Handle, Words, code};
use super::{Config, OpenError, open};
use crate::event::Served;
use std::mem::MaybeUninit;

const SMALL: Config = Config::new(2, 2, 2);

/// The handles of a queue of one word and one group.
fn two_and_two(config: Config) -> ([Handle; 2], [Handle; 2]) {
    let mut sides = open(&config, 1, 1).unwrap().into_iter();
    let mut side = || sides.next().unwrap().try_into().ok().unwrap();
    (side(), side())
}

/// A body of four words: this one, and those that follow it.
fn body(first: u64) -> Words {
    [0, 1, 2, 3].map(|more| MaybeUninit::new(first.wrapping_add(more)))
}

/// No other call is made, so none waits.
struct Alone;

impl Served for Alone {
    fn wait<R>(self, _: impl FnMut() -> Option<R>) -> R {
        unreachable!("a call waits alone")
    }
}

fn close(sender: &mut Handle) -> bool {
    sender.close(Alone)
}

fn send(sender: &mut Handle, word: u64) -> u32 {
    sender.send(&body(word), 1, Alone)
}

/// The first words of a body, of this number.
#[allow(unsafe_code)]
fn values(words: Words, count: usize) -> Vec<u64> {
    // SAFETY: a queue of this number of words gives as many of a body, each of them written.
    let value = |word: &MaybeUninit<u64>| unsafe { word.assume_init() };
    words[..count].iter().map(value).collect()
}

fn take(receiver: &mut Handle) -> Result<u64, u32> {
    receiver.take(1, Alone).map(|words| values(words, 1)[0])
}

#[test]
fn an_opening_is_refused_by_the_first_number_out_of_its_range() {
    for capacity in [0, 4097, u32::MAX] {
        let config = Config { capacity, ..SMALL };
        for groups in [1, 9] {
            let refused = open(&config, groups, 1).err();
            assert_eq!(refused, Some(OpenError::Capacity), "{capacity}");
        }
    }
    for groups in [0, 9, usize::MAX] {
        let refused = open(&SMALL, groups, 1).err();
        assert_eq!(refused, Some(OpenError::Groups), "{groups}");
    }
}

#[test]
fn errors_say_what_is_wrong() {
    let (linked, wanted) = (1_002_003, 4_005_006);
    for (error, text) in [
        (OpenError::Capacity, "the capacity of groups is 0"),
        (OpenError::Groups, "the number of groups isn't from 1 to 8"),
        (OpenError::NoMemory, "there is no memory for the queue"),
        (
            OpenError::OtherLibrary { linked, wanted },
            "the linked library is version 1.2.3, and this crate is for 4.5.6",
        ),
    ] {
        assert_eq!(error.to_string(), text);
    }
}

#[test]
fn one_to_eight_groups_are_opened() {
    for (groups, in_each) in [(1, 1), (1, 64), (8, 1), (8, 64)] {
        let config = Config::new(64, in_each, 4096);
        let mut sides = open(&config, groups, 1).unwrap();
        let lengths: Vec<usize> = sides.iter().map(Vec::len).collect();
        assert_eq!(lengths[0], 64);
        assert_eq!(lengths[1..], vec![in_each as usize; groups]);
        // The last receiver of each group gets what the last sender sent.
        assert_eq!(send(&mut sides[0][63], 5), code::ACCEPTED);
        for group in &mut sides[1..] {
            assert_eq!(take(&mut group[in_each as usize - 1]), Ok(5));
            assert_eq!(take(&mut group[0]), Err(code::EMPTY));
        }
    }
}

#[test]
fn all_bodies_pass() {
    for count in 1..=4 {
        let mut sides = open(&SMALL, 1, count).unwrap();
        for first in [0, 1, u64::from(u32::MAX), 1 << 56, u64::MAX] {
            let sent = sides[0][0].send(&body(first), count, Alone);
            assert_eq!(sent, code::ACCEPTED);
            let taken = sides[1][0].take(count, Alone);
            let taken = taken.map(|words| values(words, count));
            assert_eq!(taken, Ok(values(body(first), count)));
        }
    }
}

#[test]
fn items_come_in_order_up_to_the_end() {
    let ([mut one, mut two], [mut first, mut second]) = two_and_two(SMALL);
    assert_eq!(take(&mut first), Err(code::EMPTY));
    assert_eq!(send(&mut one, 7), code::ACCEPTED);
    assert_eq!(send(&mut two, 8), code::ACCEPTED);
    assert_eq!(send(&mut one, 9), code::FULL);
    assert_eq!(take(&mut second), Ok(7));
    assert_eq!(send(&mut two, 9), code::ACCEPTED);
    assert!(close(&mut one));
    assert!(!close(&mut two) && !close(&mut one));
    assert_eq!(send(&mut one, 6), code::CLOSED);
    assert_eq!(send(&mut two, 6), code::CLOSED);
    assert_eq!((take(&mut first), take(&mut second)), (Ok(8), Ok(9)));
    assert_eq!(take(&mut first), Err(code::ENDED));
    assert_eq!(take(&mut second), Err(code::ENDED));
}

#[test]
fn a_life_is_spent() {
    let ([mut one, mut two], [mut receiver, _]) = two_and_two(Config { life: 3, ..SMALL });
    for word in 0..3 {
        assert_eq!(send(&mut one, word), code::ACCEPTED);
        assert_eq!(take(&mut receiver), Ok(word));
    }
    assert_eq!(send(&mut one, 3), code::SPENT);
    assert_eq!(send(&mut two, 3), code::SPENT);
    assert_eq!(take(&mut receiver), Err(code::EMPTY));
    assert!(close(&mut two));
    assert_eq!(send(&mut two, 3), code::CLOSED);
    // If the queue is full too, a send returns that its life is over.
    let ([mut one, _], _receivers) = two_and_two(Config { life: 2, ..SMALL });
    let codes = [5, 6, 7].map(|word| send(&mut one, word));
    assert_eq!(codes, [code::ACCEPTED, code::ACCEPTED, code::SPENT]);
}

#[test]
fn a_sender_is_worn_by_sends_that_were_refused_too() {
    let (per_sender, [accepted, full]) = (3, [code::ACCEPTED, code::FULL]);
    let ([mut one, mut two], [mut receiver, _]) = two_and_two(Config {
        per_sender,
        ..SMALL
    });
    let codes = [0, 1, 2].map(|word| send(&mut one, word));
    assert_eq!(codes, [accepted, accepted, full]);
    assert_eq!(take(&mut receiver), Ok(0));
    assert_eq!(send(&mut one, 3), code::WORN);
    assert_eq!(send(&mut two, 4), accepted);
    assert!(close(&mut one));
    assert_eq!(send(&mut one, 3), code::WORN);
    assert_eq!(send(&mut two, 4), code::CLOSED);
}

#[test]
fn each_group_gets_every_item_once() {
    let mut sides = open(&SMALL, 2, 1).unwrap().into_iter();
    let mut side = || sides.next().unwrap();
    let (mut senders, mut one, mut two) = (side(), side(), side());
    let mut sends = |word| send(&mut senders[0], word);
    assert_eq!((sends(70), sends(80)), (code::ACCEPTED, code::ACCEPTED));
    assert_eq!((take(&mut one[0]), take(&mut one[1])), (Ok(70), Ok(80)));
    assert_eq!(take(&mut one[0]), Err(code::EMPTY));
    // The other group has taken nothing, so there is no room yet.
    assert_eq!(sends(90), code::FULL);
    assert_eq!(take(&mut two[1]), Ok(70));
    assert_eq!((sends(91), sends(92)), (code::ACCEPTED, code::FULL));
    assert_eq!(take(&mut one[1]), Ok(91));
    assert!(close(&mut senders[1]));
    assert_eq!(take(&mut one[0]), Err(code::ENDED));
    assert_eq!((take(&mut two[1]), take(&mut two[0])), (Ok(80), Ok(91)));
    assert_eq!(take(&mut two[0]), Err(code::ENDED));
}
