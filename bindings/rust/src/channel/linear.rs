//! Calls of four threads, each recorded with the moments of its begin and its end: whether some order of
//! single steps, one for each call between its two moments, gives all that was returned. The calls are
//! sends and takes, with and without a time, closes, clones, drops, upgrades of weak handles, and selects
//! over two channels. With capacity 0 a send and its take are one step, between the moments of both.
//!
//! Sends, takes and closes alone are also recorded as long logs, which `ccq judge` judges: see
//! [`judged`](super::judged).
use self::Outcome::*;
use super::judged::{send, take};
use super::rounds::rounds;
use super::row_tests::small_shape;
use super::select::{Begun, random_below};
use super::*;
use std::collections::{HashSet, VecDeque};
use std::mem::replace;
use std::sync::Mutex;
use std::sync::atomic::{AtomicU64, AtomicUsize, Ordering};
use std::thread;
use std::time::Duration;

const THREADS: usize = 4;
/// In place of a capacity: the channel is a row without a limit.
const NO_LIMIT: usize = usize::MAX;
const TIME: Option<Duration> = Some(Duration::from_micros(20));

/// The result of a call. A group has a number from 0; a side has one from 0, which is the senders'.
#[derive(Clone, Copy, Debug, PartialEq)]
enum Outcome {
    Sent(u32),
    Full,
    SendClosed,
    Got(usize, u32),
    Empty(usize),
    Ended(usize),
    Closed(bool),
    IsClosed(bool),
    Len(usize),
    /// By a clone, or the upgrade of a weak handle.
    Another(usize, bool),
    Dropped(usize),
    /// A selected send has its room. Then it is sent to it, the channel is closed, or the room is given back.
    Reserved,
    SentToRoom(u32),
    RoomClosed,
    GaveBack,
    /// None of these operations of a select is ready, at one moment. The takes of the first channel are of this group.
    NoneReady(usize, usize),
}

/// The bit of an operation of a select: of the take, or the send, of this channel.
fn bit(channel: usize, sends: bool) -> usize {
    1 << (channel + if sends { 2 } else { 0 })
}

/// Its begin, its end, its channel of the two, and its result.
type Call = (u64, u64, usize, Outcome);

/// The channel as it is meant.
#[derive(Clone, PartialEq, Eq, Hash)]
struct Model {
    capacity: usize,
    /// What each group hasn't taken, if it has receivers.
    items: Vec<VecDeque<u32>>,
    /// How many handles each side has.
    handles: Vec<usize>,
    reserved: usize,
    closed: bool,
}

impl Model {
    fn start(capacity: usize, handles: Vec<usize>) -> Model {
        Model {
            capacity,
            items: vec![VecDeque::new(); handles.len() - 1],
            handles,
            reserved: 0,
            closed: false,
        }
    }

    fn len(&self) -> usize {
        self.items.iter().map(VecDeque::len).max().unwrap_or(0)
    }

    fn has_room(&self) -> bool {
        !self.closed && self.len() + self.reserved < self.capacity
    }

    fn push(&mut self, item: u32) {
        let groups = self.items.iter_mut().zip(&self.handles[1..]);
        let alive = groups.filter(|it| *it.1 > 0);
        alive.for_each(|(items, _)| items.push_back(item));
    }

    /// Whether a call returns this if it is made now. Then it is made.
    fn makes(&mut self, outcome: Outcome) -> bool {
        let (has_room, closed) = (self.has_room(), self.closed);
        match outcome {
            Sent(item) => {
                self.push(item);
                has_room
            }
            Reserved => {
                self.reserved += 1;
                has_room
            }
            SentToRoom(item) => {
                self.reserved -= 1;
                self.push(item);
                !closed
            }
            RoomClosed | GaveBack => {
                self.reserved -= 1;
                closed || outcome == GaveBack
            }
            Full => !closed && !has_room,
            SendClosed => closed,
            Got(group, item) => self.items[group].pop_front() == Some(item),
            Empty(group) => !closed && self.items[group].is_empty(),
            Ended(group) => closed && self.items[group].is_empty(),
            Closed(first) => first != replace(&mut self.closed, true),
            IsClosed(is) => is == closed,
            Len(len) => self.len() == len,
            Another(side, is_there) => {
                let was_there = self.handles[side] > 0;
                self.handles[side] += usize::from(is_there);
                is_there == was_there
            }
            Dropped(side) => {
                self.handles[side] -= 1;
                if side > 0 && self.handles[side] == 0 {
                    self.items[side - 1].clear();
                }
                self.closed |= self.handles[0] == 0 || self.handles[1..].iter().all(|it| *it == 0);
                true
            }
            NoneReady(..) => unreachable!("it is of both channels"),
        }
    }
}

/// Makes a call, and with it the take of what it sends, if the capacity is 0. Gives the bits of the calls that are
/// made, if they return what they did.
fn make(calls: &[Call], call: usize, models: &mut [Model; 2]) -> Option<u128> {
    let (.., channel, outcome) = calls[call];
    let is_made = match outcome {
        NoneReady(bits, group) => (0..).zip(&mut *models).all(|(channel, it)| {
            let has = |sends| bits & bit(channel, sends) != 0;
            (!has(false) || it.makes(Empty([group, 0][channel]))) && (!has(true) || it.makes(Full))
        }),
        Got(..) if models[channel].capacity == 0 => false,
        Sent(item) if models[channel].capacity == 0 => {
            let is_take = |it: &Call| (it.2, it.3) == (channel, Got(0, item));
            let take = calls.iter().position(is_take)?;
            return (!models[channel].closed).then_some(1 << call | 1 << take);
        }
        outcome => models[channel].makes(outcome),
    };
    is_made.then_some(1 << call)
}

/// Whether there is such an order.
fn is_linear(calls: &[Call], start: [Model; 2]) -> bool {
    rest_is_linear(calls, 0, start, &mut HashSet::new())
}

/// Whether there is one of the other calls, when these are made and the channels are so. A state that was seen
/// before has none.
fn rest_is_linear(
    calls: &[Call],
    made: u128,
    models: [Model; 2],
    seen: &mut HashSet<(u128, [Model; 2])>,
) -> bool {
    let rest = (0..calls.len()).filter(|call| made & 1 << call == 0);
    let Some(first_end) = rest.clone().map(|call| calls[call].1).min() else {
        return true;
    };
    if !seen.insert((made, models.clone())) {
        return false;
    }
    let ready = rest.filter(|&call| calls[call].0 < first_end);
    let may_be = ready.clone().fold(0, |all, call| all | 1 << call);
    ready.clone().any(|call| {
        let mut next = models.clone();
        let now = make(calls, call, &mut next).filter(|now| now & !may_be == 0);
        now.is_some_and(|now| rest_is_linear(calls, made | now, next, seen))
    })
}

fn sends(sender: &Sender<u32>, item: u32, time: Option<Duration>) -> Outcome {
    match send(sender, item, time) {
        Ok(()) => Sent(item),
        Err(true) => Full,
        Err(false) => SendClosed,
    }
}

fn takes(receiver: &Receiver<u32>, time: Option<Duration>) -> Outcome {
    let group = receiver.group() - 1;
    match take(receiver, time) {
        Ok(item) => Got(group, item),
        Err(true) => Empty(group),
        Err(false) => Ended(group),
    }
}

/// Adds a handle, and returns whether there is one.
fn add<H>(more: Option<H>, handles: &mut Vec<H>) -> bool {
    let before = handles.len();
    handles.extend(more);
    handles.len() > before
}

/// A clock, and how many threads are ready to start.
type Clock = (AtomicU64, AtomicUsize);

fn now((time, _): &Clock) -> u64 {
    time.fetch_add(1, Ordering::SeqCst)
}

/// The handles of one thread, and its calls.
struct Own {
    group: usize,
    senders: Vec<Sender<u32>>,
    receivers: Vec<Receiver<u32>>,
    weak: (WeakSender<u32>, WeakReceiver<u32>),
    /// Of the other channel, which stays open.
    other: (Sender<u32>, Receiver<u32>),
    calls: Vec<Call>,
}

impl Own {
    /// A select of those operations, of the takes and sends of both channels, whose bits are set, if there are
    /// handles for them; without a time, or with a short one.
    fn selects(&self, bits: usize, gives_back: bool, item: u32, clock: &Clock) -> Vec<Call> {
        let senders = [self.senders.last(), Some(&self.other.0)];
        let receivers = [self.receivers.last(), Some(&self.other.1)];
        let (mut select, mut operations) = (Select::new(), vec![]);
        for (channel, sends) in [(0, false), (0, true), (1, false), (1, true)] {
            let is_wanted = bits & bit(channel, sends) != 0;
            let at = match (senders[channel], receivers[channel]) {
                (Some(sender), _) if is_wanted && sends => select.send(sender),
                (_, Some(receiver)) if is_wanted && !sends => select.recv(receiver),
                _ => continue,
            };
            assert_eq!(at, operations.len());
            operations.push((channel, sends));
        }
        let begin = now(clock);
        let operation = match bits >> 4 {
            0 => select.try_select().ok(),
            _ => select.select_timeout(TIME.unwrap()).ok(),
        };
        let end = now(clock);
        let groups = [self.group, 0];
        let Some(operation) = operation else {
            let meets = |it: &(usize, bool)| {
                let capacity = receivers[it.0].map(Receiver::capacity);
                capacity.or_else(|| senders[it.0].map(Sender::capacity)) == Some(Some(0))
            };
            if !operations.iter().any(meets) {
                let bits = operations.iter().map(|it| bit(it.0, it.1)).sum();
                return vec![(begin, end, 0, NoneReady(bits, self.group))];
            }
            // With capacity 0 each wasn't ready at a moment of its own.
            let not_ready = |(channel, sends)| {
                let outcome = if sends { Full } else { Empty(groups[channel]) };
                (begin, end, channel, outcome)
            };
            return operations.into_iter().map(not_ready).collect();
        };
        let (channel, sends) = operations[operation.index()];
        let (sender, group) = (senders[channel].filter(|_| sends), groups[channel]);
        let has_room = matches!(operation.begun, Some(Begun::Room));
        let (mut calls, mut start) = (vec![], begin);
        if has_room {
            calls.push((begin, end, channel, Reserved));
            start = now(clock);
        }
        let outcome = match sender {
            None => {
                let taken = operation.recv(receivers[channel].unwrap());
                taken.map_or(Ended(group), |item| Got(group, item))
            }
            Some(_) if has_room && gives_back => {
                drop(operation);
                GaveBack
            }
            Some(sender) => match (operation.send(sender, item), has_room) {
                (Ok(()), true) => SentToRoom(item),
                (Ok(()), false) => Sent(item),
                (Err(_), true) => RoomClosed,
                (Err(_), false) => SendClosed,
            },
        };
        calls.push((start, now(clock), channel, outcome));
        calls
    }

    /// One call of this kind, if there is a handle for it.
    fn call(&mut self, kind: usize, item: u32) -> Option<Outcome> {
        let (sender, receiver) = (self.senders.last(), self.receivers.last());
        let side = 1 + self.group;
        Some(match kind {
            0..7 => sends(sender?, item, None),
            7..14 => takes(receiver?, None),
            14 => sends(sender?, item, TIME),
            15 => takes(receiver?, TIME),
            16 => Closed(sender?.close()),
            17 => IsClosed(receiver?.is_closed()),
            18 => Another(0, add(Some(sender?.clone()), &mut self.senders)),
            19 => Another(side, add(Some(receiver?.clone()), &mut self.receivers)),
            20 => Another(0, add(self.weak.0.upgrade(), &mut self.senders)),
            21 => Another(side, add(self.weak.1.upgrade(), &mut self.receivers)),
            22..26 => self.senders.pop().map(|_| Dropped(0))?,
            _ => self.receivers.pop().map(|_| Dropped(side))?,
        })
    }

    /// Four calls at random, of this number of kinds: those from 30 on are of the other channel, those from 34 on of
    /// selects.
    fn make_calls(&mut self, clock: &Clock, first: u32, kinds: usize) {
        clock.1.fetch_add(1, Ordering::SeqCst);
        while clock.1.load(Ordering::SeqCst) < THREADS {
            thread::yield_now();
        }
        for item in first..first + 4 {
            let (kind, begin) = (random_below(kinds), now(clock));
            let outcome = match kind {
                0..30 => self.call(kind, item).map(|it| (0, it)),
                30 | 32 => Some((1, sends(&self.other.0, item, None))),
                31 | 33 => Some((1, takes(&self.other.1, None))),
                _ => {
                    let calls = self.selects(random_below(32), random_below(4) == 0, item, clock);
                    self.calls.extend(calls);
                    None
                }
            };
            let call = outcome.map(|(channel, it)| (begin, now(clock), channel, it));
            self.calls.extend(call);
            if random_below(4) == 0 {
                thread::yield_now();
            }
        }
    }
}

/// Channels, and the calls of four threads on each.
#[derive(Clone, Copy)]
struct Runs {
    groups: usize,
    /// How many items a queue accepts, and how many sends each of its senders begins, beside those that are moved over
    /// from the queue before.
    wear: (u64, u32),
    /// The capacity of a run's channel.
    capacity: fn(usize) -> usize,
    /// If there are selects, the capacity of the other channel.
    other: Option<usize>,
    /// If the channel is a row, how many places its first queue has, and each further one.
    row: Option<[u32; 2]>,
}

/// Over one queue that doesn't wear, of one group, without selects.
const PLAIN: Runs = Runs {
    groups: 1,
    wear: (1 << 48, u32::MAX),
    capacity: |run| 1 + run % 3,
    other: None,
    row: None,
};

impl Runs {
    fn of(mut self, groups: usize) -> Runs {
        self.groups = groups;
        self
    }

    fn worn(mut self, life: u64, per_sender: u32) -> Runs {
        self.wear = (life, per_sender);
        self
    }

    fn selects(mut self, capacity: fn(usize) -> usize, other: usize) -> Runs {
        (self.capacity, self.other) = (capacity, Some(other));
        self
    }

    /// The handles of four threads of a new channel.
    fn open(&self, capacity: usize) -> Vec<Mutex<Own>> {
        let other = channel(self.other.unwrap_or(1)).unwrap();
        let kind = match self.groups {
            1 => Kind::alone::<u32>(),
            _ => Kind::of_groups::<u32>(),
        };
        let (life, per_sender) = self.wear;
        let core = match (capacity, self.row) {
            (0, _) => Ok(Core::of_rendezvous(kind)),
            (_, None) => {
                let mut config = Config::new(1, 1, capacity as u32);
                config.life = (life + capacity as u64).min(1 << 48);
                config.per_sender = per_sender.saturating_add(capacity as u32);
                Core::open(config, self.groups, kind)
            }
            (_, Some(places)) => {
                let shape = small_shape(places, life, per_sender);
                let limit = (capacity != NO_LIMIT).then_some(capacity);
                Core::open_row(shape, limit, self.groups, kind)
            }
        };
        let (sender, receivers) = handles::<u32>(core.unwrap());
        let own = |receiver: &Receiver<u32>| Own {
            group: receiver.group() - 1,
            senders: vec![sender.clone()],
            receivers: vec![receiver.clone()],
            weak: (sender.downgrade(), receiver.downgrade()),
            other: other.clone(),
            calls: vec![],
        };
        let receivers = receivers.iter().cycle().take(THREADS);
        receivers.map(own).map(Mutex::new).collect()
    }

    /// Checks what was recorded, with what is left after it.
    fn check(&self, capacity: usize, clock: &Clock, threads: Vec<Mutex<Own>>) {
        let threads = threads.into_iter().map(|it| it.into_inner().unwrap());
        let threads: Vec<Own> = threads.collect();
        let mut all: Vec<Call> = threads.iter().flat_map(|it| it.calls.clone()).collect();
        let mut at_rest = |channel, outcome| all.push((now(clock), now(clock), channel, outcome));
        if let Some(sender) = threads.iter().find_map(|it| it.senders.last()) {
            at_rest(0, Len(sender.len()));
        }
        let left = threads[0].other.1.try_iter();
        left.for_each(|item| at_rest(1, Got(0, item)));
        for own in &threads {
            let left = own.receivers.iter().flat_map(Receiver::try_iter);
            left.for_each(|item| at_rest(0, Got(own.group, item)));
        }
        all.sort_by_key(|call| call.0);
        let mut handles = vec![THREADS];
        handles.resize(1 + self.groups, THREADS / self.groups);
        let other = Model::start(self.other.unwrap_or(1), vec![THREADS; 2]);
        let start = [Model::start(capacity, handles), other];
        assert!(is_linear(&all, start), "capacity {capacity}: {all:#?}");
    }

    /// Opens this number of channels, and has four threads make their calls on each, one channel after another.
    fn make(self, count: u64) {
        const BATCH: usize = 50;
        let kinds = self.other.map_or(30, |_| 60);
        for batch in 0..rounds(count).div_ceil(BATCH as u64) as usize {
            let capacity = |run| (self.capacity)(batch + run);
            let runs = (0..BATCH).map(|run| (Clock::default(), self.open(capacity(run))));
            let runs: Vec<_> = runs.collect();
            thread::scope(|scope| {
                for number in 0..THREADS {
                    let runs = &runs;
                    scope.spawn(move || {
                        for (clock, threads) in runs {
                            let mut own = threads[number].lock().unwrap();
                            own.make_calls(clock, number as u32 * 100, kinds);
                        }
                    });
                }
            });
            for (run, (clock, threads)) in runs.into_iter().enumerate() {
                self.check(capacity(run), &clock, threads);
            }
        }
    }

    /// Rows of tiny queues, without a limit and with one.
    fn make_rows(mut self, count: u64) {
        self.capacity = |run| [1, 2, 3, NO_LIMIT, NO_LIMIT][run % 5];
        for places in [[1, 1], [1, 2], [2, 3]] {
            self.row = Some(places);
            self.make(count);
        }
    }
}

#[test]
fn selects_have_an_order() {
    PLAIN.selects(|run| 1 + run % 2, 1).make(20_000);
    PLAIN.of(2).selects(|run| 1 + run % 2, 2).make(5_000);
}

#[test]
fn rendezvous_have_an_order() {
    PLAIN.selects(|_| 0, 0).make(10_000);
    PLAIN.selects(|run| run % 2, 1).make(10_000);
    PLAIN.selects(|_| 2, 0).make(5_000);
}

#[test]
fn calls_have_an_order() {
    PLAIN.make(45_000);
    PLAIN.of(2).make(25_000);
    PLAIN.of(4).make(10_000);
}

/// Queues follow one another all the time.
#[test]
fn calls_over_many_queues_have_an_order() {
    PLAIN.worn(2, u32::MAX).make(8_000);
    PLAIN.worn(1000, 1).make(6_000);
    PLAIN.of(2).worn(2, 2).make(6_000);
}

#[test]
fn calls_over_rows_have_an_order() {
    PLAIN.make_rows(4_000);
    PLAIN.worn(2, 2).make_rows(1_500);
    PLAIN.worn(1000, 1).make_rows(1_000);
    PLAIN.of(2).make_rows(2_500);
    PLAIN.of(4).worn(3, 3).make_rows(1_000);
}

#[test]
fn selects_over_rows_have_an_order() {
    PLAIN.selects(|_| 0, 1).make_rows(3_000);
    PLAIN.of(2).worn(3, 3).selects(|_| 0, 2).make_rows(1_000);
}

/// A history of the first channel.
macro_rules! calls {
    ($($begin:literal..$end:literal $outcome:expr),+) => {
        vec![$(($begin, $end, 0, $outcome)),+]
    };
}

/// Whether calls on a channel of this capacity, and on another one, have an order. One sender and one receiver begin.
fn has_order(capacity: usize, calls: &[Call]) -> bool {
    is_linear(calls, [(); 2].map(|()| Model::start(capacity, vec![1, 1])))
}

/// The check itself: what no order gives is refused.
#[test]
fn what_has_no_order_is_refused() {
    for (capacity, calls) in [
        (1, calls![0..1 Sent(7), 2..3 Empty(0)]),
        (1, calls![0..1 Sent(7), 2..3 Sent(8)]),
        (1, calls![0..3 Full, 4..5 Sent(7)]),
        (1, calls![0..1 Sent(7), 2..3 Closed(true), 4..5 Ended(0)]),
        (1, calls![0..1 Sent(7), 2..5 Got(0, 7), 3..4 Got(0, 7)]),
        (1, calls![0..1 Got(0, 7), 2..3 Sent(7)]),
        (1, calls![0..1 Closed(true), 2..3 Closed(true)]),
        (1, calls![0..1 Closed(true), 2..3 Sent(7)]),
        (1, calls![0..1 Dropped(1), 2..3 Full]),
        (1, calls![0..1 Dropped(1), 2..3 Sent(7)]),
        (1, calls![0..1 Dropped(0), 2..3 Empty(0)]),
        (1, calls![0..1 Dropped(0), 2..3 Another(0, true)]),
        (
            1,
            calls![0..1 Another(0, true), 2..3 Dropped(0), 4..5 IsClosed(true)],
        ),
        (1, calls![0..1 Reserved, 2..3 Sent(7)]),
        (1, calls![0..1 Reserved, 2..3 Got(0, 7), 4..5 SentToRoom(7)]),
        (1, calls![0..1 Reserved, 2..3 GaveBack, 4..5 Full]),
        (1, calls![0..1 Sent(7), 2..3 NoneReady(1, 0)]),
        (0, calls![0..2 Sent(7), 3..4 Got(0, 7)]),
        (0, calls![0..2 Sent(7)]),
    ] {
        assert!(!has_order(capacity, &calls), "{calls:?}");
    }
    for (capacity, calls) in [
        (1, calls![0..1 Sent(7), 0..3 Empty(0)]),
        (1, calls![0..9 Got(0, 7), 1..2 Sent(7)]),
        (1, calls![0..9 Dropped(1), 2..3 Sent(7), 4..5 SendClosed]),
        (0, calls![0..2 Sent(7), 1..3 Got(0, 7)]),
    ] {
        assert!(has_order(capacity, &calls), "{calls:?}");
    }
    // Two takes, each of which isn't ready at a moment of its own: then there is an order, and none if that is one moment.
    let beside = |select: &[Call]| {
        let other = [(3, 4, 1, Sent(8)), (10, 11, 1, Got(0, 8))];
        let one = calls![0..1 Sent(7), 5..6 Got(0, 7)];
        has_order(1, &[&one[..], &other, select].concat())
    };
    assert!(beside(&[(2, 9, 0, Empty(0)), (2, 9, 1, Empty(0))]));
    let takes = bit(0, false) | bit(1, false);
    assert!(!beside(&[(2, 9, 0, NoneReady(takes, 0))]));
}
