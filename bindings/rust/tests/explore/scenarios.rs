//! Reads scenarios, and runs them.
use crate::rounds::rounds;
use std::collections::VecDeque;
use std::mem::take;
use std::pin::pin;
use std::sync::atomic::{AtomicU64, Ordering::SeqCst};
use std::sync::{Arc, Mutex};
use std::task::{Context, Poll, Waker};
use std::time::{Duration, Instant};
use std::{array, env};
use vahepito::explore::{Process, Search, World, explore, thread};
use vahepito::{
    Receiver, Select, SelectedOperation, Sender, channel, forget_thread, groups, try_unbounded,
    use_lines,
};

/// A send or a take of the channel at this index.
#[derive(Clone, Copy, PartialEq)]
struct Operation {
    channel: usize,
    sends: bool,
}

/// What one process does: a way to make one of its operations, and how often.
#[derive(Clone)]
struct Actor {
    way: String,
    operations: Vec<Operation>,
    times: usize,
}

/// The ends of two channels, which are one channel of two groups if the scenario says so.
#[derive(Clone, Default)]
struct Ends {
    senders: Vec<Sender<u64>>,
    /// One that a process drops is that of this process alone.
    receivers: [Option<Receiver<u64>>; 2],
    /// How many items were sent to each channel for certain, how many were maybe, and how many were taken.
    counts: Arc<[[AtomicU64; 2]; 3]>,
    /// For which operations each process waits now.
    waits: Arc<Mutex<Vec<Vec<Operation>>>>,
}

const SENT: usize = 0;
const MAYBE: usize = 1;
const TAKEN: usize = 2;

/// It may be over at any moment.
const TIME: Duration = Duration::from_secs(9);

/// An operation that was made; or that was refused, since its channel is closed.
type Ended = Option<(Operation, bool)>;

impl Ends {
    fn open(capacity: &str) -> Ends {
        let mut ends = Ends::default();
        let number = |text: &str| text.parse().expect("a capacity");
        if let Some(capacity) = capacity.strip_prefix("groups") {
            let (sender, receivers) = groups(number(capacity), 2).unwrap();
            ends.senders = vec![sender; 2];
            ends.receivers = array::from_fn(|at| Some(receivers[at].clone()));
            return ends;
        }
        for receiver in &mut ends.receivers {
            let opened = match capacity {
                "unbounded" => try_unbounded(),
                capacity => channel(number(capacity)),
            };
            let (sender, other) = opened.unwrap();
            ends.senders.push(sender);
            *receiver = Some(other);
        }
        ends
    }

    fn receiver(&self, at: usize) -> &Receiver<u64> {
        self.receivers[at].as_ref().expect("the process has it")
    }

    /// Adds these operations to a select.
    fn select<'a>(&'a self, operations: &[Operation]) -> Select<'a> {
        let mut select = Select::new_biased();
        for &Operation { channel, sends } in operations {
            match sends {
                true => select.send(&self.senders[channel]),
                false => select.recv(self.receiver(channel)),
            };
        }
        select
    }

    /// Completes a selected operation; or drops it, if it is a send and is given up.
    fn complete(&self, actor: &Actor, selected: SelectedOperation) -> Ended {
        let operation = actor.operations[selected.index()];
        if !operation.sends {
            let taken = selected.recv(self.receiver(operation.channel));
            return Some((operation, taken.is_ok()));
        }
        if actor.way.starts_with("give-up") {
            return None;
        }
        let sent = selected.send(&self.senders[operation.channel], 1);
        Some((operation, sent.is_ok()))
    }

    /// Does once what this actor does.
    fn act(&mut self, actor: &Actor) -> Ended {
        let first @ Operation { channel, sends } = actor.operations[0];
        if actor.way == "drop" {
            self.receivers[channel] = None;
            return None;
        }
        let (sender, receiver) = (&self.senders[channel], || self.receiver(channel));
        let mut select = self.select(&actor.operations);
        let ended = |is_done| Some((first, is_done));
        let maybe = |is_done: bool| is_done.then_some((first, true));
        let context = &mut Context::from_waker(Waker::noop());
        match (actor.way.as_str(), sends) {
            ("call", true) => ended(sender.send(1).is_ok()),
            ("call", false) => ended(receiver().recv().is_ok()),
            ("call-in-time", true) => maybe(sender.send_timeout(1, TIME).is_ok()),
            ("call-in-time", false) => maybe(receiver().recv_timeout(TIME).is_ok()),
            ("try", true) => maybe(sender.try_send(1).is_ok()),
            ("try", false) => maybe(receiver().try_recv().is_ok()),
            // The task is dropped after two polls.
            ("poll", true) => {
                let mut send = pin!(sender.send_async(1));
                let mut polls = (0..2).map(|_| send.as_mut().poll(context));
                let sent = polls.find(Poll::is_ready);
                self.counts[MAYBE][channel].fetch_add(sent.is_none().into(), SeqCst);
                maybe(sent == Some(Poll::Ready(Ok(()))))
            }
            ("poll", false) => {
                let mut take = pin!(receiver().recv_async());
                let mut polls = (0..2).map(|_| take.as_mut().poll(context));
                maybe(polls.find(Poll::is_ready) == Some(Poll::Ready(Ok(1))))
            }
            ("batch", true) => {
                let mut items = VecDeque::from([1, 1]);
                let is_done = sender.send_many(&mut items).is_ok();
                let others = 2 - items.len() as u64 - u64::from(is_done);
                self.counts[SENT][channel].fetch_add(others, SeqCst);
                ended(is_done)
            }
            ("batch", false) => {
                let taken = receiver().recv_many(&mut vec![], 2) as u64;
                self.counts[TAKEN][channel].fetch_add(taken.saturating_sub(1), SeqCst);
                ended(taken > 0)
            }
            ("select" | "give-up", _) => self.complete(actor, select.select()),
            ("select-in-time" | "give-up-in-time", _) => {
                let selected = select.select_timeout(TIME).ok()?;
                self.complete(actor, selected)
            }
            ("look", _) => {
                select.ready();
                None
            }
            ("look-in-time", _) => {
                let _ = select.ready_timeout(TIME);
                None
            }
            ("look-now", _) => {
                let before = thread::parks();
                let _ = select.try_ready();
                assert_eq!(thread::parks(), before, "a look now doesn't wait");
                None
            }
            ("close", _) => {
                sender.close();
                None
            }
            (way, _) => panic!("no process does this: {way}"),
        }
    }

    /// Counts a call. One that isn't done ends only if its channel is closed.
    fn count(&self, (Operation { channel, sends }, is_done): (Operation, bool)) {
        let is_right = is_done || self.senders[channel].is_closed();
        assert!(is_right, "a call of an open channel ends");
        let what = if sends { SENT } else { TAKEN };
        self.counts[what][channel].fetch_add(is_done.into(), SeqCst);
    }

    /// What a process does.
    fn process(mut self, number: usize, actor: Actor, kept: Kept) -> Process {
        Box::new(move || {
            forget_thread();
            for _ in 0..actor.times {
                self.waits.lock().unwrap()[number].clone_from(&actor.operations);
                let ended = self.act(&actor);
                self.waits.lock().unwrap()[number].clear();
                ended.into_iter().for_each(|it| self.count(it));
            }
            assert!(!thread::has_stray_token(), "a wait leaves a token");
            kept.lock().unwrap().push(self);
        })
    }

    /// Whether this operation is ready: of an item or room; with capacity 0, of another process that waits.
    fn is_ready(&self, who: usize, it: Operation) -> bool {
        let (sender, sends) = (&self.senders[it.channel], !it.sends);
        let waits = self.waits.lock().unwrap();
        let mut others = waits.iter().enumerate().filter(|&(at, _)| at != who);
        match sender.capacity() {
            Some(0) => others.any(|(_, other)| other.contains(&Operation { sends, ..it })),
            capacity if it.sends => capacity.is_none_or(|it| sender.len() < it),
            _ => !self.receiver(it.channel).is_empty(),
        }
    }

    /// Once no other process continues: none waits for what is ready. Then the channels are closed, so that each
    /// process ends.
    fn close(self) {
        let waits = self.waits.lock().unwrap().clone();
        for (who, operations) in waits.iter().enumerate() {
            let is_missed = operations.iter().any(|&it| self.is_ready(who, it));
            assert!(!is_missed, "process {who} waits for what is ready");
        }
        for sender in &self.senders {
            sender.close();
        }
    }

    /// Each item that was sent was taken, or is left.
    fn check(&self) {
        let is_one = self.senders[0].same_channel(&self.senders[1]);
        for (channel, receiver) in self.receivers.iter().enumerate() {
            let Some(receiver) = receiver else { continue };
            let of = |what: usize, at: usize| self.counts[what][at].load(SeqCst);
            let sender = if is_one { 0 } else { channel };
            let (sent, maybe) = (of(SENT, sender), of(MAYBE, sender));
            let got = of(TAKEN, channel) + receiver.try_iter().count() as u64;
            let is_right = (sent..=sent + maybe).contains(&got);
            assert!(is_right, "{sent} sent, {maybe} maybe, {got} got");
        }
    }
}

/// What processes leave, which is dropped once all are done.
type Kept = Arc<Mutex<Vec<Ends>>>;

/// The processes of a scenario.
fn world(capacity: &str, actors: &[Actor], is_used: bool) -> World {
    let (mut ends, kept) = (Ends::open(capacity), Kept::default());
    if is_used {
        ends.senders.iter().for_each(use_lines);
    }
    ends.waits = Arc::new(Mutex::new(vec![vec![]; actors.len()]));
    let drops = actors.iter().find(|it| it.way == "drop");
    let mut own = ends.clone();
    if let Some(drops) = drops {
        ends.receivers[drops.operations[0].channel] = None;
    }
    let mut processes: Vec<Process> = vec![];
    for (at, actor) in actors.iter().enumerate() {
        let of_actor = if actor.way == "drop" {
            take(&mut own)
        } else {
            ends.clone()
        };
        processes.push(of_actor.process(at, actor.clone(), kept.clone()));
    }
    drop(own);
    let closes = ends.clone();
    processes.push(Box::new(|| closes.close()));
    let check = move || {
        ends.check();
        drop(kept);
    };
    (processes, Box::new(check))
}

/// Reads a process: its way, its operations, and how often it makes one.
fn actor(text: &str) -> Actor {
    let mut words = text.split_whitespace();
    let mut actor = Actor {
        way: words.next().expect("a way").to_string(),
        operations: vec![],
        times: 1,
    };
    for word in words {
        match word.strip_prefix('x') {
            Some(times) => actor.times = times.parse().expect("a number"),
            None => actor.operations.push(Operation {
                channel: "ab".find(&word[..1]).expect("a channel"),
                sends: word.ends_with('+'),
            }),
        }
    }
    actor
}

/// Searches a scenario, with each of its capacities.
fn run(text: &str, search: Search, is_used: bool) {
    let (capacities, actors) = text.split_once(':').expect("a colon");
    let all: Vec<Actor> = actors.split('|').map(actor).collect();
    for capacity in capacities.split_whitespace() {
        let begin = Instant::now();
        let told = explore(search, || world(capacity, &all, is_used));
        let (whole, time) = (if told.is_whole { "all" } else { "some" }, begin.elapsed());
        let (runs, [missed, mixed]) = (told.runs, [told.missed, told.mixed]);
        println!(
            "{capacity}:{actors}: {whole}, {runs} runs, {time:.1?}, missed {missed}, mixed {mixed}"
        );
    }
}

pub fn main() {
    let (mut is_used, mut wanted, mut own) = (false, vec![], vec![]);
    let mut search = Search {
        bound: 1,
        has_buffers: false,
        is_strict: true,
        is_random: false,
        runs: u64::MAX,
    };
    for word in env::args().skip(1) {
        let (key, value) = word.split_once('=').unwrap_or((&word, ""));
        let number = || value.parse().expect("a number");
        match key {
            "bound" => search.bound = number(),
            "processors" => thread::PROCESSORS.store(number(), SeqCst),
            "samples" => (search.is_random, search.runs) = (true, rounds(number() as u64)),
            "scenario" => own.push(value.to_string()),
            "buffers" => search.has_buffers = true,
            "used" => is_used = true,
            _ => wanted.push(word),
        }
    }
    // The first waiter of all may be missed, if stores wait and the lines weren't used.
    search.is_strict = is_used || !search.has_buffers;
    own.iter().for_each(|it| run(it, search, is_used));
    let is_wanted = |text: &&str| wanted.iter().all(|it| text.contains(it));
    let all = include_str!("scenarios.txt").lines();
    let all = all.filter(|it| own.is_empty() && it.contains(':') && !it.starts_with('#'));
    all.filter(is_wanted)
        .for_each(|it| run(it, search, is_used));
}
