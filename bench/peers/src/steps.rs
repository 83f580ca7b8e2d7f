//! The queue's atomic steps by hand: the same words in the same slots, sequentially consistent, with nothing proved;
//! and the queue of them that is timed, which waits as that of the exports does.
use crate::exports::Backoff;
use crate::queues::{self, Ends};
use std::hint::black_box;
use std::sync::Arc;
use std::sync::atomic::{AtomicU64, AtomicUsize, Ordering::SeqCst};

const LAST: usize = 32;
const SHUT: usize = 33;
const COUNT: usize = 34;
const CURSOR: usize = 35;
const HEAD: usize = 64;
const TAKEN: usize = 65;
const NODES: usize = 80;
const CODE: u64 = 1 << 56;

/// The table of one queue.
pub struct Queue {
    words: Box<[AtomicU64]>,
    take_nodes: usize,
    items: usize,
    capacity: u64,
    bound: u32,
    life: u64,
}

/// The fields of a chain's node, which have another order on the other side.
#[derive(Clone, Copy)]
struct Chain {
    tail: usize,
    nodes: usize,
    ret: usize,
    tag: usize,
    body: usize,
}

pub struct Sender {
    number: u64,
    begun: u64,
    node: u64,
}

pub struct Receiver {
    node: u64,
}

#[derive(PartialEq)]
pub enum Sent {
    Accepted,
    Full,
    Refused,
}

pub enum Taken {
    Got(u64),
    Empty,
    Ended,
}

impl Queue {
    pub fn open(
        senders: usize,
        receivers: usize,
        capacity: u64,
        bound: u32,
    ) -> (Self, Vec<Sender>, Vec<Receiver>) {
        let take_nodes = NODES + 16 * (senders + 1);
        let items = take_nodes + 16 * (receivers + 1);
        let words: Box<[AtomicU64]> = (0..items + 8 * (capacity as usize + 2))
            .map(|_| AtomicU64::new(0))
            .collect();
        let queue = Queue {
            words,
            take_nodes,
            items,
            capacity,
            bound,
            life: 1 << 48,
        };
        for at in [16, LAST, 48, HEAD] {
            queue.store(at, 1);
        }
        queue.store(CURSOR, 1);
        for node in 1..=capacity {
            queue.store(queue.item(node) + 3, 1);
        }
        let senders = (1..=senders as u64)
            .map(|number| Sender {
                number,
                begun: 0,
                node: number,
            })
            .collect();
        let receivers = (1..=receivers as u64)
            .map(|node| Receiver { node })
            .collect();
        (queue, senders, receivers)
    }

    fn load(&self, at: usize) -> u64 {
        self.words[at].load(SeqCst)
    }

    fn store(&self, at: usize, value: u64) {
        self.words[at].store(value, SeqCst)
    }

    fn item(&self, node: u64) -> usize {
        self.items + 8 * node as usize
    }

    fn sends(&self) -> Chain {
        Chain {
            tail: 16,
            nodes: NODES,
            tag: 2,
            body: 3,
            ret: 4,
        }
    }

    fn takes(&self) -> Chain {
        Chain {
            tail: 48,
            nodes: self.take_nodes,
            ret: 2,
            tag: 3,
            body: 4,
        }
    }

    /// From the reset of the own node to its exchange.
    fn enter(&self, chain: Chain, own: u64) -> u64 {
        let at = chain.nodes + 16 * own as usize;
        self.store(at, 0);
        self.store(at + 1, 1);
        self.words[chain.tail].swap(own + 1, SeqCst) - 1
    }

    /// Waits for the state of the node, and serves where it is 0.
    fn wait(&self, chain: Chain, node: u64, serve: impl Fn(&Self, usize)) {
        let at = chain.nodes + 16 * node as usize;
        let mut backoff = Backoff::default();
        loop {
            match self.load(at + 1) {
                0 => return self.combine(chain, node, serve),
                1 => backoff.between_turns(),
                _ => return,
            }
        }
    }

    fn combine(&self, chain: Chain, node: u64, serve: impl Fn(&Self, usize)) {
        let mut at = chain.nodes + 16 * node as usize;
        for _ in 0..self.bound {
            let next = self.load(at);
            if next == 0 {
                break;
            }
            serve(self, at);
            self.store(at + 1, 2);
            at = chain.nodes + 16 * (next as usize - 1);
        }
        self.store(at + 1, 0);
    }

    fn serve_send(&self, at: usize) {
        let tag = self.load(at + 2);
        let body = self.load(at + 3);
        if self.load(SHUT) != 0 {
            let told = if tag == 0 {
                6 * CODE + self.load(COUNT)
            } else {
                3 * CODE
            };
            return self.store(at + 4, told);
        }
        let count = self.load(COUNT);
        if tag == 0 {
            let mark = self.capacity + 1;
            let last = self.load(LAST) - 1;
            self.store(self.item(last) + 2, mark + 1);
            self.store(LAST, mark + 1);
            self.store(SHUT, 1);
            return self.store(at + 4, 5 * CODE + count);
        }
        if count == self.life {
            return self.store(at + 4, 4 * CODE);
        }
        let nodes = self.capacity + 1;
        let mut node = self.load(CURSOR);
        for _ in 0..nodes {
            if self.load(self.item(node) + 3) == 1 {
                self.append(node, tag, body, count);
                return self.store(at + 4, CODE + count);
            }
            node = (node + 1) % nodes;
        }
        self.store(at + 4, 2 * CODE)
    }

    fn append(&self, node: u64, tag: u64, body: u64, count: u64) {
        let item = self.item(node);
        self.store(item + 3, 0);
        self.store(item + 2, 0);
        self.store(item, tag);
        self.store(item + 1, body);
        let last = self.load(LAST) - 1;
        self.store(self.item(last) + 2, node + 1);
        self.store(LAST, node + 1);
        self.store(COUNT, count + 1);
        self.store(CURSOR, (node + 1) % (self.capacity + 1));
    }

    fn serve_take(&self, at: usize) {
        let dummy = self.load(HEAD) - 1;
        let taken = self.load(TAKEN);
        let next = self.load(self.item(dummy) + 2);
        if next == 0 {
            return self.store(at + 2, 2 * CODE);
        }
        let item = self.item(next - 1);
        let tag = self.load(item);
        if tag == 0 {
            return self.store(at + 2, 3 * CODE + taken);
        }
        let body = self.load(item + 1);
        self.store(HEAD, next);
        self.store(TAKEN, taken + 1);
        self.words[self.item(dummy) + 3].fetch_add(1, SeqCst);
        self.store(at + 2, CODE + taken);
        self.store(at + 3, tag);
        self.store(at + 4, body);
    }

    fn request(&self, sender: &mut Sender, tag: u64, body: u64) -> u64 {
        let chain = self.sends();
        let own = sender.node;
        let got = self.enter(chain, own);
        let at = chain.nodes + 16 * got as usize;
        self.store(at + chain.tag, tag);
        self.store(at + chain.body, body);
        self.store(at, own + 1);
        sender.node = got;
        self.wait(chain, got, Self::serve_send);
        self.load(at + chain.ret)
    }

    pub fn send(&self, sender: &mut Sender, body: u64) -> Sent {
        sender.begun += 1;
        let ret = self.request(sender, sender.number << 32 | sender.begun, body);
        match ret / CODE {
            1 => Sent::Accepted,
            2 => Sent::Full,
            _ => Sent::Refused,
        }
    }

    pub fn close(&self, sender: &mut Sender) {
        self.request(sender, 0, 0);
    }

    pub fn take(&self, receiver: &mut Receiver) -> Taken {
        let chain = self.takes();
        let own = receiver.node;
        let got = self.enter(chain, own);
        let at = chain.nodes + 16 * got as usize;
        self.store(at, own + 1);
        receiver.node = got;
        self.wait(chain, got, Self::serve_take);
        let ret = self.load(at + chain.ret);
        match ret / CODE {
            1 => {
                let tag = self.load(at + chain.tag);
                let body = self.load(at + chain.body);
                black_box(tag);
                Taken::Got(body)
            }
            2 => Taken::Empty,
            _ => Taken::Ended,
        }
    }
}

/// The queue of these steps.
pub struct ByHand;

/// A sender of it. The last one that is dropped closes the queue.
pub struct HandSender {
    queue: Arc<Queue>,
    pass: Sender,
    left: Arc<AtomicUsize>,
}

pub struct HandReceiver {
    queue: Arc<Queue>,
    pass: Receiver,
}

impl Drop for HandSender {
    fn drop(&mut self) {
        if self.left.fetch_sub(1, SeqCst) == 1 {
            self.queue.close(&mut self.pass);
        }
    }
}

impl queues::Queue for ByHand {
    type Sender = HandSender;
    type Receiver = HandReceiver;
    fn open(senders: usize, receivers: usize, capacity: usize, bound: u32) -> Ends<Self> {
        let (queue, sends, takes) = Queue::open(senders, receivers, capacity as u64, bound);
        let (queue, left) = (Arc::new(queue), Arc::new(AtomicUsize::new(senders)));
        let sender = |pass| HandSender {
            queue: queue.clone(),
            pass,
            left: left.clone(),
        };
        let receiver = |pass| HandReceiver {
            queue: queue.clone(),
            pass,
        };
        (
            sends.into_iter().map(sender).collect(),
            takes.into_iter().map(receiver).collect(),
        )
    }
    fn send(sender: &mut HandSender, body: u64) {
        let mut backoff = Backoff::default();
        while !Self::try_send(sender, body) {
            backoff.between_tries();
        }
    }
    fn recv(receiver: &mut HandReceiver) -> Option<u64> {
        let mut backoff = Backoff::default();
        loop {
            match receiver.queue.take(&mut receiver.pass) {
                Taken::Got(body) => return Some(body),
                Taken::Empty => backoff.between_tries(),
                Taken::Ended => return None,
            }
        }
    }
    fn try_send(sender: &mut HandSender, body: u64) -> bool {
        sender.queue.send(&mut sender.pass, body) == Sent::Accepted
    }
    fn try_recv(receiver: &mut HandReceiver) -> Option<u64> {
        match receiver.queue.take(&mut receiver.pass) {
            Taken::Got(body) => Some(body),
            Taken::Empty | Taken::Ended => None,
        }
    }
}
