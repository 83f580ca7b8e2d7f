//! The configuration of a queue.

/// The configuration of a queue, as the library reads it.
#[derive(Clone, Copy)]
#[repr(C)]
pub struct Config {
    /// The number of senders, 1 to 64.
    pub senders: u32,
    /// The number of receivers, 1 to 64; if there are several groups of them, the number in each.
    pub receivers: u32,
    /// How many items the queue holds at once, 1 to 4,096.
    pub capacity: u32,
    /// How many calls one turn serves at most before it hands over to the next in line, 1 to 1,024.
    /// Below half of the senders or receivers, the next in line often doesn't run at the
    /// moment, and its side waits for it.
    pub bound: u32,
    /// How many items the queue accepts in all, 1 to 2^48.
    pub life: u64,
    /// How many sends each sender begins at most, at least 1. A send that finds no room counts too.
    pub per_sender: u32,
}

impl Config {
    /// These numbers of senders, receivers, and items at once; a bound of 64, which is no less than the
    /// handles of any side, and the longest life: 2^48 items, and 2^32 - 1 sends of each sender.
    pub const fn new(senders: u32, receivers: u32, capacity: u32) -> Config {
        Config {
            senders,
            receivers,
            capacity,
            bound: 64,
            life: 1 << 48,
            per_sender: u32::MAX,
        }
    }
}
