//! Calls of threads over tiny queues that are replaced, and over rows of such queues, recorded as logs for `ccq judge`.
use super::rounds::rounds;
use super::row_tests::{SMALL, small};
use super::*;
use std::path::PathBuf;
use std::thread;
use std::time::{Duration, Instant};

const THREADS: u64 = 4;
const TIME: Duration = Duration::from_micros(20);

/// The lines of a thread's calls.
struct Lines {
    thread: String,
    start: Instant,
    text: String,
}

impl Lines {
    fn new(side: &str, number: u64, start: Instant) -> Lines {
        Lines {
            thread: format!("{side}{number}"),
            start,
            text: String::new(),
        }
    }

    /// Makes a call, and writes its line with what `says` has of its result.
    fn call<R>(&mut self, call: impl FnOnce() -> R, says: impl FnOnce(&R) -> String) -> R {
        let begin = self.start.elapsed().as_nanos();
        let result = call();
        let end = self.start.elapsed().as_nanos();
        let (thread, says) = (&self.thread, says(&result));
        self.text += &format!(r#"{{"thread":"{thread}","begin":{begin},"end":{end},{says}}}"#);
        self.text.push('\n');
        result
    }
}

/// Tries to send, or sends within this time. The error is whether the channel was full.
pub fn send<T>(sender: &Sender<T>, item: T, time: Option<Duration>) -> Result<(), bool> {
    match time {
        None => sender.try_send(item).map_err(|it| it.is_full()),
        Some(time) => sender
            .send_timeout(item, time)
            .map_err(|it| it.is_timeout()),
    }
}

/// Tries to take, or takes within this time. The error is whether the channel was empty.
pub fn take<T>(receiver: &Receiver<T>, time: Option<Duration>) -> Result<T, bool> {
    match time {
        None => receiver.try_recv().map_err(|it| it.is_empty()),
        Some(time) => receiver.recv_timeout(time).map_err(|it| it.is_timeout()),
    }
}

/// The time of every fourth call.
fn time(number: u64) -> Option<Duration> {
    (number % 4 == 0).then_some(TIME)
}

/// Sends this number of items, each of them again while the channel is full. Every fourth try has a short time.
fn send_all(mut lines: Lines, sender: &Sender<u64>, number: u64, count: u64) -> String {
    for item in (0..count).map(|item| number << 32 | item) {
        let says = |sent: &Result<(), bool>| match sent {
            Ok(()) => format!(r#""send":{item}"#),
            Err(true) => format!(r#""send":{item},"answer":"full""#),
            Err(false) => format!(r#""send":{item},"answer":"closed""#),
        };
        while lines.call(|| send(sender, item, time(item)), says).is_err() {
            thread::yield_now();
        }
    }
    lines.text
}

/// Takes until the channel is closed and empty. Returns how many items were taken, too. Every fourth try has a short
/// time.
fn take_all(mut lines: Lines, receiver: &Receiver<u64>) -> (String, u64) {
    let says = |taken: &Result<u64, bool>| match taken {
        Ok(item) => format!(r#""take":{item}"#),
        Err(true) => r#""take":null"#.to_string(),
        Err(false) => r#""take":null,"answer":"ended""#.to_string(),
    };
    let mut count = 0;
    for number in 0.. {
        match lines.call(|| take(receiver, time(number)), says) {
            Ok(_) => count += 1,
            Err(true) => thread::yield_now(),
            Err(false) => break,
        }
    }
    (lines.text, count)
}

/// The log of each group, of threads that pass items, where the channel is closed once all items were sent. A send that
/// one group holds up isn't in the log of another one: of several groups, only the sends that were made are there.
fn record(channel: (Sender<u64>, Vec<Receiver<u64>>), count: u64) -> Vec<String> {
    let ((sender, receivers), start) = (&channel, Instant::now());
    thread::scope(|scope| {
        let senders = (0..THREADS).map(|number| {
            let lines = Lines::new("s", number, start);
            scope.spawn(move || send_all(lines, sender, number, count))
        });
        let senders: Vec<_> = senders.collect();
        let takes = receivers.iter().map(|receiver| {
            let takes = (0..THREADS).map(|number| {
                let lines = Lines::new("r", number, start);
                scope.spawn(move || take_all(lines, receiver))
            });
            takes.collect::<Vec<_>>()
        });
        let takes: Vec<_> = takes.collect();
        let mut sent: String = senders.into_iter().map(|it| it.join().unwrap()).collect();
        let mut last = Lines::new("c", 0, start);
        assert!(last.call(|| sender.close(), |_| r#""close":true"#.to_string()));
        sent += &last.text;
        if receivers.len() > 1 {
            let made = sent.lines().filter(|it| !it.contains("full"));
            sent = made.map(|it| format!("{it}\n")).collect();
        }
        let log = |takes: Vec<thread::ScopedJoinHandle<(String, u64)>>| {
            let takes = takes.into_iter().map(|it| it.join().unwrap());
            let (lines, counts): (String, Vec<u64>) = takes.unzip();
            assert_eq!(counts.iter().sum::<u64>(), THREADS * count);
            format!("{sent}{lines}{{\"ends\":\"whole\"}}\n")
        };
        takes.into_iter().map(log).collect()
    })
}

/// The name of a log is that of its channel and its group, with the capacity behind the last dash, if it has one.
#[test]
#[ignore = "it writes logs for ccq judge into the folder that VAHEPITO_LOGS names"]
fn channels_are_recorded() {
    let folder = PathBuf::from(std::env::var_os("VAHEPITO_LOGS").unwrap());
    let write = |name: &str, capacity: &str, channel| {
        let logs = record(channel, rounds(2000).max(100));
        for (group, log) in logs.into_iter().enumerate() {
            std::fs::write(folder.join(format!("{name}-{group}-{capacity}")), log).unwrap();
        }
    };
    for (number, which) in SMALL.into_iter().enumerate() {
        for (limit, name) in [(None, "none"), (Some(1), "1"), (Some(3), "3")] {
            let (sender, receiver) = small(which, limit);
            write(&format!("row{number}"), name, (sender, vec![receiver]));
        }
        for (groups, kind) in [(1, Kind::alone::<u64>()), (2, Kind::of_groups::<u64>())] {
            let ([capacity, _], life, per_sender) = which;
            let mut config = Config::new(1, 1, capacity);
            (config.life, config.per_sender) = (life.max(9), per_sender.max(9));
            let name = format!("queue{number}of{groups}");
            write(
                &name,
                &capacity.to_string(),
                open(config, groups, kind).unwrap(),
            );
        }
    }
}
