//! Tests of the recorder.
use crate::{Early, Log, SLOTS, Sent, Taken};
use std::fs;
use std::io::{BufRead, BufReader, ErrorKind};
use std::panic::{AssertUnwindSafe, catch_unwind};
use std::path::PathBuf;
use std::process::{Command, Stdio};
use std::sync::atomic::{AtomicBool, Ordering};
use std::thread;
use std::time::{Duration, Instant};

fn path(name: &str) -> PathBuf {
    std::env::temp_dir().join(format!("vahepito record {} {name}", std::process::id()))
}

/// The lines of a log without their times.
fn lines(path: &PathBuf) -> Vec<String> {
    lines_of(&fs::read_to_string(path).expect("the log is there"))
}

fn lines_of(text: &str) -> Vec<String> {
    let without = |line: &str| {
        let parts = line.split(',').filter(|part| !part.contains("begin"));
        let parts = parts.map(|part| {
            if part.starts_with("\"end\"") {
                "end"
            } else {
                part
            }
        });
        parts.collect::<Vec<_>>().join(",")
    };
    text.lines().map(without).collect()
}

#[test]
fn each_kind_of_call_has_its_line() {
    let path = path("kinds");
    let log = Log::create(&path).expect("a file");
    let mut one = log.recorder();
    one.send(7, || Sent::Accepted);
    one.send(u64::MAX, || Sent::Full);
    one.send(9, || Sent::Closed);
    one.take(|| Taken::Item(7));
    one.take(|| Taken::None);
    let unwinds = catch_unwind(AssertUnwindSafe(|| one.take(|| panic!("planted"))));
    assert!(unwinds.is_err());
    one.take(|| Taken::Ended);
    let unwinds = catch_unwind(AssertUnwindSafe(|| one.send(8, || panic!("planted"))));
    assert!(unwinds.is_err());
    log.finish().expect("the file is written");
    let due = [
        r#"{"thread":"0",end,"send":[7]}"#,
        r#"{"thread":"0",end,"send":[18446744073709551615],"answer":"full"}"#,
        r#"{"thread":"0",end,"send":[9],"answer":"closed"}"#,
        r#"{"thread":"0",end,"take":[7]}"#,
        r#"{"thread":"0",end,"take":null}"#,
        r#"{"thread":"0","take":null}"#,
        r#"{"thread":"1",end,"take":null,"answer":"ended"}"#,
        r#"{"thread":"1","send":[8]}"#,
        r#"{"ends":"whole"}"#,
    ];
    assert_eq!(lines(&path), due);
    fs::remove_file(path).expect("it was there");
}

/// A call that hangs is in the file soon, and so are those before it.
#[test]
fn a_call_that_hangs_is_in_the_log() {
    let path = path("hangs");
    let log = Log::create(&path).expect("a file");
    let (mut one, is_over) = (log.recorder(), AtomicBool::new(false));
    thread::scope(|scope| {
        scope.spawn(|| {
            one.send(1, || Sent::Accepted);
            one.send(2, || {
                while !is_over.load(Ordering::SeqCst) {
                    thread::yield_now();
                }
                Sent::Accepted
            });
        });
        let due = [
            r#"{"thread":"0",end,"send":[1]}"#,
            r#"{"thread":"0","send":[2]}"#,
        ];
        let (start, mut seen) = (Instant::now(), lines(&path));
        while seen != due && start.elapsed() < Duration::from_secs(60) {
            thread::sleep(Duration::from_millis(10));
            seen = lines(&path);
        }
        is_over.store(true, Ordering::SeqCst);
        assert_eq!(seen, due);
    });
    log.finish().expect("the file is written");
    assert_eq!(lines(&path)[1], r#"{"thread":"0",end,"send":[2]}"#);
    fs::remove_file(path).expect("it was there");
}

/// More calls than a recorder holds are all written, in order; and none past the limit.
#[test]
fn a_log_of_many_calls() {
    for (limit, all) in [(u64::MAX, true), (20_000, false)] {
        let path = path(if all { "many" } else { "limit" });
        let options = if all {
            Log::options()
        } else {
            Log::options().limit(limit)
        };
        let log = options.create(&path).expect("a file");
        thread::scope(|scope| {
            for thread in 0..3 {
                let mut recorder = log.recorder();
                scope.spawn(move || {
                    for call in 0..10 * SLOTS {
                        recorder.send(3 * call + thread, || Sent::Accepted);
                    }
                });
            }
        });
        match log.finish() {
            Ok(()) => assert!(all),
            Err(early) => assert!(!all && matches!(early, Early::Limit(20_000)), "{early}"),
        }
        let found = lines(&path);
        for thread in 0..3 {
            let name = format!(r#""thread":"{thread}""#);
            let of_one = found.iter().filter(|line| line.contains(&name));
            let calls = of_one.enumerate().map(|(call, line)| {
                let item = 3 * call as u64 + thread;
                assert!(line.ends_with(&format!(r#""send":[{item}]}}"#)), "{line}");
            });
            let calls = calls.count() as u64;
            assert!(if all {
                calls == 10 * SLOTS
            } else {
                calls < 10 * SLOTS
            });
        }
        assert!(fs::metadata(&path).expect("the log is there").len() <= limit);
        fs::remove_file(path).expect("it was there");
    }
}

/// A send that closes, twice, and one that is pending.
#[test]
fn closes_have_their_lines() {
    let path = path("closes");
    let log = Log::create(&path).expect("a file");
    let mut one = log.recorder();
    one.send(7, || Sent::Accepted);
    assert_eq!(one.close(|| 5), 5);
    let unwinds = catch_unwind(AssertUnwindSafe(|| one.close(|| panic!("planted"))));
    assert!(unwinds.is_err());
    one.send(8, || Sent::Closed);
    log.finish().expect("the log is whole");
    let due = [
        r#"{"thread":"0",end,"send":[7]}"#,
        r#"{"thread":"0",end,"close":true}"#,
        r#"{"thread":"0","close":true}"#,
        r#"{"thread":"1",end,"send":[8],"answer":"closed"}"#,
        r#"{"ends":"whole"}"#,
    ];
    assert_eq!(lines(&path), due);
    fs::remove_file(path).expect("it was there");
}

/// The stamps of the lines are those of the clock.
#[test]
fn a_caller_stamps_by_the_clock() {
    let path = path("clock");
    let log = Log::create(&path).expect("a file");
    let (mut one, clock) = (log.recorder(), log.clock());
    let before = clock.now();
    let within = one.close(|| clock.now());
    let after = clock.now();
    log.finish().expect("the log is whole");
    let text = fs::read_to_string(&path).expect("the log is there");
    let stamp = |key: &str| -> u64 {
        let rest = text.split(key).nth(1).expect("the key is there");
        let end = rest.find(',').expect("a number ends");
        rest[..end].parse().expect("a number")
    };
    let (begin, end) = (stamp("\"begin\":"), stamp("\"end\":"));
    assert!(before <= begin && begin <= within && within <= end && end <= after);
    fs::remove_file(path).expect("it was there");
}

/// A disk that is full: the error is that of the first write.
#[test]
fn a_full_disk_ends_the_log_early() {
    for calls in [0, 3 * SLOTS] {
        let log = Log::create("/dev/full").expect("it is there");
        let mut one = log.recorder();
        for item in 0..calls {
            one.send(item, || Sent::Accepted);
        }
        let Err(Early::Write(error)) = log.finish() else {
            panic!("nothing was written");
        };
        assert_eq!(error.kind(), ErrorKind::StorageFull);
    }
}

/// The last line says how a log ends, within the limit; and calls after the end aren't written.
#[test]
fn a_log_says_how_it_ends() {
    for (limit, due) in [
        (u64::MAX, "whole"),
        (20_000, "early"),
        (17, "early"),
        (5, ""),
    ] {
        let path = path(&format!("ends {limit}"));
        let log = Log::options().limit(limit).create(&path).expect("a file");
        let mut one = log.recorder();
        for item in 0..10 * SLOTS {
            one.send(item, || Sent::Accepted);
        }
        match log.finish() {
            Ok(()) => assert_eq!(due, "whole"),
            Err(Early::Limit(bytes)) => assert!(bytes == limit && due != "whole"),
            Err(Early::Write(error)) => panic!("{error}"),
        }
        for item in 0..2 * SLOTS {
            one.send(item, || Sent::Accepted);
        }
        drop(one);
        let text = fs::read_to_string(&path).expect("the log is there");
        // A limit below that line's length leaves no line.
        let last = format!("{{\"ends\":\"{due}\"}}\n");
        let is_empty = due.is_empty() && text.is_empty();
        assert!(text.ends_with(&last) || is_empty, "{text}");
        assert!(text.len() as u64 <= limit);
        assert_eq!(
            text.lines().count() == 1 + 10 * SLOTS as usize,
            due == "whole"
        );
        fs::remove_file(path).expect("it was there");
    }
}

/// The test of a program that is killed is this program's other part: it makes some calls, waits for some rounds, and hangs in a
/// call. It is another program's child, or it does nothing.
const CHILD: &str = "VAHEPITO_RECORD_CHILD";
const CALLS: u64 = 1000;

#[test]
fn killed_child() {
    let Some(path) = std::env::var_os(CHILD) else {
        return;
    };
    let log = Log::create(path).expect("a file");
    let mut one = log.recorder();
    for item in 0..CALLS {
        one.send(item, || Sent::Accepted);
    }
    thread::sleep(Duration::from_secs(1));
    one.take(|| {
        println!("hangs");
        loop {
            thread::sleep(Duration::from_secs(60));
        }
    });
}

/// Starts the child, and kills it in its last call.
fn kill_child(path: &PathBuf) {
    let mut child = Command::new(std::env::current_exe().expect("it has a name"))
        .args(["--exact", "tests::killed_child", "--nocapture"])
        .env(CHILD, path)
        .stdout(Stdio::piped())
        .spawn()
        .expect("this program starts");
    let out = BufReader::new(child.stdout.take().expect("it has an output"));
    let hangs = out
        .lines()
        .any(|line| line.expect("a line").ends_with("hangs"));
    child.kill().expect("it runs");
    child.wait().expect("it was killed");
    assert!(hangs);
}

/// Of a program that is killed all calls are there that ended before the last round, and no last line says that the log
/// is whole.
#[test]
fn a_killed_program_leaves_its_calls() {
    let path = path("killed");
    kill_child(&path);
    let mut found = lines(&path);
    // The call that hangs may have begun after the last round.
    if found.len() as u64 > CALLS {
        assert_eq!(
            found.pop().as_deref(),
            Some(r#"{"thread":"0","take":null}"#)
        );
    }
    let due: Vec<String> = (0..CALLS)
        .map(|item| format!(r#"{{"thread":"0",end,"send":[{item}]}}"#))
        .collect();
    assert_eq!(found, due);
    fs::remove_file(path).expect("it was there");
}

/// A new pipe with a name, and what is read from it.
fn pipe(name: &str) -> (PathBuf, thread::JoinHandle<String>) {
    let path = path(name);
    let made = Command::new("mkfifo").arg(&path).status();
    assert!(made.expect("mkfifo starts").success());
    let its = path.clone();
    let read = thread::spawn(move || fs::read_to_string(its).expect("whole characters"));
    (path, read)
}

/// A pipe gets each call once: a pending one at the end, or if the program is killed not at all.
#[test]
fn a_pipe_gets_whole_lines() {
    let (path, read) = pipe("pipe");
    let log = Log::create(&path).expect("a pipe");
    let mut one = log.recorder();
    let due = |item| format!(r#"{{"thread":"0",end,"send":[{item}]}}"#);
    for item in 0..3 * SLOTS {
        one.send(item, || Sent::Accepted);
    }
    let unwinds = catch_unwind(AssertUnwindSafe(|| one.take(|| panic!("planted"))));
    assert!(unwinds.is_err());
    thread::sleep(Duration::from_millis(300));
    log.finish().expect("the pipe is read");
    drop(one);
    let mut all: Vec<String> = (0..3 * SLOTS).map(due).collect();
    let pending = r#"{"thread":"0","take":null}"#;
    all.extend([pending.into(), r#"{"ends":"whole"}"#.into()]);
    assert_eq!(lines_of(&read.join().expect("it was read")), all);
    fs::remove_file(path).expect("it was there");

    let (path, read) = pipe("killed pipe");
    kill_child(&path);
    let text = read.join().expect("it was read");
    assert_eq!(lines_of(&text), (0..CALLS).map(due).collect::<Vec<_>>());
    assert!(text.ends_with('\n'));
    fs::remove_file(path).expect("it was there");
}

/// If the reader of a pipe is gone, the log ends early, and says so to its caller alone.
#[test]
fn a_pipe_without_a_reader_ends_the_log() {
    let path = path("left pipe");
    let made = Command::new("mkfifo").arg(&path).status();
    assert!(made.expect("mkfifo starts").success());
    let its = path.clone();
    let left = thread::spawn(move || drop(fs::File::open(its)));
    let log = Log::create(&path).expect("a pipe");
    left.join().expect("it has left");
    let mut one = log.recorder();
    for item in 0..3 * SLOTS {
        one.send(item, || Sent::Accepted);
    }
    match log.finish() {
        Err(Early::Write(error)) => assert_eq!(error.kind(), ErrorKind::BrokenPipe),
        other => panic!("{other:?}"),
    }
    fs::remove_file(path).expect("it was there");
}

/// Threads are stopped, and system calls of theirs go on.
#[cfg(feature = "stops")]
#[test]
fn threads_are_stopped_in_their_calls() {
    let path = path("stops");
    let log = Log::create(&path).expect("a file");
    let stops = log.stop_threads().expect("no other handler is there");
    let again = log.stop_threads().expect("the handler is its own");
    let (start, mut longest) = (Instant::now(), Duration::ZERO);
    let mut one = log.recorder();
    let missing = || fs::metadata("/nowhere/at/all").map_err(|error| error.kind());
    let mut items = 0..;
    let is_stopped = |longest| stops.count() > 10 && longest > Duration::from_micros(20);
    while !is_stopped(longest) && start.elapsed() < Duration::from_secs(60) {
        let before = Instant::now();
        one.send(items.start, || {
            assert_eq!(missing().err(), Some(ErrorKind::NotFound));
            Sent::Accepted
        });
        longest = longest.max(before.elapsed());
        items.start += 1;
    }
    assert!(is_stopped(longest), "{stops:?}, {longest:?}");
    drop((stops, again));
    log.finish().expect("the log is whole");
    assert_eq!(lines(&path).len() as u64, items.start + 1);
    fs::remove_file(path).expect("it was there");
}
