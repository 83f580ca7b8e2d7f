//! The processor time of a wait.
use std::sync::Barrier;
use std::thread;
use std::time::Duration;

/// The time from the begin of a wait to its notification.
const WAIT: Duration = Duration::from_millis(400);

/// The answers of two waits on one thread, each notified after `WAIT`. The second wait has to leave the processor to
/// others. The first wait is not measured, since valgrind translates code where the code first runs, in up to 0.4 s.
pub fn parked<R: Send>(wait: impl Fn() -> R + Sync, notify: impl Fn()) -> [R; 2] {
    let begins = Barrier::new(2);
    let waits = || {
        begins.wait();
        let before = ticks();
        let answer = wait();
        (answer, ticks() - before)
    };
    let [(first, _), (second, spent)] = thread::scope(|scope| {
        let waiter = scope.spawn(|| [waits(), waits()]);
        for _ in 0..2 {
            begins.wait();
            thread::sleep(WAIT);
            notify();
        }
        waiter.join().unwrap()
    });
    assert!(spent < 10, "it had {spent} ticks while it waited");
    [first, second]
}

/// The ticks, of a hundredth of a second, that this thread has had. A wait that spins has 40.
fn ticks() -> u64 {
    let stat = std::fs::read_to_string("/proc/thread-self/stat").unwrap();
    let fields = stat.rsplit(')').next().unwrap().split_whitespace();
    let ticks = fields.skip(11).take(2);
    ticks.map(|it| it.parse::<u64>().unwrap()).sum()
}
