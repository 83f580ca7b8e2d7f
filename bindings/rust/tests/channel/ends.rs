//! Work that may never come back: a thread of its own does the work. How busy the machine is doesn't matter: the work
//! is given up if no thread of the process makes progress.
#[cfg(target_os = "linux")]
use crate::spent::spent_by_all;
use std::sync::mpsc::{self, RecvTimeoutError};
use std::thread;
use std::time::Duration;

/// Another system isn't asked for processor time: so all work has a minute there.
#[cfg(not(target_os = "linux"))]
fn spent_by_all() -> Duration {
    Duration::ZERO
}

/// Does this on a thread of its own. Panics if the work panics, or doesn't come back. After a lost wake-up either all
/// threads of the process wait, and use no processor time to speak of in a minute, or some poll, and use 20 minutes.
pub fn ends<T: Send + 'static>(what: impl FnOnce() -> T + Send + 'static) -> T {
    let (tell, told) = mpsc::channel();
    let thread = thread::spawn(move || tell.send(what()));
    let begin = spent_by_all();
    let mut before = begin;
    let given = loop {
        match told.recv_timeout(Duration::from_secs(60)) {
            Ok(given) => break given,
            Err(RecvTimeoutError::Disconnected) => panic!("the work panics"),
            Err(RecvTimeoutError::Timeout) => {
                let now = spent_by_all();
                let goes_on = now > before + Duration::from_millis(5)
                    && now < begin + Duration::from_secs(1200);
                assert!(goes_on, "the work doesn't come back");
                before = now;
            }
        }
    };
    thread.join().unwrap().unwrap();
    given
}
