//! Scenarios of a few threads, which run in every schedule of up to some preemptions: see `schedule.rs`.
//!
//! ```text
//! RUSTFLAGS='--cfg vahepito_explore --cfg vahepito_unproved' cargo test --test explore -- [WORD..]
//! ```
//!
//! It searches each scenario of `scenarios.txt` that has all these words, or `scenario=` and a line as there. These
//! words change the search: `bound=N` is the most preemptions, 1 if nothing is said; `samples=N` runs so many random
//! schedules in the place of all, or as many of a hundred as `VAHEPITO_ROUNDS` says; `buffers` lets stores wait in
//! buffers; `used` has each call give its seat back by an exchange, as once a call was parked.
#[cfg(vahepito_explore)]
#[path = "../../src/channel/rounds.rs"]
mod rounds;
#[cfg(vahepito_explore)]
mod scenarios;

#[cfg(vahepito_explore)]
fn main() {
    scenarios::main();
}

#[cfg(not(vahepito_explore))]
fn main() {}
