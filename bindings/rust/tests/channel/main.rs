//! The calls of a channel, by threads and by tasks. One program has these tests, which is linked
//! faster than one for each file.
mod calls;
mod ends;
mod foreign;
mod futures;
mod parking;
mod polling;
mod rendezvous;
#[path = "../../src/channel/rounds.rs"]
mod rounds;
mod select;
#[cfg(target_os = "linux")]
#[path = "../spent/mod.rs"]
mod spent;
mod user_code;
mod waits;
