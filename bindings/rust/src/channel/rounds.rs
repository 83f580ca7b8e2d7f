//! How many rounds the long tests make, those of the channel and those of `tests/`.

/// Less of everything if `VAHEPITO_ROUNDS` says how many of a hundred rounds are made.
pub fn rounds(all: u64) -> u64 {
    let percent = std::env::var("VAHEPITO_ROUNDS").map_or(100, |it| it.parse().unwrap());
    (all * percent / 100).max(1)
}
