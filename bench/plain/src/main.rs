//! The driver by hand: `plain drive SENDERS RECEIVERS CAPACITY ITEMS` has each sender send this number of items, and
//! prints what
//! `ccq drive` prints. `bench/drive.py` times both.
mod driver;

fn main() {
    let words: Vec<String> = std::env::args().skip(1).collect();
    let [mode, numbers @ ..] = &words[..] else { panic!("plain drive SENDERS RECEIVERS CAPACITY ITEMS") };
    let numbers: Vec<u64> = numbers.iter().map(|n| n.parse().expect("a number")).collect();
    let &[senders, receivers, capacity, items] = &numbers[..] else { panic!("four numbers") };
    assert_eq!(mode, "drive", "no such mode");
    driver::drive(senders as usize, receivers as usize, capacity as usize, items);
}
