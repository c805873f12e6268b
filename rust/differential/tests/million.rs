//! A million random calls of both kits, over all calls and all that they can answer.
//!
//! ```text
//! cargo test -p differential --test million -- SEED CALLS
//! ```

use std::env;

const SEED: u64 = 1610;
const CALLS: u64 = 1_000_000;

fn main() {
    // Words that the test runner of the other tests would take, as a filter, are not for this one.
    let mut numbers = env::args().skip(1).filter_map(|argument| argument.parse().ok());
    let seed = numbers.next().unwrap_or(SEED);
    let calls = numbers.next().unwrap_or(CALLS);
    println!("\n{calls} random calls of both kits, seed {seed}");
    let tally = differential::compare(seed, calls);
    println!("{tally}");
    tally.assert_complete();
    println!("all equal\n");
}
