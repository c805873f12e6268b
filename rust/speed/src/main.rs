//! Measures the proved core beside the hand-written kit, both called from Rust.
//!
//! ```text
//! speed                      the time of each workload: both in turn in one process, the median of the rounds
//! speed instructions         the machine instructions of each, counted by valgrind's callgrind
//! speed once WORKLOAD KIT    one round of one workload with one kit, which is what is run under callgrind
//! ```

mod images;
mod instructions;
mod measured;
mod pairs;
mod programs;
mod reaching;
mod table;
mod times;
mod workloads;

use std::env;
use std::process::ExitCode;

fn main() -> ExitCode {
    let arguments: Vec<String> = env::args().skip(1).collect();
    let arguments: Vec<&str> = arguments.iter().map(String::as_str).collect();
    let done = match arguments[..] {
        [] => times::print(),
        ["instructions"] => instructions::print(),
        ["once", workload, kit] => instructions::once(workload, kit),
        _ => Err("usage: speed [instructions | once WORKLOAD KIT]".into()),
    };
    match done {
        Ok(()) => ExitCode::SUCCESS,
        Err(message) => {
            eprintln!("speed: {message}");
            ExitCode::FAILURE
        }
    }
}
