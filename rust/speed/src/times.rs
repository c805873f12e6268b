//! The time of each workload.

use crate::measured::Measured;
use crate::table::{print_head, print_row};
use crate::workloads::{WORKLOADS, Workload};

/// Odd, so that one round is the middle one.
const ROUNDS: usize = 101;

/// The times of a workload's units with either kit, in ns, one of each a round.
#[derive(Default)]
struct Times {
    proved: Vec<f64>,
    handwritten: Vec<f64>,
}

/// Prints the table. A round goes through all workloads and measures each with both kits, one right after the other; so a while
/// in which the machine does something else meets both kits, and no workload in most of its rounds.
pub fn print() -> Result<(), String> {
    let mut times: [Times; WORKLOADS.len()] = std::array::from_fn(|_| Times::default());
    for _ in 0..ROUNDS {
        for (workload, times) in WORKLOADS.iter().zip(&mut times) {
            measure(workload, times)?;
        }
    }
    print_head("ns");
    for (workload, times) in WORKLOADS.iter().zip(times) {
        print_row(workload, median(times.proved), median(times.handwritten));
    }
    Ok(())
}

fn measure(workload: &Workload, times: &mut Times) -> Result<(), String> {
    let (proved, handwritten) = ((workload.proved)(), (workload.handwritten)());
    if (proved.units, proved.digest) != (handwritten.units, handwritten.digest) {
        return Err(format!("the two kits differ on {}", workload.name));
    }
    times.proved.push(time_of_a_unit(&proved));
    times.handwritten.push(time_of_a_unit(&handwritten));
    Ok(())
}

fn time_of_a_unit(measured: &Measured) -> f64 {
    measured.time.as_nanos() as f64 / measured.units as f64
}

fn median(mut figures: Vec<f64>) -> f64 {
    figures.sort_by(f64::total_cmp);
    figures[figures.len() / 2]
}
