//! The machine instructions of each workload: this program is run again under callgrind, with one workload and one kit a process,
//! and callgrind collects in one function only.

use crate::measured::COLLECTED;
use crate::table::{print_head, print_row};
use crate::workloads::{WORKLOADS, Workload};
use differential::{Handwritten, Kit, Proved};
use std::env;
use std::process::Command;

/// What stands before the count in callgrind's report.
const REPORTED: &str = "Collected :";

pub fn print() -> Result<(), String> {
    print_head("instructions");
    for workload in &WORKLOADS {
        print_row(workload, counted(workload, Proved::NAME)?, counted(workload, Handwritten::NAME)?);
    }
    Ok(())
}

/// One round, and its units on standard output.
pub fn once(name: &str, kit: &str) -> Result<(), String> {
    let workload = WORKLOADS.iter().find(|workload| workload.name == name).ok_or("there is no such workload")?;
    let measure = match kit {
        Proved::NAME => workload.proved,
        Handwritten::NAME => workload.handwritten,
        _ => return Err("there is no such kit".into()),
    };
    println!("{}", measure().units);
    Ok(())
}

/// The machine instructions of a unit.
fn counted(workload: &Workload, kit: &str) -> Result<f64, String> {
    let program = env::current_exe().map_err(|error| error.to_string())?;
    let output = Command::new("valgrind")
        .args(["--tool=callgrind", "--callgrind-out-file=/dev/null"])
        .arg(format!("--toggle-collect={COLLECTED}"))
        .arg(program)
        .args(["once", workload.name, kit])
        .output()
        .map_err(|error| format!("valgrind: {error}"))?;
    let report = String::from_utf8_lossy(&output.stderr);
    let number = |text: &str| text.trim().parse::<f64>().ok();
    let count = report.split_once(REPORTED).and_then(|(_, rest)| number(rest.lines().next()?));
    let units = number(&String::from_utf8_lossy(&output.stdout));
    match (count, units) {
        (Some(count), Some(units)) => Ok(count / units),
        _ => Err(format!("callgrind counted nothing in {} with the {kit} kit:\n{report}", workload.name)),
    }
}
