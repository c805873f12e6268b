//! The tables that are printed, as rows of Markdown.

use crate::workloads::Workload;

pub fn print_head(measure: &str) {
    println!("| workload | for each | proved, {measure} | hand-written, {measure} | ratio |");
    println!("|---|---|---|---|---|");
}

pub fn print_row(workload: &Workload, proved: f64, handwritten: f64) {
    let Workload { name, unit, .. } = workload;
    println!("| {name} | {unit} | {proved:.2} | {handwritten:.2} | {:.2} |", proved / handwritten);
}
