//! Measures the proved library beside the independent Rust and a straightforward C.
//!
//! Without arguments it prints the report; the subcommand is for callgrind, which it runs itself.

#![deny(unsafe_code)]

#[allow(unsafe_code)]
mod boundary;
mod callgrind;
mod calls;
mod clock;
mod report;
mod request;
mod tables;

use report::Measured;
use std::process::ExitCode;

fn main() -> ExitCode {
    match std::env::args().nth(1).as_deref() {
        None => measure(),
        Some(callgrind::SUBCOMMAND) => calls::make_all(),
        Some(_) => {
            eprintln!("usage: bench");
            return ExitCode::FAILURE;
        }
    }
    ExitCode::SUCCESS
}

fn measure() {
    let cells = calls::cells();
    eprintln!("counting instructions");
    let counts = callgrind::count(&cells);
    let times = clock::time(&cells);
    let measured = |((cell, times), counts)| Measured {
        cell,
        times,
        counts,
    };
    let all: Vec<Measured> = cells
        .into_iter()
        .zip(times)
        .zip(counts)
        .map(measured)
        .collect();
    report::print(&all);
}
