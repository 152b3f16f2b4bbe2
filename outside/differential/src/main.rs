//! Compares every call of the proved library with the independent implementation.
//!
//! `differential [--count N] [--seed S]` makes N calls decided by the seed S;
//! `differential --replay FILE` makes the one call in a file that an earlier run wrote.

#![deny(missing_docs)]
#![deny(unsafe_code)]

#[allow(unsafe_code)]
mod boundary;
mod case;
mod compare;
mod damage;
mod draft;
mod generate;
mod guarded;
mod layout;
mod random;
mod shrink;
mod tally;
mod text;

use case::Case;
use compare::{Bench, Replies};
use generate::Generator;
use std::process::ExitCode;
use std::time::Instant;
use tally::{Tally, ENOUGH};

const USAGE: &str = "usage: differential [--count N] [--seed S] [--replay FILE]";
/// Where the smallest case found is written.
const CASE_FILE: &str = "differential-case.txt";

/// What the command line asks for.
struct Options {
    count: u64,
    seed: u64,
    replay: Option<String>,
}

fn options() -> Option<Options> {
    let mut options = Options {
        count: ENOUGH,
        seed: 63,
        replay: None,
    };
    let mut arguments = std::env::args().skip(1);
    while let Some(argument) = arguments.next() {
        let value = arguments.next()?;
        match argument.as_str() {
            "--count" => options.count = value.parse().ok()?,
            "--seed" => options.seed = value.parse().ok()?,
            "--replay" => options.replay = Some(value),
            _ => return None,
        }
    }
    Some(options)
}

fn main() -> ExitCode {
    let Some(options) = options() else {
        eprintln!("{USAGE}");
        return ExitCode::from(2);
    };
    match &options.replay {
        Some(file) => replay(file),
        None => compare(&options),
    }
}

/// Makes the calls, until the implementations differ.
fn compare(options: &Options) -> ExitCode {
    let &Options { count, seed, .. } = options;
    println!("{count} requests with seed {seed}");
    let mut generator = Generator::new(seed);
    let mut bench = Bench::new();
    let mut tally = Tally::default();
    let started = Instant::now();
    let often = (count / 10).clamp(1, 100_000);
    for done in 1..=count {
        generator.advance();
        let replies = bench.run(&generator.case);
        if !bench.agrees(replies) {
            println!("request {done} of seed {seed}:");
            return report(&mut bench, generator.case, replies);
        }
        tally.count(generator.case.kind, bench.number(&generator.case, replies));
        bench.keep(&mut generator.case);
        if done % often == 0 {
            let rate = done as f64 / started.elapsed().as_secs_f64();
            eprintln!("{done} of {count} requests, {rate:.0} each second");
        }
    }
    println!("{tally}");
    if count >= ENOUGH && !tally.missing().is_empty() {
        println!("never met: {:?}", tally.missing());
        return ExitCode::FAILURE;
    }
    println!("{count} requests agree (seed {seed})");
    ExitCode::SUCCESS
}

/// Shows a difference and the smallest case found that shows one, to be replayed.
fn report(bench: &mut Bench, case: Case, replies: Replies) -> ExitCode {
    for difference in bench.differences(replies) {
        println!("  {difference}");
    }
    let replies = bench.run(&case);
    if bench.agrees(replies) {
        println!("The same call made alone agrees; it is shown as it was.");
    }
    // Written before it is made smaller: a faulty library may end the process on the way.
    write_case(&case);
    let smallest = shrink::shrink(bench, case);
    println!("The smallest case found:\n{}", text::encode(&smallest));
    show(bench, &smallest);
    write_case(&smallest);
    println!("To see it again: --replay {CASE_FILE}");
    ExitCode::FAILURE
}

fn write_case(case: &Case) {
    if let Err(error) = std::fs::write(CASE_FILE, text::encode(case)) {
        println!("{CASE_FILE} could not be written: {error}");
    }
}

/// Makes a call and shows what both answer and where they differ; tells whether they agree.
fn show(bench: &mut Bench, case: &Case) -> bool {
    let replies = bench.run(case);
    for (name, reply) in [("library", replies.library), ("expected", replies.expected)] {
        println!("{name:<9} answers {} {:?}", reply.number, reply.more);
    }
    for difference in bench.differences(replies) {
        println!("  {difference}");
    }
    bench.agrees(replies)
}

fn replay(file: &str) -> ExitCode {
    let read = std::fs::read_to_string(file).map_err(|error| error.to_string());
    match read.and_then(|text| text::decode(&text)) {
        Ok(case) if show(&mut Bench::new(), &case) => {
            println!("agree");
            ExitCode::SUCCESS
        }
        Ok(_) => ExitCode::FAILURE,
        Err(error) => {
            eprintln!("{file}: {error}");
            ExitCode::from(2)
        }
    }
}
