//! The report, in Markdown.

use crate::callgrind::Counts;
use crate::calls::Cell;
use crate::clock::{Times, ALL_BATCHES, CALLS};
use crate::request::Request;
use crate::tables::Fill;
use linked::Kind;

/// One cell with all that was measured of it.
pub struct Measured {
    pub cell: Cell,
    pub times: Times,
    pub counts: Counts,
}

/// Prints the report.
pub fn print(all: &[Measured]) {
    println!(
        "ns: the smallest of {ALL_BATCHES} batches of {CALLS} calls, tables in the cache. {METHOD}"
    );
    for fill in Fill::ALL {
        let rows: Vec<&Measured> = all.iter().filter(|row| row.cell.fill == fill).collect();
        print_fill(fill, &rows);
    }
    print_soundness(all);
}

const METHOD: &str = "\
After each call what it changed is put
back; that is timed too, and subtracted. Where the linker and the loader happen to put code and
tables makes up to some tens of percent of a time, build by build; the counts do not depend on it.

Instructions: callgrind, one call, everything that the C function calls included. It counts each
turn of `rep stosb` in libc's memset, which weighs on Format alone. The independent Rust is called
through C functions of its own.

Inner: the request beyond admission. Its ns are the request's less those of soundness alone; its
instructions are the library's less those within its admission function, and for Rust and C those
of their functions for tables known to be sound. Soundness alone is Info with a time below the
clock, which is refused right after it.

Every call is for the file in the last header slot in use, on empty tables for id 1, which is not
there; a file has 4 pages and the page number is 3. All answers, and the tables left, were the same
in all three.
";

fn print_fill(fill: Fill, rows: &[&Measured]) {
    let (files, slots) = (fill.files(), fill.slots());
    println!(
        "## Tables {}: {files} live files, {slots} page slots in use\n",
        fill.name()
    );
    println!(
        "| request | answer | ns proved | Rust | C | /Rust | /C \
         | instructions proved | Rust | C | /Rust | /C |"
    );
    println!("|---|---|--:|--:|--:|--:|--:|--:|--:|--:|--:|--:|");
    let soundness = rows
        .iter()
        .find(|row| row.cell.request.name == Request::SOUNDNESS)
        .expect("soundness alone is measured on all tables");
    for row in rows {
        let border = row.times.border;
        let counts = row.counts.border.map(|count| count as f64);
        print_row(row.cell.request.name, &answer(row), border, counts);
        if let Some(inner) = row.counts.inner {
            let beyond = std::array::from_fn(|by| border[by] - soundness.times.border[by]);
            print_row("– inner", "", beyond, inner.map(|count| count as f64));
        }
    }
    println!();
}

fn print_row(name: &str, answer: &str, ns: [f64; 3], instructions: [f64; 3]) {
    println!(
        "| {name} | {answer} | {} | {} |",
        columns(ns),
        columns(instructions)
    );
}

/// The three figures, then the library's as a multiple of the others'.
fn columns([library, rust, plain_c]: [f64; 3]) -> String {
    format!(
        "{library:.0} | {rust:.0} | {plain_c:.0} | {} | {}",
        ratio(library, rust),
        ratio(library, plain_c)
    )
}

/// A multiple; none of a difference that is lost in the noise.
fn ratio(figure: f64, of: f64) -> String {
    if figure < 1.0 || of < 1.0 {
        return "–".to_string();
    }
    format!("{:.2}", figure / of)
}

/// The answer's number, or the page slot that Look answered.
fn answer(row: &Measured) -> String {
    let reply = row.times.reply;
    match (row.cell.request.kind, reply.more[0]) {
        (Kind::Look, 0) => "blank".to_string(),
        (Kind::Look, slot) => format!("slot {slot}"),
        _ => reply.number.to_string(),
    }
}

fn print_soundness(all: &[Measured]) {
    println!("## Soundness alone, as a multiple of one vectorised pass over both tables\n");
    println!(
        "| tables | pass | ns of the pass | proved | Rust | C \
         | instructions of the pass | proved | Rust | C |\n\
         |---|---|--:|--:|--:|--:|--:|--:|--:|--:|"
    );
    for row in all {
        if row.cell.request.name != Request::SOUNDNESS {
            continue;
        }
        let counts = row.counts.border.map(|count| count as f64);
        for (which, name) in ["plain loop", "unrolled"].into_iter().enumerate() {
            println!(
                "| {} | {name} | {} | {} |",
                row.cell.fill.name(),
                multiples(row.times.passes[which], row.times.border),
                multiples(row.counts.passes[which] as f64, counts)
            );
        }
    }
}

fn multiples(pass: f64, figures: [f64; 3]) -> String {
    let [library, rust, plain_c] = figures.map(|figure| figure / pass);
    format!("{pass:.0} | {library:.2} | {rust:.2} | {plain_c:.2}")
}
