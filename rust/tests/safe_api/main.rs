//! The service through the safe API, as the scope document has it.

mod errors;
mod faults;
mod look;
mod sessions;

use pagefile::{FileId, Outcome, Outcomes, Page, PageNum, Tables};

const A: Page = [0x41; 120];
const B: Page = [0x42; 120];
const CLIENT: u16 = 7;
const THROUGH: Outcomes = Outcomes::all_through();

/// A list in which all but one step go through.
fn befalls(step: usize, outcome: Outcome) -> Outcomes {
    THROUGH.with(step, outcome).unwrap()
}

fn file(id: u32) -> FileId {
    FileId::new(id).unwrap()
}

/// Fresh tables with one file of page A, made at 10, that lives until 100; its id is 1.
fn one_file() -> Tables {
    let mut tables = Tables::new();
    tables
        .create(&THROUGH, 10, CLIENT, PageNum::FIRST, &A, 100)
        .unwrap();
    tables
}
