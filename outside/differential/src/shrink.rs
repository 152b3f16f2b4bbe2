//! Makes a case on which the implementations differ smaller, as long as they still differ.

use crate::case::{Case, Lent, HEADERS, LENGTHS, PAGES};
use crate::compare::Bench;
use crate::layout::{self, Field};
use independent::{FILE_PAGES, HEADER_SLOTS, PAGE_SLOTS};

/// The most rounds of attempts.
const ROUNDS: usize = 40;

/// The smallest case found from this one on which the implementations differ.
pub fn shrink(bench: &mut Bench, case: Case) -> Case {
    let mut shrinker = Shrinker { bench, case };
    for _ in 0..ROUNDS {
        let before = shrinker.case.clone();
        shrinker.lengths();
        shrinker.zero_blocks();
        shrinker.arguments();
        shrinker.fields();
        shrinker.arguments_in_header();
        shrinker.zero_bytes();
        if shrinker.case == before {
            break;
        }
    }
    shrinker.case
}

struct Shrinker<'a> {
    bench: &'a mut Bench,
    case: Case,
}

/// Smaller numbers to try for this one, the smallest first.
fn smaller(number: u32) -> impl Iterator<Item = u32> {
    let candidates = [0, 1, number / 2, number.saturating_sub(1)];
    candidates.into_iter().filter(move |&other| other < number)
}

impl Shrinker<'_> {
    /// Keeps the change if the implementations still differ.
    fn attempt(&mut self, change: impl FnOnce(&mut Case)) -> bool {
        let mut candidate = self.case.clone();
        change(&mut candidate);
        let replies = self.bench.run(&candidate);
        let differs = !self.bench.agrees(replies);
        if differs {
            self.case = candidate;
        }
        differs
    }

    fn lengths(&mut self) {
        for (buffer, length) in LENGTHS.into_iter().enumerate() {
            let lent = &self.case.lent[buffer];
            let found = lent.bytes.len();
            if found == length {
                continue;
            }
            for better in [length, length + 1, length - 1] {
                if better == found || self.attempt(|case| resize(&mut case.lent[buffer], better)) {
                    break;
                }
            }
        }
    }

    /// Zeroes whole buffers, headers, page slots and page contents.
    fn zero_blocks(&mut self) {
        for buffer in 0..LENGTHS.len() {
            self.zero(buffer, 0..self.case.lent[buffer].bytes.len());
        }
        for place in 0..HEADER_SLOTS {
            self.zero(HEADERS, layout::record(place));
        }
        for place in 0..PAGE_SLOTS {
            let slot = layout::slot(place);
            let contents = slot.start + layout::CONTENTS.start..slot.end;
            if !self.zero(PAGES, slot) {
                self.zero(PAGES, contents);
            }
        }
    }

    fn zero(&mut self, buffer: usize, bytes: std::ops::Range<usize>) -> bool {
        match self.case.lent[buffer].bytes.get(bytes.clone()) {
            Some(part) if part.iter().any(|&byte| byte != 0) => {
                self.attempt(|case| case.lent[buffer].bytes[bytes].fill(0))
            }
            _ => false,
        }
    }

    fn arguments(&mut self) {
        let Case {
            time,
            client,
            id,
            number,
            expires,
            shift,
            ..
        } = self.case;
        let _ = shift > 0 && self.attempt(|case| case.shift = 0);
        let _ = smaller(time).any(|time| self.attempt(|case| case.time = time));
        let _ =
            smaller(client.into()).any(|client| self.attempt(|case| case.client = client as u16));
        let _ = smaller(id).any(|id| self.attempt(|case| case.id = id));
        let _ =
            smaller(number.into()).any(|number| self.attempt(|case| case.number = number as u8));
        let _ = smaller(expires).any(|expires| self.attempt(|case| case.expires = expires));
    }

    /// Makes an argument smaller together with the same number in the header it is about.
    fn arguments_in_header(&mut self) {
        for place in 0..HEADER_SLOTS {
            let start = layout::record(place).start;
            let Some(record) = self.case.lent[HEADERS].bytes.get(layout::record(place)) else {
                return;
            };
            let (id, owner) = (
                layout::get(record, layout::ID),
                layout::get(record, layout::OWNER),
            );
            if id == self.case.id {
                let _ = smaller(id).any(|id| {
                    self.attempt(|case| {
                        case.id = id;
                        layout::put(&mut case.lent[HEADERS].bytes[start..], layout::ID, id);
                    })
                });
            }
            if owner == u32::from(self.case.client) {
                let _ = smaller(owner).any(|owner| {
                    self.attempt(|case| {
                        case.client = owner as u16;
                        layout::put(&mut case.lent[HEADERS].bytes[start..], layout::OWNER, owner);
                    })
                });
            }
        }
    }

    /// Makes each number in the tables smaller.
    fn fields(&mut self) {
        for field in [layout::NEXT_ID, layout::CLOCK] {
            self.field(HEADERS, 0, field);
        }
        let numbers = [
            layout::ID,
            layout::OWNER,
            layout::CREATED,
            layout::UPDATED,
            layout::EXPIRES,
        ];
        for place in 0..HEADER_SLOTS {
            let start = layout::record(place).start;
            let page_ids = (0..FILE_PAGES).map(layout::page_id);
            for field in numbers.clone().into_iter().chain(page_ids) {
                self.field(HEADERS, start, field);
            }
        }
        for place in 0..PAGE_SLOTS {
            self.field(PAGES, layout::slot(place).start, layout::SLOT_EXPIRES);
        }
    }

    fn field(&mut self, buffer: usize, start: usize, field: Field) {
        let bytes = start + field.start / 8..start + field.end.div_ceil(8);
        if self.case.lent[buffer].bytes.len() < bytes.end {
            return;
        }
        let number = layout::get(&self.case.lent[buffer].bytes[start..], field.clone());
        let _ = smaller(number).any(|number| {
            self.attempt(|case| {
                layout::put(&mut case.lent[buffer].bytes[start..], field.clone(), number);
            })
        });
    }

    fn zero_bytes(&mut self) {
        for buffer in 0..LENGTHS.len() {
            for at in 0..self.case.lent[buffer].bytes.len() {
                self.zero(buffer, at..at + 1);
            }
        }
    }
}

fn resize(lent: &mut Lent, length: usize) {
    lent.null = false;
    lent.bytes.resize(length, 0);
}
