//! How often each request gave each answer.

use crate::case::answers;
use linked::Kind;
use std::fmt;

/// A run of at least this many requests has to meet every answer.
pub const ENOUGH: u64 = 20_000;

/// The answers counted, by request and number.
#[derive(Default)]
pub struct Tally([[u64; 11]; Kind::ALL.len()]);

impl Tally {
    /// Counts one answer.
    pub fn count(&mut self, kind: Kind, number: u8) {
        self.0[kind as usize][usize::from(number)] += 1;
    }

    /// The answers that a request can give and that were never met.
    pub fn missing(&self) -> Vec<(Kind, u8)> {
        let all = Kind::ALL.into_iter();
        all.flat_map(|kind| answers(kind).iter().map(move |&number| (kind, number)))
            .filter(|&(kind, number)| self.0[kind as usize][usize::from(number)] == 0)
            .collect()
    }
}

impl fmt::Display for Tally {
    fn fmt(&self, out: &mut fmt::Formatter) -> fmt::Result {
        write!(out, "{:<10}{:>9}", "request", "calls")?;
        for number in 0..=10 {
            write!(out, "{number:>9}")?;
        }
        for kind in Kind::ALL {
            let counts = &self.0[kind as usize];
            let name = format!("{kind:?}");
            write!(out, "\n{name:<10}{:>9}", counts.iter().sum::<u64>())?;
            for (number, count) in (0u8..).zip(counts) {
                match answers(kind).contains(&number) {
                    true => write!(out, "{count:>9}")?,
                    false => write!(out, "{:>9}", "-")?,
                }
            }
        }
        write!(
            out,
            "\n(Look is counted under what Read with an all-zero list would answer.)"
        )
    }
}
