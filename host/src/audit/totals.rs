//! How many sheets got each verdict.

use super::row::Outcome;
use crate::streams::Ended;
use std::collections::BTreeMap;

#[derive(Clone, Debug, Default, PartialEq, Eq)]
pub struct Totals {
    pub accepted: usize,
    pub refused: usize,
    pub unread: usize,
    /// How often each number came.
    pub numbers: BTreeMap<usize, usize>,
}

impl Totals {
    pub fn add(&mut self, outcome: Outcome) {
        match outcome {
            Outcome::Accepted => self.accepted += 1,
            Outcome::Refused { number, .. } => {
                self.refused += 1;
                *self.numbers.entry(number).or_default() += 1;
            }
            Outcome::Unread => self.unread += 1,
        }
    }

    pub fn all(&self) -> usize {
        self.accepted + self.refused + self.unread
    }

    /// What cannot be read weighs most.
    pub fn ended(&self) -> Ended {
        match (self.unread, self.refused) {
            (0, 0) => Ended::Well,
            (0, _) => Ended::Refused,
            _ => Ended::Unread,
        }
    }
}
