//! Counts of what was seen in a test, and the numbers of the refusals.

use crate::text::Answer;
use std::collections::BTreeMap;
use std::fmt;
use std::ops::RangeInclusive;

/// The numbers of the table checks, and of those that name a slot.
pub const TABLE: RangeInclusive<u32> = 1..=11;
pub const SLOT: RangeInclusive<u32> = 5..=11;

/// The numbers that a scan of an accepted table gives, and of those that name a position.
pub const SCAN: [u32; 6] = [20, 21, 30, 31, 40, 41];
pub const POSITION: [u32; 2] = [21, 31];

/// The numbers that a lookup in an accepted table gives.
pub const LOOKUP: [u32; 2] = [50, 51];

/// The number that tidying an accepted table gives.
pub const TIDY: u32 = 60;

/// The numbers that a journal check by an accepted table gives: of a length, and of an event, which it names.
pub const JOURNAL: [u32; 2] = [JOURNAL_LENGTH, EVENT];
pub const JOURNAL_LENGTH: u32 = 70;
pub const EVENT: u32 = 71;

/// The number of an input that is longer than the program `totals` reads.
pub const INPUT_LENGTH: u32 = 75;

/// How often each answer was seen: accepted calls, and refusals by number and place.
#[derive(Clone, Debug, Default)]
pub struct Tally {
    accepted: u64,
    refused: BTreeMap<u32, BTreeMap<u32, u64>>,
}

impl Tally {
    /// Counts an answer.
    pub fn add(&mut self, answer: Answer) {
        match answer {
            Ok(_) => self.accepted += 1,
            Err(refusal) => {
                let places = self.refused.entry(refusal.number()).or_default();
                *places.entry(refusal.place_number()).or_default() += 1;
            }
        }
    }

    /// The number of accepted calls.
    pub fn accepted(&self) -> u64 {
        self.accepted
    }

    /// The number of refusals with this number.
    pub fn refused(&self, number: u32) -> u64 {
        self.places(number).map(|(_, count)| count).sum()
    }

    /// The greatest place of the refusals with this number.
    pub fn greatest_place(&self, number: u32) -> u32 {
        self.places(number)
            .map(|(place, _)| place)
            .max()
            .unwrap_or(0)
    }

    fn places(&self, number: u32) -> impl Iterator<Item = (u32, u64)> + '_ {
        let places = self.refused.get(&number).into_iter().flatten();
        places.map(|(&place, &count)| (place, count))
    }

    /// Fails unless every one of these numbers was seen.
    pub fn expect(&self, numbers: impl IntoIterator<Item = u32>) {
        for number in numbers {
            assert!(self.refused(number) > 0, "no refusal {number} seen\n{self}");
        }
    }

    /// Fails unless refusals with each of these numbers named a place above 1.
    pub fn expect_places(&self, numbers: impl IntoIterator<Item = u32>) {
        for number in numbers {
            let place = self.greatest_place(number);
            assert!(place > 1, "refusal {number} never above place 1\n{self}");
        }
    }
}

impl fmt::Display for Tally {
    fn fmt(&self, f: &mut fmt::Formatter<'_>) -> fmt::Result {
        writeln!(f, "{:>10} accepted", self.accepted)?;
        for (number, places) in &self.refused {
            let count = self.refused(*number);
            let (least, greatest) = (places.keys().min(), places.keys().max());
            let (least, greatest) = (least.unwrap_or(&0), greatest.unwrap_or(&0));
            writeln!(
                f,
                "{count:>10} refused {number}, place {least} to {greatest}"
            )?;
        }
        Ok(())
    }
}
