//! Why a call was turned back, and where.

use crate::{Position, MAX_BLOCKS};
use std::error::Error;
use std::fmt;

/// A call turned back: the number of the first check that failed, and its place.
///
/// ```
/// use lane::{Place, Refusal};
///
/// let refusal = Refusal::new(9, 3);
/// assert_eq!(refusal.number(), 9);
/// assert_eq!(refusal.place(), Place::Slot(3));
/// assert_eq!(
///     refusal.to_string(),
///     "refused 9 at slot 3: an earlier block of the chain has this tag"
/// );
/// ```
#[derive(Clone, Copy, Debug, PartialEq, Eq, Hash)]
pub struct Refusal {
    number: u32,
    place: u32,
}

/// Where a check failed.
#[derive(Clone, Copy, Debug, PartialEq, Eq, Hash)]
#[non_exhaustive]
pub enum Place {
    /// The check names no slot, position or event.
    Unnamed,
    /// A slot of the table image, from 1.
    Slot(u8),
    /// A block by its position in the chain.
    Position(Position),
    /// An event of a journal by its number, from 1; 2^32 - 1 stands for every greater number too.
    Event(u32),
}

impl Refusal {
    /// The refusal with the numbers of an answer; place 0 names none.
    pub const fn new(number: u32, place: u32) -> Refusal {
        Refusal { number, place }
    }

    /// The number of the check.
    pub const fn number(self) -> u32 {
        self.number
    }

    /// The number of the slot, position or event, 0 if none is named.
    pub const fn place_number(self) -> u32 {
        self.place
    }

    /// The place, by what the check counts: slots of the table, positions of the chain, or events of a journal.
    pub const fn place(self) -> Place {
        let place = self.place as usize;
        match (self.number, Position::new(place)) {
            (5..=11, _) if 1 <= place && place <= MAX_BLOCKS => Place::Slot(place as u8),
            (21 | 31, Some(position)) => Place::Position(position),
            (71, _) if 1 <= place => Place::Event(self.place),
            _ => Place::Unnamed,
        }
    }

    /// What the check asks for and didn't find.
    pub const fn reason(self) -> &'static str {
        match (self.number, self.place) {
            (1, _) => "the table is shorter than its header of 4 bytes",
            (2, _) => "the table's version is not 1, or byte 3 of its header is not zero",
            (3, _) => "the table's slot count is not 1 to 64",
            (4, _) => "the table's length is not 4 bytes and 16 a slot",
            (5, 0) => "the head of the chain is above the slot count",
            (5, _) => "its next slot is above the slot count",
            (6, _) => "its next slot was already met on the chain",
            (7, _) => "its kind is not 1 to 14, or its bytes 6-7 are not zero",
            (8, _) => {
                "its tag is not one or more of A-Z, 0-9 and, except first, underscore, \
                 then spaces to eight bytes"
            }
            (9, _) => "an earlier block of the chain has this tag",
            (10, _) => {
                "a wire of it comes from a slot off the chain, has a code out of form, \
                 or is an abort wire on a kind without one"
            }
            (11, _) => "it is off the chain and not all zero",
            (20, _) => "the state's length is not 40 bytes a block",
            (21, _) => "its state record is unsound",
            (30, _) => "the frame's length is not 64 bytes a block",
            (31, _) => "its frame entry is out of form",
            (40, _) => "the report's length is not 16 bytes a block",
            (41, _) => "the journal is shorter than 24 bytes a block",
            (50, _) => {
                "the tag to find is not one or more of A-Z, 0-9 and, except first, underscore, \
                 then spaces to eight bytes"
            }
            (51, _) => "no block of the table has this tag",
            (60, _) => "the lent table's length is not 4 bytes and 16 a block, or 20 of no blocks",
            (70, _) => "the journal's length is not a multiple of an event's 12 bytes",
            (71, _) => {
                "its kind is not 1 to 5, its position is not in the table, \
                 it is a start where a job is open or a finish where none is, \
                 its job is not its start's, its block's kind has no such finish, \
                 or its code is out of form"
            }
            _ => "no check has this number",
        }
    }
}

impl fmt::Display for Place {
    fn fmt(&self, f: &mut fmt::Formatter<'_>) -> fmt::Result {
        match self {
            Place::Unnamed => f.write_str("no named place"),
            Place::Slot(slot) => write!(f, "slot {slot}"),
            Place::Position(position) => write!(f, "position {position}"),
            Place::Event(number) => write!(f, "event {number}"),
        }
    }
}

impl fmt::Display for Refusal {
    fn fmt(&self, f: &mut fmt::Formatter<'_>) -> fmt::Result {
        match self.place() {
            Place::Unnamed => write!(f, "refused {}: {}", self.number, self.reason()),
            place => write!(f, "refused {} at {place}: {}", self.number, self.reason()),
        }
    }
}

impl Error for Refusal {}
