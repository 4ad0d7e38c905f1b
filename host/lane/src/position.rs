//! The position of a block in its chain.

use crate::MAX_BLOCKS;
use std::fmt;

/// The position of a block in the chain, from 1 to 64. It is no slot number: the chain may jump about among
/// the slots.
///
/// ```
/// use lane::Position;
///
/// let third = Position::new(3).unwrap();
/// assert_eq!((third.number(), third.index()), (3, 2));
/// assert_eq!(Position::new(0), None);
/// assert_eq!(Position::new(65), None);
/// ```
#[derive(Clone, Copy, Debug, PartialEq, Eq, PartialOrd, Ord, Hash)]
pub struct Position(u8);

impl Position {
    /// The position with this number; `None` if it is not 1 to 64.
    pub const fn new(number: usize) -> Option<Position> {
        match number {
            1..=MAX_BLOCKS => Some(Position(number as u8)),
            _ => None,
        }
    }

    /// Its number, from 1.
    pub const fn number(self) -> usize {
        self.0 as usize
    }

    /// Its index in a list of all blocks, from 0.
    pub const fn index(self) -> usize {
        self.number() - 1
    }

    /// The number as a byte.
    pub(crate) const fn byte(self) -> u8 {
        self.0
    }

    /// The positions of so many blocks, in order.
    pub(crate) fn first(blocks: usize) -> impl DoubleEndedIterator<Item = Position> {
        (1..=blocks).filter_map(Position::new)
    }
}

impl fmt::Display for Position {
    fn fmt(&self, f: &mut fmt::Formatter<'_>) -> fmt::Result {
        self.0.fmt(f)
    }
}
