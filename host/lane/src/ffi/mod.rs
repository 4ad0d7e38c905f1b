//! The entry points over plain bytes. Only this module has `unsafe` code.
//!
//! Every function here takes slices of any length and content, and answers a value or a refusal. [`raw`] has the
//! archive's functions as C declares them, over pointers and with packed answers.

mod journal;
pub mod raw;
mod scan;
mod table;

pub use journal::check_journal;
pub use scan::{fresh, scan};
pub use table::{check, find, tidy};

use crate::Refusal;

/// An answer as the archive packs it: a value below 2^32, or number × 2^32 + place. The number of events or of an
/// event, where it is greater than 2^32 - 1, comes as 2^32 - 1.
#[inline]
fn unpack(answer: u64) -> Result<u32, Refusal> {
    let low = answer as u32;
    match (answer >> 32) as u32 {
        0 => Ok(low),
        number => Err(Refusal::new(number, low)),
    }
}
