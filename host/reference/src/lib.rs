//! A plain statement of the rules of the lane engine, written from the scope
//! document and requests 1/14 to 7/14 of document 02 alone.
//!
//! - [`table`]: the table image, its checks, and the lookup of a tag.
//! - [`tidy`]: a table written anew without spare slots.
//! - [`layout`]: the lengths, and where each field lies.
//! - [`machine`]: one call of one block.
//! - [`scan`]: a fresh state, and one scan over all blocks of a table.
//! - [`journal`]: a foreign journal judged against a table.
//! - [`totals`]: the printed sheet of a table and its journal.
//!
//! No function here allocates, and none panics, whatever the length or content
//! of its input. All numbers are little-endian: "Values are little-endian,
//! decimal unless marked 0x; unnamed bytes are zero."

#![forbid(unsafe_code)]

pub mod journal;
pub mod layout;
pub mod machine;
pub mod scan;
pub mod table;
pub mod tidy;
pub mod totals;
