//! The exported functions of the engine on any bytes, each slice between pages that nobody may touch, compared
//! with `reference`.
//!
//! - [`call`]: a call of an exported function, as slices and as a line of text.
//! - [`guard`]: memory with such a page before and after it, and where a slice lies in it.
//! - [`engine`]: a call through the archive, over guarded slices; a fault prints the call.
//! - [`cases`]: calls to try: kept ones, new ones, and damage to them.

pub mod call;
pub mod cases;
pub mod engine;
pub mod guard;
