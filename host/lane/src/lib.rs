//! A safe binding of the lane engine of a container gate.
//!
//! The engine is an archive of C functions over byte slices. This crate gives its buffers types:
//!
//! - [`Engine`] holds a table that the engine has accepted, finds and shows tags, writes the table anew, makes
//!   fresh states, runs scans and checks journals from elsewhere.
//! - [`Block`], [`Kind`], [`Tag`], [`Wire`] and [`image`] write a table.
//! - [`Position`] is where a block stands in the chain; all buffers go by it.
//! - [`State`], [`Frame`], [`Report`] and [`Journal`] are the buffers of a scan; [`Record`], [`Entry`],
//!   [`ReportEntry`] and [`Event`] are what they hold.
//! - [`Refusal`] says which check turned a call back, and where.
//! - [`ffi`] has the entry points over plain bytes.
//!
//! ```
//! use lane::{image, Block, Engine, Flag, Kind, Place, Wire};
//!
//! // Two lanes; the second starts when the first is done.
//! let blocks = [
//!     Block::new(Kind::ETrig, "LANE0".parse()?),
//!     Block::new(Kind::ETrigA, "LANEO".parse()?).start(Wire::new(1, Flag::Done)),
//! ];
//! let engine = Engine::new(&image(&blocks))?;
//! assert_eq!(engine.blocks(), 2);
//! assert_eq!(engine.find("LANEO".parse()?)?.number(), 2);
//!
//! let refusal = engine.find("LANE1".parse()?).unwrap_err();
//! assert_eq!((refusal.number(), refusal.place()), (51, Place::Unnamed));
//! assert_eq!(refusal.to_string(), "refused 51: no block of the table has this tag");
//! # Ok::<(), Box<dyn std::error::Error>>(())
//! ```

#![deny(unsafe_code)]
#![warn(missing_docs)]
#![warn(clippy::missing_errors_doc, clippy::missing_panics_doc)]
#![warn(clippy::return_self_not_must_use)]

mod buffers;
mod engine;
#[allow(unsafe_code)]
pub mod ffi;
mod layout;
mod offset;
mod position;
mod refusal;
mod scan;
mod table;

pub use buffers::{Frame, Journal, Report, State};
pub use engine::Engine;
pub use layout::{Entry, Event, EventKind, Flags, Piece, Pieces, Record, Reply, ReportEntry, Step};
pub use layout::{CODE_TIME_OUT, ENTRY_BYTES, EVENT_BYTES, MAX_PIECES, PIECE_BYTES};
pub use layout::{RECORD_BYTES, REPORT_BYTES};
pub use position::Position;
pub use refusal::{Place, Refusal};
pub use scan::Outcome;
pub use table::{image, Block, Flag, Kind, Tag, TagError, Wire};
pub use table::{HEADER_BYTES, MAX_BLOCKS, SLOT_BYTES, TAG_BYTES};

/// The ABI of the archive that this binding is for, as `LANE_ABI` of the C header counts it: a change of a
/// layout, of a function's arguments or of what a number means raises it.
pub const ABI: u32 = 2;

/// The most stack that a call takes, rounded up, in bytes, as the C header says.
pub const STACK_BYTES: u64 = 2048;
