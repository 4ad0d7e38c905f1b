//! Cases for comparing the engine with `reference`, an implementation that shares nothing with it.
//!
//! - [`rng`]: seeded random numbers; `LANE_SEED` sets the seed, `LANE_ROUNDS` multiplies the counts.
//! - [`text`]: calls and answers as lines of text, which the `replay` program runs again.
//! - [`check`]: one call of each implementation, compared.
//! - [`tables`]: table images, valid and damaged.
//! - [`blocks`]: blocks by their positions, put into any slots, and changes to them.
//! - [`arrangements`]: tables by their slots and wires, and lengths of images to write them tidy, counted.
//! - [`records`]: state records and frame entries, in form and out of it.
//! - [`scans`]: lists of scans, with damage to what a scan is given.
//! - [`scan_check`]: one fresh state or scan by each implementation, compared.
//! - [`journals`]: journals of a table, good, damaged and foreign.
//! - [`verdicts`]: what the rules say of a journal, counted.
//! - [`scripts`]: lists of scans that write a given journal.
//! - [`program`]: the program `totals`, run on an input over real pipes.
//! - [`sheets`]: inputs of it, and the sheets that it prints, counted.
//! - [`readings`]: the readings of calls, those out of step counted.
//! - [`seen`]: what the accepted scans did.
//! - [`jobs`]: the jobs of their events, counted by their form.
//! - [`layouts`]: refusals by the length of a buffer or by one unnamed byte, counted.
//! - [`tally`]: counts of what was seen, and the numbers of the refusals.
//! - [`forms`]: counts of what was met, by its form.
//! - [`underscores`]: tags with underscores, and bytes that are no tag because of one, counted by their form.

#![forbid(unsafe_code)]

pub mod arrangements;
pub mod blocks;
pub mod check;
pub mod forms;
pub mod jobs;
pub mod journals;
pub mod layouts;
pub mod program;
pub mod readings;
pub mod records;
pub mod rng;
pub mod scan_check;
pub mod scans;
pub mod scripts;
pub mod seen;
pub mod sheets;
pub mod tables;
pub mod tally;
pub mod text;
pub mod underscores;
pub mod verdicts;
