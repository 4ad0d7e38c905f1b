//! Scans: the buffers of one scan, and damage to them with the refusal it must give.

use crate::records::{entry, sound, spoil_entry, unsound, Clock, Drive};
use crate::rng::Rng;
use crate::tables::{Fault, Size, Table};
use lane::{Refusal, ENTRY_BYTES, EVENT_BYTES, RECORD_BYTES, REPORT_BYTES};

/// All that one scan is given.
#[derive(Clone, Debug, PartialEq, Eq)]
pub struct Buffers {
    pub image: Vec<u8>,
    pub state: Vec<u8>,
    pub frame: Vec<u8>,
    pub report: Vec<u8>,
    pub journal: Vec<u8>,
}

/// So many bytes of some pattern, to show what was written.
pub fn noise(rng: &mut Rng, count: usize) -> Vec<u8> {
    let mut byte = rng.byte(0, 255);
    let step = rng.pick(&[0u8, 1, 7]);
    let mut next = || {
        byte = byte.wrapping_add(step);
        byte
    };
    (0..count).map(|_| next()).collect()
}

/// Bytes a block before request 3/14.
pub mod before {
    pub const RECORD: usize = 32;
    pub const ENTRY: usize = 56;
    pub const REPORT: usize = 12;
    pub const EVENTS: usize = 16;
}

/// The least bytes of a journal, a block.
pub const EVENTS_BYTES: usize = 2 * EVENT_BYTES;

/// Another length than this: near it or far, or the one before request 3/14.
fn other_length(rng: &mut Rng, length: usize, before: usize) -> usize {
    loop {
        let other = match rng.below(7) {
            0 => 0,
            1 => length + 1,
            2 => length.saturating_sub(1),
            3 => before,
            4 => length + rng.range(1, 64),
            _ => length.saturating_sub(rng.range(1, 64)),
        };
        if other != length {
            return other;
        }
    }
}

/// A table for a list of scans: mostly of a few blocks, sometimes full.
pub fn table(rng: &mut Rng) -> Table {
    let blocks = match rng.below(16) {
        0..=5 => rng.range(1, 2),
        6..=11 => rng.range(3, 8),
        12..=14 => rng.range(9, 63),
        _ => rng.pick(&[0, 64]),
    };
    let slots = rng.range(blocks.max(1), 64.min(blocks + 4));
    Table::new(rng, Size { slots, blocks })
}

/// A sound state of a table: of blocks at any step.
pub fn sound_state(rng: &mut Rng, table: &Table) -> Vec<u8> {
    let kinds = table.kinds().into_iter();
    kinds.flat_map(|kind| sound(rng, kind)).collect()
}

/// A clock for each block: all begin together, or each anywhere.
fn clocks(rng: &mut Rng, blocks: usize) -> Vec<Clock> {
    if rng.one_in(2) {
        return vec![Clock::new(rng); blocks];
    }
    (0..blocks).map(|_| Clock::new(rng)).collect()
}

/// A list of scans under way: what goes on from one scan to the next.
#[derive(Clone, Debug)]
pub struct List {
    pub table: Table,
    drive: Drive,
    /// A clock for each block.
    clocks: Vec<Clock>,
}

impl List {
    pub fn new(rng: &mut Rng, table: Table) -> List {
        let drive = Drive::any(rng);
        let clocks = clocks(rng, table.chain.len());
        List {
            table,
            drive,
            clocks,
        }
    }

    /// The next scan from this state of the table's blocks, with a formed frame and buffers that hold anything.
    pub fn scan(&mut self, rng: &mut Rng, state: &[u8]) -> Buffers {
        let blocks = self.table.chain.len();
        let mut frame = Vec::with_capacity(ENTRY_BYTES * blocks);
        let (records, _) = state.as_chunks();
        for (clock, record) in self.clocks.iter_mut().zip(records) {
            clock.follow(rng, record);
            frame.extend_from_slice(&entry(rng, self.drive, clock));
        }
        let spare = rng.pick(&[0, 0, 0, 1, EVENT_BYTES, EVENTS_BYTES, 100]);
        Buffers {
            image: self.table.image.clone(),
            state: state.to_vec(),
            frame,
            report: noise(rng, REPORT_BYTES * blocks),
            journal: noise(rng, EVENTS_BYTES * blocks + spare),
        }
    }

    /// Damages what a scan is given: the refusal that this alone must give, `None` where there is
    /// nothing to damage.
    pub fn damage(&self, rng: &mut Rng, scan: &mut Buffers, wrong: Wrong) -> Option<Refusal> {
        let blocks = self.table.chain.len();
        match wrong {
            Wrong::Table => self.damage_table(rng, scan),
            Wrong::StateLength => {
                let length = other_length(rng, RECORD_BYTES * blocks, before::RECORD * blocks);
                scan.state.resize(length, 0);
                Some(Refusal::new(20, 0))
            }
            Wrong::State => self.damage_record(rng, scan),
            Wrong::FrameLength => {
                let length = other_length(rng, ENTRY_BYTES * blocks, before::ENTRY * blocks);
                scan.frame.resize(length, 0);
                Some(Refusal::new(30, 0))
            }
            Wrong::Frame => {
                let index = rng.below(blocks.max(1));
                spoil_entry(rng, scan.frame.chunks_exact_mut(ENTRY_BYTES).nth(index)?);
                Some(Refusal::new(31, index as u32 + 1))
            }
            Wrong::ReportLength => {
                let length = other_length(rng, REPORT_BYTES * blocks, before::REPORT * blocks);
                scan.report.resize(length, 0xee);
                Some(Refusal::new(40, 0))
            }
            Wrong::JournalLength => {
                let least = EVENTS_BYTES * blocks;
                let any = rng.below(least.max(1));
                let short = least.saturating_sub(1);
                let length = rng.pick(&[0, short, before::EVENTS * blocks, any]);
                scan.journal.truncate(length);
                (blocks > 0).then_some(Refusal::new(41, 0))
            }
        }
    }

    /// At times, makes something wrong in what a scan is given: the refusals that each fault alone must give,
    /// `None` where nothing is known of the answer.
    pub fn spoil(&self, rng: &mut Rng, given: &mut Buffers) -> Option<Vec<Refusal>> {
        let mut refusals = Vec::new();
        match rng.below(8) {
            0 => {
                let count = rng.pick(&[1, 1, 2, 3]);
                let mut kinds = Wrong::ALL;
                rng.shuffle(&mut kinds);
                for kind in &kinds[..count] {
                    refusals.extend(self.damage(rng, given, *kind));
                }
            }
            1 if rng.one_in(4) => {
                self.scramble(rng, given);
                return None;
            }
            _ => {}
        }
        Some(refusals)
    }

    /// Gives a scan a table with a fault.
    fn damage_table(&self, rng: &mut Rng, scan: &mut Buffers) -> Option<Refusal> {
        let mut table = self.table.clone();
        let fault = rng.pick(&Fault::ALL);
        let refusal = table.damage(rng, fault);
        scan.image = table.image;
        refusal
    }

    /// Makes a record of the state unsound.
    fn damage_record(&self, rng: &mut Rng, scan: &mut Buffers) -> Option<Refusal> {
        let index = rng.below(self.table.chain.len().max(1));
        let kind = self.table.kind(*self.table.chain.get(index)?);
        let (records, _) = scan.state.as_chunks_mut();
        *records.get_mut(index)? = unsound(rng, kind);
        Some(Refusal::new(21, index as u32 + 1))
    }

    /// Changes some bytes of the state and the frame anywhere.
    pub fn scramble(&self, rng: &mut Rng, scan: &mut Buffers) {
        for _ in 0..rng.range(1, 3) {
            let bytes = match rng.below(2) {
                0 => &mut scan.state,
                _ => &mut scan.frame,
            };
            if !bytes.is_empty() {
                let at = rng.below(bytes.len());
                bytes[at] = match rng.below(3) {
                    0 => rng.byte(0, 255),
                    1 => bytes[at] ^ (1 << rng.below(8)),
                    _ => rng.byte(0, 6),
                };
            }
        }
    }
}

/// A kind of damage, in the order of the checks. Of several, a wrong length goes last.
#[derive(Clone, Copy, Debug, PartialEq, Eq, PartialOrd, Ord)]
pub enum Wrong {
    Table,
    StateLength,
    State,
    FrameLength,
    Frame,
    ReportLength,
    JournalLength,
}

impl Wrong {
    /// All kinds.
    pub const ALL: [Wrong; 7] = [
        Wrong::Table,
        Wrong::StateLength,
        Wrong::State,
        Wrong::FrameLength,
        Wrong::Frame,
        Wrong::ReportLength,
        Wrong::JournalLength,
    ];
}
