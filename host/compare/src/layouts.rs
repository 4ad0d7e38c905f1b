//! Refusals that turn on a layout: by the length of a buffer, next to the right one or as before request 3/14, and by one
//! unnamed byte of a record or an entry that is good but for it. Each form is counted.

use crate::forms::Forms;
use crate::scans::{before, Buffers, EVENTS_BYTES};
use crate::tables::Table;
use crate::text::Answer;
use lane::{ENTRY_BYTES, RECORD_BYTES, REPORT_BYTES};
use reference::layout::{entry, record};
use reference::machine::{Entry, Record};
use std::{fmt, iter};

/// The number of blocks, and the length of a buffer.
type Length = (usize, usize);

/// A kind, and a record of it.
type OfKind = (u8, [u8; record::SIZE]);

impl Forms<Length> {
    /// Lengths that are refused, by the bytes a block and those before request 3/14.
    fn short(bytes: usize, before: usize) -> Forms<Length> {
        Forms::new()
            .with("one byte short", move |&(blocks, length): &Length| {
                length + 1 == bytes * blocks
            })
            .with(
                "as long as before request 3/14",
                move |&(blocks, length)| length == before * blocks,
            )
    }

    /// The same where a longer one is refused, too.
    fn other(bytes: usize, before: usize) -> Forms<Length> {
        let forms = Forms::short(bytes, before);
        forms.with("one byte long", move |&(blocks, length)| {
            length == bytes * blocks + 1
        })
    }

    /// States refused with number 20.
    pub fn states() -> Forms<Length> {
        Forms::other(RECORD_BYTES, before::RECORD)
    }

    /// Journals that are long enough.
    fn enough() -> Forms<Length> {
        let spare = |&(blocks, length): &Length| length - EVENTS_BYTES * blocks;
        Forms::new()
            .with("with no byte to spare", move |length| spare(length) == 0)
            .with("with one byte to spare", move |length| spare(length) == 1)
    }
}

/// The bytes with a zero at a place.
fn without<const N: usize>(bytes: &[u8; N], place: usize) -> [u8; N] {
    let mut other = *bytes;
    other[place] = 0;
    other
}

/// Records that are unsound for one byte alone: an unnamed one, or in a Dormant record one of the job as well.
fn records() -> Forms<OfKind> {
    let forms = record::UNNAMED
        .into_iter()
        .fold(Forms::new(), |forms, place| {
            let name = format!("not Dormant, for byte {place} alone");
            forms.with(name, move |(kind, bytes): &OfKind| {
                let good = without(bytes, place);
                bytes[record::STEP] != Record::DORMANT
                    && good != *bytes
                    && Record::is_sound(&good, *kind)
            })
        });
    let job = record::JOB..record::JOB + size_of::<u64>();
    job.chain(record::UNNAMED).fold(forms, |forms, place| {
        let name = format!("Dormant, for byte {place} alone");
        forms.with(name, move |(_, bytes): &OfKind| {
            bytes[place] != 0 && without(bytes, place) == [0; record::SIZE]
        })
    })
}

/// Entries that are out of form for one unnamed byte alone.
fn entries() -> Forms<[u8; entry::SIZE]> {
    entry::UNNAMED
        .into_iter()
        .fold(Forms::new(), |forms, place| {
            let name = format!("for byte {place} alone");
            forms.with(name, move |bytes: &[u8; entry::SIZE]| {
                let good = without(bytes, place);
                good != *bytes && Entry::is_formed(&good)
            })
        })
}

/// Counts over all scans.
pub struct Layouts {
    states: Forms<Length>,
    frames: Forms<Length>,
    reports: Forms<Length>,
    journals: Forms<Length>,
    enough: Forms<Length>,
    records: Forms<OfKind>,
    entries: Forms<[u8; entry::SIZE]>,
}

impl Default for Layouts {
    fn default() -> Layouts {
        Layouts {
            states: Forms::states(),
            frames: Forms::other(ENTRY_BYTES, before::ENTRY),
            reports: Forms::other(REPORT_BYTES, before::REPORT),
            journals: Forms::short(EVENTS_BYTES, before::EVENTS),
            enough: Forms::enough(),
            records: records(),
            entries: entries(),
        }
    }
}

impl Layouts {
    /// Counts what a scan was given, by its answer.
    pub fn add(&mut self, table: &Table, given: &Buffers, found: Answer) {
        let length = |bytes: &[u8]| iter::once((table.chain.len(), bytes.len()));
        let Err(refusal) = found else {
            if !table.chain.is_empty() {
                self.enough.add(length(&given.journal));
            }
            return;
        };
        let index = refusal.place_number().saturating_sub(1) as usize;
        match refusal.number() {
            20 => self.states.add(length(&given.state)),
            21 => {
                let (records, _) = given.state.as_chunks();
                let kind = table.kind(table.chain[index]);
                self.records.add(iter::once((kind, records[index])));
            }
            30 => self.frames.add(length(&given.frame)),
            31 => {
                let (entries, _) = given.frame.as_chunks();
                self.entries.add(iter::once(entries[index]));
            }
            40 => self.reports.add(length(&given.report)),
            41 => self.journals.add(length(&given.journal)),
            _ => {}
        }
    }

    /// Fails unless each form was met often.
    pub fn expect_often(&self) {
        for lengths in [&self.states, &self.frames, &self.reports] {
            lengths.expect(20);
        }
        self.journals.expect(10);
        self.enough.expect(20);
        self.records.expect(5000);
        self.entries.expect(200);
    }
}

impl fmt::Display for Layouts {
    fn fmt(&self, f: &mut fmt::Formatter<'_>) -> fmt::Result {
        write!(f, "refused 20\n{}", self.states)?;
        write!(f, "refused 21\n{}", self.records)?;
        write!(f, "refused 30\n{}", self.frames)?;
        write!(f, "refused 31\n{}", self.entries)?;
        write!(f, "refused 40\n{}", self.reports)?;
        write!(f, "refused 41\n{}", self.journals)?;
        write!(f, "journals long enough\n{}", self.enough)
    }
}
