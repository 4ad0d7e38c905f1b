//! The readings of calls that used pieces: which of them are out of step, and how often that tells.

use crate::records::{Has, HALF};
use lane::{Entry, Record, Step};
use std::{fmt, iter};

/// The greatest difference that counts, the least that does not, and one more.
const EDGES: [u32; 3] = [HALF - 1, HALF, HALF + 1];

/// The readings of one call, and its bounds.
#[derive(Clone, Debug)]
pub struct Readings {
    /// The differences of its clock and those of the pieces used, each from the last reading in step.
    from_last: Vec<u32>,
    /// The differences of the pieces used from its clock.
    from_call: Vec<u32>,
    /// Elapsed before it.
    elapsed: u64,
    /// The time limit and the time-out in force, 0 for none.
    limit: u32,
    time_out: u32,
}

impl Readings {
    /// Those of a call from this record with this entry, which used so many pieces, one at least.
    pub fn new(kind: u8, record: &Record, entry: &Entry, used: u8) -> Readings {
        let has = Has::of(kind);
        let start = Record {
            time_limit: entry.time_limit,
            time_out: entry.time_out,
            last_reading: entry.clock,
            ..Record::default()
        };
        let begun = record.step == Step::Executing;
        let from = if begun { record } else { &start };
        let stored = if has.level { &start } else { from };
        let pieces = &entry.pieces.as_slice()[..usize::from(used)];
        let clocks = pieces.iter().map(|piece| piece.clock);
        let mut last = from.last_reading;
        let readings = iter::once(entry.clock).chain(clocks.clone());
        let from_last = readings.map(|reading| {
            let time = reading.wrapping_sub(last);
            if time < HALF {
                last = reading;
            }
            time
        });
        Readings {
            from_last: from_last.collect(),
            from_call: clocks
                .map(|clock| clock.wrapping_sub(entry.clock))
                .collect(),
            elapsed: from.elapsed,
            limit: u32::from(has.limit) * stored.time_limit,
            time_out: u32::from(has.time_out) * stored.time_out,
        }
    }

    /// Whether a reading is out of step with the last.
    fn off_last(&self) -> bool {
        self.from_last.iter().any(|&time| time >= HALF)
    }

    /// Whether a piece is past the time limit but for being out of step with the call clock, so that another was used.
    fn off_limit(&self) -> bool {
        let [before @ .., _] = self.from_call.as_slice() else {
            return false;
        };
        let mut before = before.iter();
        self.limit > 0 && before.any(|&time| time >= HALF && time > self.limit)
    }

    /// Whether elapsed is past the time-out but for readings out of step.
    fn off_time_out(&self) -> bool {
        let time_out = u64::from(self.time_out);
        let plain: u64 = self.from_last.iter().copied().map(u64::from).sum();
        let counted = self.from_last.iter().filter(|&&time| time < HALF);
        let counted: u64 = counted.copied().map(u64::from).sum();
        time_out > 0 && self.elapsed + counted <= time_out && self.elapsed + plain > time_out
    }
}

/// The calls of one kind of block.
#[derive(Clone, Copy, Debug, Default)]
struct OfKind {
    calls: u64,
    off_last: u64,
    off_limit: u64,
    off_time_out: u64,
    /// Those with each of the differences about half the range.
    edges: [u64; 3],
}

/// Calls that used pieces, and those of them with readings out of step, by the kind of block.
#[derive(Clone, Debug, Default)]
pub struct OutOfStep {
    kinds: [OfKind; 15],
}

impl OutOfStep {
    /// Counts one call.
    pub fn add(&mut self, kind: u8, readings: &Readings) {
        let of = &mut self.kinds[usize::from(kind)];
        of.calls += 1;
        of.off_last += u64::from(readings.off_last());
        of.off_limit += u64::from(readings.off_limit());
        of.off_time_out += u64::from(readings.off_time_out());
        for (count, edge) in of.edges.iter_mut().zip(EDGES) {
            *count += u64::from(readings.from_last.contains(&edge));
        }
    }

    /// Fails unless readings out of step were met often on each kind of block: with the last reading, at its edges, and
    /// where limit and time-out go by it.
    pub fn expect_often(&self) {
        for kind in 1..=14 {
            let (has, of) = (Has::of(kind), self.kinds[usize::from(kind)]);
            let often = |count: u64, one_in: u64, can: bool| {
                let often = if can {
                    one_in * count > of.calls
                } else {
                    count == 0
                };
                assert!(often, "kind {kind}: {of:?}\n{self}");
            };
            often(of.off_last, 5, true);
            often(of.off_limit, 30, has.limit);
            often(of.off_time_out, 20, has.time_out);
            for count in of.edges {
                often(count, 100, true);
            }
        }
    }
}

impl fmt::Display for OutOfStep {
    fn fmt(&self, f: &mut fmt::Formatter<'_>) -> fmt::Result {
        writeln!(
            f,
            "  calls that used pieces; with a reading out of step; for that not past the limit, the time-out; with 2^31 - 1, 2^31, 2^31 + 1"
        )?;
        for (kind, of) in self.kinds.iter().enumerate().skip(1) {
            let (calls, last) = (of.calls, of.off_last);
            let (limit, time_out) = (of.off_limit, of.off_time_out);
            let edges = of.edges;
            writeln!(
                f,
                "{kind:>6}{calls:>10}{last:>10}{limit:>10}{time_out:>10}  {edges:?}"
            )?;
        }
        Ok(())
    }
}
