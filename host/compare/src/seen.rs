//! What the accepted scans of a test did: events by the kind of block, readings out of step, passes, pieces and steps.

use crate::readings::{OutOfStep, Readings};
use crate::records::Has;
use crate::scans::Buffers;
use crate::tables::Table;
use lane::{Entry, Event, EventKind, Record, ReportEntry};
use std::fmt;

/// Events by the kind of their block.
#[derive(Clone, Debug, Default)]
pub struct ByKind {
    /// By the kind of block and of event.
    events: [[u64; 6]; 15],
    /// Failed by time-out, by the kind of block.
    time_outs: [u64; 15],
}

impl ByKind {
    /// Counts an event of this table.
    pub fn add(&mut self, table: &Table, event: &Event) {
        let slot = table.chain[event.position.index()];
        let kind = usize::from(table.kind(slot));
        self.events[kind][usize::from(event.kind.number())] += 1;
        self.time_outs[kind] += u64::from(event.code == 1);
    }

    /// Fails unless each event was seen on each kind of block that can have it, and on no other.
    pub fn expect_all(&self) {
        for kind in 1..=14 {
            let has = Has::of(kind);
            let events = &self.events[usize::from(kind)];
            let can = [true, !has.continuous, true, has.abort, has.level];
            for (event, can) in EventKind::ALL.iter().zip(can) {
                let count = events[usize::from(event.number())];
                assert!((count > 0) == can, "kind {kind}: {count} {event:?}\n{self}");
            }
            let time_outs = self.time_outs[usize::from(kind)];
            assert!(
                (time_outs > 0) == has.time_out,
                "kind {kind}: {time_outs} time-outs\n{self}"
            );
        }
    }
}

impl fmt::Display for ByKind {
    fn fmt(&self, f: &mut fmt::Formatter<'_>) -> fmt::Result {
        writeln!(
            f,
            "  kind     start      done    failed (time-out)   aborted withdrawn"
        )?;
        for kind in 1..=14 {
            let [_, start, done, failed, aborted, withdrawn] = self.events[kind];
            let time_outs = self.time_outs[kind];
            writeln!(
                f,
                "{kind:>6}{start:>10}{done:>10}{failed:>10}{time_outs:>11}{aborted:>10}{withdrawn:>10}"
            )?;
        }
        Ok(())
    }
}

/// Counts over all calls of all accepted scans.
#[derive(Clone, Debug, Default)]
pub struct Seen {
    scans: u64,
    calls: u64,
    events: ByKind,
    out_of_step: OutOfStep,
    passes: [u64; 7],
    pieces: [u64; 5],
    steps: [u64; 7],
}

impl Seen {
    /// Counts what an accepted scan was given, and left: its report, and so many events.
    pub fn add(&mut self, table: &Table, given: &Buffers, after: &Buffers, events: u32) {
        self.scans += 1;
        let (records, _) = given.state.as_chunks();
        let (entries, _) = given.frame.as_chunks();
        let (reports, _) = after.report.as_chunks();
        let given = records.iter().zip(entries);
        for ((slot, (record, entry)), report) in table.chain.iter().zip(given).zip(reports) {
            let record = Record::decode(record).expect("a record in form");
            let entry = Entry::decode(entry).expect("a frame entry in form");
            let report = ReportEntry::decode(report).expect("a report entry in form");
            self.add_call(table.kind(*slot), &record, &entry, &report);
        }
        for event in events_of(after, events) {
            self.events.add(table, &event);
        }
    }

    /// Counts one call: from this record with this entry, and what was reported of it.
    fn add_call(&mut self, kind: u8, record: &Record, entry: &Entry, report: &ReportEntry) {
        assert!(report.passes <= 6, "{} passes", report.passes);
        self.calls += 1;
        self.passes[usize::from(report.passes)] += 1;
        self.pieces[usize::from(report.pieces_used)] += 1;
        self.steps[usize::from(report.step.number())] += 1;
        if report.pieces_used > 0 {
            let readings = Readings::new(kind, record, entry, report.pieces_used);
            self.out_of_step.add(kind, &readings);
        }
    }

    /// Fails unless each event was seen on each kind of block that can have it, all numbers of
    /// passes, of pieces and all steps, and readings out of step often.
    pub fn expect_all(&self) {
        self.events.expect_all();
        self.out_of_step.expect_often();
        assert!(self.passes[1..].iter().all(|&count| count > 0), "{self}");
        assert!(self.pieces.iter().all(|&count| count > 0), "{self}");
        assert!(self.steps.iter().all(|&count| count > 0), "{self}");
    }
}

/// The first events of a journal, so many.
pub fn events_of(after: &Buffers, events: u32) -> impl Iterator<Item = Event> + '_ {
    let (list, _) = after.journal.as_chunks();
    let list = list.iter().take(events as usize);
    list.map(|bytes| Event::decode(bytes).expect("an event in form"))
}

impl fmt::Display for Seen {
    fn fmt(&self, f: &mut fmt::Formatter<'_>) -> fmt::Result {
        writeln!(f, "{} accepted scans, {} calls", self.scans, self.calls)?;
        write!(f, "{}{}", self.events, self.out_of_step)?;
        writeln!(f, "  calls of 1 to 6 passes: {:?}", &self.passes[1..])?;
        writeln!(f, "  calls of 0 to 4 pieces: {:?}", self.pieces)?;
        writeln!(f, "  calls left at step 0 to 6: {:?}", self.steps)
    }
}
