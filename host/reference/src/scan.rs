//! A fresh state, and one scan over all blocks of a table.
//!
//! "An accepted scan calls each block once, in chain order; a refused one calls
//! none and has no events."

use crate::machine::{call, Entry, Event, Events, Inputs, Record, Report};
use crate::table::{chain, refuse, Refusal, Slot, Table, Wire};

/// Check 20.
///
/// | state | 20 | length not 32 × blocks |
/// |---|---|---|
///
/// Document 02, 3/14: "State record: 40 bytes", and "Numbers 20, 30 and 40 use
/// the new lengths".
fn check_state_length(table: &Table, state: &[u8]) -> Result<(), Refusal> {
    if state.len() != Record::SIZE * table.count() {
        return refuse(20, 0);
    }
    Ok(())
}

/// Check 21.
///
/// | | 21 | unsound (not for fresh); first position |
/// |---|---|---|
fn check_records(table: &Table, state: &[u8]) -> Result<(), Refusal> {
    let (records, _) = state.as_chunks::<{ Record::SIZE }>();
    for (((_, slot), record), position) in table.blocks().zip(records).zip(1usize..) {
        if !Record::is_sound(record, Slot::decode(slot).kind) {
            return refuse(21, position);
        }
    }
    Ok(())
}

/// Checks 30 and 31.
///
/// | frame | 30 | length not 56 × blocks |
/// |---|---|---|
/// | | 31 | an entry not as above; first position |
///
/// Document 02, 3/14: "Frame entry: 64 bytes".
fn check_frame(table: &Table, frame: &[u8]) -> Result<(), Refusal> {
    if frame.len() != Entry::SIZE * table.count() {
        return refuse(30, 0);
    }
    let (entries, _) = frame.as_chunks::<{ Entry::SIZE }>();
    for (entry, position) in entries.iter().zip(1usize..) {
        if !Entry::is_formed(entry) {
            return refuse(31, position);
        }
    }
    Ok(())
}

/// Checks 40 and 41.
///
/// | report | 40 | length not 12 × blocks |
/// |---|---|---|
/// | journal | 41 | length under 16 × blocks |
///
/// Document 02, 3/14: "Report: 16 bytes", and "41 means under 24 × blocks."
fn check_output(table: &Table, report: &[u8], journal: &[u8]) -> Result<(), Refusal> {
    if report.len() != Report::SIZE * table.count() {
        return refuse(40, 0);
    }
    if journal.len() < Events::MAX * Event::SIZE * table.count() {
        return refuse(41, 0);
    }
    Ok(())
}

/// "Wire slot 0 takes the input bit from the frame"; "A wired input reads that
/// flag as it stands when the block is called, so a block earlier in the chain
/// gives this scan's flag, and a later one or itself the last scan's."
fn read_input(table: &Table, records: &[[u8; Record::SIZE]], wire: Wire, bit: bool) -> bool {
    if wire.slot == 0 {
        return bit;
    }
    // A wire of an accepted table names a slot on the chain, so its position
    // is 1 to the number of blocks.
    let source = usize::from(table.position(wire.slot)) - 1;
    wire.read(Record::decode(&records[source]).flags)
}

/// Calls each block once, in chain order, on buffers that passed the checks;
/// the number of events written. "Each block writes only its own ... bytes of
/// the report". "Events stand in order of call; journal bytes after the last
/// are unchanged."
fn run(
    table: &Table,
    records: &mut [[u8; Record::SIZE]],
    entries: &[[u8; Entry::SIZE]],
    reports: &mut [[u8; Report::SIZE]],
    journal: &mut [[u8; Event::SIZE]],
) -> usize {
    let mut written = 0;
    for (index, (_, slot)) in table.blocks().enumerate() {
        let block = Slot::decode(slot);
        let entry = Entry::decode(&entries[index]);
        let inputs = Inputs {
            start: read_input(table, records, block.start, entry.inputs.start),
            abort: read_input(table, records, block.abort, entry.inputs.abort),
        };
        let mut record = Record::decode(&records[index]);
        let position = index as u8 + 1;
        let (report, events) = call(block.kind, position, inputs, &entry, &mut record);
        records[index] = record.encode();
        reports[index] = report.encode();
        for event in events.as_slice() {
            journal[written] = event.encode();
            written += 1;
        }
    }
    written
}

/// Makes a fresh state: "Fresh is all zero." "An accepted table check, and a
/// fresh state made, answer the number of blocks." "Every entry point makes the
/// table checks, 1 to 11, first; then fresh makes 20."
pub fn fresh(image: &[u8], state: &mut [u8]) -> Result<usize, Refusal> {
    let table = chain(image)?;
    check_state_length(&table, state)?;
    state.fill(0);
    Ok(table.count())
}

/// Runs one scan: "A scan leaves the new records in the state buffer and
/// answers the event count, at most two a block." "Nothing is written before
/// the last check; the scan goes on only with a table that was accepted."
/// "Checks run from the top down, the first that fails is given."
pub fn scan(
    image: &[u8],
    state: &mut [u8],
    frame: &[u8],
    report: &mut [u8],
    journal: &mut [u8],
) -> Result<usize, Refusal> {
    let table = chain(image)?;
    check_state_length(&table, state)?;
    check_records(&table, state)?;
    check_frame(&table, frame)?;
    check_output(&table, report, journal)?;
    let (records, _) = state.as_chunks_mut();
    let (entries, _) = frame.as_chunks();
    let (reports, _) = report.as_chunks_mut();
    let (events, _) = journal.as_chunks_mut();
    Ok(run(&table, records, entries, reports, events))
}
