//! A foreign journal judged against a table: request 6/14 of document 02.
//!
//! "Other makers' gate boxes hand us journals of our events. Judge one against a
//! table." What an event says of its block is held to the block's kind and to
//! the block's events before it; wires have no part in it.

use crate::machine::{Event, TIME_OUT_CODE};
use crate::table::{chain, refuse, Refusal, Table, MAX_SLOTS};
use crate::table::{has_abort, has_time_out, is_continuous, is_level};

/// By position, the job of a start that has no finish yet. Positions are 1 to
/// 64.
type Open = [Option<u64>; MAX_SLOTS + 1];

/// Check 70: "70 for a length not a multiple of the event". It names no place.
fn events(journal: &[u8]) -> Result<&[[u8; Event::SIZE]], Refusal> {
    let (events, rest) = journal.as_chunks();
    if !rest.is_empty() {
        return refuse(70, 0);
    }
    Ok(events)
}

/// "each event has kind 1 to 5"
fn has_kind(event: &Event) -> bool {
    matches!(event.kind, 1..=5)
}

/// "Kind 1 is a start, 2 to 5 are finishes."
fn is_start(event: &Event) -> bool {
    event.kind == Event::START
}

/// "each block's events alternate beginning with a start"
fn takes_turn(event: &Event, open: Option<u64>) -> bool {
    is_start(event) == open.is_none()
}

/// "each finish has its start's job": that of "the start just before it among the
/// block's entries". One without a start is out of turn.
fn has_job(event: &Event, open: Option<u64>) -> bool {
    is_start(event) || open.is_none_or(|job| job == event.job)
}

/// "aborted stands only on kinds 5-8, withdrawn only on 9-14, done not on 13 and
/// 14"
fn stands_on(event: &Event, kind: u8) -> bool {
    match event.kind {
        Event::ABORTED => has_abort(kind),
        Event::WITHDRAWN => is_level(kind),
        Event::DONE => !is_continuous(kind),
        _ => true,
    }
}

/// "a failed code is nonzero, and is 1 only on To kinds, and other codes are 0"
fn has_code(event: &Event, kind: u8) -> bool {
    match (event.kind, event.code) {
        (Event::FAILED, 0) => false,
        (Event::FAILED, TIME_OUT_CODE) => has_time_out(kind),
        (Event::FAILED, _) => true,
        (_, code) => code == 0,
    }
}

/// Whether an event is good after those before it, which left these jobs open.
/// It is bad without "a position in the table".
fn is_good(table: &Table, open: &Open, event: &Event) -> bool {
    let Some(block) = table.block(event.position) else {
        return false;
    };
    let open = open[usize::from(event.position)];
    has_kind(event)
        && takes_turn(event, open)
        && has_job(event, open)
        && stands_on(event, block.kind)
        && has_code(event, block.kind)
}

/// Judges a journal: "An accepted journal answers its event count."
///
/// "Answers: 70 for a length not a multiple of the event; 71 with the number of
/// the first bad event, from 1, as its place; both after the table checks."
pub fn check_journal(image: &[u8], journal: &[u8]) -> Result<usize, Refusal> {
    let table = chain(image)?;
    let events = events(journal)?;
    let mut open: Open = [None; MAX_SLOTS + 1];
    for (bytes, number) in events.iter().zip(1usize..) {
        let event = Event::decode(bytes);
        if !is_good(&table, &open, &event) {
            return refuse(71, number);
        }
        // A good event has a position of the table, so the index is in range.
        open[usize::from(event.position)] = is_start(&event).then_some(event.job);
    }
    Ok(events.len())
}
