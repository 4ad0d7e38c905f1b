//! The check of a journal at 1, 8 and 64 blocks: a short journal and a long one.

use crate::baseline;
use crate::scan::table;
use crate::table::{OTHERS, SIZES};
use crate::timing::{head, line, nanoseconds};
use lane::{ffi, Event, EventKind, Position};
use std::hint::black_box;

/// The events of the long journal.
const LONG: usize = 1_000;

/// Event number `index`, from 0: all blocks start in turn, then all finish in turn, and so on. Every third job fails.
fn event(blocks: usize, index: usize) -> Event {
    let (round, at) = (index / (2 * blocks), index % (2 * blocks));
    let job = round * blocks + at % blocks;
    let (kind, code) = match (at < blocks, job % 3) {
        (true, _) => (EventKind::Start, 0),
        (false, 0) => (EventKind::Failed, 2),
        (false, _) => (EventKind::Done, 0),
    };
    Event {
        kind,
        position: Position::new(at % blocks + 1).expect("a position"),
        code,
        job: (1 << 40) + job as u64,
    }
}

/// A journal of so many events, as bytes.
fn journal(blocks: usize, events: usize) -> Vec<u8> {
    let events = (0..events).map(|index| event(blocks, index).encode());
    events.collect::<Vec<_>>().concat()
}

/// A function that checks a journal against an image: its answer as one number.
type Check = fn(&[u8], &[u8]) -> u64;

/// A refusal as one number.
fn packed(number: impl Into<u64>, place: usize) -> u64 {
    number.into() << 32 | place as u64
}

fn by_engine(image: &[u8], journal: &[u8]) -> u64 {
    let answer = ffi::check_journal(image, journal);
    answer.map_or_else(
        |no| packed(no.number(), no.place_number() as usize),
        u64::from,
    )
}

fn by_reference(image: &[u8], journal: &[u8]) -> u64 {
    let answer = reference::journal::check_journal(image, journal);
    answer.map_or_else(|no| packed(no.number, no.place), |events| events as u64)
}

const ALL: [Check; 3] = [by_engine, by_reference, baseline::check_journal];

/// The times of a check by each implementation; all have to accept the journal, and to refuse it if its last event
/// has no kind.
fn measure(image: &[u8], journal: &[u8]) -> [f64; 3] {
    let events = journal.len() / lane::EVENT_BYTES;
    let mut wrong = journal.to_vec();
    wrong[journal.len() - lane::EVENT_BYTES] = 0;
    for check in ALL {
        assert_eq!(check(image, journal), events as u64);
        assert_eq!(check(image, &wrong), packed(71u8, events));
    }
    let mut works =
        ALL.map(|check| move || _ = black_box(check(black_box(image), black_box(journal))));
    nanoseconds(works.each_mut().map(|work| work as &mut dyn FnMut()))
}

/// Measures and prints.
pub fn run() {
    println!("\nJournal: kinds 1 to 12 in turn, no wires. All blocks start, then all finish: once in the");
    println!("short journal, of 2 events a block, and again up to {LONG} events in the long one.");
    head(&OTHERS);
    let mut first = [None; 2];
    for blocks in SIZES {
        let table = table(blocks);
        let journals = [("journal, short", 2 * blocks), ("journal, long", LONG)];
        for ((name, events), first) in journals.iter().zip(&mut first) {
            let times = measure(&table, &journal(blocks, *events));
            line(name, blocks, &OTHERS, &times, first);
        }
    }
}
