//! Journals of a table: good ones, made from the rules of request 6/14 alone or written by lists of scans, damage to
//! them, and foreign ones.

use crate::records::{code, job, word, Has};
use crate::rng::Rng;
use crate::scan_check::{fresh, scan};
use crate::scans::{noise, List};
use crate::tables::{Size, Table};
use lane::{EVENT_BYTES, RECORD_BYTES};
use reference::machine::Event;

/// The bytes of these events.
pub fn bytes(events: &[Event]) -> Vec<u8> {
    events.iter().flat_map(Event::encode).collect()
}

/// The whole events in these bytes.
pub fn events(bytes: &[u8]) -> Vec<Event> {
    let (events, _) = bytes.as_chunks();
    events.iter().map(Event::decode).collect()
}

/// How many events a journal gets: mostly a few, sometimes more than one byte counts.
pub fn count(rng: &mut Rng) -> usize {
    match rng.below(32) {
        0..=3 => rng.below(4),
        4..=27 => rng.range(4, 24),
        28..=30 => rng.range(25, 120),
        _ => rng.range(250, 400),
    }
}

/// A finish that a block of this kind can have: its kind and its code.
fn finish(rng: &mut Rng, kind: u8) -> (u8, u16) {
    let has = Has::of(kind);
    let finishes = [
        (true, (Event::FAILED, code(rng))),
        (has.time_out, (Event::FAILED, 1)),
        (!has.continuous, (Event::DONE, 0)),
        (has.abort, (Event::ABORTED, 0)),
        (has.level, (Event::WITHDRAWN, 0)),
    ];
    let can: Vec<(u8, u16)> = finishes
        .into_iter()
        .filter_map(|(can, finish)| can.then_some(finish))
        .collect();
    rng.pick(&can)
}

/// A good journal of so many events, without a scan: starts and finishes of all blocks or of a few, in any order that
/// gives each block its turns. Empty for a table of no blocks.
pub fn good(rng: &mut Rng, table: &Table, count: usize) -> Vec<Event> {
    let kinds = table.kinds();
    let mut blocks: Vec<usize> = (0..kinds.len()).collect();
    rng.shuffle(&mut blocks);
    blocks.truncate(rng.pick(&[1, 2, 8, 64]));
    let count = if blocks.is_empty() { 0 } else { count };
    let like = rng.next();
    let mut open = vec![None; kinds.len()];
    let mut next = || {
        let index = rng.pick(&blocks);
        let (kind, code, job) = match open[index].take() {
            Some(job) => {
                let (kind, code) = finish(rng, kinds[index]);
                (kind, code, job)
            }
            None => {
                let job = job(rng, like);
                open[index] = Some(job);
                (Event::START, 0, job)
            }
        };
        let position = index as u8 + 1;
        Event {
            kind,
            position,
            code,
            job,
        }
    };
    (0..count).map(|_| next()).collect()
}

/// What a list of scans wrote.
#[derive(Clone, Debug, Default)]
pub struct Written {
    pub journal: Vec<u8>,
    /// How many of its scans were refused.
    pub refused: u64,
}

/// The journal of a list of so many scans from a fresh state, as both implementations write it. At times a scan is given
/// something wrong.
pub fn written(rng: &mut Rng, table: &Table, scans: usize) -> Result<Written, String> {
    let state = noise(rng, RECORD_BYTES * table.chain.len());
    let (_, mut state) = fresh(&table.image, &state)?;
    let mut list = List::new(rng, table.clone());
    let mut written = Written::default();
    for _ in 0..scans {
        let mut given = list.scan(rng, &state);
        list.spoil(rng, &mut given);
        match scan(&given)? {
            // A scan of a changed state is no part of the list.
            (Ok(events), after) if given.state == state => {
                let events = &after.journal[..EVENT_BYTES * events as usize];
                written.journal.extend_from_slice(events);
                state = after.state;
            }
            (found, _) => written.refused += u64::from(found.is_err()),
        }
    }
    Ok(written)
}

/// Any event in form, often with a job of these events.
pub fn any(rng: &mut Rng, blocks: usize, events: &[Event]) -> Event {
    let like = match events.is_empty() {
        true => rng.next(),
        false => rng.pick(events).job,
    };
    Event {
        kind: rng.byte(1, 5),
        position: rng.byte(1, blocks.max(1) as u8),
        code: rng.pick(&[0, 0, 0, 1, 2, 65_535]),
        job: match rng.one_in(4) {
            true => job(rng, like),
            false => like,
        },
    }
}

/// A foreign journal, of any length: zeros, ones, noise, events in form, or a good journal of another table.
pub fn foreign(rng: &mut Rng, table: &Table) -> Vec<u8> {
    let count = count(rng);
    let length = match rng.one_in(4) {
        true => rng.below(EVENT_BYTES * (count + 1)),
        false => EVENT_BYTES * count,
    };
    let mut events = Vec::new();
    match rng.below(8) {
        0 => return vec![0; length],
        1 => return vec![0xff; length],
        2 => return noise(rng, length),
        3 => return (0..length).map(|_| rng.next() as u8).collect(),
        4..=6 => {
            for _ in 0..count {
                events.push(any(rng, table.chain.len(), &events));
            }
        }
        _ => {
            let size = Size::any(rng);
            let other = Table::new(rng, size);
            events = good(rng, &other, count);
        }
    }
    bytes(&events)
}

/// A kind of damage to a journal.
#[derive(Clone, Copy, Debug, PartialEq, Eq)]
pub enum Damage {
    /// A byte anywhere.
    Byte,
    /// A field of an event; of its job, the low four bytes or the high four.
    Kind,
    Position,
    Code,
    LowJob,
    HighJob,
    /// Any finish in the place of an event.
    Finish,
    Dropped,
    /// Once more, right after it or later.
    Doubled,
    /// With the next one or any other.
    Swapped,
    /// To another place in the journal.
    Moved,
    /// An event in form.
    Inserted,
    /// 1 to 11 bytes more or fewer.
    Length,
}

impl Damage {
    /// All kinds.
    pub const ALL: [Damage; 13] = [
        Damage::Byte,
        Damage::Kind,
        Damage::Position,
        Damage::Code,
        Damage::LowJob,
        Damage::HighJob,
        Damage::Finish,
        Damage::Dropped,
        Damage::Doubled,
        Damage::Swapped,
        Damage::Moved,
        Damage::Inserted,
        Damage::Length,
    ];

    /// The bytes of these events with this damage, `None` where there is nothing to damage.
    pub fn done_to(self, rng: &mut Rng, table: &Table, given: &[Event]) -> Option<Vec<u8>> {
        let (mut events, blocks) = (given.to_vec(), table.chain.len());
        let at = rng.below(events.len().max(1));
        match self {
            Damage::Inserted => events.insert(at, any(rng, blocks, given)),
            Damage::Length => return Some(resized(rng, bytes(given))),
            _ if events.is_empty() => return None,
            Damage::Byte => return Some(changed(rng, bytes(given))),
            Damage::Kind => change_kind(rng, &mut events[at]),
            Damage::Position => change_position(rng, blocks, &mut events[at]),
            Damage::Code => change_code(rng, &mut events[at]),
            Damage::LowJob => events[at].job ^= bits(rng),
            Damage::HighJob => events[at].job ^= bits(rng) << 32,
            Damage::Finish => (events[at].kind, events[at].code) = rng.pick(&FINISHES),
            Damage::Dropped => _ = events.remove(at),
            Damage::Doubled => {
                let later = rng.range(at, events.len());
                events.insert(rng.pick(&[at, later]), given[at]);
            }
            Damage::Swapped => {
                let any = rng.below(events.len());
                events.swap(at, rng.pick(&[(at + 1) % given.len(), any]));
            }
            Damage::Moved => {
                let event = events.remove(at);
                events.insert(rng.below(given.len()), event);
            }
        }
        Some(bytes(&events))
    }
}

/// A finish of each kind; of failed with each code that counts.
const FINISHES: [(u8, u16); 6] = [
    (Event::DONE, 0),
    (Event::FAILED, 0),
    (Event::FAILED, 1),
    (Event::FAILED, 2),
    (Event::ABORTED, 0),
    (Event::WITHDRAWN, 0),
];

/// Another value than this one.
fn other<T: PartialEq>(rng: &mut Rng, value: T, draw: impl Fn(&mut Rng) -> T) -> T {
    loop {
        let other = draw(rng);
        if other != value {
            return other;
        }
    }
}

/// Gives an event another kind, at times one that is none.
fn change_kind(rng: &mut Rng, event: &mut Event) {
    event.kind = other(rng, event.kind, |rng| match rng.below(2) {
        0 => rng.pick(&[0, 6, 7, 255]),
        _ => rng.byte(1, 5),
    });
}

/// Gives an event another position: of another of so many blocks, or of none.
fn change_position(rng: &mut Rng, blocks: usize, event: &mut Event) {
    let last = blocks as u8;
    event.position = other(rng, event.position, |rng| match rng.below(3) {
        0 => rng.byte(1, 64),
        1 => rng.pick(&[0, last + 1, 64, 65, 255]),
        _ => rng.byte(1, last.max(1)),
    });
}

/// Gives an event another code, whatever its kind.
fn change_code(rng: &mut Rng, event: &mut Event) {
    event.code = other(rng, event.code, |rng| {
        let any = code(rng);
        rng.pick(&[0, 1, 1, 2, 256, 65_535, any])
    });
}

/// Some bits of 32, often one.
fn bits(rng: &mut Rng) -> u64 {
    match rng.below(3) {
        0 => u64::from(word(rng).max(1)),
        _ => 1 << rng.below(32),
    }
}

/// The bytes with one of them changed.
fn changed(rng: &mut Rng, mut bytes: Vec<u8>) -> Vec<u8> {
    let at = rng.below(bytes.len());
    bytes[at] ^= rng.byte(1, 255);
    bytes
}

/// The bytes with 1 to 11 fewer, or more.
fn resized(rng: &mut Rng, mut bytes: Vec<u8>) -> Vec<u8> {
    let by = rng.range(1, EVENT_BYTES - 1);
    let length = match bytes.len().checked_sub(by) {
        Some(length) if rng.one_in(2) => length,
        _ => bytes.len() + by,
    };
    bytes.resize(length, rng.byte(0, 2));
    bytes
}
