//! Calls to try: kept ones, new ones, and damage to them.

use crate::call::{Call, Name};
use compare::journals::{bytes, count, foreign, good, Damage};
use compare::rng::Rng;
use compare::scans::{sound_state, List, Wrong};
use compare::tables::{alike, no_tag, tag, Fault, Size, Table};
use lane::RECORD_BYTES;

/// Calls kept as text, one a line: `[NAME] FUNCTION SLICE .. [= ANSWER ..]`.
const KEPT: [&str; 6] = [
    include_str!("../corpus.txt"),
    include_str!("../../compare/data/table_cases.txt"),
    include_str!("../../compare/data/cases.txt"),
    include_str!("../../compare/data/scan_cases.txt"),
    include_str!("../../compare/data/tidy_cases.txt"),
    include_str!("../../compare/data/journal_cases.txt"),
];

/// The call of a line.
fn parse(line: &str) -> Call {
    let call = line.split_once(" = ").map_or(line, |(call, _)| call);
    let words: Vec<&str> = call.split_whitespace().collect();
    let call = Call::parse(&words).or_else(|_| Call::parse(&words[1..]));
    call.unwrap_or_else(|message| panic!("{message}: {line}"))
}

/// The kept calls.
///
/// # Panics
/// If a line is out of form.
pub fn kept() -> Vec<Call> {
    let lines = KEPT.iter().flat_map(|text| text.lines());
    let lines = lines.filter(|line| !line.is_empty() && !line.starts_with('#'));
    lines.map(parse).collect()
}

/// So many random bytes.
fn noise(rng: &mut Rng, count: usize) -> Vec<u8> {
    (0..count).map(|_| rng.next() as u8).collect()
}

/// A tag that the table has, one like it, another, or none.
fn wanted(rng: &mut Rng, table: &Table) -> Vec<u8> {
    let known = match table.chain.is_empty() {
        true => tag(rng),
        false => table.tag(rng.pick(&table.chain)),
    };
    let wanted = match rng.below(4) {
        0 => known,
        1 => alike(rng, known),
        2 => tag(rng),
        _ => no_tag(rng),
    };
    wanted.to_vec()
}

/// A journal that the table accepts, one with damage, or a foreign one.
fn journal(rng: &mut Rng, table: &Table) -> Vec<u8> {
    let count = count(rng);
    let events = good(rng, table, count);
    let damage = rng.pick(&Damage::ALL);
    let journal = match rng.below(8) {
        0..=3 => None,
        4..=6 => damage.done_to(rng, table, &events),
        _ => Some(foreign(rng, table)),
    };
    journal.unwrap_or_else(|| bytes(&events))
}

/// A scan of a table in a sound state, at times with something wrong.
fn scan(rng: &mut Rng, table: Table) -> Vec<Vec<u8>> {
    let state = sound_state(rng, &table);
    let mut list = List::new(rng, table);
    let mut scan = list.scan(rng, &state);
    if rng.one_in(4) {
        let wrong = rng.pick(&Wrong::ALL);
        list.damage(rng, &mut scan, wrong);
    }
    let slices = [
        scan.image,
        scan.state,
        scan.frame,
        scan.report,
        scan.journal,
    ];
    slices.to_vec()
}

/// The functions of new calls: a scan twice as often as each of the others.
const NAMES: [Name; 7] = [
    Name::Check,
    Name::Find,
    Name::Tidy,
    Name::CheckJournal,
    Name::Fresh,
    Name::Scan,
    Name::Scan,
];

/// What a function is given after a table, in one slice.
fn second(rng: &mut Rng, name: Name, table: &Table) -> Vec<u8> {
    match name {
        Name::Find => wanted(rng, table),
        Name::Tidy => noise(rng, table.tidy_length()),
        Name::CheckJournal => journal(rng, table),
        Name::Fresh => noise(rng, RECORD_BYTES * table.chain.len()),
        Name::Check | Name::Scan => vec![],
    }
}

/// A new call, with a table that the engine accepts or one fault in it.
fn new(rng: &mut Rng) -> Call {
    let size = Size::any(rng);
    let mut table = Table::new(rng, size);
    let name = rng.pick(&NAMES);
    let second = second(rng, name, &table);
    if name != Name::Scan && rng.one_in(4) {
        let fault = rng.pick(&Fault::ALL);
        table.damage(rng, fault);
    }
    let slices = match name {
        Name::Check => vec![table.image],
        Name::Scan => scan(rng, table),
        _ => vec![table.image, second],
    };
    Call { name, slices }
}

/// Changes some bytes of a slice: to any, by one bit, or to a small number.
fn damage(rng: &mut Rng, bytes: &mut [u8]) {
    if bytes.is_empty() {
        return;
    }
    for _ in 0..rng.pick(&[1, 1, 2, 4, 16]) {
        let at = rng.below(bytes.len());
        bytes[at] = match rng.below(3) {
            0 => rng.byte(0, 255),
            1 => bytes[at] ^ 1 << rng.below(8),
            _ => rng.byte(0, 16),
        };
    }
}

/// Makes a slice longer or shorter, by a few bytes or by any number.
fn resize(rng: &mut Rng, bytes: &mut Vec<u8>) {
    let length = bytes.len();
    let length = match rng.below(4) {
        0 => length + rng.range(1, 64),
        1 => length.saturating_sub(rng.range(1, 64)),
        2 => rng.below(length + 1),
        _ => 2 * length,
    };
    let byte = rng.pick(&[0, 1, 0xff]);
    bytes.resize(length.min(8192), byte);
}

/// Damages a call in one way.
fn spoil(rng: &mut Rng, call: &mut Call, other: &Call) {
    let which = rng.below(call.slices.len());
    let length = call.slices[which].len();
    match rng.below(7) {
        0 | 1 => damage(rng, &mut call.slices[which]),
        2 => resize(rng, &mut call.slices[which]),
        // A slice of another call, of whatever kind.
        3 => call.slices[which].clone_from(&other.slices[rng.below(other.slices.len())]),
        4 => call.slices[which] = noise(rng, length),
        5 => call.slices[which].clear(),
        _ => call.slices.iter_mut().for_each(|bytes| damage(rng, bytes)),
    }
}

/// A call to try: a kept or a new one, as it is or damaged up to three times.
pub fn any(rng: &mut Rng, kept: &[Call]) -> Call {
    let other = &kept[rng.below(kept.len())];
    let mut call = match rng.below(3) {
        0 => kept[rng.below(kept.len())].clone(),
        _ => new(rng),
    };
    for _ in 0..rng.pick(&[0, 1, 1, 1, 2, 3]) {
        spoil(rng, &mut call, other);
    }
    call
}
