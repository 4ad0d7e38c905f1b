//! Foreign journals, request 6/14: the engine against the reference, and both against what the papers say of them.
//!
//! `LANE_SEED` sets the seed, `LANE_ROUNDS` multiplies the number of cases. A failing call is printed as
//! a command that runs it again.

use compare::blocks::Blocks;
use compare::check::{agreed, check_journal};
use compare::journals::{any, bytes, count, events, foreign, good, written, Damage, Written};
use compare::rng::{settings, Rng};
use compare::scan_check::{fresh, scan};
use compare::scans::{self, noise, Buffers, EVENTS_BYTES};
use compare::scripts::frames;
use compare::tables::{Fault, Size, Table};
use compare::tally::{Tally, EVENT, JOURNAL_LENGTH, SLOT, TABLE};
use compare::text::{answer, slice, Answer};
use compare::verdicts::{expected, Verdicts};
use lane::{Engine, Refusal, EVENT_BYTES, RECORD_BYTES, REPORT_BYTES};
use reference::machine::Event;

/// The answer to a journal of a wrong length.
const WRONG_LENGTH: Answer = Err(Refusal::new(JOURNAL_LENGTH, 0));

/// The answer to a journal whose first bad event has this number.
const fn bad(number: usize) -> Answer {
    Err(Refusal::new(EVENT, number as u32))
}

/// Fails where both implementations answer something else to a journal.
fn expect(case: u64, image: &[u8], journal: &[u8], expected: Answer) {
    let found = agreed(case, check_journal(image, journal));
    assert!(
        found == expected,
        "case {case}: expected {}, both answer {}: check_journal {} {}",
        answer(expected),
        answer(found),
        slice(image),
        slice(journal)
    );
}

/// Fails unless both implementations answer what the rules say of a journal; counts it.
fn judge(case: u64, table: &Table, journal: &[u8], met: &mut Verdicts) {
    let answer = expected(table, journal);
    expect(case, &table.image, journal, answer);
    met.add(table, journal, answer);
}

/// Fails unless both implementations accept a journal; counts it.
fn accept(case: u64, table: &Table, journal: &[u8], met: &mut Verdicts) {
    let answer = Ok((journal.len() / EVENT_BYTES) as u32);
    expect(case, &table.image, journal, answer);
    met.add(table, journal, answer);
}

/// Fails unless the binding answers the same to a journal, and both implementations do by the tidy table.
fn expect_same(case: u64, table: &Table, journal: &[u8]) {
    let answer = expected(table, journal);
    expect(case, &Blocks::of(table).tidy().image, journal, answer);
    let engine = Engine::new(&table.image).expect("an accepted table");
    let found = engine.check_journal(journal);
    assert_eq!(found, answer.map(|count| count as usize), "case {case}");
}

/// A table of any size, often with few blocks; half of them without wires, in any arrangement.
fn table(rng: &mut Rng) -> Table {
    let table = scans::table(rng);
    match rng.below(2) {
        0 => table,
        _ => unwired(rng, &table),
    }
}

/// The table's blocks without wires, in any slots.
fn unwired(rng: &mut Rng, table: &Table) -> Table {
    Blocks::of(table).unwired().arranged(rng)
}

/// Every journal of a list of scans from a fresh state, refused ones included, is accepted; so is its beginning.
#[test]
fn lists_of_scans() {
    let (seed, lists) = settings("journals of lists of scans", 401, 12_000);
    let (mut met, mut with_refused) = (Verdicts::default(), 0u64);
    for case in 0..lists {
        let mut rng = Rng::for_case(seed, case);
        let table = table(&mut rng);
        let scans = rng.pick(&[0, 1, 4, 8, 16, 32]);
        let Written { journal, refused } = agreed(case, written(&mut rng, &table, scans));
        with_refused += u64::from(refused > 0 && !journal.is_empty());
        accept(case, &table, &journal, &mut met);
        expect_same(case, &table, &journal);
        let first = rng.below(journal.len() / EVENT_BYTES + 1);
        let beginning = &journal[..EVENT_BYTES * first];
        expect(case, &table.image, beginning, Ok(first as u32));
    }
    println!("{met}{with_refused:>10} lists with refused scans");
    met.expect_accepted(500);
    met.expect_wired(10);
    assert_eq!(met.tally().accepted(), lists);
    assert!(4 * with_refused > lists);
}

/// Good journals without a scan.
#[test]
fn good_journals() {
    let (seed, cases) = settings("good journals", 402, 40_000);
    let mut met = Verdicts::default();
    for case in 0..cases {
        let mut rng = Rng::for_case(seed, case);
        let table = table(&mut rng);
        let count = count(&mut rng);
        let journal = bytes(&good(&mut rng, &table, count));
        accept(case, &table, &journal, &mut met);
    }
    print!("{met}");
    met.expect_accepted(500);
    met.expect_wired(10);
}

/// A good journal of this table, with or without scans.
fn any_good(case: u64, rng: &mut Rng, table: &Table) -> Vec<Event> {
    if rng.one_in(8) {
        return events(&agreed(case, written(rng, table, 12)).journal);
    }
    let count = count(rng);
    good(rng, table, count)
}

/// Good journals with one kind of damage.
#[test]
fn damaged_journals() {
    let (seed, cases) = settings("damaged journals", 403, 80_000);
    let (mut met, mut by_damage) = (Verdicts::default(), [[0u64; 2]; Damage::ALL.len()]);
    for case in 0..cases {
        let mut rng = Rng::for_case(seed, case);
        let table = table(&mut rng);
        let good = any_good(case, &mut rng, &table);
        let which = rng.below(Damage::ALL.len());
        if let Some(journal) = Damage::ALL[which].done_to(&mut rng, &table, &good) {
            judge(case, &table, &journal, &mut met);
            let refused = expected(&table, &journal).is_err();
            by_damage[which][usize::from(refused)] += 1;
        }
    }
    print!("{met}");
    for (damage, [accepted, refused]) in Damage::ALL.iter().zip(by_damage) {
        println!("{accepted:>10} accepted, {refused:>10} refused: {damage:?}");
        assert!(20 * refused > accepted, "too few refused: {damage:?}");
        let can_stand = *damage != Damage::Length;
        assert_eq!(accepted > 0, can_stand, "{damage:?}");
    }
    met.expect_refused(5_000);
}

/// Noise, zeros, ones, events in form and journals of other tables.
#[test]
fn foreign_journals() {
    let (seed, cases) = settings("foreign journals", 404, 40_000);
    let mut met = Verdicts::default();
    for case in 0..cases {
        let mut rng = Rng::for_case(seed, case);
        let table = table(&mut rng);
        let journal = foreign(&mut rng, &table);
        judge(case, &table, &journal, &mut met);
        expect_same(case, &table, &journal);
    }
    print!("{met}");
    let tally = met.tally();
    assert!(tally.accepted() > cases / 100 && tally.refused(JOURNAL_LENGTH) > cases / 20);
    assert!(tally.refused(EVENT) > cases / 2 && tally.greatest_place(EVENT) > 10);
}

/// A table of one block of this kind, without wires.
fn one(rng: &mut Rng, kind: u8) -> Table {
    let size = Size {
        slots: rng.range(1, 64),
        blocks: 1,
    };
    let table = Table::new(rng, size);
    let mut blocks = Blocks::of(&table).unwired();
    blocks.0[0].kind = kind;
    blocks.arranged(rng)
}

/// Every kind of block with every byte as the kind of an event and many codes: first, after a start, after a finish.
#[test]
fn every_kind() {
    let (mut rng, mut met) = (Rng::new(405), Verdicts::default());
    for kind in 1..=14 {
        let table = one(&mut rng, kind);
        let event = |kind, code| Event {
            kind,
            position: 1,
            code,
            job: 7,
        };
        let (start, failed) = (event(Event::START, 0), event(Event::FAILED, 2));
        for number in 0..=255 {
            for code in [0, 1, 2, 3, 255, 256, 257, 65_534, 65_535] {
                let last = event(number, code);
                for before in [&[][..], &[start], &[start, failed]] {
                    let journal = bytes(&[before, &[last]].concat());
                    judge(u64::from(number), &table, &journal, &mut met);
                }
            }
        }
    }
    print!("{met}");
    // A start first and after a finish; after a start the finishes of the kind, failed with all codes but 0 and 1.
    let finishes = 12 + 4 + 6 + 6 + 14 * 7;
    assert_eq!(met.tally().accepted(), 2 * 14 + finishes);
}

/// Every journal of three events at most of these by a table of two blocks, the first of an edge kind, the second of a
/// level kind.
#[test]
fn every_small_journal() {
    let (mut rng, mut met) = (Rng::new(406), Verdicts::default());
    let mut lines = Vec::new();
    for position in 1..=2 {
        for kind in 1..=5 {
            for (code, job) in [(0, 7), (1, 7), (2, 7), (0, 7 + (1 << 32))] {
                lines.push(Event {
                    kind,
                    position,
                    code,
                    job,
                });
            }
        }
    }
    for (edge, level) in [(1, 13), (7, 12), (2, 9), (4, 14)] {
        let mut blocks = Blocks::of(&one(&mut rng, edge)).0;
        let mut second = Blocks::of(&one(&mut rng, level)).0[0];
        second.tag = *b"SECOND__";
        blocks.push(second);
        let table = Blocks(blocks).arranged(&mut rng);
        let mut journals = vec![vec![]];
        for _ in 0..3 {
            let longer = journals.iter().flat_map(|journal: &Vec<Event>| {
                let lines = lines.iter();
                lines.map(move |line| [&journal[..], &[*line]].concat())
            });
            journals = longer.collect();
            for journal in &journals {
                judge(0, &table, &bytes(journal), &mut met);
            }
        }
    }
    print!("{}", met.tally());
    assert!(met.tally().accepted() > 300);
}

/// Every byte as the position of an event, by tables of few blocks and of many.
#[test]
fn every_position() {
    let mut rng = Rng::new(407);
    for blocks in [0, 1, 2, 3, 32, 63, 64] {
        let slots = rng.range(blocks.max(1), 64);
        let table = Table::new(&mut rng, Size { slots, blocks });
        for position in 0..=255 {
            let event = |kind, code| Event {
                kind,
                position,
                code,
                job: 9,
            };
            let journal = bytes(&[event(1, 0), event(3, 2), event(1, 0)]);
            let has = (1..=blocks).contains(&usize::from(position));
            let expected = if has { Ok(3) } else { bad(1) };
            expect(u64::from(position), &table.image, &journal, expected);
        }
    }
}

/// Every length of a journal up to some events, good ones and bad ones, by tables with and without blocks.
#[test]
fn every_length() {
    let mut rng = Rng::new(408);
    for blocks in [0, 1, 2, 64] {
        let size = Size { slots: 64, blocks };
        let table = Table::new(&mut rng, size);
        let journal = bytes(&good(&mut rng, &table, 12));
        for length in 0..=EVENT_BYTES * 12 {
            let whole = length % EVENT_BYTES == 0;
            let count = length / EVENT_BYTES;
            if length <= journal.len() {
                let expected = if whole {
                    Ok(count as u32)
                } else {
                    WRONG_LENGTH
                };
                expect(length as u64, &table.image, &journal[..length], expected);
            }
            let expected = match (whole, count) {
                (false, _) => WRONG_LENGTH,
                (true, 0) => Ok(0),
                (true, _) => bad(1),
            };
            expect(length as u64, &table.image, &vec![0; length], expected);
        }
    }
}

/// Damaged tables: the damage is answered first, whatever the journal.
#[test]
fn damaged_tables() {
    let (seed, cases) = settings("damaged tables with journals", 409, 20_000);
    // With a good journal, one of a wrong length, one with a bad event, and one with both.
    let mut tallies = [(); 4].map(|()| Tally::default());
    for case in 0..cases {
        let mut rng = Rng::for_case(seed, case);
        let mut table = table(&mut rng);
        let events = good(&mut rng, &table, 6);
        let good = bytes(&events);
        let count = events.len();
        let long = [&good[..], &[1]].concat();
        let zero = [&good[..], &[0; EVENT_BYTES]].concat();
        let both = [&zero[..], &[1]].concat();
        let journals = [
            (good, Ok(count as u32)),
            (long, WRONG_LENGTH),
            (zero, bad(count + 1)),
            (both, WRONG_LENGTH),
        ];
        let fault = rng.pick(&Fault::ALL);
        let refusal = table.damage(&mut rng, fault);
        for ((journal, accepted), tally) in journals.into_iter().zip(&mut tallies) {
            let expected = refusal.map_or(accepted, Err);
            expect(case, &table.image, &journal, expected);
            tally.add(expected);
        }
    }
    for tally in &tallies {
        print!("{tally}");
        tally.expect(TABLE);
        tally.expect_places(SLOT);
    }
    let numbers = [0, JOURNAL_LENGTH, EVENT, JOURNAL_LENGTH];
    for (tally, number) in tallies.iter().zip(numbers) {
        let others = [JOURNAL_LENGTH, EVENT].iter().filter(|&&n| n != number);
        assert!(number == 0 || tally.refused(number) > 0, "{tally}");
        assert!((number == 0) == (tally.accepted() > 0), "{tally}");
        assert!(others.map(|&n| tally.refused(n)).sum::<u64>() == 0);
    }
}

/// Numbers that one byte or two don't hold: of accepted events, and of the first bad one.
#[test]
fn long_journals() {
    let (seed, cases) = settings("long journals", 410, 6);
    for case in 0..cases {
        let mut rng = Rng::for_case(seed, case);
        let blocks = rng.pick(&[1, 3, 64]);
        let slots = rng.range(blocks, 64);
        let table = Table::new(&mut rng, Size { slots, blocks });
        let mut list = good(&mut rng, &table, 70_000);
        expect(case, &table.image, &bytes(&list), Ok(70_000));
        for index in [69_999, 65_536, 65_535, 65_534, 256, 255, 254] {
            list[index].position = 0;
            expect(case, &table.image, &bytes(&list), bad(index + 1));
        }
    }
}

/// Runs scans with these frames from a fresh state: the journal of the list, as both implementations write it. Each scan
/// must be accepted, with one event at most.
fn run(case: u64, rng: &mut Rng, table: &Table, frames: &[Vec<u8>]) -> Vec<u8> {
    let blocks = table.chain.len();
    let state = noise(rng, RECORD_BYTES * blocks);
    let (_, mut state) = agreed(case, fresh(&table.image, &state));
    let mut journal = Vec::new();
    for frame in frames {
        let given = Buffers {
            image: table.image.clone(),
            state,
            frame: frame.clone(),
            report: noise(rng, REPORT_BYTES * blocks),
            journal: noise(rng, EVENTS_BYTES * blocks),
        };
        let (found, after) = agreed(case, scan(&given));
        let events = found.unwrap_or_else(|refusal| panic!("case {case}: {refusal}"));
        assert!(events <= 1, "case {case}: {events} events in a scan");
        journal.extend_from_slice(&after.journal[..EVENT_BYTES * events as usize]);
        state = after.state;
    }
    journal
}

/// Where a journal that a table accepts comes from.
#[derive(Clone, Copy, Debug, PartialEq, Eq)]
enum Source {
    Good,
    /// Good in spite of damage.
    Damaged,
    /// Any events in form, those left out that the rules don't let stand after those before.
    Sifted,
}

/// A journal of the last source.
fn sifted(rng: &mut Rng, table: &Table) -> Vec<u8> {
    let mut list = Vec::new();
    for _ in 0..rng.range(20, 200) {
        list.push(any(rng, table.chain.len(), &list));
        if expected(table, &bytes(&list)).is_err() {
            list.pop();
        }
    }
    bytes(&list)
}

/// A journal that a table accepts.
fn any_accepted(case: u64, rng: &mut Rng, table: &Table) -> (Source, Vec<u8>) {
    let good = any_good(case, rng, table);
    let damage = rng.pick(&Damage::ALL);
    match rng.below(4) {
        0 => return (Source::Sifted, sifted(rng, table)),
        1 => {}
        _ => {
            let journal = damage.done_to(rng, table, &good);
            if let Some(journal) = journal.filter(|journal| expected(table, journal).is_ok()) {
                return (Source::Damaged, journal);
            }
        }
    }
    (Source::Good, bytes(&good))
}

/// "For a table without wires, accepted must mean exactly that some list of accepted scans from a fresh state writes
/// this journal": such a list, made from the journal, writes its bytes.
#[test]
fn accepted_journals_are_written() {
    let (seed, cases) = settings("accepted journals, written", 411, 4_000);
    let (mut met, mut scans, mut sources) = (Verdicts::default(), 0, [0u64; 3]);
    for case in 0..cases {
        let mut rng = Rng::for_case(seed, case);
        let table = scans::table(&mut rng);
        let table = unwired(&mut rng, &table);
        let (source, journal) = any_accepted(case, &mut rng, &table);
        accept(case, &table, &journal, &mut met);
        let frames = frames(&mut rng, &table, &events(&journal));
        let written = run(case, &mut rng, &table, &frames);
        assert!(
            written == journal,
            "case {case}: of {} both write {}: {}",
            slice(&journal),
            slice(&written),
            slice(&table.image)
        );
        scans += frames.len();
        sources[source as usize] += 1;
    }
    let [good, damaged, sifted] = sources;
    println!("{met}{scans:>10} scans; {good} good, {damaged} damaged, {sifted} sifted journals");
    met.expect_accepted(500);
    assert!(sources.iter().all(|count| 50 * count > cases));
}
