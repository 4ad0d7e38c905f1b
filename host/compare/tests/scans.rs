//! The engine against the reference on lists of scans: answers and all buffers, byte for byte.
//!
//! `LANE_SEED` sets the seed, `LANE_ROUNDS` multiplies the number of lists. A failing scan is printed as
//! a command that runs it again.

use compare::check::agreed;
use compare::forms::Forms;
use compare::jobs::Jobs;
use compare::layouts::Layouts;
use compare::records::{entry, sound, Clock, Drive};
use compare::rng::{settings, Rng};
use compare::scan_check::{fresh, line, scan};
use compare::scans::{before, sound_state, table, Buffers, List, Wrong, EVENTS_BYTES};
use compare::seen::{events_of, Seen};
use compare::tables::{Fault, Size, Table};
use compare::tally::{Tally, POSITION, SCAN, TABLE};
use compare::text::{answer, Answer};
use lane::{Engine, Entry, EventKind, Frame, Record, Refusal, ReportEntry, State};
use lane::{ENTRY_BYTES, EVENT_BYTES, RECORD_BYTES, REPORT_BYTES};
use reference::layout;
use reference::layout::{entry as at_entry, record as at};
use reference::machine;
use std::iter;

/// Fails where both answer something else than the damage asks for.
fn expect(case: u64, given: &Buffers, expected: Answer, found: Answer) {
    assert!(
        found == expected,
        "list {case}: expected {}, both answer {}: {}",
        answer(expected),
        answer(found),
        line(given)
    );
}

/// The turns of each block's events: the job that is open, if any.
struct Turns(Vec<Option<u64>>);

impl Turns {
    /// Follows an accepted scan: starts and finishes take turns, with the job of the frame entry at the
    /// start and of the start at the finish; a job is open in Executing and Aborting.
    fn follow(&mut self, given: &Buffers, after: &Buffers, events: u32) {
        for event in events_of(after, events) {
            let index = event.position.index();
            let job = &given.frame[ENTRY_BYTES * index + at_entry::JOB..][..size_of::<u64>()];
            let open = &mut self.0[index];
            match event.kind {
                EventKind::Start => {
                    assert!(
                        open.is_none() && event.job.to_le_bytes() == job,
                        "{event:?}"
                    );
                    *open = Some(event.job);
                }
                _ => assert!(open.take() == Some(event.job), "{event:?}"),
            }
        }
        for (record, open) in after.state.chunks_exact(RECORD_BYTES).zip(&self.0) {
            let step = record[at::STEP];
            assert_eq!(matches!(step, 1 | 4), open.is_some(), "{record:?}");
        }
    }
}

/// Fails unless the answer is the first of these refusals that the checks meet, or accepted without any.
fn expect_first(case: u64, given: &Buffers, refusals: &[Refusal], found: Answer) {
    let place = |refusal: &&Refusal| (refusal.number(), refusal.place_number());
    match refusals.iter().min_by_key(place) {
        Some(refusal) => expect(case, given, Err(*refusal), found),
        None => assert!(
            found.is_ok(),
            "list {case}: {}: {}",
            answer(found),
            line(given)
        ),
    }
}

/// What the scans of a test met.
#[derive(Default)]
struct Met {
    tally: Tally,
    layouts: Layouts,
    seen: Seen,
    jobs: Jobs,
}

impl Met {
    /// Counts what a scan was given and answered.
    fn add(&mut self, table: &Table, given: &Buffers, found: Answer) {
        self.tally.add(found);
        self.layouts.add(table, given, found);
    }

    /// Fails unless each refusal was met.
    fn expect_refusals(&self) {
        print!("{}{}", self.tally, self.layouts);
        self.tally.expect(SCAN);
        self.tally.expect(TABLE);
        self.tally.expect_places(POSITION);
        self.layouts.expect_often();
    }

    /// Fails unless all was met that accepted scans can do.
    fn expect_work(&self) {
        print!("{}{}", self.seen, self.jobs);
        self.seen.expect_all();
        self.jobs.expect_often();
    }
}

/// One scan of a list, at times with something wrong: what it was given, what it left, its answer.
fn step(
    case: u64,
    rng: &mut Rng,
    list: &mut List,
    state: &[u8],
    met: &mut Met,
) -> (Buffers, Buffers, Answer) {
    let mut given = list.scan(rng, state);
    let refusals = list.spoil(rng, &mut given);
    let (found, after) = agreed(case, scan(&given));
    if let Some(refusals) = refusals {
        expect_first(case, &given, &refusals, found);
    }
    met.add(&list.table, &given, found);
    (given, after, found)
}

/// The state that a list begins with: a fresh one, or any sound one.
fn first_state(case: u64, rng: &mut Rng, table: &Table, from_fresh: bool) -> Vec<u8> {
    if !from_fresh {
        return sound_state(rng, table);
    }
    let blocks = table.chain.len();
    let state = vec![rng.byte(0, 255); RECORD_BYTES * blocks];
    let (found, zeros) = agreed(case, fresh(&table.image, &state));
    assert_eq!(found, Ok(blocks as u32));
    zeros
}

/// Runs lists of scans, each from a fresh state or from any sound one.
fn run(name: &str, seed: u64, lists: u64, from_fresh: bool) {
    let (seed, lists) = settings(name, seed, lists);
    let mut met = Met::default();
    for case in 0..lists {
        let mut rng = Rng::for_case(seed, case);
        let table = table(&mut rng);
        let mut list = List::new(&mut rng, table);
        let mut state = first_state(case, &mut rng, &list.table, from_fresh);
        let blocks = list.table.chain.len();
        let mut turns = Turns(vec![None; blocks]);
        let mut last = vec![None; blocks];
        for _ in 0..rng.range(1, 16) {
            let (given, after, found) = step(case, &mut rng, &mut list, &state, &mut met);
            let Ok(events) = found else { continue };
            met.seen.add(&list.table, &given, &after, events);
            // A scan of a changed state is no part of the list.
            if given.state == state {
                if from_fresh {
                    turns.follow(&given, &after, events);
                }
                let events: Vec<_> = events_of(&after, events).collect();
                met.jobs.add(&mut last, &events);
                state = after.state;
            }
        }
    }
    met.expect_refusals();
    met.expect_work();
}

#[test]
fn lists_from_fresh() {
    run("lists of scans from a fresh state", 201, 60_000, true);
}

#[test]
fn lists_from_any_sound_state() {
    run("lists of scans from any sound state", 202, 60_000, false);
}

/// One scan with something wrong, in every field and length.
#[test]
fn damaged_scans() {
    let (seed, cases) = settings("scans with something wrong", 203, 120_000);
    let mut met = Met::default();
    for case in 0..cases {
        let mut rng = Rng::for_case(seed, case);
        let table = table(&mut rng);
        let state = sound_state(&mut rng, &table);
        let mut list = List::new(&mut rng, table);
        let mut given = list.scan(&mut rng, &state);
        let kind = rng.pick(&Wrong::ALL);
        let refusal = list.damage(&mut rng, &mut given, kind);
        let (found, _) = agreed(case, scan(&given));
        expect_first(case, &given, refusal.as_slice(), found);
        met.add(&list.table, &given, found);
    }
    met.expect_refusals();
}

/// The binding and the reference give the same bytes a block.
#[test]
fn bytes_a_block() {
    let binding = [RECORD_BYTES, ENTRY_BYTES, REPORT_BYTES, EVENT_BYTES];
    let record = layout::record::SIZE;
    let report = layout::report::SIZE;
    let reference = [record, layout::entry::SIZE, report, layout::event::SIZE];
    assert_eq!(binding, reference);
}

/// The binding and the reference read the same fields in a record and in an entry.
#[test]
fn fields() {
    let mut rng = Rng::new(211);
    for case in 0..2_000 {
        let bytes = sound(&mut rng, 1 + (case % 14) as u8);
        let (one, other) = (Record::decode(&bytes), machine::Record::decode(&bytes));
        let one = one.expect("a record in form");
        assert_eq!((one.step.number(), one.job), (other.step, other.job));
        assert_eq!(u8::from(one.reset_request), other.reset_request);
        assert_eq!((one.code, one.elapsed), (other.code, other.elapsed));
        assert_eq!(one.last_reading, other.last_reading);
        let (limits, others) = (
            [one.time_limit, one.time_out],
            [other.time_limit, other.time_out],
        );
        assert_eq!(limits, others);

        let (drive, mut clock) = (Drive::any(&mut rng), Clock::new(&mut rng));
        let bytes = entry(&mut rng, drive, &mut clock);
        let (one, other) = (Entry::decode(&bytes), machine::Entry::decode(&bytes));
        let one = one.expect("an entry in form");
        assert_eq!(
            [one.start, one.abort],
            [other.inputs.start, other.inputs.abort]
        );
        assert_eq!((one.job, one.clock), (other.job, other.clock));
        assert_eq!(
            [one.time_limit, one.time_out],
            [other.time_limit, other.time_out]
        );
        let clocks = one.pieces.as_slice().iter().map(|piece| piece.clock);
        assert!(clocks.eq(other
            .pieces
            .iter()
            .take(other.piece_count.into())
            .map(|piece| piece.clock)));
    }
}

/// A table of so many blocks and a scan of it that is accepted.
fn accepted(rng: &mut Rng, blocks: usize) -> (Table, Buffers) {
    let slots = blocks;
    let table = Table::new(rng, Size { slots, blocks });
    let state = sound_state(rng, &table);
    let given = List::new(rng, table.clone()).scan(rng, &state);
    (table, given)
}

/// A buffer of a scan, the bytes a block of it, and the number that a wrong length gives.
type Buffer = (fn(&mut Buffers) -> &mut Vec<u8>, usize, u32);

/// Every length of each buffer up to twice the right one.
#[test]
fn every_length() {
    let buffers: [Buffer; 4] = [
        (|scan| &mut scan.state, RECORD_BYTES, 20),
        (|scan| &mut scan.frame, ENTRY_BYTES, 30),
        (|scan| &mut scan.report, REPORT_BYTES, 40),
        (|scan| &mut scan.journal, EVENTS_BYTES, 41),
    ];
    for blocks in [1, 2, 3, 5, 8, 64] {
        let (table, given) = accepted(&mut Rng::new(206), blocks);
        for (buffer, bytes, number) in buffers {
            let right = bytes * blocks;
            for length in 0..=2 * right {
                let mut given = given.clone();
                buffer(&mut given).resize(length, 0);
                let (found, _) = agreed(length as u64, scan(&given));
                let good = length == right || (number == 41 && length > right);
                let refusal = (!good).then_some(Refusal::new(number, 0));
                expect_first(length as u64, &given, refusal.as_slice(), found);
                if number == 20 {
                    let (found, _) = agreed(length as u64, fresh(&table.image, &given.state));
                    assert_eq!(found, refusal.map_or(Ok(blocks as u32), Err));
                }
            }
        }
    }
}

/// Every value in every unnamed byte of a record and of an entry that is good but for it, on every kind.
#[test]
fn every_unnamed_byte() {
    let mut rng = Rng::new(207);
    for kind in 1..=14 {
        let (mut table, mut given) = accepted(&mut rng, 1);
        while table.kind(1) != kind {
            (table, given) = accepted(&mut rng, 1);
        }
        for value in 1..=255 {
            for place in at::UNNAMED {
                let mut given = given.clone();
                given.state = sound(&mut rng, kind).to_vec();
                given.state[place] = value;
                let (found, _) = agreed(u64::from(value), scan(&given));
                expect(place as u64, &given, Err(Refusal::new(21, 1)), found);
            }
            for place in at_entry::UNNAMED {
                let mut given = given.clone();
                let (drive, mut clock) = (Drive::any(&mut rng), Clock::new(&mut rng));
                given.frame = entry(&mut rng, drive, &mut clock).to_vec();
                given.frame[place] = value;
                let (found, _) = agreed(u64::from(value), scan(&given));
                expect(place as u64, &given, Err(Refusal::new(31, 1)), found);
            }
        }
    }
}

/// The length of a state of so many blocks, at times a wrong one.
fn state_length(rng: &mut Rng, blocks: usize) -> usize {
    let right = RECORD_BYTES * blocks;
    if !rng.one_in(3) {
        return right;
    }
    rng.pick(&[
        0,
        RECORD_BYTES - 1,
        RECORD_BYTES,
        RECORD_BYTES + 1,
        right + 1,
        right.saturating_sub(1),
        right + RECORD_BYTES,
        before::RECORD * blocks,
    ])
}

/// Fresh states: any bytes before, wrong lengths, wrong tables.
#[test]
fn fresh_states() {
    let (seed, cases) = settings("fresh states", 204, 40_000);
    let (mut tally, mut lengths) = (Tally::default(), Forms::states());
    for case in 0..cases {
        let mut rng = Rng::for_case(seed, case);
        let mut table = table(&mut rng);
        let blocks = table.chain.len();
        let mut expected = Ok(blocks as u32);
        let length = state_length(&mut rng, blocks);
        if length != RECORD_BYTES * blocks {
            expected = Err(Refusal::new(20, 0));
        }
        if rng.one_in(4) {
            let fault = rng.pick(&Fault::ALL);
            expected = table.damage(&mut rng, fault).map_or(expected, Err);
        }
        let state: Vec<u8> = (0..length).map(|_| rng.byte(0, 255)).collect();
        let (found, after) = agreed(case, fresh(&table.image, &state));
        assert_eq!(answer(found), answer(expected), "case {case}");
        assert!(found.is_err() || after.iter().all(|&byte| byte == 0));
        tally.add(found);
        if found == Err(Refusal::new(20, 0)) {
            lengths.add(iter::once((blocks, length)));
        }
    }
    print!("{tally}refused 20\n{lengths}");
    tally.expect(TABLE);
    tally.expect([20]);
    lengths.expect(20);
}

/// The binding's typed buffers give the same bytes, and every value in them goes to bytes and back.
#[test]
fn typed_buffers() {
    let (seed, lists) = settings("typed buffers", 205, 4_000);
    for case in 0..lists {
        let mut rng = Rng::for_case(seed, case);
        let table = table(&mut rng);
        let engine = Engine::new(&table.image).expect("an accepted table");
        let mut list = List::new(&mut rng, table);
        let mut state = engine.fresh();
        if rng.one_in(2) {
            state = State::from_bytes(&sound_state(&mut rng, &list.table));
        }
        for _ in 0..rng.range(1, 8) {
            let given = list.scan(&mut rng, state.as_bytes());
            let (found, after) = agreed(case, scan(&given));
            let frame = Frame::from_bytes(&given.frame);
            let outcome = engine.scan(&mut state, &frame).expect("an accepted scan");
            assert_eq!(found, Ok(outcome.journal.len() as u32));
            assert_eq!(state.as_bytes(), after.state);
            assert_eq!(outcome.report.as_bytes(), after.report);
            assert!(after.journal.starts_with(outcome.journal.as_bytes()));
            let events: Vec<u8> = outcome.journal.events().flat_map(|e| e.encode()).collect();
            assert_eq!(events, outcome.journal.as_bytes());
            for position in engine.positions() {
                let record = state.record(position).expect("a record in form");
                let entry = frame.entry(position).expect("an entry in form");
                let report = outcome.report.entry(position).expect("a report in form");
                assert_eq!(Record::decode(&record.encode()), Some(record));
                assert_eq!(Entry::decode(&entry.encode()), Some(entry));
                assert_eq!(ReportEntry::decode(&report.encode()), Some(report));
                let mut copy = Frame::new(engine.blocks());
                copy.set(position, &entry);
                let part = ENTRY_BYTES * position.index()..ENTRY_BYTES * position.number();
                assert_eq!(copy.as_bytes()[part.clone()], given.frame[part]);
            }
        }
    }
}
