//! Shift totals, request 7/14: the program against the reference, and both against what the papers say of a sheet.
//!
//! The program is `crates/totals/out/totals` of the repository, or that of `LANE_TOTALS`. `LANE_SEED` sets the seed,
//! `LANE_ROUNDS` multiplies the number of cases. A failing input is printed as a command that runs it again.

use compare::check::agreed;
use compare::journals::{bytes, count, good, written, Damage};
use compare::program::{feed, keep_open, run, Feed, Running};
use compare::rng::{settings, Rng};
use compare::scans::List;
use compare::sheets::{
    any, expected, filling, fullest, input, journal, parse_input, read, refused, resize, table,
    text, totals, Sheet, Sheets, MOST,
};
use compare::tables::{Fault, Size, Table};
use compare::tally::{EVENT, INPUT_LENGTH, JOURNAL, JOURNAL_LENGTH, TABLE};
use lane::{Engine, Frame, Step, EVENT_BYTES, HEADER_BYTES, SLOT_BYTES};
use reference::machine::Event;
use std::sync::mpsc::Sender;
use std::thread;
use std::time::Duration;

const CASES: &str = include_str!("../data/totals_cases.txt");

/// The numbers of all refusals.
fn numbers() -> impl Iterator<Item = u32> {
    TABLE.chain(JOURNAL).chain([INPUT_LENGTH])
}

/// What both implementations print on an input, by its form; counts it.
fn printed(case: u64, input: &[u8], by: Feed, met: &mut Sheets) -> Result<Sheet, u32> {
    let printed = agreed(case, totals(input, by));
    let sheet = agreed(case, read(&printed));
    met.add(&sheet);
    sheet
}

/// Fails unless both implementations print this; counts it.
fn expect(case: u64, input: &[u8], by: Feed, expected: &str, met: &mut Sheets) {
    let printed = agreed(case, totals(input, by));
    assert_eq!(text(&printed), text(expected.as_bytes()), "case {case}");
    met.add(&agreed(case, read(&printed)));
}

/// Fails unless both print what a valid table and a journal ask for; counts it.
fn judge(case: u64, rng: &mut Rng, table: &Table, journal: &[u8], met: &mut Sheets) {
    let input = input(&table.image, journal);
    let by = Feed::any(rng, input.len());
    expect(case, &input, by, &expected(table, journal), met);
}

/// The kept cases: name, input, what it prints.
fn cases() -> impl Iterator<Item = (&'static str, Vec<u8>, &'static str)> {
    let lines = CASES.lines().filter(|line| !line.starts_with('#'));
    lines.map(|line| {
        let (call, sheet) = line.split_once(" = ").expect("CALL = SHEET");
        let words: Vec<&str> = call.split_whitespace().collect();
        let [name, "totals", slices @ ..] = &words[..] else {
            panic!("not NAME totals SLICE ..: {call}");
        };
        let input = parse_input(slices).unwrap_or_else(|e| panic!("{name}: {e}"));
        (*name, input, sheet)
    })
}

/// The example of the request and an input for each edge, each fed in every way that is quick.
#[test]
fn kept_cases() {
    let mut met = Sheets::default();
    for (name, input, sheet) in cases() {
        let mut feeds = vec![Feed::Whole, Feed::File];
        match input.len() {
            0..=44 => feeds.push(Feed::Pieces(1)),
            length => feeds.push(Feed::Pieces(length.div_ceil(8))),
        }
        for by in feeds {
            let printed = totals(&input, by).unwrap_or_else(|e| panic!("{name}: {e}"));
            assert_eq!(text(&printed), sheet, "{name}, fed by {by:?}");
            met.add(&read(&printed).unwrap_or_else(|e| panic!("{name}: {e}")));
        }
    }
    print!("{met}");
    met.tally().expect(numbers());
    met.expect_accepted(200);
    met.expect_long(200);
}

/// The same by the reference alone, without the program.
#[test]
fn kept_cases_by_the_reference() {
    let mut cases = cases();
    let (first, input, _) = cases.next().expect("a case");
    assert_eq!(first, "R7.1-example");
    let sheet = reference::totals::totals(&input);
    assert_eq!(sheet.as_bytes(), b"LANE0 1 1 0 0 0 0\nTOTAL 1 1 0 0 0 0\n");
    for (name, input, sheet) in cases {
        let printed = reference::totals::totals(&input);
        assert_eq!(text(printed.as_bytes()), sheet, "{name}");
    }
}

/// Any inputs, of every refusal and every form of a sheet.
#[test]
fn any_inputs() {
    let (seed, cases) = settings("any inputs", 501, 800);
    let mut met = Sheets::default();
    for case in 0..cases {
        let mut rng = Rng::for_case(seed, case);
        let input = any(&mut rng);
        let by = Feed::any(&mut rng, input.len());
        let sheet = printed(case, &input, by, &mut met);
        assert!(input.len() <= MOST || sheet == Err(INPUT_LENGTH));
    }
    print!("{met}");
    met.tally().expect(numbers());
    met.expect_accepted(cases);
    met.expect_long(cases);
}

/// Valid tables with good journals: a line a block, each figure the count of such events.
#[test]
fn good_journals() {
    let (seed, cases) = settings("sheets of good journals", 502, 500);
    let mut met = Sheets::default();
    for case in 0..cases {
        let mut rng = Rng::for_case(seed, case);
        let table = table(&mut rng);
        let count = count(&mut rng);
        let journal = bytes(&good(&mut rng, &table, count));
        judge(case, &mut rng, &table, &journal, &mut met);
    }
    print!("{met}");
    assert_eq!(met.tally().accepted(), cases);
    met.expect_accepted(400);
}

/// Valid tables with good, damaged and foreign journals.
#[test]
fn any_journals() {
    let (seed, cases) = settings("sheets of any journals", 503, 500);
    let (mut met, mut by_damage) = (Sheets::default(), [0u64; Damage::ALL.len()]);
    for case in 0..cases {
        let mut rng = Rng::for_case(seed, case);
        let table = table(&mut rng);
        let mut list = journal(&mut rng, &table);
        if rng.one_in(2) {
            let which = rng.below(Damage::ALL.len());
            let good = good(&mut rng, &table, 12);
            if let Some(damaged) = Damage::ALL[which].done_to(&mut rng, &table, &good) {
                list = damaged;
                by_damage[which] += 1;
            }
        }
        judge(case, &mut rng, &table, &list, &mut met);
    }
    print!("{met}");
    let tally = met.tally();
    assert!(by_damage.iter().all(|&count| count > 0), "{by_damage:?}");
    assert!(10 * tally.accepted() > cases);
    assert!(50 * tally.refused(JOURNAL_LENGTH) > cases && 5 * tally.refused(EVENT) > cases);
}

/// Damaged tables: the damage is printed, whatever the journal. A wrong length takes in a part of it or leaves some to
/// it, unless nothing follows.
#[test]
fn damaged_tables() {
    let (seed, cases) = settings("sheets of damaged tables", 504, 600);
    let mut met = Sheets::default();
    for case in 0..cases {
        let mut rng = Rng::for_case(seed, case);
        let mut table = table(&mut rng);
        let mut list = journal(&mut rng, &table);
        let (fault, length) = (rng.pick(&Fault::ALL), table.image.len());
        let Some(refusal) = table.damage(&mut rng, fault) else {
            continue;
        };
        if fault == Fault::Length && rng.one_in(2) {
            list.clear();
        }
        let input = input(&table.image, &list);
        let by = Feed::any(&mut rng, input.len());
        let sheet = printed(case, &input, by, &mut met);
        let shorter = list.is_empty() && table.image.len() < length;
        if fault != Fault::Length || shorter {
            assert_eq!(sheet, Err(refusal.number()), "case {case}");
        }
    }
    print!("{met}");
    met.tally().expect(TABLE);
}

/// Lists of scans: what the engine writes from a fresh state is never refused.
#[test]
fn lists_of_scans() {
    let (seed, lists) = settings("sheets of lists of scans", 505, 300);
    let (mut met, mut long) = (Sheets::default(), 0u64);
    for case in 0..lists {
        let mut rng = Rng::for_case(seed, case);
        let table = table(&mut rng);
        let scans = rng.pick(&[0, 1, 8, 16, 32, 64]);
        let journal = agreed(case, written(&mut rng, &table, scans)).journal;
        long += u64::from(journal.len() > 100 * EVENT_BYTES);
        judge(case, &mut rng, &table, &journal, &mut met);
    }
    println!("{met}{long:>10} of more than 100 events");
    assert_eq!(met.tally().accepted(), lists);
    assert!(20 * long > lists);
    met.expect_accepted(lists);
}

/// A block's job is open where the state has it in Executing or Aborting: scans of the engine from a fresh state, and
/// the sheet of their journal after each, never a refusal.
#[test]
fn open_jobs_of_the_state() {
    let (seed, lists) = settings("sheets beside states", 506, 10);
    let (mut met, mut open) = (Sheets::default(), [0u64; 2]);
    for case in 0..lists {
        let mut rng = Rng::for_case(seed, case);
        let table = table(&mut rng);
        let engine = Engine::new(&table.image).expect("a valid table");
        let mut list = List::new(&mut rng, table.clone());
        let (mut state, mut journal) = (engine.fresh(), Vec::new());
        for _ in 0..20 {
            let given = list.scan(&mut rng, state.as_bytes());
            let frame = Frame::from_bytes(&given.frame);
            let outcome = engine.scan(&mut state, &frame).expect("a formed frame");
            journal.extend_from_slice(outcome.journal.as_bytes());
            let input = input(&table.image, &journal);
            let sheet = printed(case, &input, Feed::Whole, &mut met).expect("a sheet");
            for (position, line) in engine.positions().zip(sheet.blocks) {
                let step = state.record(position).expect("a record").step;
                let busy = matches!(step, Step::Executing | Step::Aborting);
                assert_eq!(line.figures[5], u64::from(busy), "case {case}: {line:?}");
                open[usize::from(busy)] += 1;
            }
        }
    }
    println!("{met}{open:?} blocks with no job open, and with one");
    assert!(open.iter().all(|&count| count > 10 * lists));
}

/// Every beginning of an input: 1 within the header, 4 within the table, 70 within an event, else a sheet.
#[test]
fn every_beginning() {
    let (mut rng, mut met) = (Rng::new(507), Sheets::default());
    for (slots, blocks) in [(1, 1), (5, 3), (2, 0)] {
        let table = Table::new(&mut rng, Size { slots, blocks });
        let list = bytes(&good(&mut rng, &table, 6));
        let input = input(&table.image, &list);
        for length in 0..=input.len() {
            let by = Feed::any(&mut rng, length);
            let cut = match length.checked_sub(table.image.len()) {
                None if length < HEADER_BYTES => refused(1),
                None => refused(4),
                Some(length) => expected(&table, &list[..length]),
            };
            expect(length as u64, &input[..length], by, &cut, &mut met);
        }
    }
    print!("{}", met.tally());
    met.tally().expect([1, 4, JOURNAL_LENGTH]);
}

/// Inputs cut short and made longer.
#[test]
fn other_lengths() {
    let (seed, cases) = settings("inputs cut short and made longer", 508, 400);
    let (mut met, mut shorter) = (Sheets::default(), 0u64);
    for case in 0..cases {
        let mut rng = Rng::for_case(seed, case);
        let table = table(&mut rng);
        let list = journal(&mut rng, &table);
        let mut input = input(&table.image, &list);
        let length = input.len();
        resize(&mut rng, &mut input, table.image.len());
        let by = Feed::any(&mut rng, input.len());
        let sheet = printed(case, &input, by, &mut met);
        shorter += u64::from(input.len() < length);
        if let Some(list) = input.get(table.image.len()..) {
            let expected = agreed(case, read(expected(&table, list).as_bytes()));
            assert_eq!(sheet, expected, "case {case}");
        }
    }
    let tally = met.tally();
    println!("{tally}{shorter:>10} cut short");
    tally.expect([1, 4, JOURNAL_LENGTH, EVENT, INPUT_LENGTH]);
    assert!(3 * shorter > cases && 40 * tally.accepted() > cases);
}

/// Every byte 1: the table ends where it says. Tables of no blocks, with an empty journal, a part of an event, and one.
#[test]
fn every_count() {
    let (mut rng, mut met) = (Rng::new(509), Sheets::default());
    for count in 0..=255u8 {
        let length = HEADER_BYTES + SLOT_BYTES * usize::from(count);
        let mut bytes = vec![0; length + EVENT_BYTES];
        (bytes[0], bytes[1]) = (1, count);
        let counts = matches!(count, 1..=64);
        let sheet = String::from("TOTAL 0 0 0 0 0 0\n");
        let over = rng.range(1, EVENT_BYTES - 1);
        let ends = [
            (length, sheet),
            (length - 1, refused(4)),
            (length + over, refused(JOURNAL_LENGTH)),
            (length + EVENT_BYTES, refused(EVENT)),
        ];
        for (length, expected) in ends.into_iter().skip(if counts { 0 } else { 2 }) {
            let expected = if counts { expected } else { refused(3) };
            let by = Feed::any(&mut rng, length);
            expect(u64::from(count), &bytes[..length], by, &expected, &mut met);
        }
    }
    print!("{}", met.tally());
    assert_eq!(met.tally().accepted(), 64);
}

/// Headers of any four bytes before slots and events.
#[test]
fn any_headers() {
    let (seed, cases) = settings("any headers", 510, 200);
    let mut met = Sheets::default();
    for case in 0..cases {
        let mut rng = Rng::for_case(seed, case);
        let table = table(&mut rng);
        let mut input = input(&table.image, &journal(&mut rng, &table));
        for byte in input.iter_mut().take(HEADER_BYTES) {
            match rng.below(9) {
                0 => *byte = rng.byte(0, 3),
                1 => *byte = rng.byte(1, 64),
                2 => *byte = rng.byte(0, 255),
                _ => {}
            }
        }
        let by = Feed::any(&mut rng, input.len());
        printed(case, &input, by, &mut met).ok();
    }
    print!("{}", met.tally());
    met.tally().expect([2, 3, 4, 11]);
}

/// Inputs of 65,530 to 65,540 bytes, good as far as their length allows, with a bad event, and of damaged tables; and
/// the longest that are good.
#[test]
fn near_the_limit() {
    let (seed, rounds) = settings("inputs near the limit", 511, 2);
    let mut met = Sheets::default();
    for case in 0..rounds {
        let mut rng = Rng::for_case(seed, case);
        for (slots, blocks) in [(1, 1), (2, 2), (3, 3), (64, 64), (63, 0)] {
            let table = Table::new(&mut rng, Size { slots, blocks });
            for length in (MOST - 6..=MOST + 4).chain([fullest(&table)]) {
                let list = filling(&mut rng, &table, length);
                judge(case, &mut rng, &table, &list, &mut met);
                let mut wrong = list.clone();
                let at = rng.below(list.len() / EVENT_BYTES) * EVENT_BYTES;
                wrong[at] = 0;
                judge(case, &mut rng, &table, &wrong, &mut met);
                let mut damaged = input(&table.image, &list);
                damaged[0] = 2;
                let number = if length > MOST { INPUT_LENGTH } else { 2 };
                expect(case, &damaged, Feed::Whole, &refused(number), &mut met);
            }
        }
    }
    print!("{met}");
    met.tally().expect([2, JOURNAL_LENGTH, EVENT, INPUT_LENGTH]);
    // The longest of four tables, and those of two and of three slots by their length too.
    assert_eq!(met.tally().accepted(), 6 * rounds);
    met.expect_long(20);
}

/// Four digits: as many turns of one block as an input holds, up to the limit and by tens.
#[test]
fn many_turns() {
    let (mut rng, mut met) = (Rng::new(512), Sheets::default());
    let table = Table::new(
        &mut rng,
        Size {
            slots: 3,
            blocks: 3,
        },
    );
    for (case, turns) in [9, 10, 99, 100, 255, 256, 999, 1_000, 2_728]
        .into_iter()
        .enumerate()
    {
        let event = |kind, code| Event {
            kind,
            position: 2,
            code,
            job: 7,
        };
        let mut list = [event(Event::START, 0), event(Event::FAILED, 2)].repeat(turns);
        judge(case as u64, &mut rng, &table, &bytes(&list), &mut met);
        list.push(event(Event::START, 0));
        judge(case as u64, &mut rng, &table, &bytes(&list), &mut met);
    }
    assert_eq!(met.tally().accepted(), 18);
}

/// The same input in every way that it can come.
#[test]
fn every_feed() {
    let (seed, cases) = settings("inputs by every feed", 513, 12);
    let mut met = Sheets::default();
    for case in 0..cases {
        let mut rng = Rng::for_case(seed, case);
        let table = table(&mut rng);
        let list = match rng.one_in(3) {
            true => filling(&mut rng, &table, MOST),
            false => journal(&mut rng, &table),
        };
        let (input, sheet) = (input(&table.image, &list), expected(&table, &list));
        let length = input.len();
        let pieces = [1, 3, 7, 12, 20, 511, 4_095, 4_096, 4_097, 65_535, 65_536];
        let few = pieces.into_iter().filter(|size| length / size < 80);
        let feeds = few.map(Feed::Pieces).chain([Feed::Whole, Feed::File]);
        for by in feeds {
            expect(case, &input, by, &sheet, &mut met);
        }
    }
    print!("{}", met.tally());
}

/// The example of the request.
fn example() -> (Vec<u8>, &'static str) {
    let (_, input, _) = cases().next().expect("a case");
    (input, "LANE0 1 1 0 0 0 0\nTOTAL 1 1 0 0 0 0\n")
}

/// Inputs with what they print: the example, none, a wrong header, and as many bytes as there may be.
fn some_inputs() -> Vec<(Vec<u8>, String)> {
    let (example, sheet) = example();
    vec![
        (example, String::from(sheet)),
        (vec![], refused(1)),
        (vec![1], refused(1)),
        (vec![2; 30], refused(2)),
        (vec![0; MOST], refused(2)),
    ]
}

/// The program with an input that stays open, of which this has come.
fn open(input: Vec<u8>) -> (Running, Sender<Vec<u8>>) {
    let (running, pipe) = Running::piped().expect("the program");
    let sender = keep_open(pipe);
    sender.send(input).expect("the pipe");
    (running, sender)
}

/// Fails unless the program ends by itself with this printed.
fn expect_end(running: Running, sheet: &str) {
    let printed = running.end().map(|printed| text(&printed));
    assert_eq!(printed, Ok(text(sheet.as_bytes())));
}

/// How long an input stays open.
const OPEN: Duration = Duration::from_millis(80);

/// An input that stays open is waited for, even where what came is refused: more may come, up to 75.
#[test]
fn open_input() {
    for (input, sheet) in some_inputs() {
        let (running, sender) = open(input.clone());
        assert!(running.is_silent(OPEN), "an answer before the end");
        drop(sender);
        expect_end(running, &sheet);
        // One byte more than there may be.
        let more = vec![0; MOST + 1 - input.len()];
        let (running, sender) = open(input);
        assert!(running.is_silent(OPEN), "an answer before the end");
        sender.send(more).expect("the pipe");
        drop(sender);
        expect_end(running, &refused(INPUT_LENGTH));
    }
}

/// An input that comes in two parts with a time between, wherever it is parted.
#[test]
fn two_parts() {
    let (input, sheet) = example();
    for at in [1, 4, 12, 20, 26, 32, 43] {
        let (running, sender) = open(input[..at].to_vec());
        assert!(running.is_silent(OPEN), "an answer before the end");
        sender.send(input[at..].to_vec()).expect("the pipe");
        drop(sender);
        expect_end(running, sheet);
    }
}

/// A megabyte is answered without its end.
#[test]
fn a_megabyte() {
    let (example, _) = example();
    for begin in [example, vec![], vec![1], vec![2; 30]] {
        for fill in [0, 1] {
            let mut input = begin.clone();
            input.resize(1 << 20, fill);
            let (running, sender) = open(input);
            expect_end(running, &refused(INPUT_LENGTH));
            drop(sender);
        }
    }
}

/// Where the reader has closed the output at once, the program ends by itself and says nothing.
#[test]
fn closed_output() {
    let mut rng = Rng::new(514);
    let size = Size {
        slots: 64,
        blocks: 64,
    };
    let table = Table::new(&mut rng, size);
    let full = filling(&mut rng, &table, MOST);
    let mut inputs = some_inputs();
    inputs.push((input(&table.image, &full), String::new()));
    inputs.push((vec![0; 1 << 20], String::new()));
    for (input, _) in inputs {
        for ignored in [false, true] {
            let (running, pipe) = Running::unread(ignored).expect("the program");
            feed(pipe, input.clone(), input.len().max(1));
            expect_end(running, "");
        }
    }
}

/// Runs at the same time: each prints what its own input asks for.
#[test]
fn side_by_side() {
    let runs: Vec<_> = some_inputs()
        .into_iter()
        .cycle()
        .take(40)
        .map(|(input, sheet)| thread::spawn(move || (run(&input, Feed::Whole), sheet)))
        .collect();
    for run in runs {
        let (printed, sheet) = run.join().expect("a run");
        let printed = printed.map(|printed| text(&printed));
        assert_eq!(printed, Ok(text(sheet.as_bytes())));
    }
}
