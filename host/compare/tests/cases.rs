//! Scans, fresh states, tidy tables and journals given as bytes, with the answers and the bytes that they must
//! leave, through the engine and the reference.

use compare::scan_check::{fresh, run};
use compare::tally::{Tally, EVENT, JOURNAL, LOOKUP, POSITION, SCAN, SLOT, TABLE, TIDY};
use compare::text::{parse_answer, parse_slice};
use lane::RECORD_BYTES;

const SCANS: &str = include_str!("../data/cases.txt");
const READINGS: &str = include_str!("../data/scan_cases.txt");
const TIDIES: &str = include_str!("../data/tidy_cases.txt");
const JOURNALS: &str = include_str!("../data/journal_cases.txt");

/// The words of a line before and after the equals sign.
fn sides(line: &str) -> (Vec<&str>, &str) {
    let (call, left) = line.split_once(" = ").expect("CALL = ANSWER");
    (call.split_whitespace().collect(), left)
}

/// Runs a call and compares all that it gives; counts its answer.
fn check(name: &str, call: &[&str], expected: &str, tally: &mut Tally) {
    let given = run(call).unwrap_or_else(|message| panic!("{name}: {message}"));
    assert_eq!(given, expected, "{name}: {}", call.join(" "));
    let words: Vec<&str> = given.split_whitespace().collect();
    let (answer, _) = parse_answer(&words).expect("an answer");
    tally.add(answer);
}

/// Each scan of a case has the state that the one before left, the first a fresh one.
#[test]
fn scans() {
    let (mut name, mut state) = ("", None::<&str>);
    let (mut cases, mut tally) = (0, Tally::default());
    for line in SCANS.lines().skip_while(|line| !line.starts_with("# V1 ")) {
        if let Some(title) = line.strip_prefix("# ") {
            (name, state) = (title, None);
            cases += 1;
            continue;
        }
        let (call, left) = sides(line);
        match state {
            Some(state) => assert_eq!(call[2], state, "{name}"),
            None => {
                let bytes = parse_slice(call[2]).expect("a slice");
                let image = parse_slice(call[1]).expect("a slice");
                let (answer, zeros) = fresh(&image, &vec![0xaa; bytes.len()]).expect(name);
                assert_eq!(
                    answer.map(|blocks| RECORD_BYTES * blocks as usize),
                    Ok(bytes.len())
                );
                assert_eq!(zeros, bytes, "{name}");
            }
        }
        check(name, &call, left, &mut tally);
        state = left.split_whitespace().nth(2);
    }
    println!("{cases} cases");
    print!("{tally}");
    assert_eq!((cases, tally.accepted()), (87, 182));
}

/// Runs named cases, one a line.
fn named(cases: &str) -> Tally {
    let mut tally = Tally::default();
    for line in cases.lines().filter(|line| !line.starts_with('#')) {
        let (words, left) = sides(line);
        check(words[0], &words[1..], left, &mut tally);
    }
    print!("{tally}");
    tally
}

#[test]
fn readings() {
    let tally = named(READINGS);
    tally.expect(SCAN);
    tally.expect_places(POSITION);
}

#[test]
fn tidy_tables() {
    let tally = named(TIDIES);
    tally.expect(TABLE);
    tally.expect(SCAN);
    tally.expect(LOOKUP);
    tally.expect([TIDY]);
    tally.expect_places(SLOT);
    tally.expect_places(POSITION);
}

#[test]
fn journals() {
    let tally = named(JOURNALS);
    tally.expect(TABLE);
    tally.expect(JOURNAL);
    tally.expect_places(SLOT);
    tally.expect_places([EVENT]);
}
