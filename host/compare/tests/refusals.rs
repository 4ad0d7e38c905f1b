//! Every refusal of the table checks and the lookup, with its place and its order among the others: the cases
//! of `data/table_cases.txt` through the engine and the reference, and the places that the binding names in them
//! and in those of `data/tidy_cases.txt` and `data/journal_cases.txt`.

use compare::tally::{Tally, EVENT, JOURNAL, JOURNAL_LENGTH, LOOKUP, SLOT, TABLE, TIDY};
use compare::text::{parse_answer, parse_slice};
use lane::{ffi, Engine, Place, Refusal};

const TABLES: &str = include_str!("../data/table_cases.txt");
const TIDIES: &str = include_str!("../data/tidy_cases.txt");
const JOURNALS: &str = include_str!("../data/journal_cases.txt");

/// The cases: name, words of the call, what it gives.
fn cases(text: &str) -> impl Iterator<Item = (&str, Vec<&str>, &str)> {
    let lines = text.lines().filter(|line| !line.starts_with('#'));
    lines.map(|line| {
        let (call, expected) = line.split_once(" = ").expect("CALL = ANSWER");
        let mut words = call.split_whitespace();
        let name = words.next().expect("a name");
        (name, words.collect(), expected)
    })
}

#[test]
fn cases_of_the_table() {
    let mut tally = Tally::default();
    for (name, call, expected) in cases(TABLES) {
        let given = compare::check::run(&call).unwrap_or_else(|e| panic!("{name}: {e}"));
        assert_eq!(given, expected, "{name}");
        let words: Vec<&str> = given.split_whitespace().collect();
        let (answer, rest) = parse_answer(&words).unwrap_or_else(|e| panic!("{name}: {e}"));
        assert!(rest.is_empty(), "{name}: {rest:?} after the answer");
        tally.add(answer);
    }
    print!("{tally}");
    tally.expect(TABLE);
    tally.expect(LOOKUP);
    tally.expect_places(SLOT);
}

/// The refusal that the binding gives in a case, if it checks a table or a journal, or tidies a table.
fn refusal(call: &[&str]) -> Option<Refusal> {
    let bytes = |word: &str| parse_slice(word).expect("a slice");
    match call {
        ["check", image] => Engine::new(&bytes(image)).err(),
        ["tidy", image, out] => ffi::tidy(&bytes(image), &mut bytes(out)).err(),
        ["check_journal", image, journal] => {
            ffi::check_journal(&bytes(image), &bytes(journal)).err()
        }
        _ => None,
    }
}

/// The binding gives the same places by their kind, and names them in its sentence.
#[test]
fn places_are_named() {
    let mut tally = Tally::default();
    let all = [TABLES, TIDIES, JOURNALS].into_iter().flat_map(cases);
    for (name, call, _) in all {
        let Some(refusal) = refusal(&call) else {
            continue;
        };
        let (number, text) = (refusal.number(), refusal.to_string());
        match refusal.place() {
            Place::Unnamed => {
                let unnamed = number <= 5 || [TIDY, JOURNAL_LENGTH].contains(&number);
                assert!(unnamed && !text.contains(" at "), "{name}: {text}");
            }
            place @ (Place::Slot(_) | Place::Event(_)) => {
                let event = matches!(place, Place::Event(_));
                assert_eq!(event, number == EVENT, "{name}: {text}");
                let front = format!("refused {number} at {place}: ");
                assert!(text.starts_with(&front), "{name}: {text}");
            }
            _ => panic!("{name}: {text}"),
        }
        tally.add(Err(refusal));
    }
    tally.expect(TABLE);
    tally.expect([TIDY]);
    tally.expect(JOURNAL);
    tally.expect_places([EVENT]);
}
