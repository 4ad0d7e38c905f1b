//! The engine and the reference on the same calls, each slice between pages that nobody may touch.
//!
//! `LANE_SEED` sets the seed, which is otherwise the time; `LANE_ROUNDS` multiplies the number of calls. A call
//! that fails is printed: as a line of `corpus.txt` it is tried in every run.

use compare::rng::{settings, Rng};
use compare::tally::{Tally, JOURNAL, LOOKUP, SCAN, TABLE, TIDY};
use fuzz::call::Call;
use fuzz::cases::{any, kept};
use fuzz::engine::Engine;
use fuzz::guard::Lie;
use lane::Refusal;
use std::time::{SystemTime, UNIX_EPOCH};

/// Fails unless the engine leaves what the reference leaves, however the slices lie; counts the answer.
fn compare(engine: &mut Engine, call: &Call, tally: &mut Tally) {
    let expected = call.by_reference();
    for lie in Lie::ALL {
        let left = engine.run(call, lie);
        let left = left.unwrap_or_else(|message| panic!("{lie:?}: {message}"));
        assert!(
            left == expected,
            "{lie:?}: run it again: cargo run -p compare --bin replay -- {}",
            call.line()
        );
    }
    let (answer, _) = expected;
    tally.add(match answer >> 32 {
        0 => Ok(answer as u32),
        number => Err(Refusal::new(number as u32, answer as u32)),
    });
}

/// Every number of a refusal.
fn numbers() -> impl Iterator<Item = u32> {
    TABLE.chain(SCAN).chain(LOOKUP).chain([TIDY]).chain(JOURNAL)
}

#[test]
fn kept_calls() {
    let (mut engine, mut tally) = (Engine::new(), Tally::default());
    for call in kept() {
        compare(&mut engine, &call, &mut tally);
    }
    print!("kept calls\n{tally}");
    tally.expect(numbers());
}

#[test]
fn any_calls() {
    let time = SystemTime::now().duration_since(UNIX_EPOCH);
    let time = time.expect("a time after 1970").as_nanos() as u64;
    let (seed, cases) = settings("any calls", time, 1_500_000);
    let (mut engine, mut tally) = (Engine::new(), Tally::default());
    let kept = kept();
    for case in 0..cases {
        let mut rng = Rng::for_case(seed, case);
        compare(&mut engine, &any(&mut rng, &kept), &mut tally);
    }
    print!("{tally}");
    tally.expect(numbers());
}
