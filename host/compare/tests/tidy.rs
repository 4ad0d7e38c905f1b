//! Tidy tables, request 5/14: the engine against the reference, and both against what the papers say of them.
//!
//! `LANE_SEED` sets the seed, `LANE_ROUNDS` multiplies the number of cases. A failing call is printed as
//! a command that runs it again.

use compare::arrangements::{Arrangements, Lent};
use compare::blocks::{Block, Blocks, Change, Wire};
use compare::check::{agreed, find, tidy};
use compare::forms::Forms;
use compare::rng::{settings, Rng};
use compare::scan_check::{fresh, line, scan};
use compare::scans::{self, noise, sound_state, Buffers, List};
use compare::seen::Seen;
use compare::tables::{alike, no_tag, tag, Fault, Size, Table};
use compare::tally::{Tally, LOOKUP, POSITION, SCAN, SLOT, TABLE, TIDY};
use compare::text::{answer, slice, Answer};
use lane::{Engine, Refusal, RECORD_BYTES};
use std::collections::HashSet;
use std::iter;

/// The answer to a lent image of a wrong length.
const WRONG_LENGTH: Answer = Err(Refusal::new(TIDY, 0));

/// A valid table of any size, in any arrangement.
fn table(rng: &mut Rng) -> Table {
    let size = Size::any(rng);
    let table = Table::new(rng, size);
    match rng.below(2) {
        0 => table,
        _ => Blocks::of(&table).arranged(rng),
    }
}

/// Tidies a table into so many bytes of noise: what both implementations leave. Fails where they answer something else.
fn expect_answer(
    case: u64,
    rng: &mut Rng,
    table: &Table,
    length: usize,
    expected: Answer,
) -> Vec<u8> {
    let out = noise(rng, length);
    let (found, after) = agreed(case, tidy(&table.image, &out));
    assert!(
        found == expected,
        "case {case}: expected {}, both answer {}: tidy {} {}",
        answer(expected),
        answer(found),
        slice(&table.image),
        slice(&out)
    );
    after
}

/// The tidy image of a valid table, as both implementations write it.
fn tidied(case: u64, rng: &mut Rng, table: &Table) -> Vec<u8> {
    let blocks = table.chain.len() as u32;
    expect_answer(case, rng, table, table.tidy_length(), Ok(blocks))
}

/// Fails unless a table tidies to this image.
fn expect_tidy(case: u64, rng: &mut Rng, table: &Table, tidy: &[u8]) {
    let found = tidied(case, rng, table);
    assert!(
        found == tidy,
        "case {case}: expected {}, both write {}: {}",
        slice(tidy),
        slice(&found),
        slice(&table.image)
    );
}

/// The blocks in slots 1, 2, 3 and on, in a lent image that held anything; the same once more, and by the binding.
#[test]
fn valid_tables() {
    let (seed, cases) = settings("valid tables, tidied", 301, 60_000);
    let mut met = Arrangements::default();
    for case in 0..cases {
        let mut rng = Rng::for_case(seed, case);
        let table = table(&mut rng);
        let tidy = Blocks::of(&table).tidy();
        expect_tidy(case, &mut rng, &table, &tidy.image);
        expect_tidy(case, &mut rng, &tidy, &tidy.image);
        let engine = Engine::new(&table.image).expect("an accepted table");
        assert_eq!(engine.tidy().image(), tidy.image, "case {case}");
        met.add(&table);
    }
    print!("{met}");
    met.expect(1000);
}

/// Another length than that of the tidy image.
fn wrong_length(rng: &mut Rng, table: &Table) -> usize {
    let right = table.tidy_length();
    let any = rng.below(2 * right);
    let near = [right - 16, right - 1, right + 1, right + 16];
    let lengths = [0, 4, table.image.len(), any].into_iter().chain(near);
    let wrong: Vec<usize> = lengths.filter(|&length| length != right).collect();
    rng.pick(&wrong)
}

/// Lent images of a wrong length.
#[test]
fn wrong_lengths() {
    let (seed, cases) = settings("lent images of a wrong length", 302, 60_000);
    let (mut met, mut lengths) = (Arrangements::default(), Forms::lent());
    for case in 0..cases {
        let mut rng = Rng::for_case(seed, case);
        let table = table(&mut rng);
        let length = wrong_length(&mut rng, &table);
        expect_answer(case, &mut rng, &table, length, WRONG_LENGTH);
        met.add(&table);
        lengths.add(iter::once(Lent::new(&table, length)));
    }
    print!("{met}refused 60\n{lengths}");
    met.expect(1000);
    lengths.expect(200);
}

/// Every length up to twice the right one.
#[test]
fn every_length() {
    let mut rng = Rng::new(303);
    for blocks in [0, 1, 2, 3, 8, 63, 64] {
        for slots in [blocks.max(1), (blocks + 2).min(64), 64] {
            let table = Table::new(&mut rng, Size { slots, blocks });
            let right = table.tidy_length();
            for length in 0..=2 * right {
                let expected = match length == right {
                    true => Ok(blocks as u32),
                    false => WRONG_LENGTH,
                };
                expect_answer(length as u64, &mut rng, &table, length, expected);
            }
        }
    }
}

/// Damaged tables: the damage is answered first, whatever the length of the lent image.
#[test]
fn damaged_tables() {
    let (seed, cases) = settings("damaged tables, tidied", 304, 80_000);
    // With a lent image of the right length, and of a wrong one.
    let mut tallies = [Tally::default(), Tally::default()];
    for case in 0..cases {
        let mut rng = Rng::for_case(seed, case);
        let mut table = table(&mut rng);
        let lengths = [table.tidy_length(), wrong_length(&mut rng, &table)];
        let accepted = [Ok(table.chain.len() as u32), WRONG_LENGTH];
        let fault = rng.pick(&Fault::ALL);
        let refusal = table.damage(&mut rng, fault);
        for ((length, accepted), tally) in lengths.into_iter().zip(accepted).zip(&mut tallies) {
            let expected = refusal.map_or(accepted, Err);
            expect_answer(case, &mut rng, &table, length, expected);
            tally.add(expected);
        }
    }
    for (length, tally) in ["right", "wrong"].iter().zip(&tallies) {
        print!("lent images of a {length} length\n{tally}");
        tally.expect(TABLE);
        tally.expect_places(SLOT);
    }
    let [right, wrong] = tallies;
    assert!(right.accepted() > 0 && right.refused(TIDY) == 0);
    assert!(wrong.accepted() == 0 && wrong.refused(TIDY) > 0);
}

/// Two tables with the same blocks in other slots, with other spares, tidy to equal bytes; with one change, to others.
#[test]
fn same_blocks_and_others() {
    let (seed, cases) = settings("tables with the same blocks", 305, 40_000);
    let mut met = Arrangements::default();
    let (mut other_slots, mut changes) = (0u64, [0u64; Change::ALL.len()]);
    for case in 0..cases {
        let mut rng = Rng::for_case(seed, case);
        let table = table(&mut rng);
        let blocks = Blocks::of(&table);
        let other = blocks.arranged(&mut rng);
        other_slots += u64::from(table.image != other.image);
        met.add(&table);
        met.add(&other);
        let tidy = tidied(case, &mut rng, &table);
        expect_tidy(case, &mut rng, &other, &tidy);
        for (change, count) in Change::ALL.into_iter().zip(&mut changes) {
            let Some(changed) = blocks.changed(&mut rng, change) else {
                continue;
            };
            *count += 1;
            let other = changed.arranged(&mut rng);
            assert!(
                tidied(case, &mut rng, &other) != tidy,
                "case {case}: {change:?}, and equal bytes: {} {}",
                slice(&table.image),
                slice(&other.image)
            );
        }
    }
    println!("{met}{other_slots:>10} pairs in other slots");
    for (change, count) in Change::ALL.iter().zip(changes) {
        println!("{count:>10} changed: {change:?}");
        assert!(4 * count > cases, "too few: {change:?}");
    }
    met.expect(1000);
    assert!(2 * other_slots > cases);
}

/// Every wire of a table with so many blocks that has one of two codes, and none.
fn wires(blocks: u8) -> Vec<Wire> {
    let wires = (1..=blocks).flat_map(|from| [0x00, 0x81].map(|code| Wire { from, code }));
    iter::once(Wire::NONE).chain(wires).collect()
}

/// Every block of kind 1 or 5 with this tag, in a table with so many blocks.
fn every_block(blocks: u8, tag: [u8; 8]) -> Vec<Block> {
    let (wires, mut list) = (wires(blocks), Vec::new());
    for &start in &wires {
        let kinds = [(1, &wires[..1]), (5, &wires[..])];
        for (kind, aborts) in kinds {
            list.extend(aborts.iter().map(|&abort| Block {
                kind,
                tag,
                wires: [start, abort],
            }));
        }
    }
    list
}

/// Every list of at most two such blocks, with the tags A and B.
fn small_lists() -> Vec<Blocks> {
    let (a, b) = (*b"A       ", *b"B       ");
    let mut lists = vec![Blocks(vec![])];
    for tag in [a, b] {
        lists.extend(every_block(1, tag).into_iter().map(|one| Blocks(vec![one])));
    }
    for (first, second) in [(a, b), (b, a)] {
        for one in every_block(2, first) {
            let seconds = every_block(2, second).into_iter();
            lists.extend(seconds.map(|other| Blocks(vec![one, other])));
        }
    }
    lists
}

/// Every choice of so many of these slots, in every order.
fn chains(slots: u8, blocks: usize) -> Vec<Vec<u8>> {
    if blocks == 0 {
        return vec![vec![]];
    }
    let shorter = chains(slots, blocks - 1).into_iter();
    let longer = shorter.flat_map(|chain| {
        let free: Vec<u8> = (1..=slots).filter(|slot| !chain.contains(slot)).collect();
        free.into_iter()
            .map(move |slot| [&chain[..], &[slot]].concat())
    });
    longer.collect()
}

/// At most two blocks in at most three slots: the bytes are equal in each arrangement of them, and others for others.
#[test]
fn every_small_table() {
    let mut rng = Rng::new(306);
    let (mut seen, mut tables) = (HashSet::new(), 0u64);
    let lists = small_lists();
    for blocks in &lists {
        let tidy = blocks.tidy().image;
        let count = blocks.0.len();
        for slots in count.max(1)..=3 {
            for chain in chains(slots as u8, count) {
                let table = blocks.in_slots(slots, chain);
                expect_tidy(tables, &mut rng, &table, &tidy);
                tables += 1;
            }
        }
        assert!(seen.insert(tidy), "{blocks:?}");
    }
    println!("{tables} tables of {} lists of blocks", lists.len());
    // A block alone has 3 start wires, with kind 5 also 3 abort wires; one of two has 5 of each.
    let (one, two) = (3 + 3 * 3, 5 + 5 * 5);
    let lists = [1, 2 * one, 2 * two * two];
    assert_eq!(seen.len() as u64, lists.iter().sum::<u64>());
    // In one slot, two and three.
    let chains = [1 + 1 + 1, 1 + 2 + 3, 2 + 6];
    assert_eq!(
        tables,
        lists.iter().zip(chains).map(|(list, n)| list * n).sum()
    );
}

/// A list of scans over a table and over its tidy one.
struct Pair {
    list: List,
    tidy: Vec<u8>,
}

impl Pair {
    /// That of a table in any arrangement.
    fn new(case: u64, rng: &mut Rng) -> Pair {
        let table = Blocks::of(&scans::table(rng)).arranged(rng);
        let tidy = tidied(case, rng, &table);
        let list = List::new(rng, table);
        Pair { list, tidy }
    }

    /// What a call gives on both images, which must be the same.
    fn both<T: PartialEq>(&self, case: u64, call: impl Fn(&[u8]) -> Result<T, String>) -> T {
        let images = [&self.list.table.image, &self.tidy];
        let [one, other] = images.map(|image| agreed(case, call(image)));
        assert!(
            one == other,
            "case {case}: a table and its tidy one differ: {}",
            images.map(|image| slice(image)).join(" ")
        );
        one
    }

    /// The state that the list begins with: a fresh one, or any sound one.
    fn first_state(&self, case: u64, rng: &mut Rng, from_fresh: bool) -> Vec<u8> {
        if !from_fresh {
            return sound_state(rng, &self.list.table);
        }
        let state = noise(rng, RECORD_BYTES * self.list.table.chain.len());
        let (found, zeros) = self.both(case, |image| fresh(image, &state));
        assert_eq!(found, Ok(self.list.table.chain.len() as u32), "case {case}");
        zeros
    }

    /// A scan over the table, and over its tidy one: the answer and what both leave, which must be the same. A damaged
    /// table is neither of them, and goes to both.
    fn scan(&self, case: u64, given: &Buffers) -> (Answer, Buffers) {
        let (found, after) = agreed(case, scan(given));
        let mut other = given.clone();
        if given.image == self.list.table.image {
            other.image.clone_from(&self.tidy);
        }
        let (found_other, mut after_other) = agreed(case, scan(&other));
        after_other.image.clone_from(&after.image);
        assert!(
            found == found_other && after == after_other,
            "case {case}: {} and {} over the tidy table\n{}\n{}",
            answer(found),
            answer(found_other),
            line(given),
            line(&other)
        );
        (found, after)
    }
}

/// Runs lists of scans over tables and their tidy ones, each from a fresh state or from any sound one.
fn run(name: &str, seed: u64, lists: u64, from_fresh: bool) {
    let (seed, lists) = settings(name, seed, lists);
    let (mut met, mut tally, mut seen) =
        (Arrangements::default(), Tally::default(), Seen::default());
    for case in 0..lists {
        let mut rng = Rng::for_case(seed, case);
        let mut pair = Pair::new(case, &mut rng);
        let mut state = pair.first_state(case, &mut rng, from_fresh);
        met.add(&pair.list.table);
        for _ in 0..rng.range(1, 16) {
            let mut given = pair.list.scan(&mut rng, &state);
            pair.list.spoil(&mut rng, &mut given);
            let (found, after) = pair.scan(case, &given);
            tally.add(found);
            let Ok(events) = found else { continue };
            seen.add(&pair.list.table, &given, &after, events);
            // A scan of a changed state is no part of the list.
            if given.state == state {
                state = after.state;
            }
        }
    }
    print!("{met}{tally}{seen}");
    met.expect(1000);
    tally.expect(TABLE);
    tally.expect(SCAN);
    tally.expect_places(POSITION);
    seen.expect_all();
}

#[test]
fn lists_from_fresh() {
    run("lists over a table and its tidy one", 307, 20_000, true);
}

#[test]
fn lists_from_any_sound_state() {
    run("the same from any sound state", 308, 20_000, false);
}

/// Looks up each tag of a table and of its tidy one, a tag like one of them, any tag, and bytes that are none.
fn look_up(case: u64, rng: &mut Rng, pair: &Pair, tally: &mut Tally) {
    let tags = pair.list.table.tags();
    for (position, tag) in (1..).zip(&tags) {
        let found = pair.both(case, |image| find(image, tag));
        assert_eq!(found, Ok(position), "case {case}");
    }
    let known = match tags.is_empty() {
        true => tag(rng),
        false => rng.pick(&tags),
    };
    let cut = &known[..rng.below(8)];
    let others = [alike(rng, known), tag(rng), no_tag(rng)];
    for wanted in iter::once(cut).chain(others.iter().map(|other| &other[..])) {
        tally.add(pair.both(case, |image| find(image, wanted)));
    }
}

/// Fresh states of right and wrong lengths, and lookups, over a table and its tidy one.
#[test]
fn fresh_states_and_lookups() {
    let (seed, cases) = settings("fresh states and lookups over both", 309, 20_000);
    let (mut met, mut tally) = (Arrangements::default(), Tally::default());
    for case in 0..cases {
        let mut rng = Rng::for_case(seed, case);
        let pair = Pair::new(case, &mut rng);
        met.add(&pair.list.table);
        let right = RECORD_BYTES * pair.list.table.chain.len();
        for length in [right, right + 1, rng.below(right + 1)] {
            let state = noise(&mut rng, length);
            let (found, _) = pair.both(case, |image| fresh(image, &state));
            tally.add(found);
        }
        look_up(case, &mut rng, &pair, &mut tally);
    }
    print!("{met}{tally}");
    met.expect(1000);
    tally.expect([20]);
    tally.expect(LOOKUP);
}
