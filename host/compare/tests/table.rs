//! The engine against the reference on table images and tags, valid and damaged.
//!
//! `LANE_SEED` sets the seed, `LANE_ROUNDS` multiplies the number of cases. A failing case is
//! printed as a command that runs it again.

use compare::check::{agreed, check, find};
use compare::forms::{pairs, Forms};
use compare::rng::{settings, Rng};
use compare::tables::{alike, no_tag, tag, Fault, Size, Table};
use compare::tally::{Tally, LOOKUP, SLOT, TABLE};
use compare::text::{answer, Answer};
use compare::underscores::Bytes;
use lane::{Block, Engine, Kind, Position, Refusal, Tag};
use lane::{HEADER_BYTES, SLOT_BYTES, TAG_BYTES};
use std::{array, iter};

/// Fails where both answer something else than the damage asks for.
fn expect(case: u64, table: &Table, expected: Answer, given: Answer) {
    assert!(
        given == expected,
        "case {case}: expected {}, both answer {}: check {}",
        answer(expected),
        answer(given),
        compare::text::slice(&table.image)
    );
}

#[test]
fn valid_tables() {
    let (seed, cases) = settings("valid tables", 101, 60_000);
    let (mut tally, mut tags) = (Tally::default(), Forms::tags());
    let mut kinds = [0u64; 15];
    let mut full = 0u64;
    for case in 0..cases {
        let mut rng = Rng::for_case(seed, case);
        let size = Size::any(&mut rng);
        let table = Table::new(&mut rng, size);
        let given = agreed(case, check(&table.image));
        expect(case, &table, Ok(table.chain.len() as u32), given);
        tally.add(given);
        tags.add(table.tags().iter().copied());
        full += u64::from(table.chain.len() == 64);
        for &slot in &table.chain {
            kinds[usize::from(table.kind(slot))] += 1;
        }
    }
    print!("{tally}tables\n{tags}");
    println!("{full:>10} of 64 blocks");
    println!("kinds 1 to 14: {:?}", &kinds[1..]);
    assert!(full > 0 && kinds[1..].iter().all(|&count| count > 0));
    tags.expect(10);
}

#[test]
fn tables_with_one_fault() {
    let (seed, cases) = settings("tables with one fault", 102, 80_000);
    let (mut tally, mut no_tags) = (Tally::default(), Forms::no_tags());
    for case in 0..cases {
        let mut rng = Rng::for_case(seed, case);
        let size = Size::any(&mut rng);
        let mut table = Table::new(&mut rng, size);
        let fault = rng.pick(&Fault::ALL);
        let expected = match table.damage(&mut rng, fault) {
            Some(refusal) => Err(refusal),
            None => Ok(table.chain.len() as u32),
        };
        let given = agreed(case, check(&table.image));
        expect(case, &table, expected, given);
        tally.add(given);
        if let Some(refusal) = given.err().filter(|refusal| refusal.number() == 8) {
            no_tags.add(iter::once(table.tag(refusal.place_number() as u8)));
        }
    }
    print!("{tally}refused 8\n{no_tags}");
    tally.expect(TABLE);
    tally.expect_places(SLOT);
    no_tags.expect(200);
}

#[test]
fn tables_with_several_faults() {
    let (seed, cases) = settings("tables with several faults", 103, 80_000);
    let mut tally = Tally::default();
    for case in 0..cases {
        let mut rng = Rng::for_case(seed, case);
        let size = Size::any(&mut rng);
        let mut table = Table::new(&mut rng, size);
        if rng.one_in(4) {
            table.cut(&mut rng);
        }
        if rng.one_in(4) {
            table.scramble(&mut rng);
        }
        let faults = [rng.pick(&Fault::ALL), rng.pick(&Fault::ALL)];
        for fault in Fault::ALL
            .iter()
            .rev()
            .filter(|fault| faults.contains(fault))
        {
            if rng.below(8) > 0 {
                table.damage(&mut rng, *fault);
            }
        }
        tally.add(agreed(case, check(&table.image)));
    }
    print!("{tally}");
    tally.expect(TABLE);
    tally.expect_places(SLOT);
}

/// Two faults of different numbers: the one that the checks meet first is given.
#[test]
fn order_of_the_checks() {
    let (seed, cases) = settings("order of the checks", 104, 40_000);
    let mut tally = Tally::default();
    // The number of the check that wins, and of the one that loses.
    let mut pairs = std::collections::BTreeMap::<(u32, u32), u64>::new();
    for case in 0..cases {
        let mut rng = Rng::for_case(seed, case);
        let size = Size::any(&mut rng);
        let mut table = Table::new(&mut rng, size);
        let mut faults = Fault::ALL;
        rng.shuffle(&mut faults);
        let later = table.damage(&mut rng, faults[0].max(faults[1]));
        let earlier = table.damage(&mut rng, faults[0].min(faults[1]));
        let given = agreed(case, check(&table.image));
        if let (Some(later), Some(earlier), Err(refusal)) = (later, earlier, given) {
            for other in [earlier, later].iter().filter(|other| **other != refusal) {
                *pairs.entry((refusal.number(), other.number())).or_default() += 1;
            }
        }
        tally.add(given);
    }
    print!("{tally}");
    for ((given, other), count) in &pairs {
        println!("{count:>10} refused {given} with damage for {other}");
    }
    let before = (1..=6).flat_map(|given| (7..=11).map(move |other| (given, other)));
    let between = (7..=10).flat_map(|given| (7..=11).map(move |other| (given, other)));
    for pair in before.chain(between.filter(|(given, other)| given != other)) {
        assert!(pairs.contains_key(&pair), "{} never met {}", pair.0, pair.1);
    }
}

/// Images of every length up to two slots, and of random bytes.
#[test]
fn any_bytes() {
    let (seed, cases) = settings("any bytes", 105, 20_000);
    let mut tally = Tally::default();
    for case in 0..cases {
        let mut rng = Rng::for_case(seed, case);
        let mut image: Vec<u8> = (0..rng.range(0, 36)).map(|_| rng.byte(0, 255)).collect();
        for (byte, value) in image.iter_mut().zip([1, 1 + (case % 2) as u8, 1, 0]) {
            if rng.below(8) > 0 {
                *byte = value;
            }
        }
        tally.add(agreed(case, check(&image)));
        tally.add(agreed(case, find(&image, b"LANE0   ")));
    }
    print!("{tally}");
    tally.expect(1..=5);
}

/// A tag of the table, or any where it has no block.
fn known_tag(rng: &mut Rng, table: &Table) -> [u8; 8] {
    match table.chain.is_empty() {
        true => tag(rng),
        false => table.tag(rng.pick(&table.chain)),
    }
}

/// What the lookup of a tag in form must answer.
fn position_of(table: &Table, wanted: &[u8; 8]) -> Answer {
    let mut chain = table.chain.iter();
    let index = chain.position(|&slot| table.tag(slot) == *wanted);
    index.map_or(Err(Refusal::new(51, 0)), |at| Ok(at as u32 + 1))
}

/// The answers to lookups, and the underscores that they turn on.
struct Lookups {
    tally: Tally,
    /// Tables by the pairs of their tags, each of them found at its own position.
    found: Forms<[Bytes; 2]>,
    /// Eight bytes that are no tag.
    no_tags: Forms<Bytes>,
    /// Tags in form that no block has, each with those of the blocks.
    absent: Forms<[Bytes; 2]>,
}

impl Lookups {
    fn new() -> Lookups {
        Lookups {
            tally: Tally::default(),
            found: Forms::pairs(),
            no_tags: Forms::no_tags(),
            absent: Forms::pairs(),
        }
    }

    /// Looks up each tag of a table.
    fn look_up_all(&mut self, case: u64, table: &Table) {
        let tags = table.tags();
        for (position, tag) in (1..).zip(&tags) {
            self.look_up(case, table, tag, Ok(position));
        }
        self.found.add(pairs(&tags));
    }

    /// Looks up a tag whose answer is known.
    fn look_up(&mut self, case: u64, table: &Table, wanted: &[u8], expected: Answer) {
        let given = agreed(case, find(&table.image, wanted));
        expect(case, table, expected, given);
        self.tally.add(given);
        let (Err(refusal), Ok(wanted)) = (given, Bytes::try_from(wanted)) else {
            return;
        };
        match refusal.number() {
            50 => self.no_tags.add(iter::once(wanted)),
            51 => self
                .absent
                .add(table.tags().iter().map(|&tag| [wanted, tag])),
            _ => {}
        }
    }

    /// Looks up a tag in form, eight bytes that are none, and bytes of another length.
    fn look_up_any(&mut self, case: u64, rng: &mut Rng, table: &Table) {
        let known = known_tag(rng, table);
        let wanted = match rng.below(3) {
            0 => tag(rng),
            1 => alike(rng, known),
            _ => known,
        };
        self.look_up(case, table, &wanted, position_of(table, &wanted));

        let refused = Err(Refusal::new(50, 0));
        self.look_up(case, table, &no_tag(rng), refused);

        // Seven bytes, nine, none, sixteen: whatever they begin with.
        let mut wanted = known.to_vec();
        wanted.resize(rng.pick(&[0, 1, 7, 9, 16]), b' ');
        self.look_up(case, table, &wanted, refused);
    }

    /// Fails unless every refusal was seen, and underscores often told tags from one another and from what is none.
    fn expect_all(&self) {
        print!("{}tables with a tag\n{}", self.tally, self.found);
        print!("refused 50\n{}refused 51\n{}", self.no_tags, self.absent);
        self.tally.expect(TABLE);
        self.tally.expect(LOOKUP);
        self.tally.expect_places(SLOT);
        assert!(self.tally.accepted() > 0);
        self.found.expect(4);
        self.no_tags.expect(200);
        self.absent.expect(20);
    }
}

#[test]
fn tags() {
    let (seed, cases) = settings("tags", 106, 20_000);
    let mut lookups = Lookups::new();
    for case in 0..cases {
        let mut rng = Rng::for_case(seed, case);
        let size = Size::any(&mut rng);
        let mut table = Table::new(&mut rng, size);
        lookups.look_up_all(case, &table);
        for _ in 0..4 {
            lookups.look_up_any(case, &mut rng, &table);
        }
        // The checks of the table come first.
        let fault = rng.pick(&Fault::ALL);
        if let Some(refusal) = table.damage(&mut rng, fault) {
            for wanted in [tag(&mut rng), no_tag(&mut rng)] {
                lookups.look_up(case, &table, &wanted, Err(refusal));
            }
        }
    }
    lookups.expect_all();
}

/// Every eight bytes of a letter, an underscore, a space and a byte that no tag has: in a table, in a lookup and in the
/// binding. Tags are the 255 with a letter first, letters and underscores after it, and then spaces.
#[test]
fn tag_forms() {
    let lane0 = Tag::from_bytes(*b"LANE0   ").expect("a tag");
    let table = lane::image(&[Block::new(Kind::ETrig, lane0)]);
    let mut tags = 0;
    for case in 0..4u64.pow(8) {
        let bytes: Bytes = array::from_fn(|place| b"A_ ^"[(case >> (2 * place)) as usize % 4]);
        let is_tag = Tag::from_bytes(bytes).is_some();
        let (found, checked) = match is_tag {
            true => (Err(Refusal::new(51, 0)), Ok(1)),
            false => (Err(Refusal::new(50, 0)), Err(Refusal::new(8, 1))),
        };
        let mut image = table.clone();
        image[HEADER_BYTES + SLOT_BYTES - TAG_BYTES..].copy_from_slice(&bytes);
        assert_eq!(agreed(case, find(&table, &bytes)), found, "{bytes:?}");
        assert_eq!(agreed(case, check(&image)), checked, "{bytes:?}");
        tags += u32::from(is_tag);
    }
    assert_eq!(tags, 255);
}

/// The binding shows the same slots as the reference, and none where that shows none; it finds each tag and
/// knows the tag of each position.
#[test]
fn slots_shown() {
    let (seed, cases) = settings("slots shown", 107, 10_000);
    for case in 0..cases {
        let mut rng = Rng::for_case(seed, case);
        let size = Size::any(&mut rng);
        let table = Table::new(&mut rng, size);
        let engine = Engine::new(&table.image).expect("an accepted table");
        let mut wanted = table.tags();
        wanted.extend([tag(&mut rng), no_tag(&mut rng)]);
        for bytes in wanted {
            let tag = Tag::from_bytes(bytes);
            let in_form = reference::table::is_tag(&bytes);
            assert_eq!(tag.is_some(), in_form, "case {case}: {bytes:?}");
            let slot = tag.and_then(|tag| engine.show(tag).ok());
            let shown = slot.map_or(&[][..], |slot| &slot[..]);
            let expected = reference::table::show(&table.image, &bytes);
            assert_eq!(shown, expected, "case {case}: {bytes:?}");
        }
        for (position, &slot) in engine.positions().zip(&table.chain) {
            let tag = engine.tag(position).expect("a block");
            assert_eq!(tag.as_bytes(), &table.tag(slot), "case {case}");
            assert_eq!(tag.to_string().parse(), Ok(tag), "case {case}");
            assert_eq!(engine.find(tag), Ok(position), "case {case}");
        }
        let after = Position::new(table.chain.len() + 1);
        assert_eq!(after.and_then(|position| engine.tag(position)), None);
    }
}
