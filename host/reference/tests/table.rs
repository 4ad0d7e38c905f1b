//! The table checks 1 to 11 and the lookup, 50 and 51, with their places and
//! their order.

mod rows;

use reference::table::{chain, check, find, is_tag, show, SLOT_SIZE};
use rows::{at, image, no, row, SPARE};

/// Where some fields of a slot begin.
const KIND: usize = 0;
const NEXT: usize = 1;
const START_CODE: usize = 3;
const ABORT_CODE: usize = 5;
const TAG: usize = 8;

/// Three blocks in the order of slots 2, 4, 1, and a spare slot 3.
fn good() -> Vec<u8> {
    image(
        2,
        &[
            (5, 0, [2, 0x81], [1, 0x03], b"LANE1   "),
            row(1, 4, b"LANE2   "),
            SPARE,
            (14, 1, [1, 0x80], [0, 0], b"ABCDEFGH"),
        ],
    )
}

/// The good image with one byte of a slot replaced.
fn with(slot: usize, byte: usize, value: u8) -> Vec<u8> {
    let mut bytes = good();
    bytes[at(slot, byte)] = value;
    bytes
}

#[test]
fn accepted() {
    assert_eq!(check(&good()), Ok(3));
    assert_eq!(check(&image(0, &[SPARE])), Ok(0));
    assert_eq!(check(&image(0, &[SPARE; 64])), Ok(0));
    let table = good();
    let table = chain(&table).unwrap();
    assert_eq!(table.count(), 3);
    let slots: Vec<u8> = table.blocks().map(|(slot, _)| slot).collect();
    assert_eq!(slots, [2, 4, 1]);
    let positions: Vec<u8> = (0..=5).map(|slot| table.position(slot)).collect();
    assert_eq!(positions, [0, 3, 1, 0, 2, 0]);
}

#[test]
fn accepted_with_64_blocks() {
    let mut bytes = vec![1, 64, 64, 0];
    for slot in 1..=64u8 {
        let tag = [b'T', b'0' + slot / 10, b'0' + slot % 10];
        bytes.extend_from_slice(&[1 + slot % 14, slot - 1, 64, 0, 0, 0, 0, 0]);
        bytes.extend_from_slice(&tag);
        bytes.extend_from_slice(b"     ");
    }
    assert_eq!(check(&bytes), Ok(64));
    assert_eq!(find(&bytes, b"T64     "), Ok(1));
    assert_eq!(find(&bytes, b"T01     "), Ok(64));
    bytes[at(1, NEXT)] = 64;
    assert_eq!(check(&bytes), no(6, 1));
}

#[test]
fn header() {
    for length in 0..4 {
        assert_eq!(check(&good()[..length]), no(1, 0));
    }
    for (at, value) in [(0, 0), (0, 2), (3, 1)] {
        let mut bytes = good();
        bytes[at] = value;
        assert_eq!(check(&bytes), no(2, 0));
    }
    for count in [0, 65, 255] {
        let mut bytes = good();
        bytes[1] = count;
        assert_eq!(check(&bytes), no(3, 0));
    }
    assert_eq!(check(&[1, 0, 0, 0]), no(3, 0));
    assert_eq!(check(&good()[..at(5, 0) - 1]), no(4, 0));
    assert_eq!(check(&[good(), vec![0]].concat()), no(4, 0));
    assert_eq!(check(&[good(), vec![0; SLOT_SIZE]].concat()), no(4, 0));
    let full = image(0, &[SPARE; 65]);
    assert_eq!(check(&full), no(3, 0));
}

#[test]
fn header_order() {
    assert_eq!(check(&[2, 0, 9]), no(1, 0));
    assert_eq!(check(&[2, 0, 9, 0]), no(2, 0));
    assert_eq!(check(&[1, 0, 9, 1]), no(2, 0));
    assert_eq!(check(&[1, 0, 9, 0]), no(3, 0));
    assert_eq!(check(&[1, 1, 9, 0]), no(4, 0));
}

#[test]
fn walk() {
    for head in [5, 64, 255] {
        let mut bytes = good();
        bytes[2] = head;
        assert_eq!(check(&bytes), no(5, 0));
    }
    assert_eq!(check(&with(1, 1, 5)), no(5, 1));
    assert_eq!(check(&with(2, 1, 255)), no(5, 2));
    assert_eq!(check(&with(1, 1, 2)), no(6, 1));
    assert_eq!(check(&with(1, 1, 1)), no(6, 1));
    assert_eq!(check(&with(4, 1, 2)), no(6, 4));
    // The next of a slot off the chain is not on the walk.
    assert_eq!(check(&with(3, 1, 9)), no(11, 3));
}

#[test]
fn walk_before_records() {
    let mut bytes = with(2, KIND, 0);
    bytes[at(1, NEXT)] = 99;
    assert_eq!(check(&bytes), no(5, 1));
    bytes[at(1, NEXT)] = 4;
    assert_eq!(check(&bytes), no(6, 1));
    bytes[at(1, NEXT)] = 0;
    assert_eq!(check(&bytes), no(7, 2));
}

#[test]
fn kind() {
    for kind in [0, 15, 255] {
        assert_eq!(check(&with(4, 0, kind)), no(7, 4));
    }
    assert_eq!(check(&with(4, 6, 1)), no(7, 4));
    assert_eq!(check(&with(4, 7, 1)), no(7, 4));
    for kind in 1..=14 {
        assert_eq!(check(&with(2, 0, kind)), Ok(3));
    }
}

/// The good table with a tag in slot 1, which is at position 3.
fn with_tag(tag: &[u8; 8]) -> Vec<u8> {
    let mut bytes = good();
    bytes[at(1, TAG)..at(2, 0)].copy_from_slice(tag);
    bytes
}

/// Tags that no other block of the good table has.
fn expect_tags(tags: &[&[u8; 8]]) {
    for &tag in tags {
        assert_eq!(check(&with_tag(tag)), Ok(3));
        assert_eq!(find(&with_tag(tag), tag), Ok(3));
        assert_eq!(find(&good(), tag), no(51, 0));
    }
}

/// Eight bytes that are no tag.
fn expect_no_tags(bad: &[&[u8; 8]]) {
    for &tag in bad {
        assert_eq!(check(&with_tag(tag)), no(8, 1));
        assert_eq!(find(&good(), tag), no(50, 0));
    }
}

#[test]
fn tag() {
    expect_no_tags(&[
        b"        ",
        b" LANE   ",
        b"LANE 1  ",
        b"lane1   ",
        b"LANE1\0\0\0",
        b"ABCDEFG\x80",
        b"ABCDEFG[",
    ]);
    expect_tags(&[b"A       ", b"0       ", b"AZ09AZ09"]);
    // The later of two equal tags in chain order is slot 1, not slot 2.
    assert_eq!(check(&with(1, 12, b'2')), no(9, 1));
}

/// Every byte at every place of a name of eight characters, of one that spaces
/// follow, and of one underscore after a letter.
#[test]
fn tag_form_by_place() {
    for place in 0..8 {
        for byte in 0..=255u8 {
            let letter = byte.is_ascii_uppercase() || byte.is_ascii_digit();
            let character = letter || (byte == b'_' && place > 0);
            let with = |tag: &[u8; 8]| {
                let mut tag = *tag;
                tag[place] = byte;
                is_tag(&tag)
            };
            let last = byte == b' ' && place == 7;
            assert_eq!(with(b"ABCDEFGH"), character || last, "{byte} at {place}");
            let after = byte == b' ' || (character && place == 1);
            let expected = if place == 0 { letter } else { after };
            assert_eq!(with(b"A       "), expected, "{byte} at {place}");
            let after = byte == b' ' || (character && place <= 2);
            let expected = if place == 0 { letter } else { after };
            assert_eq!(with(b"A_      "), expected, "{byte} at {place}");
        }
    }
}

#[test]
fn underscore() {
    expect_tags(&[
        b"IN_1    ",
        b"A_      ",
        b"0_      ",
        b"A__B    ",
        b"A_B_C_D_",
        b"A_______",
        b"ABCDEFG_",
    ]);
    expect_no_tags(&[
        b"_       ",
        b"_A      ",
        b"__A     ",
        b"________",
        b" _      ",
        b"A _     ",
        b"A_ _    ",
        b"A      _",
        b"IN^1    ",
        b"IN`1    ",
        b"IN\xdf1    ",
    ]);
}

#[test]
fn tags_with_and_without_underscore_are_two() {
    let bytes = image(
        3,
        &[
            row(1, 0, b"IN_2    "),
            row(1, 1, b"IN1     "),
            row(1, 2, b"IN_1    "),
        ],
    );
    assert_eq!(check(&bytes), Ok(3));
    assert_eq!(find(&bytes, b"IN_1    "), Ok(1));
    assert_eq!(find(&bytes, b"IN1     "), Ok(2));
    assert_eq!(find(&bytes, b"IN_2    "), Ok(3));
    for tag in [b"IN2     ", b"IN      ", b"IN_     ", b"IN__1   "] {
        assert_eq!(find(&bytes, tag), no(51, 0));
        assert_eq!(show(&bytes, tag), b"");
    }
    // The same tag again, at the later slot in chain order.
    let mut twice = bytes;
    twice[at(1, TAG)..at(2, 0)].copy_from_slice(b"IN_1    ");
    assert_eq!(check(&twice), no(9, 1));
}

#[test]
fn wires() {
    // The slot of a start wire: spare, above N, and 0 with a code.
    assert_eq!(check(&with(1, 2, 3)), no(10, 1));
    assert_eq!(check(&with(1, 2, 5)), no(10, 1));
    assert_eq!(check(&with(1, 2, 255)), no(10, 1));
    assert_eq!(check(&with(1, 2, 0)), no(10, 1));
    assert_eq!(check(&with(1, 4, 3)), no(10, 1));
    assert_eq!(check(&with(1, 4, 0)), no(10, 1));
    for code in 0..=255 {
        let answer = if code & 0x7c == 0 { Ok(3) } else { no(10, 1) };
        assert_eq!(check(&with(1, 3, code)), answer);
        assert_eq!(check(&with(1, 5, code)), answer);
    }
    // Kinds without an abort wire have neither its slot nor its code.
    for kind in 1..=14 {
        let abort = (5..=8).contains(&kind);
        let answer = if abort { Ok(3) } else { no(10, 1) };
        assert_eq!(check(&with(1, 0, kind)), answer);
        let mut code_only = with(2, 0, kind);
        code_only[at(2, ABORT_CODE)] = 1;
        assert_eq!(check(&code_only), no(10, 2));
    }
}

#[test]
fn record_order() {
    // Each block through 7, 8, 9, 10 before the next: slots 2, 4, 1.
    let mut bytes = with(1, 0, 0);
    assert_eq!(check(&bytes), no(7, 1));
    bytes[at(4, START_CODE)] = 4;
    assert_eq!(check(&bytes), no(10, 4));
    bytes[at(4, TAG)..].copy_from_slice(b"LANE2   ");
    assert_eq!(check(&bytes), no(9, 4));
    bytes[at(4, TAG)] = b' ';
    assert_eq!(check(&bytes), no(8, 4));
    bytes[at(4, KIND)] = 0;
    assert_eq!(check(&bytes), no(7, 4));
    bytes[at(2, START_CODE)] = 1;
    assert_eq!(check(&bytes), no(10, 2));
}

#[test]
fn spare() {
    for byte in 0..SLOT_SIZE {
        assert_eq!(check(&with(3, byte, 1)), no(11, 3));
    }
    let mut bytes = image(2, &[SPARE, row(1, 0, b"A       "), SPARE, SPARE]);
    bytes[at(4, SLOT_SIZE - 1)] = 0x20;
    assert_eq!(check(&bytes), no(11, 4));
    bytes[at(3, KIND)] = 1;
    assert_eq!(check(&bytes), no(11, 3));
    bytes[at(1, KIND)] = 1;
    assert_eq!(check(&bytes), no(11, 1));
    bytes[at(2, KIND)] = 0;
    assert_eq!(check(&bytes), no(7, 2));
}

#[test]
fn lookup() {
    let bytes = good();
    for (tag, position, slot) in [
        (b"LANE2   ", 1, 2),
        (b"ABCDEFGH", 2, 4),
        (b"LANE1   ", 3, 1),
    ] {
        assert_eq!(find(&bytes, tag), Ok(position));
        let shown = show(&bytes, tag);
        let slot = &bytes[at(slot, 0)..at(slot + 1, 0)];
        assert_eq!(shown, slot);
        assert!(std::ptr::eq(shown, slot));
    }
    let refused: [(&[u8], u8); 6] = [
        (b"", 50),
        (b"LANE1", 50),
        (b"LANE1    ", 50),
        (b"lane1   ", 50),
        (b"LANE3   ", 51),
        (b"LANE    ", 51),
    ];
    for (tag, number) in refused {
        assert_eq!(find(&bytes, tag), no(number, 0));
        assert_eq!(show(&bytes, tag), b"");
    }
    assert_eq!(find(&image(0, &[SPARE]), b"LANE1   "), no(51, 0));
    // The table first: 11 before 50.
    assert_eq!(find(&with(3, 0, 1), b""), no(11, 3));
    assert_eq!(show(&with(3, 0, 1), b"LANE1   "), b"");
    assert_eq!(find(b"", b"LANE1   "), no(1, 0));
    assert_eq!(show(b"", b"LANE1   "), b"");
}

#[test]
fn zero_and_letter_o_are_two_tags() {
    let bytes = image(1, &[row(1, 2, b"LANE0   "), row(1, 0, b"LANEO   ")]);
    assert_eq!(check(&bytes), Ok(2));
    assert_eq!(find(&bytes, b"LANE0   "), Ok(1));
    assert_eq!(find(&bytes, b"LANEO   "), Ok(2));
}

#[test]
fn every_length_is_answered() {
    for length in 0..=good().len() {
        let _ = check(&good()[..length]);
        for fill in [0, 1, 64, 255] {
            let bytes = vec![fill; length];
            assert!(check(&bytes).is_err());
            assert_eq!(show(&bytes, &bytes), b"");
        }
    }
}
