//! Tidy tables: the blocks, the wires, tables without blocks, the lengths of the
//! lent buffer, and what stays equal over a table and its tidy one.

mod rows;

use reference::machine::{Entry, Event, Events, Record, Report};
use reference::scan::{fresh, scan};
use reference::table::{check, find, Refusal, HEADER_SIZE, SLOT_SIZE};
use reference::tidy::tidy;
use rows::{at, image, no, row, Row, SPARE};

/// The length of the tidy image of so many blocks, one at least.
fn length(blocks: usize) -> usize {
    at(blocks + 1, 0)
}

/// The tidy image of an accepted table. What the buffer held before is gone.
fn tidied(image: &[u8]) -> Vec<u8> {
    let blocks = check(image).unwrap();
    let mut out = vec![0xee; length(blocks.max(1))];
    assert_eq!(tidy(image, &mut out), Ok(blocks));
    let mut again = vec![0x11; out.len()];
    assert_eq!(tidy(image, &mut again), Ok(blocks));
    assert_eq!(out, again);
    out
}

/// A call that must be refused, with a lent buffer of so many bytes: it leaves
/// them alone.
fn refused(image: &[u8], length: usize) -> Result<usize, Refusal> {
    let mut out = vec![0xee; length];
    let answer = tidy(image, &mut out);
    assert!(answer.is_err());
    assert_eq!(out, vec![0xee; length]);
    answer
}

/// Five blocks in the order of slots 6, 2, 7, 3, 4, among spares.
///
/// The start wires come from a later block, an earlier one, the frame, the own
/// block and an earlier one; the abort wires from the own block, a later one, an
/// earlier one and the own block.
const JUMPING: [Row; 9] = [
    SPARE,
    (5, 7, [6, 0x01], [4, 0x82], b"B       "),
    (8, 4, [3, 0x80], [3, 0x03], b"D       "),
    (14, 0, [2, 0x81], [0, 0], b"E_5     "),
    SPARE,
    (7, 2, [7, 0x00], [6, 0x80], b"A       "),
    (6, 3, [0, 0], [6, 0x83], b"LANE0   "),
    SPARE,
    SPARE,
];

/// The same, tidy.
const TIDY: [Row; 5] = [
    (7, 2, [3, 0x00], [1, 0x80], b"A       "),
    (5, 3, [1, 0x01], [5, 0x82], b"B       "),
    (6, 4, [0, 0], [1, 0x83], b"LANE0   "),
    (8, 5, [4, 0x80], [4, 0x03], b"D       "),
    (14, 0, [2, 0x81], [0, 0], b"E_5     "),
];

fn jumping() -> Vec<u8> {
    image(6, &JUMPING)
}

#[test]
fn jumping_chain() {
    assert_eq!(tidied(&jumping()), image(1, &TIDY));
}

/// Byte by byte: a spare slot, then a block that its own error flag starts.
#[test]
fn bytes_of_one_block() {
    let mut given = vec![1, 2, 2, 0];
    given.extend_from_slice(&[0; 16]);
    given.extend_from_slice(&[5, 0, 2, 0x02, 2, 0x81, 0, 0]);
    given.extend_from_slice(b"IN_1    ");
    let mut expected = vec![1, 1, 1, 0];
    expected.extend_from_slice(&[5, 0, 1, 0x02, 1, 0x81, 0, 0]);
    expected.extend_from_slice(b"IN_1    ");
    assert_eq!(tidied(&given), expected);
}

#[test]
fn spares_alone_go() {
    let last = row(3, 0, b"C       ");
    let rows = [row(1, 2, b"A       "), row(2, 3, b"B       "), last];
    let given = image(1, &[rows[0], rows[1], last, SPARE, SPARE]);
    assert_eq!(tidied(&given), image(1, &rows));
}

#[test]
fn backwards_without_spares() {
    let given = image(
        3,
        &[
            (7, 0, [3, 0x03], [2, 0x01], b"C       "),
            (1, 1, [1, 0x80], [0, 0], b"B       "),
            (9, 2, [2, 0x02], [0, 0], b"A       "),
        ],
    );
    let expected = [
        (9, 2, [2, 0x02], [0, 0], b"A       "),
        (1, 3, [3, 0x80], [0, 0], b"B       "),
        (7, 0, [1, 0x03], [2, 0x01], b"C       "),
    ];
    assert_eq!(tidied(&given), image(1, &expected));
}

/// Two blocks, of which the second has these wires; then the same, tidy. The
/// first lies in slot 3, the second in slot 2.
fn wired(kind: u8, start: [u8; 2], abort: [u8; 2]) -> Vec<u8> {
    let second = (kind, 0, start, abort, b"B       ");
    image(3, &[SPARE, second, row(1, 2, b"A       ")])
}

fn wired_tidy(kind: u8, start: [u8; 2], abort: [u8; 2]) -> Vec<u8> {
    let second = (kind, 0, start, abort, b"B       ");
    image(1, &[row(1, 2, b"A       "), second])
}

/// Slot 3 becomes slot 1, slot 2 stays: every kind, with every code.
#[test]
fn every_kind_and_code() {
    const NONE: [u8; 2] = [0, 0];
    for kind in 1..=14 {
        let bare = tidied(&wired(kind, NONE, NONE));
        assert_eq!(bare, wired_tidy(kind, NONE, NONE));
        for code in [0, 1, 2, 3, 0x80, 0x81, 0x82, 0x83] {
            for (slot, tidy) in [(3, 1), (2, 2)] {
                let start = tidied(&wired(kind, [slot, code], NONE));
                assert_eq!(start, wired_tidy(kind, [tidy, code], NONE));
                if (5..=8).contains(&kind) {
                    let abort = tidied(&wired(kind, NONE, [slot, code]));
                    assert_eq!(abort, wired_tidy(kind, NONE, [tidy, code]));
                }
            }
        }
    }
}

#[test]
fn without_blocks() {
    let expected = [[1, 1, 0, 0].as_slice(), &[0; 16]].concat();
    for slots in 1..=64 {
        let given = image(0, &[SPARE; 64][..slots]);
        assert_eq!(tidied(&given), expected);
    }
    for slots in [1, 64] {
        let given = image(0, &[SPARE; 64][..slots]);
        // Of no slot, one byte off, of two slots, and as long as before.
        for length in [0, 1, 3, 4, 5, 16, 19, 21, 36, 4 + 16 * 64] {
            assert_eq!(refused(&given, length), no(60, 0));
        }
    }
}

/// The tag of the k-th of 64 blocks.
fn tag(k: u8) -> [u8; 8] {
    [
        b'T',
        b'0' + k / 10,
        b'0' + k % 10,
        0x20,
        0x20,
        0x20,
        0x20,
        0x20,
    ]
}

/// 64 blocks, the k-th in slot 65 - k: each is started by the one before, the
/// first by the last, and each aborted by the one after, the last by itself.
fn backwards() -> Vec<u8> {
    let mut bytes = vec![1, 64, 64, 0];
    for slot in 1..=64 {
        let (before, after) = (if slot == 64 { 1 } else { slot + 1 }, slot - 1);
        let abort = after.max(1);
        bytes.extend_from_slice(&[8, after, before, 0x81, abort, 0x02, 0, 0]);
        bytes.extend_from_slice(&tag(65 - slot));
    }
    bytes
}

#[test]
fn sixty_four_blocks() {
    let mut expected = vec![1, 64, 1, 0];
    for k in 1..=64 {
        let (before, after) = (if k == 1 { 64 } else { k - 1 }, (k + 1) % 65);
        let abort = if k == 64 { 64 } else { k + 1 };
        expected.extend_from_slice(&[8, after, before, 0x81, abort, 0x02, 0, 0]);
        expected.extend_from_slice(&tag(k));
    }
    assert_eq!(tidied(&backwards()), expected);
    for length in [0, 4, 1012, 1027, 1029, 1044] {
        assert_eq!(refused(&backwards(), length), no(60, 0));
    }
}

/// "Tidying twice gives the bytes of tidying once."
#[test]
fn twice() {
    let none = image(0, &[SPARE; 7]);
    for given in [jumping(), wired(5, [3, 1], [2, 0x80]), none, backwards()] {
        let once = tidied(&given);
        assert_eq!(check(&once), check(&given));
        assert_eq!(tidied(&once), once);
    }
}

/// Each length up to that of the given table and a slot more.
#[test]
fn lengths() {
    let given = jumping();
    let right = length(TIDY.len());
    assert_eq!((right, given.len()), (84, 148));
    for length in (0..=given.len() + SLOT_SIZE).filter(|&length| length != right) {
        assert_eq!(refused(&given, length), no(60, 0));
    }
    // An image that is tidy has its own length.
    let tidy = image(1, &TIDY);
    assert_eq!(tidied(&tidy).len(), tidy.len());
    for length in [0, HEADER_SIZE, right - SLOT_SIZE, right - 1, right + 1] {
        assert_eq!(refused(&tidy, length), no(60, 0));
    }
}

/// The jumping table with one byte replaced.
fn with(at: usize, value: u8) -> Vec<u8> {
    let mut bytes = jumping();
    bytes[at] = value;
    bytes
}

/// "60, after the table checks": one fault for each of them, with a lent buffer
/// of the right length and of others.
#[test]
fn table_checks_first() {
    let faults = [
        (vec![], 1, 0),
        (jumping()[..3].to_vec(), 1, 0),
        (with(0, 2), 2, 0),
        (with(3, 1), 2, 0),
        (with(1, 65), 3, 0),
        (with(1, 8), 4, 0),
        (with(2, 10), 5, 0),
        (with(at(4, 1), 10), 5, 4),
        (with(at(4, 1), 6), 6, 4),
        (with(at(3, 0), 15), 7, 3),
        (with(at(7, 6), 1), 7, 7),
        (with(at(2, 8), b'_'), 8, 2),
        (with(at(2, 8), b'A'), 9, 2),
        (with(at(6, 2), 5), 10, 6),
        (with(at(4, 5), 0x80), 10, 4),
        (with(at(8, 15), 1), 11, 8),
    ];
    for (given, number, place) in faults {
        for length in [0, 20, 83, 84, 85, 148] {
            assert_eq!(refused(&given, length), no(number, place));
        }
    }
}

/// "Two tables tidy to equal bytes exactly when they have the same blocks in the
/// same order with the same wires by position."
#[test]
fn equal_bytes() {
    let tidy = tidied(&jumping());
    // The same blocks in slots 3, 1, 2, 5, 4 of five, and in order among spares.
    let other = image(
        3,
        &[
            (5, 2, [3, 0x01], [4, 0x82], b"B       "),
            (6, 5, [0, 0], [3, 0x83], b"LANE0   "),
            (7, 1, [2, 0x00], [3, 0x80], b"A       "),
            (14, 0, [1, 0x81], [0, 0], b"E_5     "),
            (8, 4, [5, 0x80], [5, 0x03], b"D       "),
        ],
    );
    assert_eq!(tidied(&other), tidy);
    let ordered = image(1, &[TIDY.as_slice(), &[SPARE; 59]].concat());
    assert_eq!(tidied(&ordered), tidy);
    // One block differs: kind, tag, the slot or the code of a wire, no wire.
    for (at, value) in [
        (at(2, 0), 6),
        (at(2, 9), b'_'),
        (at(3, 2), 4),
        (at(3, 4), 2),
        (at(4, 3), 0x80),
        (at(4, 3), 0x01),
        (at(7, 5), 0x03),
        (at(6, 2), 0),
    ] {
        assert_ne!(tidied(&with(at, value)), tidy, "{value} at {at}");
    }
    // The last two blocks change places.
    let mut given = with(at(7, 1), 4);
    (given[at(4, 1)], given[at(3, 1)]) = (3, 0);
    assert_ne!(tidied(&given), tidy);
}

/// A scan of the five blocks: its answer, the state, the report, the journal.
type Left = (Result<usize, Refusal>, Vec<u8>, Vec<u8>, Vec<u8>);

/// A scan from this state; start bits from `starts`, abort bits from `aborts`.
fn scanned(image: &[u8], state: &[u8], starts: u8, aborts: u8) -> Left {
    let mut frame = vec![0; Entry::SIZE * TIDY.len()];
    for (k, entry) in frame.chunks_mut(Entry::SIZE).enumerate() {
        // Reset and abort replies complete, and one piece that is complete.
        entry[0] = starts >> k & 1 | (aborts >> k & 1) << 1;
        entry[1..4].copy_from_slice(&[1, 1, 1]);
        entry[24] = (starts ^ aborts) >> (k / 2) & 1;
        entry[56] = 1 + k as u8;
    }
    let mut state = state.to_vec();
    let mut report = vec![0xee; Report::SIZE * TIDY.len()];
    let mut journal = vec![0xee; Events::MAX * Event::SIZE * TIDY.len()];
    let answer = scan(image, &mut state, &frame, &mut report, &mut journal);
    (answer, state, report, journal)
}

/// "Scans over either give equal results": lists of four scans with all start
/// and abort bits; fresh states and lookups, too.
#[test]
fn scans_over_either() {
    let (given, tidy) = (jumping(), image(1, &TIDY));
    let mut state = vec![0xee; Record::SIZE * TIDY.len()];
    assert_eq!(fresh(&given, &mut state), Ok(5));
    let mut events = 0;
    for bits in 0..1u16 << 10 {
        let (starts, aborts) = (bits as u8 & 31, (bits >> 5) as u8);
        let mut state = state.clone();
        for turn in 0..4 {
            let (starts, aborts) = (starts.rotate_left(turn), aborts.rotate_left(turn));
            let one = scanned(&given, &state, starts, aborts);
            assert_eq!(one, scanned(&tidy, &state, starts, aborts));
            events += one.0.unwrap();
            state = one.1;
        }
    }
    assert!(events > 1 << 12);
    for (tag, position) in [(b"A       ", 1), (b"E_5     ", 5)] {
        assert_eq!(find(&given, tag), Ok(position));
        assert_eq!(find(&tidy, tag), Ok(position));
    }
}
