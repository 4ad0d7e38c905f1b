//! The sheet of shift totals: the paper's example, figures, tags and sums, every
//! refusal and the order of the checks, and where the table ends.

mod rows;

use reference::journal::check_journal;
use reference::table::{check, HEADER_SIZE, SLOT_SIZE};
use reference::totals::{totals, MAX_INPUT};
use rows::{at, image, no, row, Row, SPARE};

const START: u8 = 1;
const DONE: u8 = 2;
const FAILED: u8 = 3;
const ABORTED: u8 = 4;
const WITHDRAWN: u8 = 5;

/// An event: kind, position, code, job.
type Line = (u8, u8, u16, u64);

/// An input: a table, and a journal of these events.
fn input(image: &[u8], lines: &[Line]) -> Vec<u8> {
    let mut bytes = image.to_vec();
    for &(kind, position, code, job) in lines {
        bytes.extend_from_slice(&[kind, position]);
        bytes.extend_from_slice(&code.to_le_bytes());
        bytes.extend_from_slice(&job.to_le_bytes());
    }
    bytes
}

/// What is printed, as text.
fn printed(input: &[u8]) -> String {
    let sheet = totals(input);
    String::from_utf8(sheet.as_bytes().to_vec()).expect("text")
}

/// Fails unless an input prints these lines.
fn expect(input: &[u8], lines: &[&str]) {
    let lines = lines.iter().map(|line| format!("{line}\n"));
    assert_eq!(printed(input), lines.collect::<String>());
}

/// Fails unless an input prints only its refusal.
fn expect_refused(input: &[u8], number: u8) {
    assert_eq!(printed(input), format!("refused {number}\n"));
}

/// A table of one block.
fn one(kind: u8) -> Vec<u8> {
    image(1, &[row(kind, 0, b"LANE0   ")])
}

/// The events of so many turns of a block, each a start and this finish.
fn turns(position: u8, finish: u8, count: usize) -> Vec<Line> {
    let code = if finish == FAILED { 2 } else { 0 };
    [(START, position, 0, 7), (finish, position, code, 7)].repeat(count)
}

/// Three blocks in slots 7, 2 and 5 of nine, of kinds 7, 13 and 2.
const JUMPING: [Row; 9] = [
    SPARE,
    (13, 5, [7, 0x81], [0, 0], b"B_2     "),
    SPARE,
    SPARE,
    (2, 0, [0, 0], [0, 0], b"CCCCCCCC"),
    SPARE,
    (7, 2, [5, 0x00], [7, 0x83], b"A       "),
    SPARE,
    SPARE,
];

/// Four turns: two of position 1, one of each other; and a start of position 2.
const SOME: [Line; 9] = [
    (START, 1, 0, 1),
    (START, 3, 0, 3),
    (FAILED, 1, 1, 1),
    (START, 2, 0, 2),
    (START, 1, 0, 1),
    (WITHDRAWN, 2, 0, 2),
    (DONE, 3, 0, 3),
    (START, 2, 0, 4),
    (ABORTED, 1, 0, 1),
];

const SOME_PRINTED: [&str; 4] = [
    "A 2 0 1 1 0 0",
    "B_2 2 0 0 0 1 1",
    "CCCCCCCC 1 1 0 0 0 0",
    "TOTAL 5 1 1 1 1 1",
];

/// "A single block LANE0 with start 7 and done 7 prints "LANE0 1 1 0 0 0 0" and
/// "TOTAL 1 1 0 0 0 0"." Byte by byte.
#[test]
fn the_papers_example() {
    let table = [
        1, 1, 1, 0, 1, 0, 0, 0, 0, 0, 0, 0, b'L', b'A', b'N', b'E', b'0', b' ', b' ', b' ',
    ];
    let start = [1, 1, 0, 0, 7, 0, 0, 0, 0, 0, 0, 0];
    let done = [2, 1, 0, 0, 7, 0, 0, 0, 0, 0, 0, 0];
    let given = [&table[..], &start, &done].concat();
    let sheet = totals(&given);
    let expected = b"LANE0 1 1 0 0 0 0\nTOTAL 1 1 0 0 0 0\n";
    assert_eq!(sheet.as_bytes(), expected);
    assert_eq!(given, input(&one(1), &turns(1, DONE, 1)));
}

/// Each figure in its place: a turn with each finish that a kind has, and a job
/// that is open.
#[test]
fn one_figure_at_a_time() {
    expect(&one(1), &["LANE0 0 0 0 0 0 0", "TOTAL 0 0 0 0 0 0"]);
    for (kind, finish, figures) in [
        (1, DONE, "1 1 0 0 0 0"),
        (14, FAILED, "1 0 1 0 0 0"),
        (5, ABORTED, "1 0 0 1 0 0"),
        (13, WITHDRAWN, "1 0 0 0 1 0"),
    ] {
        let turn = turns(1, finish, 1);
        let [line, total] = ["LANE0", "TOTAL"].map(|name| format!("{name} {figures}"));
        expect(&input(&one(kind), &turn), &[&line, &total]);
        let open = ["LANE0 1 0 0 0 0 1", "TOTAL 1 0 0 0 0 1"];
        expect(&input(&one(kind), &turn[..1]), &open);
        // The job and the code make no difference.
        let others = [
            [0, 0, 0, 0, 0, 0, 0, 0],
            [255; 8],
            [0, 0, 0, 0, 0, 0, 0, 1],
            [9; 8],
        ];
        for job in others.map(u64::from_le_bytes) {
            let turn: Vec<Line> = turn.iter().map(|line| (line.0, 1, line.2, job)).collect();
            expect(&input(&one(kind), &turn), &[&line, &total]);
        }
    }
    for code in [1, 2, 255, 256, 65_535] {
        let lines = [(START, 1, 0, 7), (FAILED, 1, code, 7)];
        let sheet = ["LANE0 1 0 1 0 0 0", "TOTAL 1 0 1 0 0 0"];
        expect(&input(&one(3), &lines), &sheet);
    }
}

/// "one line a block in chain order", whatever the slots and the wires, and a
/// line for each block without events; "and the column sums".
#[test]
fn chain_order_and_sums() {
    let table = image(7, &JUMPING);
    expect(&input(&table, &SOME), &SOME_PRINTED);
    let none = [
        "A 0 0 0 0 0 0",
        "B_2 0 0 0 0 0 0",
        "CCCCCCCC 0 0 0 0 0 0",
        "TOTAL 0 0 0 0 0 0",
    ];
    expect(&table, &none);
    // Figures that are all different.
    let mut lines = Vec::new();
    for (position, finish, count) in [
        (3, FAILED, 3),
        (1, ABORTED, 5),
        (2, WITHDRAWN, 7),
        (3, DONE, 11),
        (1, DONE, 2),
        (2, FAILED, 1),
    ] {
        lines.extend(turns(position, finish, count));
    }
    lines.extend([(START, 2, 0, 1), (START, 1, 0, 2)]);
    let sheet = [
        "A 8 2 0 5 0 1",
        "B_2 9 0 1 0 7 1",
        "CCCCCCCC 14 11 3 0 0 0",
        "TOTAL 31 13 4 5 7 2",
    ];
    expect(&input(&table, &lines), &sheet);
}

/// "the tag without spaces": of one to eight bytes, with underscores, and digits
/// only.
#[test]
fn tags() {
    for tag in [
        b"A       ",
        b"Z9      ",
        b"IN_     ",
        b"IN_1    ",
        b"0       ",
        b"12345   ",
        b"A______ ",
        b"LANE0123",
        b"A_______",
        b"00000000",
        b"REFUSED ",
        b"TOTAL   ",
        b"TOTAL_  ",
        b"TOTALS  ",
    ] {
        let name = String::from_utf8_lossy(tag).replace(' ', "");
        let table = image(1, &[row(9, 0, tag)]);
        for (lines, figures) in [
            (&[][..], "0 0 0 0 0 0"),
            (&turns(1, WITHDRAWN, 3), "3 0 0 0 3 0"),
        ] {
            let [line, total] = [&name, "TOTAL"].map(|name| format!("{name} {figures}"));
            expect(&input(&table, lines), &[&line, &total]);
        }
    }
}

/// A block tagged TOTAL has a line of its own, wherever it stands.
#[test]
fn a_block_tagged_total() {
    for (head, nexts) in [(1, [2, 0]), (2, [0, 1])] {
        let rows = [row(1, nexts[0], b"TOTAL   "), row(5, nexts[1], b"T       ")];
        let position = head;
        let given = input(&image(head, &rows), &turns(position, DONE, 2));
        let (total, other) = ("TOTAL 2 2 0 0 0 0", "T 0 0 0 0 0 0");
        match head {
            1 => expect(&given, &[total, other, total]),
            _ => expect(&given, &[other, total, total]),
        }
    }
}

/// Figures of one to four digits, and where a digit more begins.
#[test]
fn digits() {
    for count in [1, 9, 10, 11, 99, 100, 101, 255, 256, 999, 1000, 1001, 2729] {
        let mut lines = turns(1, DONE, count);
        let line = |name, open| format!("{name} {} {count} 0 0 0 {open}", count + open);
        let expect_open = |lines: &[Line], open| {
            let [line, total] = ["LANE0", "TOTAL"].map(|name| line(name, open));
            expect(&input(&one(1), lines), &[&line, &total]);
        };
        expect_open(&lines, 0);
        lines.push((START, 1, 0, 9));
        expect_open(&lines, 1);
    }
}

/// A table of 64 blocks, that of position k in slot 65 - k; every fourth is of
/// kind 12, the others of kind 8.
fn full() -> Vec<u8> {
    let mut bytes = vec![1, 64, 64, 0];
    for slot in 1..=64u8 {
        let kind = if slot % 4 == 0 { 12 } else { 8 };
        bytes.extend_from_slice(&[kind, slot - 1, 0, 0, 0, 0, 0, 0]);
        bytes.extend_from_slice(format!("LANE_{slot:03}").as_bytes());
    }
    assert_eq!(check(&bytes), Ok(64));
    bytes
}

/// 64 blocks, each with figures of its own, and those of the sums beyond theirs.
#[test]
fn sixty_four_blocks() {
    let (mut lines, mut sheet) = (Vec::new(), Vec::new());
    for position in 1..=64u8 {
        let (slot, done) = (65 - position, usize::from(position));
        lines.extend(turns(position, DONE, done));
        let mut figures = [done + 2, done, 0, 0, 0, 1];
        if slot % 4 == 0 {
            lines.extend(turns(position, WITHDRAWN, 1));
            figures[4] = 1;
        } else {
            lines.extend(turns(position, ABORTED, 1));
            figures[3] = 1;
        }
        lines.push((START, position, 0, 1));
        let figures = figures.map(|figure| figure.to_string()).join(" ");
        sheet.push(format!("LANE_{slot:03} {figures}"));
    }
    sheet.push(String::from("TOTAL 2208 2080 0 48 16 64"));
    let sheet: Vec<&str> = sheet.iter().map(String::as_str).collect();
    expect(&input(&full(), &lines), &sheet);
}

/// A long sheet: 64 tags of eight bytes, and two digits in four figures of each.
#[test]
fn full_sheet() {
    let (mut lines, mut sheet) = (Vec::new(), Vec::new());
    for position in 1..=64u8 {
        let slot = 65 - position;
        let (last, figures) = match slot % 4 {
            0 => (WITHDRAWN, "31 10 10 0 10 1"),
            _ => (ABORTED, "31 10 10 10 0 1"),
        };
        for finish in [DONE, FAILED, last] {
            lines.extend(turns(position, finish, 10));
        }
        lines.push((START, position, 0, 9));
        sheet.push(format!("LANE_{slot:03} {figures}"));
    }
    sheet.push(String::from("TOTAL 1984 640 640 480 160 64"));
    let sheet: Vec<&str> = sheet.iter().map(String::as_str).collect();
    let given = input(&full(), &lines);
    assert!(given.len() <= MAX_INPUT);
    expect(&given, &sheet);
    assert_eq!(printed(&given).len(), 64 * 25 + 30);
}

/// A table of no blocks has only the last line; no event stands by it.
#[test]
fn without_blocks() {
    for slots in [1, 2, 3, 64] {
        let table = image(0, &[SPARE; 64][..slots]);
        expect(&table, &["TOTAL 0 0 0 0 0 0"]);
        for length in 1..=36 {
            let given = [&table[..], &[1; 36][..length]].concat();
            expect_refused(&given, if length % 12 == 0 { 71 } else { 70 });
        }
    }
}

/// The jumping table with one byte replaced.
fn with(at: usize, value: u8) -> Vec<u8> {
    let mut bytes = image(7, &JUMPING);
    bytes[at] = value;
    bytes
}

/// Tables with one fault, and its number. Checks 1 and 4 are those of an input
/// that ends too soon, so no journal follows them.
fn faults() -> Vec<(Vec<u8>, u8)> {
    vec![
        (with(0, 0), 2),
        (with(0, 2), 2),
        (with(3, 1), 2),
        (with(1, 0), 3),
        (with(1, 65), 3),
        (with(2, 10), 5),
        (with(at(5, 1), 10), 5),
        (with(at(5, 1), 7), 6),
        (with(at(2, 0), 15), 7),
        (with(at(2, 6), 1), 7),
        (with(at(2, 8), b'_'), 8),
        (with(at(7, 8), b'a'), 8),
        (with(at(9, SLOT_SIZE - 1), 1), 11),
        (
            image(1, &[row(1, 2, b"A       "), row(2, 0, b"A       ")]),
            9,
        ),
        (with(at(5, 2), 9), 10),
        (with(at(2, 4), 7), 10),
    ]
}

/// The table checks: alone, and before 70 and 71.
#[test]
fn table_checks() {
    for (table, number) in faults() {
        for journal in [&[][..], &[0; 12], &[0; 24], &[1], &[0; 13]] {
            expect_refused(&[&table[..], journal].concat(), number);
        }
        expect_refused(&input(&table, &SOME), number);
    }
    for number in [2, 3, 5, 6, 7, 8, 9, 10, 11] {
        assert!(faults().iter().any(|fault| fault.1 == number));
    }
}

/// Under 4 bytes, whatever they are; then what the header says goes first.
#[test]
fn few_bytes() {
    expect_refused(&[], 1);
    for byte in 0..=255 {
        expect_refused(&[byte], 1);
        expect_refused(&[1, byte], 1);
        expect_refused(&[1, byte, 0], 1);
        expect_refused(&[1, byte, 0, 1], 2);
        expect_refused(&[byte, 1, 0, 0], if byte == 1 { 4 } else { 2 });
        let counts = matches!(byte, 1..=64);
        expect_refused(&[1, byte, 0, 0], if counts { 4 } else { 3 });
    }
}

/// Every beginning of an input: 1 under the header, 4 under the table, then 70
/// in the midst of an event, and a sheet after each.
#[test]
fn every_beginning() {
    let table = image(7, &JUMPING);
    let given = input(&table, &SOME);
    for length in 0..=given.len() {
        let cut = &given[..length];
        match (length, length.checked_sub(table.len())) {
            (0..4, _) => expect_refused(cut, 1),
            (_, None) => expect_refused(cut, 4),
            (_, Some(over)) if over % 12 != 0 => expect_refused(cut, 70),
            (_, Some(over)) => {
                let text = printed(cut);
                let last = text.lines().last().expect("a line");
                let starts = SOME[..over / 12].iter().filter(|line| line.0 == START);
                assert!(last.starts_with(&format!("TOTAL {} ", starts.count())));
                assert_eq!(text.lines().count(), 4);
            }
        }
    }
    expect(&given, &SOME_PRINTED);
}

/// Every byte 1: the table is as long as it says, even where it is no count.
#[test]
fn every_count() {
    let table = image(1, &[row(1, 0, b"A       ")]);
    for count in 0..=255u8 {
        let length = HEADER_SIZE + SLOT_SIZE * usize::from(count);
        let mut bytes = table.clone();
        bytes.resize(length.max(table.len()), 0);
        bytes[1] = count;
        if !matches!(count, 1..=64) {
            // 3 goes before 4, 70 and 71, however many bytes follow.
            for length in [4, 5, 20, length.max(4) - 1, length, length + 1, length + 12] {
                bytes.resize(length.max(4), 0);
                expect_refused(&bytes, 3);
            }
            continue;
        }
        expect_refused(&bytes[..length - 1], 4);
        expect(&bytes, &["A 0 0 0 0 0 0", "TOTAL 0 0 0 0 0 0"]);
        for over in 1..12 {
            let longer = [&bytes[..], &[0; 12][..over]].concat();
            expect_refused(&longer, 70);
        }
        expect_refused(&[&bytes[..], &[0; 12]].concat(), 71);
        let open = ["A 1 0 0 0 0 1", "TOTAL 1 0 0 0 0 1"];
        expect(&input(&bytes, &[(START, 1, 0, 7)]), &open);
    }
}

/// 71 for each rule of an event, without the number of the event; 70 before it.
#[test]
fn bad_events() {
    let table = image(7, &JUMPING);
    for bad in [
        (0, 1, 0, 1),
        (6, 1, 0, 1),
        (START, 0, 0, 1),
        (START, 4, 0, 1),
        (START, 2, 0, 9),
        (DONE, 1, 0, 1),
        (WITHDRAWN, 2, 0, 2),
        (DONE, 2, 0, 4),
        (ABORTED, 2, 0, 4),
        (FAILED, 2, 0, 4),
        (FAILED, 2, 1, 4),
        (WITHDRAWN, 2, 1, 4),
        (START, 1, 2, 1),
    ] {
        let given = input(&table, &[&SOME[..], &[bad]].concat());
        let (image, journal) = given.split_at(table.len());
        assert_eq!(check_journal(image, journal), no(71, SOME.len() + 1));
        expect_refused(&given, 71);
        expect_refused(&[&given[..], &[1]].concat(), 70);
        expect_refused(&given[..given.len() - 1], 70);
        expect_refused(&input(&table, &[&[bad][..], &SOME].concat()), 71);
    }
    let good = [&SOME[..], &[(WITHDRAWN, 2, 0, 4)]].concat();
    assert!(printed(&input(&table, &good)).ends_with("\nTOTAL 5 1 1 1 2 0\n"));
}

/// Three blocks, so that a journal of 5,457 events fills the input.
fn three() -> Vec<u8> {
    image(
        1,
        &[
            row(1, 2, b"A       "),
            row(5, 3, b"B       "),
            row(9, 0, b"C       "),
        ],
    )
}

/// 65,536 bytes are read, and one more is 75; 70 below.
#[test]
fn the_longest_input() {
    let mut lines = turns(2, ABORTED, 2_728);
    lines.push((START, 1, 0, 1));
    let given = input(&three(), &lines);
    assert_eq!(given.len(), MAX_INPUT);
    let sheet = [
        "A 1 0 0 0 0 1",
        "B 2728 0 0 2728 0 0",
        "C 0 0 0 0 0 0",
        "TOTAL 2729 0 0 2728 0 1",
    ];
    expect(&given, &sheet);
    for fewer in 1..12 {
        expect_refused(&given[..MAX_INPUT - fewer], 70);
    }
    for more in [1, 2, 11, 12, 24, 100, 65_536, 1 << 20] {
        let longer = [&given[..], &vec![1; more]].concat();
        expect_refused(&longer, 75);
    }
    // With an event more.
    let longer = input(&three(), &[&lines[..], &[(DONE, 1, 0, 1)]].concat());
    expect_refused(&longer, 75);
}

/// "75, before all other checks": whatever the input holds, from one byte more
/// on and not before.
#[test]
fn too_long() {
    let mut tables: Vec<(Vec<u8>, u8)> = faults();
    tables.push((three(), 71));
    tables.push((one(1), 70));
    for (table, number) in tables {
        let mut bytes = table;
        bytes.resize(MAX_INPUT, 0);
        expect_refused(&bytes, number);
        bytes.push(0);
        expect_refused(&bytes, 75);
        bytes.resize(MAX_INPUT + 12, 0);
        expect_refused(&bytes, 75);
    }
    for fill in 0..=255 {
        let bytes = vec![fill; MAX_INPUT + 1];
        expect_refused(&bytes, 75);
        assert_ne!(printed(&bytes[1..]), "refused 75\n");
    }
}

/// Inputs of one byte, of zeros, ones and others, of every length up to that of
/// a full table: the refusal is that of the table and the journal apart.
#[test]
fn every_length_is_answered() {
    for fill in [0, 1, 2, 64, 65, 255] {
        for length in 0..=1100 {
            let bytes = vec![fill; length];
            let end = HEADER_SIZE + SLOT_SIZE * usize::from(fill);
            let (table, journal) = bytes.split_at(end.min(length));
            let refusal = check_journal(table, journal).expect_err("no table");
            expect_refused(&bytes, refusal.number);
        }
    }
}
