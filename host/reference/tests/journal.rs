//! Foreign journals: each rule of an event on every kind of block, positions,
//! the first bad event, the order of the checks, and journals that lists of
//! scans write.

mod rows;

use reference::journal::check_journal;
use reference::machine::{Entry, Event, Events, Record, Report};
use reference::scan::scan;
use reference::table::{check, find, Refusal, SLOT_SIZE};
use rows::{at, image, no, row, Row, SPARE};
use std::collections::BTreeSet;

const START: u8 = 1;
const DONE: u8 = 2;
const FAILED: u8 = 3;
const ABORTED: u8 = 4;
const WITHDRAWN: u8 = 5;

/// An event: kind, position, code, job.
type Line = (u8, u8, u16, u64);

fn journal(lines: &[Line]) -> Vec<u8> {
    let mut bytes = Vec::new();
    for &(kind, position, code, job) in lines {
        bytes.extend_from_slice(&[kind, position]);
        bytes.extend_from_slice(&code.to_le_bytes());
        bytes.extend_from_slice(&job.to_le_bytes());
    }
    bytes
}

fn judged(image: &[u8], lines: &[Line]) -> Result<usize, Refusal> {
    check_journal(image, &journal(lines))
}

/// A table of one block.
fn one(kind: u8) -> Vec<u8> {
    image(1, &[row(kind, 0, b"LANE0   ")])
}

/// Blocks of these kinds in slots 1, 2, 3 and on, chained in that order.
fn of_kinds(kinds: &[u8]) -> Vec<u8> {
    let mut bytes = vec![1, kinds.len() as u8, 1, 0];
    for (kind, slot) in kinds.iter().zip(1u8..) {
        let next = if usize::from(slot) == kinds.len() {
            0
        } else {
            slot + 1
        };
        let tag = [b'T', b'0' + slot / 10, b'0' + slot % 10];
        bytes.extend_from_slice(&[*kind, next, 0, 0, 0, 0, 0, 0]);
        bytes.extend_from_slice(&tag);
        bytes.extend_from_slice(b"     ");
    }
    assert_eq!(check(&bytes), Ok(kinds.len()));
    bytes
}

/// One block of each kind, that of kind k at position k.
fn all_kinds() -> Vec<u8> {
    let kinds: Vec<u8> = (1..=14).collect();
    of_kinds(&kinds)
}

/// Byte by byte: kind, position, code, job, all little-endian.
#[test]
fn bytes_of_events() {
    let start = [1, 1, 0, 0, 7, 0, 0, 0, 0, 1, 0, 0];
    let failed = [3, 1, 2, 1, 7, 0, 0, 0, 0, 1, 0, 0];
    assert_eq!(check_journal(&one(1), &[start, failed].concat()), Ok(2));
    let lines = [
        (START, 1, 0, 7 + (1 << 40)),
        (FAILED, 1, 258, 7 + (1 << 40)),
    ];
    assert_eq!(journal(&lines), [start, failed].concat());
    // Of the second event only the code may be another: not 0 or 1 by one byte.
    for place in 0..Event::SIZE {
        for byte in 0..=255 {
            let mut other = failed;
            other[place] = byte;
            let good = other == failed || matches!(place, 2 | 3);
            let answer = check_journal(&one(1), &[start, other].concat());
            assert_eq!(answer, if good { Ok(2) } else { no(71, 2) });
        }
    }
}

/// The finishes that each kind has beside failed with a code from 2 on: D done,
/// T failed with code 1, A aborted, W withdrawn.
const FINISHES: [&str; 14] = [
    "D", "D", "DT", "DT", "DA", "DA", "DTA", "DTA", "DW", "DW", "DTW", "DTW", "W", "W",
];

/// Whether a finish with this code may stand on a kind.
fn may_finish(kind: u8, event: u8, code: u16) -> bool {
    let has = |finish| FINISHES[usize::from(kind) - 1].contains(finish);
    match (event, code) {
        (DONE, 0) => has('D'),
        (FAILED, 0) => false,
        (FAILED, 1) => has('T'),
        (FAILED, _) => true,
        (ABORTED, 0) => has('A'),
        (WITHDRAWN, 0) => has('W'),
        _ => false,
    }
}

/// Every kind of block with every byte as the kind of an event: first, after a
/// start, and after a finish.
#[test]
fn every_kind_of_block_and_event() {
    let all = all_kinds();
    for kind in 1..=14 {
        for event in 0..=255 {
            for code in [0, 1, 2, 3, 255, 256, 257, 512, 32_768, 65_534, 65_535] {
                let started = (event, code) == (START, 0);
                let answer = |good, number| if good { Ok(number) } else { no(71, number) };
                for (image, position) in [(&one(kind), 1), (&all, kind)] {
                    let line = (event, position, code, 7);
                    let start = (START, position, 0, 7);
                    let failed = (FAILED, position, 2, 7);
                    assert_eq!(judged(image, &[line]), answer(started, 1));
                    let after_start = answer(may_finish(kind, event, code), 2);
                    assert_eq!(judged(image, &[start, line]), after_start);
                    let after_finish = answer(started, 3);
                    assert_eq!(judged(image, &[start, failed, line]), after_finish);
                }
            }
        }
    }
}

/// Every code of every finish on every kind; and of a start.
#[test]
fn every_code() {
    for kind in 1..=14 {
        let image = one(kind);
        for code in 0..=65_535 {
            let failed = judged(&image, &[(START, 1, 0, 9), (FAILED, 1, code, 9)]);
            let good = may_finish(kind, FAILED, code);
            assert_eq!(failed, if good { Ok(2) } else { no(71, 2) });
        }
        // The others have none, wherever its only bit stands.
        for code in (0..16).map(|bit| 1 << bit) {
            assert_eq!(judged(&image, &[(START, 1, code, 9)]), no(71, 1));
            for finish in [DONE, ABORTED, WITHDRAWN] {
                let finish = (finish, 1, code, 9);
                assert_eq!(judged(&image, &[(START, 1, 0, 9), finish]), no(71, 2));
            }
        }
    }
}

/// "each finish has its start's job": all eight bytes of it.
#[test]
fn jobs() {
    let image = one(1);
    for job in [
        0,
        7,
        1 << 32,
        (1 << 40) + 7,
        0x0102_0304_0506_0708,
        u64::MAX,
    ] {
        let start = (START, 1, 0, job);
        assert_eq!(judged(&image, &[start, (DONE, 1, 0, job)]), Ok(2));
        let others = (0..64).map(|bit| job ^ 1 << bit);
        // Alike in the low four bytes, in the high four, and in none.
        let parts = [job ^ !0 << 32, job ^ 0xffff_ffff, !job, job.swap_bytes()];
        let parts = parts.into_iter().filter(|&other| other != job);
        for other in others.chain(parts) {
            assert_eq!(judged(&image, &[start, (DONE, 1, 0, other)]), no(71, 2));
            assert_eq!(judged(&image, &[start, (FAILED, 1, 2, other)]), no(71, 2));
            // The next job may be any.
            let next = [start, (DONE, 1, 0, job), (START, 1, 0, other)];
            assert_eq!(judged(&image, &next), Ok(3));
            // The finish of the next start has not the job of the first.
            let of_first = [&next[..], &[(DONE, 1, 0, job)]].concat();
            assert_eq!(judged(&image, &of_first), no(71, 4));
            let of_next = [&next[..], &[(DONE, 1, 0, other)]].concat();
            assert_eq!(judged(&image, &of_next), Ok(4));
        }
    }
}

/// "each block's events alternate beginning with a start": every row of eight
/// starts and finishes, and the first that is out of turn.
#[test]
fn turns() {
    let image = one(9);
    for bits in 0..1u32 << 8 {
        let starts: Vec<bool> = (0..8).map(|index| bits >> index & 1 == 1).collect();
        let lines: Vec<Line> = starts
            .iter()
            .map(|&start| (if start { START } else { WITHDRAWN }, 1, 0, 5))
            .collect();
        let wrong = (0..8).find(|index| starts[*index] != (index % 2 == 0));
        let expected = wrong.map_or(Ok(8), |index| no(71, index + 1));
        assert_eq!(judged(&image, &lines), expected);
    }
}

/// Three blocks, each with events of its own between those of the others.
#[test]
fn interleaved_blocks() {
    let image = of_kinds(&[5, 11, 14]);
    let lines = [
        (START, 3, 0, 30),
        (START, 1, 0, 10),
        (START, 2, 0, 20),
        (ABORTED, 1, 0, 10),
        (START, 1, 0, 30),
        (FAILED, 2, 1, 20),
        (WITHDRAWN, 3, 0, 30),
        (DONE, 1, 0, 30),
        (START, 2, 0, 10),
        (START, 3, 0, 20),
        (FAILED, 3, 65_535, 20),
        (DONE, 2, 0, 10),
    ];
    assert_eq!(judged(&image, &lines), Ok(12));
    for count in 0..=lines.len() {
        assert_eq!(judged(&image, &lines[..count]), Ok(count));
    }
    // A finish with the job of another block that is open, or of none.
    for (index, job) in [(3, 20), (3, 30), (5, 30), (6, 20), (7, 20), (10, 10)] {
        let mut other = lines;
        other[index].3 = job;
        assert_eq!(judged(&image, &other), no(71, index + 1));
    }
    // Without one, the block's next event is out of turn.
    for (index, next) in [(0, 6), (1, 3), (2, 5), (3, 4), (4, 7), (5, 8), (6, 9)] {
        let without = [&lines[..index], &lines[index + 1..]].concat();
        assert_eq!(judged(&image, &without), no(71, next));
    }
    // Twice, the second is.
    for index in 0..lines.len() {
        let twice = [&lines[..=index], &lines[index..]].concat();
        assert_eq!(judged(&image, &twice), no(71, index + 2));
    }
}

/// "a position in the table": every byte as the position, in tables of some and
/// of 64 blocks.
#[test]
fn positions() {
    for blocks in [1, 2, 3, 32, 63, 64] {
        let image = of_kinds(&vec![1; blocks]);
        for position in 0..=255 {
            let good = (1..=blocks).contains(&usize::from(position));
            let start = (START, position, 0, 1);
            let answer = judged(&image, &[start]);
            assert_eq!(answer, if good { Ok(1) } else { no(71, 1) });
            // After events of the first and the last block.
            let before = [(START, 1, 0, 1), (DONE, 1, 0, 1)];
            let last = [
                (START, blocks as u8, 0, 1),
                (FAILED, blocks as u8, 3, 1),
                start,
            ];
            let answer = judged(&image, &[&before[..], &last].concat());
            assert_eq!(answer, if good { Ok(5) } else { no(71, 5) });
        }
    }
}

/// The blocks of 64 don't share what is open.
#[test]
fn sixty_four_blocks() {
    let kinds: Vec<u8> = (0..64).map(|index| 1 + index % 14).collect();
    let image = of_kinds(&kinds);
    let starts = (1..=64).map(|position| (START, position, 0, u64::from(position) << 32));
    let mut lines: Vec<Line> = starts.collect();
    assert_eq!(judged(&image, &lines), Ok(64));
    for position in (1..=64).rev() {
        lines.push((FAILED, position, 2, u64::from(position) << 32));
    }
    assert_eq!(judged(&image, &lines), Ok(128));
    for index in 64..128 {
        let mut other = lines.clone();
        other[index].3 -= 1 << 32;
        assert_eq!(judged(&image, &other), no(71, index + 1));
    }
}

/// Three blocks in slots 7, 2 and 5 of nine: position 1 is of kind 7, position 2
/// of kind 13, position 3 of kind 2.
const JUMPING: [Row; 9] = [
    SPARE,
    (13, 5, [0, 0], [0, 0], b"B       "),
    SPARE,
    SPARE,
    (2, 0, [0, 0], [0, 0], b"C       "),
    SPARE,
    (7, 2, [0, 0], [0, 0], b"A       "),
    SPARE,
    SPARE,
];

/// The same with wires: each block is started by another and the first aborted
/// by itself.
const WIRED: [Row; 9] = [
    SPARE,
    (13, 5, [7, 0x81], [0, 0], b"B       "),
    SPARE,
    SPARE,
    (2, 0, [2, 0x02], [0, 0], b"C       "),
    SPARE,
    (7, 2, [5, 0x00], [7, 0x83], b"A       "),
    SPARE,
    SPARE,
];

/// The position counts, and not the slot; a table with wires has the same rules.
#[test]
fn positions_are_no_slots() {
    for image in [image(7, &JUMPING), image(7, &WIRED)] {
        assert_eq!(find(&image, b"C       "), Ok(3));
        for (position, kind) in [(1, 7), (2, 13), (3, 2)] {
            for event in 0..=6 {
                for code in [0, 1, 2, 65_535] {
                    let lines = [(START, position, 0, 4), (event, position, code, 4)];
                    let good = may_finish(kind, event, code);
                    let expected = if good { Ok(2) } else { no(71, 2) };
                    assert_eq!(judged(&image, &lines), expected);
                }
            }
        }
        for slot in (4..=9).chain([0]) {
            assert_eq!(judged(&image, &[(START, slot, 0, 4)]), no(71, 1));
        }
    }
}

/// An event that is bad in one way after the start of position 1: kind, position,
/// turn, job, done, code. Bad for its block, whichever this is.
const BAD: [Line; 10] = [
    (0, 1, 0, 1),
    (6, 1, 0, 1),
    (255, 1, 2, 1),
    (FAILED, 0, 2, 1),
    (FAILED, 4, 2, 1),
    (FAILED, 255, 2, 1),
    (START, 1, 0, 1),
    (FAILED, 2, 2, 1),
    (FAILED, 1, 0, 1),
    (FAILED, 1, 2, 2),
];

/// "the number of the first bad event, from 1": before, between and after good
/// ones, and before others that are bad.
#[test]
fn first_bad_event() {
    let image = image(7, &JUMPING);
    let start = (START, 1, 0, 1);
    let turn = [start, (FAILED, 1, 2, 1)];
    let rest = [(START, 3, 0, 3), (DONE, 3, 0, 3), (START, 2, 0, 2)];
    for bad in BAD {
        for turns in 0..20 {
            let mut lines = turn.repeat(turns);
            lines.push(start);
            assert_eq!(judged(&image, &lines), Ok(2 * turns + 1));
            lines.push(bad);
            let expected = no(71, 2 * turns + 2);
            assert_eq!(judged(&image, &lines), expected);
            // Good events after it, and others that are bad.
            assert_eq!(judged(&image, &[&lines[..], &rest].concat()), expected);
            assert_eq!(judged(&image, &[&lines[..], &turn].concat()), expected);
            for other in BAD {
                let two = [&lines[..], &[other]].concat();
                assert_eq!(judged(&image, &two), expected);
            }
        }
    }
    // The first of all, alone and before good ones.
    for bad in BAD.iter().filter(|&&bad| bad != start) {
        assert_eq!(judged(&image, &[*bad]), no(71, 1));
        assert_eq!(judged(&image, &[&[*bad], &turn[..]].concat()), no(71, 1));
    }
}

/// Numbers that one byte or two don't hold.
#[test]
fn far_events() {
    let image = of_kinds(&[1, 3]);
    let turn = [(START, 2, 0, 6), (FAILED, 2, 1, 6)];
    for turns in [127, 128, 32_767, 32_768, 50_000] {
        let mut lines = turn.repeat(turns);
        assert_eq!(judged(&image, &lines), Ok(2 * turns));
        lines.push((FAILED, 2, 1, 6));
        assert_eq!(judged(&image, &lines), no(71, 2 * turns + 1));
        lines[2 * turns - 1].3 = 5;
        assert_eq!(judged(&image, &lines), no(71, 2 * turns));
    }
}

/// "70 for a length not a multiple of the event", before 71.
#[test]
fn lengths() {
    let good = journal(&[
        (START, 1, 0, 1),
        (DONE, 1, 0, 1),
        (START, 1, 0, 2),
        (FAILED, 1, 2, 2),
    ]);
    let bad = vec![0; good.len()];
    for length in 0..=good.len() {
        let whole = length % 12 == 0;
        let count = length / 12;
        let expected = if whole { Ok(count) } else { no(70, 0) };
        assert_eq!(check_journal(&one(1), &good[..length]), expected);
        let expected = match (whole, count) {
            (false, _) => no(70, 0),
            (true, 0) => Ok(0),
            (true, _) => no(71, 1),
        };
        assert_eq!(check_journal(&one(1), &bad[..length]), expected);
    }
    // An event of eight bytes, as before request 3/14, and two.
    assert_eq!(check_journal(&one(1), &[1, 1, 0, 0, 7, 0, 0, 0]), no(70, 0));
    assert_eq!(check_journal(&one(1), &[1; 16]), no(70, 0));
}

/// An empty journal is of any table; another is of none without blocks.
#[test]
fn without_blocks() {
    for slots in [1, 2, 64] {
        let image = image(0, &[SPARE; 64][..slots]);
        assert_eq!(check_journal(&image, &[]), Ok(0));
        for position in 0..=255 {
            for event in 0..=6 {
                assert_eq!(judged(&image, &[(event, position, 0, 0)]), no(71, 1));
            }
        }
        for length in (1..=36).filter(|length| length % 12 != 0) {
            assert_eq!(check_journal(&image, &[1; 36][..length]), no(70, 0));
        }
    }
    assert_eq!(check_journal(&all_kinds(), &[]), Ok(0));
}

/// The jumping table with one byte replaced.
fn with(at: usize, value: u8) -> Vec<u8> {
    let mut bytes = image(7, &JUMPING);
    bytes[at] = value;
    bytes
}

/// "both after the table checks": one fault for each of them, with journals that
/// are good, empty, of a wrong length, and bad in the first event.
#[test]
fn table_checks_first() {
    let last = image(7, &JUMPING).len() - 1;
    let faults = [
        (vec![], 1, 0),
        (with(0, 1)[..3].to_vec(), 1, 0),
        (with(0, 2), 2, 0),
        (with(3, 1), 2, 0),
        (with(1, 0), 3, 0),
        (with(1, 65), 3, 0),
        (with(1, 8), 4, 0),
        (with(0, 1)[..last].to_vec(), 4, 0),
        (with(2, 10), 5, 0),
        (with(at(5, 1), 10), 5, 5),
        (with(at(5, 1), 7), 6, 5),
        (with(at(2, 0), 15), 7, 2),
        (with(at(2, 8), b'_'), 8, 2),
        (with(at(5, 8), b'A'), 9, 5),
        (with(at(5, 2), 9), 10, 5),
        (with(at(9, SLOT_SIZE - 1), 1), 11, 9),
    ];
    let good = journal(&[(START, 1, 0, 1), (DONE, 1, 0, 1)]);
    assert_eq!(check_journal(&with(0, 1), &good), Ok(2));
    for (image, number, place) in faults {
        for journal in [
            &good,
            &good[..0],
            &good[..13],
            &good[1..],
            &[0; 24],
            &[0; 25],
        ] {
            assert_eq!(check_journal(&image, journal), no(number, place));
        }
    }
}

#[test]
fn every_length_is_answered() {
    for image in [all_kinds(), image(7, &WIRED), image(0, &[SPARE]), vec![]] {
        for length in 0..=200 {
            for fill in 0..=255 {
                let _ = check_journal(&image, &vec![fill; length]);
            }
        }
    }
}

/// The state of the blocks, and the events that led to it.
type Past = (Vec<u8>, Vec<u8>);

/// The pasts of a table's scans with any of these frames, of so many events at
/// most: all that some list of accepted scans from a fresh state leaves.
fn pasts(image: &[u8], frames: &[Vec<u8>], most: usize) -> BTreeSet<Past> {
    let blocks = check(image).unwrap();
    let mut all = BTreeSet::new();
    let mut new = vec![(vec![0; Record::SIZE * blocks], vec![])];
    while let Some((state, journal)) = new.pop() {
        for frame in frames {
            let mut state = state.clone();
            let mut report = vec![0; Report::SIZE * blocks];
            let mut events = vec![0; Events::MAX * Event::SIZE * blocks];
            let count = scan(image, &mut state, frame, &mut report, &mut events).unwrap();
            let journal = [&journal[..], &events[..Event::SIZE * count]].concat();
            let past = (state, journal);
            if past.1.len() <= Event::SIZE * most && all.insert(past.clone()) {
                new.push(past);
            }
        }
    }
    all
}

/// Every journal of so many events of these at most.
fn journals(lines: &[Line], most: usize) -> Vec<Vec<u8>> {
    let mut all = vec![vec![]];
    let mut longest = all.clone();
    for _ in 0..most {
        let longer = |shorter: &Vec<u8>| {
            let more = lines.iter().map(|line| journal(&[*line]));
            more.map(|line| [&shorter[..], &line].concat())
                .collect::<Vec<_>>()
        };
        longest = longest.iter().flat_map(longer).collect();
        all.extend_from_slice(&longest);
    }
    all
}

/// "For a table without wires, accepted must mean exactly that some list of
/// accepted scans from a fresh state writes this journal": the journals of three
/// events at most that the scans with these frames leave are those accepted.
fn expect_exactly(image: &[u8], frames: &[Vec<u8>], lines: &[Line]) {
    let pasts = pasts(image, frames, 3);
    let mut written: BTreeSet<Vec<u8>> = pasts.into_iter().map(|(_, journal)| journal).collect();
    written.insert(vec![]);
    let mut accepted = BTreeSet::new();
    for journal in journals(lines, 3) {
        match check_journal(image, &journal) {
            Ok(count) => assert_eq!(journal.len(), Event::SIZE * count),
            Err(refusal) => {
                assert_eq!(refusal.number, 71);
                // The events before the first bad one are written, and not with it.
                let (before, through) = (refusal.place - 1, refusal.place);
                assert!(written.contains(&journal[..Event::SIZE * before]));
                assert!(!written.contains(&journal[..Event::SIZE * through]));
                continue;
            }
        }
        accepted.insert(journal);
    }
    assert!(written.len() > 10);
    assert_eq!(written, accepted);
}

/// Two jobs that are equal in the low four bytes.
const JOBS: [u64; 2] = [7, 7 + (1 << 40)];

/// An entry: inputs, abort reply, reset reply, the reply of the only piece if
/// there is one, the clock, and which job. Errors have code 2, the time-out is
/// 100.
fn entry(
    inputs: u8,
    abort: u8,
    reset: u8,
    piece: Option<u8>,
    clock: u32,
    job: u64,
) -> [u8; Entry::SIZE] {
    let mut bytes = [0; Entry::SIZE];
    let count = u8::from(piece.is_some());
    bytes[..4].copy_from_slice(&[inputs, count, abort, reset]);
    bytes[4] = if abort == 2 { 2 } else { 0 };
    bytes[16] = 100;
    bytes[20..24].copy_from_slice(&clock.to_le_bytes());
    if let Some(reply) = piece {
        bytes[24..27].copy_from_slice(&[reply, 0, if reply == 2 { 2 } else { 0 }]);
        bytes[28..32].copy_from_slice(&clock.to_le_bytes());
    }
    bytes[56..].copy_from_slice(&job.to_le_bytes());
    bytes
}

/// Entries with every input and reply, at a clock of 0 and past the time-out.
fn entries() -> Vec<[u8; Entry::SIZE]> {
    let mut all = Vec::new();
    for inputs in 0..4 {
        for (abort, reset) in [(0, 0), (0, 1), (1, 0), (1, 1), (2, 0), (2, 1)] {
            for piece in [None, Some(1), Some(2)] {
                for clock in [0, 101] {
                    all.extend(JOBS.map(|job| entry(inputs, abort, reset, piece, clock, job)));
                }
            }
        }
    }
    all
}

/// Events of any kind with these codes and both jobs, at positions 1 and on.
fn lines(blocks: u8) -> Vec<Line> {
    let mut all = Vec::new();
    for position in 1..=blocks {
        for kind in [START, DONE, FAILED, ABORTED, WITHDRAWN] {
            for code in [0, 1, 2] {
                all.extend(JOBS.map(|job| (kind, position, code, job)));
            }
        }
    }
    all
}

#[test]
fn exactly_what_one_block_writes() {
    let frames: Vec<Vec<u8>> = entries().iter().map(|entry| entry.to_vec()).collect();
    for kind in 1..=14 {
        expect_exactly(&one(kind), &frames, &lines(1));
    }
}

/// Fewer entries: of a block that rests, starts, works on, ends in each way.
#[test]
fn exactly_what_two_blocks_write() {
    let entries: Vec<[u8; Entry::SIZE]> = JOBS
        .into_iter()
        .flat_map(|job| {
            [
                entry(0, 1, 1, None, 0, job),
                entry(1, 1, 1, None, 0, job),
                entry(1, 1, 1, Some(1), 0, job),
                entry(1, 1, 1, Some(2), 0, job),
                entry(1, 1, 1, Some(1), 101, job),
                entry(3, 1, 1, None, 0, job),
            ]
        })
        .collect();
    let pairs = entries
        .iter()
        .flat_map(|one| entries.iter().map(move |other| [*one, *other].concat()));
    let frames: Vec<Vec<u8>> = pairs.collect();
    for kinds in [[1, 13], [7, 12], [14, 3], [9, 5]] {
        // The second block lies before the first.
        let image = image(
            3,
            &[
                row(kinds[1], 0, b"B       "),
                SPARE,
                row(kinds[0], 1, b"A       "),
            ],
        );
        expect_exactly(&image, &frames, &lines(2));
    }
}
