//! A fresh state and the scan on bytes: the checks 20 to 41, the wires, the
//! cases of the scope document, and buffers left alone by a refused call.

use reference::layout::{entry as entry_at, record as record_at, report as report_at};
use reference::machine::{
    Entry, Event, Events, Inputs, Piece, Record, Report, BUSY, DONE, MAX_PIECES,
};
use reference::scan::{fresh, scan};
use reference::table::{check, Refusal, HEADER_SIZE, SLOT_SIZE};

/// The least bytes of a journal, a block.
const EVENTS_SIZE: usize = Events::MAX * Event::SIZE;

fn no<T>(number: u8, place: usize) -> Result<T, Refusal> {
    Err(Refusal { number, place })
}

/// Blocks in slots 1, 2, ... chained in that order: kind and the two wires.
fn image(blocks: &[(u8, [u8; 2], [u8; 2])]) -> Vec<u8> {
    let order: Vec<u8> = (1..=blocks.len() as u8).collect();
    ordered(blocks, &order)
}

/// Blocks in slots 1, 2, ... chained in the given order of slots.
fn ordered(blocks: &[(u8, [u8; 2], [u8; 2])], order: &[u8]) -> Vec<u8> {
    let mut bytes = vec![1, blocks.len() as u8, order[0], 0];
    for (index, (kind, start, abort)) in blocks.iter().enumerate() {
        let slot = index as u8 + 1;
        let at = order.iter().position(|&other| other == slot).unwrap();
        let next = order.get(at + 1).copied().unwrap_or(0);
        bytes.extend_from_slice(&[*kind, next, start[0], start[1], abort[0], abort[1], 0, 0]);
        bytes.extend_from_slice(&[b'T', b'A' + slot, b' ', b' ', b' ', b' ', b' ', b' ']);
    }
    assert_eq!(check(&bytes), Ok(blocks.len()));
    bytes
}

const FRAME: [u8; 2] = [0, 0];

fn one(kind: u8) -> Vec<u8> {
    image(&[(kind, FRAME, FRAME)])
}

fn entry(start: bool, job: u64, pieces: &[Piece]) -> Entry {
    let mut list = [Piece::ZERO; MAX_PIECES];
    list[..pieces.len()].copy_from_slice(pieces);
    Entry {
        inputs: Inputs {
            start,
            abort: false,
        },
        piece_count: pieces.len() as u8,
        abort_reply: 0,
        reset_reply: 1,
        abort_code: 0,
        job,
        time_limit: 0,
        time_out: 0,
        clock: 0,
        pieces: list,
    }
}

fn piece(reply: u8, code: u16, clock: u32) -> Piece {
    Piece { reply, code, clock }
}

const WORKING: Piece = Piece::ZERO;
const COMPLETE: Piece = Piece {
    reply: 1,
    code: 0,
    clock: 0,
};

/// A table with its buffers, from fresh on.
struct Engine {
    image: Vec<u8>,
    state: Vec<u8>,
    report: Vec<u8>,
    journal: Vec<u8>,
}

impl Engine {
    fn new(image: Vec<u8>) -> Engine {
        let count = check(&image).unwrap();
        let mut state = vec![0xee; Record::SIZE * count];
        assert_eq!(fresh(&image, &mut state), Ok(count));
        assert_eq!(state, vec![0; Record::SIZE * count]);
        Engine {
            image,
            state,
            report: vec![0xee; Report::SIZE * count],
            journal: vec![0xee; EVENTS_SIZE * count + 5],
        }
    }

    /// One accepted scan: the reports and the events.
    fn scan(&mut self, entries: &[Entry]) -> (Vec<Report>, Vec<Event>) {
        let frame: Vec<u8> = entries.iter().flat_map(|entry| entry.encode()).collect();
        self.report.fill(0xee);
        self.journal.fill(0xee);
        let count = scan(
            &self.image,
            &mut self.state,
            &frame,
            &mut self.report,
            &mut self.journal,
        )
        .unwrap();
        let (reports, _) = self.report.as_chunks::<{ Report::SIZE }>();
        let unnamed = |bytes: &[u8; Report::SIZE]| report_at::UNNAMED.map(|at| bytes[at]);
        assert!(reports.iter().all(|bytes| unnamed(bytes) == [0, 0]));
        let (written, after) = self.journal.split_at(Event::SIZE * count);
        let (events, _) = written.as_chunks::<{ Event::SIZE }>();
        assert!(after.iter().all(|&byte| byte == 0xee));
        (
            reports.iter().map(Report::decode).collect(),
            events.iter().map(Event::decode).collect(),
        )
    }

    fn flags(&mut self, entries: &[Entry]) -> Vec<u8> {
        let (reports, _) = self.scan(entries);
        reports.iter().map(|report| report.flags).collect()
    }
}

/// Flags, pieces used, passes, step, code, job; then kind, code and job of each
/// event, all of position 1.
type Seen = ([u64; 6], Vec<[u64; 3]>);

/// Runs one block from fresh through these entries; what the last scan gives.
fn last(kind: u8, entries: &[Entry]) -> Seen {
    let mut engine = Engine::new(one(kind));
    let mut seen = ([0; 6], vec![]);
    for entry in entries {
        let (reports, events) = engine.scan(&[*entry]);
        let r = reports[0];
        let bytes = [r.flags, r.pieces, r.passes, r.step].map(u64::from);
        let [flags, pieces, passes, step] = bytes;
        assert!(events.iter().all(|event| event.position == 1));
        seen = (
            [flags, pieces, passes, step, u64::from(r.code), r.job],
            events
                .iter()
                .map(|event| [u64::from(event.kind), u64::from(event.code), event.job])
                .collect(),
        );
    }
    seen
}

#[test]
fn c1_to_c6() {
    let idle = entry(false, 0, &[WORKING]);
    let seven = entry(true, 7, &[COMPLETE]);
    assert_eq!(last(1, &[idle]), ([0, 0, 1, 0, 0, 0], vec![]));
    let done = vec![[1, 0, 7], [2, 0, 7]];
    assert_eq!(last(1, &[seven]), ([2, 1, 3, 2, 0, 7], done));
    let held = entry(true, 0, &[WORKING]);
    assert_eq!(last(1, &[seven, held]), ([2, 0, 1, 2, 0, 7], vec![]));
    assert_eq!(last(1, &[seven, idle]), ([0, 0, 2, 0, 0, 0], vec![]));

    let working = entry(true, 7, &[WORKING]);
    let falling = entry(false, 0, &[COMPLETE]);
    let mut nine = entry(true, 9, &[COMPLETE]);
    for kind in [1, 5] {
        let begun = ([1, 1, 2, 1, 0, 7], vec![[1, 0, 7]]);
        assert_eq!(last(kind, &[working]), begun);
        let ended = ([2, 1, 2, 2, 0, 7], vec![[2, 0, 7]]);
        assert_eq!(last(kind, &[working, falling]), ended);
        let again = ([2, 1, 5, 2, 0, 9], vec![[1, 0, 9], [2, 0, 9]]);
        assert_eq!(last(kind, &[working, falling, nine]), again);
    }
    nine.inputs.abort = true;
    nine.abort_reply = 1;
    let aborted = ([8, 0, 6, 5, 0, 9], vec![[1, 0, 9], [4, 0, 9]]);
    assert_eq!(last(5, &[working, falling, nine]), aborted);
}

#[test]
fn c7_to_c12() {
    let timed = |time_out: u32, clock: u32, piece: Piece| {
        let mut timed = entry(true, 0, &[piece]);
        timed.time_out = time_out;
        timed.clock = clock;
        last(3, &[timed])
    };
    let busy = ([1, 1, 2, 1, 0, 0], vec![[1, 0, 0]]);
    let failed = |code: u64| ([4, 1, 3, 3, code, 0], vec![[1, 0, 0], [3, code, 0]]);
    assert_eq!(timed(100, 0, piece(0, 0, 100)), busy);
    assert_eq!(timed(100, 0, piece(0, 0, 101)), failed(1));
    assert_eq!(timed(100, 0, piece(1, 0, 101)), failed(1));
    assert_eq!(timed(100, 0, piece(2, 5, 101)), failed(5));
    assert_eq!(timed(10, 4_294_967_290, piece(0, 0, 4)), busy);
    assert_eq!(timed(10, 4_294_967_290, piece(0, 0, 5)), failed(1));

    let clocks = [piece(0, 0, 50), piece(0, 0, 51), piece(0, 0, 52)];
    let mut limited = entry(true, 0, &clocks);
    limited.time_limit = 50;
    let two = ([1, 2, 2, 1, 0, 0], vec![[1, 0, 0]]);
    assert_eq!(last(2, &[limited]), two);

    let working = entry(true, 0, &[WORKING]);
    let mut withdrawn = entry(false, 0, &[WORKING]);
    withdrawn.abort_reply = 1;
    let dormant = ([0, 0, 3, 0, 0, 0], vec![[5, 0, 0]]);
    assert_eq!(last(9, &[working, withdrawn]), dormant);
}

/// Document 02, 1/14, on bytes: elapsed and last reading after each call.
#[test]
fn readings_out_of_step() {
    for (kind, time_out) in [(3, 100), (11, 100), (1, 0), (14, 0)] {
        let mut engine = Engine::new(one(kind));
        let clocks = [0, 2_147_483_648, 2_147_483_848, 50, 101];
        for (clock, time) in clocks.into_iter().zip([0u8, 0, 0, 50, 101]) {
            let mut working = entry(true, 0, &[]);
            working.clock = clock;
            working.time_out = time_out;
            let failed = time_out > 0 && time == 101;
            assert_eq!(engine.flags(&[working]), [if failed { 4 } else { BUSY }]);
            let reading = &engine.state[record_at::LAST_READING..][..size_of::<u32>()];
            assert_eq!(reading, u32::from(time).to_le_bytes());
            let elapsed = &engine.state[record_at::ELAPSED..][..size_of::<u64>()];
            assert_eq!(elapsed, u64::from(time).to_le_bytes());
        }
    }
}

#[test]
fn no_blocks() {
    let mut image = vec![1, 3, 0, 0];
    image.extend_from_slice(&[0; 3 * SLOT_SIZE]);
    assert_eq!(fresh(&image, &mut []), Ok(0));
    assert_eq!(scan(&image, &mut [], &[], &mut [], &mut []), Ok(0));
    let mut journal = [7; 9];
    assert_eq!(scan(&image, &mut [], &[], &mut [], &mut journal), Ok(0));
    assert_eq!(journal, [7; 9]);
    assert_eq!(fresh(&image, &mut [0]), no(20, 0));
}

#[test]
fn wire_to_an_earlier_block_reads_this_scan() {
    // Block 2 starts on done of block 1.
    let mut engine = Engine::new(image(&[(1, FRAME, FRAME), (1, [1, 1], FRAME)]));
    let (reports, events) = engine.scan(&[entry(true, 1, &[COMPLETE]), entry(false, 2, &[])]);
    assert_eq!([reports[0].flags, reports[1].flags], [DONE, BUSY]);
    let positions: Vec<_> = events.iter().map(|e| (e.kind, e.position, e.job)).collect();
    assert_eq!(positions, [(1, 1, 1), (2, 1, 1), (1, 2, 2)]);
}

#[test]
fn wire_to_a_later_block_reads_the_last_scan() {
    // Block 1 starts on done of block 2.
    let mut engine = Engine::new(image(&[(1, [2, 1], FRAME), (1, FRAME, FRAME)]));
    let entries = [entry(true, 1, &[]), entry(true, 2, &[COMPLETE])];
    assert_eq!(engine.flags(&entries), [0, DONE]);
    assert_eq!(engine.flags(&entries), [BUSY, DONE]);
}

#[test]
fn wire_to_itself_reads_the_last_scan() {
    // The block starts while it is not busy.
    let mut engine = Engine::new(image(&[(9, [1, 0x80], FRAME)]));
    let mut working = entry(false, 1, &[WORKING]);
    working.abort_reply = 1;
    assert_eq!(engine.flags(&[working]), [BUSY]);
    assert_eq!(engine.flags(&[working]), [0]);
    assert_eq!(engine.flags(&[working]), [BUSY]);
}

#[test]
fn wire_names_a_slot_not_a_position() {
    // The chain is slots 3, 1, 2; slot 1 (position 2) starts on busy of slot 3.
    let blocks = [(1, [3, 0], FRAME), (1, FRAME, FRAME), (1, FRAME, FRAME)];
    let mut engine = Engine::new(ordered(&blocks, &[3, 1, 2]));
    let on = entry(true, 1, &[WORKING]);
    let off = entry(false, 2, &[WORKING]);
    assert_eq!(engine.flags(&[on, off, off]), [BUSY, BUSY, 0]);
}

#[test]
fn abort_wire() {
    // Block 2 is aborted by the error of block 1, and by nothing in the frame.
    let mut engine = Engine::new(image(&[(1, FRAME, FRAME), (5, FRAME, [1, 2])]));
    let mut second = entry(true, 2, &[WORKING]);
    second.inputs.abort = true;
    second.abort_reply = 1;
    let working = entry(true, 1, &[WORKING]);
    assert_eq!(engine.flags(&[working, second]), [1, 1]);
    let failing = entry(true, 1, &[piece(2, 9, 0)]);
    let (reports, events) = engine.scan(&[failing, second]);
    assert_eq!([reports[0].flags, reports[1].flags], [4, 8]);
    let seen: Vec<_> = events.iter().map(|e| (e.kind, e.code, e.job)).collect();
    assert_eq!(seen, [(3, 9, 1), (4, 0, 2)]);
}

/// The blocks of [`Buffers::good`].
const BLOCKS: usize = 2;

/// Two blocks with good buffers, one or more of which a case makes bad.
struct Buffers {
    image: Vec<u8>,
    state: Vec<u8>,
    frame: Vec<u8>,
    report: Vec<u8>,
    journal: Vec<u8>,
}

impl Buffers {
    fn good() -> Buffers {
        let image = image(&[(1, FRAME, FRAME), (9, FRAME, FRAME)]);
        let entries = [entry(true, 1, &[COMPLETE]), entry(true, 2, &[COMPLETE])];
        Buffers {
            image,
            state: vec![0; Record::SIZE * BLOCKS],
            frame: entries.iter().flat_map(|entry| entry.encode()).collect(),
            report: vec![0x55; Report::SIZE * BLOCKS],
            journal: vec![0x66; EVENTS_SIZE * BLOCKS],
        }
    }

    fn scan(&mut self) -> Result<usize, Refusal> {
        scan(
            &self.image,
            &mut self.state,
            &self.frame,
            &mut self.report,
            &mut self.journal,
        )
    }

    fn refused(&mut self, number: u8, place: usize) {
        let before = (
            self.state.clone(),
            self.report.clone(),
            self.journal.clone(),
        );
        assert_eq!(self.scan(), no(number, place));
        assert_eq!(before.0, self.state);
        assert_eq!(before.1, self.report);
        assert_eq!(before.2, self.journal);
    }
}

#[test]
fn each_check_from_the_last_to_the_first() {
    let mut buffers = Buffers::good();
    buffers.journal.pop();
    buffers.refused(41, 0);
    buffers.report.push(0);
    buffers.refused(40, 0);
    buffers.frame[Entry::SIZE + entry_at::INPUTS] = 4;
    buffers.refused(31, 2);
    buffers.frame[entry_at::RESET_REPLY] = 2;
    buffers.refused(31, 1);
    buffers.frame.pop();
    buffers.refused(30, 0);
    buffers.state[Record::SIZE + record_at::STEP] = 7;
    buffers.refused(21, 2);
    buffers.state[record_at::FLAGS] = 1;
    buffers.refused(21, 1);
    buffers.state.push(0);
    buffers.refused(20, 0);
    buffers.image[HEADER_SIZE + SLOT_SIZE + 2] = 3;
    buffers.refused(10, 2);
    buffers.image.clear();
    buffers.refused(1, 0);
}

/// All lengths up to twice the right one, which alone is left out.
fn wrong_lengths(right: usize) -> impl Iterator<Item = usize> {
    (0..=2 * right).filter(move |&length| length != right)
}

#[test]
fn lengths() {
    for length in wrong_lengths(Record::SIZE * BLOCKS) {
        let mut buffers = Buffers::good();
        buffers.state = vec![0; length];
        buffers.refused(20, 0);
        let mut state = vec![0xee; length];
        assert_eq!(fresh(&buffers.image, &mut state), no(20, 0));
        assert_eq!(state, vec![0xee; length]);
    }
    for length in wrong_lengths(Entry::SIZE * BLOCKS) {
        let mut buffers = Buffers::good();
        buffers.frame = vec![0; length];
        buffers.refused(30, 0);
    }
    for length in wrong_lengths(Report::SIZE * BLOCKS) {
        let mut buffers = Buffers::good();
        buffers.report = vec![0; length];
        buffers.refused(40, 0);
    }
    for length in 0..EVENTS_SIZE * BLOCKS {
        let mut buffers = Buffers::good();
        buffers.journal = vec![0; length];
        buffers.refused(41, 0);
    }
}

/// "41 means under 24 × blocks": four events in a journal with no byte to
/// spare, or with some that stay.
#[test]
fn journal_just_long_enough() {
    for spare in 0..Event::SIZE {
        let mut buffers = Buffers::good();
        buffers.journal = vec![0x66; EVENTS_SIZE * BLOCKS + spare];
        assert_eq!(buffers.scan(), Ok(Events::MAX * BLOCKS));
        let after = &buffers.journal[EVENTS_SIZE * BLOCKS..];
        assert_eq!(after, vec![0x66; spare]);
    }
}

/// Document 02, 3/14: "job in 32-39, bytes 4-7 zero" and "job in 56-63, bytes
/// 8-11 zero", at either position.
#[test]
fn unnamed_bytes() {
    let mut running = Record::fresh();
    running.step = Record::EXECUTING;
    running.flags = BUSY;
    running.job = u64::MAX;
    for (place, position) in (1..).zip(0..BLOCKS) {
        for at in record_at::UNNAMED {
            let mut buffers = Buffers::good();
            buffers.state = [running.encode(), running.encode()].concat();
            buffers.state[Record::SIZE * position + at] = 1;
            buffers.refused(21, place);
        }
        for at in entry_at::UNNAMED {
            let mut buffers = Buffers::good();
            buffers.frame[Entry::SIZE * position + at] = 1;
            buffers.refused(31, place);
        }
        for byte in 0..size_of::<u64>() {
            let mut buffers = Buffers::good();
            buffers.frame[Entry::SIZE * position + entry_at::JOB + byte] = 0xff;
            buffers.state[Record::SIZE * position + record_at::JOB + byte] = 1;
            buffers.refused(21, place);
            buffers.state.fill(0);
            assert_eq!(buffers.scan(), Ok(Events::MAX * BLOCKS));
        }
    }
}

/// Jobs equal in the low four bytes, and such that only one bit tells them
/// apart: two blocks in one scan, and one after the other in each block.
#[test]
fn jobs_alike_in_the_low_bytes() {
    let mut engine = Engine::new(image(&[(1, FRAME, FRAME), (9, FRAME, FRAME)]));
    let idle = [entry(false, 1, &[]), entry(false, 2, &[])];
    let numbers = [7, (1 << 32) + 7, (1 << 40) + 7, (1 << 63) + 7, u64::MAX, 0];
    for first in numbers {
        for second in numbers {
            let pair = [first, second];
            let (reports, events) = engine.scan(&pair.map(|job| entry(true, job, &[COMPLETE])));
            assert_eq!([reports[0].job, reports[1].job], pair);
            let jobs: Vec<_> = events.iter().map(|e| (e.position, e.job)).collect();
            assert_eq!(jobs, [(1, first), (1, first), (2, second), (2, second)]);
            let (records, _) = engine.state.as_chunks::<{ Record::SIZE }>();
            assert_eq!([0, 1].map(|at| Record::decode(&records[at]).job), pair);
            let (_, events) = engine.scan(&idle);
            assert_eq!(events, []);
            assert!(engine.state.iter().all(|&byte| byte == 0));
        }
    }
}

#[test]
fn fresh_asks_for_no_sound_state_but_a_good_table() {
    let mut image = one(1);
    let mut state = [0xff; Record::SIZE];
    assert_eq!(fresh(&image, &mut state), Ok(1));
    assert_eq!(state, [0; Record::SIZE]);
    image[HEADER_SIZE] = 0;
    let mut state = [0xff; Record::SIZE - 1];
    assert_eq!(fresh(&image, &mut state), no(7, 1));
    assert_eq!(state, [0xff; Record::SIZE - 1]);
}

#[test]
fn the_kind_decides_what_is_sound() {
    let mut buffers = Buffers::good();
    // Aborting: busy only, on kind 9 but not on kind 1.
    let aborting = |state: &mut [u8]| {
        state[record_at::STEP] = Record::ABORTING;
        state[record_at::FLAGS] = BUSY;
    };
    aborting(&mut buffers.state[Record::SIZE..]);
    let mut engine = Engine::new(buffers.image.clone());
    engine.state = buffers.state.clone();
    engine.scan(&[entry(false, 0, &[]), entry(false, 0, &[])]);
    aborting(&mut buffers.state);
    buffers.refused(21, 1);
}

/// A small generator of numbers, for inputs without a pattern.
struct Numbers(u64);

impl Numbers {
    fn below(&mut self, limit: u32) -> u32 {
        self.0 ^= self.0 << 13;
        self.0 ^= self.0 >> 7;
        self.0 ^= self.0 << 17;
        (self.0 >> 33) as u32 % limit
    }

    /// Any number, often one of a few that are alike in the low four bytes.
    fn job(&mut self) -> u64 {
        let high = u64::from(self.below(4)) << (32 + 8 * self.below(4));
        match self.below(4) {
            0 => u64::from(self.below(u32::MAX)) << 32 | u64::from(self.below(u32::MAX)),
            _ => high | 7,
        }
    }

    fn entry(&mut self) -> Entry {
        let code = |reply: u8| if reply == 2 { 5 } else { 0 };
        let mut pieces = [Piece::ZERO; MAX_PIECES];
        let count = self.below(5) as u8;
        let clock = self.below(1000).wrapping_sub(500);
        for piece in pieces.iter_mut().take(usize::from(count)) {
            piece.reply = self.below(3) as u8;
            piece.code = code(piece.reply);
            piece.clock = clock.wrapping_add(self.below(60));
        }
        let abort_reply = self.below(3) as u8;
        Entry {
            inputs: Inputs {
                start: self.below(2) == 1,
                abort: self.below(3) == 1,
            },
            piece_count: count,
            abort_reply,
            reset_reply: self.below(2) as u8,
            abort_code: code(abort_reply),
            job: self.job(),
            time_limit: self.below(50),
            time_out: self.below(100),
            clock,
            pieces,
        }
    }
}

/// Fourteen blocks, one of each kind, through many scans: every state stays
/// sound, and the events of each block begin with a start and take turns, with
/// the job of the start in its finish.
#[test]
fn long_runs_stay_sound() {
    let blocks: Vec<_> = (1..=14u8)
        .map(|kind| {
            let start = if kind % 3 == 0 {
                [kind / 3, 0x80]
            } else {
                FRAME
            };
            let abort = if kind == 7 { [9, 0] } else { FRAME };
            (kind, start, abort)
        })
        .collect();
    let mut engine = Engine::new(image(&blocks));
    let mut numbers = Numbers(0x9e37_79b9_7f4a_7c15);
    let mut running = [None; 15];
    let mut kinds = [0u32; 6];
    for _ in 0..20_000 {
        let entries: Vec<Entry> = (0..14).map(|_| numbers.entry()).collect();
        let (reports, events) = engine.scan(&entries);
        for report in reports {
            assert!((1..=6).contains(&report.passes));
            assert!(report.pieces <= 4);
        }
        for event in events {
            let at = usize::from(event.position);
            kinds[usize::from(event.kind)] += 1;
            if event.kind == Event::START {
                assert_eq!(running[at], None);
                assert_eq!(event.job, entries[at - 1].job);
                running[at] = Some(event.job);
            } else {
                assert_eq!(running[at], Some(event.job));
                running[at] = None;
            }
        }
        let (records, _) = engine.state.as_chunks::<{ Record::SIZE }>();
        for (record, kind) in records.iter().zip(1u8..) {
            assert!(Record::is_sound(record, kind));
        }
    }
    assert!(kinds[1..].iter().all(|&count| count > 1000), "{kinds:?}");
}

/// Bytes without a pattern in every buffer: an answer, never a panic.
#[test]
fn any_bytes_are_answered() {
    let mut numbers = Numbers(77);
    for round in 0..20_000 {
        let mut buffers = Buffers::good();
        for _ in 0..1 + round % 4 {
            let value = numbers.below(256) as u8;
            let bytes = match numbers.below(3) {
                0 => &mut buffers.image,
                1 => &mut buffers.state,
                _ => &mut buffers.frame,
            };
            let at = numbers.below(bytes.len() as u32) as usize;
            bytes[at] = value;
        }
        let before = buffers.report.clone();
        if buffers.scan().is_err() {
            assert_eq!(before, buffers.report);
        }
    }
}
