//! State records, sound and unsound, and frame entries, formed and not, for each kind.

use crate::rng::Rng;
use lane::{Record, Step, ENTRY_BYTES, MAX_PIECES, RECORD_BYTES};
use reference::layout::{entry as at_entry, piece as at_piece, record as at};

const BUSY: u8 = 1;
const DONE: u8 = 2;
const ERROR: u8 = 4;
const ABORTED: u8 = 8;

/// The greatest elapsed time.
const HELD: u64 = 1 << 32;

/// Half the range of the counter: a reading so far after another, or farther, is out of step with it.
pub const HALF: u32 = 1 << 31;

/// What a kind has.
#[derive(Clone, Copy, Debug)]
pub struct Has {
    pub level: bool,
    pub abort: bool,
    pub limit: bool,
    pub time_out: bool,
    pub continuous: bool,
}

impl Has {
    /// The properties of kind 1 to 14, by its place in the list of names.
    pub fn of(kind: u8) -> Has {
        let name = [
            "", "TI", "To", "TITo", "A", "ATI", "ATo", "ATITo", "", "TI", "To", "TITo", "C", "TIC",
        ][usize::from(kind) - 1];
        Has {
            level: kind >= 9,
            abort: name.contains('A'),
            limit: name.contains("TI"),
            time_out: name.contains("To"),
            continuous: name.contains('C'),
        }
    }
}

/// Writes a number at a place.
fn put(to: &mut [u8], at: usize, bytes: &[u8]) {
    to[at..at + bytes.len()].copy_from_slice(bytes);
}

/// A number of 32 bits: small, near a wrap of the counter, or any.
pub fn word(rng: &mut Rng) -> u32 {
    match rng.below(8) {
        0 => 0,
        1..=4 => rng.range(1, 200) as u32,
        5 => (rng.below(200) as u32).wrapping_neg(),
        6 => HALF + rng.below(200) as u32 - 100,
        _ => rng.next() as u32,
    }
}

/// A job that does not fit in four bytes.
pub const LONG: u64 = (1 << 40) + 7;

/// The low four bytes of a job.
pub const LOW: u64 = u32::MAX as u64;

/// A job: none of its bytes set, all, the low four or the high four alone, or any; often `like`, or equal to it in the
/// low or in the high four bytes, or in all bits but one.
pub fn job(rng: &mut Rng, like: u64) -> u64 {
    let high = u64::from(word(rng)) << u32::BITS;
    match rng.below(16) {
        0 => 0,
        1 => u64::MAX,
        2 => LONG,
        3 => u64::from(word(rng)),
        4 => high,
        5..=7 => like & LOW | high,
        8 => like & !LOW | u64::from(word(rng)),
        9 | 10 => like,
        11..=13 => like ^ 1 << rng.below(64),
        _ => rng.next(),
    }
}

/// Half the range of the counter, or one less or more.
fn half(rng: &mut Rng) -> u32 {
    HALF - 1 + rng.below(3) as u32
}

/// A few microseconds back.
fn back(rng: &mut Rng) -> u32 {
    (rng.range(1, 20) as u32).wrapping_neg()
}

/// An elapsed time, up to the greatest, and at times about half the range short of it.
fn elapsed(rng: &mut Rng) -> u64 {
    match rng.below(9) {
        0 => 0,
        1..=4 => rng.range(1, 200) as u64,
        5 => HELD - rng.below(3) as u64,
        6 => u64::from(HALF) + rng.below(4) as u64,
        _ => rng.next() & (HELD - 1),
    }
}

/// An error code of an action.
pub(crate) fn code(rng: &mut Rng) -> u16 {
    match rng.below(4) {
        0 => 2,
        1 => 65_535,
        _ => rng.range(2, 65_535) as u16,
    }
}

/// The steps and flags that a block of a kind can have outside Dormant.
fn shapes(has: Has) -> Vec<(u8, u8)> {
    let mut shapes = vec![(1, BUSY), (3, ERROR), (6, ERROR)];
    if !has.continuous {
        shapes.extend([(2, DONE), (6, DONE)]);
    }
    if has.abort {
        shapes.extend([(5, ABORTED), (6, ABORTED)]);
    }
    if has.abort || has.level {
        shapes.push((4, BUSY));
    }
    if has.level {
        shapes.push((6, BUSY));
    }
    shapes
}

/// Whether a reset request may stand with this flag.
fn may_request(has: Has, flag: u8) -> bool {
    flag != BUSY && !(has.level && flag == DONE)
}

/// A sound record of a block that isn't Dormant.
fn sound_open(rng: &mut Rng, kind: u8) -> [u8; RECORD_BYTES] {
    let has = Has::of(kind);
    let (step, flag) = rng.pick(&shapes(has));
    let mut record = [0; RECORD_BYTES];
    record[at::STEP] = step;
    record[at::FLAGS] = flag;
    record[at::RESET_REQUEST] = u8::from(may_request(has, flag) && rng.one_in(2));
    let like = rng.next();
    put(&mut record, at::JOB, &job(rng, like).to_le_bytes());
    if flag == ERROR {
        let time_out = has.time_out && rng.one_in(2);
        let code = if time_out { 1 } else { code(rng) };
        put(&mut record, at::CODE, &code.to_le_bytes());
    }
    if !has.level && has.limit {
        put(&mut record, at::TIME_LIMIT, &bound(rng).to_le_bytes());
    }
    if !has.level && has.time_out {
        put(&mut record, at::TIME_OUT, &bound(rng).to_le_bytes());
    }
    put(&mut record, at::LAST_READING, &word(rng).to_le_bytes());
    put(&mut record, at::ELAPSED, &elapsed(rng).to_le_bytes());
    record
}

/// A sound record.
pub fn sound(rng: &mut Rng, kind: u8) -> [u8; RECORD_BYTES] {
    match rng.below(6) {
        0 => [0; RECORD_BYTES],
        _ => sound_open(rng, kind),
    }
}

/// Gives a record a step and a flag that don't go together on its kind.
fn spoil_shape(rng: &mut Rng, has: Has, record: &mut [u8; RECORD_BYTES]) {
    let (step, flag) = loop {
        let shape = (rng.byte(1, 6), rng.pick(&[BUSY, DONE, ERROR, ABORTED]));
        if !shapes(has).contains(&shape) {
            break shape;
        }
    };
    let code = if flag == ERROR { code(rng) } else { 0 };
    record[at::STEP] = step;
    record[at::FLAGS] = flag;
    record[at::RESET_REQUEST] = 0;
    put(record, at::CODE, &code.to_le_bytes());
}

/// An elapsed time above the greatest.
fn past_held(rng: &mut Rng) -> u64 {
    match rng.below(3) {
        0 => HELD + 1,
        1 => HELD + rng.range(1, 1 << 20) as u64,
        _ => rng.next() | HELD << rng.range(1, 31),
    }
}

/// A record that is unsound in one field.
pub fn unsound(rng: &mut Rng, kind: u8) -> [u8; RECORD_BYTES] {
    let has = Has::of(kind);
    let mut record = sound_open(rng, kind);
    let flag = record[at::FLAGS];
    match rng.below(16) {
        // A Dormant record that is not all zero.
        0 => {
            record = [0; RECORD_BYTES];
            record[rng.range(1, RECORD_BYTES - 1)] = rng.byte(1, 255);
        }
        1 => record[at::STEP] = 0,
        2 => record[at::STEP] = rng.byte(7, 255),
        3 => record[at::FLAGS] = 0,
        4 => record[at::FLAGS] |= 1 << rng.byte(4, 7),
        // Another flag beside the one it has.
        5 => {
            let mut flags = vec![BUSY, DONE, ERROR, ABORTED];
            flags.retain(|&other| other != flag);
            record[at::FLAGS] |= rng.pick(&flags);
        }
        6 => spoil_shape(rng, has, &mut record),
        7 => record[at::RESET_REQUEST] = rng.byte(2, 255),
        8 if !may_request(has, flag) => record[at::RESET_REQUEST] = 1,
        9 if flag == ERROR => put(&mut record, at::CODE, &[0, 0]),
        9 => put(&mut record, at::CODE, &code(rng).to_le_bytes()),
        10 if flag == ERROR && !has.time_out => put(&mut record, at::CODE, &[1, 0]),
        11 if has.level || !has.limit => {
            put(&mut record, at::TIME_LIMIT, &word(rng).max(1).to_le_bytes());
        }
        12 if has.level || !has.time_out => {
            put(&mut record, at::TIME_OUT, &word(rng).max(1).to_le_bytes());
        }
        13 => put(&mut record, at::ELAPSED, &past_held(rng).to_le_bytes()),
        // An unnamed byte.
        _ => record[rng.pick(&at::UNNAMED)] = rng.byte(1, 255),
    }
    record
}

/// A step of a clock: none or a small one, a few microseconds back, about half the range, or any.
fn step(rng: &mut Rng) -> u32 {
    match rng.below(32) {
        0..=6 => 0,
        7..=19 => rng.range(1, 12) as u32,
        20..=23 => rng.range(13, 120) as u32,
        24..=27 => back(rng),
        28..=30 => half(rng),
        _ => rng.next() as u32,
    }
}

/// A clock that goes on by small steps, and sometimes stands, wraps or runs back. Out of step, it goes on from
/// there, and sooner or later comes back.
#[derive(Clone, Debug)]
pub struct Clock {
    now: u32,
    /// The last reading that was in step.
    last: u32,
}

impl Clock {
    /// A clock at zero, shortly before a wrap of the counter, or anywhere.
    pub fn new(rng: &mut Rng) -> Clock {
        let now = match rng.below(3) {
            0 => 0,
            1 => (rng.range(1, 60) as u32).wrapping_neg(),
            _ => rng.next() as u32,
        };
        Clock { now, last: now }
    }

    /// Goes at times where a block that counts time last read it, a few microseconds before that, or half the
    /// range away.
    pub fn follow(&mut self, rng: &mut Rng, record: &[u8; RECORD_BYTES]) {
        let Some(record) = Record::decode(record) else {
            return;
        };
        if record.step == Step::Executing && rng.one_in(2) {
            let off = match rng.below(6) {
                0 => back(rng),
                1 => half(rng),
                _ => 0,
            };
            self.last = record.last_reading;
            self.now = self.last.wrapping_add(off);
        }
    }

    /// The next reading.
    fn read(&mut self, rng: &mut Rng) -> u32 {
        if rng.one_in(3) {
            self.now = self.last;
        }
        self.now = self.now.wrapping_add(step(rng));
        if self.now.wrapping_sub(self.last) < HALF {
            self.last = self.now;
        }
        self.now
    }
}

/// A limit or time-out: none, of the size of a few steps of the clock, about half the range, or any.
fn bound(rng: &mut Rng) -> u32 {
    match rng.below(12) {
        0..=2 => 0,
        3..=7 => rng.range(1, 30) as u32,
        8 => rng.range(31, 200) as u32,
        9 | 10 => HALF - 2 + rng.below(4) as u32,
        _ => word(rng),
    }
}

/// A reply and its code, by weights of working, complete and error.
fn reply(rng: &mut Rng, working: usize, complete: usize, error: usize) -> (u8, u16) {
    let drawn = rng.below(working + complete + error);
    if drawn < working {
        (0, 0)
    } else if drawn < working + complete {
        (1, 0)
    } else {
        (2, code(rng))
    }
}

/// How a list of scans drives its blocks: how often start holds, how often abort comes, and which jobs they are given.
#[derive(Clone, Copy, Debug)]
pub struct Drive {
    /// Of eight entries, so many start.
    pub start: usize,
    /// Of eight entries, so many abort.
    pub abort: usize,
    /// Of eight pieces, so many are working.
    pub working: usize,
    /// Jobs are often like this one.
    pub job: u64,
}

impl Drive {
    pub fn any(rng: &mut Rng) -> Drive {
        Drive {
            start: rng.pick(&[3, 5, 6, 7]),
            abort: rng.pick(&[0, 1, 3]),
            working: rng.pick(&[2, 4, 6]),
            job: rng.next(),
        }
    }
}

/// A formed entry.
pub fn entry(rng: &mut Rng, drive: Drive, clock: &mut Clock) -> [u8; ENTRY_BYTES] {
    let mut entry = [0; ENTRY_BYTES];
    let start = rng.below(8) < drive.start;
    let abort = rng.below(8) < drive.abort;
    entry[at_entry::INPUTS] = u8::from(start) | u8::from(abort) << 1;
    let (abort_reply, abort_code) = reply(rng, 3, 4, 1);
    entry[at_entry::ABORT_REPLY] = abort_reply;
    put(&mut entry, at_entry::ABORT_CODE, &abort_code.to_le_bytes());
    entry[at_entry::RESET_REPLY] = u8::from(rng.below(4) > 0);
    put(
        &mut entry,
        at_entry::JOB,
        &job(rng, drive.job).to_le_bytes(),
    );
    put(&mut entry, at_entry::TIME_LIMIT, &bound(rng).to_le_bytes());
    put(&mut entry, at_entry::TIME_OUT, &bound(rng).to_le_bytes());
    put(&mut entry, at_entry::CLOCK, &clock.read(rng).to_le_bytes());
    let pieces = rng.pick(&[0, 1, 1, 1, 2, 2, 3, MAX_PIECES]);
    entry[at_entry::PIECE_COUNT] = pieces as u8;
    for i in 0..pieces {
        let (reply, code) = reply(rng, drive.working, 7 - drive.working, 1);
        let piece = at_entry::piece(i);
        entry[piece + at_piece::REPLY] = reply;
        put(&mut entry, piece + at_piece::CODE, &code.to_le_bytes());
        put(
            &mut entry,
            piece + at_piece::CLOCK,
            &clock.read(rng).to_le_bytes(),
        );
    }
    entry
}

/// Writes a code that the reply doesn't go with.
fn spoil_code(rng: &mut Rng, entry: &mut [u8], reply: usize, at: usize) {
    let wrong = match entry[reply] {
        2 => u16::from(rng.byte(0, 1)),
        _ => code(rng),
    };
    put(entry, at, &wrong.to_le_bytes());
}

/// Spoils one field of a formed entry.
pub fn spoil_entry(rng: &mut Rng, entry: &mut [u8]) {
    let pieces = usize::from(entry[at_entry::PIECE_COUNT]);
    // A piece that the entry has, or the first.
    let piece = at_entry::piece(rng.below(pieces.max(1)));
    match rng.below(10) {
        0 => entry[at_entry::INPUTS] |= 1 << rng.byte(2, 7),
        1 => entry[at_entry::PIECE_COUNT] = rng.byte(5, 255),
        2 => entry[at_entry::ABORT_REPLY] = rng.byte(3, 255),
        3 => entry[at_entry::RESET_REPLY] = rng.byte(2, 255),
        4 => spoil_code(rng, entry, at_entry::ABORT_REPLY, at_entry::ABORT_CODE),
        5 => entry[rng.pick(&at_entry::UNNAMED)] = rng.byte(1, 255),
        // A piece past the last.
        6 if pieces < MAX_PIECES => {
            entry[rng.range(at_entry::piece(pieces), at_entry::piece(MAX_PIECES) - 1)] =
                rng.byte(1, 255);
        }
        _ if pieces == 0 => entry[at_entry::INPUTS] = rng.byte(4, 255),
        7 => entry[piece + at_piece::REPLY] = rng.byte(3, 255),
        8 => entry[piece + at_piece::UNNAMED] = rng.byte(1, 255),
        _ => spoil_code(rng, entry, piece + at_piece::REPLY, piece + at_piece::CODE),
    }
}
