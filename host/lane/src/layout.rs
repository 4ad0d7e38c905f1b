//! State record, frame entry, report entry and journal event as values, and as bytes.

use crate::offset::{entry, event, piece, record, report};
use crate::Position;

/// Bytes of a state record, one a block.
pub const RECORD_BYTES: usize = 40;

/// Bytes of a frame entry, one a block.
pub const ENTRY_BYTES: usize = 64;

/// Bytes of a report entry, one a block.
pub const REPORT_BYTES: usize = 16;

/// Bytes of a journal event, at most two a block.
pub const EVENT_BYTES: usize = 12;

/// The greatest number of pieces of an entry.
pub const MAX_PIECES: usize = 4;

/// Bytes of a piece of a frame entry.
pub const PIECE_BYTES: usize = 8;

/// The error code of a job that was not over within its time-out; other codes are those of the replies.
pub const CODE_TIME_OUT: u16 = 1;

/// The bytes at a place.
fn bytes<const N: usize>(from: &[u8], at: usize) -> [u8; N] {
    std::array::from_fn(|index| from[at + index])
}

fn u16_at(from: &[u8], at: usize) -> u16 {
    u16::from_le_bytes(bytes(from, at))
}

fn u32_at(from: &[u8], at: usize) -> u32 {
    u32::from_le_bytes(bytes(from, at))
}

fn u64_at(from: &[u8], at: usize) -> u64 {
    u64::from_le_bytes(bytes(from, at))
}

/// Writes bytes at a place.
fn put(to: &mut [u8], at: usize, bytes: &[u8]) {
    to[at..at + bytes.len()].copy_from_slice(bytes);
}

/// The step of a block.
#[derive(Clone, Copy, Debug, Default, PartialEq, Eq, Hash)]
#[repr(u8)]
pub enum Step {
    /// No job.
    #[default]
    Dormant,
    /// The job is worked on.
    Executing,
    /// The job is done.
    Done,
    /// The job failed.
    Error,
    /// The job is being aborted or withdrawn.
    Aborting,
    /// The job was aborted.
    Aborted,
    /// The block is made ready for the next job.
    Resetting,
}

impl Step {
    /// All steps, in the order of their numbers.
    pub const ALL: [Step; 7] = [
        Step::Dormant,
        Step::Executing,
        Step::Done,
        Step::Error,
        Step::Aborting,
        Step::Aborted,
        Step::Resetting,
    ];

    /// The number of the step.
    pub const fn number(self) -> u8 {
        self as u8
    }
}

/// The flags of a block.
#[derive(Clone, Copy, Debug, Default, PartialEq, Eq, Hash)]
#[allow(clippy::struct_excessive_bools)]
pub struct Flags {
    /// A job is open, or its withdrawal is being reset.
    pub busy: bool,
    /// The job is done.
    pub done: bool,
    /// The job failed.
    pub error: bool,
    /// The job was aborted.
    pub aborted: bool,
}

impl Flags {
    fn decode(byte: u8) -> Option<Flags> {
        let bit = |place: u8| byte >> place & 1 == 1;
        (byte < 16).then(|| Flags {
            busy: bit(0),
            done: bit(1),
            error: bit(2),
            aborted: bit(3),
        })
    }

    fn encode(self) -> u8 {
        let bits = [self.busy, self.done, self.error, self.aborted];
        (0..)
            .zip(bits)
            .map(|(place, bit)| u8::from(bit) << place)
            .sum()
    }
}

/// The state of one block between scans.
///
/// ```
/// use lane::{Record, Step, RECORD_BYTES};
///
/// let fresh = Record::default();
/// assert_eq!(fresh.step, Step::Dormant);
/// assert_eq!(fresh.encode(), [0; RECORD_BYTES]);
/// assert_eq!(Record::decode(&[7; RECORD_BYTES]), None);
/// ```
#[derive(Clone, Copy, Debug, Default, PartialEq, Eq, Hash)]
pub struct Record {
    /// The step.
    pub step: Step,
    /// The flags.
    pub flags: Flags,
    /// Whether the start input was false when the finish was shown.
    pub reset_request: bool,
    /// The job taken at the start.
    pub job: u64,
    /// The error code, nonzero with the error flag.
    pub code: u16,
    /// The time limit taken at the start, in microseconds; 0 is none.
    pub time_limit: u32,
    /// The time-out taken at the start, in microseconds; 0 is none.
    pub time_out: u32,
    /// The job's last clock reading: none is made once the job has ended or is aborting.
    pub last_reading: u32,
    /// The time counted from the start on, in microseconds, at most 2^32. A reading that is 2^31 or more after
    /// the last one, modulo 2^32, is out of step: it counts nothing, and the last reading stays.
    pub elapsed: u64,
}

impl Record {
    /// The record in these bytes, `None` if its step, flags, request or unnamed bytes are out of form.
    ///
    /// Only the engine says whether it is sound.
    pub fn decode(from: &[u8; RECORD_BYTES]) -> Option<Record> {
        let record = Record {
            step: *Step::ALL.get(usize::from(from[record::STEP]))?,
            flags: Flags::decode(from[record::FLAGS])?,
            reset_request: from[record::RESET_REQUEST] == 1,
            job: u64_at(from, record::JOB),
            code: u16_at(from, record::CODE),
            time_limit: u32_at(from, record::TIME_LIMIT),
            time_out: u32_at(from, record::TIME_OUT),
            last_reading: u32_at(from, record::LAST_READING),
            elapsed: u64_at(from, record::ELAPSED),
        };
        (record.encode() == *from).then_some(record)
    }

    /// The bytes of the record.
    pub fn encode(&self) -> [u8; RECORD_BYTES] {
        let mut to = [0; RECORD_BYTES];
        to[record::STEP] = self.step.number();
        to[record::FLAGS] = self.flags.encode();
        to[record::RESET_REQUEST] = u8::from(self.reset_request);
        put(&mut to, record::JOB, &self.job.to_le_bytes());
        put(&mut to, record::CODE, &self.code.to_le_bytes());
        put(&mut to, record::TIME_LIMIT, &self.time_limit.to_le_bytes());
        put(&mut to, record::TIME_OUT, &self.time_out.to_le_bytes());
        put(
            &mut to,
            record::LAST_READING,
            &self.last_reading.to_le_bytes(),
        );
        put(&mut to, record::ELAPSED, &self.elapsed.to_le_bytes());
        to
    }
}

/// What an action answered.
#[derive(Clone, Copy, Debug, Default, PartialEq, Eq, Hash)]
pub enum Reply {
    /// It is still working.
    #[default]
    Working,
    /// It is complete.
    Complete,
    /// It failed with this code, which the engine wants to be 2 or more.
    Error(u16),
}

impl Reply {
    fn decode(number: u8, code: u16) -> Option<Reply> {
        match (number, code) {
            (0, 0) => Some(Reply::Working),
            (1, 0) => Some(Reply::Complete),
            (2, code) => Some(Reply::Error(code)),
            _ => None,
        }
    }

    const fn number(self) -> u8 {
        match self {
            Reply::Working => 0,
            Reply::Complete => 1,
            Reply::Error(_) => 2,
        }
    }

    const fn code(self) -> u16 {
        match self {
            Reply::Error(code) => code,
            _ => 0,
        }
    }
}

/// A piece of a job's work in one call.
#[derive(Clone, Copy, Debug, Default, PartialEq, Eq, Hash)]
pub struct Piece {
    /// What the action answered.
    pub reply: Reply,
    /// The clock after the piece, in microseconds.
    pub clock: u32,
}

impl Piece {
    /// The piece with this reply, over at this clock.
    pub const fn new(reply: Reply, clock: u32) -> Piece {
        Piece { reply, clock }
    }

    fn decode(from: &[u8]) -> Option<Piece> {
        let reply = Reply::decode(from[piece::REPLY], u16_at(from, piece::CODE))?;
        (from[piece::UNNAMED] == 0).then_some(Piece::new(reply, u32_at(from, piece::CLOCK)))
    }

    fn encode(self) -> [u8; PIECE_BYTES] {
        let mut to = [0; PIECE_BYTES];
        to[piece::REPLY] = self.reply.number();
        put(&mut to, piece::CODE, &self.reply.code().to_le_bytes());
        put(&mut to, piece::CLOCK, &self.clock.to_le_bytes());
        to
    }
}

/// Up to four pieces.
#[derive(Clone, Copy, Debug, Default, PartialEq, Eq, Hash)]
pub struct Pieces {
    list: [Piece; MAX_PIECES],
    count: usize,
}

impl Pieces {
    /// These pieces, in order.
    ///
    /// # Panics
    /// With more than four.
    pub fn new(pieces: &[Piece]) -> Pieces {
        let mut list = [Piece::default(); MAX_PIECES];
        list[..pieces.len()].copy_from_slice(pieces);
        let count = pieces.len();
        Pieces { list, count }
    }

    /// The pieces as a slice.
    pub fn as_slice(&self) -> &[Piece] {
        &self.list[..self.count]
    }
}

impl<const N: usize> From<[Piece; N]> for Pieces {
    /// These pieces, in order; more than four do not compile.
    fn from(pieces: [Piece; N]) -> Pieces {
        const { assert!(N <= MAX_PIECES) };
        Pieces::new(&pieces)
    }
}

/// What one block is given in a scan: inputs, job, times, and the replies of its actions.
///
/// ```
/// use lane::{Entry, Piece, Reply};
///
/// let entry = Entry {
///     start: true,
///     job: (1 << 40) + 7,
///     pieces: [Piece::new(Reply::Complete, 20)].into(),
///     ..Entry::default()
/// };
/// let bytes = entry.encode();
/// assert_eq!(bytes[..8], [1, 1, 0, 0, 0, 0, 0, 0]);
/// assert_eq!(*bytes.last_chunk().unwrap(), [7, 0, 0, 0, 0, 1, 0, 0]);
/// assert_eq!(Entry::decode(&bytes), Some(entry));
/// ```
#[derive(Clone, Copy, Debug, Default, PartialEq, Eq, Hash)]
pub struct Entry {
    /// The start input (Execute or Enable), unless a wire gives it.
    pub start: bool,
    /// The abort input, unless a wire gives it.
    pub abort: bool,
    /// The reply of the abort action; the block stays in Aborting while it is working.
    pub abort_reply: Reply,
    /// Whether the reset is complete; the block stays in Resetting until it is.
    pub reset_complete: bool,
    /// The job, any number.
    pub job: u64,
    /// The time limit of a call, in microseconds; 0 is none.
    pub time_limit: u32,
    /// The time-out of a job, in microseconds; 0 is none.
    pub time_out: u32,
    /// The clock at the call, in microseconds.
    pub clock: u32,
    /// The pieces of the job's work in this call; with none the reply is working. Kinds without TI use one at most.
    pub pieces: Pieces,
}

impl Entry {
    /// The entry in these bytes, `None` if they are out of form.
    ///
    /// Only the engine says whether its error codes are.
    pub fn decode(from: &[u8; ENTRY_BYTES]) -> Option<Entry> {
        let mut pieces = Pieces {
            count: usize::from(from[entry::COUNT]),
            ..Pieces::default()
        };
        for (index, piece) in pieces.list.get_mut(..pieces.count)?.iter_mut().enumerate() {
            *piece = Piece::decode(&from[entry::PIECES + PIECE_BYTES * index..])?;
        }
        let got = Entry {
            start: from[entry::INPUTS] & 1 != 0,
            abort: from[entry::INPUTS] & 2 != 0,
            abort_reply: Reply::decode(from[entry::ABORT_REPLY], u16_at(from, entry::ABORT_CODE))?,
            reset_complete: from[entry::RESET_REPLY] == 1,
            job: u64_at(from, entry::JOB),
            time_limit: u32_at(from, entry::TIME_LIMIT),
            time_out: u32_at(from, entry::TIME_OUT),
            clock: u32_at(from, entry::CLOCK),
            pieces,
        };
        (got.encode() == *from).then_some(got)
    }

    /// The bytes of the entry.
    pub fn encode(&self) -> [u8; ENTRY_BYTES] {
        let mut to = [0; ENTRY_BYTES];
        to[entry::INPUTS] = u8::from(self.start) | u8::from(self.abort) << 1;
        to[entry::COUNT] = self.pieces.count as u8;
        to[entry::ABORT_REPLY] = self.abort_reply.number();
        to[entry::RESET_REPLY] = u8::from(self.reset_complete);
        put(
            &mut to,
            entry::ABORT_CODE,
            &self.abort_reply.code().to_le_bytes(),
        );
        put(&mut to, entry::JOB, &self.job.to_le_bytes());
        put(&mut to, entry::TIME_LIMIT, &self.time_limit.to_le_bytes());
        put(&mut to, entry::TIME_OUT, &self.time_out.to_le_bytes());
        put(&mut to, entry::CLOCK, &self.clock.to_le_bytes());
        for (index, piece) in self.pieces.as_slice().iter().enumerate() {
            put(
                &mut to,
                entry::PIECES + PIECE_BYTES * index,
                &piece.encode(),
            );
        }
        to
    }
}

/// What the scan reports of one block.
#[derive(Clone, Copy, Debug, Default, PartialEq, Eq, Hash)]
pub struct ReportEntry {
    /// The flags after the call.
    pub flags: Flags,
    /// The pieces used in the call.
    pub pieces_used: u8,
    /// The passes of the call, the stopping one included.
    pub passes: u8,
    /// The step after the call.
    pub step: Step,
    /// The error code after the call.
    pub code: u16,
    /// The job after the call.
    pub job: u64,
}

impl ReportEntry {
    /// The report entry in these bytes, `None` if they are out of form.
    pub fn decode(from: &[u8; REPORT_BYTES]) -> Option<ReportEntry> {
        let entry = ReportEntry {
            flags: Flags::decode(from[report::FLAGS])?,
            pieces_used: from[report::PIECES],
            passes: from[report::PASSES],
            step: *Step::ALL.get(usize::from(from[report::STEP]))?,
            code: u16_at(from, report::CODE),
            job: u64_at(from, report::JOB),
        };
        (entry.encode() == *from).then_some(entry)
    }

    /// The bytes of the report entry.
    pub fn encode(&self) -> [u8; REPORT_BYTES] {
        let mut to = [0; REPORT_BYTES];
        to[report::FLAGS] = self.flags.encode();
        to[report::PIECES] = self.pieces_used;
        to[report::PASSES] = self.passes;
        to[report::STEP] = self.step.number();
        put(&mut to, report::CODE, &self.code.to_le_bytes());
        put(&mut to, report::JOB, &self.job.to_le_bytes());
        to
    }
}

/// What happened to a job.
#[derive(Clone, Copy, Debug, PartialEq, Eq, Hash)]
#[repr(u8)]
pub enum EventKind {
    /// It started.
    Start = 1,
    /// It is done.
    Done,
    /// It failed.
    Failed,
    /// It was aborted.
    Aborted,
    /// Its level block's start input fell.
    Withdrawn,
}

impl EventKind {
    /// All kinds, in the order of their numbers.
    pub const ALL: [EventKind; 5] = [
        EventKind::Start,
        EventKind::Done,
        EventKind::Failed,
        EventKind::Aborted,
        EventKind::Withdrawn,
    ];

    /// The number of the kind.
    pub const fn number(self) -> u8 {
        self as u8
    }
}

/// An event of the journal.
#[derive(Clone, Copy, Debug, PartialEq, Eq, Hash)]
pub struct Event {
    /// What happened.
    pub kind: EventKind,
    /// The position of the block.
    pub position: Position,
    /// The error code of a failed job, else 0; 1 is its time-out.
    pub code: u16,
    /// The job.
    pub job: u64,
}

impl Event {
    /// The event in these bytes, `None` if there is no such kind or position.
    pub fn decode(from: &[u8; EVENT_BYTES]) -> Option<Event> {
        let kind = usize::from(from[event::KIND]).checked_sub(1)?;
        Some(Event {
            kind: *EventKind::ALL.get(kind)?,
            position: Position::new(usize::from(from[event::POSITION]))?,
            code: u16_at(from, event::CODE),
            job: u64_at(from, event::JOB),
        })
    }

    /// The bytes of the event.
    pub fn encode(&self) -> [u8; EVENT_BYTES] {
        let mut to = [0; EVENT_BYTES];
        to[event::KIND] = self.kind.number();
        to[event::POSITION] = self.position.byte();
        put(&mut to, event::CODE, &self.code.to_le_bytes());
        put(&mut to, event::JOB, &self.job.to_le_bytes());
        to
    }
}
