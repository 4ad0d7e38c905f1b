//! The block machine: the state record, the frame entry, and one call of one
//! block.
//!
//! "A call repeats passes until one stops."

use crate::layout::{entry, event, piece, put, record, report, u16_at, u32_at, u64_at};
use crate::table::{has_abort, has_time_limit, has_time_out, is_continuous, is_edge, is_level};

/// "flags (bits 0-3 busy, done, error, aborted)"
pub const BUSY: u8 = 0x01;
pub const DONE: u8 = 0x02;
pub const ERROR: u8 = 0x04;
pub const ABORTED: u8 = 0x08;

/// "Replies: 0 working, 1 complete, 2 error; reset never 2."
pub const REPLY_WORKING: u8 = 0;
pub const REPLY_COMPLETE: u8 = 1;
pub const REPLY_ERROR: u8 = 2;

/// "elapsed greater than the time-out, to Error with code 1"
pub const TIME_OUT_CODE: u16 = 1;

/// "Elapsed adds these and is held at 4,294,967,296"
pub const MAX_ELAPSED: u64 = 4_294_967_296;

/// "from 24, four pieces of 8"
pub const MAX_PIECES: usize = 4;

/// Document 02, 1/14: "A difference of 2,147,483,648 or more shall count as 0,
/// for the time limit and for elapsed, and the last reading then stays."
pub const OUT_OF_STEP: u32 = 2_147_483_648;

/// "Time from one reading to the next is their difference modulo
/// 4,294,967,296."
///
/// `None` is a reading out of step: it counts as 0, and isn't added.
pub fn time_between(earlier: u32, later: u32) -> Option<u32> {
    let difference = later.wrapping_sub(earlier);
    (difference < OUT_OF_STEP).then_some(difference)
}

/// The state record: "0 step (0 Dormant, 1 Executing, 2 Done, 3 Error, 4
/// Aborting, 5 Aborted, 6 Resetting); 1 flags (bits 0-3 busy, done, error,
/// aborted); 2 reset request, 0 or 1"; job; error code; "time limit and ...
/// time-out taken at the start"; "last clock reading"; elapsed. Document 02,
/// 3/14: "The port community's appointment number has eight bytes."
#[derive(Debug, Clone, Copy, PartialEq, Eq)]
pub struct Record {
    pub step: u8,
    pub flags: u8,
    pub reset_request: u8,
    pub job: u64,
    pub code: u16,
    pub time_limit: u32,
    pub time_out: u32,
    pub last_reading: u32,
    pub elapsed: u64,
}

impl Record {
    pub const SIZE: usize = record::SIZE;

    pub const DORMANT: u8 = 0;
    pub const EXECUTING: u8 = 1;
    pub const DONE: u8 = 2;
    pub const ERROR: u8 = 3;
    pub const ABORTING: u8 = 4;
    pub const ABORTED: u8 = 5;
    pub const RESETTING: u8 = 6;

    /// "Fresh is all zero."
    pub const fn fresh() -> Record {
        Record {
            step: Record::DORMANT,
            flags: 0,
            reset_request: 0,
            job: 0,
            code: 0,
            time_limit: 0,
            time_out: 0,
            last_reading: 0,
            elapsed: 0,
        }
    }

    /// The named fields of the bytes.
    pub fn decode(bytes: &[u8; Record::SIZE]) -> Record {
        Record {
            step: bytes[record::STEP],
            flags: bytes[record::FLAGS],
            reset_request: bytes[record::RESET_REQUEST],
            job: u64_at(bytes, record::JOB),
            code: u16_at(bytes, record::CODE),
            time_limit: u32_at(bytes, record::TIME_LIMIT),
            time_out: u32_at(bytes, record::TIME_OUT),
            last_reading: u32_at(bytes, record::LAST_READING),
            elapsed: u64_at(bytes, record::ELAPSED),
        }
    }

    /// The bytes; "unnamed bytes are zero."
    pub fn encode(&self) -> [u8; Record::SIZE] {
        let mut bytes = [0; Record::SIZE];
        bytes[record::STEP] = self.step;
        bytes[record::FLAGS] = self.flags;
        bytes[record::RESET_REQUEST] = self.reset_request;
        put(&mut bytes, record::CODE, &self.code.to_le_bytes());
        put(
            &mut bytes,
            record::TIME_LIMIT,
            &self.time_limit.to_le_bytes(),
        );
        put(&mut bytes, record::TIME_OUT, &self.time_out.to_le_bytes());
        put(
            &mut bytes,
            record::LAST_READING,
            &self.last_reading.to_le_bytes(),
        );
        put(&mut bytes, record::ELAPSED, &self.elapsed.to_le_bytes());
        put(&mut bytes, record::JOB, &self.job.to_le_bytes());
        bytes
    }

    /// "Elapsed adds these and is held at 4,294,967,296; each reading added
    /// becomes the last reading." Document 02, 1/14, on one out of step: "the
    /// last reading then stays."
    fn add_reading(&mut self, reading: u32) {
        if let Some(time) = time_between(self.last_reading, reading) {
            let elapsed = self.elapsed.saturating_add(u64::from(time));
            self.elapsed = elapsed.min(MAX_ELAPSED);
            self.last_reading = reading;
        }
    }

    /// "Dormant is all zero; Executing and Aborting have busy only; Done done
    /// only; Error error only; Aborted aborted only; Resetting one of done,
    /// error, aborted, or (level only) busy." "Aborting: kinds 5-14." "Step is
    /// at most 6."
    fn step_is_sound(&self, kind: u8) -> bool {
        match self.step {
            Record::DORMANT => *self == Record::fresh(),
            Record::EXECUTING => self.flags == BUSY,
            Record::DONE => self.flags == DONE,
            Record::ERROR => self.flags == ERROR,
            Record::ABORTING => self.flags == BUSY && (has_abort(kind) || is_level(kind)),
            Record::ABORTED => self.flags == ABORTED,
            Record::RESETTING => match self.flags {
                DONE | ERROR | ABORTED => true,
                BUSY => is_level(kind),
                _ => false,
            },
            _ => false,
        }
    }

    /// "Done step or flag: not kinds 13, 14." "Aborted step or flag: kinds
    /// 5-8."
    fn flags_are_sound(&self, kind: u8) -> bool {
        let done = self.step == Record::DONE || self.flags & DONE != 0;
        let aborted = self.step == Record::ABORTED || self.flags & ABORTED != 0;
        !(done && is_continuous(kind)) && (!aborted || has_abort(kind))
    }

    /// "Code is nonzero exactly with the error flag, and 1 only for To kinds."
    fn code_is_sound(&self, kind: u8) -> bool {
        let error = self.flags & ERROR != 0;
        (self.code != 0) == error && (self.code != TIME_OUT_CODE || has_time_out(kind))
    }

    /// "Reset request is 0 with busy, and 0 with done on level kinds." "request
    /// at most 1"
    fn request_is_sound(&self, kind: u8) -> bool {
        let busy = self.flags & BUSY != 0;
        let level_done = self.flags & DONE != 0 && is_level(kind);
        match self.reset_request {
            0 => true,
            1 => !busy && !level_done,
            _ => false,
        }
    }

    /// "Elapsed is at most 4,294,967,296." "Stored time limit is 0 unless an
    /// edge TI kind, stored time-out 0 unless an edge To kind."
    fn times_are_sound(&self, kind: u8) -> bool {
        self.elapsed <= MAX_ELAPSED
            && (self.time_limit == 0 || (is_edge(kind) && has_time_limit(kind)))
            && (self.time_out == 0 || (is_edge(kind) && has_time_out(kind)))
    }

    /// "Sound means": whether these bytes are a sound record of a block of this
    /// kind. "unnamed bytes and bits zero. Job and reading are free."
    pub fn is_sound(bytes: &[u8; Record::SIZE], kind: u8) -> bool {
        let record = Record::decode(bytes);
        record::UNNAMED.iter().all(|&at| bytes[at] == 0)
            && record.step_is_sound(kind)
            && record.flags_are_sound(kind)
            && record.code_is_sound(kind)
            && record.request_is_sound(kind)
            && record.times_are_sound(kind)
    }
}

/// "A code is 2 to 65,535 with reply 2, else 0." "Replies: 0 working, 1
/// complete, 2 error"
fn is_reply(reply: u8, code: u16) -> bool {
    match reply {
        REPLY_WORKING | REPLY_COMPLETE => code == 0,
        REPLY_ERROR => code >= 2,
        _ => false,
    }
}

/// "four pieces of 8: reply, zero, code (2 bytes), clock after the piece (4
/// bytes)"
#[derive(Debug, Clone, Copy, PartialEq, Eq)]
pub struct Piece {
    pub reply: u8,
    pub code: u16,
    pub clock: u32,
}

impl Piece {
    pub const SIZE: usize = piece::SIZE;

    /// A piece of zeros.
    pub const ZERO: Piece = Piece {
        reply: REPLY_WORKING,
        code: 0,
        clock: 0,
    };

    /// The named fields of the bytes.
    pub fn decode(bytes: &[u8; Piece::SIZE]) -> Piece {
        Piece {
            reply: bytes[piece::REPLY],
            code: u16_at(bytes, piece::CODE),
            clock: u32_at(bytes, piece::CLOCK),
        }
    }

    /// The bytes.
    pub fn encode(&self) -> [u8; Piece::SIZE] {
        let mut bytes = [0; Piece::SIZE];
        bytes[piece::REPLY] = self.reply;
        put(&mut bytes, piece::CODE, &self.code.to_le_bytes());
        put(&mut bytes, piece::CLOCK, &self.clock.to_le_bytes());
        bytes
    }

    /// Whether these bytes are a piece: its zero byte, its reply and its code.
    fn is_formed(bytes: &[u8; Piece::SIZE]) -> bool {
        let piece = Piece::decode(bytes);
        bytes[piece::UNNAMED] == 0 && is_reply(piece.reply, piece.code)
    }
}

/// The input bits of a call, from the frame or from wires.
#[derive(Debug, Clone, Copy, PartialEq, Eq)]
pub struct Inputs {
    /// "bit 0 start, that is Execute or Enable"
    pub start: bool,
    /// "bit 1 abort"
    pub abort: bool,
}

/// The frame entry: "inputs (bit 0 start, that is Execute or Enable; bit 1
/// abort; others zero)"; "piece count n, 0 to 4"; abort reply; reset reply;
/// abort error code; "job (any value, 0 included)"; time limit; time-out;
/// "clock at the call"; "four pieces".
#[derive(Debug, Clone, Copy, PartialEq, Eq)]
pub struct Entry {
    pub inputs: Inputs,
    pub piece_count: u8,
    pub abort_reply: u8,
    pub reset_reply: u8,
    pub abort_code: u16,
    pub job: u64,
    pub time_limit: u32,
    pub time_out: u32,
    pub clock: u32,
    pub pieces: [Piece; MAX_PIECES],
}

impl Entry {
    pub const SIZE: usize = entry::SIZE;

    /// The bytes of the four pieces.
    fn piece_bytes(bytes: &[u8; Entry::SIZE]) -> [[u8; Piece::SIZE]; MAX_PIECES] {
        let mut pieces = [[0; Piece::SIZE]; MAX_PIECES];
        for (index, piece) in pieces.iter_mut().enumerate() {
            let at = entry::piece(index);
            piece.copy_from_slice(&bytes[at..at + Piece::SIZE]);
        }
        pieces
    }

    /// The named fields of the bytes.
    pub fn decode(bytes: &[u8; Entry::SIZE]) -> Entry {
        Entry {
            inputs: Inputs {
                start: bytes[entry::INPUTS] & 0x01 != 0,
                abort: bytes[entry::INPUTS] & 0x02 != 0,
            },
            piece_count: bytes[entry::PIECE_COUNT],
            abort_reply: bytes[entry::ABORT_REPLY],
            reset_reply: bytes[entry::RESET_REPLY],
            abort_code: u16_at(bytes, entry::ABORT_CODE),
            job: u64_at(bytes, entry::JOB),
            time_limit: u32_at(bytes, entry::TIME_LIMIT),
            time_out: u32_at(bytes, entry::TIME_OUT),
            clock: u32_at(bytes, entry::CLOCK),
            pieces: Entry::piece_bytes(bytes).map(|piece| Piece::decode(&piece)),
        }
    }

    /// The bytes; "unnamed bytes are zero."
    pub fn encode(&self) -> [u8; Entry::SIZE] {
        let mut bytes = [0; Entry::SIZE];
        bytes[entry::INPUTS] = u8::from(self.inputs.start) | (u8::from(self.inputs.abort) << 1);
        bytes[entry::PIECE_COUNT] = self.piece_count;
        bytes[entry::ABORT_REPLY] = self.abort_reply;
        bytes[entry::RESET_REPLY] = self.reset_reply;
        put(
            &mut bytes,
            entry::ABORT_CODE,
            &self.abort_code.to_le_bytes(),
        );
        put(
            &mut bytes,
            entry::TIME_LIMIT,
            &self.time_limit.to_le_bytes(),
        );
        put(&mut bytes, entry::TIME_OUT, &self.time_out.to_le_bytes());
        put(&mut bytes, entry::CLOCK, &self.clock.to_le_bytes());
        for (index, piece) in self.pieces.iter().enumerate() {
            put(&mut bytes, entry::piece(index), &piece.encode());
        }
        put(&mut bytes, entry::JOB, &self.job.to_le_bytes());
        bytes
    }

    /// Whether the first `count` pieces are formed. "Pieces past n are zero."
    fn pieces_are_formed(bytes: &[u8; Entry::SIZE], count: usize) -> bool {
        let pieces = Entry::piece_bytes(bytes);
        let used = pieces.iter().take(count).all(Piece::is_formed);
        let past = pieces
            .iter()
            .skip(count)
            .all(|piece| *piece == [0; Piece::SIZE]);
        used && past
    }

    /// Whether these bytes are a frame entry: "inputs (bit 0 start ...; bit 1
    /// abort; others zero)", "piece count n, 0 to 4", "Replies: 0 working, 1
    /// complete, 2 error; reset never 2. A code is 2 to 65,535 with reply 2,
    /// else 0." "unnamed bytes are zero."
    pub fn is_formed(bytes: &[u8; Entry::SIZE]) -> bool {
        let entry = Entry::decode(bytes);
        let count = usize::from(entry.piece_count);
        bytes[entry::INPUTS] & !0x03 == 0
            && count <= MAX_PIECES
            && is_reply(entry.abort_reply, entry.abort_code)
            && matches!(entry.reset_reply, REPLY_WORKING | REPLY_COMPLETE)
            && entry::UNNAMED.iter().all(|&at| bytes[at] == 0)
            && Entry::pieces_are_formed(bytes, count)
    }
}

/// The journal event: "kind (1 start, 2 done, 3 failed, 4 aborted, 5
/// withdrawn), position, code (2; 0 unless failed)", job.
#[derive(Debug, Clone, Copy, PartialEq, Eq)]
pub struct Event {
    pub kind: u8,
    pub position: u8,
    pub code: u16,
    pub job: u64,
}

impl Event {
    pub const SIZE: usize = event::SIZE;

    pub const START: u8 = 1;
    pub const DONE: u8 = 2;
    pub const FAILED: u8 = 3;
    pub const ABORTED: u8 = 4;
    pub const WITHDRAWN: u8 = 5;

    /// An event of zeros, which stands for none.
    const NONE: Event = Event {
        kind: 0,
        position: 0,
        code: 0,
        job: 0,
    };

    /// The fields of the bytes.
    pub fn decode(bytes: &[u8; Event::SIZE]) -> Event {
        Event {
            kind: bytes[event::KIND],
            position: bytes[event::POSITION],
            code: u16_at(bytes, event::CODE),
            job: u64_at(bytes, event::JOB),
        }
    }

    /// The bytes.
    pub fn encode(&self) -> [u8; Event::SIZE] {
        let mut bytes = [0; Event::SIZE];
        bytes[event::KIND] = self.kind;
        bytes[event::POSITION] = self.position;
        put(&mut bytes, event::CODE, &self.code.to_le_bytes());
        put(&mut bytes, event::JOB, &self.job.to_le_bytes());
        bytes
    }
}

/// The events of one call, in order: "at most two a block."
#[derive(Debug, Clone, Copy, PartialEq, Eq)]
pub struct Events {
    list: [Event; Events::MAX],
    count: usize,
}

impl Events {
    pub const MAX: usize = 2;

    const EMPTY: Events = Events {
        list: [Event::NONE; Events::MAX],
        count: 0,
    };

    /// A call on a sound record never has a third event; one on an unsound
    /// record drops it.
    fn push(&mut self, event: Event) {
        if let Some(place) = self.list.get_mut(self.count) {
            *place = event;
            self.count += 1;
        }
    }

    /// The events in the order they were written.
    pub fn as_slice(&self) -> &[Event] {
        &self.list[..self.count]
    }
}

/// "flags, pieces used, passes, step, code (2), zero (2)", job, "the record's
/// fields as the call leaves them."
#[derive(Debug, Clone, Copy, PartialEq, Eq)]
pub struct Report {
    pub flags: u8,
    pub pieces: u8,
    pub passes: u8,
    pub step: u8,
    pub code: u16,
    pub job: u64,
}

impl Report {
    pub const SIZE: usize = report::SIZE;

    /// The named fields of the bytes.
    pub fn decode(bytes: &[u8; Report::SIZE]) -> Report {
        Report {
            flags: bytes[report::FLAGS],
            pieces: bytes[report::PIECES],
            passes: bytes[report::PASSES],
            step: bytes[report::STEP],
            code: u16_at(bytes, report::CODE),
            job: u64_at(bytes, report::JOB),
        }
    }

    /// The bytes; "zero (2)" stays.
    pub fn encode(&self) -> [u8; Report::SIZE] {
        let mut bytes = [0; Report::SIZE];
        bytes[report::FLAGS] = self.flags;
        bytes[report::PIECES] = self.pieces;
        bytes[report::PASSES] = self.passes;
        bytes[report::STEP] = self.step;
        put(&mut bytes, report::CODE, &self.code.to_le_bytes());
        put(&mut bytes, report::JOB, &self.job.to_le_bytes());
        bytes
    }
}

/// How a pass ends: the call goes on with another pass, or stops.
#[derive(Debug, Clone, Copy, PartialEq, Eq)]
enum Turn {
    Again,
    Stop,
}

/// One call under way.
struct Call<'a> {
    kind: u8,
    position: u8,
    inputs: Inputs,
    entry: &'a Entry,
    record: &'a mut Record,
    pieces: u8,
    events: Events,
}

impl Call<'_> {
    /// An event of the block with its present job; "code (2; 0 unless failed)".
    fn write_event(&mut self, kind: u8) {
        let code = if kind == Event::FAILED {
            self.record.code
        } else {
            0
        };
        self.events.push(Event {
            kind,
            position: self.position,
            code,
            job: self.record.job,
        });
    }

    /// The pass goes to this step, and the call goes on.
    fn go(&mut self, step: u8) -> Turn {
        self.record.step = step;
        Turn::Again
    }

    /// "to Error with its code ... again"
    fn fail(&mut self, code: u16) -> Turn {
        self.record.code = code;
        self.go(Record::ERROR)
    }

    /// "edge kinds take the limits that their kind has, level kinds read them
    /// each call": the time limit of this call, 0 for none.
    fn time_limit(&self) -> u32 {
        match self.kind {
            kind if !has_time_limit(kind) => 0,
            kind if is_edge(kind) => self.record.time_limit,
            _ => self.entry.time_limit,
        }
    }

    /// "The time-out in force is the stored one on edge To kinds, that of the
    /// block's own entry in the last accepted scan (the present one during its
    /// call) on level To kinds, none elsewhere": 0 for none.
    fn time_out(&self) -> u32 {
        match self.kind {
            kind if !has_time_out(kind) => 0,
            kind if is_edge(kind) => self.record.time_out,
            _ => self.entry.time_out,
        }
    }

    /// "past the time limit (piece clock after call clock by more than the
    /// limit)"; "limit or time-out 0 is none." A piece out of step with the
    /// call clock counts as 0 after it.
    fn is_past_time_limit(&self, piece: &Piece) -> bool {
        let limit = self.time_limit();
        let time = time_between(self.entry.clock, piece.clock).unwrap_or(0);
        limit != 0 && time > limit
    }

    /// "elapsed greater than the time-out"; "limit or time-out 0 is none."
    fn is_past_time_out(&self) -> bool {
        let time_out = self.time_out();
        time_out != 0 && self.record.elapsed > u64::from(time_out)
    }

    /// "Dormant. Start false: stop. Else take the job; edge kinds take the
    /// limits that their kind has, level kinds read them each call. Last
    /// reading = call clock, elapsed 0, busy set, start event; to Executing,
    /// again."
    fn dormant(&mut self) -> Turn {
        if !self.inputs.start {
            return Turn::Stop;
        }
        self.record.job = self.entry.job;
        if is_edge(self.kind) && has_time_limit(self.kind) {
            self.record.time_limit = self.entry.time_limit;
        }
        if is_edge(self.kind) && has_time_out(self.kind) {
            self.record.time_out = self.entry.time_out;
        }
        self.record.last_reading = self.entry.clock;
        self.record.elapsed = 0;
        self.record.flags |= BUSY;
        self.write_event(Event::START);
        self.go(Record::EXECUTING)
    }

    /// "Edge with abort true, or level with start false"; "Kinds 1-4 and 9-14
    /// have no abort wire, and ignore the abort bit."
    fn is_called_off(&self) -> bool {
        if is_edge(self.kind) {
            has_abort(self.kind) && self.inputs.abort
        } else {
            !self.inputs.start
        }
    }

    /// "use pieces in order, adding each piece's time: one at most without TI;
    /// with TI until one is complete or an error, or is past the time limit
    /// ... or past the time-out, or none is left."
    ///
    /// The last piece used, or a working one if there is none.
    fn use_pieces(&mut self) -> Piece {
        let mut last = Piece::ZERO;
        let entry = self.entry;
        for piece in entry.pieces.iter().take(usize::from(entry.piece_count)) {
            self.record.add_reading(piece.clock);
            self.pieces += 1;
            last = *piece;
            if !has_time_limit(self.kind)
                || piece.reply != REPLY_WORKING
                || self.is_past_time_limit(piece)
                || self.is_past_time_out()
            {
                break;
            }
        }
        last
    }

    /// "Edge with abort true, or level with start false: to Aborting, again, no
    /// piece used, no clock test. Else add the time to the call clock, then use
    /// pieces in order ... Judge the last reading and reply (working if no
    /// piece): error reply to Error with its code; else, To kinds, elapsed
    /// greater than the time-out, to Error with code 1; else complete to Done;
    /// all again. Else stop. Kinds 13, 14: complete ends the pieces of this
    /// call, the step stays Executing and this pass stops."
    fn executing(&mut self) -> Turn {
        if self.is_called_off() {
            return self.go(Record::ABORTING);
        }
        self.record.add_reading(self.entry.clock);
        let last = self.use_pieces();
        if last.reply == REPLY_ERROR {
            self.fail(last.code)
        } else if self.is_past_time_out() {
            self.fail(TIME_OUT_CODE)
        } else if last.reply == REPLY_COMPLETE && !is_continuous(self.kind) {
            self.go(Record::DONE)
        } else {
            Turn::Stop
        }
    }

    /// "Done, Error, Aborted. Own flag already set, and start false or reset
    /// request 1: to Resetting, again. Otherwise clear busy, set the own flag,
    /// reset request = not start (level Done leaves it 0), stop. The first
    /// showing writes the finish event."
    fn finished(&mut self, own_flag: u8, finish: u8) -> Turn {
        let already_set = self.record.flags & own_flag != 0;
        if already_set && (!self.inputs.start || self.record.reset_request == 1) {
            return self.go(Record::RESETTING);
        }
        self.record.flags = (self.record.flags & !BUSY) | own_flag;
        let level_done = is_level(self.kind) && own_flag == DONE;
        if !level_done {
            self.record.reset_request = u8::from(!self.inputs.start);
        }
        if !already_set {
            self.write_event(finish);
        }
        Turn::Stop
    }

    /// "Aborting. Reply error: to Error with that code, again. Complete: edge
    /// to Aborted, level to Resetting with a withdrawn event, again. Working:
    /// stop."
    fn aborting(&mut self) -> Turn {
        match self.entry.abort_reply {
            REPLY_ERROR => self.fail(self.entry.abort_code),
            REPLY_COMPLETE if is_edge(self.kind) => self.go(Record::ABORTED),
            REPLY_COMPLETE => {
                self.write_event(Event::WITHDRAWN);
                self.go(Record::RESETTING)
            }
            _ => Turn::Stop,
        }
    }

    /// "Resetting. Complete: record all zero, and again only if the request was
    /// 1. Working: stop."
    fn resetting(&mut self) -> Turn {
        if self.entry.reset_reply != REPLY_COMPLETE {
            return Turn::Stop;
        }
        let requested = self.record.reset_request == 1;
        *self.record = Record::fresh();
        if requested {
            Turn::Again
        } else {
            Turn::Stop
        }
    }

    /// One pass: the rule of the present step.
    fn pass(&mut self) -> Turn {
        match self.record.step {
            Record::DORMANT => self.dormant(),
            Record::EXECUTING => self.executing(),
            Record::DONE => self.finished(DONE, Event::DONE),
            Record::ERROR => self.finished(ERROR, Event::FAILED),
            Record::ABORTING => self.aborting(),
            Record::ABORTED => self.finished(ABORTED, Event::ABORTED),
            Record::RESETTING => self.resetting(),
            _ => Turn::Stop,
        }
    }
}

/// One call of a block: "A call repeats passes until one stops." "Passes count
/// each pass of a call, the stopping one included". "Pieces used count the
/// pieces that Executing took."
///
/// The inputs are those of the frame entry or of the wires, read beforehand.
/// No rule leads back to an earlier step except a reset with a request, which
/// clears the request, so every call stops.
pub fn call(
    kind: u8,
    position: u8,
    inputs: Inputs,
    entry: &Entry,
    record: &mut Record,
) -> (Report, Events) {
    let mut call = Call {
        kind,
        position,
        inputs,
        entry,
        record,
        pieces: 0,
        events: Events::EMPTY,
    };
    let mut passes = 1;
    while call.pass() == Turn::Again {
        passes += 1;
    }
    let report = Report {
        flags: call.record.flags,
        pieces: call.pieces,
        passes,
        step: call.record.step,
        code: call.record.code,
        job: call.record.job,
    };
    (report, call.events)
}
