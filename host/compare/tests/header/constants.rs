//! Every constant of the header: lengths, the offset of each field, and the numbers of kinds, steps and the like.

use crate::{names, shown};
use lane::{image, Block, Flag, Kind, Position, Tag, Wire};
use lane::{Entry, Event, EventKind, Flags, Piece, Record, Reply, ReportEntry, Step};
use std::collections::BTreeMap;

/// The offset at which two encodings that differ in one field differ, over so many bytes.
fn offset(width: usize, one: &[u8], other: &[u8]) -> u64 {
    let differ: Vec<usize> = (0..one.len()).filter(|&at| one[at] != other[at]).collect();
    let first = *differ.first().expect("a difference");
    assert!(
        differ.iter().copied().eq(first..first + width),
        "{differ:?}"
    );
    first as u64
}

type Numbers = Vec<(&'static str, u64)>;

fn lengths() -> Numbers {
    vec![
        ("ABI", u64::from(lane::ABI)),
        ("STACK_BYTES", lane::STACK_BYTES),
        ("HEADER_BYTES", lane::HEADER_BYTES as u64),
        ("SLOT_BYTES", lane::SLOT_BYTES as u64),
        ("TAG_BYTES", lane::TAG_BYTES as u64),
        ("RECORD_BYTES", lane::RECORD_BYTES as u64),
        ("ENTRY_BYTES", lane::ENTRY_BYTES as u64),
        ("PIECE_BYTES", lane::PIECE_BYTES as u64),
        ("REPORT_BYTES", lane::REPORT_BYTES as u64),
        ("EVENT_BYTES", lane::EVENT_BYTES as u64),
        ("MAX_BLOCKS", lane::MAX_BLOCKS as u64),
        ("MAX_PIECES", lane::MAX_PIECES as u64),
        ("CODE_TIME_OUT", u64::from(lane::CODE_TIME_OUT)),
    ]
}

/// The tag with this name.
pub fn tag(name: &str) -> Tag {
    name.parse().expect("a tag in form")
}

/// The position with this number.
pub fn position(number: usize) -> Position {
    Position::new(number).expect("a position")
}

/// Offsets of the table's header.
fn header_offsets() -> Numbers {
    let block = |name: &str| Block::new(Kind::ETrig, tag(name));
    let [none, one, two] = [&[][..], &[block("A")], &[block("A"), block("B")]].map(image);
    let at = |one: &[u8], other: &[u8]| offset(1, &one[..4], &other[..4]);
    let (slots, head) = (at(&one, &two), at(&none, &one));
    assert_eq!([none[0], one[0], two[0]], [1; 3], "the version");
    vec![
        ("AT_HEADER_VERSION", 0),
        ("AT_HEADER_SLOTS", slots),
        ("AT_HEADER_HEAD", head),
    ]
}

/// A field: its name in the header, its width, and a change of it alone.
type Field<T> = (&'static str, usize, fn(&mut T));

/// The offsets of fields, by the change of each in the encoding of a value.
fn fields<T: Copy, const N: usize>(
    value: T,
    encode: fn(&T) -> [u8; N],
    fields: &[Field<T>],
) -> Numbers {
    let at = |&(name, width, change): &Field<T>| {
        let mut changed = value;
        change(&mut changed);
        (name, offset(width, &encode(&value), &encode(&changed)))
    };
    fields.iter().map(at).collect()
}

/// The slot of a block and its next, which is another block or none.
pub fn slot_bytes(&(block, next): &(Block, bool)) -> [u8; lane::SLOT_BYTES] {
    let other = Block::new(Kind::ETrig, tag("OTHER"));
    let image = image(&[block, other][..1 + usize::from(next)]);
    *image[lane::HEADER_BYTES..].first_chunk().expect("a slot")
}

fn slot_offsets() -> Numbers {
    let mut block = Block::new(Kind::ETrigA, tag("AAAAAAAA"));
    (block.start, block.abort) = (
        Some(Wire::new(9, Flag::Busy)),
        Some(Wire::new(9, Flag::Busy)),
    );
    let list: [Field<(Block, bool)>; 7] = [
        ("AT_SLOT_KIND", 1, |(block, _)| block.kind = Kind::ETrig),
        ("AT_SLOT_NEXT", 1, |(_, next)| *next = true),
        ("AT_SLOT_START_WIRE", 1, |(block, _)| block.start = None),
        ("AT_SLOT_START_CODE", 1, |(block, _)| {
            block.start = Some(Wire::new(9, Flag::Done))
        }),
        ("AT_SLOT_ABORT_WIRE", 1, |(block, _)| block.abort = None),
        ("AT_SLOT_ABORT_CODE", 1, |(block, _)| {
            block.abort = Some(Wire::new(9, Flag::Done))
        }),
        ("AT_SLOT_TAG", 8, |(block, _)| block.tag = tag("BBBBBBBB")),
    ];
    fields((block, false), slot_bytes, &list)
}

fn record_offsets() -> Numbers {
    let list: [Field<Record>; 9] = [
        ("AT_RECORD_STEP", 1, |r| r.step = Step::Done),
        ("AT_RECORD_FLAGS", 1, |r| r.flags.busy = true),
        ("AT_RECORD_REQUEST", 1, |r| r.reset_request = true),
        ("AT_RECORD_JOB", 8, |r| r.job = u64::MAX),
        ("AT_RECORD_CODE", 2, |r| r.code = u16::MAX),
        ("AT_RECORD_TIME_LIMIT", 4, |record| {
            record.time_limit = u32::MAX
        }),
        ("AT_RECORD_TIME_OUT", 4, |r| r.time_out = u32::MAX),
        ("AT_RECORD_READING", 4, |record| {
            record.last_reading = u32::MAX
        }),
        ("AT_RECORD_ELAPSED", 8, |r| r.elapsed = u64::MAX),
    ];
    fields(Record::default(), Record::encode, &list)
}

/// The entry whose only piece has this reply.
fn replied(reply: Reply, clock: u32) -> Entry {
    Entry {
        pieces: [Piece::new(reply, clock)].into(),
        ..Entry::default()
    }
}

fn entry_offsets() -> Numbers {
    let list: [Field<Entry>; 9] = [
        ("AT_ENTRY_INPUTS", 1, |e| e.start = true),
        ("AT_ENTRY_COUNT", 1, |e| {
            e.pieces = [Piece::default()].into()
        }),
        ("AT_ENTRY_ABORT_REPLY", 1, |e| {
            e.abort_reply = Reply::Working
        }),
        ("AT_ENTRY_RESET_REPLY", 1, |e| e.reset_complete = true),
        ("AT_ENTRY_ABORT_CODE", 2, |e| {
            e.abort_reply = Reply::Error(u16::MAX)
        }),
        ("AT_ENTRY_JOB", 8, |e| e.job = u64::MAX),
        ("AT_ENTRY_TIME_LIMIT", 4, |e| e.time_limit = u32::MAX),
        ("AT_ENTRY_TIME_OUT", 4, |e| e.time_out = u32::MAX),
        ("AT_ENTRY_CLOCK", 4, |e| e.clock = u32::MAX),
    ];
    let failed = Entry {
        abort_reply: Reply::Error(0),
        ..Entry::default()
    };
    fields(failed, Entry::encode, &list)
}

/// The offset of the pieces in an entry, and of the fields in a piece.
fn piece_offsets() -> Numbers {
    let list: [Field<Entry>; 3] = [
        ("AT_PIECE_REPLY", 1, |e| *e = replied(Reply::Complete, 0)),
        ("AT_PIECE_CODE", 2, |e| {
            *e = replied(Reply::Error(u16::MAX), 0)
        }),
        ("AT_PIECE_CLOCK", 4, |e| {
            *e = replied(Reply::Error(0), u32::MAX)
        }),
    ];
    let offsets = fields(replied(Reply::Error(0), 0), Entry::encode, &list);
    let (_, first) = offsets[0];
    let within = offsets.iter().map(|(name, at)| (*name, at - first));
    within.chain([("AT_ENTRY_PIECES", first)]).collect()
}

fn report_offsets() -> Numbers {
    let list: [Field<ReportEntry>; 6] = [
        ("AT_REPORT_FLAGS", 1, |e| e.flags.busy = true),
        ("AT_REPORT_PIECES", 1, |e| e.pieces_used = 1),
        ("AT_REPORT_PASSES", 1, |e| e.passes = 1),
        ("AT_REPORT_STEP", 1, |e| e.step = Step::Done),
        ("AT_REPORT_CODE", 2, |e| e.code = u16::MAX),
        ("AT_REPORT_JOB", 8, |e| e.job = u64::MAX),
    ];
    fields(ReportEntry::default(), ReportEntry::encode, &list)
}

fn event_offsets() -> Numbers {
    let event = Event {
        kind: EventKind::Start,
        position: position(1),
        code: 0,
        job: 0,
    };
    let list: [Field<Event>; 4] = [
        ("AT_EVENT_KIND", 1, |e| e.kind = EventKind::Done),
        ("AT_EVENT_POSITION", 1, |e| e.position = position(2)),
        ("AT_EVENT_CODE", 2, |e| e.code = u16::MAX),
        ("AT_EVENT_JOB", 8, |e| e.job = u64::MAX),
    ];
    fields(event, Event::encode, &list)
}

/// Names with the numbers of a list of the binding.
fn named<T: Copy>(names: &[&'static str], list: &[T], number: fn(T) -> u8) -> Numbers {
    assert_eq!(names.len(), list.len(), "{names:?}");
    let numbers = list.iter().map(|&item| u64::from(number(item)));
    names.iter().copied().zip(numbers).collect()
}

const KINDS: [&str; 14] = [
    "KIND_ETRIG",
    "KIND_ETRIG_TI",
    "KIND_ETRIG_TO",
    "KIND_ETRIG_TI_TO",
    "KIND_ETRIG_A",
    "KIND_ETRIG_A_TI",
    "KIND_ETRIG_A_TO",
    "KIND_ETRIG_A_TI_TO",
    "KIND_LCON",
    "KIND_LCON_TI",
    "KIND_LCON_TO",
    "KIND_LCON_TI_TO",
    "KIND_LCON_C",
    "KIND_LCON_TI_C",
];

const STEPS: [&str; 7] = [
    "STEP_DORMANT",
    "STEP_EXECUTING",
    "STEP_DONE",
    "STEP_ERROR",
    "STEP_ABORTING",
    "STEP_ABORTED",
    "STEP_RESETTING",
];

const EVENTS: [&str; 5] = [
    "EVENT_START",
    "EVENT_DONE",
    "EVENT_FAILED",
    "EVENT_ABORTED",
    "EVENT_WITHDRAWN",
];

/// Numbers of kinds, steps and events.
fn lists() -> Numbers {
    let mut numbers = named(&KINDS, Kind::ALL, Kind::number);
    numbers.extend(named(&STEPS, &Step::ALL, Step::number));
    numbers.extend(named(&EVENTS, &EventKind::ALL, EventKind::number));
    numbers
}

/// The code of a wire, by its byte in the slot.
pub fn wire_code(wire: Wire) -> u8 {
    let block = Block::new(Kind::ETrig, tag("A"));
    slot_bytes(&(block.start(wire), false))[3]
}

/// The flags as a byte.
pub fn flag_byte(flags: Flags) -> u8 {
    let flags = [flags.busy, flags.done, flags.error, flags.aborted];
    flags
        .iter()
        .rev()
        .fold(0, |byte, &flag| 2 * byte + u8::from(flag))
}

/// Codes of wires, flags, inputs and replies.
fn bits() -> Numbers {
    let [busy, done, error, aborted] = [Flag::Busy, Flag::Done, Flag::Error, Flag::Aborted];
    let wires = [busy, done, error, aborted].map(|flag| Wire::new(9, flag));
    let names = ["WIRE_BUSY", "WIRE_DONE", "WIRE_ERROR", "WIRE_ABORTED"];
    let mut numbers = named(&names, &wires, wire_code);
    numbers.extend(named(&["WIRE_INVERTED"], &[wires[0].inverted()], wire_code));
    let flags = [1, 2, 4, 8].map(|byte| {
        let mut report = [0; lane::REPORT_BYTES];
        report[0] = byte;
        ReportEntry::decode(&report).expect("flags").flags
    });
    let names = ["FLAG_BUSY", "FLAG_DONE", "FLAG_ERROR", "FLAG_ABORTED"];
    numbers.extend(named(&names, &flags, flag_byte));
    let inputs = [(true, false), (false, true)].map(|(start, abort)| Entry {
        start,
        abort,
        ..Entry::default()
    });
    numbers.extend(named(&["INPUT_START", "INPUT_ABORT"], &inputs, |entry| {
        entry.encode()[0]
    }));
    let replies = [Reply::Working, Reply::Complete, Reply::Error(2)];
    let names = ["REPLY_WORKING", "REPLY_COMPLETE", "REPLY_ERROR"];
    numbers.extend(named(&names, &replies, |reply| {
        replied(reply, 0).encode()[24]
    }));
    numbers
}

/// The refusals and the places, of which the binding has numbers and sentences but no names.
pub fn refusals() -> Numbers {
    vec![
        ("REFUSED_HEADER_LENGTH", 1),
        ("REFUSED_HEADER_VERSION", 2),
        ("REFUSED_HEADER_SLOTS", 3),
        ("REFUSED_TABLE_LENGTH", 4),
        ("REFUSED_CHAIN_ABOVE", 5),
        ("REFUSED_CHAIN_REPEATED", 6),
        ("REFUSED_KIND", 7),
        ("REFUSED_TAG_FORM", 8),
        ("REFUSED_TAG_REPEATED", 9),
        ("REFUSED_WIRE", 10),
        ("REFUSED_SPARE", 11),
        ("REFUSED_STATE_LENGTH", 20),
        ("REFUSED_STATE_UNSOUND", 21),
        ("REFUSED_FRAME_LENGTH", 30),
        ("REFUSED_FRAME_FORM", 31),
        ("REFUSED_REPORT_LENGTH", 40),
        ("REFUSED_JOURNAL_LENGTH", 41),
        ("REFUSED_LOOKUP_FORM", 50),
        ("REFUSED_LOOKUP_ABSENT", 51),
        ("REFUSED_TIDY_LENGTH", 60),
        ("REFUSED_EVENTS_LENGTH", 70),
        ("REFUSED_EVENT", 71),
        ("PLACE_NONE", 0),
        ("PLACE_SLOT", 1),
        ("PLACE_POSITION", 2),
        ("PLACE_EVENT", 3),
    ]
}

/// Every constant of the header is the binding's, and it has no other.
#[test]
fn constants() {
    let parts = [
        lengths(),
        header_offsets(),
        slot_offsets(),
        record_offsets(),
        entry_offsets(),
        piece_offsets(),
        report_offsets(),
        event_offsets(),
        lists(),
        bits(),
        refusals(),
    ];
    let named = |(name, number)| (format!("LANE_{name}"), number);
    let expected: BTreeMap<_, _> = parts.into_iter().flatten().map(named).collect();
    let (found, _) = shown("constants", &[]);
    assert_eq!(found.len(), names().len(), "a name twice");
    assert_eq!(found, expected);
    println!("{} constants", found.len());
}
