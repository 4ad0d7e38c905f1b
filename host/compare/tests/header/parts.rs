//! Every field that the header's readers and writers read and write.

use crate::constants::{self, flag_byte, position, slot_bytes, wire_code};
use crate::expect;
use compare::records::{self, Clock, Drive};
use compare::rng::{settings, Rng};
use compare::tables::tag;
use compare::text::slice;
use lane::{Block, Entry, Event, EventKind, Flag, Kind, Record, Reply, ReportEntry, Step, Wire};

/// A part of a buffer: the line that shows it, and its fields and bytes as the header must give them.
fn part(name: &str, bytes: &[u8], fields: &[u64], text: &str) -> (String, String) {
    let fields: String = fields.iter().map(|field| format!("{field} ")).collect();
    let hex = &slice(bytes)[1..];
    (format!("{name} {hex}"), format!("{fields}{text}{hex}"))
}

fn slot_part(rng: &mut Rng) -> (String, String) {
    let name = tag(rng).map(char::from).iter().collect::<String>();
    let tag = constants::tag(name.trim_end());
    let flag = |rng: &mut Rng| rng.pick(&[Flag::Busy, Flag::Done, Flag::Error, Flag::Aborted]);
    let mut wire = || {
        let wire = Wire::new(rng.byte(1, 64), flag(rng));
        rng.pick(&[None, Some(wire), Some(wire.inverted())])
    };
    let (start, abort) = (wire(), wire());
    let (kind, next) = (rng.pick(Kind::ALL), rng.one_in(2));
    let block = Block {
        start,
        abort,
        ..Block::new(kind, tag)
    };
    let [start, abort] = [start, abort].map(|wire| match wire {
        Some(wire) => [u64::from(wire.slot), u64::from(wire_code(wire))],
        None => [0, 0],
    });
    let front = [u64::from(kind.number()), if next { 2 } else { 0 }];
    let fields = [front, start, abort].concat();
    part(
        "slot",
        &slot_bytes(&(block, next)),
        &fields,
        &format!("{name} "),
    )
}

fn record_part(rng: &mut Rng) -> (String, String) {
    let kind = rng.byte(1, 14);
    let record = Record::decode(&records::sound(rng, kind)).expect("a record in form");
    let fields = [
        u64::from(record.step.number()),
        u64::from(flag_byte(record.flags)),
        u64::from(record.reset_request),
        record.job,
        u64::from(record.code),
        u64::from(record.time_limit),
        u64::from(record.time_out),
        u64::from(record.last_reading),
        record.elapsed,
    ];
    part("record", &record.encode(), &fields, "")
}

/// The number and the code of a reply.
fn reply_fields(reply: Reply) -> [u64; 2] {
    match reply {
        Reply::Working => [0, 0],
        Reply::Complete => [1, 0],
        Reply::Error(code) => [2, u64::from(code)],
    }
}

fn entry_part(rng: &mut Rng) -> (String, String) {
    let (drive, mut clock) = (Drive::any(rng), Clock::new(rng));
    let entry = records::entry(rng, drive, &mut clock);
    let entry = Entry::decode(&entry).expect("an entry in form");
    let pieces = entry.pieces.as_slice();
    let [abort, abort_code] = reply_fields(entry.abort_reply);
    let mut fields = vec![
        u64::from(entry.start) + 2 * u64::from(entry.abort),
        pieces.len() as u64,
        abort,
        u64::from(entry.reset_complete),
        abort_code,
        entry.job,
        u64::from(entry.time_limit),
        u64::from(entry.time_out),
        u64::from(entry.clock),
    ];
    for index in 0..lane::MAX_PIECES {
        let piece = pieces.get(index).copied().unwrap_or_default();
        fields.extend(reply_fields(piece.reply));
        fields.push(u64::from(piece.clock));
    }
    part("entry", &entry.encode(), &fields, "")
}

fn report_part(rng: &mut Rng) -> (String, String) {
    let mut bytes = [0; lane::REPORT_BYTES];
    bytes[0] = rng.byte(0, 15);
    let report = ReportEntry {
        flags: ReportEntry::decode(&bytes).expect("flags").flags,
        pieces_used: rng.byte(0, 4),
        passes: rng.byte(1, 6),
        step: rng.pick(&Step::ALL),
        code: rng.next() as u16,
        job: records::job(rng, records::LONG),
    };
    let fields = [
        u64::from(flag_byte(report.flags)),
        u64::from(report.pieces_used),
        u64::from(report.passes),
        u64::from(report.step.number()),
        u64::from(report.code),
        report.job,
    ];
    part("report", &report.encode(), &fields, "")
}

fn event_part(rng: &mut Rng) -> (String, String) {
    let event = Event {
        kind: rng.pick(&EventKind::ALL),
        position: position(rng.range(1, 64)),
        code: rng.next() as u16,
        job: records::job(rng, records::LONG),
    };
    let fields = [
        u64::from(event.kind.number()),
        event.position.number() as u64,
        u64::from(event.code),
        event.job,
    ];
    part("event", &event.encode(), &fields, "")
}

/// Every part that the binding encodes has the same fields for the header, which puts the same bytes back.
#[test]
fn parts_of_buffers() {
    let (seed, rounds) = settings("parts of buffers", 302, 4_000);
    let parts = [slot_part, record_part, entry_part, report_part, event_part];
    let cases = (0..rounds).flat_map(|case| {
        let mut rng = Rng::for_case(seed, case);
        parts.map(|part| part(&mut rng))
    });
    expect("parts", cases.collect());
}
