//! The layouts as the papers write them, in plain numbers: each byte of a
//! field holds its own place, from 0x80 on, and each unnamed byte holds 0.

use reference::layout::{entry, event, piece, record, report};
use reference::machine::{Entry, Event, Inputs, Piece, Record, Report, MAX_PIECES};
use std::array;

/// The number in so many bytes from a place on.
fn number(place: u64, bytes: u64) -> u64 {
    let byte = |index: u64| (0x80 + place + index) << (8 * index);
    (0..bytes).map(byte).sum()
}

/// The bytes with 0 in these places.
fn bytes<const N: usize>(unnamed: &[usize]) -> [u8; N] {
    array::from_fn(|place| match unnamed.contains(&place) {
        true => 0,
        false => 0x80 + place as u8,
    })
}

#[test]
fn lengths() {
    let lengths = [record::SIZE, entry::SIZE, report::SIZE, event::SIZE];
    assert_eq!(lengths, [40, 64, 16, 12]);
}

#[test]
fn record_bytes() {
    let record = Record {
        step: 0x80,
        flags: 0x81,
        reset_request: 0x82,
        code: number(8, 2) as u16,
        time_limit: number(12, 4) as u32,
        time_out: number(16, 4) as u32,
        last_reading: number(20, 4) as u32,
        elapsed: number(24, 8),
        job: number(32, 8),
    };
    let bytes = bytes(&[3, 4, 5, 6, 7, 10, 11]);
    assert_eq!(record.encode(), bytes);
    assert_eq!(Record::decode(&bytes), record);
}

#[test]
fn entry_bytes() {
    let piece = |place: u64| Piece {
        reply: 0x80 + place as u8,
        code: number(place + 2, 2) as u16,
        clock: number(place + 4, 4) as u32,
    };
    let entry = Entry {
        inputs: Inputs {
            start: true,
            abort: true,
        },
        piece_count: 0x81,
        abort_reply: 0x82,
        reset_reply: 0x83,
        abort_code: number(4, 2) as u16,
        time_limit: number(12, 4) as u32,
        time_out: number(16, 4) as u32,
        clock: number(20, 4) as u32,
        pieces: [piece(24), piece(32), piece(40), piece(48)],
        job: number(56, 8),
    };
    let mut bytes = bytes(&[6, 7, 8, 9, 10, 11, 25, 33, 41, 49]);
    bytes[0] = 3;
    assert_eq!(entry.encode(), bytes);
    assert_eq!(Entry::decode(&bytes), entry);
}

#[test]
fn report_bytes() {
    let report = Report {
        flags: 0x80,
        pieces: 0x81,
        passes: 0x82,
        step: 0x83,
        code: number(4, 2) as u16,
        job: number(8, 8),
    };
    let bytes = bytes(&[6, 7]);
    assert_eq!(report.encode(), bytes);
    assert_eq!(Report::decode(&bytes), report);
}

#[test]
fn event_bytes() {
    let event = Event {
        kind: 0x80,
        position: 0x81,
        code: number(2, 2) as u16,
        job: number(4, 8),
    };
    let bytes = bytes(&[]);
    assert_eq!(event.encode(), bytes);
    assert_eq!(Event::decode(&bytes), event);
}

/// The unnamed places are those that no field fills.
#[test]
fn unnamed_places() {
    let record = Record::decode(&[0xff; record::SIZE]).encode();
    let zero = record.iter().enumerate().filter(|(_, &byte)| byte == 0);
    assert!(zero.map(|(place, _)| place).eq(record::UNNAMED));
    let entry = Entry::decode(&[0xff; entry::SIZE]).encode();
    let zero = entry.iter().enumerate().filter(|(_, &byte)| byte == 0);
    let pieces = (0..MAX_PIECES).map(|index| entry::piece(index) + piece::UNNAMED);
    let unnamed = entry::UNNAMED.into_iter().chain(pieces);
    assert!(zero.map(|(place, _)| place).eq(unnamed));
}
