//! The buffers of a scan, each of the length that its engine's table asks for.

use crate::{Entry, Event, Position, Record, ReportEntry};
use crate::{ENTRY_BYTES, EVENT_BYTES, RECORD_BYTES, REPORT_BYTES};

/// The part of a position, `None` above the last.
fn part<const N: usize>(bytes: &[u8], position: Position) -> Option<&[u8; N]> {
    bytes.as_chunks().0.get(position.index())
}

/// The state of all blocks between scans: one record a block.
#[derive(Clone, Debug, PartialEq, Eq, Hash)]
pub struct State(Vec<u8>);

impl State {
    /// The state in these bytes, as [`as_bytes`](State::as_bytes) gave them; the next scan checks them.
    pub fn from_bytes(bytes: &[u8]) -> State {
        State(bytes.to_vec())
    }

    /// The bytes.
    pub fn as_bytes(&self) -> &[u8] {
        &self.0
    }

    pub(crate) fn as_bytes_mut(&mut self) -> &mut [u8] {
        &mut self.0
    }

    /// The record at a position; `None` above the number of blocks, and if its bytes are out of form.
    ///
    /// ```
    /// use lane::{Position, Record, State, RECORD_BYTES};
    ///
    /// let state = State::from_bytes(&[[0; RECORD_BYTES], [7; RECORD_BYTES]].concat());
    /// let record = |number| state.record(Position::new(number).unwrap());
    /// assert_eq!([1, 2, 3].map(record), [Some(Record::default()), None, None]);
    /// ```
    pub fn record(&self, position: Position) -> Option<Record> {
        Record::decode(part::<RECORD_BYTES>(&self.0, position)?)
    }
}

/// What the blocks are given in one scan: one entry a block.
#[derive(Clone, Debug, PartialEq, Eq, Hash)]
pub struct Frame(Vec<u8>);

impl Frame {
    /// A frame of so many blocks, none of which is started.
    pub fn new(blocks: usize) -> Frame {
        Frame(vec![0; ENTRY_BYTES * blocks])
    }

    /// The frame in these bytes; the next scan checks them.
    pub fn from_bytes(bytes: &[u8]) -> Frame {
        Frame(bytes.to_vec())
    }

    /// The bytes.
    pub fn as_bytes(&self) -> &[u8] {
        &self.0
    }

    /// The entry at a position; `None` above the number of blocks, and if its bytes are out of form. Only the
    /// engine says whether its error codes are.
    pub fn entry(&self, position: Position) -> Option<Entry> {
        Entry::decode(part::<ENTRY_BYTES>(&self.0, position)?)
    }

    /// Writes the entry at a position.
    ///
    /// # Panics
    /// If the position is above the number of blocks.
    pub fn set(&mut self, position: Position, entry: &Entry) {
        self.0.as_chunks_mut().0[position.index()] = entry.encode();
    }
}

/// What a scan reports: one entry a block.
#[derive(Clone, Debug, PartialEq, Eq, Hash)]
pub struct Report(Vec<u8>);

impl Report {
    /// A report of so many blocks, to be written by a scan.
    pub fn new(blocks: usize) -> Report {
        Report(vec![0; REPORT_BYTES * blocks])
    }

    /// The bytes.
    pub fn as_bytes(&self) -> &[u8] {
        &self.0
    }

    pub(crate) fn as_bytes_mut(&mut self) -> &mut [u8] {
        &mut self.0
    }

    /// The entry at a position; `None` above the number of blocks, and if its bytes are out of form.
    pub fn entry(&self, position: Position) -> Option<ReportEntry> {
        ReportEntry::decode(part::<REPORT_BYTES>(&self.0, position)?)
    }
}

/// The events of a scan, in the order in which the blocks were called.
#[derive(Clone, Debug, PartialEq, Eq, Hash)]
pub struct Journal {
    bytes: Vec<u8>,
    events: usize,
}

impl Journal {
    /// A journal for the events of so many blocks, two a block.
    pub fn new(blocks: usize) -> Journal {
        let bytes = vec![0; 2 * EVENT_BYTES * blocks];
        Journal { bytes, events: 0 }
    }

    /// The bytes of the events.
    pub fn as_bytes(&self) -> &[u8] {
        &self.bytes[..EVENT_BYTES * self.events]
    }

    /// The buffer that a scan writes.
    pub(crate) fn buffer(&mut self) -> &mut [u8] {
        &mut self.bytes
    }

    /// Keeps the number of events that a scan answered.
    pub(crate) fn set_len(&mut self, events: usize) {
        self.events = events;
    }

    /// The number of events.
    pub fn len(&self) -> usize {
        self.events
    }

    /// Whether the scan wrote no event.
    pub fn is_empty(&self) -> bool {
        self.events == 0
    }

    /// The events.
    pub fn events(&self) -> impl Iterator<Item = Event> + '_ {
        let (events, _) = self.as_bytes().as_chunks();
        events.iter().filter_map(Event::decode)
    }
}
