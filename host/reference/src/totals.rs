//! The printed sheet of shift totals: request 7/14 of document 02.
//!
//! "The program reads a table (4 + 16 × N bytes by its header, or all that came
//! if fewer) and then a journal from standard input, at most 65,536 bytes
//! together." Here the input is the bytes that came, and the sheet those printed.

use crate::journal::check_journal;
use crate::machine::Event;
use crate::table::{chain, refuse, Refusal, Slot, Table, HEADER_SIZE, MAX_SLOTS, SLOT_SIZE};
use core::fmt::{self, Write};

/// "at most 65,536 bytes together"
pub const MAX_INPUT: usize = 65_536;

/// The bytes that are printed.
#[derive(Debug, Clone, Copy, PartialEq, Eq)]
pub struct Sheet {
    bytes: [u8; Sheet::MAX],
    length: usize,
}

impl Sheet {
    /// A tag of eight bytes, six figures with a space before each, a line feed.
    /// The longest input has 5,461 events at most, so a figure has four digits.
    const MAX_LINE: usize = 8 + 6 * 5 + 1;

    /// "one line a block", and the last line.
    const MAX: usize = Sheet::MAX_LINE * (MAX_SLOTS + 1);

    const EMPTY: Sheet = Sheet {
        bytes: [0; Sheet::MAX],
        length: 0,
    };

    /// The bytes.
    pub fn as_bytes(&self) -> &[u8] {
        &self.bytes[..self.length]
    }

    /// Adds bytes. No sheet is longer than its buffer; one that were would lack
    /// them.
    fn push(&mut self, bytes: &[u8]) {
        let end = self.length + bytes.len();
        if let Some(place) = self.bytes.get_mut(self.length..end) {
            place.copy_from_slice(bytes);
            self.length = end;
        }
    }
}

impl Write for Sheet {
    fn write_str(&mut self, text: &str) -> fmt::Result {
        self.push(text.as_bytes());
        Ok(())
    }
}

/// The figures of a line: "starts, done, failed, aborted, withdrawn, open".
#[derive(Debug, Clone, Copy, Default)]
struct Figures {
    starts: usize,
    done: usize,
    failed: usize,
    aborted: usize,
    withdrawn: usize,
}

impl Figures {
    /// Counts an event: "Every figure equals the count of such events".
    fn count(&mut self, event: &Event) {
        match event.kind {
            Event::START => self.starts += 1,
            Event::DONE => self.done += 1,
            Event::FAILED => self.failed += 1,
            Event::ABORTED => self.aborted += 1,
            Event::WITHDRAWN => self.withdrawn += 1,
            // An accepted journal has no other.
            _ => {}
        }
    }

    /// "open is starts less the four finishes", of which an accepted journal has
    /// no more than starts.
    fn open(&self) -> usize {
        let finishes = self.done + self.failed + self.aborted + self.withdrawn;
        self.starts.saturating_sub(finishes)
    }

    /// The six figures in the order of the line.
    fn line(&self) -> [usize; 6] {
        [
            self.starts,
            self.done,
            self.failed,
            self.aborted,
            self.withdrawn,
            self.open(),
        ]
    }
}

/// Check 75: "75, before all other checks, when more than 65,536 bytes arrive."
/// It names no place.
fn check_length(input: &[u8]) -> Result<(), Refusal> {
    if input.len() > MAX_INPUT {
        return refuse(75, 0);
    }
    Ok(())
}

/// The table and the journal: "a table (4 + 16 × N bytes by its header, or all
/// that came if fewer) and then a journal". N is byte 1, whatever else the
/// header holds; under two bytes all that came is the table.
fn parts(input: &[u8]) -> (&[u8], &[u8]) {
    let length = match input {
        [_, count, ..] => HEADER_SIZE + SLOT_SIZE * usize::from(*count),
        _ => input.len(),
    };
    input.split_at_checked(length).unwrap_or((input, &[]))
}

/// The figures of each block; those of position k are at index k - 1.
fn count(journal: &[u8]) -> [Figures; MAX_SLOTS] {
    let mut blocks = [Figures::default(); MAX_SLOTS];
    let (events, _) = journal.as_chunks();
    for event in events.iter().map(Event::decode) {
        let index = usize::from(event.position).wrapping_sub(1);
        // Each event of an accepted journal has a position of the table.
        if let Some(figures) = blocks.get_mut(index) {
            figures.count(&event);
        }
    }
    blocks
}

/// Writes a line: its name, "then starts, done, failed, aborted, withdrawn, open,
/// with one space between". "Every line ends with one line feed."
fn write_line(sheet: &mut Sheet, name: &[u8], line: [usize; 6]) -> fmt::Result {
    sheet.push(name);
    for figure in line {
        write!(sheet, " {figure}")?;
    }
    sheet.push(b"\n");
    Ok(())
}

/// Writes "one line a block in chain order" with "the tag without spaces", and
/// "The last line is TOTAL and the column sums." A table of no blocks has only
/// that one.
fn write_sheet(sheet: &mut Sheet, table: &Table, journal: &[u8]) -> fmt::Result {
    let mut sums = [0; 6];
    for ((_, bytes), figures) in table.blocks().zip(count(journal)) {
        let line = figures.line();
        let tag = Slot::decode(bytes).tag;
        write_line(sheet, tag.trim_ascii_end(), line)?;
        for (sum, figure) in sums.iter_mut().zip(line) {
            *sum += figure;
        }
    }
    write_line(sheet, b"TOTAL", sums)
}

/// All checks, in their order; the table and the journal that they accept.
fn accepted(input: &[u8]) -> Result<(Table<'_>, &[u8]), Refusal> {
    check_length(input)?;
    let (image, journal) = parts(input);
    check_journal(image, journal)?;
    Ok((chain(image)?, journal))
}

/// The sheet of an input: the lines of its blocks and of their sums, and "an
/// input refused by the table checks, 70, 71 or 75 prints only the line
/// "refused", a space and its number."
pub fn totals(input: &[u8]) -> Sheet {
    let mut sheet = Sheet::EMPTY;
    // Writing into a sheet never fails.
    let _ = match accepted(input) {
        Ok((table, journal)) => write_sheet(&mut sheet, &table, journal),
        Err(refusal) => writeln!(sheet, "refused {}", refusal.number),
    };
    sheet
}
