//! Inputs of the program `totals`, request 7/14, and the sheets that it prints: as both implementations print them,
//! read by their form, and counted.

use crate::blocks::Blocks;
use crate::check::differ;
use crate::forms::Forms;
use crate::journals::{self, bytes, count, events, foreign, good, Damage};
use crate::program::{self, Feed};
use crate::rng::Rng;
use crate::scan_check;
use crate::scans;
use crate::tables::{Fault, Size, Table};
use crate::tally::{Tally, INPUT_LENGTH};
use crate::text::{parse_slice, slice};
use crate::verdicts;
use lane::{Refusal, EVENT_BYTES, MAX_BLOCKS};
use reference::machine::Event;
use reference::table::is_tag;
use reference::totals;
use std::{fmt, iter};

/// The most bytes of an input that are no refusal: "at most 65,536 bytes together".
pub const MOST: usize = 65_536;

/// The names of the lines that are no block's.
const TOTAL: &str = "TOTAL";
const REFUSED: &str = "refused ";

/// The input of a table and a journal.
pub fn input(image: &[u8], journal: &[u8]) -> Vec<u8> {
    [image, journal].concat()
}

/// The input that words stand for: slices, joined; one with `*` and a number after it stands so often.
pub fn parse_input(words: &[&str]) -> Result<Vec<u8>, String> {
    let mut input = Vec::new();
    for word in words {
        let (slice, times) = word.split_once('*').unwrap_or((word, "1"));
        let times = times.parse().map_err(|e| format!("{word}: {e}"))?;
        input.extend(parse_slice(slice)?.repeat(times));
    }
    Ok(input)
}

/// What is printed, as one line of text.
pub fn text(printed: &[u8]) -> String {
    printed.escape_ascii().to_string()
}

/// The call as a line for `replay`. A word of a command is not as long as an input can be.
fn call(input: &[u8]) -> String {
    let words = input.chunks(MOST / 2).map(slice);
    format!("totals {}", words.collect::<Vec<String>>().join(" "))
}

/// What both implementations print on an input.
pub fn totals(input: &[u8], by: Feed) -> Result<Vec<u8>, String> {
    let printed = program::run(input, by)
        .map_err(|message| format!("{message}\nfed by {by:?}: {}", call(input)))?;
    let sheet = totals::totals(input);
    if printed != sheet.as_bytes() {
        let (program, reference) = (text(&printed), text(sheet.as_bytes()));
        let message = differ(&call(input), &program, &reference);
        return Err(format!("fed by {by:?}, {message}"));
    }
    Ok(printed)
}

/// Runs a call given in words, one of the program included: what it prints, or answers and leaves, as text.
pub fn run(words: &[&str]) -> Result<String, String> {
    match words {
        ["totals", slices @ ..] => {
            let printed = totals(&parse_input(slices)?, Feed::Whole)?;
            Ok(text(&printed))
        }
        _ => scan_check::run(words),
    }
}

/// A line of a sheet: a tag without its spaces or TOTAL, then starts, done, failed, aborted, withdrawn, open.
#[derive(Clone, Debug, PartialEq, Eq)]
pub struct Line {
    pub name: String,
    pub figures: [u64; 6],
}

/// The number that these digits are the only way to write.
fn number(digits: &str) -> Option<u64> {
    let number: u64 = digits.parse().ok()?;
    (number.to_string() == digits).then_some(number)
}

impl Line {
    /// The line that a text without its line feed is: "with one space between".
    fn parse(text: &str) -> Option<Line> {
        let words: Vec<&str> = text.split(' ').collect();
        let [name, digits @ ..] = &words[..] else {
            return None;
        };
        let figures: Option<Vec<u64>> = digits.iter().map(|digits| number(digits)).collect();
        let mut tag = [b' '; 8];
        tag.get_mut(..name.len())?.copy_from_slice(name.as_bytes());
        let line = Line {
            name: name.to_string(),
            figures: figures?.try_into().ok()?,
        };
        is_tag(&tag).then_some(line)
    }

    /// Whether "open is starts less the four finishes".
    fn is_balanced(&self) -> bool {
        let [starts, finishes @ .., open] = self.figures;
        finishes.iter().sum::<u64>() + open == starts
    }
}

/// A sheet by its lines.
#[derive(Clone, Debug, PartialEq, Eq)]
pub struct Sheet {
    pub blocks: Vec<Line>,
    pub total: Line,
}

impl Sheet {
    /// The column sums of its blocks.
    fn sums(&self) -> [u64; 6] {
        let mut sums = [0; 6];
        for line in &self.blocks {
            sums.iter_mut().zip(line.figures).for_each(|(s, f)| *s += f);
        }
        sums
    }
}

/// What was printed: a sheet, or the number of a refusal. Fails where it is neither by its form, and where the figures
/// of a sheet don't fit together.
pub fn read(printed: &[u8]) -> Result<Result<Sheet, u32>, String> {
    let wrong = |what: &str| format!("{what}: {}", text(printed));
    let all = str::from_utf8(printed).map_err(|_| wrong("not text"))?;
    let lines = all.strip_suffix('\n').ok_or(wrong("no line feed"))?;
    let refused = lines.strip_prefix(REFUSED).and_then(number);
    if let Some(refused) = refused {
        return Ok(Err(refused as u32));
    }
    let lines: Option<Vec<Line>> = lines.split('\n').map(Line::parse).collect();
    let mut blocks = lines.ok_or(wrong("not lines of figures"))?;
    let total = blocks.pop().filter(|line| line.name == TOTAL);
    let sheet = Sheet {
        blocks,
        total: total.ok_or(wrong("the last line is not TOTAL"))?,
    };
    if !sheet.blocks.iter().all(Line::is_balanced) {
        return Err(wrong("open is not starts less the finishes"));
    }
    if sheet.sums() != sheet.total.figures {
        return Err(wrong("the last line is not the column sums"));
    }
    Ok(Ok(sheet))
}

/// The line of a refusal.
pub fn refused(number: u32) -> String {
    format!("{REFUSED}{number}\n")
}

/// The line of some events: "Every figure equals the count of such events".
fn line<'a>(name: &str, events: impl Iterator<Item = &'a Event> + Clone) -> String {
    let count = |kind| events.clone().filter(|event| event.kind == kind).count();
    let [starts, done, failed, aborted, withdrawn] = [1, 2, 3, 4, 5].map(count);
    let open = starts - done - failed - aborted - withdrawn;
    format!("{name} {starts} {done} {failed} {aborted} {withdrawn} {open}\n")
}

/// What must be printed of a valid table and a journal, by the words of the request.
pub fn expected(table: &Table, journal: &[u8]) -> String {
    if table.image.len() + journal.len() > MOST {
        return refused(INPUT_LENGTH);
    }
    if let Err(refusal) = verdicts::expected(table, journal) {
        return refused(refusal.number());
    }
    let events = events(journal);
    let blocks = (1..).zip(table.tags()).map(|(position, tag)| {
        let name = String::from_utf8_lossy(&tag).replace(' ', "");
        line(&name, events.iter().filter(|e| e.position == position))
    });
    blocks.chain([line(TOTAL, events.iter())]).collect()
}

/// The table with TOTAL as the tag of a block, in any arrangement.
fn with_total(rng: &mut Rng, table: &Table) -> Table {
    let (mut blocks, total) = (Blocks::of(table), *b"TOTAL   ");
    let has = blocks.0.iter().any(|block| block.tag == total);
    if !blocks.0.is_empty() && !has {
        let at = rng.below(blocks.0.len());
        blocks.0[at].tag = total;
    }
    blocks.arranged(rng)
}

/// A valid table: of few blocks or many, at times with one tagged TOTAL.
pub fn table(rng: &mut Rng) -> Table {
    let table = match rng.one_in(2) {
        true => scans::table(rng),
        false => {
            let size = Size::any(rng);
            Table::new(rng, size)
        }
    };
    match rng.one_in(6) {
        true => with_total(rng, &table),
        false => table,
    }
}

/// A journal by a valid table: good, damaged or foreign.
pub fn journal(rng: &mut Rng, table: &Table) -> Vec<u8> {
    let count = count(rng);
    let good = good(rng, table, count);
    let damage = rng.pick(&Damage::ALL);
    match rng.below(8) {
        0..=4 => bytes(&good),
        5 | 6 => damage
            .done_to(rng, table, &good)
            .unwrap_or_else(|| bytes(&good)),
        _ => foreign(rng, table),
    }
}

/// A journal with which an input of this table has so many bytes: a good one, and some bytes where no event fits.
pub fn filling(rng: &mut Rng, table: &Table, length: usize) -> Vec<u8> {
    let length = length.saturating_sub(table.image.len());
    let mut journal = bytes(&journals::good(rng, table, length / EVENT_BYTES));
    journal.resize(length, rng.byte(0, 2));
    journal
}

/// The most bytes of an input of this table without a part of an event.
pub fn fullest(table: &Table) -> usize {
    let length = table.image.len();
    length + (MOST - length) / EVENT_BYTES * EVENT_BYTES
}

/// Makes an input with a table of this length shorter or longer: by few bytes or many, in the table, by whole events,
/// or to about the most.
pub fn resize(rng: &mut Rng, input: &mut Vec<u8>, table: usize) {
    let length = input.len();
    let events = length.saturating_sub(table) / EVENT_BYTES;
    let length = match rng.below(10) {
        0 => rng.below(4),
        1 => rng.below(table + 1),
        2 => rng.below(length + 1),
        3 => length.saturating_sub(rng.range(1, EVENT_BYTES)),
        4 | 5 => length + rng.range(1, EVENT_BYTES),
        6 => length + EVENT_BYTES * rng.range(1, 400),
        7 | 8 => table + EVENT_BYTES * rng.below(events + 1),
        _ => rng.range(MOST - 6, MOST + 4),
    };
    input.resize(length, rng.byte(0, 2));
}

/// Any input: a valid or damaged table and any journal, at times changed, cut short or made longer.
pub fn any(rng: &mut Rng) -> Vec<u8> {
    let mut table = table(rng);
    let journal = match rng.one_in(16) {
        true => {
            let about = rng.range(MOST - 6, MOST + 4);
            let length = rng.pick(&[about, fullest(&table)]);
            filling(rng, &table, length)
        }
        false => journal(rng, &table),
    };
    match rng.below(8) {
        0..=2 => {
            let fault = rng.pick(&Fault::ALL);
            table.damage(rng, fault);
        }
        3 => table.scramble(rng),
        _ => {}
    }
    let mut input = input(&table.image, &journal);
    if rng.one_in(4) {
        resize(rng, &mut input, table.image.len());
    }
    input
}

/// Whether a figure of a sheet, but for those of the sums, has so many digits.
fn has_digits(sheet: &Sheet, digits: usize) -> bool {
    let mut figures = sheet.blocks.iter().flat_map(|line| line.figures);
    figures.any(|figure| figure.to_string().len() == digits)
}

/// Whether six figures are six numbers, none of them 0.
fn are_six(figures: &[u64; 6]) -> bool {
    let mut sorted = *figures;
    sorted.sort();
    sorted[0] > 0 && sorted.windows(2).all(|pair| pair[0] < pair[1])
}

/// Sheets by their blocks.
fn of_blocks() -> Forms<Sheet> {
    let named =
        |so: fn(&str) -> bool| move |sheet: &Sheet| sheet.blocks.iter().any(|l| so(&l.name));
    Forms::new()
        .with("of no blocks", |sheet: &Sheet| sheet.blocks.is_empty())
        .with("of one block", |sheet| sheet.blocks.len() == 1)
        .with("of 64 blocks", |sheet| sheet.blocks.len() == MAX_BLOCKS)
        .with("with a block TOTAL", named(|name| name == TOTAL))
        .with("with a tag of one character", named(|name| name.len() == 1))
        .with("with a tag of eight", named(|name| name.len() == 8))
        .with("with an underscore", named(|name| name.contains('_')))
}

/// Sheets by their figures.
fn of_figures() -> Forms<Sheet> {
    let any = |so: fn(&Line) -> bool| move |sheet: &Sheet| sheet.blocks.iter().any(so);
    let idle = |line: &Line| line.figures == [0; 6];
    Forms::new()
        .with("without an event", |sheet: &Sheet| {
            !sheet.blocks.is_empty() && sheet.total.figures == [0; 6]
        })
        .with("with a block without events, and one with", move |sheet| {
            any(idle)(sheet) && !sheet.blocks.iter().all(idle)
        })
        .with("with all figures of a block but one above 0", |sheet| {
            let above = |line: &Line| line.figures.iter().filter(|&&f| f > 0).count();
            sheet.blocks.iter().any(|line| above(line) == 5)
        })
        .with("with jobs open", any(|line| line.figures[5] == 1))
        .with("with six sums above 0", |sheet| {
            !sheet.total.figures.contains(&0)
        })
        .with("with six sums above 0, all different", |sheet| {
            are_six(&sheet.total.figures)
        })
        .with("with figures of two digits", |sheet| has_digits(sheet, 2))
}

/// Sheets of long journals.
fn of_long_journals() -> Forms<Sheet> {
    Forms::new()
        .with("with figures of three digits", |s: &Sheet| has_digits(s, 3))
        .with("with figures of four digits", |s| has_digits(s, 4))
}

/// Counts over what was printed.
pub struct Sheets {
    tally: Tally,
    accepted: [Forms<Sheet>; 2],
    long: Forms<Sheet>,
}

impl Default for Sheets {
    fn default() -> Sheets {
        Sheets {
            tally: Tally::default(),
            accepted: [of_blocks(), of_figures()],
            long: of_long_journals(),
        }
    }
}

impl Sheets {
    /// Counts what was printed.
    pub fn add(&mut self, printed: &Result<Sheet, u32>) {
        match printed {
            Ok(sheet) => {
                self.tally.add(Ok(sheet.blocks.len() as u32));
                for forms in self.accepted.iter_mut().chain([&mut self.long]) {
                    forms.add(iter::once(sheet.clone()));
                }
            }
            Err(number) => self.tally.add(Err(Refusal::new(*number, 0))),
        }
    }

    /// Fails unless each form of a sheet was met more than once in so many.
    pub fn expect_accepted(&self, times: u64) {
        self.accepted.iter().for_each(|forms| forms.expect(times));
    }

    /// Fails unless figures of three digits and of four were met more than once in so many sheets.
    pub fn expect_long(&self, times: u64) {
        self.long.expect(times);
    }

    /// How often each answer was seen.
    pub fn tally(&self) -> &Tally {
        &self.tally
    }
}

impl fmt::Display for Sheets {
    fn fmt(&self, f: &mut fmt::Formatter<'_>) -> fmt::Result {
        let [blocks, figures] = &self.accepted;
        write!(f, "{}accepted\n{blocks}{figures}{}", self.tally, self.long)
    }
}
