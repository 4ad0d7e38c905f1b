//! Quiet gates, where nearly all blocks are Dormant with start false, and the form of a frame entry, byte by byte: the
//! engine against the reference, and both against what the papers say of it.
//!
//! `LANE_SEED` sets the seed, `LANE_ROUNDS` multiplies the number of lists. A failing scan is printed as
//! a command that runs it again.

use compare::records::{entry, sound, Clock, Drive};
use compare::rng::{settings, Rng};
use compare::scan_check::{line, scan};
use compare::scans::{Buffers, EVENTS_BYTES};
use compare::tables::{Size, Table};
use compare::tally::Tally;
use compare::text::{answer, from_reference, Answer};
use lane::{ffi, image, Block, Kind, Refusal, Tag};
use lane::{ENTRY_BYTES, EVENT_BYTES, MAX_BLOCKS, RECORD_BYTES, REPORT_BYTES};
use reference::scan as rules;
use std::cmp::Ordering;
use std::fmt;

/// A record that is all zero.
const DORMANT: [u8; RECORD_BYTES] = [0; RECORD_BYTES];

/// The report of an idle block: one pass, and all else zero.
const IDLE: [u8; REPORT_BYTES] = [0, 0, 1, 0, 0, 0, 0, 0, 0, 0, 0, 0, 0, 0, 0, 0];

/// Where the start wire and the abort wire of a slot stand in an image: the slot each comes from, then its code.
fn wires(slot: u8) -> [usize; 2] {
    let at = 4 + 16 * (usize::from(slot) - 1);
    [at + 2, at + 4]
}

/// Fills bytes with random ones.
fn noise(rng: &mut Rng, bytes: &mut [u8]) {
    for part in bytes.chunks_mut(8) {
        part.copy_from_slice(&rng.next().to_le_bytes()[..part.len()]);
    }
}

/// A table of 1 to 64 blocks, often 64. Of its start wires few are inverted: such a wire from an idle block starts.
fn table(rng: &mut Rng) -> Table {
    let blocks = match rng.below(8) {
        0 | 1 => rng.range(1, 4),
        2 | 3 => rng.range(5, 16),
        4 | 5 => rng.range(17, 63),
        _ => MAX_BLOCKS,
    };
    let slots = rng.range(blocks, MAX_BLOCKS);
    let mut table = Table::new(rng, Size { slots, blocks });
    let few = rng.pick(&[4, 16, 64]);
    for &slot in &table.chain {
        let [start, _] = wires(slot);
        if !rng.one_in(few) {
            table.image[start + 1] &= !0x80;
        }
    }
    table
}

/// A list of scans under way.
struct Gate {
    table: Table,
    drive: Drive,
    /// A clock for each block.
    clocks: Vec<Clock>,
    /// The blocks that the frame starts.
    wanted: Vec<bool>,
}

impl Gate {
    fn new(rng: &mut Rng) -> Gate {
        let table = table(rng);
        let blocks = table.chain.len();
        Gate {
            drive: Drive::any(rng),
            clocks: (0..blocks).map(|_| Clock::new(rng)).collect(),
            wanted: vec![false; blocks],
            table,
        }
    }

    /// The state that the list begins with: fresh, or with a block or two at any step.
    fn first_state(&self, rng: &mut Rng) -> Vec<u8> {
        let chain = &self.table.chain;
        let mut state = vec![0; RECORD_BYTES * chain.len()];
        let (records, _) = state.as_chunks_mut();
        for _ in 0..rng.pick(&[0, 0, 1, 2]) {
            let index = rng.below(chain.len());
            records[index] = sound(rng, self.table.kind(chain[index]));
        }
        state
    }

    /// Now and then wants a block to start, for a few scans.
    fn turn(&mut self, rng: &mut Rng) {
        for wanted in &mut self.wanted {
            *wanted = *wanted && !rng.one_in(3);
        }
        if rng.one_in(3) {
            let index = rng.below(self.wanted.len());
            self.wanted[index] = true;
        }
    }

    /// The next scan from this state. A wired block has any start bit.
    fn scan(&mut self, rng: &mut Rng, state: &[u8]) -> Buffers {
        self.turn(rng);
        let blocks = self.table.chain.len();
        let (records, _) = state.as_chunks();
        let mut frame = Vec::with_capacity(ENTRY_BYTES * blocks);
        for (index, &slot) in self.table.chain.iter().enumerate() {
            let wired = self.table.image[wires(slot)[0]] != 0;
            let start = match (wired, self.wanted[index]) {
                (true, _) => 4,
                (false, wanted) => 7 * usize::from(wanted),
            };
            let clock = &mut self.clocks[index];
            clock.follow(rng, &records[index]);
            let drive = Drive {
                start,
                ..self.drive
            };
            frame.extend_from_slice(&entry(rng, drive, clock));
        }
        let spare = rng.pick(&[0, 0, 0, 1, EVENT_BYTES, 100]);
        let mut given = Buffers {
            image: self.table.image.clone(),
            state: state.to_vec(),
            frame,
            report: vec![0; REPORT_BYTES * blocks],
            journal: vec![0; EVENTS_BYTES * blocks + spare],
        };
        noise(rng, &mut given.report);
        noise(rng, &mut given.journal);
        given
    }
}

/// An input of a block in one call.
struct Input {
    /// Its bit in the frame.
    bit: bool,
    /// Where its wire comes from, if it has one: an earlier block, the block itself or a later one.
    from: Option<Ordering>,
    inverted: bool,
    /// Whether the wire's flag changed in this scan.
    turned: bool,
    /// What the block was called with.
    value: bool,
}

impl Input {
    /// The start input (0) or the abort input (1) of the block at an index of the chain: its bit without a wire, else a
    /// flag of a block that was called before it or that is yet to be called.
    fn read(table: &Table, given: &Buffers, after: &Buffers, index: usize, which: usize) -> Input {
        let at = wires(table.chain[index])[which];
        let (slot, code) = (table.image[at], table.image[at + 1]);
        let bit = given.frame[ENTRY_BYTES * index] >> which & 1 == 1;
        let mut input = Input {
            bit,
            from: None,
            inverted: code & 0x80 != 0,
            turned: false,
            value: bit,
        };
        if let Some(source) = table.chain.iter().position(|&other| other == slot) {
            let flag = |state: &[u8]| state[RECORD_BYTES * source + 1] >> (code & 3) & 1 == 1;
            let (old, new) = (flag(&given.state), flag(&after.state));
            let read = if source < index { new } else { old };
            input.from = Some(source.cmp(&index));
            input.turned = old != new;
            input.value = read != input.inverted;
        }
        input
    }

    fn wired(&self) -> bool {
        self.from.is_some()
    }

    /// Whether the wire's flag changed in this scan, on a block that stands there.
    fn turned_at(&self, there: Ordering) -> bool {
        self.turned && self.from == Some(there)
    }
}

/// One call of a block.
struct Call<'a> {
    kind: u8,
    entry: &'a [u8],
    start: Input,
    abort: Input,
    /// Whether it was Dormant before, and whether it is after.
    dormant: [bool; 2],
}

impl<'a> Call<'a> {
    /// The call of the block at an index of the chain.
    fn new(table: &Table, given: &'a Buffers, after: &Buffers, index: usize) -> Call<'a> {
        let dormant = |state: &[u8]| state[RECORD_BYTES * index] == 0;
        Call {
            kind: table.kind(table.chain[index]),
            entry: &given.frame[ENTRY_BYTES * index..][..ENTRY_BYTES],
            start: Input::read(table, given, after, index, 0),
            abort: Input::read(table, given, after, index, 1),
            dormant: [dormant(&given.state), dormant(&after.state)],
        }
    }

    /// Whether it was Dormant with start false.
    fn idle(&self) -> bool {
        self.dormant[0] && !self.start.value
    }

    /// Whether it was Dormant with start true.
    fn starts(&self) -> bool {
        self.dormant[0] && self.start.value
    }

    /// Whether some of these bytes of its entry are set.
    fn has(&self, from: usize, to: usize) -> bool {
        self.entry[from..=to].iter().any(|&byte| byte != 0)
    }

    /// Whether its kind has an abort input.
    fn can_abort(&self) -> bool {
        (5..=8).contains(&self.kind)
    }
}

/// A form of a call, and its name.
type Form = (&'static str, fn(&Call) -> bool);

/// Forms of a call that a quiet gate must meet: those of idle blocks first, then those of blocks that start.
const FORMS: [Form; 24] = [
    ("idle", |call| call.idle()),
    ("idle, start wired", |call| {
        call.idle() && call.start.wired()
    }),
    ("idle, start wired from itself", |call| {
        call.idle() && call.start.from == Some(Ordering::Equal)
    }),
    ("idle, start wire inverted", |call| {
        call.idle() && call.start.inverted
    }),
    ("idle, start wired, its bit true", |call| {
        call.idle() && call.start.wired() && call.start.bit
    }),
    ("idle, wire's flag turned before the call", |call| {
        call.idle() && call.start.turned_at(Ordering::Less)
    }),
    ("idle, wire's flag turns after the call", |call| {
        call.idle() && call.start.turned_at(Ordering::Greater)
    }),
    ("idle, abort bit true", |call| {
        call.idle() && call.can_abort() && !call.abort.wired() && call.abort.value
    }),
    ("idle, abort bit true on another kind", |call| {
        call.idle() && !call.can_abort() && call.abort.bit
    }),
    ("idle, abort wire true", |call| {
        call.idle() && call.abort.wired() && call.abort.value
    }),
    ("idle, abort wire true, not inverted", |call| {
        call.idle() && call.abort.wired() && call.abort.value && !call.abort.inverted
    }),
    ("idle, abort wire inverted", |call| {
        call.idle() && call.abort.inverted
    }),
    ("idle, pieces", |call| call.idle() && call.has(1, 1)),
    ("idle, abort reply error", |call| {
        call.idle() && call.entry[2] == 2 && call.has(4, 5)
    }),
    ("idle, reset reply", |call| call.idle() && call.has(3, 3)),
    ("idle, time limit", |call| call.idle() && call.has(12, 15)),
    ("idle, time-out", |call| call.idle() && call.has(16, 19)),
    ("idle, clock", |call| call.idle() && call.has(20, 23)),
    ("idle, job", |call| call.idle() && call.has(56, 63)),
    ("starts by its bit", |call| {
        call.starts() && !call.start.wired()
    }),
    ("starts by wire, its bit false", |call| {
        call.starts() && call.start.wired() && !call.start.bit
    }),
    ("starts by wire, not inverted", |call| {
        call.starts() && call.start.wired() && !call.start.inverted
    }),
    ("starts, wire's flag turned before the call", |call| {
        call.starts() && call.start.turned_at(Ordering::Less)
    }),
    ("starts, wire's flag turns after the call", |call| {
        call.starts() && call.start.turned_at(Ordering::Greater)
    }),
];

/// Counts over all scans of quiet gates.
#[derive(Default)]
struct Met {
    scans: u64,
    /// Scans in which at least seven of eight blocks were idle.
    quiet: u64,
    /// Scans of 64 blocks in which all were idle, and all but one.
    all_idle: u64,
    all_but_one: u64,
    calls: u64,
    forms: [u64; FORMS.len()],
    /// By the kind of block: idle, started, Dormant again.
    kinds: [[u64; 3]; 15],
}

impl Met {
    /// Counts one scan.
    fn add(&mut self, calls: &[Call]) {
        let idle = calls.iter().filter(|call| call.idle()).count();
        self.scans += 1;
        self.quiet += u64::from(8 * idle >= 7 * calls.len());
        self.all_idle += u64::from((calls.len(), idle) == (64, 64));
        self.all_but_one += u64::from((calls.len(), idle) == (64, 63));
        for call in calls {
            self.calls += 1;
            for (count, (_, has)) in self.forms.iter_mut().zip(FORMS) {
                *count += u64::from(has(call));
            }
            let again = call.dormant == [false, true];
            let of = &mut self.kinds[usize::from(call.kind)];
            for (count, met) in of.iter_mut().zip([call.idle(), call.starts(), again]) {
                *count += u64::from(met);
            }
        }
    }

    /// Fails unless every form was met, blocks of every kind were idle, started and became Dormant again, and nearly all
    /// blocks were idle.
    fn expect_all(&self) {
        for (count, (name, _)) in self.forms.iter().zip(FORMS) {
            assert!(*count > 0, "no call {name}\n{self}");
        }
        for kind in &self.kinds[1..] {
            assert!(kind.iter().all(|&count| count > 0), "{kind:?}\n{self}");
        }
        assert!(self.all_idle > 0 && self.all_but_one > 0, "{self}");
        assert!(2 * self.quiet > self.scans, "not quiet\n{self}");
        assert!(8 * self.forms[0] > 7 * self.calls, "not idle\n{self}");
    }
}

impl fmt::Display for Met {
    fn fmt(&self, f: &mut fmt::Formatter<'_>) -> fmt::Result {
        writeln!(f, "{:>10} scans", self.scans)?;
        writeln!(f, "{:>10} with 7/8 of the blocks idle", self.quiet)?;
        writeln!(f, "{:>10} with 64 blocks, all idle", self.all_idle)?;
        writeln!(f, "{:>10} with 64 blocks, 63 idle", self.all_but_one)?;
        writeln!(f, "{:>10} calls", self.calls)?;
        for (count, (name, _)) in self.forms.iter().zip(FORMS) {
            writeln!(f, "{count:>10} {name}")?;
        }
        writeln!(f, "  kind      idle    starts Dormant again")?;
        for (kind, [idle, starts, again]) in self.kinds.iter().enumerate().skip(1) {
            writeln!(f, "{kind:>6}{idle:>10}{starts:>10}{again:>14}")?;
        }
        Ok(())
    }
}

/// Fails unless each idle block kept its zeros, is reported with one pass and nothing else, and has no event, and each
/// block that starts has a start as its first event; the journal keeps its bytes after the last event.
fn expect_idle(case: u64, calls: &[Call], given: &Buffers, after: &Buffers, events: u32) {
    let written = EVENT_BYTES * events as usize;
    // The kind of the first event of each position, 0 for none.
    let mut first = [0; MAX_BLOCKS + 1];
    for event in after.journal[..written].chunks(EVENT_BYTES).rev() {
        first[usize::from(event[1])] = event[0];
    }
    let (records, _) = after.state.as_chunks();
    let (reports, _) = after.report.as_chunks();
    for (index, call) in calls.iter().enumerate() {
        let event = first[index + 1];
        let right = if call.idle() {
            records[index] == DORMANT && reports[index] == IDLE && event == 0
        } else {
            !call.starts() || event == 1
        };
        let position = index + 1;
        assert!(right, "list {case}, position {position}: {}", line(given));
    }
    assert!(
        after.journal[written..] == given.journal[written..],
        "list {case}: {}",
        line(given)
    );
}

/// Lists of scans in which a block starts now and then.
#[test]
fn quiet_gates() {
    let (seed, lists) = settings("lists of scans at quiet gates", 212, 20_000);
    let mut met = Met::default();
    for case in 0..lists {
        let mut rng = Rng::for_case(seed, case);
        let mut gate = Gate::new(&mut rng);
        let mut state = gate.first_state(&mut rng);
        for _ in 0..rng.range(1, 16) {
            let given = gate.scan(&mut rng, &state);
            let result = scan(&given).unwrap_or_else(|message| panic!("list {case}: {message}"));
            let (Ok(events), after) = result else {
                panic!("list {case}: {}: {}", answer(result.0), line(&given));
            };
            let blocks = 0..gate.table.chain.len();
            let calls: Vec<Call> = blocks
                .map(|index| Call::new(&gate.table, &given, &after, index))
                .collect();
            expect_idle(case, &calls, &given, &after, events);
            met.add(&calls);
            state = after.state;
        }
    }
    print!("{met}");
    met.expect_all();
}

/// Whether a code goes with a reply: 2 to 65,535 with an error, else 0.
fn is_reply(reply: u8, code: [u8; 2]) -> bool {
    match reply {
        0 | 1 => code == [0, 0],
        2 => u16::from_le_bytes(code) >= 2,
        _ => false,
    }
}

/// Whether a piece of an entry is in form: one of those counted, or past them.
fn is_piece(piece: &[u8; 8], counted: bool) -> bool {
    let [reply, zero, low, high, ..] = *piece;
    match counted {
        true => zero == 0 && is_reply(reply, [low, high]),
        false => *piece == [0; 8],
    }
}

/// Whether an entry is in form.
fn is_formed(entry: &[u8; ENTRY_BYTES]) -> bool {
    let [inputs, count, abort, reset, low, high, ..] = *entry;
    let (pieces, _) = entry[24..56].as_chunks();
    let mut pieces = (0..).zip(pieces);
    inputs < 4
        && count <= 4
        && is_reply(abort, [low, high])
        && reset < 2
        && entry[6..12] == [0; 6]
        && pieces.all(|(index, piece)| is_piece(piece, index < count))
}

/// What a scan of one block writes.
#[derive(Clone, Copy, PartialEq, Eq)]
struct Lent {
    state: [u8; RECORD_BYTES],
    report: [u8; REPORT_BYTES],
    journal: [u8; EVENTS_BYTES],
}

impl Lent {
    /// All that the scan is given.
    fn with(&self, image: &[u8], entry: &[u8; ENTRY_BYTES]) -> Buffers {
        Buffers {
            image: image.to_vec(),
            state: self.state.to_vec(),
            frame: entry.to_vec(),
            report: self.report.to_vec(),
            journal: self.journal.to_vec(),
        }
    }
}

/// Scans of one Dormant block, of each kind from 1 to 14.
struct OneBlock {
    images: Vec<Vec<u8>>,
    rng: Rng,
    tally: Tally,
}

impl OneBlock {
    fn new(seed: u64) -> OneBlock {
        let tag: Tag = "LANE0".parse().expect("a tag");
        let kinds = Kind::ALL.iter().filter(|kind| kind.number() <= 14);
        OneBlock {
            images: kinds.map(|&kind| image(&[Block::new(kind, tag)])).collect(),
            rng: Rng::new(seed),
            tally: Tally::default(),
        }
    }

    /// Scans with this entry, of each kind: refused if it is out of form.
    fn check(&mut self, entry: &[u8; ENTRY_BYTES]) {
        for image in &self.images {
            let mut given = Lent {
                state: DORMANT,
                report: [0; REPORT_BYTES],
                journal: [0; EVENTS_BYTES],
            };
            noise(&mut self.rng, &mut given.report);
            noise(&mut self.rng, &mut given.journal);
            let (found, after) = both(image, entry, &given);
            let right = match is_formed(entry) {
                true => is_work(entry, found, &given, &after),
                false => found == Err(Refusal::new(31, 1)) && after == given,
            };
            assert!(
                right,
                "both answer {}: {}",
                answer(found),
                line(&given.with(image, entry))
            );
            self.tally.add(found);
        }
    }

    /// Fails unless so many entries were accepted and so many refused, on each kind.
    fn expect(&self, accepted: u64, refused: u64) {
        print!("{}", self.tally);
        let kinds = self.images.len() as u64;
        let found = [self.tally.accepted(), self.tally.refused(31)];
        assert_eq!(found, [accepted * kinds, refused * kinds]);
    }
}

/// A scan of one Dormant block by each implementation: its answer, and what both left.
fn both(image: &[u8], entry: &[u8; ENTRY_BYTES], given: &Lent) -> (Answer, Lent) {
    let (mut engine, mut other) = (*given, *given);
    let (state, report) = (&mut engine.state, &mut engine.report);
    let found = ffi::scan(image, state, entry, report, &mut engine.journal);
    let (state, report) = (&mut other.state, &mut other.report);
    let expected = from_reference(rules::scan(image, state, entry, report, &mut other.journal));
    if found != expected || engine != other {
        let message = scan(&given.with(image, entry)).expect_err("the same difference");
        panic!("{message}");
    }
    (found, engine)
}

/// Whether an accepted scan can answer and leave this: with start false that of an idle block, else a start event first
/// and a block that is Dormant no more.
fn is_work(entry: &[u8; ENTRY_BYTES], found: Answer, given: &Lent, after: &Lent) -> bool {
    if entry[0] & 1 == 0 {
        let idle = Lent {
            state: DORMANT,
            report: IDLE,
            ..*given
        };
        return found == Ok(0) && *after == idle;
    }
    matches!(found, Ok(1 | 2)) && after.journal[..2] == [1, 1] && after.state[0] != 0
}

/// An entry with these bytes at its front, and zeros after them.
fn headed(front: [u8; 6]) -> [u8; ENTRY_BYTES] {
    let mut entry = [0; ENTRY_BYTES];
    entry[..6].copy_from_slice(&front);
    entry
}

/// The bytes before the unnamed ones: inputs, piece count, replies and abort code.
fn fronts() -> impl Iterator<Item = [u8; 6]> {
    const INPUTS: [u8; 8] = [0, 1, 2, 3, 4, 5, 128, 255];
    const COUNTS: [u8; 7] = [0, 1, 2, 3, 4, 5, 255];
    const ABORTS: [u8; 5] = [0, 1, 2, 3, 255];
    const RESETS: [u8; 4] = [0, 1, 2, 255];
    const CODES: [u16; 7] = [0, 1, 2, 3, 255, 256, 65_535];
    let inputs = INPUTS.into_iter();
    let fronts = inputs.flat_map(|inputs| COUNTS.map(|count| [inputs, count]));
    let replies = ABORTS.into_iter();
    let replies = replies.flat_map(|abort| RESETS.map(|reset| [abort, reset]));
    fronts.flat_map(move |[inputs, count]| {
        replies.clone().flat_map(move |[abort, reset]| {
            let codes = CODES.map(u16::to_le_bytes);
            codes.map(|[low, high]| [inputs, count, abort, reset, low, high])
        })
    })
}

/// Heads of an entry, each field at and beside its bounds, with no unnamed byte set and with each one alone.
#[test]
fn heads_beside_their_bounds() {
    let mut scans = OneBlock::new(213);
    for front in fronts() {
        let entry = headed(front);
        scans.check(&entry);
        for place in 6..12 {
            for value in [1, 255] {
                let mut entry = entry;
                entry[place] = value;
                scans.check(&entry);
            }
        }
    }
    // In form are 4 inputs, 5 counts, 2 reset replies, and of the abort reply and code 1 + 1 + 5 pairs.
    let (all, formed) = (8 * 7 * 5 * 4 * 7 * 13, 4 * 5 * 2 * 7);
    println!("{all} heads on each kind, {formed} of them in form");
    scans.expect(formed, all - formed);
}

/// An entry with so many pieces: this one at an index, others at the others.
fn with_pieces(
    start: u8,
    count: u8,
    index: usize,
    own: [u8; 8],
    other: [u8; 8],
) -> [u8; ENTRY_BYTES] {
    let mut entry = headed([start, count, 0, 0, 0, 0]);
    let (pieces, _) = entry[24..56].as_chunks_mut();
    for piece in pieces.iter_mut().take(usize::from(count)) {
        *piece = other;
    }
    if index < usize::from(count) {
        pieces[index] = own;
    }
    entry
}

/// Pieces in form: of zeros, and errors with code 2, 256 and 65,535.
const ZERO: [u8; 8] = [0; 8];
const CODE_2: [u8; 8] = [2, 0, 2, 0, 0, 0, 0, 0];
const CODE_256: [u8; 8] = [2, 0, 0, 1, 0, 0, 0, 0];
const CODE_65_535: [u8; 8] = [2, 0, 255, 255, 0, 0, 0, 0];

/// The entries with so many pieces, all in form, in which a byte of one piece is to be set. A counted one is of zeros or
/// an error, and so are the other counted ones.
fn with_piece(start: u8, count: u8, index: usize) -> Vec<[u8; ENTRY_BYTES]> {
    let mut entries = Vec::new();
    for own in [ZERO, CODE_2, CODE_256] {
        for other in [ZERO, CODE_2, CODE_65_535] {
            let entry = with_pieces(start, count, index, own, other);
            if !entries.contains(&entry) {
                entries.push(entry);
            }
        }
    }
    entries
}

/// Every byte of every piece of an entry, with each count of pieces.
#[test]
fn each_byte_of_each_piece() {
    let mut scans = OneBlock::new(214);
    for (start, count) in [0, 1]
        .into_iter()
        .flat_map(|on| (0..=4).map(move |n| (on, n)))
    {
        for place in 24..56 {
            for entry in with_piece(start, count, (place - 24) / 8) {
                for value in [1, 2, 3, 255] {
                    let mut entry = entry;
                    entry[place] = value;
                    scans.check(&entry);
                }
            }
        }
    }
    // A counted piece alone, and 2 + 3 + 4 with three forms of the others; 4 pieces past none, and 3 + 2 + 1 likewise.
    let (counted, past) = (1 + 3 * (2 + 3 + 4), 4 + 3 * (3 + 2 + 1));
    // Of 32 settings of a piece of zeros 1 + 16 are in form, with code 2 1 + 3 + 4 + 16, with code 256 1 + 4 + 4 + 16.
    let (all, formed) = (32 * (3 * counted + past), counted * (17 + 24 + 25));
    println!("{all} entries on each kind, with start false and again with start true, {formed} of them in form");
    scans.expect(2 * formed, 2 * (all - formed));
}
