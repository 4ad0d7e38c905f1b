//! Lists of scans that write a given journal, by the rules of one call: each event in one scan or two of its own, in which
//! no other block writes one. The table has no wires.

use crate::records::{word, Has, HALF};
use crate::rng::Rng;
use crate::tables::Table;
use lane::{Entry, Piece, Pieces, Reply};
use reference::machine::Event;

/// How a block stands between two scans.
#[derive(Clone, Copy, Debug, PartialEq, Eq)]
enum Stand {
    Dormant,
    /// Executing: its job is open.
    Open,
    /// A finish is shown, and no reset requested.
    Shown,
    /// A finish is shown with a reset request, or the block is Resetting.
    Leaving,
}

/// A block of the list.
#[derive(Clone, Copy, Debug)]
struct Block {
    has: Has,
    stand: Stand,
    /// The clock of its start and of each call until it ends, so that no time goes by.
    clock: u32,
    /// The time-out in force.
    time_out: u32,
}

impl Block {
    fn new(kind: u8) -> Block {
        Block {
            has: Has::of(kind),
            stand: Stand::Dormant,
            clock: 0,
            time_out: 0,
        }
    }

    /// An entry at its clock, without a piece. Abort is false where the kind has it; else it is ignored.
    fn entry(&self, rng: &mut Rng, start: bool) -> Entry {
        Entry {
            start,
            abort: !self.has.abort && rng.one_in(2),
            job: rng.next(),
            time_limit: word(rng),
            time_out: self.time_out,
            clock: self.clock,
            ..Entry::default()
        }
    }

    /// The only piece, over at its clock.
    fn piece(&self, reply: Reply) -> Pieces {
        [Piece::new(reply, self.clock)].into()
    }

    /// No piece, or one that is still working.
    fn working(&self, rng: &mut Rng) -> Pieces {
        match rng.one_in(2) {
            true => Pieces::default(),
            false => self.piece(Reply::Working),
        }
    }

    /// An entry that takes it from a finish to Dormant, or leaves it there: "start false ...: to Resetting", "Complete:
    /// record all zero".
    fn rest(&mut self, rng: &mut Rng) -> Entry {
        self.stand = Stand::Dormant;
        Entry {
            reset_complete: true,
            ..self.entry(rng, false)
        }
    }

    /// An entry with which it writes no event.
    fn quiet(&mut self, rng: &mut Rng) -> Entry {
        match self.stand {
            // A level block stays in Executing with start true, an edge block with either.
            Stand::Open => {
                let start = self.has.level || rng.one_in(2);
                Entry {
                    pieces: self.working(rng),
                    ..self.entry(rng, start)
                }
            }
            // "Own flag already set, and start false or reset request 1 ... Otherwise" it stays.
            Stand::Shown if rng.one_in(2) => self.entry(rng, true),
            // "Working: stop."
            Stand::Shown | Stand::Leaving if rng.one_in(2) => {
                self.stand = Stand::Leaving;
                self.entry(rng, false)
            }
            _ => self.rest(rng),
        }
    }

    /// The entry of a start with this job; before it, where a finish is still shown, one that ends this.
    fn start(&mut self, rng: &mut Rng, job: u64) -> Vec<Entry> {
        let mut entries = Vec::new();
        if self.stand != Stand::Dormant {
            entries.push(self.rest(rng));
        }
        self.stand = Stand::Open;
        self.clock = word(rng);
        self.time_out = rng.pick(&[1, 100, HALF - 2]);
        entries.push(Entry {
            job,
            pieces: self.working(rng),
            ..self.entry(rng, true)
        });
        entries
    }

    /// The entry of a finish in Executing, with this reply of a piece. An edge block may be called with start false,
    /// which requests the reset; "level Done leaves it 0".
    fn reply(&mut self, rng: &mut Rng, reply: Reply) -> Entry {
        let start = self.has.level || rng.one_in(2);
        self.stand = if start { Stand::Shown } else { Stand::Leaving };
        Entry {
            pieces: self.piece(reply),
            ..self.entry(rng, start)
        }
    }

    /// The entry of a finish by time-out: "elapsed greater than the time-out", whether the piece is working, complete or
    /// none.
    fn time_out(&mut self, rng: &mut Rng) -> Entry {
        self.stand = Stand::Shown;
        let late = self.clock.wrapping_add(self.time_out + 1);
        let (clock, pieces) = match rng.below(3) {
            0 => (late, Pieces::default()),
            1 => (late, [Piece::new(Reply::Working, late)].into()),
            _ => (self.clock, [Piece::new(Reply::Complete, late)].into()),
        };
        Entry {
            clock,
            pieces,
            ..self.entry(rng, true)
        }
    }

    /// The entries of a finish by way of Aborting, "Edge with abort true, or level with start false", with this reply:
    /// at times it comes in a second scan.
    fn abort(&mut self, rng: &mut Rng, reply: Reply) -> Vec<Entry> {
        self.stand = Stand::Leaving;
        let off = Entry {
            abort: true,
            abort_reply: reply,
            ..self.entry(rng, false)
        };
        match rng.one_in(2) {
            true => vec![off],
            false => {
                let working = Entry {
                    abort_reply: Reply::Working,
                    ..off
                };
                vec![working, off]
            }
        }
    }

    /// The entries of calls that write this event, and no other.
    fn entries(&mut self, rng: &mut Rng, event: &Event) -> Vec<Entry> {
        let can_abort = self.has.abort || self.has.level;
        match (event.kind, event.code) {
            (Event::START, _) => self.start(rng, event.job),
            (Event::DONE, _) => vec![self.reply(rng, Reply::Complete)],
            (Event::FAILED, 1) => vec![self.time_out(rng)],
            (Event::FAILED, code) if can_abort && rng.one_in(2) => {
                self.abort(rng, Reply::Error(code))
            }
            (Event::FAILED, code) => vec![self.reply(rng, Reply::Error(code))],
            _ => self.abort(rng, Reply::Complete),
        }
    }
}

/// The frames of a list of scans from a fresh state of this table that writes these events, in this order.
pub fn frames(rng: &mut Rng, table: &Table, events: &[Event]) -> Vec<Vec<u8>> {
    let mut blocks: Vec<Block> = table.kinds().into_iter().map(Block::new).collect();
    let mut frames = Vec::new();
    for event in events {
        let called = usize::from(event.position) - 1;
        for entry in blocks[called].entries(rng, event) {
            let entries = blocks.iter_mut().enumerate();
            let entries = entries.map(|(index, block)| match index == called {
                true => entry,
                false => block.quiet(rng),
            });
            frames.push(entries.flat_map(|entry| entry.encode()).collect());
        }
    }
    frames
}
