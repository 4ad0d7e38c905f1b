//! Tables by how their blocks lie in the slots and where their wires come from, and lengths of images lent to write them
//! tidy. Each form is counted.

use crate::blocks::{Blocks, Input};
use crate::forms::Forms;
use crate::tables::Table;
use lane::{HEADER_BYTES, MAX_BLOCKS, SLOT_BYTES};
use std::cmp::Ordering;
use std::{fmt, iter};

/// A wire from a block.
#[derive(Clone, Copy, Debug)]
struct Wired {
    input: Input,
    /// The kind of the block that has it.
    kind: u8,
    /// Where the block that it comes from stands: earlier in the chain, the same or later.
    from: Ordering,
    code: u8,
    /// Whether tidying gives that block another slot.
    moved: bool,
}

impl Wired {
    /// The wires of a table.
    fn of(table: &Table) -> Vec<Wired> {
        let mut wires = Vec::new();
        for (position, block) in (1..).zip(Blocks::of(table).0) {
            for (input, wire) in Input::ALL.into_iter().zip(block.wires) {
                if wire.from > 0 {
                    wires.push(Wired {
                        input,
                        kind: block.kind,
                        from: wire.from.cmp(&position),
                        code: wire.code,
                        moved: table.chain[usize::from(wire.from) - 1] != wire.from,
                    });
                }
            }
        }
        wires
    }
}

/// Whether the slots of the blocks rise along the chain.
fn in_slot_order(table: &Table) -> bool {
    table.chain.is_sorted()
}

/// Whether so many blocks lie in so many slots.
fn is_of(table: &Table, blocks: usize, slots: usize) -> bool {
    (table.chain.len(), usize::from(table.slots())) == (blocks, slots)
}

/// Whether a table has spare slots.
fn has_spares(table: &Table) -> bool {
    table.chain.len() < usize::from(table.slots())
}

/// Tables by the slots of their blocks.
fn slots() -> Forms<Table> {
    Forms::new()
        .with("tidy already", |table: &Table| {
            table.image == Blocks::of(table).tidy().image
        })
        .with("with spare slots", has_spares)
        .with("with spare slots, in slot order", |table| {
            has_spares(table) && in_slot_order(table) && !table.chain.is_empty()
        })
        .with("with a spare slot between two blocks", |table| {
            let (least, greatest) = (table.chain.iter().min(), table.chain.iter().max());
            let span = greatest.zip(least).map_or(0, |(to, from)| to - from + 1);
            usize::from(span) > table.chain.len()
        })
        .with("out of slot order", |table| !in_slot_order(table))
        .with("out of slot order, with spare slots", |table| {
            !in_slot_order(table) && has_spares(table)
        })
        .with("backwards", |table| {
            table.chain.len() > 1 && table.chain.iter().rev().is_sorted()
        })
        .with("with the head in another slot than 1", |table| {
            table.chain.first().is_some_and(|&head| head != 1)
        })
}

/// Tables by how many blocks and slots they have.
fn sizes() -> Forms<Table> {
    Forms::new()
        .with("of no blocks in one slot", |table: &Table| {
            is_of(table, 0, 1)
        })
        .with("of no blocks in several slots", |table| {
            table.chain.is_empty() && table.slots() > 1
        })
        .with("of no blocks in 64 slots", |table| {
            is_of(table, 0, MAX_BLOCKS)
        })
        .with("of one block", |table| table.chain.len() == 1)
        .with("of one block in 64 slots", |table| {
            is_of(table, 1, MAX_BLOCKS)
        })
        .with("of 64 blocks", |table| table.chain.len() == MAX_BLOCKS)
        .with("of 64 blocks, out of slot order", |table| {
            table.chain.len() == MAX_BLOCKS && !in_slot_order(table)
        })
}

/// Tables by their wires.
fn wires() -> Forms<Wired> {
    let mut forms = Forms::new();
    for input in Input::ALL {
        for (from, block) in [
            (Ordering::Less, "an earlier block"),
            (Ordering::Equal, "the own block"),
            (Ordering::Greater, "a later block"),
        ] {
            for (inverted, how) in [(0, ""), (0x80, ", inverted")] {
                let name = format!("{input:?} wired from {block}{how}");
                forms = forms.with(name, move |wire: &Wired| {
                    (wire.input, wire.from, wire.code & 0x80) == (input, from, inverted)
                });
            }
        }
        for flag in 0..4 {
            let name = format!("{input:?} wired from flag {flag}");
            forms = forms.with(name, move |wire| {
                (wire.input, wire.code & 3) == (input, flag)
            });
        }
        forms = forms.with(format!("{input:?} wire renumbered"), move |wire| {
            wire.input == input && wire.moved
        });
    }
    (5..=8).fold(forms, |forms, kind| {
        let name = format!("Abort wire of kind {kind} renumbered");
        forms.with(name, move |wire| {
            (wire.input, wire.kind, wire.moved) == (Input::Abort, kind, true)
        })
    })
}

/// Counts over tables.
pub struct Arrangements {
    slots: Forms<Table>,
    sizes: Forms<Table>,
    wires: Forms<Wired>,
}

impl Default for Arrangements {
    fn default() -> Arrangements {
        Arrangements {
            slots: slots(),
            sizes: sizes(),
            wires: wires(),
        }
    }
}

impl Arrangements {
    /// Counts a table.
    pub fn add(&mut self, table: &Table) {
        self.slots.add(iter::once(table.clone()));
        self.sizes.add(iter::once(table.clone()));
        self.wires.add(Wired::of(table).into_iter());
    }

    /// Fails unless each form was met more than once in so many tables.
    pub fn expect(&self, times: u64) {
        self.slots.expect(times);
        self.sizes.expect(times);
        self.wires.expect(times);
    }
}

impl fmt::Display for Arrangements {
    fn fmt(&self, f: &mut fmt::Formatter<'_>) -> fmt::Result {
        write!(f, "tables\n{}{}{}", self.slots, self.sizes, self.wires)
    }
}

/// A table, and the length of an image lent to write it tidy.
#[derive(Clone, Copy, Debug)]
pub struct Lent {
    blocks: usize,
    /// The length of the table's image, and of its tidy one.
    image: usize,
    tidy: usize,
    length: usize,
}

impl Lent {
    pub fn new(table: &Table, length: usize) -> Lent {
        Lent {
            blocks: table.chain.len(),
            image: table.image.len(),
            tidy: table.tidy_length(),
            length,
        }
    }
}

impl Forms<Lent> {
    /// Lengths that are refused.
    pub fn lent() -> Forms<Lent> {
        Forms::new()
            .with("empty", |lent: &Lent| lent.length == 0)
            .with("one byte short", |lent| lent.length + 1 == lent.tidy)
            .with("one byte long", |lent| lent.length == lent.tidy + 1)
            .with("one slot short", |lent| {
                lent.length + SLOT_BYTES == lent.tidy
            })
            .with("one slot long", |lent| {
                lent.length == lent.tidy + SLOT_BYTES
            })
            .with("as long as a table with several spare slots", |lent| {
                lent.length == lent.image && lent.image > lent.tidy + SLOT_BYTES
            })
            .with("a header for no blocks", |lent| {
                (lent.blocks, lent.length) == (0, HEADER_BYTES)
            })
            .with("a header for several blocks", |lent| {
                lent.blocks > 1 && lent.length == HEADER_BYTES
            })
    }
}
