//! Blocks by their positions, whatever slots they lie in: put into other slots, or changed in one way.

use crate::rng::Rng;
use crate::tables::{alike, has_abort, wire_code, Table};
use crate::tables::{ABORT, HEADER, KIND, NEXT, SLOT, START, TAG};
use lane::MAX_BLOCKS;

/// An input of a block that may be wired.
#[derive(Clone, Copy, Debug, PartialEq, Eq)]
pub enum Input {
    Start,
    Abort,
}

impl Input {
    /// Both, in the order of their wires.
    pub const ALL: [Input; 2] = [Input::Start, Input::Abort];

    /// Where its wire lies in a slot.
    const fn place(self) -> usize {
        match self {
            Input::Start => START,
            Input::Abort => ABORT,
        }
    }
}

/// A wire: the position that it comes from, 0 for the frame, and its code.
#[derive(Clone, Copy, Debug, PartialEq, Eq)]
pub struct Wire {
    pub from: u8,
    pub code: u8,
}

impl Wire {
    /// No wire.
    pub const NONE: Wire = Wire { from: 0, code: 0 };
}

/// A block without its slot.
#[derive(Clone, Copy, Debug, PartialEq, Eq)]
pub struct Block {
    pub kind: u8,
    pub tag: [u8; 8],
    /// By the input.
    pub wires: [Wire; 2],
}

impl Block {
    /// The wire of an input.
    fn wire(&mut self, input: Input) -> &mut Wire {
        &mut self.wires[input as usize]
    }

    /// Whether its kind has this input.
    fn has(&self, input: Input) -> bool {
        input == Input::Start || has_abort(self.kind)
    }
}

/// The blocks of a table, in chain order.
#[derive(Clone, Debug, PartialEq, Eq)]
pub struct Blocks(pub Vec<Block>);

impl Blocks {
    /// Those of a valid table.
    pub fn of(table: &Table) -> Blocks {
        // A wire from no slot of the chain is from slot 0, the frame.
        let position = |slot: u8| table.chain.iter().position(|&other| other == slot);
        let blocks = table.chain.iter().map(|&slot| {
            let bytes = table.bytes(slot);
            Block {
                kind: bytes[KIND],
                tag: table.tag(slot),
                wires: Input::ALL.map(|input| Wire {
                    from: position(bytes[input.place()]).map_or(0, |index| index as u8 + 1),
                    code: bytes[input.place() + 1],
                }),
            }
        });
        Blocks(blocks.collect())
    }

    /// The table of so many slots with the blocks in those of this chain.
    pub fn in_slots(&self, slots: usize, chain: Vec<u8>) -> Table {
        let next = |index: usize| chain.get(index).copied().unwrap_or(0);
        let mut image = vec![0; HEADER + SLOT * slots];
        let (header, body) = image.split_at_mut(HEADER);
        header.copy_from_slice(&[1, slots as u8, next(0), 0]);
        for (index, block) in self.0.iter().enumerate() {
            let slot = &mut body[SLOT * (usize::from(chain[index]) - 1)..][..SLOT];
            slot[KIND] = block.kind;
            slot[NEXT] = next(index + 1);
            for (input, wire) in Input::ALL.into_iter().zip(block.wires) {
                let from = usize::from(wire.from);
                slot[input.place()] = from.checked_sub(1).map_or(0, |index| chain[index]);
                slot[input.place() + 1] = wire.code;
            }
            slot[TAG..].copy_from_slice(&block.tag);
        }
        Table { image, chain }
    }

    /// The tidy table: the blocks in slots 1, 2, 3 and on, without spares; of no blocks, one zero slot.
    pub fn tidy(&self) -> Table {
        let blocks = self.0.len();
        self.in_slots(blocks.max(1), (1..=blocks as u8).collect())
    }

    /// The blocks without their wires.
    pub fn unwired(&self) -> Blocks {
        let unwired = |block: &Block| Block {
            wires: [Wire::NONE; 2],
            ..*block
        };
        Blocks(self.0.iter().map(unwired).collect())
    }

    /// A table with the blocks in any slots: in slot order, backwards or jumping about, with few spares or many.
    pub fn arranged(&self, rng: &mut Rng) -> Table {
        let blocks = self.0.len();
        let (least, most) = (blocks.max(1), MAX_BLOCKS);
        let slots = match rng.below(4) {
            0 => least,
            1 => rng.range(least, most.min(blocks + 4)),
            2 => rng.range(least, most),
            _ => most,
        };
        let mut chain: Vec<u8> = (1..=slots as u8).collect();
        rng.shuffle(&mut chain);
        chain.truncate(blocks);
        match rng.below(4) {
            0 => chain.sort(),
            1 => chain.sort_by(|one, other| other.cmp(one)),
            _ => {}
        }
        self.in_slots(slots, chain)
    }

    /// The blocks with one change, `None` where they have nothing to change.
    pub fn changed(&self, rng: &mut Rng, change: Change) -> Option<Blocks> {
        let mut other = self.clone();
        match change {
            Change::Kind => other.change_kind(rng)?,
            Change::Tag => other.change_tag(rng)?,
            Change::Source(input) => other.change_source(rng, input)?,
            Change::Wire(input) => other.change_wire(rng, input)?,
            Change::Flag(input) => other.any_wire(rng, input)?.code ^= rng.byte(1, 3),
            Change::Inversion(input) => other.any_wire(rng, input)?.code ^= 0x80,
            Change::Order => other.change_order(rng)?,
            Change::Count => other.drop_last()?,
        }
        Some(other)
    }

    /// One of the blocks that are so.
    fn any(&mut self, rng: &mut Rng, so: impl Fn(&Block) -> bool) -> Option<&mut Block> {
        let mut blocks: Vec<&mut Block> = self.0.iter_mut().filter(|block| so(block)).collect();
        match blocks.len() {
            0 => None,
            count => Some(blocks.swap_remove(rng.below(count))),
        }
    }

    /// A wire of this input.
    fn any_wire(&mut self, rng: &mut Rng, input: Input) -> Option<&mut Wire> {
        let block = self.any(rng, |block| block.wires[input as usize] != Wire::NONE)?;
        Some(block.wire(input))
    }

    /// Gives a block another kind, one with an abort input if that is wired.
    fn change_kind(&mut self, rng: &mut Rng) -> Option<()> {
        let block = self.any(rng, |_| true)?;
        let wired = *block.wire(Input::Abort) != Wire::NONE;
        let mut kinds: Vec<u8> = (1..=14).collect();
        kinds.retain(|&kind| kind != block.kind && (has_abort(kind) || !wired));
        block.kind = rng.pick(&kinds);
        Some(())
    }

    /// Gives a block a tag that is like its own and that none has.
    fn change_tag(&mut self, rng: &mut Rng) -> Option<()> {
        let tags: Vec<[u8; 8]> = self.0.iter().map(|block| block.tag).collect();
        let block = self.any(rng, |_| true)?;
        while tags.contains(&block.tag) {
            block.tag = alike(rng, block.tag);
        }
        Some(())
    }

    /// Makes a wire come from another block.
    fn change_source(&mut self, rng: &mut Rng, input: Input) -> Option<()> {
        let mut others: Vec<u8> = (1..=self.0.len() as u8).collect();
        let wire = self.any_wire(rng, input)?;
        others.retain(|&position| position != wire.from);
        if others.is_empty() {
            return None;
        }
        wire.from = rng.pick(&others);
        Some(())
    }

    /// Takes a wire away, or gives an input one.
    fn change_wire(&mut self, rng: &mut Rng, input: Input) -> Option<()> {
        let from = rng.range(1, self.0.len().max(1)) as u8;
        let code = wire_code(rng);
        let wire = self.any(rng, |block| block.has(input))?.wire(input);
        *wire = match *wire {
            Wire::NONE => Wire { from, code },
            _ => Wire::NONE,
        };
        Some(())
    }

    /// Lets two blocks change places; the wires go with them.
    fn change_order(&mut self, rng: &mut Rng) -> Option<()> {
        let last = self.0.len().checked_sub(2)? + 1;
        let one = rng.range(1, last);
        let other = rng.below(one);
        self.0.swap(one, other);
        let [one, other] = [one, other].map(|index| index as u8 + 1);
        for wire in self.0.iter_mut().flat_map(|block| &mut block.wires) {
            wire.from = match wire.from {
                from if from == one => other,
                from if from == other => one,
                from => from,
            };
        }
        Some(())
    }

    /// Drops the last block, and the wires from it.
    fn drop_last(&mut self) -> Option<()> {
        let last = self.0.len() as u8;
        self.0.pop()?;
        let wires = self.0.iter_mut().flat_map(|block| &mut block.wires);
        for wire in wires.filter(|wire| wire.from == last) {
            *wire = Wire::NONE;
        }
        Some(())
    }
}

/// A change of blocks that leaves them valid.
#[derive(Clone, Copy, Debug, PartialEq, Eq)]
pub enum Change {
    Kind,
    Tag,
    /// The block that a wire comes from.
    Source(Input),
    /// A wire more or fewer.
    Wire(Input),
    Flag(Input),
    Inversion(Input),
    /// Two blocks change places.
    Order,
    /// A block fewer.
    Count,
}

impl Change {
    /// All of them.
    pub const ALL: [Change; 12] = [
        Change::Kind,
        Change::Tag,
        Change::Source(Input::Start),
        Change::Source(Input::Abort),
        Change::Wire(Input::Start),
        Change::Wire(Input::Abort),
        Change::Flag(Input::Start),
        Change::Flag(Input::Abort),
        Change::Inversion(Input::Start),
        Change::Inversion(Input::Abort),
        Change::Order,
        Change::Count,
    ];
}
