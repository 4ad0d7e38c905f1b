//! Table images: valid ones of every shape, and damage to each field with the refusal it must give.

use crate::rng::Rng;
use lane::Refusal;

/// Bytes before the first slot, and of a slot.
pub(crate) const HEADER: usize = 4;
pub(crate) const SLOT: usize = 16;

/// Places of a slot's fields.
pub(crate) const KIND: usize = 0;
pub(crate) const NEXT: usize = 1;
pub(crate) const START: usize = 2;
pub(crate) const ABORT: usize = 4;
const ZERO: usize = 6;
pub(crate) const TAG: usize = 8;

/// A valid table and the chain it was made with.
#[derive(Clone, Debug)]
pub struct Table {
    /// The image.
    pub image: Vec<u8>,
    /// The slots of its blocks, in chain order.
    pub chain: Vec<u8>,
}

/// How many slots and blocks a table gets.
#[derive(Clone, Copy, Debug)]
pub struct Size {
    pub slots: usize,
    pub blocks: usize,
}

impl Size {
    /// Any size: small, large and full tables, with and without spare slots, sometimes no block.
    pub fn any(rng: &mut Rng) -> Size {
        let slots = match rng.below(8) {
            0..=3 => rng.range(1, 8),
            4..=6 => rng.range(1, 64),
            _ => 64,
        };
        let blocks = match rng.below(16) {
            0 => 0,
            1..=7 => rng.range(1, slots),
            _ => slots,
        };
        Size { slots, blocks }
    }
}

/// The kinds with an abort input.
pub(crate) fn has_abort(kind: u8) -> bool {
    (5..=8).contains(&kind)
}

/// Characters that are easily taken for one another.
const ALIKE: &[u8] = b"0O1I2Z5S8B";

/// The characters that a tag may begin with; after the first it may have underscores, too.
const LETTERS: &[u8] = b"ABCDEFGHIJKLMNOPQRSTUVWXYZ0123456789";

/// Where the characters of a tag end.
fn end(tag: &[u8; 8]) -> usize {
    tag.iter().position(|&byte| byte == b' ').unwrap_or(8)
}

/// A tag in form: often one of many that look alike, such as LANE0, LANEO and LANE_0, or IN, IN_, IN_1, IN1 and IN__1.
pub fn tag(rng: &mut Rng) -> [u8; 8] {
    let (stem, characters): (&[u8], &[u8]) = match rng.below(6) {
        0 | 1 => (b"LANE", ALIKE),
        2 => (b"IN", b"_12"),
        3 => (b"", ALIKE),
        _ => (b"", LETTERS),
    };
    let mut tag = [b' '; 8];
    tag[..stem.len()].copy_from_slice(stem);
    let end = rng.range(stem.len().max(1), 8);
    for place in &mut tag[stem.len()..end] {
        *place = rng.pick(characters);
    }
    if end > 1 && rng.one_in(3) {
        underscore(rng, &mut tag[1..end]);
    }
    tag
}

/// Puts underscores in the place of some characters: of one, of some in a row, of all from one on or of all.
fn underscore(rng: &mut Rng, characters: &mut [u8]) {
    let last = characters.len() - 1;
    let at = rng.below(characters.len());
    let (from, to) = match rng.below(4) {
        0 => (at, at),
        1 => (at, rng.range(at, last)),
        2 => (at, last),
        _ => (0, last),
    };
    characters[from..=to].fill(b'_');
}

/// A tag that is easily taken for this one, and at times is this one: a character exchanged for its look-alike or for an
/// underscore, an underscore for a character, or a character or an underscore more or fewer.
pub fn alike(rng: &mut Rng, tag: [u8; 8]) -> [u8; 8] {
    let mut other = tag;
    let end = end(&tag);
    let at = rng.below(end);
    match rng.below(8) {
        0 if end < 8 => other[end] = rng.pick(ALIKE),
        1 if end > 1 => other[end - 1] = b' ',
        2 | 3 if end < 8 => {
            other.copy_within(at + 1..7, at + 2);
            other[at + 1] = b'_';
        }
        4 if tag[at] == b'_' => {
            other.copy_within(at + 1.., at);
            other[7] = b' ';
        }
        4 | 5 if at > 0 => match tag[at] {
            b'_' => other[at] = rng.pick(ALIKE),
            _ => other[at] = b'_',
        },
        _ => match ALIKE.iter().position(|&byte| byte == tag[at]) {
            Some(which) => other[at] = ALIKE[which ^ 1],
            None => other[at] = rng.pick(LETTERS),
        },
    }
    other
}

/// Eight bytes that are no tag.
pub fn no_tag(rng: &mut Rng) -> [u8; 8] {
    let mut bytes = tag(rng);
    let end = end(&bytes);
    match rng.below(12) {
        0 => bytes = [b' '; 8],
        1 => bytes = [0; 8],
        // A space before another character.
        2 => {
            let place = rng.below(7);
            bytes[place] = b' ';
            bytes[place + 1] = rng.pick(LETTERS);
        }
        // Zeros in the place of the spaces, or one zero at the end.
        3 if end < 8 => bytes[end..].fill(0),
        3 => bytes[7] = 0,
        // A byte that no tag has: often one before or after a range of those that it has.
        4 => bytes[rng.below(8)] = rng.pick(b"/:@[^`az-.!\x1f\x00\x7f\x80\xa0\xdf\xff"),
        5 => {
            let place = rng.below(8);
            bytes[place] = loop {
                let byte = rng.byte(0, 255);
                if !LETTERS.contains(&byte) && !b"_ ".contains(&byte) {
                    break byte;
                }
            };
        }
        // 0x5E or 0x60, the bytes on either side of 0x5F, for a character.
        6 | 7 => {
            let place = rng.below(8);
            bytes[end.min(place)..place].fill(rng.pick(LETTERS));
            bytes[place] = rng.pick(b"^`");
        }
        8 | 9 => underscore_first(rng, &mut bytes),
        _ => underscore_after_space(rng, &mut bytes),
    }
    bytes
}

/// Puts underscores first: one before spaces, all eight, or in the place of the first characters of the tag.
fn underscore_first(rng: &mut Rng, tag: &mut [u8; 8]) {
    match rng.below(6) {
        0 => *tag = *b"_       ",
        1 => *tag = [b'_'; 8],
        2 => tag[..rng.range(1, 8)].fill(b'_'),
        _ => tag[0] = b'_',
    }
}

/// Puts underscores after the tag and a space at least: after one space, in the last place, anywhere, or from there on.
/// A tag of seven or eight characters is cut.
fn underscore_after_space(rng: &mut Rng, tag: &mut [u8; 8]) {
    let end = end(tag).min(6);
    tag[end..].fill(b' ');
    let at = rng.range(end + 1, 7);
    match rng.below(4) {
        0 => tag[end + 1] = b'_',
        1 => tag[7] = b'_',
        2 => tag[at] = b'_',
        _ => tag[at..].fill(b'_'),
    }
}

/// The code of a wire: one of the four flags, inverted or not.
pub(crate) fn wire_code(rng: &mut Rng) -> u8 {
    rng.byte(0, 3) | rng.pick(&[0, 0x80])
}

impl Table {
    /// A valid table of this size: the chain in slot order, backwards or jumping about; wires from
    /// earlier blocks, later ones and the block itself.
    pub fn new(rng: &mut Rng, size: Size) -> Table {
        let mut slots: Vec<u8> = (1..=size.slots as u8).collect();
        match rng.below(4) {
            0 => {}
            1 => slots.reverse(),
            _ => rng.shuffle(&mut slots),
        }
        let chain = slots[..size.blocks].to_vec();
        let mut image = vec![0; HEADER + SLOT * size.slots];
        let head = chain.first().copied().unwrap_or(0);
        image[..HEADER].copy_from_slice(&[1, size.slots as u8, head, 0]);
        let mut table = Table { image, chain };
        let (wired, kin) = (rng.pick(&[0, 2, 4]), rng.pick(&[0, 1, 3]));
        for position in 0..size.blocks {
            let tag = table.new_tag(rng, position, kin);
            table.fill(rng, position, tag, wired);
        }
        table
    }

    /// A tag for the block at an index of the chain that no earlier one has; of four, `kin` on average are like one of
    /// theirs.
    fn new_tag(&self, rng: &mut Rng, index: usize, kin: usize) -> [u8; 8] {
        let earlier = &self.chain[..index];
        loop {
            let tag = match rng.below(4) < kin && index > 0 {
                true => {
                    let slot = rng.pick(earlier);
                    alike(rng, self.tag(slot))
                }
                false => tag(rng),
            };
            if !earlier.iter().any(|&slot| self.tag(slot) == tag) {
                return tag;
            }
        }
    }

    /// Writes the block at an index of the chain; of four inputs, `wired` on average have a wire.
    fn fill(&mut self, rng: &mut Rng, index: usize, tag: [u8; 8], wired: usize) {
        let kind = rng.byte(1, 14);
        let chain = self.chain.clone();
        let next = chain.get(index + 1).copied().unwrap_or(0);
        let slot = self.slot(chain[index]);
        slot[KIND] = kind;
        slot[NEXT] = next;
        slot[TAG..].copy_from_slice(&tag);
        for input in [START, ABORT] {
            if rng.below(4) < wired && (input == START || has_abort(kind)) {
                slot[input] = rng.pick(&chain);
                slot[input + 1] = wire_code(rng);
            }
        }
    }

    /// The bytes of a slot, numbered from 1, to change them.
    fn slot(&mut self, slot: u8) -> &mut [u8] {
        let at = HEADER + SLOT * (usize::from(slot) - 1);
        &mut self.image[at..at + SLOT]
    }

    /// The bytes of a slot, numbered from 1.
    pub(crate) fn bytes(&self, slot: u8) -> &[u8] {
        &self.image[HEADER + SLOT * (usize::from(slot) - 1)..][..SLOT]
    }

    /// The tag in a slot.
    pub fn tag(&self, slot: u8) -> [u8; 8] {
        let mut tag = [0; 8];
        tag.copy_from_slice(&self.bytes(slot)[TAG..]);
        tag
    }

    /// The tags of its blocks, in chain order.
    pub fn tags(&self) -> Vec<[u8; 8]> {
        self.chain.iter().map(|&slot| self.tag(slot)).collect()
    }

    /// The kind in a slot.
    pub fn kind(&self, slot: u8) -> u8 {
        self.bytes(slot)[KIND]
    }

    /// The kinds of its blocks, in chain order.
    pub fn kinds(&self) -> Vec<u8> {
        self.chain.iter().map(|&slot| self.kind(slot)).collect()
    }

    /// Whether it has a wire.
    pub fn is_wired(&self) -> bool {
        let wired = |&slot: &u8| [START, ABORT].map(|input| self.bytes(slot)[input]) != [0, 0];
        self.chain.iter().any(wired)
    }

    /// The length of its tidy image.
    pub fn tidy_length(&self) -> usize {
        HEADER + SLOT * self.chain.len().max(1)
    }

    /// The number of slots.
    pub(crate) fn slots(&self) -> u8 {
        ((self.image.len() - HEADER) / SLOT) as u8
    }

    /// The slots off the chain.
    fn spares(&self) -> Vec<u8> {
        let off = |slot: &u8| !self.chain.contains(slot);
        (1..=self.slots()).filter(off).collect()
    }

    /// Damages one field: the refusal that this alone must give, `None` where the table has no such
    /// field. Fields damaged before keep their damage as long as this one is another.
    pub fn damage(&mut self, rng: &mut Rng, fault: Fault) -> Option<Refusal> {
        match fault {
            Fault::Header => self.damage_header(rng),
            Fault::Length => self.damage_length(rng),
            Fault::Chain => self.damage_chain(rng),
            Fault::Kind => self.damage_kind(rng),
            Fault::Tag => self.damage_tag(rng),
            Fault::SameTag => self.repeat_tag(rng),
            Fault::Wire => self.damage_wire(rng),
            Fault::Spare => self.damage_spare(rng),
        }
    }

    /// Refusals 2 and 3: version, byte 3, slot count.
    fn damage_header(&mut self, rng: &mut Rng) -> Option<Refusal> {
        let number = match rng.below(4) {
            0 => {
                self.image[0] = rng.pick(&[0, 2, 0x81, 0xff]);
                2
            }
            1 => {
                self.image[3] = rng.byte(1, 255);
                2
            }
            2 => {
                self.image[1] = 0;
                3
            }
            _ => {
                let count = rng.pick(&[65, 66, 128, 255]);
                self.image[1] = count;
                if rng.one_in(2) {
                    let length = HEADER + SLOT * usize::from(count);
                    self.image.resize(length, 0);
                }
                3
            }
        };
        Some(Refusal::new(number, 0))
    }

    /// Refusals 1 and 4: the length, or the count that gives it.
    fn damage_length(&mut self, rng: &mut Rng) -> Option<Refusal> {
        let length = self.image.len();
        match rng.below(5) {
            0 => {
                self.image.truncate(rng.below(HEADER));
                return Some(Refusal::new(1, 0));
            }
            1 => self.image.truncate(rng.range(HEADER, length - 1)),
            2 => self.image.resize(length + rng.range(1, 2 * SLOT), 0),
            3 => self.image.truncate(length - SLOT),
            _ => {
                let slots = self.slots();
                let others: Vec<u8> = (1..=64).filter(|&count| count != slots).collect();
                self.image[1] = rng.pick(&others);
            }
        }
        Some(Refusal::new(4, 0))
    }

    /// Refusals 5 and 6: the head or a next above the slot count, or back to a slot already met.
    fn damage_chain(&mut self, rng: &mut Rng) -> Option<Refusal> {
        let above = rng.byte(self.slots() + 1, 255);
        if self.chain.is_empty() || rng.one_in(6) {
            self.image[2] = above;
            return Some(Refusal::new(5, 0));
        }
        let index = rng.below(self.chain.len());
        let holder = self.chain[index];
        if rng.one_in(2) {
            self.slot(holder)[NEXT] = above;
            return Some(Refusal::new(5, u32::from(holder)));
        }
        let met = self.chain[rng.range(0, index)];
        self.slot(holder)[NEXT] = met;
        Some(Refusal::new(6, u32::from(holder)))
    }

    /// A slot of the chain, with its index there.
    fn any_block(&self, rng: &mut Rng) -> Option<(usize, u8)> {
        if self.chain.is_empty() {
            return None;
        }
        let index = rng.below(self.chain.len());
        Some((index, self.chain[index]))
    }

    /// Refusal 7: kind, bytes 6 and 7.
    fn damage_kind(&mut self, rng: &mut Rng) -> Option<Refusal> {
        let (_, slot) = self.any_block(rng)?;
        match rng.below(3) {
            0 => self.slot(slot)[KIND] = rng.pick(&[0, 15, 16, 17, 18, 19, 20, 0x81, 0xff]),
            1 => self.slot(slot)[ZERO] = rng.byte(1, 255),
            _ => self.slot(slot)[ZERO + 1] = rng.byte(1, 255),
        }
        Some(Refusal::new(7, u32::from(slot)))
    }

    /// Refusal 8: the form of a tag.
    fn damage_tag(&mut self, rng: &mut Rng) -> Option<Refusal> {
        let (_, slot) = self.any_block(rng)?;
        let bytes = no_tag(rng);
        self.slot(slot)[TAG..].copy_from_slice(&bytes);
        Some(Refusal::new(8, u32::from(slot)))
    }

    /// Refusal 9: the tag of an earlier block of the chain.
    fn repeat_tag(&mut self, rng: &mut Rng) -> Option<Refusal> {
        let (index, slot) = self.any_block(rng)?;
        let other = rng.below(self.chain.len());
        if other == index {
            return None;
        }
        let tag = self.tag(self.chain[other]);
        self.slot(slot)[TAG..].copy_from_slice(&tag);
        Some(Refusal::new(9, u32::from(self.chain[index.max(other)])))
    }

    /// Refusal 10: the slot or the code of a wire, or an abort wire on a kind without one.
    fn damage_wire(&mut self, rng: &mut Rng) -> Option<Refusal> {
        let (_, slot) = self.any_block(rng)?;
        let refusal = Some(Refusal::new(10, u32::from(slot)));
        let (slots, spares, chain) = (self.slots(), self.spares(), self.chain.clone());
        let code = wire_code(rng);
        let bytes = self.slot(slot);
        if !has_abort(bytes[KIND]) && rng.one_in(3) {
            match rng.below(2) {
                0 => bytes[ABORT] = rng.pick(&chain),
                _ => bytes[ABORT + 1] = rng.byte(1, 255),
            }
            return refusal;
        }
        let input = match has_abort(bytes[KIND]) {
            true => rng.pick(&[START, ABORT]),
            false => START,
        };
        let (from, code) = match rng.below(4) {
            0 => (rng.byte(slots + 1, 255), code),
            1 if !spares.is_empty() => (rng.pick(&spares), code),
            1 | 2 => (0, rng.byte(1, 255)),
            _ => (rng.pick(&chain), code | 1 << rng.byte(2, 6)),
        };
        bytes[input..input + 2].copy_from_slice(&[from, code]);
        refusal
    }

    /// Refusal 11: a byte in a slot off the chain, or a head that leaves blocks off it.
    fn damage_spare(&mut self, rng: &mut Rng) -> Option<Refusal> {
        if rng.one_in(3) && !self.chain.is_empty() {
            self.image[2] = 0;
            let lowest = self.chain.iter().min().copied()?;
            return Some(Refusal::new(11, u32::from(lowest)));
        }
        let spares = self.spares();
        let first = rng.below(spares.len().max(1));
        let lowest = *spares.get(first)?;
        // Sometimes a higher one as well.
        for &slot in [lowest].iter().chain(&spares[first..]) {
            if slot == lowest || rng.one_in(4) {
                let at = rng.below(SLOT);
                self.slot(slot)[at] = rng.byte(1, 255);
            }
        }
        Some(Refusal::new(11, u32::from(lowest)))
    }

    /// Cuts the chain short, at its head or after a block; what was cut off keeps its bytes.
    pub fn cut(&mut self, rng: &mut Rng) {
        let Some((index, slot)) = self.any_block(rng) else {
            return;
        };
        if rng.one_in(2) {
            self.image[2] = slot;
            self.chain.drain(..index);
        } else {
            self.slot(slot)[NEXT] = 0;
            self.chain.truncate(index + 1);
        }
    }

    /// Changes some bytes anywhere.
    pub fn scramble(&mut self, rng: &mut Rng) {
        for _ in 0..rng.range(1, 4) {
            let at = rng.below(self.image.len());
            self.image[at] = match rng.below(3) {
                0 => rng.byte(0, 255),
                1 => self.image[at] ^ (1 << rng.below(8)),
                _ => rng.byte(0, 16),
            };
        }
    }
}

/// A kind of damage, in about the order of the checks. Of several, the last goes first: a wrong length
/// leaves the others nothing to damage.
#[derive(Clone, Copy, Debug, PartialEq, Eq, PartialOrd, Ord)]
pub enum Fault {
    Length,
    Header,
    Chain,
    Kind,
    Tag,
    SameTag,
    Wire,
    Spare,
}

impl Fault {
    /// All kinds.
    pub const ALL: [Fault; 8] = [
        Fault::Length,
        Fault::Header,
        Fault::Chain,
        Fault::Kind,
        Fault::Tag,
        Fault::SameTag,
        Fault::Wire,
        Fault::Spare,
    ];
}
