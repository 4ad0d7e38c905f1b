//! The table image: its checks, its chain, and the lookup of a tag.
//!
//! "Header, 4 bytes: version 1; slot count N, 1 to 64; head slot, 0 to N; zero.
//! Then N slots of 16 bytes, numbered from 1."

use crate::layout::put;

/// "slot count N, 1 to 64"
pub const MAX_SLOTS: usize = 64;

/// "Header, 4 bytes"
pub const HEADER_SIZE: usize = 4;

/// "Then N slots of 16 bytes"
pub const SLOT_SIZE: usize = 16;

/// "A refusal is a number and a place (slot or position, 0 if none is named)."
///
/// Request 6/14 has a third kind of place, "the number of the first bad event,
/// from 1".
#[derive(Debug, Clone, Copy, PartialEq, Eq)]
pub struct Refusal {
    pub number: u8,
    pub place: usize,
}

/// The refusal with this number and place, as the answer of a check.
pub(crate) fn refuse<T>(number: u8, place: usize) -> Result<T, Refusal> {
    Err(Refusal { number, place })
}

/// "Kinds 1 to 8 are edge blocks, 9 to 14 level blocks"
pub fn is_kind(kind: u8) -> bool {
    is_edge(kind) || is_level(kind)
}

/// "Kinds 1 to 8 are edge blocks"
pub fn is_edge(kind: u8) -> bool {
    matches!(kind, 1..=8)
}

/// "9 to 14 level blocks"
pub fn is_level(kind: u8) -> bool {
    matches!(kind, 9..=14)
}

/// "A abort input": 5 ETrigA, 6 ETrigATI, 7 ETrigATo, 8 ETrigATITo.
pub fn has_abort(kind: u8) -> bool {
    matches!(kind, 5..=8)
}

/// "TI time limit": 2 ETrigTI, 4 ETrigTITo, 6 ETrigATI, 8 ETrigATITo,
/// 10 LConTI, 12 LConTITo, 14 LConTIC.
pub fn has_time_limit(kind: u8) -> bool {
    matches!(kind, 2 | 4 | 6 | 8 | 10 | 12 | 14)
}

/// "To time-out": 3 ETrigTo, 4 ETrigTITo, 7 ETrigATo, 8 ETrigATITo,
/// 11 LConTo, 12 LConTITo.
pub fn has_time_out(kind: u8) -> bool {
    matches!(kind, 3 | 4 | 7 | 8 | 11 | 12)
}

/// "C continuous": 13 LConC, 14 LConTIC.
pub fn is_continuous(kind: u8) -> bool {
    matches!(kind, 13 | 14)
}

/// Where an input of a block comes from: the slot of a block, or 0 for the
/// frame, and the code that chooses the flag.
#[derive(Debug, Clone, Copy, PartialEq, Eq)]
pub struct Wire {
    pub slot: u8,
    pub code: u8,
}

impl Wire {
    /// No wire: "Wire slot 0 takes the input bit from the frame; its code is
    /// then 0."
    pub const NONE: Wire = Wire { slot: 0, code: 0 };

    /// "bits 0-1 = flag (0 busy, 1 done, 2 error, 3 aborted) and bit 7 =
    /// inverted": the input that this wire reads from the flags of its source.
    pub fn read(self, flags: u8) -> bool {
        let flag = (flags >> (self.code & 0x03)) & 1 == 1;
        let inverted = self.code & 0x80 != 0;
        flag != inverted
    }
}

/// The sixteen bytes of a slot by their names.
///
/// "byte 0 kind; 1 next slot; 2 start wire slot; 3 start wire code; 4 abort
/// wire slot; 5 abort wire code; 6-7 zero; 8-15 tag."
#[derive(Debug, Clone, Copy, PartialEq, Eq)]
pub struct Slot {
    pub kind: u8,
    pub next: u8,
    pub start: Wire,
    pub abort: Wire,
    pub zero: [u8; 2],
    pub tag: [u8; 8],
}

impl Slot {
    /// The named fields of the sixteen bytes.
    pub fn decode(b: &[u8; SLOT_SIZE]) -> Slot {
        Slot {
            kind: b[0],
            next: b[1],
            start: Wire {
                slot: b[2],
                code: b[3],
            },
            abort: Wire {
                slot: b[4],
                code: b[5],
            },
            zero: [b[6], b[7]],
            tag: [b[8], b[9], b[10], b[11], b[12], b[13], b[14], b[15]],
        }
    }

    /// The sixteen bytes with these fields.
    pub fn encode(&self) -> [u8; SLOT_SIZE] {
        let mut bytes = [0; SLOT_SIZE];
        put(&mut bytes, 0, &[self.kind, self.next]);
        put(&mut bytes, 2, &[self.start.slot, self.start.code]);
        put(&mut bytes, 4, &[self.abort.slot, self.abort.code]);
        put(&mut bytes, 6, &self.zero);
        put(&mut bytes, 8, &self.tag);
        bytes
    }
}

/// "A-Z and 0-9"
fn is_letter_or_digit(byte: u8) -> bool {
    byte.is_ascii_uppercase() || byte.is_ascii_digit()
}

/// "Tag: one or more of A-Z and 0-9, then spaces (0x20) to eight bytes. No
/// folding of any kind."
///
/// Request 2/14: "The underscore (0x5F) becomes a tag character everywhere a
/// tag is read, except as the first one. IN_1 and IN1 are two tags. Numbers 8
/// and 50 follow the wider form."
pub fn is_tag(tag: &[u8; 8]) -> bool {
    let [first, rest @ ..] = tag;
    let mut after = rest
        .iter()
        .skip_while(|&&byte| is_letter_or_digit(byte) || byte == 0x5f);
    is_letter_or_digit(*first) && after.all(|&byte| byte == 0x20)
}

/// The slots of an image and the chain through them.
///
/// "The chain is walked from the head to the zero that ends it. The k-th block
/// met has position k. Head 0 is a table of no blocks."
#[derive(Debug, Clone, Copy)]
pub struct Table<'a> {
    /// All slots of the image; slot s is at index s - 1.
    slots: &'a [[u8; SLOT_SIZE]],
    /// The number of blocks.
    count: usize,
    /// The slot of each block; that of position k is at index k - 1.
    order: [u8; MAX_SLOTS],
    /// The position of each slot, 0 for a slot that is not on the chain.
    positions: [u8; 256],
}

impl<'a> Table<'a> {
    /// The number of blocks.
    pub fn count(&self) -> usize {
        self.count
    }

    /// The position of the block in a slot, 0 if that slot is not on the chain.
    pub fn position(&self, slot: u8) -> u8 {
        self.positions[usize::from(slot)]
    }

    /// The block at a position, none where the table has no such position: "The
    /// k-th block met has position k."
    pub fn block(&self, position: u8) -> Option<Slot> {
        let index = usize::from(position).checked_sub(1)?;
        let slot = *self.order[..self.count].get(index)?;
        Some(Slot::decode(&self.slots[usize::from(slot) - 1]))
    }

    /// The bytes of the blocks' slots in chain order, each with its slot number.
    pub fn blocks(&self) -> impl Iterator<Item = (u8, &'a [u8; SLOT_SIZE])> + '_ {
        let order = self.order.iter().take(self.count);
        order.map(|&slot| (slot, &self.slots[usize::from(slot) - 1]))
    }
}

/// Checks 1 to 4: the head slot and the slots of an image with a right header.
///
/// | header | 1 | under 4 bytes |
/// |---|---|---|
/// | | 2 | version or byte 3 |
/// | | 3 | N |
/// | | 4 | length not 4 + 16 × N |
fn header(image: &[u8]) -> Result<(u8, &[[u8; SLOT_SIZE]]), Refusal> {
    let [version, count, head, zero, body @ ..] = image else {
        return refuse(1, 0);
    };
    if *version != 1 || *zero != 0 {
        return refuse(2, 0);
    }
    let count = usize::from(*count);
    if !(1..=MAX_SLOTS).contains(&count) {
        return refuse(3, 0);
    }
    if body.len() != SLOT_SIZE * count {
        return refuse(4, 0);
    }
    let (slots, _) = body.as_chunks::<SLOT_SIZE>();
    Ok((*head, slots))
}

/// Checks 5 and 6: "The chain is walked from the head to the zero that ends it."
///
/// | chain | 5 | head, or the next of a slot met on the walk, above N; slot holding it, 0 for head |
/// |---|---|---|
/// | | 6 | next names a slot already met; slot holding it |
fn walk(head: u8, slots: &[[u8; SLOT_SIZE]]) -> Result<Table<'_>, Refusal> {
    let mut table = Table {
        slots,
        count: 0,
        order: [0; MAX_SLOTS],
        positions: [0; 256],
    };
    let mut holder = 0;
    let mut next = head;
    while next != 0 {
        if usize::from(next) > slots.len() {
            return refuse(5, holder);
        }
        if table.position(next) != 0 {
            return refuse(6, holder);
        }
        // Every slot met is a new one of at most 64, so the index is in range.
        table.order[table.count] = next;
        table.count += 1;
        table.positions[usize::from(next)] = table.count as u8;
        holder = usize::from(next);
        next = Slot::decode(&slots[usize::from(next) - 1]).next;
    }
    Ok(table)
}

/// "Wire slot 0 takes the input bit from the frame; its code is then 0.
/// Otherwise the slot is on the chain and the code has bits 0-1 = flag (0 busy,
/// 1 done, 2 error, 3 aborted) and bit 7 = inverted, others zero."
fn is_wire(table: &Table, wire: Wire) -> bool {
    if wire.slot == 0 {
        wire == Wire::NONE
    } else {
        table.position(wire.slot) != 0 && wire.code & !0x83 == 0
    }
}

/// The wires of a block. "Kinds 1-4 and 9-14 have no abort wire."
fn are_wires(table: &Table, block: &Slot) -> bool {
    let abort = if has_abort(block.kind) {
        is_wire(table, block.abort)
    } else {
        block.abort == Wire::NONE
    };
    is_wire(table, block.start) && abort
}

/// Checks 7 to 10: "records in chain order, each through 7, 8, 9, 10 before the
/// next."
///
/// | record | 7 | kind, or bytes 6-7; slot |
/// |---|---|---|
/// | | 8 | tag form; slot |
/// | | 9 | tag of an earlier block; later slot |
/// | | 10 | a wire not as above: its slot, its code, or an abort wire on a kind without one; slot |
fn records(table: &Table) -> Result<(), Refusal> {
    let mut tags = [0u64; MAX_SLOTS];
    for (index, (slot, bytes)) in table.blocks().enumerate() {
        let (block, place) = (Slot::decode(bytes), usize::from(slot));
        if !is_kind(block.kind) || block.zero != [0, 0] {
            return refuse(7, place);
        }
        if !is_tag(&block.tag) {
            return refuse(8, place);
        }
        let tag = u64::from_le_bytes(block.tag);
        if tags[..index].contains(&tag) {
            return refuse(9, place);
        }
        tags[index] = tag;
        if !are_wires(table, &block) {
            return refuse(10, place);
        }
    }
    Ok(())
}

/// Check 11: "A slot off the chain holds sixteen zeros."
///
/// | spare | 11 | not zero; lowest slot |
/// |---|---|---|
fn spares(table: &Table) -> Result<(), Refusal> {
    for (bytes, slot) in table.slots.iter().zip(1u8..) {
        if table.position(slot) == 0 && *bytes != [0; SLOT_SIZE] {
            return refuse(11, usize::from(slot));
        }
    }
    Ok(())
}

/// All table checks; the accepted table. "Every entry point makes the table
/// checks, 1 to 11, first", and "the scan goes on only with a table that was
/// accepted."
pub fn chain(image: &[u8]) -> Result<Table<'_>, Refusal> {
    let (head, slots) = header(image)?;
    let table = walk(head, slots)?;
    records(&table)?;
    spares(&table)?;
    Ok(table)
}

/// "An accepted table check, and a fresh state made, answer the number of
/// blocks."
pub fn check(image: &[u8]) -> Result<usize, Refusal> {
    Ok(chain(image)?.count())
}

/// Checks 50 and 51, after those of the table: the position of the block with
/// this tag, and the bytes of its slot.
///
/// | lookup | 50 | not eight bytes in tag form |
/// |---|---|---|
/// | | 51 | no such tag |
fn lookup<'a>(image: &'a [u8], tag: &[u8]) -> Result<(usize, &'a [u8; SLOT_SIZE]), Refusal> {
    let table = chain(image)?;
    let Ok(tag) = <[u8; 8]>::try_from(tag) else {
        return refuse(50, 0);
    };
    if !is_tag(&tag) {
        return refuse(50, 0);
    }
    let wanted = u64::from_le_bytes(tag);
    for ((_, bytes), position) in table.blocks().zip(1usize..) {
        if u64::from_le_bytes(Slot::decode(bytes).tag) == wanted {
            return Ok((position, bytes));
        }
    }
    refuse(51, 0)
}

/// "A found tag answers its position."
pub fn find(image: &[u8], tag: &[u8]) -> Result<usize, Refusal> {
    let (position, _) = lookup(image, tag)?;
    Ok(position)
}

/// "show, on the same input, hands back the slot's sixteen bytes as a part of
/// the image, an empty part where find refuses."
pub fn show<'a>(image: &'a [u8], tag: &[u8]) -> &'a [u8] {
    match lookup(image, tag) {
        Ok((_, bytes)) => bytes,
        Err(_) => &image[..0],
    }
}
