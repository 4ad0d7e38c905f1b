//! A table written anew without spare slots: request 5/14 of document 02.
//!
//! "Write the table anew into a lent buffer: the blocks in chain order in slots
//! 1, 2, 3 and on, head 1, N the block count, wires renumbered, no spares. A
//! table without blocks becomes one zero slot with head 0."

use crate::table::{chain, refuse, Refusal, Slot, Table, Wire, HEADER_SIZE, SLOT_SIZE};

/// "N the block count"; "A table without blocks becomes one zero slot".
fn slot_count(table: &Table) -> usize {
    table.count().max(1)
}

/// Check 60: "Answers: 60, after the table checks, when the lent buffer isn't as
/// long as the tidy image." It names no slot and no position.
fn check_length(table: &Table, out: &[u8]) -> Result<(), Refusal> {
    if out.len() != HEADER_SIZE + SLOT_SIZE * slot_count(table) {
        return refuse(60, 0);
    }
    Ok(())
}

/// "wires renumbered": the block at position k lies in slot k, so a wire names
/// the position of the block it named. One from the frame names slot 0 as
/// before, which has no position.
fn renumber(table: &Table, wire: Wire) -> Wire {
    Wire {
        slot: table.position(wire.slot),
        code: wire.code,
    }
}

/// "the blocks in chain order in slots 1, 2, 3 and on": each names the next one,
/// and the last "the zero that ends it".
fn write_blocks(table: &Table, slots: &mut [[u8; SLOT_SIZE]]) {
    for (index, (_, bytes)) in table.blocks().enumerate() {
        let block = Slot::decode(bytes);
        let position = index as u8 + 1;
        let last = usize::from(position) == table.count();
        let tidy = Slot {
            next: if last { 0 } else { position + 1 },
            start: renumber(table, block.start),
            abort: renumber(table, block.abort),
            ..block
        };
        slots[index] = tidy.encode();
    }
}

/// Writes the tidy image of a table: "Tidying, like each later request that
/// writes a table, answers that table's block count." "Nothing is written before
/// the last check."
pub fn tidy(image: &[u8], out: &mut [u8]) -> Result<usize, Refusal> {
    let table = chain(image)?;
    check_length(&table, out)?;
    // "head 1", or "head 0" without blocks.
    let head = u8::from(table.count() > 0);
    let (header, body) = out.split_at_mut(HEADER_SIZE);
    header.copy_from_slice(&[1, slot_count(&table) as u8, head, 0]);
    body.fill(0);
    let (slots, _) = body.as_chunks_mut();
    write_blocks(&table, slots);
    Ok(table.count())
}
