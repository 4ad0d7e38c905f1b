//! Table images by their slots, and refusals.

use reference::table::{Refusal, HEADER_SIZE, SLOT_SIZE};

/// Where a byte of a slot lies in the image.
pub fn at(slot: usize, byte: usize) -> usize {
    HEADER_SIZE + SLOT_SIZE * (slot - 1) + byte
}

/// A slot: kind, next, start wire, abort wire, tag.
pub type Row = (u8, u8, [u8; 2], [u8; 2], &'static [u8; 8]);

pub const SPARE: Row = (0, 0, [0, 0], [0, 0], &[0; 8]);

pub fn image(head: u8, rows: &[Row]) -> Vec<u8> {
    let mut bytes = vec![1, rows.len() as u8, head, 0];
    for (kind, next, start, abort, tag) in rows {
        bytes.extend_from_slice(&[*kind, *next]);
        bytes.extend_from_slice(start);
        bytes.extend_from_slice(abort);
        bytes.extend_from_slice(&[0, 0]);
        bytes.extend_from_slice(*tag);
    }
    bytes
}

pub fn row(kind: u8, next: u8, tag: &'static [u8; 8]) -> Row {
    (kind, next, [0, 0], [0, 0], tag)
}

pub fn no<T>(number: u8, place: usize) -> Result<T, Refusal> {
    Err(Refusal { number, place })
}
