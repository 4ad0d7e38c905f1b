//! Lengths, and the places of fields and of unnamed bytes: of the state
//! record, the frame entry and its pieces, the report and the journal event.
//!
//! They are those of the scope document as request 3/14 of document 02 changes
//! them.

/// "State record, 32 bytes a position": "0 step ...; 1 flags ...; 2 reset
/// request, 0 or 1; 4-7 job; 8-9 error code; 12-15 time limit and 16-19
/// time-out taken at the start; 20-23 last clock reading; 24-31 elapsed."
///
/// 3/14: "State record: 40 bytes, job in 32-39, bytes 4-7 zero."
pub mod record {
    pub const SIZE: usize = 40;

    pub const STEP: usize = 0;
    pub const FLAGS: usize = 1;
    pub const RESET_REQUEST: usize = 2;
    pub const CODE: usize = 8;
    pub const TIME_LIMIT: usize = 12;
    pub const TIME_OUT: usize = 16;
    pub const LAST_READING: usize = 20;
    pub const ELAPSED: usize = 24;
    pub const JOB: usize = 32;

    pub const UNNAMED: [usize; 7] = [3, 4, 5, 6, 7, 10, 11];
}

/// "Frame entry, 56 bytes a position": "0 inputs ...; 1 piece count n, 0 to 4;
/// 2 abort reply; 3 reset reply; 4-5 abort error code; 8-11 job (any value, 0
/// included); 12-15 time limit; 16-19 time-out; 20-23 clock at the call; from
/// 24, four pieces of 8".
///
/// 3/14: "Frame entry: 64 bytes, job in 56-63, bytes 8-11 zero."
pub mod entry {
    pub const SIZE: usize = 64;

    pub const INPUTS: usize = 0;
    pub const PIECE_COUNT: usize = 1;
    pub const ABORT_REPLY: usize = 2;
    pub const RESET_REPLY: usize = 3;
    pub const ABORT_CODE: usize = 4;
    pub const TIME_LIMIT: usize = 12;
    pub const TIME_OUT: usize = 16;
    pub const CLOCK: usize = 20;
    pub const PIECES: usize = 24;
    pub const JOB: usize = 56;

    pub const UNNAMED: [usize; 6] = [6, 7, 8, 9, 10, 11];

    /// Where piece `index`, from 0, begins.
    pub const fn piece(index: usize) -> usize {
        PIECES + super::piece::SIZE * index
    }
}

/// "four pieces of 8: reply, zero, code (2 bytes), clock after the piece (4
/// bytes)"
pub mod piece {
    pub const SIZE: usize = 8;

    pub const REPLY: usize = 0;
    pub const UNNAMED: usize = 1;
    pub const CODE: usize = 2;
    pub const CLOCK: usize = 4;
}

/// "Each block writes only its own twelve bytes of the report: flags, pieces
/// used, passes, step, code (2), zero (2), job (4)".
///
/// 3/14: "Report: 16 bytes, job in 8-15."
pub mod report {
    pub const SIZE: usize = 16;

    pub const FLAGS: usize = 0;
    pub const PIECES: usize = 1;
    pub const PASSES: usize = 2;
    pub const STEP: usize = 3;
    pub const CODE: usize = 4;
    pub const JOB: usize = 8;

    pub const UNNAMED: [usize; 2] = [6, 7];
}

/// "Journal event, 8 bytes: kind ..., position, code (2; 0 unless failed), job
/// (4)."
///
/// 3/14: "Event: 12 bytes, job in 4-11."
pub mod event {
    pub const SIZE: usize = 12;

    pub const KIND: usize = 0;
    pub const POSITION: usize = 1;
    pub const CODE: usize = 2;
    pub const JOB: usize = 4;
}

/// The two bytes at a place, as a number.
pub(crate) fn u16_at(from: &[u8], at: usize) -> u16 {
    u16::from_le_bytes([from[at], from[at + 1]])
}

/// The four bytes at a place, as a number.
pub(crate) fn u32_at(from: &[u8], at: usize) -> u32 {
    u32::from(u16_at(from, at)) | u32::from(u16_at(from, at + 2)) << 16
}

/// The eight bytes at a place, as a number.
pub(crate) fn u64_at(from: &[u8], at: usize) -> u64 {
    u64::from(u32_at(from, at)) | u64::from(u32_at(from, at + 4)) << 32
}

/// Writes bytes at a place.
pub(crate) fn put(to: &mut [u8], at: usize, bytes: &[u8]) {
    to[at..at + bytes.len()].copy_from_slice(bytes);
}
