//! Where the fields of each layout begin. Bytes without a name are zero.

/// In the header of a table image.
pub mod header {
    pub const HEAD: usize = 2;
}

/// In a slot of a table image.
pub mod slot {
    pub const KIND: usize = 0;
    pub const NEXT: usize = 1;
    pub const START_WIRE: usize = 2;
    pub const ABORT_WIRE: usize = 4;
    pub const TAG: usize = 8;
}

/// In a state record.
pub mod record {
    pub const STEP: usize = 0;
    pub const FLAGS: usize = 1;
    pub const RESET_REQUEST: usize = 2;
    pub const CODE: usize = 8;
    pub const TIME_LIMIT: usize = 12;
    pub const TIME_OUT: usize = 16;
    pub const LAST_READING: usize = 20;
    pub const ELAPSED: usize = 24;
    pub const JOB: usize = 32;
}

/// In a frame entry.
pub mod entry {
    pub const INPUTS: usize = 0;
    pub const COUNT: usize = 1;
    pub const ABORT_REPLY: usize = 2;
    pub const RESET_REPLY: usize = 3;
    pub const ABORT_CODE: usize = 4;
    pub const TIME_LIMIT: usize = 12;
    pub const TIME_OUT: usize = 16;
    pub const CLOCK: usize = 20;
    pub const PIECES: usize = 24;
    pub const JOB: usize = 56;
}

/// In a piece of a frame entry.
pub mod piece {
    pub const REPLY: usize = 0;
    pub const UNNAMED: usize = 1;
    pub const CODE: usize = 2;
    pub const CLOCK: usize = 4;
}

/// In a report entry.
pub mod report {
    pub const FLAGS: usize = 0;
    pub const PIECES: usize = 1;
    pub const PASSES: usize = 2;
    pub const STEP: usize = 3;
    pub const CODE: usize = 4;
    pub const JOB: usize = 8;
}

/// In a journal event.
pub mod event {
    pub const KIND: usize = 0;
    pub const POSITION: usize = 1;
    pub const CODE: usize = 2;
    pub const JOB: usize = 4;
}
