//! Memory between two areas that nobody may touch.

use std::ffi::{c_int, c_long, c_void};
use std::ptr::null_mut;
use std::slice;

/// Bytes of the memory, and of the areas before and after it: a multiple of every usual page.
const ROOM: usize = 1 << 16;

/// What the memory holds outside a slice.
const FILL: u8 = 0xa5;

/// How many bytes next to a slice are looked at after a call.
const MARGIN: usize = 256;

const PROT_NONE: c_int = 0;
const PROT_READ_WRITE: c_int = 3;
const MAP_PRIVATE_ANONYMOUS: c_int = 0x22;

extern "C" {
    fn mmap(
        at: *mut c_void,
        length: usize,
        protection: c_int,
        flags: c_int,
        file: c_int,
        offset: c_long,
    ) -> *mut c_void;
    fn mprotect(at: *mut c_void, length: usize, protection: c_int) -> c_int;
}

/// Where a slice lies.
#[derive(Clone, Copy, Debug, PartialEq, Eq)]
pub enum Lie {
    /// Its end at the area after the memory.
    End,
    /// Its first byte right after the area before the memory.
    Start,
    /// At an odd address.
    Odd,
    /// As at the end, but an empty slice has the null pointer.
    Null,
}

impl Lie {
    /// All of them.
    pub const ALL: [Lie; 4] = [Lie::End, Lie::Start, Lie::Odd, Lie::Null];
}

/// Memory for one slice; it is never given back.
#[derive(Debug)]
pub struct Guarded {
    memory: *mut u8,
    /// The offset and the length of the slice.
    at: usize,
    length: usize,
    null: bool,
}

impl Guarded {
    /// New memory, with an empty slice.
    ///
    /// # Panics
    /// If the system has no memory.
    #[allow(clippy::new_without_default)]
    pub fn new() -> Guarded {
        // SAFETY: an anonymous mapping anywhere, of which only the middle third may be touched.
        let memory = unsafe {
            let flags = MAP_PRIVATE_ANONYMOUS;
            let base = mmap(null_mut(), 3 * ROOM, PROT_NONE, flags, -1, 0);
            assert!(base as isize != -1, "no memory");
            let memory = base.cast::<u8>().add(ROOM);
            assert_eq!(mprotect(memory.cast(), ROOM, PROT_READ_WRITE), 0);
            memory.write_bytes(FILL, ROOM);
            memory
        };
        Guarded {
            memory,
            at: 0,
            length: 0,
            null: false,
        }
    }

    /// All of the memory.
    fn room(&mut self) -> &mut [u8] {
        // SAFETY: these bytes are mapped, written at first, and borrowed with `self`.
        unsafe { slice::from_raw_parts_mut(self.memory, ROOM) }
    }

    /// Makes these bytes the slice.
    ///
    /// # Panics
    /// If there are more bytes than room.
    pub fn lay(&mut self, bytes: &[u8], lie: Lie) {
        let (at, length) = (self.at, self.length);
        self.room()[at..at + length].fill(FILL);
        self.length = bytes.len();
        self.at = match lie {
            Lie::End | Lie::Null => ROOM - bytes.len(),
            Lie::Start => 0,
            Lie::Odd => 1 + 2 * (bytes.len() % 32),
        };
        self.null = lie == Lie::Null && bytes.is_empty();
        let (at, length) = (self.at, self.length);
        self.room()[at..at + length].copy_from_slice(bytes);
    }

    /// The pointer to the first byte of the slice.
    pub fn pointer(&mut self) -> *mut u8 {
        match self.null {
            true => null_mut(),
            // SAFETY: the offset is at most the length of the memory.
            false => unsafe { self.memory.add(self.at) },
        }
    }

    /// The length of the slice.
    pub fn len(&self) -> usize {
        self.length
    }

    /// Whether the slice is empty.
    pub fn is_empty(&self) -> bool {
        self.length == 0
    }

    /// The bytes of the slice, and whether those next to it are as they were.
    pub fn look(&mut self) -> (Vec<u8>, bool) {
        let (at, end) = (self.at, self.at + self.length);
        let room = self.room();
        let before = &room[at.saturating_sub(MARGIN)..at];
        let after = &room[end..ROOM.min(end + MARGIN)];
        let kept = [before, after].concat().iter().all(|&byte| byte == FILL);
        (room[at..end].to_vec(), kept)
    }
}
