//! Calls through the archive, over guarded slices.

use crate::call::{Call, Left, Name};
use crate::guard::{Guarded, Lie};
use lane::ffi::raw::{lane_check, lane_check_journal, lane_find, lane_fresh, lane_scan, lane_tidy};
use std::cell::Cell;
use std::ffi::{c_int, c_void};
use std::io::Write;
use std::ptr::{null, null_mut};

extern "C" {
    fn signal(number: c_int, handler: extern "C" fn(c_int)) -> *mut c_void;
    fn write(file: c_int, bytes: *const u8, count: usize) -> isize;
    fn _exit(status: c_int) -> !;
}

const SIGBUS: c_int = 7;
const SIGSEGV: c_int = 11;

thread_local! {
    /// The call under way in this thread.
    static CURRENT: Cell<*const Call> = const { Cell::new(null()) };
}

/// Writes text to the standard error, as a signal handler may.
fn say(text: &[u8]) {
    // SAFETY: the pointer and the length are those of a slice.
    unsafe { write(2, text.as_ptr(), text.len()) };
}

/// Writes bytes in hex.
fn say_slice(bytes: &[u8]) {
    say(b" x");
    for byte in bytes {
        let mut digits = [0; 2];
        let _ = write!(&mut digits[..], "{byte:02x}");
        say(&digits);
    }
}

/// Says which call touched what it may not, as a line for the corpus, and ends the program.
extern "C" fn fault(_: c_int) {
    // SAFETY: the call outlives its run, and nobody writes it meanwhile.
    if let Some(call) = unsafe { CURRENT.get().as_ref() } {
        say(b"\na byte outside the slices was touched by this call:\n");
        say(call.name.word().as_bytes());
        call.slices.iter().for_each(|bytes| say_slice(bytes));
        say(b"\n");
    }
    // SAFETY: ends the program.
    unsafe { _exit(1) }
}

/// Memory for the slices of a call.
#[derive(Debug)]
pub struct Engine([Guarded; 5]);

impl Engine {
    /// New memory; from now on a fault prints the call that made it.
    #[allow(clippy::new_without_default)]
    pub fn new() -> Engine {
        for number in [SIGBUS, SIGSEGV] {
            // SAFETY: the handler only writes to the standard error and ends the program.
            unsafe { signal(number, fault) };
        }
        Engine([(); 5].map(|()| Guarded::new()))
    }

    /// What the engine leaves of a call whose slices lie so.
    ///
    /// # Errors
    /// If a byte next to a slice was written.
    pub fn run(&mut self, call: &Call, lie: Lie) -> Result<Left, String> {
        let memory = &mut self.0[..call.slices.len()];
        for (memory, bytes) in memory.iter_mut().zip(&call.slices) {
            memory.lay(bytes, lie);
        }
        CURRENT.set(call);
        let answer = enter(call.name, memory);
        CURRENT.set(null());
        let looks = memory.iter_mut().map(Guarded::look);
        let (left, kept): (Vec<_>, Vec<_>) = looks.unzip();
        match kept.contains(&false) {
            true => Err(format!("written beside a slice: {}", call.line())),
            false => Ok((answer, left)),
        }
    }
}

/// Enters the function.
fn enter(name: Name, memory: &mut [Guarded]) -> u64 {
    // The pointer and the length of each slice, and of none where there are fewer.
    let mut slices = [(null_mut(), 0); 5];
    for (slice, memory) in slices.iter_mut().zip(memory) {
        *slice = (memory.pointer(), memory.len());
    }
    let [(image, n), (second, m), (frame, k), (report, r), (journal, j)] = slices;
    // SAFETY: the slices are of the lengths given or empty, and lie in memory of their own each.
    unsafe {
        match name {
            Name::Check => lane_check(image, n),
            Name::Find => lane_find(image, n, second, m),
            Name::Tidy => lane_tidy(image, n, second, m),
            Name::CheckJournal => lane_check_journal(image, n, second, m),
            Name::Fresh => lane_fresh(image, n, second, m),
            Name::Scan => lane_scan(image, n, second, m, frame, k, report, r, journal, j),
        }
    }
}
