//! `lane_check_journal`, which only reads.

use super::raw::lane_check_journal;
use super::unpack;
use crate::Refusal;

/// Checks a journal against a table, event by event: the number of its events. 2^32 - 1 stands for every greater
/// number too.
///
/// ```
/// let image = *b"\x01\x01\x01\0\x01\0\0\0\0\0\0\0LANE0   ";
/// let start = *b"\x01\x01\0\0\x07\0\0\0\0\0\0\0";
/// let done = *b"\x02\x01\0\0\x07\0\0\0\0\0\0\0";
/// assert_eq!(lane::ffi::check_journal(&image, &[start, done].concat()), Ok(2));
/// let refusal = lane::ffi::check_journal(&image, &[start, done, done].concat()).unwrap_err();
/// assert_eq!((refusal.number(), refusal.place_number()), (71, 3));
/// assert_eq!(lane::ffi::check_journal(&image, &start[1..]).unwrap_err().number(), 70);
/// ```
///
/// # Errors
/// Refusals 1 to 11, then 70 if the journal's length is not a multiple of an event's 12 bytes, and 71 with the
/// number of the first bad event, from 1.
#[inline]
pub fn check_journal(image: &[u8], journal: &[u8]) -> Result<u32, Refusal> {
    // SAFETY: the pointers and the lengths are those of slices borrowed for the whole call, in
    // which the function only reads.
    unpack(unsafe {
        lane_check_journal(image.as_ptr(), image.len(), journal.as_ptr(), journal.len())
    })
}

#[cfg(test)]
mod tests {
    use super::*;
    use std::ptr::null;

    #[test]
    fn empty_slices_may_be_null() {
        let least = [&[1, 1, 0, 0][..], &[0; 16]].concat();
        // SAFETY: the pointer and the length are those of a slice; the other one is empty.
        let answer = unsafe { lane_check_journal(least.as_ptr(), least.len(), null(), 0) };
        assert_eq!(unpack(answer), Ok(0));
    }
}
