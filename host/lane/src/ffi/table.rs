//! `lane_check` and `lane_find`, which only read, and `lane_tidy`, which writes a table.

use super::raw::{lane_check, lane_find, lane_tidy};
use super::unpack;
use crate::Refusal;

/// Checks a table image: the number of its blocks.
///
/// ```
/// // The least table: no block, one spare slot.
/// let mut image = [0; 20];
/// image[..2].copy_from_slice(&[1, 1]);
/// assert_eq!(lane::ffi::check(&image), Ok(0));
/// assert_eq!(lane::ffi::check(&[]).unwrap_err().number(), 1);
/// ```
///
/// # Errors
/// Refusals 1 to 11.
#[inline]
pub fn check(image: &[u8]) -> Result<u32, Refusal> {
    // SAFETY: the pointer and the length are those of a slice borrowed for the whole call, in
    // which the function only reads.
    unpack(unsafe { lane_check(image.as_ptr(), image.len()) })
}

/// Checks a table image and finds the block with a tag: its position in the chain, from 1.
///
/// ```
/// let mut image = *b"\x01\x01\x01\0\x01\0\0\0\0\0\0\0LANE0   ";
/// assert_eq!(lane::ffi::find(&image, b"LANE0   "), Ok(1));
/// assert_eq!(lane::ffi::find(&image, b"LANEO   ").unwrap_err().number(), 51);
/// assert_eq!(lane::ffi::find(&image, b"LANE0").unwrap_err().number(), 50);
/// image[0] = 2;
/// assert_eq!(lane::ffi::find(&image, b"LANE0").unwrap_err().number(), 2);
/// ```
///
/// # Errors
/// Refusals 1 to 11, then 50 if the tag is not eight bytes in form and 51 if no block has it.
#[inline]
pub fn find(image: &[u8], tag: &[u8]) -> Result<u32, Refusal> {
    // SAFETY: the pointers and the lengths are those of slices borrowed for the whole call, in
    // which the function only reads.
    unpack(unsafe { lane_find(image.as_ptr(), image.len(), tag.as_ptr(), tag.len()) })
}

/// Checks a table image and writes it anew, tidy, into the lent image: the number of its blocks. They stand
/// in chain order in slots 1, 2, 3 and on, without spare slots; of no blocks there is one zero slot. A
/// refused call leaves the lent image alone.
///
/// ```
/// // Slot 2 holds the only block, which its own error flag starts; slot 1 is spare.
/// let spare = [0; lane::SLOT_BYTES];
/// let image = [&b"\x01\x02\x02\0"[..], &spare, b"\x01\0\x02\x02\0\0\0\0LANE0   "].concat();
/// let mut tidy = [0xaa; lane::HEADER_BYTES + lane::SLOT_BYTES];
/// assert_eq!(lane::ffi::tidy(&image, &mut tidy), Ok(1));
/// assert_eq!(tidy, *b"\x01\x01\x01\0\x01\0\x01\x02\0\0\0\0LANE0   ");
/// assert_eq!(lane::ffi::tidy(&image, &mut tidy[1..]).unwrap_err().number(), 60);
/// ```
///
/// # Errors
/// Refusals 1 to 11, then 60 if the lent image's length is not 4 bytes and 16 a block, or 20 of no blocks.
#[inline]
pub fn tidy(image: &[u8], out: &mut [u8]) -> Result<u32, Refusal> {
    // SAFETY: pointers and lengths are those of slices borrowed for the whole call. The one that the
    // function writes is borrowed as mutable, so it shares no byte with the other.
    unpack(unsafe { lane_tidy(image.as_ptr(), image.len(), out.as_mut_ptr(), out.len()) })
}

#[cfg(test)]
mod tests {
    use super::*;
    use std::ptr::{null, null_mut};

    #[test]
    fn empty_slices_may_be_null() {
        // SAFETY: no byte is read through the pointer of an empty slice.
        let (check, find) = unsafe { (lane_check(null(), 0), lane_find(null(), 0, null(), 0)) };
        assert_eq!(unpack(check), Err(Refusal::new(1, 0)));
        assert_eq!(unpack(find), Err(Refusal::new(1, 0)));
        let least = [&[1, 1, 0, 0][..], &[0; 16]].concat();
        // SAFETY: the pointer and the length are those of a slice; the other one is empty.
        let find = unsafe { lane_find(least.as_ptr(), least.len(), null(), 0) };
        assert_eq!(unpack(find), Err(Refusal::new(50, 0)));
        // SAFETY: the pointer and the length are those of a slice; the lent one is empty.
        let tidy = unsafe { lane_tidy(least.as_ptr(), least.len(), null_mut(), 0) };
        assert_eq!(unpack(tidy), Err(Refusal::new(60, 0)));
    }
}
