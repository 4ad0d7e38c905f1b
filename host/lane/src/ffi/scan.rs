//! `lane_fresh` and `lane_scan`, which write the buffers lent to them.

use super::raw::{lane_fresh, lane_scan};
use super::unpack;
use crate::Refusal;

/// Makes the state of a table fresh: the number of its blocks. A refused call leaves it alone.
///
/// ```
/// let image = *b"\x01\x01\x01\0\x01\0\0\0\0\0\0\0LANE0   ";
/// let mut state = [0xaa; lane::RECORD_BYTES];
/// assert_eq!(lane::ffi::fresh(&image, &mut state), Ok(1));
/// assert_eq!(state, [0; lane::RECORD_BYTES]);
/// assert_eq!(lane::ffi::fresh(&image, &mut state[1..]).unwrap_err().number(), 20);
/// ```
///
/// # Errors
/// Refusals 1 to 11, then 20 if the state's length is not 40 bytes a block.
#[inline]
pub fn fresh(image: &[u8], state: &mut [u8]) -> Result<u32, Refusal> {
    // SAFETY: pointers and lengths are those of slices borrowed for the whole call. The one that the
    // function writes is borrowed as mutable, so it shares no byte with the other.
    unpack(unsafe { lane_fresh(image.as_ptr(), image.len(), state.as_mut_ptr(), state.len()) })
}

/// Runs one scan: the number of events written to the front of the journal. A refused call leaves
/// all buffers alone.
///
/// ```
/// use lane::{Entry, ENTRY_BYTES, EVENT_BYTES, RECORD_BYTES, REPORT_BYTES};
///
/// let image = *b"\x01\x01\x01\0\x01\0\0\0\0\0\0\0LANE0   ";
/// let (mut state, mut report) = ([0; RECORD_BYTES], [0; REPORT_BYTES]);
/// let mut journal = [0; 2 * EVENT_BYTES];
/// let frame: [u8; ENTRY_BYTES] = Entry { start: true, job: (1 << 40) + 7, ..Entry::default() }.encode();
/// let events = lane::ffi::scan(&image, &mut state, &frame, &mut report, &mut journal);
/// assert_eq!(events, Ok(1));
/// assert_eq!(journal[..EVENT_BYTES], [1, 1, 0, 0, 7, 0, 0, 0, 0, 1, 0, 0]);
/// assert_eq!(report, [1, 0, 2, 1, 0, 0, 0, 0, 7, 0, 0, 0, 0, 1, 0, 0]);
/// ```
///
/// # Errors
/// Refusals 1 to 11, then 20 to 41 by the state, the frame, the report and the journal.
#[inline]
pub fn scan(
    image: &[u8],
    state: &mut [u8],
    frame: &[u8],
    report: &mut [u8],
    journal: &mut [u8],
) -> Result<u32, Refusal> {
    // SAFETY: pointers and lengths are those of slices borrowed for the whole call. Those that the
    // function writes are borrowed as mutable, so they share no byte with another.
    unpack(unsafe {
        lane_scan(
            image.as_ptr(),
            image.len(),
            state.as_mut_ptr(),
            state.len(),
            frame.as_ptr(),
            frame.len(),
            report.as_mut_ptr(),
            report.len(),
            journal.as_mut_ptr(),
            journal.len(),
        )
    })
}

#[cfg(test)]
mod tests {
    use super::*;
    use std::ptr::{null, null_mut};

    #[test]
    fn empty_slices_may_be_null() {
        let least = [&[1, 1, 0, 0][..], &[0; 16]].concat();
        // SAFETY: the pointer and the length are those of a slice; the other ones are empty.
        let (fresh, scan) = unsafe {
            let (image, len) = (least.as_ptr(), least.len());
            let fresh = lane_fresh(image, len, null_mut(), 0);
            let [state, report, journal] = [null_mut(); 3];
            let scan = lane_scan(image, len, state, 0, null(), 0, report, 0, journal, 0);
            (fresh, scan)
        };
        assert_eq!((unpack(fresh), unpack(scan)), (Ok(0), Ok(0)));
    }
}
