//! The plain C implementation.

use crate::builds::Build;

extern "C" {
    fn baseline_check(image: *const u8, image_len: usize) -> u64;
    fn baseline_find(image: *const u8, image_len: usize, tag: *const u8, tag_len: usize) -> u64;
    fn baseline_tidy(image: *const u8, image_len: usize, out: *mut u8, out_len: usize) -> u64;
    fn baseline_check_journal(
        image: *const u8,
        image_len: usize,
        journal: *const u8,
        journal_len: usize,
    ) -> u64;
    fn baseline_scan(
        image: *const u8,
        image_len: usize,
        state: *mut u8,
        state_len: usize,
        frame: *const u8,
        frame_len: usize,
        report: *mut u8,
        report_len: usize,
        journal: *mut u8,
        journal_len: usize,
    ) -> u64;
}

/// Its check and its scan, which have the types of the engine's.
pub const PLAIN_C: Build = Build {
    check: baseline_check,
    scan: baseline_scan,
};

pub fn find(image: &[u8], tag: &[u8]) -> u64 {
    // SAFETY: pointers and lengths are those of borrowed slices.
    unsafe { baseline_find(image.as_ptr(), image.len(), tag.as_ptr(), tag.len()) }
}

pub fn tidy(image: &[u8], out: &mut [u8]) -> u64 {
    // SAFETY: pointers and lengths are those of borrowed slices, of which the written one is borrowed as mutable.
    unsafe { baseline_tidy(image.as_ptr(), image.len(), out.as_mut_ptr(), out.len()) }
}

pub fn check_journal(image: &[u8], journal: &[u8]) -> u64 {
    // SAFETY: pointers and lengths are those of borrowed slices.
    unsafe { baseline_check_journal(image.as_ptr(), image.len(), journal.as_ptr(), journal.len()) }
}
