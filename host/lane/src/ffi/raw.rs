//! The archive's functions as C declares them, for callers without slices. Each answers its packed
//! number; each pointer is good for its length, and none that is written shares a byte with another.

extern "C" {
    /// Checks a table.
    pub fn lane_check(image: *const u8, image_len: usize) -> u64;
    /// Finds a tag.
    pub fn lane_find(image: *const u8, image_len: usize, tag: *const u8, tag_len: usize) -> u64;
    /// Writes a table anew, tidy, into the lent image.
    pub fn lane_tidy(image: *const u8, image_len: usize, out: *mut u8, out_len: usize) -> u64;
    /// Checks a journal against a table.
    pub fn lane_check_journal(
        image: *const u8,
        image_len: usize,
        journal: *const u8,
        journal_len: usize,
    ) -> u64;
    /// Makes the lent state fresh.
    pub fn lane_fresh(image: *const u8, image_len: usize, state: *mut u8, state_len: usize) -> u64;
    /// Runs one scan over the lent state, report and journal.
    pub fn lane_scan(
        image: *const u8,
        image_len: usize,
        state: *mut u8,
        state_len: usize,
        frame: *const u8,
        frame_len: usize,
        report: *mut u8,
        report_len: usize,
        journal: *mut u8,
        journal_len: usize,
    ) -> u64;
}
