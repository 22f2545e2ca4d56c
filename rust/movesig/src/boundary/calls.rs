//! The calls of include/movesig.h as Rust declares them, here and nowhere else. The crate's boundary has
//! this file as a module, and so have the comparison with the Rust (oracle/) and the measurements (bench/);
//! each links the library that it is about. The header says what a caller has to see to.

unsafe extern "C" {
    pub fn movesig_next_token(
        edition: u64,
        text: *const u8,
        len: usize,
        at: usize,
        answer: *mut [u64; 6],
    ) -> u32;
    pub fn movesig_next_comment(
        edition: u64,
        text: *const u8,
        len: usize,
        at: usize,
        answer: *mut [u64; 6],
    ) -> u32;
    pub fn movesig_read(
        kind: u64,
        edition: u64,
        text: *const u8,
        len: usize,
        at: usize,
        out: *mut u8,
        room: usize,
        answer: *mut [u64; 6],
    ) -> u32;
    pub fn movesig_display(
        kind: u64,
        edition: u64,
        text: *const u8,
        len: usize,
        at: usize,
        line: *mut u8,
        room: usize,
        answer: *mut [u64; 6],
    ) -> u32;
    pub fn movesig_carry(
        text: *const u8,
        len: usize,
        notes: *mut usize,
        count: usize,
        answer: *mut [u64; 6],
    ) -> u32;
    pub fn movesig_outline(
        edition: u64,
        text: *const u8,
        len: usize,
        at: usize,
        limit: u64,
        pending: *mut [u64; 3],
        out: *mut u8,
        room: usize,
        answer: *mut [u64; 6],
    ) -> u32;
    pub fn movesig_open(
        tree: *const u8,
        tree_len: usize,
        text: *const u8,
        len: usize,
        answer: *mut [u64; 6],
    ) -> u32;
    pub fn movesig_child(
        tree: *const u8,
        tree_len: usize,
        text: *const u8,
        len: usize,
        record: u64,
        index: u64,
        answer: *mut [u64; 6],
    ) -> u32;
    pub fn movesig_opened_child(
        tree: *const u8,
        tree_len: usize,
        record: u64,
        index: u64,
        answer: *mut [u64; 6],
    ) -> u32;
}
