//! The library as C sees it.
#![allow(dead_code)]

#[repr(C)]
pub struct Reply {
    pub number: u32,
    pub chair: u32,
    pub place: u64,
    pub count: u64,
}

/// What counting and locating reply with.
#[repr(C)]
pub struct SearchReply {
    pub number: u32,
    pub chair: u32,
    pub place: u64,
    pub count: u64,
    pub tests: u64,
}

extern "C" {
    pub fn sirbolta_build(
        text: *const u8,
        text_len: usize,
        chair: u16,
        work: *mut u32,
        work_len: usize,
        result: *mut u32,
        result_len: usize,
    ) -> Reply;
    pub fn sirbolta_check(table: *const u32, table_len: usize, work: *mut u32, work_len: usize) -> Reply;
    pub fn sirbolta_read(
        table: *const u32,
        table_len: usize,
        work: *mut u32,
        work_len: usize,
        result: *mut u8,
        result_len: usize,
    ) -> Reply;
    pub fn sirbolta_extract(
        table: *const u32,
        table_len: usize,
        start: usize,
        length: usize,
        work: *mut u32,
        work_len: usize,
        result: *mut u8,
        result_len: usize,
    ) -> Reply;
    pub fn sirbolta_count(
        table: *const u32,
        table_len: usize,
        form: u32,
        pattern: *const u8,
        pattern_len: usize,
        work: *mut u32,
        work_len: usize,
    ) -> SearchReply;
    pub fn sirbolta_locate(
        table: *const u32,
        table_len: usize,
        form: u32,
        pattern: *const u8,
        pattern_len: usize,
        work: *mut u32,
        work_len: usize,
        result: *mut u32,
        result_len: usize,
    ) -> SearchReply;
    pub fn sirbolta_live_cuts(pattern: *const u8, pattern_len: usize, result: *mut u32, result_len: usize) -> Reply;
    pub fn sirbolta_lyndon_length(table: *const u32, table_len: usize, position: usize, work: *mut u32, work_len: usize) -> Reply;
    pub fn sirbolta_lyndon_array(
        table: *const u32,
        table_len: usize,
        work: *mut u32,
        work_len: usize,
        result: *mut u32,
        result_len: usize,
    ) -> Reply;
    pub fn sirbolta_to_signed(
        table: *const u32,
        table_len: usize,
        work: *mut u32,
        work_len: usize,
        result: *mut u32,
        result_len: usize,
    ) -> Reply;
    pub fn sirbolta_to_steps(text: *const u8, text_len: usize, result: *mut u8, result_len: usize) -> Reply;
    pub fn sirbolta_from_steps(text: *const u8, text_len: usize, result: *mut u8, result_len: usize) -> Reply;
    pub fn sirbolta_build_profile(
        text: *const u8,
        text_len: usize,
        chair: u16,
        work: *mut u32,
        work_len: usize,
        result: *mut u32,
        result_len: usize,
    ) -> Reply;
    pub fn sirbolta_check_profile(table: *const u32, table_len: usize, work: *mut u32, work_len: usize) -> Reply;
    pub fn sirbolta_census(
        table: *const u32,
        table_len: usize,
        q: usize,
        work: *mut u32,
        work_len: usize,
        runs: *mut u8,
        runs_len: usize,
        counts: *mut u32,
        counts_len: usize,
    ) -> Reply;
}
