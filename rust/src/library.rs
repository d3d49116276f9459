//! What include/handlebars.h declares, for Rust: said here alone. The oracle's driver reads this file too (oracle/src/compare.rs).

// Each of its users calls some of the functions.
#![allow(dead_code)]

/// `handlebars_answer`.
#[repr(C)]
#[derive(Clone, Copy, Debug, PartialEq, Eq)]
pub struct Answer {
    pub number: u32,
    /// One more than the bit place of the template's name in the bundle; 0 is none.
    pub template_name: usize,
    pub line: u64,
    pub column: u64,
    pub length: usize,
}

/// Whether a refusal of this number tells a template, a line and a column.
pub fn has_place(number: u32) -> bool {
    (11..=25).contains(&number)
}

// The lengths of the scratch buffers (docs/BUFFERS.md). A table of the plan's values has as many entries as places.
pub const PLACES: usize = 4_096;
pub const ENTRIES: usize = 8_192;
pub const TEXTS: usize = 16_384;
pub const INDENT: usize = 256;

extern "C" {
    pub fn handlebars_check_bundle(bundle: *const u8, len: usize) -> u32;

    pub fn handlebars_check_plan(plan: *const u8, len: usize, table: *mut u64, entries: usize) -> u32;

    pub fn handlebars_render(
        bundle: *const u8,
        bundle_len: usize,
        plan: *const u8,
        plan_len: usize,
        start: *const u8,
        start_len: usize,
        options: u32,
        page: *mut u8,
        page_len: usize,
        places: *mut u64,
        places_len: usize,
        entries: *mut u64,
        entries_len: usize,
        texts: *mut u8,
        texts_len: usize,
        indent: *mut u8,
        indent_len: usize,
    ) -> Answer;

    pub fn handlebars_template_name(
        bundle: *const u8,
        bundle_len: usize,
        template_name: usize,
        out: *mut u8,
        out_len: usize,
    ) -> usize;
}
