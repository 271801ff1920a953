//! The static library's functions, as the files of `crates/exports/src` have them. There a slice is one parameter; here
//! it is a pointer and then a length. `include/colourway.h` says the same for C, and the test `header` compares the
//! three.

extern "C" {
    pub fn colourway_strip_links(
        text: *const u8,
        text_length: usize,
        rows: usize,
        columns: usize,
        width: usize,
        left: usize,
        links: *mut u16,
        links_length: usize,
    ) -> u8;

    pub fn colourway_distinct_counts(
        text: *const u8,
        text_length: usize,
        rows: usize,
        columns: usize,
        height: usize,
        width: usize,
        counts: *mut u16,
        counts_length: usize,
    ) -> u8;

    pub fn colourway_window_cell(
        text: *const u8,
        text_length: usize,
        row_width: u8,
        row: u8,
        column: u8,
        i: u8,
        j: u8,
    ) -> u16;

    pub fn colourway_symbols(pattern: *const u8, pattern_length: usize, words: &mut [u64; 4]);

    pub fn colourway_symbols_size(words: &[u64; 4]) -> u32;

    pub fn colourway_symbols_lowest(words: &[u64; 4]) -> u32;

    pub fn colourway_symbols_without(words: &mut [u64; 4], v: u8);

    pub fn colourway_bijection_empty(forward: &mut [u16; 256], backward: &mut [u16; 256]);

    pub fn colourway_bijection_pair(
        forward: &mut [u16; 256],
        backward: &mut [u16; 256],
        a: u8,
        c: u8,
    ) -> u8;

    pub fn colourway_bijection_invert(forward: &mut [u16; 256], backward: &mut [u16; 256]) -> u8;

    pub fn colourway_bijection_compose(
        forward: &mut [u16; 256],
        backward: &mut [u16; 256],
        other_forward: &[u16; 256],
        other_backward: &[u16; 256],
    ) -> u8;

    pub fn colourway_one_window(
        text: *const u8,
        text_length: usize,
        rows: usize,
        columns: usize,
        pattern: *const u8,
        pattern_length: usize,
        height: usize,
        width: usize,
        row: usize,
        column: usize,
        forward: &mut [u16; 256],
        backward: &mut [u16; 256],
        mismatch: &mut [usize; 3],
    ) -> u8;

    pub fn colourway_search(
        text: *const u8,
        text_length: usize,
        rows: usize,
        columns: usize,
        pattern: *const u8,
        pattern_length: usize,
        height: usize,
        width: usize,
        links: *mut u16,
        links_length: usize,
        counts: *mut u16,
        counts_length: usize,
        flags: *mut u8,
        flags_length: usize,
        listing: *mut u8,
        listing_length: usize,
        totals: &mut [usize; 3],
    ) -> u8;

    pub fn colourway_count(
        text: *const u8,
        text_length: usize,
        rows: usize,
        columns: usize,
        pattern: *const u8,
        pattern_length: usize,
        height: usize,
        width: usize,
        links: *mut u16,
        links_length: usize,
        counts: *mut u16,
        counts_length: usize,
        flags: *mut u8,
        flags_length: usize,
        totals: &mut [usize; 3],
    ) -> u8;

    pub fn colourway_list(
        text: *const u8,
        text_length: usize,
        rows: usize,
        columns: usize,
        pattern: *const u8,
        pattern_length: usize,
        height: usize,
        width: usize,
        flags: *const u8,
        flags_length: usize,
        listing: *mut u8,
        listing_length: usize,
        totals: &mut [usize; 3],
    ) -> u8;

    pub fn colourway_search_scaled(
        text: *const u8,
        text_length: usize,
        rows: usize,
        columns: usize,
        pattern: *const u8,
        pattern_length: usize,
        height: usize,
        width: usize,
        scale: usize,
        links: *mut u16,
        links_length: usize,
        counts: *mut u16,
        counts_length: usize,
        flags: *mut u8,
        flags_length: usize,
        listing: *mut u8,
        listing_length: usize,
        totals: &mut [usize; 3],
    ) -> u8;

    pub fn colourway_search_scales(
        text: *const u8,
        text_length: usize,
        rows: usize,
        columns: usize,
        pattern: *const u8,
        pattern_length: usize,
        height: usize,
        width: usize,
        links: *mut u16,
        links_length: usize,
        counts: *mut u16,
        counts_length: usize,
        flags: *mut u8,
        flags_length: usize,
        listing: *mut u8,
        listing_length: usize,
        totals: &mut [usize; 3],
    ) -> u8;

    pub fn colourway_read(
        listing: *const u8,
        listing_length: usize,
        at: usize,
        fields: &mut [u16; 7],
        next: &mut [usize; 1],
    ) -> u8;

    pub fn colourway_check(
        text: *const u8,
        text_length: usize,
        rows: usize,
        columns: usize,
        pattern: *const u8,
        pattern_length: usize,
        height: usize,
        width: usize,
        listing: *const u8,
        listing_length: usize,
        totals: &mut [usize; 2],
    ) -> u8;
}
