//! The exported functions as safe functions over slices, each giving the code that the library
//! gives.
//!
//! A code below 256 is the number of a refusal. Any other is 256 plus a value: a number of words; 0
//! for a resume and a clear; for a write, an erase or a read the entry as the store has it; for a
//! first-match the address (65,535 for none) + 65,536 × words_read + 2^32 × entries_compared; for a
//! next-match the address (65,535 for none); for an all-match the number of hits.
//!
//! Why these are safe: the library asks nothing of its caller but that each pointer and length are
//! a Rust slice's. It is proved to stay inside the slices for every geometry, every length and
//! every content, and `&mut` keeps them apart.

use crate::Geometry;

/// The functions of libcam_abi.a. A slice is passed as its pointer and its length in elements.
mod exported {
    extern "C" {
        pub fn cam_indicator_words(
            kind: u32,
            depth: u32,
            pattern_width: u32,
            set_width: u32,
        ) -> u64;
        pub fn cam_match_words(kind: u32, depth: u32, pattern_width: u32, set_width: u32) -> u64;
        pub fn cam_resume(
            kind: u32,
            depth: u32,
            pattern_width: u32,
            set_width: u32,
            store: *const u32,
            store_len: usize,
            indicators: *const u64,
            indicators_len: usize,
        ) -> u64;
        pub fn cam_clear(
            kind: u32,
            depth: u32,
            pattern_width: u32,
            set_width: u32,
            store: *mut u32,
            store_len: usize,
            indicators: *mut u64,
            indicators_len: usize,
        ) -> u64;
        pub fn cam_write(
            kind: u32,
            depth: u32,
            pattern_width: u32,
            set_width: u32,
            store: *mut u32,
            store_len: usize,
            indicators: *mut u64,
            indicators_len: usize,
            address: u32,
            pattern: u32,
        ) -> u64;
        pub fn cam_erase(
            kind: u32,
            depth: u32,
            pattern_width: u32,
            set_width: u32,
            store: *mut u32,
            store_len: usize,
            indicators: *mut u64,
            indicators_len: usize,
            address: u32,
        ) -> u64;
        pub fn cam_read(
            kind: u32,
            depth: u32,
            pattern_width: u32,
            set_width: u32,
            store: *const u32,
            store_len: usize,
            indicators: *const u64,
            indicators_len: usize,
            address: u32,
        ) -> u64;
        pub fn cam_first_match(
            kind: u32,
            depth: u32,
            pattern_width: u32,
            set_width: u32,
            store: *const u32,
            store_len: usize,
            indicators: *const u64,
            indicators_len: usize,
            pattern: u32,
        ) -> u64;
        pub fn cam_next_match(
            kind: u32,
            depth: u32,
            pattern_width: u32,
            set_width: u32,
            store: *const u32,
            store_len: usize,
            indicators: *const u64,
            indicators_len: usize,
            address: u32,
            pattern: u32,
        ) -> u64;
        pub fn cam_all_match(
            kind: u32,
            depth: u32,
            pattern_width: u32,
            set_width: u32,
            store: *const u32,
            store_len: usize,
            indicators: *const u64,
            indicators_len: usize,
            matches: *mut u64,
            matches_len: usize,
            pattern: u32,
        ) -> u64;
    }
}

/// An exported function with the four numbers of a geometry, and what follows them.
macro_rules! call {
    ($name:ident, $g:ident $(, $argument:expr)*) => {
        unsafe {
            exported::$name($g.kind, $g.depth, $g.pattern_width, $g.set_width $(, $argument)*)
        }
    };
}

pub fn indicator_words(g: Geometry) -> u64 {
    call!(cam_indicator_words, g)
}

pub fn match_words(g: Geometry) -> u64 {
    call!(cam_match_words, g)
}

pub fn resume(g: Geometry, store: &[u32], indicators: &[u64]) -> u64 {
    call!(
        cam_resume,
        g,
        store.as_ptr(),
        store.len(),
        indicators.as_ptr(),
        indicators.len()
    )
}

pub fn clear(g: Geometry, store: &mut [u32], indicators: &mut [u64]) -> u64 {
    call!(
        cam_clear,
        g,
        store.as_mut_ptr(),
        store.len(),
        indicators.as_mut_ptr(),
        indicators.len()
    )
}

pub fn write(
    g: Geometry,
    store: &mut [u32],
    indicators: &mut [u64],
    address: u32,
    pattern: u32,
) -> u64 {
    call!(
        cam_write,
        g,
        store.as_mut_ptr(),
        store.len(),
        indicators.as_mut_ptr(),
        indicators.len(),
        address,
        pattern
    )
}

pub fn erase(g: Geometry, store: &mut [u32], indicators: &mut [u64], address: u32) -> u64 {
    call!(
        cam_erase,
        g,
        store.as_mut_ptr(),
        store.len(),
        indicators.as_mut_ptr(),
        indicators.len(),
        address
    )
}

pub fn read(g: Geometry, store: &[u32], indicators: &[u64], address: u32) -> u64 {
    call!(
        cam_read,
        g,
        store.as_ptr(),
        store.len(),
        indicators.as_ptr(),
        indicators.len(),
        address
    )
}

pub fn first_match(g: Geometry, store: &[u32], indicators: &[u64], key: u32) -> u64 {
    call!(
        cam_first_match,
        g,
        store.as_ptr(),
        store.len(),
        indicators.as_ptr(),
        indicators.len(),
        key
    )
}

pub fn next_match(g: Geometry, store: &[u32], indicators: &[u64], address: u32, key: u32) -> u64 {
    call!(
        cam_next_match,
        g,
        store.as_ptr(),
        store.len(),
        indicators.as_ptr(),
        indicators.len(),
        address,
        key
    )
}

pub fn all_match(
    g: Geometry,
    store: &[u32],
    indicators: &[u64],
    matches: &mut [u64],
    key: u32,
) -> u64 {
    call!(
        cam_all_match,
        g,
        store.as_ptr(),
        store.len(),
        indicators.as_ptr(),
        indicators.len(),
        matches.as_mut_ptr(),
        matches.len(),
        key
    )
}
