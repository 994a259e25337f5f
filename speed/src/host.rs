//! The calls for C, by the names of the library's with `peer_` in front, and the forms of the sum. Only here are pointers made into slices.
#![allow(unsafe_code)]

use crate::sums;
use std::slice;

/// # Safety
/// As C asks: the pointer leads to as many bytes as the length says. With length 0 it is not followed.
unsafe fn lent<'a>(bytes: *const u8, length: usize) -> &'a [u8] {
    if length == 0 {
        return &[];
    }
    slice::from_raw_parts(bytes, length)
}

/// # Safety
/// As `lent`, and nothing else leads to these bytes.
unsafe fn lent_mut<'a>(bytes: *mut u8, length: usize) -> &'a mut [u8] {
    if length == 0 {
        return &mut [];
    }
    slice::from_raw_parts_mut(bytes, length)
}

/// # Safety
/// As `lent`.
#[no_mangle]
pub unsafe extern "C" fn peer_check(rom: *const u8, rom_len: usize) -> u32 {
    crate::check(lent(rom, rom_len))
}

/// # Safety
/// As `lent` and `lent_mut`.
#[no_mangle]
pub unsafe extern "C" fn peer_screen(rom: *const u8, rom_len: usize, marks: *mut u8, marks_len: usize) -> u32 {
    crate::screen(lent(rom, rom_len), lent_mut(marks, marks_len))
}

/// # Safety
/// As `lent` and `lent_mut`, and `steps` leads to a number that can be written.
#[no_mangle]
pub unsafe extern "C" fn peer_run(
    rom: *const u8,
    rom_len: usize,
    work: *mut u8,
    work_len: usize,
    store: *mut u8,
    store_len: usize,
    budget: u32,
    steps: *mut u32,
) -> u32 {
    let (answer, count) = crate::run(lent(rom, rom_len), lent_mut(work, work_len), lent_mut(store, store_len), budget);
    *steps = count;
    answer
}

macro_rules! forms_of_the_sum {
    ($($name:ident: $form:ident,)*) => { $(
        /// # Safety
        /// As `lent`.
        #[no_mangle]
        pub unsafe extern "C" fn $name(rom: *const u8, rom_len: usize, length: u32) -> u16 {
            sums::$form(sums::body(lent(rom, rom_len), length))
        }
    )* };
}

forms_of_the_sum! {
    sum_plain: plain,
    sum_lanes: lanes,
    sum_chunks: chunks,
    sum_pairs: pairs,
    sum_halves: halves,
    sum_by_hand: by_hand,
    sum_read: read,
}
