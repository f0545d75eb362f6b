//! The library's functions as they are, and the only unsafe code: slices go as pointer and length, answers come by pointer.
//! A Rust slice's pointer is never null, not even of an empty slice, which is what the library demands.

use crate::Options;

extern "C" {
    fn njuxaleet_next_end(
        text: *const u8,
        len: usize,
        contractions: bool,
        digits: u8,
        slash: bool,
        start: usize,
        at: *mut usize,
    ) -> u32;

    fn njuxaleet_fill(
        text: *const u8,
        len: usize,
        contractions: bool,
        digits: u8,
        slash: bool,
        start: usize,
        ends: *mut u32,
        room: usize,
        count: *mut usize,
        at: *mut usize,
    ) -> u32;

    fn njuxaleet_class_of(c: u32, class: *mut u32) -> u32;
}

/// The refusal's number and the end or place.
pub fn next_end(text: &[u8], o: Options, start: usize) -> (u32, usize) {
    let mut at = 0;
    // SAFETY: the text is a live slice's pointer and length, and `at` is this function's own.
    let number = unsafe {
        njuxaleet_next_end(
            text.as_ptr(),
            text.len(),
            o.contractions,
            o.digits,
            o.slash,
            start,
            &mut at,
        )
    };
    (number, at)
}

/// The refusal's number, the count, and the next start or place.
pub fn fill(text: &[u8], o: Options, start: usize, ends: &mut [u32]) -> (u32, usize, usize) {
    let (mut count, mut at) = (0, 0);
    let (list, room) = (ends.as_mut_ptr(), ends.len());
    // SAFETY: both lists are live slices' pointers and lengths, `ends` is lent to this call alone, and the answers are this function's own.
    let number = unsafe {
        njuxaleet_fill(
            text.as_ptr(),
            text.len(),
            o.contractions,
            o.digits,
            o.slash,
            start,
            list,
            room,
            &mut count,
            &mut at,
        )
    };
    (number, count, at)
}

/// The refusal's number and the class's.
pub fn class_of(c: u32) -> (u32, u32) {
    let mut class = 0;
    // SAFETY: `class` is this function's own, and any number may be asked of.
    let number = unsafe { njuxaleet_class_of(c, &mut class) };
    (number, class)
}
