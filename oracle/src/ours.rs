//! The port, through its C interface. The declarations are its own, not those of the Rust package: every answer is prefilled with a mark,
//! so that one that is not written is seen.

use crate::Options;

unsafe extern "C" {
    fn njuxaleet_next_end(
        text: *const u8,
        len: usize,
        contractions: bool,
        digits: u8,
        slash: bool,
        start: usize,
        at: *mut usize,
    ) -> u32;
    fn njuxaleet_fill(
        text: *const u8,
        len: usize,
        contractions: bool,
        digits: u8,
        slash: bool,
        start: usize,
        ends: *mut u32,
        room: usize,
        count: *mut usize,
        at: *mut usize,
    ) -> u32;
    fn njuxaleet_class_of(c: u32, class: *mut u32) -> u32;
}

/// The answer of next end: the token's end, the end of text, or a refusal's number and place.
#[derive(Clone, Copy, PartialEq, Eq, Debug)]
pub enum Answer {
    At(usize),
    End(usize),
    Refused(u32, usize),
}

/// The answer of fill: the count of ends written and the next start, or a refusal's number and place.
#[derive(Clone, Copy, PartialEq, Eq, Debug)]
pub enum Filled {
    Ends(usize, usize),
    Refused(u32, usize),
}

pub fn next_end(text: &[u8], o: Options, start: usize) -> Answer {
    let mut at = usize::MAX;
    // SAFETY: the text is a slice, and `at` is room for one number.
    let refusal = unsafe { njuxaleet_next_end(text.as_ptr(), text.len(), o.contractions, o.digits, o.slash, start, &mut at) };
    match refusal {
        0 if at == start => Answer::End(at),
        0 => Answer::At(at),
        number => Answer::Refused(number, at),
    }
}

pub fn fill(text: &[u8], o: Options, start: usize, ends: &mut [u32]) -> Filled {
    match raw_fill(text, o, start, ends) {
        (0, count, at) => Filled::Ends(count, at),
        (number, _, at) => Filled::Refused(number, at),
    }
}

/// The class of a scalar value as a number, or nothing if it is refused.
pub fn class_of(c: u32) -> Option<u32> {
    match raw_class_of(c) {
        (0, class) => Some(class),
        _ => None,
    }
}

/// The three numbers that the C interface of fill gives: refusal, count, and next start or place.
pub fn raw_fill(text: &[u8], o: Options, start: usize, ends: &mut [u32]) -> (u32, usize, usize) {
    let (mut count, mut at) = (usize::MAX, usize::MAX);
    // SAFETY: the text and the ends are slices, and `count` and `at` are room for one number each.
    let refusal = unsafe {
        njuxaleet_fill(
            text.as_ptr(),
            text.len(),
            o.contractions,
            o.digits,
            o.slash,
            start,
            ends.as_mut_ptr(),
            ends.len(),
            &mut count,
            &mut at,
        )
    };
    (refusal, count, at)
}

/// The two numbers that the C interface of class gives: refusal and class.
pub fn raw_class_of(c: u32) -> (u32, u32) {
    let mut class = u32::MAX;
    // SAFETY: `class` is room for one number.
    let refusal = unsafe { njuxaleet_class_of(c, &mut class) };
    (refusal, class)
}
