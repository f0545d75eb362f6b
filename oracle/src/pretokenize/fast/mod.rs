//! The leaves that document 000 uses and does not hold, by the meaning that document 01 gives them.

pub(crate) mod mask;
/// Document 000, unchanged. Its mask half is never called.
#[allow(dead_code)]
pub(crate) mod o200k_family;

use super::unicode::{O200kCharClass, o200k_class_of};

/// Is the byte an ASCII letter?
#[inline(always)]
pub(crate) fn is_letter(b: u8) -> bool {
    b.is_ascii_alphabetic()
}

/// Is the byte an ASCII digit?
#[inline(always)]
pub(crate) fn is_digit(b: u8) -> bool {
    b.is_ascii_digit()
}

/// Is the byte ASCII white space: 09 to 0D, or 20?
#[inline(always)]
pub(crate) fn is_ascii_ws(b: u8) -> bool {
    matches!(b, 0x09..=0x0D | b' ')
}

/// The character at `pos`, which is outside ASCII, and its length.
///
/// # Safety
///
/// The bytes are UTF-8, and a character outside ASCII begins at `pos`.
#[inline(always)]
pub(crate) unsafe fn decode_cp(bytes: &[u8], pos: usize) -> (u32, usize) {
    // SAFETY: in UTF-8 every byte that the lead byte announces is there.
    let byte = |i: usize| unsafe { u32::from(*bytes.get_unchecked(pos + i)) };
    let six = |i: usize| byte(i) & 0x3F;
    match byte(0) {
        lead @ ..0xE0 => ((lead & 0x1F) << 6 | six(1), 2),
        lead @ 0xE0..0xF0 => ((lead & 0x0F) << 12 | six(1) << 6 | six(2), 3),
        lead => ((lead & 0x07) << 18 | six(1) << 12 | six(2) << 6 | six(3), 4),
    }
}

/// The same, by the name that the mask half uses.
///
/// # Safety
///
/// As for [`decode_cp`].
#[allow(dead_code)]
#[inline(always)]
pub(crate) unsafe fn decode_cp_inbounds(bytes: &[u8], pos: usize) -> (u32, usize) {
    // SAFETY: the caller promises the same.
    unsafe { decode_cp(bytes, pos) }
}

/// The end of the Number characters from `pos` onward, when `taken` of at most three are taken already.
#[inline(always)]
pub(crate) fn scan_numbers_max3(bytes: &[u8], mut pos: usize, mut taken: usize) -> usize {
    while taken < 3 && pos < bytes.len() {
        if bytes[pos] < 0x80 {
            if !is_digit(bytes[pos]) {
                break;
            }
            pos += 1;
        } else {
            // SAFETY: document 000 is called on UTF-8 alone, and `pos` is where a character ends.
            let (c, length) = unsafe { decode_cp(bytes, pos) };
            if o200k_class_of(c) != O200kCharClass::Number {
                break;
            }
            pos += length;
        }
        taken += 1;
    }
    pos
}
