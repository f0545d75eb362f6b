//! The Rust that was ported: document 000's `advance_pos`, with HAN false.
//!
//! It trusts its caller: the text must be UTF-8, a start must be where a character begins and before the end of text.

use crate::Options;
use crate::pretokenize::fast::o200k_family::advance_pos;
use crate::pretokenize::unicode::{load, o200k_class_of};

/// Calls a function that is made for each of the twelve options, with the one asked for.
macro_rules! with_options {
    ($o:expr, $function:ident ( $($argument:expr),* )) => {
        match ($o.contractions, $o.digits, $o.slash) {
            (false, 0, false) => $function::<false, 0, false>($($argument),*),
            (false, 0, true) => $function::<false, 0, true>($($argument),*),
            (false, 1, false) => $function::<false, 1, false>($($argument),*),
            (false, 1, true) => $function::<false, 1, true>($($argument),*),
            (false, 2, false) => $function::<false, 2, false>($($argument),*),
            (false, 2, true) => $function::<false, 2, true>($($argument),*),
            (true, 0, false) => $function::<true, 0, false>($($argument),*),
            (true, 0, true) => $function::<true, 0, true>($($argument),*),
            (true, 1, false) => $function::<true, 1, false>($($argument),*),
            (true, 1, true) => $function::<true, 1, true>($($argument),*),
            (true, 2, false) => $function::<true, 2, false>($($argument),*),
            (true, 2, true) => $function::<true, 2, true>($($argument),*),
            (_, digits, _) => panic!("the Rust has no digit mode {digits}"),
        }
    };
}

/// The end of the token at `start`.
pub fn end(text: &[u8], o: Options, start: usize) -> usize {
    debug_assert!(std::str::from_utf8(text).is_ok_and(|t| t.is_char_boundary(start)));
    assert!(start < text.len(), "the Rust takes no start at the end of text");
    load();
    with_options!(o, end_with(text, start))
}

/// Every end of a walk from zero, into `ends`, which is emptied first.
pub fn walk(text: &[u8], o: Options, ends: &mut Vec<u32>) {
    debug_assert!(std::str::from_utf8(text).is_ok());
    load();
    ends.clear();
    with_options!(o, walk_with(text, ends))
}

/// The class of a scalar value as a number, by the official files; nothing for a surrogate or above 10FFFF.
pub fn class_of(c: u32) -> Option<u32> {
    load();
    char::from_u32(c).map(|c| o200k_class_of(c.into()) as u32)
}

fn end_with<const CONTRACTIONS: bool, const DIGITS: u8, const SLASH: bool>(text: &[u8], start: usize) -> usize {
    advance_pos::<CONTRACTIONS, DIGITS, SLASH, false>(text, start)
}

fn walk_with<const CONTRACTIONS: bool, const DIGITS: u8, const SLASH: bool>(text: &[u8], ends: &mut Vec<u32>) {
    let mut at = 0;
    while at < text.len() {
        at = advance_pos::<CONTRACTIONS, DIGITS, SLASH, false>(text, at);
        ends.push(at as u32);
    }
}
