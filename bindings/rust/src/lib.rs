//! Cuts a text into tokens by the o200k pattern and its variants, by a proved library.
//!
//! ```
//! use njuxaleet::{tokens, Options, Refusal};
//!
//! let cut: Vec<&[u8]> = tokens(b"THD 1250", Options::O200K)?.collect();
//! assert_eq!(cut, [&b"THD"[..], b" ", b"125", b"0"]);
//!
//! let refusal = tokens(b"THD \xFF", Options::O200K).unwrap_err();
//! assert_eq!(refusal, Refusal::NotUtf8 { at: 4 });
//! assert_eq!(refusal.to_string(), "refused 3 at 4: the text is not UTF-8");
//! # Ok::<(), Refusal>(())
//! ```
//!
//! A token is told by its end: the offset, in bytes from the text's first, of the byte after it.

mod class;
mod raw;
mod refusal;
mod tokens;

pub use class::{class_of, Class};
pub use refusal::Refusal;
pub use tokens::{tokens, Tokens};

/// The longest text that is taken, in bytes.
pub const LONGEST: usize = 1_048_576;

/// By which variant of the pattern a text is cut.
#[derive(Clone, Copy, Debug, PartialEq, Eq, Hash)]
pub struct Options {
    /// Does a suffix such as `'t` stay with its word?
    pub contractions: bool,
    /// The digit mode, how Number characters go: 0 one by one, 1 by three from the left, 2 by three from the right.
    pub digits: u8,
    /// Does the tail of punctuation take slashes?
    pub slash: bool,
}

impl Options {
    /// The named setting o200k.
    pub const O200K: Options = Options {
        contractions: true,
        digits: 1,
        slash: true,
    };
}

impl Default for Options {
    fn default() -> Options {
        Options::O200K
    }
}

/// What a fill did.
#[derive(Clone, Copy, Debug, PartialEq, Eq)]
pub struct Filled {
    /// How many ends were written.
    pub count: usize,
    /// Where the next token begins: the text's length if no token is left.
    pub next: usize,
}

/// The end of the token at `start`, or `None` exactly at the end of the text.
/// Every call checks the whole text, so use [`fill`] or [`tokens`] for a walk.
pub fn next_end(text: &[u8], options: Options, start: usize) -> Result<Option<usize>, Refusal> {
    let (number, at) = raw::next_end(text, options, start);
    Refusal::of(number, at)?;
    Ok(if at == start { None } else { Some(at) })
}

/// Writes the ends of the tokens from `start` on, as many as there is room and text for. Entries past the count keep
/// their contents, and all do on a refusal. Every call checks the whole text once.
pub fn fill(
    text: &[u8],
    options: Options,
    start: usize,
    ends: &mut [u32],
) -> Result<Filled, Refusal> {
    let (number, count, at) = raw::fill(text, options, start, ends);
    Refusal::of(number, at)?;
    Ok(Filled { count, next: at })
}
