//! The judge of the port: the Rust that was ported (`reference`), the port itself (`ours`), and texts to try both on.

pub mod ours;
mod pretokenize;
pub mod reference;
pub mod texts;

/// The largest text that is not refused, in bytes.
pub const LIMIT: usize = 1_048_576;

/// The options of the pattern. Digit modes above 2 are refused by the port.
#[derive(Clone, Copy, PartialEq, Eq, Debug)]
pub struct Options {
    pub contractions: bool,
    pub digits: u8,
    pub slash: bool,
}

impl Options {
    /// The named setting.
    pub const O200K: Options = Options { contractions: true, digits: 1, slash: true };

    /// Every choice of options that is not refused.
    pub fn all() -> [Options; 12] {
        std::array::from_fn(|i| Options { contractions: i & 1 != 0, digits: (i / 4) as u8, slash: i & 2 != 0 })
    }
}
