//! The class of a character, read at start-up from the official files of Unicode 15.0.0.

use std::path::PathBuf;
use std::sync::Once;
use std::sync::atomic::{AtomicU8, Ordering::Relaxed};
use std::{env, fs, process};

const VERSION: &str = "15.0.0";

/// The seven classes of document 01, by its numbers.
#[derive(Clone, Copy, PartialEq, Eq, Debug)]
#[repr(u8)]
pub(crate) enum O200kCharClass {
    Upper = 0,
    Lower = 1,
    Caseless = 2,
    Mark = 3,
    Number = 4,
    Whitespace = 5,
    Other = 6,
}

use O200kCharClass::{Caseless, Lower, Mark, Number, Other, Upper, Whitespace};

/// One class for each number of 21 bits, so that an index cut to 21 bits is always inside.
static TABLE: [AtomicU8; 1 << 21] = [const { AtomicU8::new(0) }; 1 << 21];
static LOADED: Once = Once::new();

/// The class of a scalar value. [`load`] has been called.
#[inline(always)]
pub(crate) fn o200k_class_of(c: u32) -> O200kCharClass {
    let number = TABLE[(c & 0x1F_FFFF) as usize].load(Relaxed);
    // SAFETY: only `class as u8` is ever stored, and 0 is Upper.
    unsafe { std::mem::transmute::<u8, O200kCharClass>(number) }
}

/// What document 000 asks of a character with HAN true; here no character is Han.
pub(crate) struct NoHan(O200kCharClass);

impl NoHan {
    pub(crate) fn base(&self) -> O200kCharClass {
        self.0
    }

    pub(crate) fn is_han(&self) -> bool {
        false
    }
}

pub(crate) fn kimi_class_of(c: u32) -> NoHan {
    NoHan(o200k_class_of(c))
}

/// Fills the table, once. Ends the program with status 2 if the official files cannot be had.
#[inline(always)]
pub(crate) fn load() {
    LOADED.call_once(|| {
        if let Err(why) = fill_table() {
            eprintln!("oracle: {why}");
            process::exit(2);
        }
    });
}

fn fill_table() -> Result<(), String> {
    let categories = official("extracted", "DerivedGeneralCategory.txt")?;
    let properties = official("", "PropList.txt")?;
    set(0, 0x1F_FFFF, Other);
    for (first, last, category) in categories.lines().filter_map(row) {
        set(first, last, class_of_category(category));
    }
    for (first, last, property) in properties.lines().filter_map(row) {
        if property == "White_Space" {
            set(first, last, Whitespace);
        }
    }
    Ok(())
}

fn set(first: u32, last: u32, class: O200kCharClass) {
    for entry in &TABLE[first as usize..=last as usize] {
        entry.store(class as u8, Relaxed);
    }
}

fn class_of_category(category: &str) -> O200kCharClass {
    match category {
        "Lu" | "Lt" => Upper,
        "Ll" => Lower,
        "Lm" | "Lo" => Caseless,
        "Mn" | "Mc" | "Me" => Mark,
        "Nd" | "Nl" | "No" => Number,
        _ => Other,
    }
}

/// First value, last value and property of a row such as `0041..005A ; Lu # ...`; nothing for a comment.
fn row(line: &str) -> Option<(u32, u32, &str)> {
    let (values, property) = line.split('#').next()?.split_once(';')?;
    let values = values.trim();
    let (first, last) = values.split_once("..").unwrap_or((values, values));
    let value = |digits| u32::from_str_radix(digits, 16).ok();
    Some((value(first)?, value(last)?, property.trim()))
}

/// The contents of an official file, of the version that is meant.
fn official(folder: &str, name: &str) -> Result<String, String> {
    let top = env::var_os("UNICODE_DATA").unwrap_or_else(|| "/usr/share/unicode".into());
    let path = PathBuf::from(top).join(folder).join(name);
    let shown = path.display();
    let text = fs::read_to_string(&path).map_err(|why| {
        format!("{shown} cannot be read ({why}); Debian's package unicode-data has it, or name another folder by UNICODE_DATA")
    })?;
    let title = format!("# {}-{VERSION}.txt", name.trim_end_matches(".txt"));
    match text.lines().next() {
        Some(line) if line == title => Ok(text),
        _ => Err(format!("{shown} is not of Unicode {VERSION}")),
    }
}
