//! The texts that are tried, in order; each stops at the first difference.

use crate::check::{Outcome, Question, Tally, one, steps, whole};
use crate::judge::is_number;
use oracle::texts::{RARER, REPRESENTATIVES, Random, bytes, damaged, sheet, text};
use oracle::{LIMIT, Options};

/// A text under each of the twelve options.
fn under_all_options(text: &[u8], tally: &mut Tally) -> Outcome {
    Options::all().into_iter().try_for_each(|options| whole(text, options, tally))
}

/// The steps of a text under each of the twelve options, and all the rest under o200k.
fn steps_under_all_options(text: &[u8], tally: &mut Tally) -> Outcome {
    whole(text, Options::O200K, tally)?;
    let mut others = Options::all().into_iter().filter(|&o| o != Options::O200K);
    others.try_for_each(|options| steps(text, options, tally))
}

/// The steps of a text under the options that it can tell apart: o200k, and the others where there is an apostrophe, a
/// Number or a slash.
fn steps_under_telling_options(text: &[u8], tally: &mut Tally) -> Outcome {
    let numbers = String::from_utf8_lossy(text).contains(is_number);
    let mut telling = Options::all().into_iter().filter(|o| {
        (o.contractions || text.contains(&b'\'')) && (o.slash || text.contains(&b'/')) && (o.digits == 1 || numbers)
    });
    telling.try_for_each(|options| steps(text, options, tally))
}

/// Small alphabets for longer strings: numbers; words; white space; punctuation and its tail.
const ALPHABETS: [&[char]; 4] = [
    &['1', '\u{661}', 'x'],
    &['A', 'b', '\u{5D0}', '\u{301}', '\'', 's'],
    &[' ', '\n', '\t', '\u{A0}', 'a', '5'],
    &['!', '\n', '/', ' ', 'a', '\u{301}'],
];

/// Every string of at most three representative characters, and every two with the rarer ones among them.
pub fn short_strings(tally: &mut Tally) -> Outcome {
    strings(REPRESENTATIVES, &mut String::new(), 3, &mut |text| steps_under_all_options(text, tally))?;
    let both = [REPRESENTATIVES, RARER].concat();
    strings(&both, &mut String::new(), 2, &mut |text| steps_under_all_options(text, tally))
}

/// Every string of at most four representative characters, and every three with the rarer ones among them.
pub fn long_strings(tally: &mut Tally) -> Outcome {
    strings(REPRESENTATIVES, &mut String::new(), 4, &mut |text| steps_under_telling_options(text, tally))?;
    let both = [REPRESENTATIVES, RARER].concat();
    strings(&both, &mut String::new(), 3, &mut |text| steps_under_telling_options(text, tally))
}

/// Every string over each small alphabet, of at most so many characters.
pub fn alphabets(longest: [usize; 4], tally: &mut Tally) -> Outcome {
    for (alphabet, longest) in ALPHABETS.into_iter().zip(longest) {
        strings(alphabet, &mut String::new(), longest, &mut |text| steps_under_all_options(text, tally))?;
    }
    Ok(())
}

/// Gives `check` the prefix, and every string that goes on from it by at most `more` characters.
fn strings(alphabet: &[char], prefix: &mut String, more: usize, check: &mut impl FnMut(&[u8]) -> Outcome) -> Outcome {
    check(prefix.as_bytes())?;
    if more == 0 {
        return Ok(());
    }
    for &c in alphabet {
        prefix.push(c);
        strings(alphabet, prefix, more - 1, check)?;
        prefix.pop();
    }
    Ok(())
}

/// An apostrophe after a character of each kind, and every two letters of the suffixes after it, and what may follow.
pub fn suffixes(tally: &mut Tally) -> Outcome {
    let letters = "strevmldSTREVMLD\u{17F}b'\u{416}";
    for before in ["a", "B", "\u{5D0}", "\u{301}", "!", " ", "1", "a's", "\u{5D0}B"] {
        for first in letters.chars() {
            for second in letters.chars() {
                for after in ["", "x", "'d", "E"] {
                    steps_under_all_options(format!("{before}'{first}{second}{after}").as_bytes(), tally)?;
                }
            }
        }
    }
    Ok(())
}

/// Random texts of each length, as many as `tries` says for it.
pub fn random_texts(random: &mut Random, tries: impl Fn(usize) -> usize, tally: &mut Tally) -> Outcome {
    let lengths = (0..=40).chain(60..=70).chain(125..=131).chain(250..=260).chain([1000, 1001, 1023, 1024, 1025]);
    for length in lengths {
        for _ in 0..tries(length) {
            under_all_options(text(random, length).as_bytes(), tally)?;
        }
    }
    Ok(())
}

/// One random text of a random length, and two damaged ones.
pub fn random_text(random: &mut Random, tally: &mut Tally) -> Outcome {
    let longest = random.pick(&[8, 20, 40, 70, 131, 260]);
    let length = random.below(longest + 1);
    under_all_options(text(random, length).as_bytes(), tally)?;
    damaged_copies(random, 2, tally)
}

/// Damaged copies of as many random texts, each under one choice of options.
pub fn damaged_copies(random: &mut Random, copies: usize, tally: &mut Tally) -> Outcome {
    for _ in 0..copies {
        let length = random.below(80);
        let mut copy = text(random, length).into_bytes();
        for _ in 0..=random.below(3) {
            copy = damaged(random, &copy);
        }
        whole(&copy, random.pick(&Options::all()), tally)?;
    }
    Ok(())
}

/// Bench sheets, each under the twelve options.
pub fn sheets(random: &mut Random, count: usize, tally: &mut Tally) -> Outcome {
    for _ in 0..count {
        let lines = 1 + random.below(8);
        under_all_options(sheet(random, lines).as_bytes(), tally)?;
    }
    Ok(())
}

/// The edges of the refusal table: UTF-8's ranges, digit modes, the limit, and several at once in their order.
pub fn refusals(tally: &mut Tally) -> Outcome {
    for edge in UTF8_EDGES {
        for (before, after) in [("", ""), ("a", ""), ("", "z"), ("\u{E9}", "\u{E9}")] {
            under_all_options(&[before.as_bytes(), edge, after.as_bytes()].concat(), tally)?;
        }
    }
    for digits in 3..=255 {
        let options = Options { digits, ..Options::O200K };
        for text in [&b""[..], b"a", b"a\xC3\xA9", b"\xC0\x80"] {
            whole(text, options, tally)?;
        }
    }
    byte_strings(tally)?;
    around_the_limit(tally)
}

/// Every string of two bytes, of three bytes at the edges of UTF-8's ranges, and of four after a lead byte of four.
fn byte_strings(tally: &mut Tally) -> Outcome {
    let ask = |text: &[u8], tally: &mut Tally| one(text, Options::O200K, Question::NextEnd { start: 0 }, tally);
    for pair in 0..=u16::MAX {
        ask(&pair.to_be_bytes(), tally)?;
    }
    for &a in EDGE_BYTES {
        for &b in EDGE_BYTES {
            for &c in EDGE_BYTES {
                ask(&[a, b, c], tally)?;
                for lead in 0xEF..=0xF5 {
                    ask(&[lead, a, b, c], tally)?;
                }
            }
        }
    }
    Ok(())
}

/// The first and last bytes of the ranges of UTF-8, and their neighbours.
#[rustfmt::skip]
const EDGE_BYTES: &[u8] = &[
    0x00, 0x41, 0x7F, 0x80, 0x8F, 0x90, 0x9F, 0xA0, 0xBF, 0xC0, 0xC1, 0xC2, 0xDF, 0xE0, 0xE1, 0xEC, 0xED, 0xEE, 0xEF, 0xF0, 0xF1,
    0xF3, 0xF4, 0xF5, 0xFF,
];

/// Ill-formed sequences, and the well-formed ones next to them.
#[rustfmt::skip]
pub const UTF8_EDGES: &[&[u8]] = &[
    b"\xF4\x8F\xBF\xBF", b"\xF4\x90\x80\x80", b"\xC2\x80", b"\xC0\x80", b"\xC1\xBF", b"\xED\x9F\xBF", b"\xED\xA0\x80",
    b"\xED\xBF\xBF", b"\xEE\x80\x80", b"\xE2\x82", b"\xE0\xA0\x80", b"\xE0\x9F\xBF", b"\xF0\x90\x80\x80", b"\xF0\x8F\xBF\xBF",
    b"\xF5\x80\x80\x80", b"\xFF", b"\x80", b"\xBF", b"\xC2", b"\xDF\xBF", b"\xDF\xC0", b"\xE1\x80", b"\xEF\xBF\xBF",
    b"\xF3\xBF\xBF\xBF", b"\xF1\x80\x80", b"\xF0\x9F\x98", b"\xC2\x41", b"\xE2\x82\x41", b"\xF0\x9F\x41\x80",
];

fn around_the_limit(tally: &mut Tally) -> Outcome {
    let plain = sheet(&mut Random::new(1), LIMIT / 16);
    for length in [LIMIT - 1, LIMIT, LIMIT + 1] {
        for last in [&b"a"[..], b"\xC3\xA9", b"\x80", b"\xE2\x82"] {
            let mut text = plain.as_bytes()[..plain.floor_char_boundary(length - 4)].to_vec();
            text.resize(length - last.len(), b'x');
            text.extend_from_slice(last);
            for start in [0, 1, LIMIT - 1, LIMIT, LIMIT + 1, LIMIT + 2, usize::MAX] {
                of_a_large_text(&text, start, tally)?;
            }
        }
    }
    Ok(())
}

fn of_a_large_text(text: &[u8], start: usize, tally: &mut Tally) -> Outcome {
    for digits in [1, 2, 3, 255] {
        let options = Options { digits, ..Options::O200K };
        one(text, options, Question::NextEnd { start }, tally)?;
        one(text, options, Question::Fill { start, room: 3 }, tally)?;
    }
    if start == 0 {
        one(text, Options::O200K, Question::Fill { start, room: text.len() }, tally)?;
    }
    Ok(())
}

/// Any bytes, any start, any options.
pub fn anything(random: &mut Random, tally: &mut Tally) -> Outcome {
    let longest = random.pick(&[4, 16, 64, 300, 300, 2000]);
    let length = random.below(longest + 1);
    let input = any_bytes(random, length);
    let digits = if random.below(8) == 0 { random.number() as u8 } else { random.below(3) as u8 };
    let options = Options { contractions: random.below(2) == 0, digits, slash: random.below(2) == 0 };
    for _ in 0..8 {
        let start = any_start(random, input.len());
        one(&input, options, Question::NextEnd { start }, tally)?;
        let most = random.pick(&[3, input.len() + 1]);
        let room = random.below(most + 1);
        one(&input, options, Question::Fill { start, room }, tally)?;
    }
    Ok(())
}

/// Bytes of about that length, or, seldom, of a length next to the limit.
fn any_bytes(random: &mut Random, length: usize) -> Vec<u8> {
    match random.below(20_000) {
        0 => vec![b'a'; LIMIT - 1 + random.below(4)],
        1..5000 => bytes(random, length),
        5000..10_000 => {
            let good = text(random, length);
            damaged(random, good.as_bytes())
        }
        _ => text(random, length).into_bytes(),
    }
}

fn any_start(random: &mut Random, length: usize) -> usize {
    match random.below(16) {
        0 => random.number() as usize,
        1 => usize::MAX - random.below(4),
        2 => length,
        3 => 0,
        _ => random.below(length + 3),
    }
}
