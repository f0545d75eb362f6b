//! Makes a difference as small as it can: fewer bytes, plainer characters, a lower start, plainer options.

use crate::check::{Difference, Question, Tally, one};
use oracle::Options;
use std::time::{Duration, Instant};

const LONGEST_SEARCH: Duration = Duration::from_secs(20);

/// The smallest difference that removing and lowering lead to in the time given.
pub fn smallest(mut found: Box<Difference>) -> Box<Difference> {
    let stop = Instant::now() + LONGEST_SEARCH;
    while let Some(smaller) = smaller(&found, stop) {
        found = smaller;
    }
    found
}

fn smaller(found: &Difference, stop: Instant) -> Option<Box<Difference>> {
    shorter_text(found, stop)
        .or_else(|| shorter_characters(found))
        .or_else(|| plainer_question(found))
        .or_else(|| plainer_options(found))
}

fn differs(text: &[u8], options: Options, question: Question) -> Option<Box<Difference>> {
    one(text, options, question, &mut Tally::default()).err()
}

/// Tries the text without a stretch of it, long stretches first. A text that is UTF-8 stays so.
fn shorter_text(found: &Difference, stop: Instant) -> Option<Box<Difference>> {
    let good = std::str::from_utf8(&found.text).is_ok();
    let mut stretch = found.text.len();
    while stretch > 0 {
        for at in (0..=found.text.len() - stretch).step_by(stretch.div_ceil(8)) {
            if Instant::now() > stop {
                return None;
            }
            let text = [&found.text[..at], &found.text[at + stretch..]].concat();
            if std::str::from_utf8(&text).is_ok() != good {
                continue;
            }
            let question = moved(found.question, at, stretch);
            if let Some(smaller) = differs(&text, found.options, question) {
                return Some(smaller);
            }
        }
        stretch = if stretch > 8 { stretch / 2 } else { stretch - 1 };
    }
    None
}

/// Tries a plain character in place of each longer one, if the text is UTF-8 and not very long.
fn shorter_characters(found: &Difference) -> Option<Box<Difference>> {
    let text = std::str::from_utf8(&found.text).ok().filter(|text| text.len() < 1000)?;
    for (at, c) in text.char_indices() {
        for plain in ['a', 'A', '1', ' ', '!', '\u{E9}', '\u{5D0}', '\u{301}'] {
            if plain.len_utf8() >= c.len_utf8() {
                continue;
            }
            let shorter = format!("{}{plain}{}", &text[..at], &text[at + c.len_utf8()..]);
            let question = moved(found.question, at + plain.len_utf8(), c.len_utf8() - plain.len_utf8());
            if let Some(smaller) = differs(shorter.as_bytes(), found.options, question) {
                return Some(smaller);
            }
        }
    }
    None
}

/// The question with its start moved for a stretch that was taken out.
fn moved(question: Question, at: usize, stretch: usize) -> Question {
    let shift = |start: usize| start - stretch.min(start.saturating_sub(at));
    match question {
        Question::NextEnd { start } => Question::NextEnd { start: shift(start) },
        Question::Fill { start, room } => Question::Fill { start: shift(start), room },
    }
}

/// Tries a next end in place of a fill, a lower start (of the first thousand), less room.
fn plainer_question(found: &Difference) -> Option<Box<Difference>> {
    let ask = |question| differs(&found.text, found.options, question);
    let lowest = |start: usize| start.min(found.text.len() + 3).min(1000);
    match found.question {
        Question::NextEnd { start } => (0..lowest(start)).find_map(|start| ask(Question::NextEnd { start })),
        Question::Fill { start, room } => ask(Question::NextEnd { start })
            .or_else(|| (0..lowest(start)).find_map(|start| ask(Question::Fill { start, room })))
            .or_else(|| (0..room.min(1000)).find_map(|room| ask(Question::Fill { start, room }))),
    }
}

/// Tries the options with one of them off.
fn plainer_options(found: &Difference) -> Option<Box<Difference>> {
    let o = found.options;
    let plainer = [
        Options { contractions: false, ..o },
        Options { slash: false, ..o },
        Options { digits: 0, ..o },
        Options { digits: o.digits.min(1), ..o },
    ];
    let mut plainer = plainer.into_iter().filter(|&p| p != o);
    plainer.find_map(|p| differs(&found.text, p, found.question))
}
