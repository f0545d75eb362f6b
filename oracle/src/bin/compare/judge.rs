//! What the answers must be: the refusals by document 01, the ends by the Rust, and by the rule where the two part.

use oracle::ours::Answer;
use oracle::{LIMIT, Options, reference};

const NUMBER: u32 = 4;

/// The right answers for one text under one choice of options.
pub struct Judge<'a> {
    pub text: &'a [u8],
    pub options: Options,
    /// The text as characters, or the refusal of the checks 1, 2 and 3.
    checked: Result<&'a str, (u32, usize)>,
    /// The ends found already, by start; 0 where none has been asked for.
    ends: Vec<u32>,
    /// How many ends are the rule's and not the Rust's.
    pub listed: u64,
}

impl<'a> Judge<'a> {
    pub fn new(text: &'a [u8], options: Options) -> Judge<'a> {
        let checked = check(text, options);
        let known = if checked.is_ok() { text.len() } else { 0 };
        Judge { text, options, checked, ends: vec![0; known], listed: 0 }
    }

    /// The right answer of next end. An error says how the Rust differs in a way that is not listed.
    pub fn answer(&mut self, start: usize) -> Result<Answer, String> {
        let text = match self.checked {
            Err((number, place)) => return Ok(Answer::Refused(number, place)),
            Ok(text) => text,
        };
        if start > text.len() {
            return Ok(Answer::Refused(4, text.len()));
        }
        if !text.is_char_boundary(start) {
            return Ok(Answer::Refused(5, text.floor_char_boundary(start)));
        }
        if start == text.len() {
            return Ok(Answer::End(start));
        }
        if self.ends[start] == 0 {
            self.ends[start] = self.end(text, start)? as u32;
        }
        Ok(Answer::At(self.ends[start] as usize))
    }

    /// The right answer of fill: the ends and the next start, or a refusal's number and place.
    pub fn fill(&mut self, start: usize, room: usize, ends: &mut Vec<u32>) -> Result<Result<usize, (u32, usize)>, String> {
        ends.clear();
        if let Answer::Refused(number, place) = self.answer(start)? {
            return Ok(Err((number, place)));
        }
        let mut next = start;
        while ends.len() < room {
            let Answer::At(end) = self.answer(next)? else { break };
            ends.push(end as u32);
            next = end;
        }
        Ok(Ok(next))
    }

    /// Did the text pass the checks 1, 2 and 3?
    pub fn passed(&self) -> bool {
        self.checked.is_ok()
    }

    fn end(&mut self, text: &str, start: usize) -> Result<usize, String> {
        let rust = reference::end(self.text, self.options, start);
        if self.options.digits != 2 || !number_on_both_sides(text, start) {
            return Ok(rust);
        }
        let (rule, back) = (right_aligned(text, start), up_to_three(text, start));
        if rust != back {
            return Err(format!("the Rust ends at {rust}, and its look-back at {back}"));
        }
        let alone = start + reference::end(&self.text[start..], self.options, 0);
        if rule != alone {
            return Err(format!("the Rust ends at {alone} on the text from the start onward, and the rule at {rule}"));
        }
        self.listed += u64::from(rule != rust);
        Ok(rule)
    }
}

fn check(text: &[u8], options: Options) -> Result<&str, (u32, usize)> {
    if options.digits > 2 {
        return Err((1, 0));
    }
    if text.len() > LIMIT {
        return Err((2, LIMIT));
    }
    std::str::from_utf8(text).map_err(|e| (3, e.valid_up_to()))
}

/// Is the character of the class Number?
pub fn is_number(c: char) -> bool {
    reference::class_of(c.into()) == Some(NUMBER)
}

fn number_on_both_sides(text: &str, start: usize) -> bool {
    text[start..].starts_with(is_number) && text[..start].ends_with(is_number)
}

/// The rule of mode 2: ((n - 1) mod 3) + 1 of the n Number characters from the start onward.
fn right_aligned(text: &str, start: usize) -> usize {
    let numbers = text[start..].chars().take_while(|&c| is_number(c)).count();
    after(text, start, (numbers - 1) % 3 + 1)
}

/// What the Rust's look-back takes: up to three Number characters.
fn up_to_three(text: &str, start: usize) -> usize {
    let numbers = text[start..].chars().take(3).take_while(|&c| is_number(c)).count();
    after(text, start, numbers)
}

/// The place after so many characters.
fn after(text: &str, start: usize, characters: usize) -> usize {
    start + text[start..].chars().take(characters).map(char::len_utf8).sum::<usize>()
}
