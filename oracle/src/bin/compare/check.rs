//! Compares the port with the judge: one answer, every answer for a text, every class.

use crate::judge::Judge;
use oracle::{Options, ours, reference};
use std::fmt::Write;

/// What a list lent to fill holds beforehand.
const MARK: u32 = 0xA5A5_A5A5;
/// Entries on each side of the lent list that no fill may touch.
const MARGIN: usize = 2;

/// One question to the port.
#[derive(Clone, Copy, PartialEq, Eq, Debug)]
pub enum Question {
    NextEnd { start: usize },
    Fill { start: usize, room: usize },
}

/// Two answers that are not the same.
pub struct Difference {
    pub text: Vec<u8>,
    pub options: Options,
    pub question: Question,
    pub right: String,
    pub ours: String,
}

/// How much has been compared.
#[derive(Default)]
pub struct Tally {
    pub cases: u64,
    pub results: u64,
    pub listed: u64,
    pub refusals: [u64; 7],
}

impl Tally {
    fn count(&mut self, judge: &Judge) {
        self.cases += 1;
        self.listed += judge.listed;
    }
}

pub type Outcome = Result<(), Box<Difference>>;

fn difference(judge: &Judge, question: Question, right: String, ours: String) -> Outcome {
    Err(Box::new(Difference { text: judge.text.to_vec(), options: judge.options, question, right, ours }))
}

/// Next end from every start, and past the end, and a fill from zero with room to spare.
pub fn steps(text: &[u8], options: Options, tally: &mut Tally) -> Outcome {
    let mut judge = Judge::new(text, options);
    every_step(&mut judge, tally)?;
    tally.count(&judge);
    Ok(())
}

/// The same, and fills of little room from every start and one after another.
pub fn whole(text: &[u8], options: Options, tally: &mut Tally) -> Outcome {
    let mut judge = Judge::new(text, options);
    every_step(&mut judge, tally)?;
    for start in 0..=text.len() + 2 {
        fill(&mut judge, start, start % 4, tally)?;
    }
    for room in 1..=3 {
        resumed(&mut judge, room, tally)?;
    }
    tally.count(&judge);
    Ok(())
}

fn every_step(judge: &mut Judge, tally: &mut Tally) -> Outcome {
    for start in 0..=judge.text.len() + 2 {
        next_end(judge, start, tally)?;
    }
    walk(judge, tally)
}

/// One answer.
pub fn one(text: &[u8], options: Options, question: Question, tally: &mut Tally) -> Outcome {
    let mut judge = Judge::new(text, options);
    match question {
        Question::NextEnd { start } => next_end(&mut judge, start, tally)?,
        Question::Fill { start, room } => fill(&mut judge, start, room, tally)?,
    }
    tally.count(&judge);
    Ok(())
}

fn next_end(judge: &mut Judge, start: usize, tally: &mut Tally) -> Outcome {
    let question = Question::NextEnd { start };
    let ours = ours::next_end(judge.text, judge.options, start);
    let right = match judge.answer(start) {
        Ok(answer) => answer,
        Err(odd) => return difference(judge, question, odd, format!("{ours:?}")),
    };
    if ours != right {
        return difference(judge, question, format!("{right:?}"), format!("{ours:?}"));
    }
    tally.results += 1;
    if let ours::Answer::Refused(number, _) = right {
        tally.refusals[number as usize] += 1;
    }
    Ok(())
}

/// A fill of so much room from a start, by the ends of single steps.
fn fill(judge: &mut Judge, start: usize, room: usize, tally: &mut Tally) -> Outcome {
    let mut ends = Vec::new();
    match judge.fill(start, room, &mut ends) {
        Ok(outcome) => compare_fill(judge, start, room, &ends, outcome, tally),
        Err(odd) => difference(judge, Question::Fill { start, room }, odd, String::from("not asked")),
    }
}

/// A fill with room to spare from zero, by the Rust's own walk.
fn walk(judge: &mut Judge, tally: &mut Tally) -> Outcome {
    let room = judge.text.len() + 1;
    if !judge.passed() {
        return fill(judge, 0, room, tally);
    }
    let mut ends = Vec::new();
    reference::walk(judge.text, judge.options, &mut ends);
    compare_fill(judge, 0, room, &ends, Ok(judge.text.len()), tally)
}

/// Fills of little room, each from where the one before says, up to the end of text or a refusal.
fn resumed(judge: &mut Judge, room: usize, tally: &mut Tally) -> Outcome {
    let mut start = 0;
    loop {
        fill(judge, start, room, tally)?;
        match judge.fill(start, room, &mut Vec::new()) {
            Ok(Ok(next)) if next > start => start = next,
            _ => return Ok(()),
        }
    }
}

fn compare_fill(
    judge: &Judge,
    start: usize,
    room: usize,
    ends: &[u32],
    outcome: Result<usize, (u32, usize)>,
    tally: &mut Tally,
) -> Outcome {
    let mut list = vec![MARK; room + 2 * MARGIN];
    let ours = ours::raw_fill(judge.text, judge.options, start, &mut list[MARGIN..MARGIN + room]);
    let right = match outcome {
        Ok(next) => (0, ends.len(), next),
        Err((number, place)) => (number, 0, place),
    };
    let (before, rest) = list.split_at(MARGIN);
    let (written, after) = rest.split_at(ends.len());
    if ours != right || written != ends || before.iter().chain(after).any(|&entry| entry != MARK) {
        let question = Question::Fill { start, room };
        return difference(judge, question, shown(right, ends), shown(ours, &list[MARGIN..MARGIN + room]));
    }
    tally.results += 1;
    tally.refusals[right.0 as usize] += u64::from(right.0 != 0);
    Ok(())
}

fn shown((refusal, count, at): (u32, usize, usize), list: &[u32]) -> String {
    let mut line = format!("refusal {refusal}, count {count}, at {at}, list");
    for &entry in list.iter().take(40) {
        match entry {
            MARK => line.push_str(" -"),
            end => write!(line, " {end}").expect("a string takes any text"),
        }
    }
    line
}

/// The class of every value up to past the last one, and of some far above. Gives how many were asked.
pub fn classes() -> Result<u64, String> {
    let far = [0x11_0000 + 0x41, 0x20_0000, 0x100_0041, 0x7FFF_FFFF, 0x8000_0000, u32::MAX];
    let mut asked = 0;
    for c in (0..=0x11_0010).chain(far) {
        let right = reference::class_of(c).map_or((6, 0), |class| (0, class));
        let ours = ours::raw_class_of(c);
        if ours != right {
            return Err(format!("class of {c:#x}: the right (refusal, class) is {right:?}, ours {ours:?}"));
        }
        asked += 1;
    }
    Ok(asked)
}
