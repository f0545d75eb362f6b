//! Compares the port with the Rust that was ported.
//!
//!   compare                        the short form
//!   compare --long [SECONDS]       strings of four characters too, then random texts until the time is over (600)
//!   compare --soak SECONDS         any bytes, any starts, any options
//!   compare --sample INPUT OUTPUT  write a kept sample of questions, and the same with their answers
//!   --seed N                       another row of random texts (1)
//!
//! Exit status: 0 no difference; 1 a difference; 2 wrongly called, or the official files are missing.

mod cases;
mod check;
mod judge;
mod sample;
mod shrink;

use check::{Difference, Outcome, Question, Tally};
use oracle::texts::Random;
use std::process::exit;
use std::time::{Duration, Instant};

enum Form {
    Short,
    Long(u64),
    Soak(u64),
    Sample(String, String),
}

fn main() {
    let (form, seed) = arguments().unwrap_or_else(|| {
        eprintln!("usage: compare [--long [SECONDS] | --soak SECONDS | --sample INPUT OUTPUT] [--seed N]");
        exit(2)
    });
    let begun = Instant::now();
    let mut tally = Tally::default();
    let outcome = match form {
        Form::Short => short(seed, &mut tally),
        Form::Long(seconds) => long(seed, seconds, begun, &mut tally),
        Form::Soak(seconds) => soak(seed, seconds, begun, &mut tally),
        Form::Sample(input, output) => return sample::write(&input, &output),
    };
    report(&tally, begun.elapsed());
    if let Err(found) = outcome {
        print_difference(&found, "difference");
        print_difference(&shrink::smallest(found), "smallest");
        exit(1);
    }
}

/// The form and the seed asked for, or nothing if the words make no sense.
fn arguments() -> Option<(Form, u64)> {
    let mut words = std::env::args().skip(1).peekable();
    let (mut form, mut seed) = (Form::Short, 1);
    while let Some(word) = words.next() {
        match word.as_str() {
            "--seed" => seed = words.next()?.parse().ok()?,
            "--long" => form = Form::Long(words.next_if(|w| !w.starts_with('-')).map_or(Some(600), |w| w.parse().ok())?),
            "--soak" => form = Form::Soak(words.next()?.parse().ok()?),
            "--sample" => form = Form::Sample(words.next()?, words.next()?),
            _ => return None,
        }
    }
    Some((form, seed))
}

fn short(seed: u64, tally: &mut Tally) -> Outcome {
    let random = &mut Random::new(seed);
    classes(tally);
    cases::refusals(tally)?;
    cases::short_strings(tally)?;
    cases::alphabets([7, 4, 4, 4], tally)?;
    cases::suffixes(tally)?;
    cases::random_texts(random, |length| 1 + 1000 / (length + 20), tally)?;
    cases::damaged_copies(random, 40_000, tally)?;
    cases::sheets(random, 20, tally)
}

fn long(seed: u64, seconds: u64, begun: Instant, tally: &mut Tally) -> Outcome {
    short(seed, tally)?;
    cases::long_strings(tally)?;
    cases::alphabets([9, 6, 6, 6], tally)?;
    let random = &mut Random::new(seed.wrapping_add(1));
    while begun.elapsed() < Duration::from_secs(seconds) {
        for _ in 0..100 {
            cases::random_text(random, tally)?;
        }
        cases::sheets(random, 1, tally)?;
    }
    Ok(())
}

fn soak(seed: u64, seconds: u64, begun: Instant, tally: &mut Tally) -> Outcome {
    let random = &mut Random::new(seed);
    while begun.elapsed() < Duration::from_secs(seconds) {
        for _ in 0..1000 {
            cases::anything(random, tally)?;
        }
    }
    Ok(())
}

fn classes(tally: &mut Tally) {
    match check::classes() {
        Ok(asked) => tally.results += asked,
        Err(why) => {
            println!("difference: {why}");
            exit(1);
        }
    }
}

fn report(tally: &Tally, time: Duration) {
    let [_, refusals @ ..] = tally.refusals;
    println!("compared {} cases, {} results in {:.1} s", tally.cases, tally.results, time.as_secs_f64());
    println!("refusals 1 to 5 among them: {:?}", &refusals[..5]);
    println!("listed differences (digit mode 2, a start inside a number): {}", tally.listed);
}

fn print_difference(found: &Difference, title: &str) {
    let start = match found.question {
        Question::NextEnd { start } => format!("next end from {start}"),
        Question::Fill { start, room } => format!("fill from {start}, room {room}"),
    };
    let o = found.options;
    let shown = &found.text[..found.text.len().min(400)];
    println!("{title}: {start}; contractions {}, digits {}, slash {}", o.contractions, o.digits, o.slash);
    println!("  bytes: {} {}", found.text.len(), sample::hex(shown));
    println!("  text:  {:?}", String::from_utf8_lossy(shown));
    println!("  right: {}", found.right);
    println!("  ours:  {}", found.ours);
}
