//! The port's `fill` against the Rust that was ported, and against regular-expression engines: the tables of docs/SPEED.md.
//!
//!     cargo run --release --offline --bin bench [-- [--quick] [WORD]]
//!
//! --quick takes fewer and shorter rounds; with a word, only the inputs with it in their name are measured.
//! `fill` is taken whole, with its check of the text. What a ratio compares takes turns, round
//! by round, and every figure is a median.

mod inputs;
mod peers;
mod race;
mod rows;
mod tables;

use inputs::{Input, LARGE, SMALL};
use race::{FULL, Plan, QUICK};
use std::{env, process};

const USAGE: &str = "usage: cargo run --release --offline --bin bench [-- [--quick] [WORD]]";

fn main() {
    let arguments: Vec<String> = env::args().skip(1).collect();
    if arguments.iter().any(|a| a == "--help") {
        println!("{USAGE}");
        return;
    }
    let (plan, word) = asked(&arguments).unwrap_or_else(|why| refuse(&format!("{why}\n{USAGE}")));
    let (mut texts, mut pairs) = (inputs::ordinary(), inputs::worst(SMALL).into_iter().zip(inputs::worst(LARGE)).collect());
    keep(&mut texts, &mut pairs, word);
    tables::machine(&plan);
    let rows: Vec<_> = texts.iter().chain(pairs.iter().map(|pair| &pair.0)).map(|input| rows::measured(input, &plan)).collect();
    tables::against_rust(&rows);
    let grown: Vec<_> = pairs.iter().map(|pair| rows::grown(pair, &plan)).collect();
    let sheets = if inputs::SHEETS.contains(word) { inputs::sheets() } else { Vec::new() };
    let ways: Vec<_> = sheets.iter().map(|sheet| rows::ways(sheet, &plan)).collect();
    tables::linear(&grown, &ways);
    tables::beside_engines(&rows);
}

/// How to measure, and the word that a name must have in it.
fn asked(arguments: &[String]) -> Result<(Plan, &str), String> {
    let (options, words): (Vec<&str>, Vec<&str>) = arguments.iter().map(String::as_str).partition(|a| a.starts_with('-'));
    if let Some(unknown) = options.iter().find(|a| **a != "--quick") {
        return Err(format!("there is no option {unknown}"));
    }
    let plan = if options.is_empty() { FULL } else { QUICK };
    match words[..] {
        [] => Ok((plan, "")),
        [word] => Ok((plan, word)),
        [_, second, ..] => Err(format!("only one word is taken, and {second} is a second")),
    }
}

/// Leaves the inputs with the word in their name, of which there must be one.
fn keep(texts: &mut Vec<Input>, pairs: &mut Vec<(Input, Input)>, word: &str) {
    let names: Vec<String> = texts.iter().chain(pairs.iter().map(|pair| &pair.0)).map(|input| input.name.clone()).collect();
    texts.retain(|input| input.name.contains(word));
    pairs.retain(|pair| pair.0.name.contains(word));
    if texts.is_empty() && pairs.is_empty() {
        refuse(&format!("no input has {word} in its name; the names are\n  {}", names.join("\n  ")));
    }
}

fn refuse(why: &str) -> ! {
    eprintln!("bench: {why}");
    process::exit(2)
}
