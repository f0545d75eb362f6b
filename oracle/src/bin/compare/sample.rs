//! The kept sample: questions as lines, and the same lines with the ends of a walk from the start, or the refusal.

use crate::cases::UTF8_EDGES;
use crate::judge::Judge;
use oracle::Options;
use oracle::texts::{Random, bytes, damaged, sheet, text};
use std::fmt::Write;
use std::fs;
use std::process::exit;

const CASES: usize = 1500;
const LONGEST: usize = 200;

struct Sampled {
    text: Vec<u8>,
    options: Options,
    start: usize,
}

/// Document 01's sheets, its slips, and a text or more for each alternative of the pattern.
#[rustfmt::skip]
const TEXTS: &[&str] = &[
    "", "THD 1250", "0,5", "don't", "'sound", "x'll'd", "a'\u{17F}b", "\u{5D0}A", "\u{5D0}Ab", "\u{301}A", "  a", " \n x", "!\n/!",
    "aB", "ABc", "\tV", "\t5", "\u{A0}a", "1\u{B2}34",
    // a tail of upper case after a caseless character or a mark, with and without what opens a word
    "AB\u{5D0}CD", "\u{5D0}\u{301}CD'sE", " \u{4E2D}\u{1C5}A", "!\u{5D0}Z\u{10400}",
    // an apostrophe that leads, and one that follows; suffixes in every case
    "'t 's's", "can'ts", "I'LL they'Ve we'rE 3'ts", "DON'T", "x'\u{17F}", "x''s", "\u{301}'s",
    // punctuation: opened by a space alone, ended by its tail
    "\t!!", " !!", "\u{A0}!", "!!\r\n//!!", "a/b//\n/", " /\n", "!\u{301}!", "\u{1F600}\u{20D0}\n",
    // white space before content, with line ends, at the end
    "   a", "\t\t5", " \u{2003}\u{A0}!", "a \n \r  b", "\n\n", "  ", "a  ", "\u{3000}\u{2028}x", "\r",
    // numbers in one to four bytes
    "1234567", "12345678", "123456789", "\u{661}\u{662}\u{663}\u{664}\u{665}", "9\u{1D7CF}\u{2160}8\u{B2}", " 12", "\u{378}1",
];

/// Texts that are asked from every start, in digit mode 2 too: some of these stand inside a number or a character.
const EVERY_START: &[&str] = &["12345", "a12\u{B2}\u{661}5678z", "\u{E9}\u{4E2D}\u{1F600}x", "x'\u{17F} \u{1D7CF}9\u{2160}1"];

/// Writes both files.
pub fn write(input: &str, output: &str) {
    let (mut questions, mut answers) = (String::new(), String::new());
    for sampled in all() {
        let question = line(&sampled);
        let answer = answer(&sampled);
        writeln!(questions, "{question}").expect("a string takes any text");
        writeln!(answers, "{question}:{answer}").expect("a string takes any text");
    }
    for (path, contents) in [(input, questions), (output, answers)] {
        if let Err(why) = fs::write(path, contents) {
            eprintln!("compare: {path} cannot be written: {why}");
            exit(2);
        }
    }
}

pub fn hex(bytes: &[u8]) -> String {
    if bytes.is_empty() {
        return String::from("-");
    }
    bytes.iter().map(|b| format!("{b:02x}")).collect()
}

fn line(sampled: &Sampled) -> String {
    let o = sampled.options;
    format!("{} {} {} {} {}", u8::from(o.contractions), o.digits, u8::from(o.slash), sampled.start, hex(&sampled.text))
}

fn answer(sampled: &Sampled) -> String {
    let mut ends = Vec::new();
    match Judge::new(&sampled.text, sampled.options).fill(sampled.start, usize::MAX, &mut ends) {
        Ok(Ok(_)) => ends.iter().map(|end| format!(" {end}")).collect(),
        Ok(Err((number, place))) => format!(" refused {number} at {place}"),
        Err(odd) => {
            println!("difference: {}: {odd}", line(sampled));
            exit(1)
        }
    }
}

fn all() -> Vec<Sampled> {
    let mut list = Vec::new();
    for text in TEXTS {
        for options in Options::all() {
            list.push(Sampled { text: text.as_bytes().to_vec(), options, start: 0 });
        }
    }
    every_start(&mut list);
    refused(&mut list);
    random_ones(&mut list);
    list
}

fn every_start(list: &mut Vec<Sampled>) {
    for text in EVERY_START {
        for digits in 0..3 {
            for start in 0..=text.len() + 1 {
                let options = Options { digits, ..Options::O200K };
                list.push(Sampled { text: text.as_bytes().to_vec(), options, start });
            }
        }
    }
}

/// The edges of UTF-8, and several refusals at once, in their order.
fn refused(list: &mut Vec<Sampled>) {
    for edge in UTF8_EDGES {
        list.push(Sampled { text: edge.to_vec(), options: Options::O200K, start: 0 });
        list.push(Sampled { text: [b"ab ", *edge].concat(), options: Options::O200K, start: 2 });
    }
    for text in [&b""[..], b"a", b"\xC3\xA9", b"\xC3\xA9\xC0\x80"] {
        for digits in [2, 3, 255] {
            for start in [0, 1, 2, 5, 4_294_967_295] {
                let options = Options { digits, ..Options::O200K };
                list.push(Sampled { text: text.to_vec(), options, start });
            }
        }
    }
}

/// Random texts, bench sheets, damaged texts and plain bytes, up to the number of cases.
fn random_ones(list: &mut Vec<Sampled>) {
    let random = &mut Random::new(2026);
    while list.len() < CASES {
        let longest = random.pick(&[12, 40, 100, LONGEST]);
        let length = random.below(longest);
        let mut text = match random.below(32) {
            0..4 => sheet(random, 3).into_bytes(),
            4..8 => {
                let good = text(random, length);
                damaged(random, good.as_bytes())
            }
            8 => bytes(random, length),
            _ => text(random, length).into_bytes(),
        };
        text.truncate(LONGEST);
        let start = if random.below(2) == 0 { 0 } else { random.below(text.len() + 1) };
        list.push(Sampled { text, options: random.pick(&Options::all()), start });
    }
}
