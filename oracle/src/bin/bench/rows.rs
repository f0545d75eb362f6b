//! What the tables are made of.

use crate::inputs::Input;
use crate::peers::{self, Engine, PEERS, Walked};
use crate::race::{Contestant, Plan, median, race};
use oracle::ours::{self, Answer, Filled};
use oracle::{Options, reference};
use std::hint::black_box;
use std::process;
use std::time::Instant;

/// One text: the seconds of a walk, one entry a round.
pub struct Row {
    pub name: String,
    pub bytes: usize,
    pub tokens: usize,
    pub ours: Vec<f64>,
    pub rust: Vec<f64>,
    pub checking_rust: Vec<f64>,
    /// For each peer its times, or why there are none.
    pub peers: Vec<Result<Vec<f64>, String>>,
    /// The port's times beside the peers'.
    pub beside_peers: Vec<f64>,
}

/// Compares the ends of all contestants, then times them: the port with the Rust, and after that the port with the engines.
pub fn measured(input: &Input, plan: &Plan) -> Row {
    let expected = same_ends(input);
    let engines: Vec<_> = PEERS.iter().map(|peer| ready(peer, input, &expected, plan)).collect();
    let room = expected.len() + 1;
    let [ours, rust, checking_rust] = all(race(vec![filling(input, room), walking(input, room), checking(input, room)], plan));
    let mut contestants = vec![filling(input, room)];
    contestants.extend(engines.iter().flatten().map(|engine| engaged(&**engine, input, room)));
    let mut times = race(contestants, plan).into_iter();
    let mut next = || times.next().expect("one entry for each contestant");
    let beside_peers = next();
    let peers = engines.iter().map(|e| e.as_ref().map(|_| next()).map_err(String::clone)).collect();
    let (name, bytes, tokens) = (input.name.clone(), input.text.len(), expected.len());
    Row { name, bytes, tokens, ours, rust, checking_rust, peers, beside_peers }
}

/// The port's fill, with room for one end more than there are.
fn filling(input: &Input, room: usize) -> Contestant<'_> {
    let mut ends = vec![0; room];
    Contestant::steady(move || {
        black_box(ours::fill(black_box(&input.text), input.options, 0, black_box(&mut ends)));
    })
}

/// The Rust.
fn walking(input: &Input, room: usize) -> Contestant<'_> {
    let mut ends = Vec::with_capacity(room);
    Contestant::steady(move || reference::walk(black_box(&input.text), input.options, black_box(&mut ends)))
}

/// The Rust, after a check of the text.
fn checking(input: &Input, room: usize) -> Contestant<'_> {
    let mut ends = Vec::with_capacity(room);
    Contestant::steady(move || {
        black_box(std::str::from_utf8(black_box(&input.text))).expect("the inputs are UTF-8");
        reference::walk(black_box(&input.text), input.options, black_box(&mut ends));
    })
}

fn engaged<'a>(engine: &'a dyn Engine, input: &'a Input, room: usize) -> Contestant<'a> {
    let mut ends = Vec::with_capacity(room);
    Contestant::resting(move || {
        engine.walk(black_box(&input.text), black_box(&mut ends), None);
    })
}

fn all<const N: usize>(times: Vec<Vec<f64>>) -> [Vec<f64>; N] {
    times.try_into().expect("one entry for each contestant")
}

/// The ends of a walk from zero, on which the port and the Rust must agree.
fn same_ends(input: &Input) -> Vec<u32> {
    let mut expected = Vec::new();
    reference::walk(&input.text, input.options, &mut expected);
    let mut ends = vec![0; input.text.len() + 1];
    match ours::fill(&input.text, input.options, 0, &mut ends) {
        Filled::Ends(count, at) if at == input.text.len() && ends[..count] == expected[..] => expected,
        Filled::Ends(..) => stop(&format!("{}: the port and the Rust give different ends", input.name)),
        Filled::Refused(number, at) => stop(&format!("{}: refused {number} at {at}", input.name)),
    }
}

fn stop(why: &str) -> ! {
    eprintln!("bench: {why}");
    process::exit(1)
}

/// The peer's engine, if it gives the expected ends in time.
fn ready(peer: &peers::Peer, input: &Input, expected: &[u32], plan: &Plan) -> Result<Box<dyn Engine>, String> {
    let engine = peer.engine(input.options)?;
    let mut ends = Vec::new();
    match engine.walk(&input.text, &mut ends, Some(Instant::now() + plan.patience)) {
        Walked::Whole if ends == expected => Ok(engine),
        Walked::Whole => Err("other ends".into()),
        Walked::Stopped(at) => Err(format!("gives up at {at}")),
        Walked::OutOfTime => Err(format!("over {} s", plan.patience.as_secs_f64())),
    }
}

/// A text and the same eight times as long: the seconds for a byte, one entry a round.
pub struct Grown {
    pub name: String,
    pub ours: [Vec<f64>; 2],
    pub rust: [Vec<f64>; 2],
}

pub fn grown((small, large): &(Input, Input), plan: &Plan) -> Grown {
    let rooms = [same_ends(small).len() + 1, same_ends(large).len() + 1];
    let contestants =
        vec![filling(small, rooms[0]), filling(large, rooms[1]), walking(small, rooms[0]), walking(large, rooms[1])];
    let [ours, longer, rust, rust_longer] = all(race(contestants, plan));
    let each = |times: Vec<f64>, input: &Input| times.iter().map(|t| t / input.text.len() as f64).collect();
    Grown {
        name: small.name.clone(),
        ours: [each(ours, small), each(longer, large)],
        rust: [each(rust, small), each(rust_longer, large)],
    }
}

/// How many ends one of the fills has room for.
pub const LITTLE: usize = 8;

/// Three ways to all ends of a text, and the median seconds of each: one fill, fills of little room, next end.
pub struct Ways {
    pub name: String,
    pub bytes: usize,
    pub seconds: [f64; 3],
}

pub fn ways(input: &Input, plan: &Plan) -> Ways {
    let room = same_ends(input).len() + 1;
    let (text, o) = (&input.text[..], input.options);
    let contestants = vec![
        filling(input, room),
        Contestant::resting(move || by_fills(black_box(text), o)),
        Contestant::resting(move || by_next_end(black_box(text), o)),
    ];
    let times: [Vec<f64>; 3] = all(race(contestants, plan));
    Ways { name: input.name.clone(), bytes: text.len(), seconds: times.each_ref().map(|t| median(t)) }
}

fn by_fills(text: &[u8], o: Options) {
    let (mut at, mut ends) = (0, [0; LITTLE]);
    while at < text.len() {
        match ours::fill(text, o, at, black_box(&mut ends)) {
            Filled::Ends(_, next) => at = next,
            Filled::Refused(number, place) => stop(&format!("a fill at {at}: refused {number} at {place}")),
        }
    }
}

fn by_next_end(text: &[u8], o: Options) {
    let mut at = 0;
    while at < text.len() {
        match ours::next_end(text, o, at) {
            Answer::At(next) => at = next,
            other => stop(&format!("next end at {at}: {other:?}")),
        }
    }
}
