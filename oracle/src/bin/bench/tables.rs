//! The tables of docs/SPEED.md, as Markdown and in its order.

use crate::inputs::{LARGE, SMALL};
use crate::peers::{self, PEERS};
use crate::race::{Middle, Plan, median};
use crate::rows::{Grown, LITTLE, Row, Ways};
use std::{env, fs, process, thread};

/// On what and how it was measured.
pub fn machine(plan: &Plan) {
    let cores = thread::available_parallelism().map_or(0, |n| n.get());
    println!(
        "{}, {}, {cores} cores; {}; {}; {} rounds of some {} ms.\n",
        processor(),
        env::consts::ARCH,
        compiler(),
        peers::versions(),
        plan.rounds,
        plan.round.as_millis()
    );
}

fn processor() -> String {
    let told = fs::read_to_string("/proc/cpuinfo").unwrap_or_default();
    let model = told.lines().find_map(|line| line.strip_prefix("model name"));
    model.map_or("unknown processor".into(), |m| m.trim_start_matches([' ', '\t', ':']).to_string())
}

fn compiler() -> String {
    let told = process::Command::new("rustc").arg("--version").output();
    told.map_or("rustc unknown".into(), |out| String::from_utf8_lossy(&out.stdout).trim().to_string())
}

fn heading(columns: &[&str]) {
    println!("| {} |", columns.join(" | "));
    println!("|{}", "---|".repeat(columns.len()));
}

/// A number with some three figures.
fn figure(number: f64) -> String {
    let places = match number {
        ..0.0995 => 3,
        ..9.995 => 2,
        ..99.95 => 1,
        _ => 0,
    };
    format!("{number:.places$}")
}

fn megabytes(bytes: usize, seconds: f64) -> String {
    figure(bytes as f64 / seconds / 1e6)
}

/// The median, and the middle half in brackets.
fn spread(ratios: &Middle) -> String {
    format!("{} ({} to {})", figure(ratios.median), figure(ratios.low), figure(ratios.high))
}

pub fn against_rust(rows: &[Row]) {
    println!("## Against the Rust\n");
    heading(&[
        "Input",
        "bytes",
        "tokens",
        "ours, MB/s",
        "Rust, MB/s",
        "ratio to a Rust that checks nothing",
        "ratio to a Rust that first runs `from_utf8`",
    ]);
    for row in rows {
        println!(
            "| {} | {} | {} | {} | {} | {} | {} |",
            row.name,
            row.bytes,
            row.tokens,
            megabytes(row.bytes, median(&row.ours)),
            megabytes(row.bytes, median(&row.rust)),
            spread(&Middle::of_ratios(&row.ours, &row.rust)),
            spread(&Middle::of_ratios(&row.ours, &row.checking_rust))
        );
    }
    println!();
}

pub fn linear(pairs: &[Grown], walks: &[Ways]) {
    if !(pairs.is_empty() && walks.is_empty()) {
        println!("## Linear\n");
    }
    if !pairs.is_empty() {
        growth(pairs);
    }
    if !walks.is_empty() {
        three_ways(walks);
    }
}

/// Time for a byte at the two sizes: a ratio near 1 is linear, near 8 quadratic.
fn growth(pairs: &[Grown]) {
    let columns = [SMALL, LARGE].map(|size| format!("ours, ns a byte at {size}"));
    heading(&["Input", &columns[0], &columns[1], "ours, growth", "Rust, growth"]);
    for Grown { name, ours, rust } in pairs {
        let [small, large] = ours.each_ref().map(|times| figure(median(times) * 1e9));
        let [ours, rust] = [ours, rust].map(|[small, large]| spread(&Middle::of_ratios(large, small)));
        println!("| {name} | {small} | {large} | {ours} | {rust} |");
    }
    println!();
}

fn three_ways(rows: &[Ways]) {
    heading(&["Input", "bytes", "one fill, ms", &format!("fills of room {LITTLE}, ms"), "next end, ms"]);
    for Ways { name, bytes, seconds } in rows {
        let [once, fills, next_end] = seconds.map(|s| figure(s * 1e3));
        println!("| {name} | {bytes} | {once} | {fills} | {next_end} |");
    }
    println!();
}

pub fn beside_engines(rows: &[Row]) {
    println!("## Beside other engines\n");
    heading(&[&["Input", "ours, MB/s"], &PEERS.map(|peer| peer.name)[..]].concat());
    for row in rows {
        let cell = |peer: &Result<Vec<f64>, String>| match peer {
            Ok(times) => {
                let ratio = Middle::of_ratios(times, &row.beside_peers).median;
                format!("{}, {}", megabytes(row.bytes, median(times)), figure(ratio))
            }
            Err(why) => why.clone(),
        };
        let cells: Vec<String> = row.peers.iter().map(cell).collect();
        println!("| {} | {} | {} |", row.name, megabytes(row.bytes, median(&row.beside_peers)), cells.join(" | "));
    }
}
