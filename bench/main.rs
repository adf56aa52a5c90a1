//! One run of all measurements: a table on standard output, a picture in the file named.
//!
//!     bench PICTURE [--quick]    --quick takes few turns: it shows that all works, and its figures say nothing
mod engines;
#[path = "../reference/limits.rs"]
#[allow(dead_code)] // no route that is measured has a metric
mod limits;
mod measure;
mod plot;
mod radix;
mod tables;
mod tries;

use measure::{Changes, Effort, Lookups, CAPACITY, ENGINES};
use std::process::ExitCode;

/// How many routes the tables hold that lookups are measured on.
const SIZES: [usize; 4] = [1, 16, 96, CAPACITY];

/// How many routes the table holds that changes are measured on; the last is one less than it could, since an add needs room.
const COUNTS: [usize; 11] = [0, 32, 64, 96, 128, 192, 256, 320, 384, 448, CAPACITY - 1];

fn print_lookups(all: &[Lookups]) {
    println!("Lookups: million per second (and how many times as fast the proved table is)");
    println!("tried: how many routes the proved table tries for a lookup, in the mean\n");
    println!("| table | routes | addresses | tried | {} |", ENGINES.join(" | "));
    println!("|---|---|---|---|---|---|---|---|");
    for Lookups { shape, kind, routes, tried, nanoseconds: [own, others @ ..] } in all {
        let cells = others.map(|ns| format!("{} ({})", figure(1000.0 / ns), figure(ns / own))).join(" | ");
        println!("| {shape} | {routes} | {kind} | {tried:.1} | {} | {cells} |", figure(1000.0 / own));
    }
}

/// A number with one digit behind the point, or with as many as a small one needs to say anything.
fn figure(value: f64) -> String {
    match value {
        v if v >= 10.0 => format!("{v:.1}"),
        v if v >= 0.1 => format!("{v:.2}"),
        v => format!("{v:.3}"),
    }
}

fn print_changes(all: &[Changes]) {
    println!("\nThe proved table's other calls: microseconds each, capacity {CAPACITY}, no trial open\n");
    println!("| routes held | add | delete | sound |\n|---|---|---|---|");
    for Changes { routes, add, delete, sound } in all {
        println!("| {routes} | {add:.2} | {delete:.2} | {sound:.2} |");
    }
}

fn main() -> ExitCode {
    let words: Vec<String> = std::env::args().skip(1).collect();
    let words: Vec<&str> = words.iter().map(String::as_str).collect();
    let (picture, effort) = match words[..] {
        [picture] => (picture, Effort { turns: 41, turn: 4e6 }),
        [picture, "--quick"] => (picture, Effort { turns: 3, turn: 0.0 }),
        _ => {
            eprintln!("usage: bench PICTURE [--quick]");
            return ExitCode::from(2);
        }
    };
    let lookups = measure::lookups(&SIZES, effort);
    let changes = measure::changes(&COUNTS, effort);
    print_lookups(&lookups);
    print_changes(&changes);
    if let Err(error) = std::fs::write(picture, plot::picture(&lookups, &changes)) {
        eprintln!("bench: {picture}: {error}");
        return ExitCode::FAILURE;
    }
    println!("\nthe picture: {picture}");
    ExitCode::SUCCESS
}
