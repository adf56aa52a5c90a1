//! The second console: it speaks the language of the program `console` over a list of routes (model.rs), from document 01 and
//! from nothing of the proved table. Both must print the same bytes for the same commands; only peek and poke differ, since
//! a list has no words.
//!
//!     console                      commands on standard input, answers on standard output
//!     console --random SEED COUNT  a script of COUNT commands
mod calls;
mod language;
mod limits;
mod model;
mod random;
mod rules;
mod speak;

use std::io::{self, Read, Write};
use std::process::ExitCode;

/// Lines end in a newline; a last line without one counts; what follows the last newline counts only if it is not empty. A
/// carriage return before the newline belongs to the line's end.
fn lines(input: &[u8]) -> Vec<&[u8]> {
    input.split_inclusive(|&byte| byte == b'\n').map(without_end).collect()
}

fn without_end(line: &[u8]) -> &[u8] {
    match line {
        [start @ .., b'\r', b'\n'] | [start @ .., b'\n'] => start,
        rest => rest,
    }
}

fn run() -> io::Result<()> {
    let mut input = vec![];
    io::stdin().read_to_end(&mut input)?;
    let mut table = model::Model::default();
    let mut out = io::BufWriter::new(io::stdout().lock());
    for (before, line) in lines(&input).into_iter().enumerate() {
        if let Some(text) = speak::answer(&mut table, line, before + 1) {
            writeln!(out, "{text}")?;
        }
    }
    out.flush()
}

fn print_script(seed: &str, count: &str) -> Option<()> {
    for line in random::script(seed.parse().ok()?, count.parse().ok()?) {
        println!("{line}");
    }
    Some(())
}

fn main() -> ExitCode {
    let words: Vec<String> = std::env::args().skip(1).collect();
    let words: Vec<&str> = words.iter().map(String::as_str).collect();
    let done = match words[..] {
        [] => run().map_err(|error| eprintln!("console: {error}")).ok(),
        ["--random", seed, count] => print_script(seed, count),
        _ => None,
    };
    if done.is_none() {
        eprintln!("usage: console <COMMANDS, or console --random SEED COUNT");
        return ExitCode::FAILURE;
    }
    ExitCode::SUCCESS
}
