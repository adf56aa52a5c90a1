//! Draws the tree that stands in a pool, as text or as a picture.
//!
//!     draw [--svg]    reads what the console answers to `sound` and then to `peek` of each word from word 0 on
//!     draw --words    says how many words that are: those of the largest pool
#[path = "../limits.rs"]
mod limits;
mod pool;
mod route;
mod svg;
mod text;

use pool::{Pool, Words};
use std::io::{self, Read};
use std::process::ExitCode;

/// Whether the console calls the pool sound, and the words.
fn answers(input: &str) -> Result<(bool, Words), String> {
    let mut lines = input.lines();
    let sound = match lines.next() {
        Some("yes") => true,
        Some("no") => false,
        other => return Err(format!("no answer to sound: {other:?}")),
    };
    let word = |line: &str| line.parse().map_err(|_| format!("no word: {line:?}"));
    let words = lines.map(word).collect::<Result<Vec<u32>, _>>()?;
    let words = words.try_into().map_err(|words: Vec<u32>| format!("{} words, and not those of a pool", words.len()))?;
    Ok((sound, words))
}

fn drawing(draw: fn(&Pool) -> String) -> Result<String, String> {
    let mut input = String::new();
    io::stdin().read_to_string(&mut input).map_err(|error| error.to_string())?;
    let (sound, words) = answers(&input)?;
    Ok(draw(&pool::read(&words, sound)))
}

fn main() -> ExitCode {
    let words: Vec<String> = std::env::args().skip(1).collect();
    let words: Vec<&str> = words.iter().map(String::as_str).collect();
    let drawn = match words[..] {
        [] => drawing(text::draw),
        ["--svg"] => drawing(svg::draw),
        ["--words"] => Ok(format!("{}\n", limits::size(limits::MOST_ROUTES))),
        _ => Err("usage: draw [--svg] <ANSWERS, or draw --words".to_string()),
    };
    match drawn {
        Ok(drawn) => {
            print!("{drawn}");
            ExitCode::SUCCESS
        }
        Err(wrong) => {
            eprintln!("draw: {wrong}");
            ExitCode::from(2)
        }
    }
}
