//! Random scripts and damaged pools, through the C interface, until the time is up.
//!
//!     fuzz SECONDS SEED NOTE   rounds from SEED on; the seed of each round is written to the file NOTE, for a round that
//!                              does not come back
//!     fuzz --seed SEED         one round alone
//!     fuzz --named             the damaged pools that have a name
mod calls;
mod damage;
mod guarded;
mod hostile;
mod hurt;
mod interface;
mod language;
mod limits;
mod model;
mod past;
mod pool;
mod random;
mod rules;
mod shrink;
mod speak;
mod words;

use calls::Calls;
use pool::Pool;
use random::Dice;
use std::fs::File;
use std::os::unix::fs::FileExt;
use std::process::ExitCode;
use std::time::{Duration, Instant};

const DAMAGES: usize = 100;

/// What a round of this seed puts to the table: a script; in every other round its last lines damage the pool.
fn lines_of(seed: u64) -> Vec<String> {
    let mut dice = Dice(seed);
    let longest = dice.of(&[10, 60, 300]);
    let count = dice.below(longest) + 5;
    let mut lines = random::script(dice.draw(), count as usize);
    if seed % 2 == 1 {
        let mut pool = Pool::new(seed);
        run(&mut pool, &lines);
        lines.extend(damage_of(&pool, &mut dice));
    }
    lines
}

/// Of many ways to damage a pool, the first of which the two soundness tests think differently or that there is a complaint
/// about, or else any: the soundness test is the gate that all other calls stand behind, so it is tried most.
fn damage_of(pool: &Pool, dice: &mut Dice) -> Vec<String> {
    let mut chosen = vec![];
    for _ in 0..DAMAGES {
        let (hurt, lines) = hurt::damaged(pool, dice);
        if hurt.sound() != words::routes_if_sound(hurt.words_lent()).is_some() || hurt.complaint().is_some() {
            return lines;
        }
        if chosen.is_empty() || dice.one_in(8) {
            chosen = lines;
        }
    }
    chosen
}

fn run(pool: &mut Pool, lines: &[String]) {
    for line in lines {
        speak::answer(pool, line.as_bytes(), 0);
    }
}

/// What a round put to the table, by its place in the counts.
#[derive(Clone, Copy)]
enum Kind {
    Script,
    NotSound,
    StillSound,
}

/// The script alone, answer by answer; nothing to compare where the pool is damaged.
fn script_agrees(lines: &[String], seed: u64) -> Result<Kind, String> {
    damage::agree(&mut Pool::new(seed), &mut model::Model::default(), lines).map(|()| Kind::Script)
}

/// What the pool owes that the script leaves.
fn pool_keeps(lines: &[String], seed: u64) -> Result<Kind, String> {
    let mut pool = Pool::new(seed);
    run(&mut pool, lines);
    damage::check(&pool, seed)?;
    Ok(if pool.sound() { Kind::StillSound } else { Kind::NotSound })
}

/// One of the two above: a shorter script must fail the same test.
type Test = fn(&[String], u64) -> Result<Kind, String>;

/// None if something went wrong; it is told.
fn try_round(seed: u64) -> Option<Kind> {
    let lines = lines_of(seed);
    let damaged = lines.iter().any(|line| line.starts_with("poke"));
    let tests: &[Test] = if damaged { &[pool_keeps] } else { &[script_agrees, pool_keeps] };
    let mut kind = Kind::Script;
    for &test in tests {
        match test(&lines, seed) {
            Ok(seen) if damaged => kind = seen,
            Ok(_) => {}
            Err(_) => {
                report(&lines, seed, test);
                return None;
            }
        }
    }
    Some(kind)
}

fn report(lines: &[String], seed: u64, test: Test) {
    let shortest = shrink::shrink(lines.to_vec(), |without| test(without, seed).is_err());
    let wrong = test(&shortest, seed).err().unwrap_or_default();
    println!("fuzz: seed {seed}: {wrong}\nthe shortest script found:");
    shortest.iter().for_each(|line| println!("    {line}"));
    println!("again: ./fuzz --seed {seed}");
}

fn tell(start: Instant, counts: [u64; 3]) {
    let [scripts, not_sound, still_sound] = counts;
    let seconds = start.elapsed().as_secs();
    let tested = DAMAGES as u64 * (not_sound + still_sound);
    print!("fuzz: {seconds} s: {scripts} scripts; {tested} damaged pools tested for soundness, ");
    println!("{not_sound} not sound and {still_sound} still sound followed on");
}

fn go_on(seconds: u64, first: u64, note: &File) -> Result<bool, std::io::Error> {
    let start = Instant::now();
    let mut told = start;
    let mut seed = first;
    let mut counts = [0; 3];
    while start.elapsed() < Duration::from_secs(seconds) {
        note.write_at(format!("{seed:020}\n").as_bytes(), 0)?;
        let Some(kind) = try_round(seed) else { return Ok(false) };
        counts[kind as usize] += 1;
        seed = seed.wrapping_add(1);
        if told.elapsed() >= Duration::from_secs(5) {
            told = Instant::now();
            tell(start, counts);
        }
    }
    tell(start, counts);
    println!("fuzz: seeds {first} to {}, no difference", seed.wrapping_sub(1));
    Ok(true)
}

fn one_round(seed: u64) -> bool {
    let well = try_round(seed).is_some();
    if well {
        println!("fuzz: seed {seed}, no difference");
    }
    well
}

fn main() -> ExitCode {
    let words: Vec<String> = std::env::args().skip(1).collect();
    let number = |i: usize| words.get(i).and_then(|word| word.parse::<u64>().ok());
    let went = match (number(0), number(1), words.get(2)) {
        (Some(seconds), Some(seed), Some(note)) => File::create(note).and_then(|note| go_on(seconds, seed, &note)),
        (None, Some(seed), None) => Ok(one_round(seed)),
        (None, None, None) if words == ["--named"] => Ok(hostile::all_keep()),
        _ => Err(std::io::Error::other("usage: fuzz SECONDS SEED NOTE, fuzz --seed SEED or fuzz --named")),
    };
    match went {
        Ok(true) => ExitCode::SUCCESS,
        Ok(false) => ExitCode::FAILURE,
        Err(error) => {
            eprintln!("fuzz: {error}");
            ExitCode::from(2)
        }
    }
}
