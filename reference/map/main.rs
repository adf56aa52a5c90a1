//! Draws the map of the crates: crates.txt on standard input, a picture on standard output.
//!
//! A comment line just before a crate's line opens a floor and gives its name. A crate may list only crates above its line, and
//! libraries of the toolchain, which the map leaves out.
mod layout;
mod svg;

use std::io::{self, Read};
use std::process::ExitCode;

pub struct Crate {
    pub name: String,
    pub floor: usize,
    /// The crates that it lists, by their numbers.
    pub names: Vec<usize>,
}

#[derive(Default)]
pub struct Map {
    pub floors: Vec<String>,
    pub crates: Vec<Crate>,
}

impl Map {
    fn read(text: &str) -> Result<Map, String> {
        let mut map = Map::default();
        let mut comment = None;
        for line in text.lines().map(str::trim) {
            if let Some(said) = line.strip_prefix('#') {
                comment = Some(said.trim().to_string());
            } else if line.is_empty() {
                comment = None;
            } else {
                map.floors.extend(comment.take());
                map.add(line.split('#').next().unwrap_or(line))?;
            }
        }
        Ok(map)
    }

    fn add(&mut self, line: &str) -> Result<(), String> {
        let (name, names) = line.split_once(':').ok_or(format!("no crate: {line}"))?;
        let floor = self.floors.len().checked_sub(1).ok_or(format!("{name} is on no floor"))?;
        let number = |name: &str| self.crates.iter().position(|other| other.name == name);
        let names = names.split_whitespace().filter_map(number).collect();
        self.crates.push(Crate { name: name.to_string(), floor, names });
        Ok(())
    }

    /// Leaves out of each crate's names those that another of them stands on.
    fn reduce(&mut self) {
        let mut below: Vec<Vec<usize>> = vec![];
        for one in &mut self.crates {
            let implied: Vec<usize> = one.names.iter().flat_map(|&other| below[other].clone()).collect();
            below.push([&one.names[..], &implied].concat());
            one.names.retain(|other| !implied.contains(other));
        }
    }
}

fn draw() -> Result<String, String> {
    let mut text = String::new();
    io::stdin().read_to_string(&mut text).map_err(|error| error.to_string())?;
    let mut map = Map::read(&text)?;
    map.reduce();
    Ok(svg::draw(&map, &layout::lay_out(&map)))
}

fn main() -> ExitCode {
    match draw() {
        Ok(picture) => {
            print!("{picture}");
            ExitCode::SUCCESS
        }
        Err(wrong) => {
            eprintln!("map: {wrong}");
            ExitCode::from(2)
        }
    }
}
