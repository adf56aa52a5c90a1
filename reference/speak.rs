//! A command put to a table, and its answer as the line that the console prints.
use crate::calls::Calls;
use crate::language::{command, Command};
use crate::rules::{By, Hop, Origin, Prefix, Route};
use std::fmt;

pub fn dotted(address: u32) -> String {
    address.to_be_bytes().map(|byte| byte.to_string()).join(".")
}

impl fmt::Display for Prefix {
    fn fmt(&self, f: &mut fmt::Formatter) -> fmt::Result {
        write!(f, "{}/{}", dotted(self.address), self.length)
    }
}

impl fmt::Display for Hop {
    fn fmt(&self, f: &mut fmt::Formatter) -> fmt::Result {
        match self {
            Hop::Direct(port) => write!(f, "direct {port}"),
            Hop::Via(port, gateway) => write!(f, "via {port} {}", dotted(*gateway)),
            Hop::Reject => write!(f, "reject"),
        }
    }
}

impl fmt::Display for Origin {
    fn fmt(&self, f: &mut fmt::Formatter) -> fmt::Result {
        match self {
            Origin::Fixed => write!(f, "fixed 0"),
            Origin::Learned(metric) => write!(f, "learned {metric}"),
        }
    }
}

impl fmt::Display for Route {
    fn fmt(&self, f: &mut fmt::Formatter) -> fmt::Result {
        write!(f, "{} {} {}", self.prefix, self.hop, self.origin)
    }
}

/// What a delete says behind its prefix.
pub fn hand(by: By) -> &'static str {
    match by {
        By::Plain => "",
        By::Learner => " learned",
    }
}

fn with_value(answer: Result<impl fmt::Display, u32>) -> String {
    answer.map_or_else(|number| number.to_string(), |value| format!("0 {value}"))
}

/// The listing of document 01, by the walk; capacity is the routes and the room together.
fn list(table: &impl Calls) -> Result<String, u32> {
    let room = table.room()?;
    let mut lines = String::new();
    let mut held = 0;
    let mut route = table.first();
    while let Ok(found) = route {
        held += 1;
        lines += &format!("\n{found}");
        route = table.next(found.prefix);
    }
    Ok(format!("routes {held} of {}{lines}", held + room))
}

fn obey(table: &mut impl Calls, said: Command) -> Result<String, &'static str> {
    let text = match said {
        Command::Fresh(capacity) => table.fresh(capacity).to_string(),
        Command::Add(route) => table.add(route).to_string(),
        Command::Change(route) => table.change(route).to_string(),
        Command::Delete(prefix, by) => table.delete(prefix, by).to_string(),
        Command::Lookup(destination) => with_value(table.lookup(destination)),
        Command::First => with_value(table.first()),
        Command::Next(after) => with_value(table.next(after)),
        Command::Room => with_value(table.room()),
        Command::Mask(word) => with_value(table.mask_length(word)),
        Command::Open => table.open().to_string(),
        Command::Keep => table.keep().to_string(),
        Command::Back => table.back_out().to_string(),
        Command::Step => table.step_back().to_string(),
        Command::Sound => if table.sound() { "yes" } else { "no" }.to_string(),
        Command::List => list(table).unwrap_or_else(|number| number.to_string()),
        Command::Words(capacity) => table.words(capacity).to_string(),
        Command::Peek(place) => table.peek(place)?.to_string(),
        Command::Poke(place, word) => table.poke(place, word).map(|()| "0".to_string())?,
    };
    Ok(text)
}

/// The answer to one line, without its newline; None for a line that asks nothing. Lines count from 1.
pub fn answer(table: &mut impl Calls, line: &[u8], number: usize) -> Option<String> {
    let said = command(line).transpose()?;
    let text = said.and_then(|command| obey(table, command));
    Some(text.unwrap_or_else(|wrong| format!("error: line {number}: {wrong}")))
}
