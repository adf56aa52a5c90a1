//! The console's language: a line of bytes becomes a command, nothing (blank or comment), or what is wrong with it.
//!
//! A line is read from left to right and the first thing wrong is the one told; words left over at the end are too many.
use crate::rules::{self, By, Hop, Origin, Prefix, Route, NO_LENGTH};

#[derive(Clone, Copy, Debug)]
pub enum Command {
    Fresh(u32),
    Add(Route),
    Change(Route),
    Delete(Prefix, By),
    Lookup(u32),
    First,
    Next(Prefix),
    Room,
    Mask(u32),
    Open,
    Keep,
    Back,
    Step,
    Sound,
    List,
    Words(u32),
    Peek(u32),
    Poke(u32, u32),
}

type Wrong = &'static str;

const LONGEST_LINE: usize = 200;

/// None is a blank line or a comment alone.
pub fn command(line: &[u8]) -> Result<Option<Command>, Wrong> {
    if line.len() > LONGEST_LINE {
        return Err("line too long");
    }
    let said = line.split(|&byte| byte == b'#').next().unwrap_or_default();
    let mut words = Words(said);
    let Ok(name) = words.next() else { return Ok(None) };
    let found = words.command(name)?;
    match words.next() {
        Ok(_) => Err("too many words"),
        Err(_) => Ok(Some(found)),
    }
}

/// What is left of a line.
struct Words<'a>(&'a [u8]);

fn blank(byte: &u8) -> bool {
    *byte == b' ' || *byte == b'\t'
}

impl<'a> Words<'a> {
    fn next(&mut self) -> Result<&'a [u8], Wrong> {
        let start = self.0.iter().position(|byte| !blank(byte)).ok_or("too few words")?;
        let rest = &self.0[start..];
        let end = rest.iter().position(blank).unwrap_or(rest.len());
        self.0 = &rest[end..];
        Ok(&rest[..end])
    }

    fn command(&mut self, name: &[u8]) -> Result<Command, Wrong> {
        Ok(match name {
            b"fresh" => Command::Fresh(self.number()?),
            b"add" => Command::Add(self.route()?),
            b"change" => Command::Change(self.route()?),
            b"delete" => Command::Delete(self.prefix()?, self.by()?),
            b"lookup" => Command::Lookup(self.address()?),
            b"first" => Command::First,
            b"next" => Command::Next(self.prefix()?),
            b"room" => Command::Room,
            b"mask" => Command::Mask(self.address()?),
            b"open" => Command::Open,
            b"keep" => Command::Keep,
            b"back" => Command::Back,
            b"step" => Command::Step,
            b"sound" => Command::Sound,
            b"list" => Command::List,
            b"words" => Command::Words(self.number()?),
            b"peek" => Command::Peek(self.number()?),
            b"poke" => Command::Poke(self.number()?, self.number()?),
            _ => return Err("unknown command"),
        })
    }

    fn number(&mut self) -> Result<u32, Wrong> {
        number(self.next()?)
    }

    fn address(&mut self) -> Result<u32, Wrong> {
        address(self.next()?)
    }

    /// `A.B.C.D/L`, or `A.B.C.D mask M.M.M.M`.
    fn prefix(&mut self) -> Result<Prefix, Wrong> {
        let word = self.next()?;
        if let Some(slash) = word.iter().position(|&byte| byte == b'/') {
            return Ok(Prefix { address: address(&word[..slash])?, length: number(&word[slash + 1..])? });
        }
        // without a slash it is a prefix only with a mask behind it, whatever the word is
        if !matches!(self.next(), Ok(b"mask")) {
            return Err("bad prefix");
        }
        let address = address(word)?;
        let length = rules::mask_length(self.address()?).unwrap_or(NO_LENGTH);
        Ok(Prefix { address, length })
    }

    fn route(&mut self) -> Result<Route, Wrong> {
        Ok(Route { prefix: self.prefix()?, hop: self.hop()?, origin: self.origin()? })
    }

    /// The word `learned`, or nothing more: any other word is one too many.
    fn by(&mut self) -> Result<By, Wrong> {
        match self.next() {
            Err(_) => Ok(By::Plain),
            Ok(b"learned") => Ok(By::Learner),
            Ok(_) => Err("too many words"),
        }
    }

    fn origin(&mut self) -> Result<Origin, Wrong> {
        match self.by()? {
            By::Plain => Ok(Origin::Fixed),
            By::Learner => Ok(Origin::Learned(self.number()?)),
        }
    }

    fn hop(&mut self) -> Result<Hop, Wrong> {
        match self.next()? {
            b"direct" => Ok(Hop::Direct(self.number()?)),
            b"via" => Ok(Hop::Via(self.number()?, self.address()?)),
            b"reject" => Ok(Hop::Reject),
            _ => Err("bad hop"),
        }
    }
}

/// Digits alone: no sign, no blank, no empty word.
fn number(word: &[u8]) -> Result<u32, Wrong> {
    let digits = !word.is_empty() && word.iter().all(u8::is_ascii_digit);
    let text = std::str::from_utf8(word).map_err(|_| "bad number")?;
    text.parse().ok().filter(|_| digits).ok_or("bad number")
}

fn address(word: &[u8]) -> Result<u32, Wrong> {
    let mut whole = 0;
    let octets: Vec<&[u8]> = word.split(|&byte| byte == b'.').collect();
    if octets.len() != 4 {
        return Err("bad address");
    }
    for octet in octets {
        let value = number(octet).ok().filter(|&n| n <= 255).ok_or("bad address")?;
        whole = whole << 8 | value;
    }
    Ok(whole)
}
