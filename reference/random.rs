//! Scripts of commands from a seed: the same seed gives the same script. Prefixes are drawn from a few neighbouring
//! addresses, so that they collide, nest and share addresses; the list runs along, so that a script can name what is held.
use crate::calls::Calls;
use crate::limits::{LAST_METRIC, LAST_PORT, MOST_ROUTES};
use crate::model::Model;
use crate::rules::{mask, By, Hop, Origin, Prefix};
use crate::speak::{answer, dotted, hand};

/// Splitmix: small, and good enough to draw from.
pub struct Dice(pub u64);

impl Dice {
    pub fn draw(&mut self) -> u64 {
        self.0 = self.0.wrapping_add(0x9E37_79B9_7F4A_7C15);
        let mut z = self.0;
        z = (z ^ z >> 30).wrapping_mul(0xBF58_476D_1CE4_E5B9);
        z = (z ^ z >> 27).wrapping_mul(0x94D0_49BB_1331_11EB);
        z ^ z >> 31
    }

    pub fn below(&mut self, bound: u32) -> u32 {
        (self.draw() % u64::from(bound)) as u32
    }

    pub fn one_in(&mut self, n: u32) -> bool {
        self.below(n) == 0
    }

    pub fn of<T: Copy>(&mut self, those: &[T]) -> T {
        those[self.below(those.len() as u32) as usize]
    }
}

pub fn script(seed: u64, count: usize) -> Vec<String> {
    script_over(Model::default(), seed, count)
}

/// A script for a table that is there already.
pub fn script_over(model: Model, seed: u64, count: usize) -> Vec<String> {
    let mut writer = Writer::new(model, seed);
    while writer.lines.len() < count {
        writer.write();
    }
    writer.lines
}

struct Writer {
    dice: Dice,
    model: Model,
    // the addresses that prefixes are cut from
    near: Vec<u32>,
    // of 16 changes, how many are adds: tables fill, then empty
    adds: u32,
    // one in so many commands ends a trial: some trials must live until no further change may stand
    patience: u32,
    lines: Vec<String>,
}

/// Lines with one thing wrong each, and lines that say nothing.
const ODD_LINES: [&str; 27] = [
    "fly",
    "Add 10.0.0.0/8 reject",
    "lookup",
    "lookup 1.2.3.256",
    "lookup 1.2.3",
    "lookup 1.2.3.4.5",
    "mask 255.255.255.-1",
    "fresh 4294967296",
    "fresh -1",
    "fresh",
    "words many",
    "open now",
    "first 0.0.0.0/0",
    "add 10.0.0.0/8",
    "add 10.0.0.0/8 by 3",
    "change 10.0.0.0/8 direct",
    "change 10.0.0.0/8 via 3",
    "delete 10.0.0.0/8 reject",
    "add 10.0.0.0/8 direct 1 fixed",
    "add 10.0.0.0/8 reject learned",
    "add 10.0.0.0/8 direct 3 learned -1",
    "change 10.0.0.0/8 direct 1 learned 4294967296",
    "change 10.0.0.0/8 via 1 1.2.3.4 learned 3 4",
    "delete 10.0.0.0/8 Learned",
    "delete 10.0.0.0/8 learned 3",
    "",
    " \t# nothing but this",
];

impl Writer {
    fn new(model: Model, seed: u64) -> Writer {
        let mut writer = Writer { dice: Dice(seed), model, near: vec![], adds: 0, patience: 0, lines: vec![] };
        writer.turn();
        if !writer.model.sound() && !writer.dice.one_in(8) {
            writer.fresh();
        }
        writer
    }

    /// New neighbours and a new temper.
    fn turn(&mut self) {
        let mut roots: Vec<u32> = self.model.routes().iter().map(|route| route.prefix.address).collect();
        roots.push(self.dice.draw() as u32);
        let root = self.dice.of(&roots);
        self.near = vec![root, self.dice.of(&[0, u32::MAX, 0x7F00_0001, root ^ 1, root ^ 0x8000_0000])];
        for _ in 0..14 {
            let neighbour = self.dice.of(&self.near);
            let bit = self.dice.below(32);
            self.near.push(neighbour ^ 1 << bit);
        }
        self.adds = self.dice.of(&[4, 8, 10, 14]);
        self.patience = self.dice.of(&[8, 60, 900]);
    }

    fn say(&mut self, line: String) {
        answer(&mut self.model, line.as_bytes(), 0);
        self.lines.push(line);
    }

    fn fresh(&mut self) {
        let small = self.dice.below(12) + 1;
        let most = MOST_ROUTES;
        let capacity = self.dice.of(&[small, small, 2, most - 1, most, most, 0, most + 1, u32::MAX]);
        self.say(format!("fresh {capacity}"));
    }

    /// An address near the table's, now and then any.
    fn address(&mut self) -> u32 {
        match self.dice.below(16) {
            0 => self.dice.draw() as u32,
            1 => self.dice.of(&[0, u32::MAX]),
            n => {
                let neighbour = self.dice.of(&self.near);
                let low = self.dice.draw() as u32;
                if n < 6 {
                    neighbour ^ low & !mask(self.dice.below(33))
                } else {
                    neighbour
                }
            }
        }
    }

    /// The address is cut short first, so that several lengths fit one address.
    fn prefix(&mut self) -> Prefix {
        let short = if self.dice.one_in(3) { 32 } else { self.dice.below(33) };
        let address = self.dice.of(&self.near) & mask(short);
        let length = short + self.dice.below(33 - short);
        match self.dice.below(40) {
            0 => Prefix { address, length: self.dice.of(&[33, 64, u32::MAX]) },
            1 => Prefix { address: address | 1, length },
            2 => Prefix { address: 0, length: 0 },
            _ => Prefix { address, length },
        }
    }

    /// A prefix that is held, most of the time.
    fn held(&mut self) -> Prefix {
        let routes = self.model.routes();
        if routes.is_empty() || self.dice.one_in(5) {
            return self.prefix();
        }
        let i = self.dice.below(routes.len() as u32) as usize;
        self.model.routes()[i].prefix
    }

    /// With a length, or now and then with a mask, and sometimes the mask has a hole.
    fn prefix_words(&mut self, prefix: Prefix) -> String {
        if prefix.length > 32 || !self.dice.one_in(8) {
            return prefix.to_string();
        }
        let hole = if self.dice.one_in(6) { 1 << self.dice.below(32) } else { 0 };
        format!("{} mask {}", dotted(prefix.address), dotted(mask(prefix.length) ^ hole))
    }

    fn hop_words(&mut self) -> String {
        let bad = [LAST_PORT + 1, 255, u32::MAX];
        let port = if self.dice.one_in(30) { self.dice.of(&bad) } else { self.dice.below(LAST_PORT + 1) };
        let gateway = if self.dice.one_in(12) { 0 } else { self.address() };
        self.dice.of(&[Hop::Direct(port), Hop::Via(port, gateway), Hop::Reject]).to_string()
    }

    /// Half of the changes are a learner's, so that each half meets what the other left.
    fn by(&mut self) -> By {
        self.dice.of(&[By::Plain, By::Learner])
    }

    /// What stands behind the hop of a route; its metric is a good one most of the time.
    fn origin_words(&mut self) -> String {
        let any = self.dice.draw() as u32;
        let bad = [0, LAST_METRIC + 1, u32::MAX, any];
        let good = [1, 2, LAST_METRIC, 1 + any % LAST_METRIC];
        let metric = if self.dice.one_in(8) { self.dice.of(&bad) } else { self.dice.of(&good) };
        match self.by() {
            By::Plain => String::new(),
            By::Learner => format!(" {}", Origin::Learned(metric)),
        }
    }

    fn change(&mut self) {
        let drawn = self.dice.below(16);
        let line = if drawn < self.adds {
            let prefix = if self.dice.one_in(12) { self.held() } else { self.prefix() };
            format!("add {} {}{}", self.prefix_words(prefix), self.hop_words(), self.origin_words())
        } else if drawn % 2 == 0 {
            let prefix = self.held();
            format!("delete {}{}", self.prefix_words(prefix), hand(self.by()))
        } else {
            let prefix = self.held();
            format!("change {} {}{}", self.prefix_words(prefix), self.hop_words(), self.origin_words())
        };
        self.say(line);
    }

    fn ask(&mut self) {
        let line = match self.dice.below(12) {
            0 => "first".to_string(),
            1 => "room".to_string(),
            2 => "sound".to_string(),
            3 => "list".to_string(),
            4 => format!("mask {}", dotted(mask(self.dice.below(33)) ^ self.dice.of(&[0, 0, 1, 1 << 31, 1 << 9]))),
            5 => format!("words {}", self.dice.of(&[0, 1, 4, MOST_ROUTES - 1, MOST_ROUTES, MOST_ROUTES + 1, u32::MAX])),
            6 => format!("next {}", self.prefix()),
            7 => format!("next {}", self.held()),
            8 => self.dice.of(&ODD_LINES).to_string(),
            _ => format!("lookup {}", dotted(self.address())),
        };
        self.say(line);
    }

    fn write(&mut self) {
        if self.dice.one_in(150) {
            self.turn();
        }
        if self.dice.one_in(self.patience) {
            let end = self.dice.of(&["keep", "back", "back"]);
            return self.say(end.to_string());
        }
        // without a table there is little to try
        if !self.model.sound() && self.dice.one_in(6) {
            return self.fresh();
        }
        match self.dice.below(64) {
            0 if self.dice.one_in(4) => self.fresh(),
            0..=1 => self.say("open".to_string()),
            2..=4 => self.say("step".to_string()),
            5..=12 => {
                let line = format!("lookup {}", dotted(self.address()));
                self.say(line);
            }
            13..=24 => self.ask(),
            _ => self.change(),
        }
    }
}
