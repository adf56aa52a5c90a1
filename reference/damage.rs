//! What a pool owes whose words are anything. The soundness call must agree with the second test (words.rs). Where it says no,
//! every call refuses with 9 and changes nothing; where it says yes, the pool must behave as a table, and the list takes over
//! its routes to say how.
use crate::calls::Calls;
use crate::limits::{LAST_METRIC, LAST_PORT, MOST_CHANGES, MOST_ROUTES};
use crate::model::Model;
use crate::pool::{Pool, LENT};
use crate::random::{script_over, Dice};
use crate::rules::{mask, By, Hop, Origin, Prefix, Route};
use crate::speak::answer;
use crate::words::routes_if_sound;

type Wrong = String;

/// Every promise that a pool of any words has to keep; `seed` only draws the addresses and the scripts. If more is lent than
/// the pool, it has to keep them with nothing behind it too: there a word further is a word too far.
pub fn check(pool: &Pool, seed: u64) -> Result<(), Wrong> {
    check_lent(pool, seed)?;
    let size = pool.size();
    if (1..pool.words_lent().len()).contains(&size) {
        let exact = check_lent(&pool.lending(size), seed);
        exact.map_err(|wrong| format!("{wrong}\nwhen just the pool's {size} words are lent"))?;
    }
    begins_anew(pool, &mut Dice(seed))
}

fn check_lent(pool: &Pool, seed: u64) -> Result<(), Wrong> {
    let mut dice = Dice(seed);
    let due = routes_if_sound(pool.words_lent());
    match (pool.sound(), due.is_some()) {
        (true, false) => return Err("sound says yes, and the second test no".to_string()),
        (false, true) => return Err("sound says no, and the second test yes".to_string()),
        _ => {}
    }
    if let Some(routes) = due {
        ensure(walk(pool)? == routes, "the walk is not the routes that the words hold")?;
        behaves(pool, &mut dice)?;
        let size = pool.size();
        refuses(&pool.lending(size - 1), &mut dice)?;
        refuses(&pool.lending(dice.below(size as u32) as usize), &mut dice)
    } else {
        refuses(pool, &mut dice)
    }
}

fn ensure(holds: bool, what: &str) -> Result<(), Wrong> {
    if holds {
        Ok(())
    } else {
        Err(what.to_string())
    }
}

fn no_complaint(pool: &Pool) -> Result<(), Wrong> {
    pool.complaint().map_or(Ok(()), Err)
}

/// One of the calls that answer with a number alone.
type Change = (&'static str, fn(&mut Pool) -> u32);

const HOST: Prefix = Prefix { address: 0x0A00_0001, length: 32 };
const NO_PREFIX: Prefix = Prefix { address: 1, length: 33 };
const PLAIN: Route = Route { prefix: HOST, hop: Hop::Direct(1), origin: Origin::Fixed };
const LEARNED: Route = Route { origin: Origin::Learned(LAST_METRIC), ..PLAIN };
/// Wrong in all that can be wrong with a route.
const BAD: Route = Route { prefix: NO_PREFIX, hop: Hop::Direct(LAST_PORT + 1), origin: Origin::Learned(LAST_METRIC + 1) };

const CHANGES: [Change; 12] = [
    ("add", |p| p.add(PLAIN)),
    ("learned add", |p| p.add(LEARNED)),
    ("learned add of a bad route", |p| p.add(BAD)),
    ("delete", |p| p.delete(HOST, By::Plain)),
    ("learned delete", |p| p.delete(HOST, By::Learner)),
    ("change", |p| p.change(PLAIN)),
    ("learned change", |p| p.change(LEARNED)),
    ("learned change of a bad route", |p| p.change(BAD)),
    ("open", |p| p.open()),
    ("keep", |p| p.keep()),
    ("back", |p| p.back_out()),
    ("step", |p| p.step_back()),
];

/// Not sound: 9 from every call but fresh and mask; a lookup answers 0, 9 or 13.
fn refuses(pool: &Pool, dice: &mut Dice) -> Result<(), Wrong> {
    ensure(!pool.sound(), "sound says yes of a pool that is too short")?;
    for (name, call) in CHANGES {
        let mut copy = pool.clone();
        let number = call(&mut copy);
        ensure(number == 9, &format!("{name} answers {number} in a pool that is not sound"))?;
        no_complaint(&copy)?;
    }
    let mut copy = pool.clone();
    ensure(copy.with_kind(HOST, 3, 0) == [9; 4], "a hop that is none is not 9 first")?;
    no_complaint(&copy)?;
    ensure(pool.first() == Err(9), "first is not 9 in a pool that is not sound")?;
    ensure(pool.next(HOST) == Err(9), "next is not 9 in a pool that is not sound")?;
    ensure(pool.next(Prefix { address: 1, length: 8 }) == Err(9), "next after a bad prefix is not 9 first")?;
    ensure(pool.room() == Err(9), "room is not 9 in a pool that is not sound")?;
    ensure(pool.mask_length(0xFF00_0000) == Ok(8), "mask asks after the pool")?;
    for _ in 0..8 {
        let number = pool.lookup(address_of(pool, dice)).err().unwrap_or(0);
        ensure([0, 9, 13].contains(&number), &format!("lookup answers {number}"))?;
    }
    no_complaint(pool)
}

/// An address that stands somewhere in the words, or any.
fn address_of(pool: &Pool, dice: &mut Dice) -> u32 {
    let words = pool.words_lent();
    if words.is_empty() || dice.one_in(3) {
        return dice.draw() as u32;
    }
    let low = dice.draw() as u32 & !mask(dice.below(33));
    dice.of(words) ^ low
}

/// The routes in the order of the walk, which must be strict, and each must be one that a table may hold.
fn walk(pool: &Pool) -> Result<Vec<Route>, Wrong> {
    let mut routes: Vec<Route> = vec![];
    let mut found = pool.first();
    while let Ok(route) = found {
        let good = route.prefix.well_formed() && route.hop.good() && route.origin.good();
        ensure(good, &format!("the walk gives {route:?}"))?;
        let in_order = routes.last().is_none_or(|last| last.prefix.rank() < route.prefix.rank());
        ensure(in_order, &format!("the walk gives {route:?} out of order"))?;
        ensure(routes.len() < MOST_ROUTES as usize, "the walk goes on past the largest capacity")?;
        routes.push(route);
        found = pool.next(route.prefix);
    }
    ensure(found == Err(14), "the walk ends without 14")?;
    Ok(routes)
}

fn behaves(pool: &Pool, dice: &mut Dice) -> Result<(), Wrong> {
    let routes = walk(pool)?;
    let room = pool.room().map_err(|number| format!("room answers {number} in a sound pool"))?;
    let capacity = room + routes.len() as u32;
    ensure(pool.peek(0) == Ok(capacity), "routes and room are not the capacity")?;
    let mut model = Model::of(capacity, routes);
    longest_match(pool, &model, dice)?;
    no_complaint(pool)?;
    knows_kinds(pool)?;
    if dice.one_in(4) {
        knows_origins(pool, &model)?;
        fills(pool, &model, room)?;
    }
    let mut copy = pool.clone();
    match copy.open() {
        0 => model.open(),
        10 => {
            takes_back(pool)?;
            copy.keep()
        }
        number => return Err(format!("open answers {number} in a sound pool")),
    };
    let mut lines = script_over(model.clone(), dice.draw(), 30);
    if pool.words_lent().len() < LENT {
        // the list has no words that could be too few for a larger table
        lines.retain(|line| !line.starts_with("fresh"));
    }
    no_complaint(&copy)?;
    let told =
        |wrong| format!("{wrong}\nwhen this follows (its trial kept, or else one opened):\n    {}", lines.join("\n    "));
    agree(&mut copy, &mut model, &lines).map_err(told)
}

/// A kind above 2 is no hop: 4, after 3 and before 16 and all that asks what is held.
fn knows_kinds(pool: &Pool) -> Result<(), Wrong> {
    let mut copy = pool.clone();
    for kind in [3, u32::MAX] {
        ensure(copy.with_kind(HOST, kind, 0) == [4; 4], "a hop that is none is not 4, with a metric that is none")?;
        ensure(copy.with_kind(HOST, kind, 1) == [4; 4], "a hop that is none is not 4")?;
        ensure(copy.with_kind(NO_PREFIX, kind, 0) == [3; 4], "a hop that is none is 4 before 3")?;
    }
    no_complaint(&copy)
}

/// A metric outside 1 to the last is 16, before all that asks what is held. A learner may change and delete just the routes that
/// were learned; at a fixed one it is 15.
fn knows_origins(pool: &Pool, model: &Model) -> Result<(), Wrong> {
    let mut copy = pool.clone();
    copy.keep();
    for metric in [0, LAST_METRIC + 1, u32::MAX] {
        let route = Route { origin: Origin::Learned(metric), ..PLAIN };
        ensure(copy.add(route) == 16, "a learned add of no metric is not 16")?;
        ensure(copy.change(route) == 16, "a learned change to no metric is not 16")?;
    }
    for &held in model.routes() {
        let due = if held.origin == Origin::Fixed { 15 } else { 0 };
        let learned = Route { prefix: held.prefix, ..LEARNED };
        ensure(copy.change(learned) == due, &format!("a learned change of {held} is not {due}"))?;
        ensure(copy.delete(held.prefix, By::Learner) == due, &format!("a learned delete of {held} is not {due}"))?;
    }
    no_complaint(&copy)
}

/// As many routes as there is room for can be added, and no more: no place is lost.
fn fills(pool: &Pool, model: &Model, room: u32) -> Result<(), Wrong> {
    let mut copy = pool.clone();
    copy.keep();
    let held = |prefix: &Prefix| model.routes().iter().any(|route| route.prefix == *prefix);
    let hosts = (0..).map(|i| Prefix { address: 0xC0A8_0000 + 3 * i, length: 32 }).filter(|host| !held(host));
    for (count, host) in hosts.take(room as usize + 1).enumerate() {
        let due = if count < room as usize { 0 } else { 7 };
        let number = copy.add(Route { prefix: host, ..PLAIN });
        ensure(number == due, &format!("with room for {room}, add {} answers {number}", count + 1))?;
    }
    no_complaint(&copy)
}

fn longest_match(pool: &Pool, model: &Model, dice: &mut Dice) -> Result<(), Wrong> {
    let mut asked = vec![0, u32::MAX];
    for route in model.routes() {
        asked.extend([route.prefix.address, route.prefix.address ^ dice.draw() as u32 & !mask(dice.below(33))]);
    }
    for to in asked {
        ensure(pool.lookup(to) == model.lookup(to), &format!("lookup {to:#010x} is not the longest match of the walk"))?;
    }
    Ok(())
}

/// An open trial can be backed out of, and step by step to the same table.
fn takes_back(pool: &Pool) -> Result<(), Wrong> {
    let mut out = pool.clone();
    ensure(out.back_out() == 0, "a trial can't be backed out of")?;
    ensure(out.back_out() == 11, "a trial is still open after it was backed out of")?;
    let mut step = pool.clone();
    let mut steps = 0;
    while step.step_back() == 0 {
        steps += 1;
        walk(&step)?;
        ensure(steps <= MOST_CHANGES, "more steps back than changes may stand")?;
    }
    ensure(step.step_back() == 12, "steps back end without 12")?;
    ensure(walk(&step)? == walk(&out)?, "stepping back and backing out differ")?;
    let mut kept = pool.clone();
    ensure(kept.keep() == 0 && walk(&kept)? == walk(pool)?, "keep changes the routes")?;
    [out, step, kept].iter().try_for_each(no_complaint)
}

/// Fresh takes a buffer of any words, if it is long enough.
fn begins_anew(pool: &Pool, dice: &mut Dice) -> Result<(), Wrong> {
    let capacity = dice.below(MOST_ROUTES) + 1;
    let mut copy = pool.lending(LENT);
    ensure(copy.fresh(capacity) == 0, "fresh is refused")?;
    ensure(copy.room() == Ok(capacity) && copy.first() == Err(14), "a fresh table is not empty")?;
    ensure(copy.step_back() == 11, "a fresh table has a trial open")?;
    let mut short = pool.lending(copy.size() - 1);
    ensure(short.fresh(capacity) == 2, "fresh is not 2 in a buffer that is too short")?;
    ensure(short.fresh(MOST_ROUTES + 1) == 1, "fresh is not 1 before 2")?;
    no_complaint(&copy)?;
    no_complaint(&short)
}

/// The same lines to both, answer by answer.
pub fn agree(pool: &mut Pool, model: &mut Model, lines: &[String]) -> Result<(), Wrong> {
    for (before, line) in lines.iter().enumerate() {
        let due = answer(model, line.as_bytes(), before + 1);
        let given = answer(pool, line.as_bytes(), before + 1);
        if due != given {
            return Err(format!("{line}\n  the list answers {due:?}\n  the table     {given:?}"));
        }
        no_complaint(pool).map_err(|wrong| format!("{line}: {wrong}"))?;
    }
    Ok(())
}
