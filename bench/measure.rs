//! The clock. Engines take turns, and so do the rows of the figures, so that what else the machine does falls on all of them,
//! and the median counts: a disturbance of some seconds falls on few turns of each row.
use crate::engines::{Engine, Scan, StoredScan, Table};
use crate::limits::MOST_ROUTES;
use crate::radix::Radix;
use crate::tables::{self, Kind, Route, Shape};
use crate::tries;
use std::hint::black_box;
use std::time::Instant;

pub const ENGINES: [&str; 4] = ["proved table", "list, masks computed", "list, masks stored", "BSD tree of pointers"];

/// That of every proved table that is measured, however many routes it holds.
pub const CAPACITY: usize = MOST_ROUTES as usize;

/// How long a run takes, and with it how sure its figures are.
#[derive(Clone, Copy)]
pub struct Effort {
    /// How often each engine has its turn.
    pub turns: usize,
    /// How many nanoseconds a turn is to last: as many passes over the addresses as fill them, and at least one.
    pub turn: f64,
}

/// Nanoseconds per lookup, for each of ENGINES; and how many routes the proved table tries in the mean.
pub struct Lookups {
    pub shape: &'static str,
    pub kind: &'static str,
    pub routes: usize,
    pub tried: f64,
    pub nanoseconds: [f64; 4],
}

/// Microseconds per call, with so many routes held.
pub struct Changes {
    pub routes: usize,
    pub add: f64,
    pub delete: f64,
    pub sound: f64,
}

fn median(mut times: Vec<f64>) -> f64 {
    times.sort_by(f64::total_cmp);
    times[times.len() / 2]
}

/// One pass over all addresses, as often as `passes` says; the nanoseconds of one lookup.
fn pass<E: Engine>(engine: &E, addresses: &[u32], passes: usize) -> f64 {
    let mut route = Route::default();
    let start = Instant::now();
    for _ in 0..passes {
        for &to in addresses {
            black_box(engine.lookup(black_box(to), &mut route));
            black_box(&route);
        }
    }
    start.elapsed().as_nanos() as f64 / (passes * addresses.len()) as f64
}

/// How many passes fill a turn, by one that is not counted.
fn passes<E: Engine>(engine: &E, addresses: &[u32], turn: f64) -> usize {
    let one = pass(engine, addresses, 1) * addresses.len() as f64;
    (turn / one).ceil().max(1.0) as usize
}

/// Engines that disagree are not worth timing.
fn agree(engines: [&dyn Engine; 4], addresses: &[u32]) {
    for &to in addresses {
        let answers = engines.map(|engine| {
            let mut route = Route::default();
            (engine.lookup(to, &mut route), route)
        });
        assert!(answers.iter().all(|answer| *answer == answers[0]), "{to:#010x}: {answers:?}");
    }
}

/// What one row of the figures is measured on, and the times so far.
struct Row {
    done: Lookups,
    addresses: Vec<u32>,
    table: Table,
    scan: Scan,
    stored: StoredScan,
    radix: Radix,
    passes: [usize; 4],
    times: [Vec<f64>; 4],
}

impl Row {
    fn new(shape: (Shape, &'static str), kind: (Kind, &'static str), routes: usize, turn: f64) -> Row {
        let held = tables::table(shape.0, kind.0, routes);
        let addresses = tables::addresses(shape.0, kind.0, &held);
        let tried = tries::mean(&held, &addresses);
        let all_tried = tried == routes as f64;
        assert!(shape.0 != Shape::Deep || kind.0 == Kind::Hits || all_tried, "deep: {tried} of {routes} tried");
        let table = Table::new(&held);
        let scan = Scan(held.clone());
        let stored = StoredScan::new(&held);
        let radix = Radix::new(&held);
        agree([&table, &scan, &stored, &radix], &addresses);
        let passes = [
            passes(&table, &addresses, turn),
            passes(&scan, &addresses, turn),
            passes(&stored, &addresses, turn),
            passes(&radix, &addresses, turn),
        ];
        let done = Lookups { shape: shape.1, kind: kind.1, routes, tried, nanoseconds: [0.0; 4] };
        Row { done, addresses, table, scan, stored, radix, passes, times: Default::default() }
    }

    fn turn(&mut self) {
        self.times[0].push(pass(&self.table, &self.addresses, self.passes[0]));
        self.times[1].push(pass(&self.scan, &self.addresses, self.passes[1]));
        self.times[2].push(pass(&self.stored, &self.addresses, self.passes[2]));
        self.times[3].push(pass(&self.radix, &self.addresses, self.passes[3]));
    }
}

/// Every shape of table in each of these sizes, with every kind of address.
pub fn lookups(sizes: &[usize], effort: Effort) -> Vec<Lookups> {
    let mut rows = vec![];
    for shape in tables::SHAPES {
        for &routes in sizes {
            rows.extend(tables::KINDS.map(|kind| Row::new(shape, kind, routes, effort.turn)));
        }
    }
    for _ in 0..effort.turns {
        rows.iter_mut().for_each(Row::turn);
    }
    rows.into_iter().map(|row| Lookups { nanoseconds: row.times.map(median), ..row.done }).collect()
}

fn microseconds(call: impl FnOnce() -> u32, due: u32) -> f64 {
    let start = Instant::now();
    let answer = black_box(call());
    let time = start.elapsed().as_nanos() as f64 / 1000.0;
    assert_eq!(answer, due);
    time
}

/// How many routes go in and come out in one turn.
const CHANGED: usize = 100;

/// A table of some size, the routes that it is changed by, and the times of add, delete and sound so far.
struct Changing {
    routes: usize,
    table: Table,
    next: Vec<Route>,
    times: [Vec<f64>; 3],
}

impl Changing {
    /// The site's next routes are as many however full the table is, so that the last place is not measured on one alone.
    fn new(routes: usize) -> Changing {
        let mut held = tables::site(routes + CHANGED);
        let next = held.split_off(routes);
        Changing { routes, table: Table::new(&held), next, times: Default::default() }
    }

    /// Each of the next routes goes in and comes out again, so the table stays as large as is said.
    fn turn(&mut self) {
        let Changing { table, next, times: [add, delete, sound], .. } = self;
        for route in next {
            sound.push(microseconds(|| table.sound(), 1));
            add.push(microseconds(|| table.add(route), 0));
            delete.push(microseconds(|| table.delete(route), 0));
        }
    }
}

/// The site's table with each of these counts of routes held.
pub fn changes(counts: &[usize], effort: Effort) -> Vec<Changes> {
    let mut tables: Vec<Changing> = counts.iter().map(|&routes| Changing::new(routes)).collect();
    for _ in 0..effort.turns {
        tables.iter_mut().for_each(Changing::turn);
    }
    let end = |Changing { routes, times, .. }| {
        let [add, delete, sound] = times.map(median);
        Changes { routes, add, delete, sound }
    };
    tables.into_iter().map(end).collect()
}
