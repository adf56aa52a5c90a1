//! The second table: routes in a list in the order they came, every route tried at each question, and for a trial a pile of
//! copies of the list. No tree, no pool, nothing in common with the proved table but documents 01 and 02.
use crate::calls::Calls;
use crate::limits::{size, MOST_CHANGES, MOST_ROUTES};
use crate::rules::{self, By, Origin, Prefix, Route};

#[derive(Clone, Default)]
pub struct Model {
    // None until a fresh is accepted: the pool is then not sound and every call but fresh and mask answers 9
    table: Option<Table>,
}

#[derive(Clone)]
struct Table {
    capacity: u32,
    routes: Vec<Route>,
    // the list before each standing change, oldest first; None without a trial
    trial: Option<Vec<Vec<Route>>>,
}

impl Table {
    fn at(&self, prefix: Prefix) -> Option<usize> {
        self.routes.iter().position(|r| r.prefix == prefix)
    }

    /// Whether a change by this one is aimed at a route that is there and is none of theirs to touch.
    fn kept_from(&self, by: By, prefix: Prefix) -> bool {
        let held = self.at(prefix).map(|i| self.routes[i].origin);
        by == By::Learner && held == Some(Origin::Fixed)
    }

    fn trial_full(&self) -> bool {
        self.trial.as_ref().is_some_and(|copies| copies.len() == MOST_CHANGES)
    }

    fn full(&self) -> bool {
        self.routes.len() as u32 == self.capacity
    }

    /// Called before the list is changed.
    fn record(&mut self) {
        if let Some(copies) = &mut self.trial {
            copies.push(self.routes.clone());
        }
    }

    fn least(&self, wanted: impl Fn(&Route) -> bool) -> Result<Route, u32> {
        let those = self.routes.iter().filter(|r| wanted(r));
        those.min_by_key(|r| r.prefix.rank()).copied().ok_or(14)
    }
}

/// The first line that holds, in the order given, is the number; with none the call is done.
fn first_due(lines: &[(u32, bool)]) -> u32 {
    lines.iter().find(|line| line.1).map_or(0, |line| line.0)
}

impl Model {
    /// A table that holds just these routes, with no trial open.
    pub fn of(capacity: u32, routes: Vec<Route>) -> Model {
        Model { table: Some(Table { capacity, routes, trial: None }) }
    }

    pub fn routes(&self) -> &[Route] {
        self.table.as_ref().map_or(&[], |t| &t.routes)
    }

    fn held(&self) -> Result<&Table, u32> {
        self.table.as_ref().ok_or(9)
    }
}

impl Calls for Model {
    fn fresh(&mut self, capacity: u32) -> u32 {
        if capacity == 0 || capacity > MOST_ROUTES {
            return 1;
        }
        *self = Model::of(capacity, vec![]);
        0
    }

    fn add(&mut self, route: Route) -> u32 {
        let Some(t) = &mut self.table else { return 9 };
        let number = first_due(&[
            (3, !route.prefix.well_formed()),
            (4, !route.hop.good()),
            (16, !route.origin.good()),
            (5, t.at(route.prefix).is_some()),
            (8, t.trial_full()),
            (7, t.full()),
        ]);
        if number == 0 {
            t.record();
            t.routes.push(route);
        }
        number
    }

    fn change(&mut self, route: Route) -> u32 {
        let Some(t) = &mut self.table else { return 9 };
        let number = first_due(&[
            (3, !route.prefix.well_formed()),
            (4, !route.hop.good()),
            (16, !route.origin.good()),
            (6, t.at(route.prefix).is_none()),
            (15, t.kept_from(route.origin.by(), route.prefix)),
            (8, t.trial_full()),
        ]);
        if number == 0 {
            t.record();
            t.routes.iter_mut().filter(|r| r.prefix == route.prefix).for_each(|r| *r = route);
        }
        number
    }

    fn delete(&mut self, prefix: Prefix, by: By) -> u32 {
        let Some(t) = &mut self.table else { return 9 };
        let number = first_due(&[
            (3, !prefix.well_formed()),
            (6, t.at(prefix).is_none()),
            (15, t.kept_from(by, prefix)),
            (8, t.trial_full()),
        ]);
        if number == 0 {
            t.record();
            t.routes.retain(|r| r.prefix != prefix);
        }
        number
    }

    fn lookup(&self, destination: u32) -> Result<Route, u32> {
        let matching = self.held()?.routes.iter().filter(|r| r.prefix.matches(destination));
        matching.max_by_key(|r| r.prefix.length).copied().ok_or(13)
    }

    fn first(&self) -> Result<Route, u32> {
        self.held()?.least(|_| true)
    }

    fn next(&self, after: Prefix) -> Result<Route, u32> {
        let t = self.held()?;
        if !after.well_formed() {
            return Err(3);
        }
        t.least(|r| r.prefix.rank() > after.rank())
    }

    fn room(&self) -> Result<u32, u32> {
        self.held().map(|t| t.capacity - t.routes.len() as u32)
    }

    fn mask_length(&self, mask: u32) -> Result<u32, u32> {
        rules::mask_length(mask)
    }

    fn open(&mut self) -> u32 {
        let Some(t) = &mut self.table else { return 9 };
        if t.trial.is_some() {
            return 10;
        }
        t.trial = Some(vec![]);
        0
    }

    fn keep(&mut self) -> u32 {
        let Some(t) = &mut self.table else { return 9 };
        if t.trial.take().is_some() {
            0
        } else {
            11
        }
    }

    fn back_out(&mut self) -> u32 {
        let Some(t) = &mut self.table else { return 9 };
        let Some(copies) = t.trial.take() else { return 11 };
        if let Some(oldest) = copies.into_iter().next() {
            t.routes = oldest;
        }
        0
    }

    fn step_back(&mut self) -> u32 {
        let Some(t) = &mut self.table else { return 9 };
        let Some(copies) = &mut t.trial else { return 11 };
        let Some(before) = copies.pop() else { return 12 };
        t.routes = before;
        0
    }

    fn sound(&self) -> bool {
        self.table.is_some()
    }

    /// The formula of docs/POOL.md. The list itself has no words.
    fn words(&self, capacity: u32) -> u32 {
        if capacity == 0 || capacity > MOST_ROUTES {
            0
        } else {
            size(capacity) as u32
        }
    }

    fn peek(&self, _place: u32) -> Result<u32, &'static str> {
        Err("no words here")
    }

    fn poke(&mut self, _place: u32, _word: u32) -> Result<(), &'static str> {
        Err("no words here")
    }
}
