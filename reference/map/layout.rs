//! Where the crates stand. A floor has as many rows as it needs for every arrow to lead down. A crate's box takes one row; an
//! arrow that passes rows takes an upright lane through them. Boxes and lanes are bars that must not overlap; the order from left
//! to right in which the arrows cross least and swing least is searched for step by step.
use crate::Map;
use std::cmp::Reverse;

pub struct Bar {
    /// The highest and the lowest row that it takes, counted from the ground.
    pub top: usize,
    pub bottom: usize,
    /// Its middle, and half its width.
    pub x: i32,
    pub half: i32,
    /// The bars that lines join it to.
    joined: Vec<usize>,
}

/// An arrow from a box to a box, and its lane if it passes rows; all by the numbers of their bars.
pub struct Arrow {
    pub from: usize,
    pub lane: Option<usize>,
    pub to: usize,
}

pub struct Layout {
    /// The crates' boxes, by the crates' numbers, and behind them the lanes.
    pub bars: Vec<Bar>,
    pub arrows: Vec<Arrow>,
    /// The rows' floors, from the ground up.
    pub floors: Vec<usize>,
}

const LANE: i32 = 3;
const SPACE: i32 = 12;
/// A crossing is as bad as a swing so wide.
const CROSSING: i32 = 100;

pub fn lay_out(map: &Map) -> Layout {
    let (rows, floors) = rows(map);
    let mut layout = Layout { bars: boxes(map, &rows), arrows: vec![], floors };
    layout.add_arrows(map);
    let mut order: Vec<usize> = (0..layout.bars.len()).collect();
    // the highest first, from where the search comes to a better end than from other orders that were tried
    order.sort_by_key(|&bar| Reverse(layout.bars[bar].top));
    while layout.improve(&mut order) {}
    layout.settle(&order);
    layout
}

/// The row of each crate, and the floor of each row.
fn rows(map: &Map) -> (Vec<usize>, Vec<usize>) {
    let mut depths: Vec<usize> = vec![];
    for one in &map.crates {
        let same_floor = one.names.iter().filter(|&&other| map.crates[other].floor == one.floor);
        depths.push(same_floor.map(|&other| depths[other] + 1).max().unwrap_or(0));
    }
    let mut floors = vec![];
    let mut rows = vec![0; map.crates.len()];
    for floor in 0..map.floors.len() {
        let start = floors.len();
        for (number, _) in map.crates.iter().enumerate().filter(|(_, one)| one.floor == floor) {
            rows[number] = start + depths[number];
            floors.resize(floors.len().max(rows[number] + 1), floor);
        }
    }
    (rows, floors)
}

fn boxes(map: &Map, rows: &[usize]) -> Vec<Bar> {
    let half = |name: &str| 12 + 4 * name.len() as i32;
    let bar =
        |(one, &row): (&crate::Crate, &usize)| Bar { top: row, bottom: row, x: 0, half: half(&one.name), joined: vec![] };
    map.crates.iter().zip(rows).map(bar).collect()
}

impl Layout {
    fn add_arrows(&mut self, map: &Map) {
        for (from, one) in map.crates.iter().enumerate() {
            for &to in &one.names {
                let (top, bottom) = (self.bars[from].bottom - 1, self.bars[to].top + 1);
                let lane = (top >= bottom).then_some(self.bars.len());
                self.bars.extend(lane.map(|_| Bar { top, bottom, x: 0, half: LANE, joined: vec![] }));
                self.arrows.push(Arrow { from, lane, to });
            }
        }
        for (upper, lower) in self.lines() {
            self.bars[upper].joined.push(lower);
            self.bars[lower].joined.push(upper);
        }
    }

    /// The lines that swing from a bar to one that begins in the row below.
    fn lines(&self) -> Vec<(usize, usize)> {
        let lines = |arrow: &Arrow| match arrow.lane {
            Some(lane) => vec![(arrow.from, lane), (lane, arrow.to)],
            None => vec![(arrow.from, arrow.to)],
        };
        self.arrows.iter().flat_map(lines).collect()
    }

    /// Moves each bar to the best place in the order; whether any was moved.
    fn improve(&mut self, order: &mut Vec<usize>) -> bool {
        let mut best = self.cost(order);
        let before = best;
        for bar in 0..order.len() {
            for place in 0..order.len() {
                let mut tried = order.clone();
                tried.retain(|&other| other != bar);
                tried.insert(place, bar);
                let cost = self.cost(&tried);
                if cost < best {
                    best = cost;
                    *order = tried;
                }
            }
        }
        best < before
    }

    fn cost(&mut self, order: &[usize]) -> i32 {
        self.settle(order);
        let swing = |(a, b): (usize, usize)| (self.bars[a].x - self.bars[b].x).abs();
        let lines = self.lines();
        CROSSING * self.crossings(&lines) + lines.into_iter().map(swing).sum::<i32>()
    }

    /// How often lines cross between two rows, where each either swings or passes in its lane.
    fn crossings(&self, lines: &[(usize, usize)]) -> i32 {
        let below = |row: usize| -> Vec<(i32, i32)> {
            let swings = lines
                .iter()
                .filter(|line| self.bars[line.0].bottom == row)
                .map(|line| (self.bars[line.0].x, self.bars[line.1].x));
            let lanes = self.bars.iter().filter(|bar| bar.bottom < row && row <= bar.top).map(|bar| (bar.x, bar.x));
            swings.chain(lanes).collect()
        };
        let cross = |a: &(i32, i32), b: &(i32, i32)| (a.0 < b.0 && a.1 > b.1) || (a.0 > b.0 && a.1 < b.1);
        let count = |row: usize| {
            let lines = below(row);
            lines.iter().map(|a| lines.iter().filter(|b| cross(a, b)).count()).sum::<usize>() as i32 / 2
        };
        (1..self.floors.len()).map(count).sum()
    }

    /// Gives each bar its x, in the order from left to right: as near to the bars that it is joined to as the others let it.
    fn settle(&mut self, order: &[usize]) {
        for place in 0..order.len() {
            self.bars[order[place]].x = self.room(order, place).0.unwrap_or(0);
        }
        for sweep in 0..8 {
            for step in 0..order.len() {
                let place = if sweep % 2 == 0 { order.len() - 1 - step } else { step };
                let (least, most) = self.room(order, place);
                let x = self.wanted(order[place]);
                let x = least.map_or(x, |least| x.max(least));
                self.bars[order[place]].x = most.map_or(x, |most| x.min(most));
            }
        }
    }

    /// The least and the most x that the bars to the left and to the right leave to one.
    fn room(&self, order: &[usize], place: usize) -> (Option<i32>, Option<i32>) {
        let own = &self.bars[order[place]];
        let near = |other: &&Bar| other.bottom <= own.top && own.bottom <= other.top;
        let away = |other: &Bar| other.half + SPACE + own.half;
        let left = order[..place].iter().map(|&other| &self.bars[other]).filter(near);
        let right = order[place + 1..].iter().map(|&other| &self.bars[other]).filter(near);
        (left.map(|other| other.x + away(other)).max(), right.map(|other| other.x - away(other)).min())
    }

    /// The middle one of the bars that a bar is joined to; of two in the middle, neither is nearer.
    fn wanted(&self, bar: usize) -> i32 {
        let mut near: Vec<i32> = self.bars[bar].joined.iter().map(|&other| self.bars[other].x).collect();
        near.sort();
        match near.len() {
            0 => self.bars[bar].x,
            count => (near[(count - 1) / 2] + near[count / 2]) / 2,
        }
    }
}
