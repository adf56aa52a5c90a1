//! The pool as a picture: the root at the left, each inner place as far to the right as its bit, the leaves in a column in the
//! walk's order. What is damaged is red, and told below the tree.
use crate::pool::{Node, Pool};
use crate::route::Route;

const MARGIN: f64 = 24.0;
const LINE: f64 = 20.0;
/// From one bit to the next.
const STEP: f64 = 16.0;
/// Between the boxes of two addresses.
const GAP: f64 = 10.0;
/// From the last inner place to the boxes.
const REACH: f64 = 60.0;
const RADIUS: f64 = 11.0;
const BOX_WIDTH: f64 = 470.0;

const CAPTION: &str =
    "A circle tests the bit that it names: up is 0, down is 1. A box has the routes of one address, longest first.";

const INK: &str = "#1f2933";
const PALE: &str = "#7b8794";
const LINES: &str = "#52606d";
const INNER: &str = "#0072b2";
const DAMAGED: &str = "#c0392b";

/// A node with its middle, and for an inner one its sides.
enum Spot<'a> {
    Inner { x: f64, y: f64, place: usize, bit: u32, good: bool, sides: Box<[Spot<'a>; 2]> },
    Leaf { y: f64, routes: &'a [Route] },
    Broken { y: f64, fault: &'a str },
}

impl Spot<'_> {
    fn y(&self) -> f64 {
        match self {
            Spot::Inner { y, .. } | Spot::Leaf { y, .. } | Spot::Broken { y, .. } => *y,
        }
    }

    /// Where the rightmost inner place stands.
    fn reach(&self) -> f64 {
        match self {
            Spot::Inner { x, sides, .. } => sides.iter().map(Spot::reach).fold(*x, f64::max),
            _ => 0.0,
        }
    }
}

fn bit_x(bit: u32) -> f64 {
    MARGIN + RADIUS + STEP * f64::from(bit.min(32))
}

fn height(routes: usize) -> f64 {
    LINE * routes as f64 + 8.0
}

/// Gives a node its spot, right of `left` and below `top`, which moves down past it.
fn spot<'a>(node: &'a Node, left: f64, top: &mut f64) -> Spot<'a> {
    let mut take = |routes: usize| {
        *top += height(routes) + GAP;
        *top - GAP - height(routes) / 2.0
    };
    match node {
        Node::Leaf(routes) => Spot::Leaf { y: take(routes.len()), routes },
        Node::Broken(fault) => Spot::Broken { y: take(1), fault },
        Node::Inner { place, bit, sides, faults } => {
            let x = bit_x(*bit).max(left + STEP);
            let left = spot(&sides[0], x, top);
            // between its sides, where no other line passes
            let y = *top - GAP / 2.0;
            let right = spot(&sides[1], x, top);
            Spot::Inner { x, y, place: *place, bit: *bit, good: faults.is_empty(), sides: Box::new([left, right]) }
        }
    }
}

pub fn draw(pool: &Pool) -> String {
    let mut y = MARGIN + 14.0;
    let mut out = text(MARGIN, y, &format!("fill='{INK}' font-weight='bold'"), &pool.head.join(" · "));
    y += 24.0;
    let mut right = bit_x(31) + REACH;
    if let Some(root) = &pool.root {
        let ruler = y + 10.0;
        y += 30.0;
        let tree = spot(root, 0.0, &mut y);
        right = right.max(tree.reach() + REACH);
        out += &rule(ruler, y);
        out += &branches(&tree, right);
        out += &nodes(&tree, right);
        y += 14.0;
        out += &text(MARGIN, y, &format!("fill='{PALE}' font-size='12'"), CAPTION);
        y += 26.0;
    }
    for fault in pool.faults.iter().cloned().chain(pool.tree_faults()) {
        out += &text(MARGIN, y, &format!("fill='{DAMAGED}'"), &format!("! {fault}"));
        y += LINE;
    }
    page(right + BOX_WIDTH + MARGIN, y, &out)
}

fn page(width: f64, height: f64, inside: &str) -> String {
    let fonts = "font-family='Helvetica, Arial, sans-serif' font-size='13'";
    format!(
        "<svg xmlns='http://www.w3.org/2000/svg' viewBox='0 0 {width} {height}' width='{width}' height='{height}' {fonts}>\n\
         <title>The tree in the pool</title>\n\
         <rect width='{width}' height='{height}' fill='#ffffff'/>\n{inside}</svg>\n"
    )
}

fn text(x: f64, y: f64, style: &str, words: &str) -> String {
    format!("<text x='{x}' y='{y}' {style}>{words}</text>\n")
}

/// The scale of the bits: where the octets begin and the last one ends.
fn rule(top: f64, bottom: f64) -> String {
    let line = |bit: u32| {
        let (x, end) = (bit_x(bit), bottom - GAP);
        let name = if bit == 0 { "bit 0".to_string() } else { bit.to_string() };
        let style = format!("fill='{PALE}' font-size='11' text-anchor='middle'");
        format!("<line x1='{x}' y1='{}' x2='{x}' y2='{end}' stroke='#e4e7eb'/>\n", top + 5.0) + &text(x, top, &style, &name)
    };
    [0, 8, 16, 24, 31].map(line).concat()
}

/// The lines from each inner place to its sides, with the bit that leads there; to the `right` where a side is a box.
fn branches(tree: &Spot, right: f64) -> String {
    let Spot::Inner { x, y, sides, .. } = tree else { return String::new() };
    let branch = |side: usize| {
        let end = match &sides[side] {
            Spot::Inner { x, .. } => *x,
            _ => right,
        };
        let to = sides[side].y();
        let style = format!("fill='{PALE}' font-size='11' text-anchor='end'");
        format!("<path d='M{x} {y}V{to}H{end}' fill='none' stroke='{LINES}' stroke-width='1.5'/>\n")
            + &text(x - 4.0, to + 4.0, &style, &side.to_string())
            + &branches(&sides[side], right)
    };
    [0, 1].map(branch).concat()
}

fn nodes(tree: &Spot, right: f64) -> String {
    match tree {
        Spot::Inner { x, y, place, bit, good, sides } => {
            let fill = if *good { INNER } else { DAMAGED };
            let name = if *bit < 32 { bit.to_string() } else { "?".to_string() };
            let pale = format!("fill='{PALE}' font-size='10'");
            let white = "fill='#ffffff' font-size='12' font-weight='bold' text-anchor='middle'";
            format!("<circle cx='{x}' cy='{y}' r='{RADIUS}' fill='{fill}'/>\n")
                + &text(*x, y + 4.0, white, &name)
                + &text(x + RADIUS + 4.0, y + 3.5, &pale, &format!("place {place}"))
                + &sides.iter().map(|side| nodes(side, right)).collect::<String>()
        }
        Spot::Leaf { y, routes } => leaf(right, *y, routes),
        Spot::Broken { y, fault } => {
            let style = format!("fill='{DAMAGED}'");
            text(right + 8.0, y + 4.0, &style, &format!("! {fault}"))
        }
    }
}

fn leaf(x: f64, middle: f64, routes: &[Route]) -> String {
    let height = height(routes.len());
    let top = middle - height / 2.0;
    let frame =
        format!("<rect x='{x}' y='{top}' width='{BOX_WIDTH}' height='{height}' rx='5' fill='#f5f7fa' stroke='#cbd2d9'/>\n");
    let line = |(i, route): (usize, &Route)| {
        let y = top + 18.0 + LINE * i as f64;
        let colour = if route.faults.is_empty() { INK } else { DAMAGED };
        let bold = format!("fill='{colour}' font-weight='bold'");
        let plain = format!("fill='{colour}'");
        let pale = format!("fill='{PALE}' font-size='11' text-anchor='end'");
        text(x + 12.0, y, &bold, &route.prefix())
            + &text(x + 172.0, y, &plain, &route.hop)
            + &text(x + 334.0, y, &plain, &route.origin)
            + &text(x + BOX_WIDTH - 10.0, y, &pale, &format!("place {}", route.place))
    };
    frame + &routes.iter().enumerate().map(line).collect::<String>()
}
