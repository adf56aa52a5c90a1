//! The laid out map as a picture.
use crate::layout::{Arrow, Bar, Layout};
use crate::Map;

const ROW: i32 = 42;
const BOX: i32 = 24;
const FLOOR_GAP: i32 = 12;
const TITLES: i32 = 150;
const MARGIN: i32 = 16;

// two tints in turn, so that a floor ends where the tint does
const TINTS: [&str; 2] = ["#eef4fb", "#f7f3ea"];

const NOTE: [&str; 2] = [
    "An arrow leads from a crate to one that it names. Left out are arrows that follow from others, to a crate",
    "that a named crate stands on, and the toolchain's libraries.",
];

struct Page<'a> {
    layout: &'a Layout,
    // added to each x, so that the leftmost bar is right of the floors' names
    shift: i32,
    width: i32,
    ground: i32,
}

pub fn draw(map: &Map, layout: &Layout) -> String {
    let left = layout.bars.iter().map(|bar| bar.x - bar.half).min().unwrap_or(0);
    let right = layout.bars.iter().map(|bar| bar.x + bar.half).max().unwrap_or(0);
    let ground = MARGIN + ROW * layout.floors.len() as i32 + FLOOR_GAP * map.floors.len() as i32;
    let shift = TITLES + MARGIN - left;
    let page = Page { layout, shift, width: right + shift + 2 * MARGIN, ground };
    let floors: String = map.floors.iter().enumerate().map(|(floor, name)| page.floor(floor, name)).collect();
    let arrows: String = layout.arrows.iter().map(|arrow| page.arrow(arrow)).collect();
    let boxes: String = map.crates.iter().zip(&layout.bars).map(|(one, bar)| page.crate_box(&one.name, bar)).collect();
    page.whole(&[floors, arrows, boxes, page.note()].concat())
}

impl Page<'_> {
    fn whole(&self, inside: &str) -> String {
        let (width, height) = (self.width, self.ground + 18 * NOTE.len() as i32 + MARGIN);
        let fonts = "font-family='Helvetica, Arial, sans-serif' font-size='13'";
        format!(
            "<svg xmlns='http://www.w3.org/2000/svg' viewBox='0 0 {width} {height}' width='{width}' height='{height}' {fonts}>\n\
             <title>The map of the crates</title>\n\
             <defs><marker id='head' viewBox='0 0 8 8' refX='7' refY='4' markerWidth='7' markerHeight='7' orient='auto'>\
             <path d='M0 0L8 4L0 8Z' fill='#52606d'/></marker></defs>\n\
             <rect width='{width}' height='{height}' fill='#ffffff'/>\n{inside}</svg>\n"
        )
    }

    /// The middle of a row.
    fn y(&self, row: usize) -> i32 {
        let floor = self.layout.floors[row] as i32;
        self.ground - ROW * row as i32 - ROW / 2 - FLOOR_GAP * floor - FLOOR_GAP / 2
    }

    fn x(&self, bar: &Bar) -> i32 {
        bar.x + self.shift
    }

    fn floor(&self, floor: usize, name: &str) -> String {
        let rows: Vec<usize> = (0..self.layout.floors.len()).filter(|&row| self.layout.floors[row] == floor).collect();
        let (bottom, top) = (self.y(rows[0]) + ROW / 2, self.y(rows[rows.len() - 1]) - ROW / 2);
        let (y, height) = (top - FLOOR_GAP / 2 + 1, bottom - top + FLOOR_GAP - 2);
        let (width, tint) = (self.width - 2 * MARGIN, TINTS[floor % 2]);
        format!(
            "<rect x='{MARGIN}' y='{y}' width='{width}' height='{height}' rx='6' fill='{tint}'/>\n\
             <text x='{}' y='{}' font-weight='bold' fill='#3e4c59'>{name}</text>\n",
            MARGIN + 12,
            (top + bottom) / 2 + 4
        )
    }

    fn crate_box(&self, name: &str, bar: &Bar) -> String {
        let (x, y) = (self.x(bar), self.y(bar.top));
        let (left, top, width) = (x - bar.half, y - BOX / 2, 2 * bar.half);
        let frame = "fill='#ffffff' stroke='#0072b2' stroke-width='1.4'";
        format!(
            "<rect x='{left}' y='{top}' width='{width}' height='{BOX}' rx='5' {frame}/>\n\
             <text x='{x}' y='{}' text-anchor='middle' fill='#1f2933'>{name}</text>\n",
            y + 4
        )
    }

    fn arrow(&self, arrow: &Arrow) -> String {
        let [from, to] = [arrow.from, arrow.to].map(|end| &self.layout.bars[end]);
        let swings = match arrow.lane.map(|lane| &self.layout.bars[lane]) {
            Some(lane) => self.swing(from, lane) + &format!("V{}", self.y(lane.bottom) + BOX / 2) + &self.swing(lane, to),
            None => self.swing(from, to),
        };
        let start = format!("M{} {}", self.x(from), self.y(from.bottom) + BOX / 2);
        format!("<path d='{start}{swings}' fill='none' stroke='#52606d' stroke-width='1.3' marker-end='url(#head)'/>\n")
    }

    /// From the foot of a bar to the head of one that begins in the row below.
    fn swing(&self, upper: &Bar, lower: &Bar) -> String {
        let (start, end) = (self.y(upper.bottom) + BOX / 2, self.y(lower.top) - BOX / 2);
        let (from, to, middle) = (self.x(upper), self.x(lower), (start + end) / 2);
        format!("C{from} {middle} {to} {middle} {to} {end}")
    }

    fn note(&self) -> String {
        let line = |(i, words): (usize, &&str)| {
            let y = self.ground + 20 + 18 * i as i32;
            format!("<text x='{MARGIN}' y='{y}' font-size='12' fill='#616e7c'>{words}</text>\n")
        };
        NOTE.iter().enumerate().map(line).collect()
    }
}
