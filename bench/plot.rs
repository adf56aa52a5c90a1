//! The figures as a picture: lookups per second as bars on a logarithmic scale, the cost of changes as lines.
use crate::measure::{Changes, Lookups, CAPACITY, ENGINES};

// colours that stay apart for colour-blind readers
const COLOURS: [&str; 4] = ["#0072b2", "#e69f00", "#009e73", "#cc79a7"];
const CHANGE_NAMES: [&str; 3] = ["add", "delete", "sound"];
/// The panels of lookups, by the name of the table.
const SHAPE_TITLES: [(&str, &str); 3] = [
    ("site", "A site's table"),
    ("random", "Random lengths and addresses"),
    ("deep", "A deep table: a lookup that climbs has every route on its way"),
];
const WIDTH: f64 = 980.0;
const HEIGHT: f64 = 1460.0;
const LEFT: f64 = 80.0;
const RIGHT: f64 = 950.0;

/// A rectangle of the picture that a scale is drawn in.
struct Panel {
    top: f64,
    bottom: f64,
}

impl Panel {
    /// A share of the height, from the bottom up.
    fn y(&self, share: f64) -> f64 {
        self.bottom - share * (self.bottom - self.top)
    }

    /// A line across the panel with its label at the left.
    fn tick(&self, share: f64, label: &str) -> String {
        let y = self.y(share);
        let line = format!("<line x1='{LEFT}' y1='{y:.1}' x2='{RIGHT}' y2='{y:.1}' stroke='#ddd'/>\n");
        line + &text(LEFT - 8.0, y + 4.0, "end", 12, label)
    }

    fn axes(&self) -> String {
        let Panel { top, bottom } = self;
        format!("<path d='M{LEFT} {top}V{bottom}H{RIGHT}' fill='none' stroke='#333'/>\n")
    }

    fn y_name(&self, name: &str) -> String {
        let (x, y) = (LEFT - 52.0, (self.top + self.bottom) / 2.0);
        let turned = format!("transform='rotate(-90 {x:.1} {y:.1})'");
        format!("<text x='{x:.1}' y='{y:.1}' text-anchor='middle' font-size='13' {turned}>{name}</text>\n")
    }
}

/// The scale that the lookups of all tables share, so that one can be held against the other.
struct Scale {
    ticks: Vec<f64>,
}

impl Scale {
    /// From the last tick below all rates to the first above them.
    fn of(all: &[Lookups]) -> Scale {
        let rates = all.iter().flat_map(rates);
        let (least, most) = rates.fold((f64::MAX, f64::MIN), |(least, most), rate| (least.min(rate), most.max(rate)));
        let ticks = (-6..=6).flat_map(|decade| [1.0, 2.0, 5.0].map(|step| step * 10f64.powi(decade)));
        let ticks: Vec<f64> = ticks.collect();
        let first = ticks.iter().rposition(|&tick| tick <= least).unwrap_or(0);
        let last = ticks.iter().position(|&tick| tick >= most).unwrap_or(ticks.len() - 1);
        Scale { ticks: ticks[first..=last].to_vec() }
    }

    fn share(&self, rate: f64) -> f64 {
        let (least, most) = (self.ticks[0].log10(), self.ticks[self.ticks.len() - 1].log10());
        (rate.log10() - least) / (most - least)
    }
}

fn rates(measured: &Lookups) -> [f64; 4] {
    measured.nanoseconds.map(|ns| 1000.0 / ns)
}

fn across(share: f64) -> f64 {
    LEFT + share * (RIGHT - LEFT)
}

fn text(x: f64, y: f64, anchor: &str, size: u32, words: &str) -> String {
    format!("<text x='{x:.1}' y='{y:.1}' text-anchor='{anchor}' font-size='{size}'>{words}</text>\n")
}

fn title(y: f64, title: &str, note: &str) -> String {
    text(LEFT, y, "start", 16, title) + &text(LEFT, y + 18.0, "start", 12, note)
}

fn legend(names: &[&str], y: f64) -> String {
    let entry = |(i, name): (usize, &&str)| {
        let x = LEFT + 210.0 * i as f64;
        let colour = COLOURS[i];
        let square = format!("<rect x='{x:.1}' y='{:.1}' width='12' height='12' fill='{colour}'/>\n", y - 10.0);
        square + &text(x + 18.0, y, "start", 13, name)
    };
    names.iter().enumerate().map(entry).collect()
}

pub fn picture(lookups: &[Lookups], changes: &[Changes]) -> String {
    let head = format!("<svg xmlns='http://www.w3.org/2000/svg' viewBox='0 0 {WIDTH} {HEIGHT}' font-family='sans-serif'>\n");
    let ground = format!("<rect width='{WIDTH}' height='{HEIGHT}' fill='white'/>\n");
    let note = "higher is better; logarithmic scale; bars side by side are the same addresses";
    let mut out = head + &ground + &title(36.0, "Lookups per second", note) + &legend(&ENGINES, 84.0);
    let scale = Scale::of(lookups);
    for (i, (name, words)) in SHAPE_TITLES.into_iter().enumerate() {
        let top = 130.0 + 325.0 * i as f64;
        let own: Vec<&Lookups> = lookups.iter().filter(|l| l.shape == name).collect();
        out += &text(LEFT, top - 14.0, "start", 14, words);
        out += &lookup_panel(&Panel { top, bottom: top + 230.0 }, &own, &scale);
    }
    out + &change_panel(&Panel { top: 1180.0, bottom: 1400.0 }, changes) + "</svg>\n"
}

fn lookup_panel(panel: &Panel, all: &[&Lookups], scale: &Scale) -> String {
    let mut out: String = scale.ticks.iter().map(|&rate| panel.tick(scale.share(rate), &plain(rate))).collect();
    let group = 1.0 / all.len() as f64;
    for (i, measured) in all.iter().enumerate() {
        for (engine, rate) in rates(measured).into_iter().enumerate() {
            let (x, y) = (across(group * (i as f64 + 0.12 + 0.19 * engine as f64)), panel.y(scale.share(rate)));
            let (width, height) = (0.17 * group * (RIGHT - LEFT), panel.bottom - y);
            let colour = COLOURS[engine];
            out += &format!("<rect x='{x:.1}' y='{y:.1}' width='{width:.1}' height='{height:.1}' fill='{colour}'/>\n");
        }
        out += &text(across(group * (i as f64 + 0.5)), panel.bottom + 16.0, "middle", 12, measured.kind);
    }
    let mut start = 0;
    for same in all.chunk_by(|a, b| a.routes == b.routes) {
        let end = start + same.len();
        let (x, middle) = (across(group * end as f64), across(group * (start + end) as f64 / 2.0));
        out += &format!("<path d='M{x:.1} {:.1}V{:.1}' stroke='#999'/>\n", panel.top, panel.bottom + 40.0);
        let held = format!("{} route{}", same[0].routes, if same[0].routes == 1 { "" } else { "s" });
        out += &text(middle, panel.bottom + 35.0, "middle", 13, &held);
        start = end;
    }
    out + &panel.y_name("million lookups per second") + &panel.axes()
}

fn change_panel(panel: &Panel, all: &[Changes]) -> String {
    let most = all.iter().flat_map(|c| [c.add, c.delete, c.sound]).fold(0.0, f64::max);
    let step = nice_step(most);
    let top = (most / step).ceil() * step;
    let note = format!("lower is better; the proved table, a site's routes, capacity {CAPACITY}, no trial open");
    let mut out = title(panel.top - 74.0, "Cost of add, delete and sound", &note) + &legend(&CHANGE_NAMES, panel.top - 26.0);
    for i in 0..=(top / step).round() as i32 {
        out += &panel.tick(f64::from(i) * step / top, &plain(f64::from(i) * step));
    }
    let along = |routes: usize| across(routes as f64 / CAPACITY as f64);
    for count in (0..=8).map(|eighths| CAPACITY * eighths / 8) {
        out += &text(along(count), panel.bottom + 18.0, "middle", 12, &count.to_string());
    }
    for (i, colour) in COLOURS.iter().take(3).enumerate() {
        let value = |c: &Changes| [c.add, c.delete, c.sound][i];
        let point = |c: &Changes| (along(c.routes), panel.y(value(c) / top));
        let path: Vec<String> = all.iter().map(point).map(|(x, y)| format!("{x:.1},{y:.1}")).collect();
        out += &format!("<polyline points='{}' fill='none' stroke='{colour}' stroke-width='2'/>\n", path.join(" "));
        for (x, y) in all.iter().map(point) {
            out += &format!("<circle cx='{x:.1}' cy='{y:.1}' r='3' fill='{colour}'/>\n");
        }
    }
    out += &text(across(0.5), panel.bottom + 40.0, "middle", 13, "routes held");
    out + &panel.y_name("microseconds per call") + &panel.axes()
}

/// A number without the crumbs of binary fractions.
fn plain(value: f64) -> String {
    let digits = format!("{value:.4}");
    digits.trim_end_matches('0').trim_end_matches('.').to_string()
}

/// 1, 2 or 5 times a power of ten, so that the axis has four to ten ticks.
fn nice_step(most: f64) -> f64 {
    let power = 10f64.powf((most / 4.0).log10().floor());
    [5.0, 2.0, 1.0].map(|n| n * power).into_iter().find(|&step| most / step >= 4.0).unwrap_or(power)
}
