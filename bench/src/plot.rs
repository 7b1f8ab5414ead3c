//! Time against n, as an SVG: a panel for each family, all to one scale, both axes by powers.

use std::fmt::Write;

pub const BLUE: &str = "#1b6ca8";
pub const RED: &str = "#c0392b";
pub const GREY: &str = "#777";

/// How a line is drawn, as SVG names it.
pub const FULL: &str = "none";
pub const DASHED: &str = "6 4";
pub const DOTTED: &str = "1.5 3";

const COLUMNS: usize = 3;
const WIDTH: f64 = 250.0;
const HEIGHT: f64 = 190.0;
const LEFT: f64 = 62.0;
const TOP: f64 = 34.0;
/// What a panel takes below its frame.
const BELOW: f64 = 26.0;

/// One line: its points are n and milliseconds.
pub struct Line {
    pub colour: &'static str,
    pub dash: &'static str,
    pub points: Vec<(f64, f64)>,
}

pub struct Panel {
    pub title: &'static str,
    pub lines: Vec<Line>,
}

pub fn svg(panels: &[Panel]) -> String {
    let mut out = String::new();
    let rows = panels.len().div_ceil(COLUMNS) as f64;
    let (wide, high) = (COLUMNS as f64 * (WIDTH + LEFT) + 30.0, rows * (TOP + HEIGHT + BELOW) + 84.0);
    let _ = writeln!(out, "<svg xmlns='http://www.w3.org/2000/svg' width='{wide}' height='{high}'");
    let _ = writeln!(out, "    font-family='sans-serif' font-size='11'>");
    let _ = writeln!(out, "<rect width='100%' height='100%' fill='white'/>");
    for (at, panel) in panels.iter().enumerate() {
        let left = LEFT + (at % COLUMNS) as f64 * (WIDTH + LEFT);
        let top = TOP + (at / COLUMNS) as f64 * (TOP + HEIGHT + BELOW);
        let frame = Frame { left, top, ..Frame::of(panels) };
        frame.axes(&mut out, panel.title);
        frame.straight(&mut out, panel);
        panel.lines.iter().for_each(|line| frame.draw(&mut out, line));
    }
    legend(&mut out, rows * (TOP + HEIGHT + BELOW) + 22.0);
    out.push_str("</svg>\n");
    out
}

/// Where a panel stands, and its scale: powers of two on n, powers of ten on milliseconds.
struct Frame {
    left: f64,
    top: f64,
    n: (f64, f64),
    ms: (f64, f64),
}

impl Frame {
    /// The scale that has room for every panel.
    fn of(panels: &[Panel]) -> Frame {
        let points = || panels.iter().flat_map(|panel| &panel.lines).flat_map(|line| &line.points);
        let low = |pick: fn(&(f64, f64)) -> f64| points().map(pick).fold(f64::MAX, f64::min);
        let high = |pick: fn(&(f64, f64)) -> f64| points().map(pick).fold(f64::MIN, f64::max);
        Frame {
            left: 0.0,
            top: 0.0,
            n: (low(|point| point.0.log2()).floor(), high(|point| point.0.log2()).ceil()),
            ms: (low(|point| power(point.1)).floor(), high(|point| power(point.1)).ceil()),
        }
    }

    fn x(&self, power: f64) -> f64 {
        self.left + WIDTH * (power - self.n.0) / (self.n.1 - self.n.0)
    }

    fn y(&self, power: f64) -> f64 {
        self.top + HEIGHT * (self.ms.1 - power) / (self.ms.1 - self.ms.0)
    }

    fn axes(&self, out: &mut String, title: &str) {
        let (left, top, right, bottom) = (self.left, self.top, self.left + WIDTH, self.top + HEIGHT);
        let _ = writeln!(out, "<text x='{left}' y='{}' font-weight='bold'>{title}</text>", top - 8.0);
        for power in self.n.0 as i32..=self.n.1 as i32 {
            let x = self.x(power.into());
            let _ = writeln!(out, "<line x1='{x:.1}' y1='{top}' x2='{x:.1}' y2='{bottom}' stroke='#e4e4e4'/>");
            let _ = writeln!(out, "<text x='{x:.1}' y='{}' text-anchor='middle'>{}</text>", bottom + 15.0, 1 << power);
        }
        for power in self.ms.0 as i32..=self.ms.1 as i32 {
            let y = self.y(power.into());
            let _ = writeln!(out, "<line x1='{left}' y1='{y:.1}' x2='{right}' y2='{y:.1}' stroke='#e4e4e4'/>");
            let _ = writeln!(out, "<text x='{}' y='{:.1}' text-anchor='end'>{}</text>", left - 5.0, y + 4.0, told(power));
        }
        let _ = writeln!(out, "<rect x='{left}' y='{top}' width='{WIDTH}' height='{HEIGHT}' fill='none' stroke='#444'/>");
    }

    /// What time in proportion to n looks like, from where the panel's lowest line of a solver begins.
    fn straight(&self, out: &mut String, panel: &Panel) {
        let solvers = panel.lines.iter().filter(|line| line.colour != GREY);
        let firsts = solvers.filter_map(|line| line.points.first());
        let lowest = firsts.map(|point| power(point.1)).fold(f64::MAX, f64::min);
        if lowest == f64::MAX {
            return;
        }
        let last = lowest + (self.n.1 - self.n.0) * 2f64.log10();
        let (x1, y1, x2, y2) = (self.x(self.n.0), self.y(lowest), self.x(self.n.1), self.y(last));
        let _ = writeln!(out, "<line x1='{x1:.1}' y1='{y1:.1}' x2='{x2:.1}' y2='{y2:.1}' stroke='#bbb' stroke-width='3'/>");
    }

    fn draw(&self, out: &mut String, line: &Line) {
        let place = |point: &(f64, f64)| format!("{:.1},{:.1}", self.x(point.0.log2()), self.y(power(point.1)));
        let points = line.points.iter().map(place).collect::<Vec<String>>().join(" ");
        let _ = writeln!(out, "<polyline points='{points}' fill='none' {}/>", stroke(line.colour, line.dash));
    }
}

/// The power of ten of milliseconds, of ten nanoseconds at least.
fn power(ms: f64) -> f64 {
    ms.max(0.000_01).log10()
}

/// Milliseconds of a power of ten, in the unit that is read most easily.
fn told(power: i32) -> String {
    match power {
        0.. => format!("{} ms", 10i64.pow(power as u32)),
        -3..0 => format!("{} µs", 10i64.pow((power + 3) as u32)),
        _ => format!("{} ns", 10i64.pow((power + 6).max(0) as u32)),
    }
}

fn stroke(colour: &str, dash: &str) -> String {
    format!("stroke='{colour}' stroke-width='1.8' stroke-dasharray='{dash}'")
}

fn legend(out: &mut String, y: f64) {
    let names = [
        (BLUE, FULL, "Zielonka, the Rust on stand-ins"),
        (BLUE, DASHED, "Zielonka, the port, whole call"),
        (RED, FULL, "promotion, the Rust on stand-ins"),
        (RED, DASHED, "promotion, the port, whole call"),
        (GREY, DOTTED, "of the port: zeroing of the work area"),
        ("#bbb", FULL, "what time in proportion to n looks like"),
    ];
    for (at, (colour, dash, name)) in names.iter().enumerate() {
        let (x, y) = (LEFT + (at / 2) as f64 * (WIDTH + LEFT), y + (at % 2) as f64 * 20.0);
        let _ = writeln!(out, "<line x1='{x}' y1='{y}' x2='{}' y2='{y}' {}/>", x + 28.0, stroke(colour, dash));
        let _ = writeln!(out, "<text x='{}' y='{}'>{name}</text>", x + 34.0, y + 4.0);
    }
    let _ =
        writeln!(out, "<text x='{LEFT}' y='{}'>Time against n, 64 to 4,096 vertices; both axes by powers.</text>", y + 44.0);
}
