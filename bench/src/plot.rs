//! A plot as SVG: a row of panels that share one upright scale, which is logarithmic.

use crate::table::thousands;

/// What a line is, and how it is drawn in each panel.
pub struct Key {
    pub words: &'static str,
    pub color: &'static str,
    /// The lengths of dashes and gaps.
    pub dashes: &'static str,
}

pub type Point = (f64, f64);

pub struct Panel {
    pub title: String,
    /// What the numbers below the panel are.
    pub axis: &'static str,
    pub logarithmic: bool,
    /// A line for each key.
    pub lines: Vec<Vec<Point>>,
}

const PANEL: f64 = 300.0;
const GAP: f64 = 30.0;
const LEFT: f64 = 96.0;
const RIGHT: f64 = 24.0;
const TOP: f64 = 80.0;
const BELOW: f64 = 100.0;
/// Between the frame of a panel and its points.
const INSET: f64 = 14.0;
/// Numbers below a panel keep at least this far apart.
const APART: f64 = 30.0;
const KEY: f64 = 190.0;

const INK: &str = "#222222";
const PALE: &str = "#dddddd";
const FULL: &str = "none";

/// Where numbers lie between two places.
struct Scale {
    logarithmic: bool,
    numbers: (f64, f64),
    places: (f64, f64),
}

impl Scale {
    fn place(&self, number: f64) -> f64 {
        let (low, high) = self.numbers;
        let part = if self.logarithmic {
            (number / low).ln() / (high / low).ln()
        } else {
            (number - low) / (high - low)
        };
        self.places.0 + part * (self.places.1 - self.places.0)
    }
}

fn extremes(numbers: impl Iterator<Item = f64> + Clone) -> (f64, f64) {
    let low = numbers.clone().fold(f64::INFINITY, f64::min);
    (low, numbers.fold(f64::NEG_INFINITY, f64::max))
}

/// The drawing so far.
struct Svg(String);

impl Svg {
    fn text(&mut self, (x, y): Point, anchor: &str, style: &str, words: &str) {
        let words = words.replace('&', "&amp;").replace('<', "&lt;");
        self.0 += &format!(
            "<text x=\"{x:.1}\" y=\"{y:.1}\" text-anchor=\"{anchor}\" {style}>{words}</text>\n"
        );
    }

    fn line(&mut self, points: &[Point], color: &str, width: f64, dashes: &str) {
        let points: Vec<String> = points
            .iter()
            .map(|(x, y)| format!("{x:.1},{y:.1}"))
            .collect();
        self.0 += &format!(
            "<polyline points=\"{}\" fill=\"none\" stroke=\"{color}\" stroke-width=\"{width}\" stroke-dasharray=\"{dashes}\"/>\n",
            points.join(" ")
        );
    }

    fn dot(&mut self, (x, y): Point, color: &str) {
        self.0 += &format!("<circle cx=\"{x:.1}\" cy=\"{y:.1}\" r=\"2.8\" fill=\"{color}\"/>\n");
    }

    /// A line with its points.
    fn curve(&mut self, points: &[Point], key: &Key) {
        self.line(points, key.color, 1.8, key.dashes);
        for &point in points {
            self.dot(point, key.color);
        }
    }
}

/// The powers of ten around the numbers.
fn decades((low, high): (f64, f64)) -> Vec<f64> {
    let (first, last) = (low.log10().floor() as i32, high.log10().ceil() as i32);
    (first..=last).map(|power| 10f64.powi(power)).collect()
}

/// The numbers below a panel: those of the points, as far as there is room.
fn numbers_below(svg: &mut Svg, scale: &Scale, line: &[Point]) {
    let mut free_from = f64::NEG_INFINITY;
    for &(number, _) in line {
        let x = scale.place(number);
        if x < free_from {
            continue;
        }
        free_from = x + APART;
        svg.line(&[(x, TOP + PANEL), (x, TOP + PANEL + 5.0)], INK, 1.0, FULL);
        let below = (x, TOP + PANEL + 19.0);
        svg.text(
            below,
            "middle",
            "font-size=\"11\"",
            &thousands(number as usize),
        );
    }
}

fn draw_panel(svg: &mut Svg, left: f64, panel: &Panel, upright: &Scale, keys: &[Key]) {
    let (right, middle) = (left + PANEL, left + PANEL / 2.0);
    for decade in decades(upright.numbers) {
        let y = upright.place(decade);
        svg.line(&[(left, y), (right, y)], PALE, 1.0, FULL);
    }
    let numbers = panel.lines.iter().flatten().map(|point| point.0);
    let scale = Scale {
        logarithmic: panel.logarithmic,
        numbers: extremes(numbers),
        places: (left + INSET, right - INSET),
    };
    numbers_below(svg, &scale, &panel.lines[0]);
    for (line, key) in panel.lines.iter().zip(keys) {
        let place = |&(x, y): &Point| (scale.place(x), upright.place(y));
        svg.curve(&line.iter().map(place).collect::<Vec<_>>(), key);
    }
    let (top, bottom) = (TOP, TOP + PANEL);
    let frame = [(left, top), (left, bottom), (right, bottom)];
    svg.line(&frame, INK, 1.0, FULL);
    svg.text(
        (middle, TOP - 12.0),
        "middle",
        "font-size=\"14\" font-weight=\"bold\"",
        &panel.title,
    );
    let logarithmic = if panel.logarithmic {
        " (logarithmic)"
    } else {
        ""
    };
    svg.text(
        (middle, bottom + 40.0),
        "middle",
        "font-size=\"12\"",
        &format!("{}{logarithmic}", panel.axis),
    );
}

fn draw_upright(svg: &mut Svg, upright: &Scale, axis: &str) {
    for decade in decades(upright.numbers) {
        let y = upright.place(decade);
        svg.line(&[(LEFT - 5.0, y), (LEFT, y)], INK, 1.0, FULL);
        let before = (LEFT - 9.0, y + 4.0);
        svg.text(
            before,
            "end",
            "font-size=\"11\"",
            &thousands(decade as usize),
        );
    }
    let (x, y) = (24.0, TOP + PANEL / 2.0);
    svg.text(
        (x, y),
        "middle",
        &format!("font-size=\"12\" transform=\"rotate(-90 {x} {y})\""),
        &format!("{axis} (logarithmic)"),
    );
}

fn draw_keys(svg: &mut Svg, y: f64, keys: &[Key]) {
    for (number, key) in keys.iter().enumerate() {
        let x = LEFT + number as f64 * KEY;
        svg.line(&[(x, y), (x + 36.0, y)], key.color, 1.8, key.dashes);
        svg.dot((x + 18.0, y), key.color);
        svg.text((x + 44.0, y + 4.0), "start", "font-size=\"12\"", key.words);
    }
}

/// Draws the panels.
pub fn svg(title: &str, axis: &str, panels: &[Panel], keys: &[Key]) -> String {
    let times = panels
        .iter()
        .flat_map(|panel| &panel.lines)
        .flatten()
        .map(|point| point.1);
    let decades = decades(extremes(times));
    let upright = Scale {
        logarithmic: true,
        numbers: (decades[0], decades[decades.len() - 1]),
        places: (TOP + PANEL, TOP),
    };
    let count = panels.len() as f64;
    let width = LEFT + count * PANEL + (count - 1.0) * GAP + RIGHT;
    let height = TOP + PANEL + BELOW;
    let mut svg = Svg(format!(
        "<svg xmlns=\"http://www.w3.org/2000/svg\" viewBox=\"0 0 {width} {height}\" width=\"{width}\" height=\"{height}\" \
        font-family=\"sans-serif\" fill=\"{INK}\">\n\
        <rect width=\"{width}\" height=\"{height}\" fill=\"#ffffff\"/>\n"
    ));
    svg.text((LEFT, 34.0), "start", "font-size=\"18\"", title);
    draw_upright(&mut svg, &upright, axis);
    for (number, panel) in panels.iter().enumerate() {
        let left = LEFT + number as f64 * (PANEL + GAP);
        draw_panel(&mut svg, left, panel, &upright, keys);
    }
    draw_keys(&mut svg, height - 24.0, keys);
    svg.0 += "</svg>\n";
    svg.0
}
