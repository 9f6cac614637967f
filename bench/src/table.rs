//! Tables, in the notation of Markdown.

use crate::measure::Measured;
use std::fmt;

/// A table with a heading, and a few words on what it has.
pub struct Table {
    heading: String,
    words: String,
    head: Vec<String>,
    rows: Vec<Vec<String>>,
    /// The columns that have words, and are set to the left.
    of_words: Vec<usize>,
}

impl fmt::Display for Table {
    fn fmt(&self, f: &mut fmt::Formatter<'_>) -> fmt::Result {
        writeln!(f, "## {}\n\n{}\n", self.heading, self.words)?;
        let widths: Vec<usize> = (0..self.head.len()).map(|at| self.width(at)).collect();
        self.write_row(f, &self.head, &widths)?;
        self.write_rule(f, &widths)?;
        for row in &self.rows {
            self.write_row(f, row, &widths)?;
        }
        writeln!(f)
    }
}

impl Table {
    fn width(&self, column: usize) -> usize {
        let rows = self.rows.iter().chain([&self.head]);
        rows.map(|row| row[column].chars().count())
            .max()
            .unwrap_or(0)
    }

    fn write_row(&self, f: &mut fmt::Formatter, cells: &[String], widths: &[usize]) -> fmt::Result {
        for (column, (cell, &width)) in cells.iter().zip(widths).enumerate() {
            if self.of_words.contains(&column) {
                write!(f, "| {cell:<width$} ")?;
            } else {
                write!(f, "| {cell:>width$} ")?;
            }
        }
        writeln!(f, "|")
    }

    /// The rule under the head; a colon sets a column to the right.
    fn write_rule(&self, f: &mut fmt::Formatter, widths: &[usize]) -> fmt::Result {
        for (column, &width) in widths.iter().enumerate() {
            let last = if self.of_words.contains(&column) {
                "-"
            } else {
                ":"
            };
            write!(f, "|{last:->0$}", width + 2)?;
        }
        writeln!(f, "|")
    }
}

/// A table of ways to do one thing, each with a remark on its output. The first of them are ours, and each of these has a column
/// of ratios, by the headings that are given.
pub fn of_ways(
    heading: &str,
    words: &str,
    unit: &str,
    ratios: &[&str],
    ways: &[Measured],
    remarks: &[&str],
) -> Table {
    let rows = ways.iter().zip(remarks).map(|(way, remark)| {
        let (lower, upper) = way.quartiles();
        let middle_half = format!("{} to {}", number(lower), number(upper));
        let ours = ways[..ratios.len()].iter();
        [way.name.into(), number(way.median()), middle_half]
            .into_iter()
            .chain(ours.map(|ours| number(ours.times(way))))
            .chain([remark.to_string()])
            .collect()
    });
    let head = [&["way", unit, "middle half"], ratios, &["output"]].concat();
    Table {
        heading: heading.into(),
        words: words.into(),
        of_words: vec![0, head.len() - 1],
        head: head.into_iter().map(String::from).collect(),
        rows: rows.collect(),
    }
}

/// One row of a series: the numbers that it is for, and the ways, the first of them ours.
pub struct Point<'a> {
    pub at: Vec<usize>,
    pub ways: &'a [Measured],
}

/// A table in which one thing grows from row to row.
pub fn of_series(heading: &str, words: &str, numbers: &[&str], points: &[Point]) -> Table {
    let names = points[0].ways.iter().map(|way| way.name.to_string());
    let ratios = points[0].ways[1..]
        .iter()
        .map(|way| format!("ours ÷ {}", way.name));
    Table {
        heading: heading.into(),
        words: words.into(),
        head: numbers
            .iter()
            .map(|number| number.to_string())
            .chain(names)
            .chain(ratios)
            .collect(),
        rows: points.iter().map(row_of).collect(),
        of_words: Vec::new(),
    }
}

fn row_of(point: &Point) -> Vec<String> {
    let at = point.at.iter().map(|&number| thousands(number));
    let times = point.ways.iter().map(|way| number(way.median()));
    let ratios = point.ways[1..]
        .iter()
        .map(|way| number(point.ways[0].times(way)));
    at.chain(times).chain(ratios).collect()
}

/// A number with about three digits, and thousands kept apart.
pub fn number(value: f64) -> String {
    match value {
        v if v < 1.0 => format!("{v:.3}"),
        v if v < 10.0 => format!("{v:.2}"),
        v if v < 100.0 => format!("{v:.1}"),
        v => thousands(v.round() as usize),
    }
}

/// A whole number, with its thousands kept apart.
pub fn thousands(value: usize) -> String {
    match value {
        0..1000 => value.to_string(),
        _ => format!("{},{:03}", thousands(value / 1000), value % 1000),
    }
}
