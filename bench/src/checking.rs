//! Checking templates of growing size.

use crate::comparison::Comparison;
use crate::measure::{Group, Measured, Subject};
use crate::other_crates;
use crate::ours;
use crate::sketch::{Sketch, Style, STYLES};
use crate::table::{of_series, Point, Table};
use crate::ways::Way;
use std::hint::black_box;
use std::slice;

/// About so many bytes for each hole: then the longest template has not more than 64.
const BYTES_OF_A_HOLE: usize = 55;
const LENGTHS: [usize; 7] = [50, 100, 200, 400, 800, 1600, 3500];

/// A template in both notations.
struct Case {
    style: &'static Style,
    template: String,
    for_tera: String,
    holes: usize,
}

impl Case {
    fn new(style: &'static Style, len: usize) -> Case {
        let sketch = Sketch::new(style, (len / BYTES_OF_A_HOLE).max(1), len);
        let template = sketch.template();
        let holes = ours::check(style.host, template.as_bytes());
        assert_eq!(holes, sketch.holes(), "another number of holes");
        Case {
            style,
            template,
            for_tera: sketch.tera(),
            holes,
        }
    }

    fn ours(&self) -> Subject<'_> {
        Subject::new("gabirong", || {
            let template = black_box(self.template.as_bytes());
            black_box(ours::check(self.style.host, template));
        })
    }

    fn tera(&self) -> Subject<'_> {
        let mut tera = other_crates::tera_of(&self.for_tera, |value| value.into());
        Subject::new("tera", move || {
            other_crates::set_template(&mut tera, black_box(&self.for_tera));
            black_box(&tera);
        })
    }

    fn group(&self) -> Group<'_> {
        let copying = Way::copying(slice::from_ref(&self.template));
        Group {
            subjects: vec![self.ours(), self.tera(), copying.subject()],
            parts: self.template.len(),
        }
    }

    fn point<'a>(&self, ways: &'a Vec<Measured>) -> Point<'a> {
        Point {
            at: vec![self.template.len(), self.holes],
            ways,
        }
    }
}

/// The cases of all hosts, one host after another.
pub struct Checking(Vec<Case>);

impl Checking {
    pub fn new() -> Self {
        let cases = |style| LENGTHS.iter().map(move |&len| Case::new(style, len));
        Checking(STYLES.iter().flat_map(cases).collect())
    }
}

impl Comparison for Checking {
    fn groups(&self) -> Vec<Group<'_>> {
        self.0.iter().map(Case::group).collect()
    }

    fn tables(&self, measured: &[Vec<Measured>]) -> Vec<Table> {
        let points = self.0.iter().zip(measured);
        let points: Vec<Point> = points.map(|(case, ways)| case.point(ways)).collect();
        let hosts = STYLES.iter().zip(points.chunks(LENGTHS.len()));
        hosts
            .map(|(style, points)| {
                of_series(
                    &format!("Checking, {}", style.name),
                    "Nanoseconds a byte of the template, as it is in our notation.",
                    &["bytes", "holes"],
                    points,
                )
            })
            .collect()
    }
}
