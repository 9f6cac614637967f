//! How the cost of a merge grows with its template and its values.

use crate::by_hand::{self, Piece};
use crate::comparison::Comparison;
use crate::measure::{Group, Measured};
use crate::ours;
use crate::plot::{self, Key, Panel};
use crate::sketch::{self, Sketch, Style, STYLES};
use crate::table::{of_series, Point, Table};
use crate::ways::Way;
use gabirong::record;
use std::hint::black_box;

const RECORDS: usize = 20;
const SHORT: usize = 8;
/// What values are cut from; each host has something to escape in it.
const VALUES: &str = "groomed by O'Hara at \"4\", ";

/// What a template is to be like, and its values.
struct Size {
    bytes: usize,
    holes: usize,
    value: usize,
}

/// A row of sizes, in which one number grows.
struct Growth {
    heading: &'static str,
    words: &'static str,
    number: &'static str,
    /// Whether these numbers are spread so that a plot of them is logarithmic.
    logarithmic: bool,
    at: &'static [usize],
    size: fn(usize) -> Size,
}

static GROWTHS: [Growth; 3] = [
    Growth {
        heading: "template length",
        words: "Two holes, values of 8 bytes.",
        number: "bytes of the template",
        logarithmic: true,
        at: &[50, 100, 200, 400, 800, 1600, 2400, 3500],
        size: |bytes| Size {
            bytes,
            holes: 2,
            value: SHORT,
        },
    },
    Growth {
        heading: "number of holes",
        words: "Values of 8 bytes; a template as short as the holes let it be.",
        number: "holes",
        logarithmic: true,
        at: &[1, 2, 4, 8, 16, 32, 48, 64],
        size: |holes| Size {
            bytes: 0,
            holes,
            value: SHORT,
        },
    },
    Growth {
        heading: "value length",
        words: "Two holes, a template of 60 bytes.",
        number: "bytes of each value",
        logarithmic: false,
        at: &[0, 10, 20, 40, 80, 120, 160],
        size: |value| Size {
            bytes: 60,
            holes: 2,
            value,
        },
    },
];

/// The value of a hole in a record; they differ in where they are cut from.
fn value(record: usize, hole: usize, len: usize) -> String {
    VALUES
        .chars()
        .cycle()
        .skip(record * 7 + hole * 3)
        .take(len)
        .collect()
}

fn file_of(size: &Size) -> Vec<u8> {
    (0..RECORDS)
        .flat_map(|number| {
            let pairs: Vec<(String, String)> = (0..size.holes)
                .map(|hole| (sketch::name(hole), value(number, hole, size.value)))
                .collect();
            let pairs: Vec<(&[u8], &[u8])> = pairs
                .iter()
                .map(|(name, value)| (name.as_bytes(), value.as_bytes()))
                .collect();
            record(&pairs).expect("the values are short")
        })
        .collect()
}

/// A template and a file of one size.
struct Case {
    style: &'static Style,
    at: usize,
    template: String,
    pieces: Vec<Piece>,
    file: Vec<u8>,
    texts: Vec<Vec<u8>>,
}

impl Case {
    fn new(style: &'static Style, growth: &Growth, at: usize) -> Case {
        let size = (growth.size)(at);
        let sketch = Sketch::new(style, size.holes, size.bytes);
        let (template, file) = (sketch.template(), file_of(&size));
        Case {
            style,
            at,
            pieces: sketch.pieces(),
            texts: ours::texts_of(style.host, &template, &file),
            template,
            file,
        }
    }

    fn by_hand(&self) -> Way<'_> {
        Way::adding("by hand", |out| {
            let (file, pieces) = (black_box(&self.file), black_box(&self.pieces));
            by_hand::fill_pieces(out, file, pieces, self.style.escape)
                .expect("all values are there");
        })
    }

    fn group(&self) -> Group<'_> {
        let mut ways = vec![
            ours::merging_many(self.style.host, &self.template, &self.file),
            self.by_hand(),
            Way::copying(&self.texts),
        ];
        for way in &mut ways {
            way.assert_writes(&self.texts.concat());
        }
        Group {
            subjects: ways.into_iter().map(Way::subject).collect(),
            parts: RECORDS,
        }
    }
}

/// What the plot has of each growth: ours under each host, and the others under the first of them.
const KEYS: [Key; 5] = [
    Key {
        words: "gabirong, SQL",
        color: "#0072b2",
        dashes: "none",
    },
    Key {
        words: "gabirong, shell",
        color: "#d55e00",
        dashes: "none",
    },
    Key {
        words: "gabirong, CSV",
        color: "#009e73",
        dashes: "none",
    },
    Key {
        words: "by hand, SQL",
        color: "#222222",
        dashes: "7 4",
    },
    Key {
        words: "copying the text, SQL",
        color: "#777777",
        dashes: "2 3",
    },
];

/// A line of a way, by its number.
fn line(points: &[Point], way: usize) -> Vec<plot::Point> {
    points
        .iter()
        .map(|point| (point.at[0] as f64, point.ways[way].median()))
        .collect()
}

/// The growths, each with the cases of all hosts, one host after another.
pub struct Growing(Vec<(&'static Growth, Vec<Case>)>);

/// What was measured of a growth: for each host its points.
struct Grown<'a> {
    growth: &'static Growth,
    hosts: Vec<(&'static str, Vec<Point<'a>>)>,
}

impl Growing {
    pub fn new() -> Self {
        let growths = GROWTHS.iter().map(|growth| {
            let cases = |style| {
                let numbers = growth.at.iter();
                numbers.map(move |&at| Case::new(style, growth, at))
            };
            (growth, STYLES.iter().flat_map(cases).collect())
        });
        Growing(growths.collect())
    }

    fn grown<'a>(&self, measured: &'a [Vec<Measured>]) -> Vec<Grown<'a>> {
        let mut measured = measured.iter();
        let growths = self.0.iter().map(|(growth, cases)| {
            let mut points = cases
                .iter()
                .zip(measured.by_ref())
                .map(|(case, ways)| Point {
                    at: vec![case.at],
                    ways,
                });
            let mut next = || points.by_ref().take(growth.at.len()).collect();
            Grown {
                growth,
                hosts: STYLES.iter().map(|style| (style.name, next())).collect(),
            }
        });
        growths.collect()
    }

    pub fn plot(&self, measured: &[Vec<Measured>]) -> String {
        let panels: Vec<Panel> = self.grown(measured).iter().map(Grown::panel).collect();
        let title = format!("What a merge costs as it grows, {RECORDS} records at once");
        plot::svg(&title, "nanoseconds a record", &panels, &KEYS)
    }
}

impl Comparison for Growing {
    fn groups(&self) -> Vec<Group<'_>> {
        let cases = self.0.iter().flat_map(|(_, cases)| cases);
        cases.map(Case::group).collect()
    }

    fn tables(&self, measured: &[Vec<Measured>]) -> Vec<Table> {
        let grown = self.grown(measured);
        grown.iter().flat_map(Grown::tables).collect()
    }
}

impl Grown<'_> {
    fn panel(&self) -> Panel {
        let ours = self.hosts.iter().map(|(_, points)| line(points, 0));
        let others = [1, 2].map(|way| line(&self.hosts[0].1, way));
        Panel {
            title: format!("By {}", self.growth.heading),
            axis: self.growth.number,
            logarithmic: self.growth.logarithmic,
            lines: ours.chain(others).collect(),
        }
    }

    fn tables(&self) -> Vec<Table> {
        let hosts = self.hosts.iter();
        hosts
            .map(|(host, points)| {
                of_series(
                    &format!("Merging, by {}, {host}", self.growth.heading),
                    &format!(
                        "{} Nanoseconds a record, in files of {RECORDS}.",
                        self.growth.words
                    ),
                    &[self.growth.number],
                    points,
                )
            })
            .collect()
    }
}
