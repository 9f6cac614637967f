//! Measuring: each subject of a comparison is run in batches, in turn with the others.

use std::time::{Duration, Instant};

/// Short, so that there are many: a machine that does other work too is slower for a while, time and again, and the median is
/// steady only where each subject has met that in about the same share of its batches.
const BATCH: Duration = Duration::from_millis(2);
pub const BATCHES: usize = 51;

/// One way to do the work that is compared.
pub struct Subject<'a> {
    name: &'static str,
    /// Does the work so many times, and answers how long that took.
    batch: Box<dyn FnMut(u32) -> Duration + 'a>,
}

impl<'a> Subject<'a> {
    pub fn new(name: &'static str, mut work: impl FnMut() + 'a) -> Self {
        let batch = move |runs| {
            let start = Instant::now();
            for _ in 0..runs {
                work();
            }
            start.elapsed()
        };
        Subject {
            name,
            batch: Box::new(batch),
        }
    }

    /// How many runs make a batch.
    fn calibrated(&mut self) -> u32 {
        let mut runs = 1;
        loop {
            let took = (self.batch)(runs);
            if took * 4 >= BATCH {
                let wanted = BATCH.as_secs_f64() / took.as_secs_f64() * f64::from(runs);
                return (wanted.round() as u32).max(1);
            }
            runs *= 2;
        }
    }
}

/// A subject and its times: the nanoseconds for one part of its work, in each batch.
pub struct Measured {
    pub name: &'static str,
    batches: Vec<f64>,
}

impl Measured {
    pub fn median(&self) -> f64 {
        part_way(self.batches.clone(), 2)
    }

    /// Between these lies the middle half of the batches.
    pub fn quartiles(&self) -> (f64, f64) {
        let quarter = |quarters| part_way(self.batches.clone(), quarters);
        (quarter(1), quarter(3))
    }

    /// How many times as long this takes as another: the median of the rounds. (The batches of a group in one round lie close
    /// together in time, so this is steadier than the times are.)
    pub fn times(&self, other: &Measured) -> f64 {
        let rounds = self.batches.iter().zip(&other.batches);
        part_way(rounds.map(|(this, other)| this / other).collect(), 2)
    }
}

/// The value so many quarters up the row, when it is sorted.
fn part_way(mut values: Vec<f64>, quarters: usize) -> f64 {
    values.sort_by(f64::total_cmp);
    values[(values.len() - 1) * quarters / 4]
}

/// Subjects that do the same work. A run of each does so many parts of it, and the times are told for one part.
pub struct Group<'a> {
    pub subjects: Vec<Subject<'a>>,
    pub parts: usize,
}

impl Group<'_> {
    fn unmeasured(&self) -> Vec<Measured> {
        let subjects = self.subjects.iter();
        subjects
            .map(|subject| Measured {
                name: subject.name,
                batches: Vec::with_capacity(BATCHES),
            })
            .collect()
    }

    /// Runs a batch of each subject.
    fn add_batches(&mut self, runs: &[u32], measured: &mut [Measured]) {
        for ((subject, &runs), measured) in self.subjects.iter_mut().zip(runs).zip(measured) {
            let took = (subject.batch)(runs).as_secs_f64() * 1e9;
            measured
                .batches
                .push(took / f64::from(runs) / self.parts as f64);
        }
    }
}

/// Measures the subjects of all groups, and answers those of each group.
///
/// They take turns batch by batch, so that whatever slows the machine down for a while hits all of them.
pub fn compare(mut groups: Vec<Group>) -> Vec<Vec<Measured>> {
    let calibrate =
        |group: &mut Group| group.subjects.iter_mut().map(Subject::calibrated).collect();
    let runs: Vec<Vec<u32>> = groups.iter_mut().map(calibrate).collect();
    let mut measured: Vec<Vec<Measured>> = groups.iter().map(Group::unmeasured).collect();
    for _ in 0..BATCHES {
        for ((group, runs), measured) in groups.iter_mut().zip(&runs).zip(&mut measured) {
            group.add_batches(runs, measured);
        }
    }
    measured
}
