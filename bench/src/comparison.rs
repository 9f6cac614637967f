//! What is compared, and what is shown of it.

use crate::measure::{compare, Group, Measured};
use crate::table::Table;

pub trait Comparison {
    /// What is to be measured. The output of each subject has been found right.
    fn groups(&self) -> Vec<Group<'_>>;

    /// What is shown, given what was measured of each group.
    fn tables(&self, measured: &[Vec<Measured>]) -> Vec<Table>;
}

/// Measures the groups of all comparisons in the same rounds, and answers what was measured for each comparison.
pub fn measured<const N: usize>(comparisons: [&dyn Comparison; N]) -> [Vec<Vec<Measured>>; N] {
    let groups = comparisons.map(|comparison| comparison.groups());
    let counts = groups.each_ref().map(Vec::len);
    let mut measured = compare(groups.into_iter().flatten().collect()).into_iter();
    counts.map(|count| measured.by_ref().take(count).collect())
}
