//! What the calls of the library cost, beside other ways to the same end.
//!
//! Prints tables, and writes them to RESULTS.md and a plot to cost.svg, in the folder of this crate.

mod by_hand;
mod checking;
mod comparison;
mod growing;
mod inputs;
mod listing;
mod machine;
mod measure;
mod merging;
mod other_crates;
mod ours;
mod plot;
mod sketch;
mod table;
mod ways;

use checking::Checking;
use comparison::Comparison;
use growing::Growing;
use listing::Listing;
use merging::Merging;
use std::path::Path;
use std::{fs, io};

/// What stands before the tables.
fn preface() -> String {
    format!(
        "# What the calls cost\n\n\
        Written by `bench/run`, anew at each run. What is measured, and how, is told in [docs/BENCH.md](../docs/BENCH.md).\n\n\
        {}\n\
        A time is the median of {} batches, and \"middle half\" has the quartiles. A ratio, such as \"many at once ÷ this\", says \
        how many times as long the library takes: the median of the rounds, in each of which every way has a batch.\n\n\
        ![Three panels: the cost of a merge by template length, by number of holes and by value length](cost.svg)\n\n",
        machine::table(),
        measure::BATCHES
    )
}

fn main() -> io::Result<()> {
    let mut results = preface();
    let (merging, listing) = (Merging::new(), Listing::new());
    let (checking, growing) = (Checking::new(), Growing::new());
    let comparisons: [&dyn Comparison; 4] = [&merging, &listing, &checking, &growing];
    let measured = comparison::measured(comparisons);
    for (comparison, measured) in comparisons.iter().zip(&measured) {
        for table in comparison.tables(measured) {
            print!("{table}");
            results += &table.to_string();
        }
    }
    let folder = Path::new(env!("CARGO_MANIFEST_DIR"));
    fs::write(
        folder.join("RESULTS.md"),
        results.trim_end().to_owned() + "\n",
    )?;
    fs::write(folder.join("cost.svg"), growing.plot(&measured[3]))
}
