//! What the calls and their rivals are given.

use gabirong::record;

/// What is known of one run.
pub struct Run {
    pub run: String,
    pub depth: String,
    pub site: String,
    pub note: String,
}

const NAMES: [&str; 11] = [
    "Elm",
    "Upper Meadow",
    "O'Hara",
    "North Face",
    "Bear Creek",
    "D'Arcy",
    "Lower Bowl",
    "Oak",
    "Sunrise",
    "Old Mill Road",
    "Summit",
];

const SITES: [&str; 7] = [
    "Bay 4",
    "Elm, upper",
    "valley station",
    "the \"Nose\"",
    "lift 12",
    "west",
    "hut",
];

const NOTES: [&str; 9] = [
    "groomed twice",
    "ice near the trees",
    "say \"no\" to sledges",
    "pass is $12, children free",
    "closed until noon",
    "done by O'Hara, at 5",
    "",
    "wind from the north, drifts",
    "ok",
];

/// So many runs, all different, with everyday names and values.
pub fn runs(count: usize) -> Vec<Run> {
    (0..count)
        .map(|i| Run {
            run: NAMES[i % NAMES.len()].into(),
            depth: (5 + i * 37 % 240).to_string(),
            site: SITES[i % SITES.len()].into(),
            note: NOTES[i % NOTES.len()].into(),
        })
        .collect()
}

/// The runs as a file of records.
pub fn file_of(runs: &[Run]) -> Vec<u8> {
    runs.iter().flat_map(record_of).collect()
}

fn record_of(run: &Run) -> Vec<u8> {
    let pairs = [
        ("run", &run.run),
        ("depth", &run.depth),
        ("site", &run.site),
        ("note", &run.note),
    ];
    record(&pairs.map(|(name, value)| (name.as_bytes(), value.as_bytes())))
        .expect("the values are short")
}
