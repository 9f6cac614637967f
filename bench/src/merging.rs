//! Merging a file of records into a template of everyday size.

use crate::by_hand::{self, Fill, Values};
use crate::comparison::Comparison;
use crate::inputs::{file_of, runs, Run};
use crate::measure::{Group, Measured};
use crate::other_crates;
use crate::ours;
use crate::table::{of_ways, thousands, Table};
use crate::ways::Way;
use gabirong::Host;
use std::hint::black_box;

const RECORDS: usize = 1000;

/// One text in the notation of each way.
struct Everyday {
    host: Host,
    name: &'static str,
    template: &'static str,
    /// The text by hand, by `write!` and by `format!`.
    write: Fill,
    format: Fill,
    tera: &'static str,
    escape: fn(&str) -> String,
}

static EVERYDAY: [Everyday; 3] = [
    Everyday {
        host: Host::Sql,
        name: "SQL",
        template: "INSERT INTO runs (run, depth, site) VALUES (@{run}, @{depth}, '@{site}');@n",
        write: by_hand::write_sql,
        format: by_hand::format_sql,
        tera: "INSERT INTO runs (run, depth, site) VALUES ('{{ run }}', '{{ depth }}', '{{ site }}');\n",
        escape: |value| by_hand::sql(value).into(),
    },
    Everyday {
        host: Host::Shell,
        name: "shell",
        template: "groom --run @{run} --depth @{depth} --note \"@{note}\"@n",
        write: by_hand::write_shell,
        format: by_hand::format_shell,
        tera: "groom --run '{{ run }}' --depth '{{ depth }}' --note \"{{ note | double_quoted }}\"\n",
        escape: |value| by_hand::shell(value).into(),
    },
    Everyday {
        host: Host::Csv,
        name: "CSV",
        template: "@{run},@{depth},@{site}@r@n",
        write: by_hand::write_csv,
        format: by_hand::format_csv,
        tera: "\"{{ run }}\",\"{{ depth }}\",\"{{ site }}\"\r\n",
        escape: |value| by_hand::csv(value).into(),
    },
];

fn reading_by_hand<'a>(name: &'static str, fill: Fill, file: &'a [u8]) -> Way<'a> {
    Way::adding(name, move |out| {
        by_hand::fill_all(out, black_box(file), fill).expect("the file is whole");
    })
}

fn by_hand(fill: Fill, runs: &[Run]) -> Way<'_> {
    let values: Vec<Values> = runs.iter().map(Values::of).collect();
    Way::adding("by hand with write!, from values", move |out| {
        for values in black_box(&values) {
            fill(out, values).expect("all values are there");
        }
    })
}

fn by_tera<'a>(everyday: &Everyday, runs: &'a [Run]) -> Way<'a> {
    let tera = other_crates::tera_of(everyday.tera, everyday.escape);
    Way::adding("tera, from values", move |out| {
        other_crates::fill_by_tera(out, &tera, black_box(runs));
    })
}

fn by_csv(runs: &[Run]) -> Way<'_> {
    Way::adding("csv::Writer, from values", |out| {
        other_crates::write_by_csv(out, black_box(runs));
    })
}

fn by_shell_words(runs: &[Run]) -> Way<'_> {
    Way::adding("shell_words::quote, from values", |out| {
        other_crates::quote_by_shell_words(out, black_box(runs));
    })
}

/// The words of each line.
fn words(lines: &[u8]) -> Vec<Vec<String>> {
    String::from_utf8_lossy(lines)
        .lines()
        .map(|line| shell_words::split(line).expect("the quotes are closed"))
        .collect()
}

/// The ways of a host with what they are given.
struct Case {
    everyday: &'static Everyday,
    runs: Vec<Run>,
    file: Vec<u8>,
    texts: Vec<Vec<u8>>,
}

const SAME: &str = "same bytes";

impl Case {
    fn new(everyday: &'static Everyday) -> Self {
        let runs = runs(RECORDS);
        let file = file_of(&runs);
        Case {
            everyday,
            texts: ours::texts_of(everyday.host, everyday.template, &file),
            runs,
            file,
        }
    }

    /// The ways, the first two of them ours, each with a remark on its output, which is right.
    fn ways(&self) -> Vec<(Way<'_>, &'static str)> {
        let (everyday, file) = (self.everyday, &self.file);
        let (host, template) = (everyday.host, everyday.template);
        let mut ways = vec![
            ours::merging(host, template, file),
            ours::merging_many(host, template, file),
            reading_by_hand("by hand with write!, from records", everyday.write, file),
            reading_by_hand("by hand with format!, from records", everyday.format, file),
            by_hand(everyday.write, &self.runs),
            by_tera(everyday, &self.runs),
            Way::copying(&self.texts),
        ];
        if host == Host::Csv {
            ways.insert(ways.len() - 1, by_csv(&self.runs));
        }
        let text = self.texts.concat();
        for way in &mut ways {
            way.assert_writes(&text);
        }
        let mut ways: Vec<_> = ways.into_iter().map(|way| (way, SAME)).collect();
        if host == Host::Shell {
            let mut way = by_shell_words(&self.runs);
            assert!(words(&way.text()) == words(&text), "other words");
            let remark = "same words, quotes only where needed";
            ways.insert(ways.len() - 1, (way, remark));
        }
        ways
    }

    fn group(&self) -> Group<'_> {
        Group {
            subjects: self.ways().into_iter().map(|way| way.0.subject()).collect(),
            parts: RECORDS,
        }
    }

    fn table(&self, measured: &[Measured]) -> Table {
        let remarks: Vec<&str> = self.ways().iter().map(|way| way.1).collect();
        of_ways(
            &format!("Merging, {}", self.everyday.name),
            &format!(
                "{} records in {} bytes; their texts have {} bytes. The template: `{}`",
                thousands(RECORDS),
                thousands(self.file.len()),
                thousands(self.texts.concat().len()),
                self.everyday.template
            ),
            "ns a record",
            &["record by record ÷ this", "many at once ÷ this"],
            measured,
            &remarks,
        )
    }
}

pub struct Merging(Vec<Case>);

impl Merging {
    pub fn new() -> Self {
        Merging(EVERYDAY.iter().map(Case::new).collect())
    }
}

impl Comparison for Merging {
    fn groups(&self) -> Vec<Group<'_>> {
        self.0.iter().map(Case::group).collect()
    }

    fn tables(&self, measured: &[Vec<Measured>]) -> Vec<Table> {
        let cases = self.0.iter().zip(measured);
        cases.map(|(case, measured)| case.table(measured)).collect()
    }
}
