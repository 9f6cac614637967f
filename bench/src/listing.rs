//! Listing the tokens of a long text.

use crate::by_hand;
use crate::comparison::Comparison;
use crate::inputs::{runs, Run};
use crate::measure::{Group, Measured, Subject};
use crate::other_crates;
use crate::ours;
use crate::table::{of_ways, thousands, Table};
use crate::ways::Way;
use gabirong::Host;
use std::hint::black_box;
use std::slice;

/// About how long the texts are.
const LEN: usize = 60_000;

/// Another reader of the language.
struct Rival {
    name: &'static str,
    remark: &'static str,
    read: fn(&str),
    assert_right: fn(&str, &[Token]),
}

struct Language {
    name: &'static str,
    host: Host,
    /// A part of a text, about one run.
    part: fn(&Run) -> String,
    rival: Option<Rival>,
}

static LANGUAGES: [Language; 3] = [
    Language {
        name: "SQL",
        host: Host::Sql,
        part: sql_part,
        rival: None,
    },
    Language {
        name: "shell",
        host: Host::Shell,
        part: shell_part,
        rival: Some(Rival {
            name: "shell_words::split",
            remark: "same words; does not tell line ends",
            read: |text| {
                black_box(words(text));
            },
            assert_right: |text, tokens| {
                assert!(words(text) == of_kind(tokens, 1), "other words");
            },
        }),
    },
    Language {
        name: "CSV",
        host: Host::Csv,
        part: other_crates::csv_row,
        rival: Some(Rival {
            name: "csv::Reader, into one ByteRecord",
            remark: "same fields and rows",
            read: |text| {
                other_crates::read_by_csv(text, |row| {
                    black_box(row);
                })
            },
            assert_right: |text, tokens| {
                let rows = other_crates::rows_by_csv(text);
                assert!(rows.len() == of_kind(tokens, 2).len(), "other rows");
                assert!(rows.concat() == of_kind(tokens, 1), "other fields");
            },
        }),
    },
];

fn sql_part(run: &Run) -> String {
    format!(
        "UPDATE runs SET depth = {}, note = '{}'\n  WHERE (run = '{}');\n",
        run.depth,
        by_hand::sql(&run.note),
        by_hand::sql(&run.run)
    )
}

fn shell_part(run: &Run) -> String {
    format!(
        "groom --run {} --depth {} --site={} \\\n    --note \"{}\" to=/var/log/runs Old\\ Mill\n",
        shell_words::quote(&run.run),
        run.depth,
        shell_words::quote(&run.site),
        by_hand::shell_double(&run.note)
    )
}

fn words(text: &str) -> Vec<String> {
    shell_words::split(text).expect("the quotes are closed")
}

/// A kind and the bytes.
type Token<'a> = (u8, &'a str);

fn tokens_of(mut fields: &[u8]) -> Vec<Token<'_>> {
    let mut tokens = Vec::new();
    while let [kind, high, low, rest @ ..] = fields {
        let (bytes, rest) = rest.split_at(u16::from_be_bytes([*high, *low]).into());
        tokens.push((*kind, str::from_utf8(bytes).expect("the texts are ASCII")));
        fields = rest;
    }
    tokens
}

fn of_kind<'a>(tokens: &[Token<'a>], kind: u8) -> Vec<&'a str> {
    let tokens = tokens.iter().filter(|token| token.0 == kind);
    tokens.map(|token| token.1).collect()
}

/// A language with its text, and the fields that are listed of it.
struct Case {
    language: &'static Language,
    text: String,
    fields: Vec<u8>,
}

impl Case {
    fn new(language: &'static Language) -> Case {
        let mut text = String::new();
        for run in runs(LEN / 20) {
            if text.len() < LEN {
                text += &(language.part)(&run);
            }
        }
        let fields = ours::fields_of(language.host, text.as_bytes());
        if let Some(rival) = &language.rival {
            (rival.assert_right)(&text, &tokens_of(&fields));
        }
        Case {
            language,
            text,
            fields,
        }
    }

    fn ours(&self) -> Subject<'_> {
        let mut out = vec![0; self.fields.len()];
        Subject::new("gabirong", move || {
            let text = black_box(self.text.as_bytes());
            black_box(ours::list(self.language.host, text, &mut out));
        })
    }

    /// The subjects, the first of them ours, each with a remark on its output.
    fn subjects(&self) -> Vec<(Subject<'_>, &'static str)> {
        let copying = Way::copying(slice::from_ref(&self.text)).subject();
        let mut subjects = vec![(self.ours(), ""), (copying, "")];
        if let Some(rival) = &self.language.rival {
            let read = || (rival.read)(black_box(&self.text));
            subjects.insert(1, (Subject::new(rival.name, read), rival.remark));
        }
        subjects
    }

    fn group(&self) -> Group<'_> {
        let subjects = self.subjects().into_iter();
        Group {
            subjects: subjects.map(|subject| subject.0).collect(),
            parts: self.text.len(),
        }
    }

    fn table(&self, measured: &[Measured]) -> Table {
        let remarks: Vec<&str> = self.subjects().iter().map(|subject| subject.1).collect();
        of_ways(
            &format!("Listing, {}", self.language.name),
            &format!(
                "A text of {} bytes, which has {} tokens.",
                thousands(self.text.len()),
                thousands(tokens_of(&self.fields).len())
            ),
            "ns a byte",
            &["ours ÷ this"],
            measured,
            &remarks,
        )
    }
}

pub struct Listing(Vec<Case>);

impl Listing {
    pub fn new() -> Self {
        Listing(LANGUAGES.iter().map(Case::new).collect())
    }
}

impl Comparison for Listing {
    fn groups(&self) -> Vec<Group<'_>> {
        self.0.iter().map(Case::group).collect()
    }

    fn tables(&self, measured: &[Vec<Measured>]) -> Vec<Table> {
        let cases = self.0.iter().zip(measured);
        cases.map(|(case, measured)| case.table(measured)).collect()
    }
}
