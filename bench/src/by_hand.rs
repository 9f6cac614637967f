//! What a Rust programmer would write in place of the library.

use crate::inputs::Run;
use std::borrow::Cow;
use std::io::Write;

// Escaping: what makes a value fit to stand between quotes

pub type Escape = fn(&str) -> Cow<'_, str>;

/// Between the single quotes of SQL.
pub fn sql(value: &str) -> Cow<'_, str> {
    replaced(value, '\'', "''")
}

/// Between the double quotes of CSV.
pub fn csv(value: &str) -> Cow<'_, str> {
    replaced(value, '"', "\"\"")
}

/// Between the single quotes of the shell.
pub fn shell(value: &str) -> Cow<'_, str> {
    replaced(value, '\'', r"'\''")
}

/// Between the double quotes of the shell.
pub fn shell_double(value: &str) -> Cow<'_, str> {
    const SPECIAL: [char; 4] = ['$', '`', '"', '\\'];
    if !value.contains(SPECIAL) {
        return Cow::Borrowed(value);
    }
    let mut escaped = String::with_capacity(value.len() + 8);
    for c in value.chars() {
        if SPECIAL.contains(&c) {
            escaped.push('\\');
        }
        escaped.push(c);
    }
    Cow::Owned(escaped)
}

fn replaced<'a>(value: &'a str, quote: char, by: &str) -> Cow<'a, str> {
    if value.contains(quote) {
        Cow::Owned(value.replace(quote, by))
    } else {
        Cow::Borrowed(value)
    }
}

// Reading records

const NAME: u8 = 1;
const VALUE: u8 = 2;
const END: u8 = 3;

/// The first field of the bytes: its tag, what it holds, and the bytes after it. None where it is cut short.
fn field(bytes: &[u8]) -> Option<(u8, &[u8], &[u8])> {
    let (&[tag, high, low], rest) = bytes.split_first_chunk()?;
    let (held, rest) = rest.split_at_checked(u16::from_be_bytes([high, low]).into())?;
    Some((tag, held, rest))
}

/// Reads the record that the bytes begin with, tells each of its pairs, and answers the bytes after it. None where the record
/// is damaged.
fn for_each_pair<'a>(
    mut bytes: &'a [u8],
    mut tell: impl FnMut(&'a [u8], &'a str),
) -> Option<&'a [u8]> {
    loop {
        match field(bytes)? {
            (END, _, rest) => return Some(rest),
            (NAME, name, rest) => {
                let (VALUE, value, rest) = field(rest)? else {
                    return None;
                };
                tell(name, str::from_utf8(value).ok()?);
                bytes = rest;
            }
            _ => return None,
        }
    }
}

// A template that is known when the program is written

/// The values of a record, of the names that the templates have.
#[derive(Clone, Copy, Default)]
pub struct Values<'a> {
    pub run: Option<&'a str>,
    pub depth: Option<&'a str>,
    pub site: Option<&'a str>,
    pub note: Option<&'a str>,
}

impl<'a> Values<'a> {
    pub fn of(run: &'a Run) -> Self {
        Values {
            run: Some(&run.run),
            depth: Some(&run.depth),
            site: Some(&run.site),
            note: Some(&run.note),
        }
    }

    fn read(bytes: &'a [u8]) -> Option<(Self, &'a [u8])> {
        let mut values = Values::default();
        let rest = for_each_pair(bytes, |name, value| match name {
            b"run" => values.run = Some(value),
            b"depth" => values.depth = Some(value),
            b"site" => values.site = Some(value),
            b"note" => values.note = Some(value),
            _ => {}
        })?;
        Some((values, rest))
    }
}

/// Adds the text for one record. None where a value is missing.
pub type Fill = fn(&mut Vec<u8>, &Values) -> Option<()>;

/// Two functions for one text: the first writes it to where it is to stand, the second makes a string of it, and copies that.
macro_rules! fills {
    ($write:ident, $format:ident, $text:literal, $($escape:ident($name:ident)),+) => {
        pub fn $write(out: &mut Vec<u8>, values: &Values) -> Option<()> {
            write!(out, $text, $($escape(values.$name?)),+).ok()
        }

        pub fn $format(out: &mut Vec<u8>, values: &Values) -> Option<()> {
            out.extend(format!($text, $($escape(values.$name?)),+).as_bytes());
            Some(())
        }
    };
}

fills!(
    write_sql,
    format_sql,
    "INSERT INTO runs (run, depth, site) VALUES ('{}', '{}', '{}');\n",
    sql(run),
    sql(depth),
    sql(site)
);

fills!(
    write_shell,
    format_shell,
    "groom --run '{}' --depth '{}' --note \"{}\"\n",
    shell(run),
    shell(depth),
    shell_double(note)
);

fills!(
    write_csv,
    format_csv,
    "\"{}\",\"{}\",\"{}\"\r\n",
    csv(run),
    csv(depth),
    csv(site)
);

/// Goes through a file of records and writes the text for each.
pub fn fill_all(out: &mut Vec<u8>, mut file: &[u8], fill: Fill) -> Option<()> {
    while !file.is_empty() {
        let (values, rest) = Values::read(file)?;
        fill(out, &values)?;
        file = rest;
    }
    Some(())
}

// A template that is known when the program runs

/// A part of such a template; a hole by its name.
pub enum Piece {
    Literal(String),
    Hole(String),
}

/// Goes through a file of records and writes the text for each.
pub fn fill_pieces(
    out: &mut Vec<u8>,
    mut file: &[u8],
    pieces: &[Piece],
    escape: Escape,
) -> Option<()> {
    let mut pairs = Vec::new();
    while !file.is_empty() {
        pairs.clear();
        file = for_each_pair(file, |name, value| pairs.push((name, value)))?;
        for piece in pieces {
            match piece {
                Piece::Literal(text) => out.extend_from_slice(text.as_bytes()),
                Piece::Hole(hole) => {
                    let (_, value) = pairs.iter().find(|(name, _)| *name == hole.as_bytes())?;
                    out.extend_from_slice(escape(value).as_bytes());
                }
            }
        }
    }
    Some(())
}
