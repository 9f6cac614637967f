//! What users of other crates would write instead.

use crate::by_hand;
use crate::inputs::Run;
use csv::{ByteRecord, QuoteStyle, ReaderBuilder, Terminator, Writer, WriterBuilder};
use std::collections::HashMap;
use std::io::Write;
use tera::{Context, Filter, Tera, Value};

// tera

const TEMPLATE: &str = "template";

/// The filter for values between double quotes of the shell: the shell has two kinds of quotes, and a tera has one function
/// that escapes.
struct DoubleQuoted;

impl Filter for DoubleQuoted {
    fn filter(&self, value: &Value, _: &HashMap<String, Value>) -> tera::Result<Value> {
        let value = value.as_str().ok_or("the value is no string")?;
        Ok(by_hand::shell_double(value).into())
    }

    fn is_safe(&self) -> bool {
        true
    }
}

/// A tera with one template, whose values it escapes by the function.
pub fn tera_of(template: &str, escape: fn(&str) -> String) -> Tera {
    let mut tera = Tera::default();
    tera.autoescape_on(vec![TEMPLATE]);
    tera.set_escape_fn(escape);
    tera.register_filter("double_quoted", DoubleQuoted);
    set_template(&mut tera, template);
    tera
}

/// Has tera parse the template, in place of the one that it had.
pub fn set_template(tera: &mut Tera, template: &str) {
    tera.add_raw_template(TEMPLATE, template)
        .expect("tera takes the template");
}

/// Writes the text for each run.
pub fn fill_by_tera(out: &mut Vec<u8>, tera: &Tera, runs: &[Run]) {
    for run in runs {
        let mut context = Context::new();
        context.insert("run", &run.run);
        context.insert("depth", &run.depth);
        context.insert("site", &run.site);
        context.insert("note", &run.note);
        tera.render_to(TEMPLATE, &context, &mut *out)
            .expect("tera has all values");
    }
}

// csv

/// A writer of rows that end as in RFC 4180.
fn csv_writer<W: Write>(out: W, quotes: QuoteStyle) -> Writer<W> {
    WriterBuilder::new()
        .quote_style(quotes)
        .terminator(Terminator::CRLF)
        .from_writer(out)
}

/// Writes a row for each run.
pub fn write_by_csv(out: &mut Vec<u8>, runs: &[Run]) {
    let mut writer = csv_writer(out, QuoteStyle::Always);
    for run in runs {
        writer
            .write_record([&run.run, &run.depth, &run.site])
            .expect("a vector takes all");
    }
    writer.flush().expect("a vector takes all");
}

/// The row of a run, with quotes where they are needed.
pub fn csv_row(run: &Run) -> String {
    let mut writer = csv_writer(Vec::new(), QuoteStyle::Necessary);
    writer
        .write_record([&run.run, &run.depth, &run.site, &run.note])
        .expect("a vector takes all");
    let row = writer.into_inner().expect("a vector takes all");
    String::from_utf8(row).expect("the fields are strings")
}

/// Reads the rows of a text, one after another.
pub fn read_by_csv(text: &str, mut tell: impl FnMut(&ByteRecord)) {
    let mut reader = ReaderBuilder::new()
        .has_headers(false)
        .from_reader(text.as_bytes());
    let mut row = ByteRecord::new();
    while reader.read_byte_record(&mut row).expect("the text is CSV") {
        tell(&row);
    }
}

/// The fields of each row.
pub fn rows_by_csv(text: &str) -> Vec<Vec<String>> {
    let mut rows = Vec::new();
    read_by_csv(text, |row| {
        let fields = row.iter().map(String::from_utf8_lossy);
        rows.push(fields.map(String::from).collect());
    });
    rows
}

// shell-words

/// Writes a line for each run.
pub fn quote_by_shell_words(out: &mut Vec<u8>, runs: &[Run]) {
    for run in runs {
        writeln!(
            out,
            "groom --run {} --depth {} --note {}",
            shell_words::quote(&run.run),
            shell_words::quote(&run.depth),
            shell_words::quote(&run.note)
        )
        .expect("a vector takes all");
    }
}
