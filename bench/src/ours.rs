//! The calls of the library.

use crate::ways::Way;
use gabirong::{Host, Merged};
use std::hint::black_box;

/// More than the texts of any of the files have.
const ROOM: usize = 1 << 19;

fn merge(host: Host, template: &[u8], file: &[u8], place: usize, out: &mut [u8]) -> Option<Merged> {
    host.merge(template, file, place, out)
        .expect("the host takes the template and the values, and there is room")
}

/// Merges the records of a file into a template by a call for each, and writes their texts one after another.
pub fn merging<'a>(host: Host, template: &'a str, file: &'a [u8]) -> Way<'a> {
    Way::new("gabirong, record by record", move |out| {
        out.resize(ROOM, 0);
        let (template, file) = (black_box(template.as_bytes()), black_box(file));
        let (mut place, mut len) = (0, 0);
        while let Some(merged) = merge(host, template, file, place, &mut out[len..]) {
            place = merged.next;
            len += merged.len;
        }
        len
    })
}

/// Does the same by one call for all records.
pub fn merging_many<'a>(host: Host, template: &'a str, file: &'a [u8]) -> Way<'a> {
    Way::new("gabirong, many at once", move |out| {
        out.resize(ROOM, 0);
        let (template, file) = (black_box(template.as_bytes()), black_box(file));
        let merges = host.merge_many(template, file, 0, usize::MAX, out);
        assert_eq!(merges.refusal, None, "there is room for all texts");
        merges.len
    })
}

/// The text of each record of a file.
pub fn texts_of(host: Host, template: &str, file: &[u8]) -> Vec<Vec<u8>> {
    let mut out = vec![0; gabirong::MAX_TEXT];
    let (mut place, mut texts) = (0, Vec::new());
    while let Some(merged) = merge(host, template.as_bytes(), file, place, &mut out) {
        place = merged.next;
        texts.push(out[..merged.len].to_vec());
    }
    texts
}

/// Writes the tokens of a text, as fields, into a buffer that has room for them; their length.
pub fn list(host: Host, text: &[u8], out: &mut [u8]) -> usize {
    host.list(text, out)
        .expect("the host takes the text, and there is room")
}

/// The tokens of a text, as fields.
pub fn fields_of(host: Host, text: &[u8]) -> Vec<u8> {
    // A field has three bytes before those of its token.
    let mut out = vec![0; 4 * text.len() + 3];
    let len = list(host, text, &mut out);
    out.truncate(len);
    out
}

/// How many holes the template has.
pub fn check(host: Host, template: &[u8]) -> usize {
    host.check(template).expect("the host takes the template")
}
