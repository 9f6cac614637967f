//! Ways to write one and the same text.

use crate::measure::Subject;
use std::hint::black_box;

/// Is given a buffer, whatever stands in it, writes the text from its start on, and answers the text's length.
type Work<'a> = Box<dyn FnMut(&mut Vec<u8>) -> usize + 'a>;

/// One way to write a text.
pub struct Way<'a> {
    pub name: &'static str,
    work: Work<'a>,
}

impl<'a> Way<'a> {
    pub fn new(name: &'static str, work: impl FnMut(&mut Vec<u8>) -> usize + 'a) -> Self {
        Way {
            name,
            work: Box::new(work),
        }
    }

    /// A way whose work adds to a buffer that is empty.
    pub fn adding(name: &'static str, mut work: impl FnMut(&mut Vec<u8>) + 'a) -> Self {
        Way::new(name, move |out| {
            out.clear();
            work(out);
            out.len()
        })
    }

    /// Copies texts that are finished, one after another: no way takes less.
    pub fn copying(texts: &'a [impl AsRef<[u8]>]) -> Self {
        Way::adding("copying", move |out| {
            for text in black_box(texts) {
                out.extend_from_slice(text.as_ref());
            }
        })
    }

    /// The text that it writes.
    pub fn text(&mut self) -> Vec<u8> {
        let mut out = Vec::new();
        let len = (self.work)(&mut out);
        out.truncate(len);
        out
    }

    /// Fails where it writes other bytes than these.
    pub fn assert_writes(&mut self, text: &[u8]) {
        assert!(self.text() == text, "{}: another text", self.name);
    }

    pub fn subject(mut self) -> Subject<'a> {
        let mut out = Vec::new();
        Subject::new(self.name, move || {
            black_box((self.work)(black_box(&mut out)));
        })
    }
}
