//! Templates of any size for each host, in the notation of each rival.

use crate::by_hand::{self, Escape, Piece};
use gabirong::Host;

/// What templates of a host are made of. Each hole stands where the host brings its quotes.
pub struct Style {
    pub host: Host,
    pub name: &'static str,
    pub escape: Escape,
    quote: &'static str,
    start: &'static str,
    between: &'static str,
    filler: &'static str,
    end: &'static str,
}

pub static STYLES: [Style; 3] = [
    Style {
        host: Host::Sql,
        name: "SQL",
        escape: by_hand::sql,
        quote: "'",
        start: "INSERT INTO runs VALUES (",
        between: ", ",
        filler: ", depth + 40, elm",
        end: ");\n",
    },
    Style {
        host: Host::Shell,
        name: "shell",
        escape: by_hand::shell,
        quote: "'",
        start: "groom --now ",
        between: " ",
        filler: " --depth=40 elm",
        end: "\n",
    },
    Style {
        host: Host::Csv,
        name: "CSV",
        escape: by_hand::csv,
        quote: "\"",
        start: "groomed,",
        between: ",",
        filler: ",40 cm,Elm",
        end: "\r\n",
    },
];

/// A template: literals, and a hole between each two of them.
pub struct Sketch {
    literals: Vec<String>,
    quote: &'static str,
}

impl Sketch {
    /// A template with so many holes, at least one, and of that length, with the literals spread evenly; longer where the holes
    /// alone take more.
    pub fn new(style: &Style, holes: usize, len: usize) -> Sketch {
        let mut sketch = Sketch {
            literals: vec![style.between.to_string(); holes + 1],
            quote: style.quote,
        };
        sketch.literals[0] = style.start.into();
        sketch.literals[holes] = style.end.into();
        let lacking = len.saturating_sub(sketch.template().len());
        for (hole, literal) in sketch.literals[1..].iter_mut().enumerate() {
            let until = |hole| lacking * hole / holes;
            let room = until(hole + 1) - until(hole);
            let filler: String = style.filler.chars().cycle().take(room).collect();
            literal.insert_str(0, &filler);
        }
        sketch
    }

    pub fn holes(&self) -> usize {
        self.literals.len() - 1
    }

    /// Puts the texts for the holes between those for the literals.
    fn joined(&self, literal: impl Fn(&str) -> String, hole: impl Fn(&str) -> String) -> String {
        let mut text = literal(&self.literals[0]);
        for (number, after) in self.literals[1..].iter().enumerate() {
            text += &hole(&name(number));
            text += &literal(after);
        }
        text
    }

    /// In the library's notation.
    pub fn template(&self) -> String {
        self.joined(
            |literal| {
                literal
                    .replace('@', "@@")
                    .replace('\n', "@n")
                    .replace('\r', "@r")
            },
            |name| format!("@{{{name}}}"),
        )
    }

    /// In the notation of tera.
    pub fn tera(&self) -> String {
        let quote = self.quote;
        self.joined(str::to_string, |name| {
            format!("{quote}{{{{ {name} }}}}{quote}")
        })
    }

    /// As the pieces that hand-written code goes over.
    pub fn pieces(&self) -> Vec<Piece> {
        let holes = self.holes();
        let quoted = |number: usize, literal: &str| {
            let before = if number > 0 { self.quote } else { "" };
            let after = if number < holes { self.quote } else { "" };
            Piece::Literal(format!("{before}{literal}{after}"))
        };
        let mut pieces = Vec::new();
        for (number, literal) in self.literals.iter().enumerate() {
            pieces.push(quoted(number, literal));
            if number < holes {
                pieces.push(Piece::Hole(name(number)));
            }
        }
        pieces
    }
}

/// The name of a hole.
pub fn name(number: usize) -> String {
    format!("h{number:02}")
}
