//! The rules of the library once more, in plain Rust, written from its documents alone: hosts as tables, templates, listings,
//! records and merging.

const MAX_TEMPLATE: usize = 3584;
const MAX_HOLES: usize = 64;
const MAX_NAME: usize = 16;
const MAX_VALUE: usize = 160;
const MAX_PAIRS: usize = 64;
const MAX_LISTED: usize = 65_534;

/// Why something is refused.
#[derive(Clone, Copy, PartialEq, Eq, Debug)]
pub struct Refusal {
    pub number: u32,
    pub hole: Option<usize>,
    pub place: usize,
}

fn refused<T>(number: u32, place: usize) -> Result<T, Refusal> {
    Err(Refusal {
        number,
        hole: None,
        place,
    })
}

fn refused_hole<T>(number: u32, hole: usize, place: usize) -> Result<T, Refusal> {
    Err(Refusal {
        number,
        hole: Some(hole),
        place,
    })
}

// Tables

/// Bytes, as ranges with both ends, or all but these.
enum Class {
    Of(&'static [(u8, u8)]),
    But(&'static [(u8, u8)]),
}

impl Class {
    fn has(&self, byte: u8) -> bool {
        let among = |ranges: &[(u8, u8)]| {
            ranges
                .iter()
                .any(|&(low, high)| low <= byte && byte <= high)
        };
        match self {
            Class::Of(ranges) => among(ranges),
            Class::But(ranges) => !among(ranges),
        }
    }
}

#[derive(Clone, Copy)]
enum Middle {
    Nothing,
    Open,
    Keep,
}

/// What a byte does to the tokens: a closing, what is done then, and a last closing.
#[derive(Clone, Copy)]
struct Effect {
    first: Option<u8>,
    middle: Middle,
    last: Option<u8>,
}

const NOTHING: Effect = Effect {
    first: None,
    middle: Middle::Nothing,
    last: None,
};
const OPEN: Effect = Effect {
    middle: Middle::Open,
    ..NOTHING
};
const KEEP: Effect = Effect {
    middle: Middle::Keep,
    ..NOTHING
};

const fn close(kind: u8) -> Effect {
    Effect {
        first: Some(kind),
        ..NOTHING
    }
}

const fn close_keep(kind: u8) -> Effect {
    Effect {
        first: Some(kind),
        ..KEEP
    }
}

const fn keep_alone(kind: u8) -> Effect {
    Effect {
        last: Some(kind),
        ..KEEP
    }
}

const fn close_keep_alone(kind: u8, alone: u8) -> Effect {
    Effect {
        first: Some(kind),
        middle: Middle::Keep,
        last: Some(alone),
    }
}

const fn close_both(kind: u8, last: u8) -> Effect {
    Effect {
        first: Some(kind),
        middle: Middle::Nothing,
        last: Some(last),
    }
}

/// For the bytes of a class: what is done, and the next context.
struct Rule(Class, Effect, usize);

/// How a hole is written: its opener, the context of its value, its closer.
struct Recipe {
    opener: &'static [u8],
    body: usize,
    closer: &'static [u8],
}

/// A hole whose value stands between two quotes.
const fn around(quote: &'static [u8], body: usize) -> Option<Recipe> {
    Some(Recipe {
        opener: quote,
        body,
        closer: quote,
    })
}

/// A hole whose value stands as it is, in the context of the hole.
const fn within(body: usize) -> Option<Recipe> {
    around(b"", body)
}

enum Place {
    Itself,
    Fixed(u8),
}

use Place::{Fixed, Itself};

/// One context of a host. A byte that no rule has is refused, and one that no spelling has is turned away.
struct Context {
    rules: &'static [Rule],
    end: Option<Effect>,
    hole: Option<Recipe>,
    spellings: &'static [(Class, &'static [Place])],
}

pub struct Host {
    contexts: &'static [Context],
}

impl Host {
    fn step(&self, context: usize, byte: u8) -> Option<(Effect, usize)> {
        let rule = self.contexts[context]
            .rules
            .iter()
            .find(|rule| rule.0.has(byte))?;
        Some((rule.1, rule.2))
    }

    fn spelling(&self, body: usize, byte: u8) -> Option<impl Iterator<Item = u8>> {
        let found = self.contexts[body]
            .spellings
            .iter()
            .find(|(class, _)| class.has(byte))?;
        Some(found.1.iter().map(move |place| match place {
            Itself => byte,
            Fixed(other) => *other,
        }))
    }
}

const LINE: (u8, u8) = (0x0A, 0x0A);
const ZERO: (u8, u8) = (0, 0);
const QUOTE: (u8, u8) = (b'\'', b'\'');
const DOUBLE: (u8, u8) = (b'"', b'"');
const BACKSLASH: (u8, u8) = (b'\\', b'\\');
const DOLLAR: (u8, u8) = (b'$', b'$');
const BACKQUOTE: (u8, u8) = (b'`', b'`');
const DIGITS: (u8, u8) = (b'0', b'9');
const UPPER: (u8, u8) = (b'A', b'Z');
const LOWER: (u8, u8) = (b'a', b'z');

// The shell: 1 word, 2 operator

const SHELL_BLANK: Class = Class::Of(&[(b' ', b' '), (0x09, 0x09)]);
const SHELL_OPERATOR: Class = Class::Of(&[
    LINE,
    (b';', b';'),
    (b'&', b'&'),
    (b'>', b'>'),
    (b'(', b')'),
    (b'|', b'|'),
]);
const SHELL_PLAIN: Class = Class::Of(&[
    DIGITS,
    UPPER,
    LOWER,
    (b'!', b'!'),
    (b'%', b'%'),
    (b'+', b'/'),
    (b':', b':'),
    (b'=', b'='),
    (b'@', b'@'),
    (b']', b'_'),
    (b'{', b'{'),
    (b'}', b'}'),
    (0x80, 0xFF),
]);

const AFTER_BACKSLASH: Rule = Rule(Class::But(&[ZERO, LINE]), KEEP, 1);

pub static SHELL: Host = Host {
    contexts: &[
        Context {
            rules: &[
                Rule(SHELL_BLANK, NOTHING, 0),
                Rule(SHELL_OPERATOR, keep_alone(2), 0),
                Rule(Class::Of(&[QUOTE]), OPEN, 4),
                Rule(Class::Of(&[DOUBLE]), OPEN, 5),
                Rule(Class::Of(&[BACKSLASH]), NOTHING, 2),
                Rule(SHELL_PLAIN, KEEP, 1),
            ],
            end: Some(NOTHING),
            hole: around(b"'", 4),
            spellings: &[],
        },
        Context {
            rules: &[
                Rule(SHELL_BLANK, close(1), 0),
                Rule(SHELL_OPERATOR, close_keep_alone(1, 2), 0),
                Rule(Class::Of(&[QUOTE]), NOTHING, 4),
                Rule(Class::Of(&[DOUBLE]), NOTHING, 5),
                Rule(Class::Of(&[BACKSLASH]), NOTHING, 3),
                Rule(SHELL_PLAIN, KEEP, 1),
                Rule(Class::Of(&[(b'#', b'#')]), KEEP, 1),
            ],
            end: Some(close(1)),
            hole: around(b"'", 4),
            spellings: &[],
        },
        Context {
            rules: &[Rule(Class::Of(&[LINE]), NOTHING, 0), AFTER_BACKSLASH],
            end: None,
            hole: None,
            spellings: &[],
        },
        Context {
            rules: &[Rule(Class::Of(&[LINE]), NOTHING, 1), AFTER_BACKSLASH],
            end: None,
            hole: None,
            spellings: &[],
        },
        Context {
            rules: &[
                Rule(Class::Of(&[QUOTE]), NOTHING, 1),
                Rule(Class::But(&[ZERO, QUOTE]), KEEP, 4),
            ],
            end: None,
            hole: within(4),
            spellings: &[
                (Class::Of(&[QUOTE]), &[Itself, Fixed(b'\\'), Itself, Itself]),
                (Class::But(&[ZERO, QUOTE]), &[Itself]),
            ],
        },
        Context {
            rules: &[
                Rule(Class::Of(&[DOUBLE]), NOTHING, 1),
                Rule(Class::Of(&[BACKSLASH]), NOTHING, 6),
                Rule(
                    Class::But(&[ZERO, DOLLAR, BACKQUOTE, DOUBLE, BACKSLASH]),
                    KEEP,
                    5,
                ),
            ],
            end: None,
            hole: within(5),
            spellings: &[
                (
                    Class::Of(&[DOLLAR, BACKQUOTE, DOUBLE, BACKSLASH]),
                    &[Fixed(b'\\'), Itself],
                ),
                (Class::But(&[ZERO]), &[Itself]),
            ],
        },
        Context {
            rules: &[
                Rule(Class::Of(&[DOLLAR, BACKQUOTE, DOUBLE, BACKSLASH]), KEEP, 5),
                Rule(Class::Of(&[LINE]), NOTHING, 5),
            ],
            end: None,
            hole: None,
            spellings: &[],
        },
    ],
};

// SQL: 1 word, 2 text, 3 sign

const SQL_BLANK: Class = Class::Of(&[(b' ', b' '), (0x09, 0x0A), (0x0D, 0x0D)]);
const SQL_WORD: Class = Class::Of(&[DIGITS, UPPER, LOWER, (b'_', b'_'), (b'.', b'.')]);
const SQL_SIGN: Class = Class::Of(&[(b'(', b','), (b';', b'?'), (b':', b':')]);

pub static SQL: Host = Host {
    contexts: &[
        Context {
            rules: &[
                Rule(SQL_BLANK, NOTHING, 0),
                Rule(SQL_WORD, KEEP, 1),
                Rule(Class::Of(&[QUOTE]), OPEN, 2),
                Rule(SQL_SIGN, keep_alone(3), 0),
            ],
            end: Some(NOTHING),
            hole: around(b"'", 2),
            spellings: &[],
        },
        Context {
            rules: &[
                Rule(SQL_WORD, KEEP, 1),
                Rule(SQL_BLANK, close(1), 0),
                Rule(SQL_SIGN, close_keep_alone(1, 3), 0),
            ],
            end: Some(close(1)),
            hole: None,
            spellings: &[],
        },
        Context {
            rules: &[
                Rule(Class::Of(&[QUOTE]), NOTHING, 3),
                Rule(Class::But(&[ZERO, QUOTE]), KEEP, 2),
            ],
            end: None,
            hole: within(2),
            spellings: &[
                (Class::Of(&[QUOTE]), &[Itself, Itself]),
                (Class::But(&[ZERO, QUOTE]), &[Itself]),
            ],
        },
        Context {
            rules: &[
                Rule(Class::Of(&[QUOTE]), KEEP, 2),
                Rule(SQL_BLANK, close(2), 0),
                Rule(SQL_WORD, close_keep(2), 1),
                Rule(SQL_SIGN, close_keep_alone(2, 3), 0),
            ],
            end: Some(close(2)),
            hole: None,
            spellings: &[],
        },
    ],
};

// CSV: 1 field, 2 row

const TEXTDATA: Class = Class::Of(&[(0x20, 0x21), (0x23, 0x2B), (0x2D, 0x7E)]);
const COMMA: Rule = Rule(Class::Of(&[(b',', b',')]), close(1), 1);
const RETURN: Rule = Rule(Class::Of(&[(0x0D, 0x0D)]), OPEN, 5);
const FIELD_START: &[Rule] = &[
    Rule(Class::Of(&[DOUBLE]), OPEN, 3),
    Rule(TEXTDATA, KEEP, 2),
    COMMA,
    RETURN,
];
const IN_QUOTES: Class = Class::Of(&[(0x20, 0x21), (0x23, 0x7E), (0x0D, 0x0D), LINE]);

pub static CSV: Host = Host {
    contexts: &[
        Context {
            rules: FIELD_START,
            end: Some(NOTHING),
            hole: around(b"\"", 3),
            spellings: &[],
        },
        Context {
            rules: FIELD_START,
            end: Some(close_both(1, 2)),
            hole: around(b"\"", 3),
            spellings: &[],
        },
        Context {
            rules: &[Rule(TEXTDATA, KEEP, 2), COMMA, RETURN],
            end: Some(close_both(1, 2)),
            hole: within(2),
            spellings: &[(TEXTDATA, &[Itself])],
        },
        Context {
            rules: &[
                Rule(Class::Of(&[DOUBLE]), NOTHING, 4),
                Rule(IN_QUOTES, KEEP, 3),
            ],
            end: None,
            hole: within(3),
            spellings: &[
                (Class::Of(&[DOUBLE]), &[Itself, Itself]),
                (IN_QUOTES, &[Itself]),
            ],
        },
        Context {
            rules: &[Rule(Class::Of(&[DOUBLE]), KEEP, 3), COMMA, RETURN],
            end: Some(close_both(1, 2)),
            hole: None,
            spellings: &[],
        },
        Context {
            rules: &[Rule(Class::Of(&[LINE]), close_both(1, 2), 0)],
            end: None,
            hole: None,
            spellings: &[],
        },
    ],
};

// Templates

enum Item<'t> {
    Literal(u8),
    Hole(&'t [u8]),
}

/// The item at a place, and the place after it.
fn item_at(template: &[u8], place: usize) -> Result<(Item<'_>, usize), Refusal> {
    if template[place] != b'@' {
        return Ok((Item::Literal(template[place]), place + 1));
    }
    let byte = match template.get(place + 1) {
        Some(b'@') => b'@',
        Some(b'n') => b'\n',
        Some(b'r') => b'\r',
        Some(b't') => b'\t',
        Some(b'{') => return hole_at(template, place),
        _ => return refused(2, place),
    };
    Ok((Item::Literal(byte), place + 2))
}

fn hole_at(template: &[u8], place: usize) -> Result<(Item<'_>, usize), Refusal> {
    let rest = &template[place + 2..];
    let goes_on = |at: usize| at < MAX_NAME && rest.get(at).is_some_and(|&byte| in_name(at, byte));
    let len = (0..).take_while(|&at| goes_on(at)).count();
    match rest.get(len) {
        Some(b'}') if len > 0 => Ok((Item::Hole(&rest[..len]), place + 2 + len + 1)),
        _ => refused(3, place + 2 + len),
    }
}

fn in_name(at: usize, byte: u8) -> bool {
    match byte {
        b'a'..=b'z' => true,
        b'0'..=b'9' | b'_' => at > 0,
        _ => false,
    }
}

/// A piece of a template that is accepted.
enum Piece<'t> {
    Byte(u8),
    Hole {
        name: &'t [u8],
        recipe: &'static Recipe,
    },
}

fn cross(host: &Host, context: usize, bytes: &[u8]) -> Option<usize> {
    bytes
        .iter()
        .try_fold(context, |at, &byte| Some(host.step(at, byte)?.1))
}

fn pieces<'t>(host: &'static Host, template: &'t [u8]) -> Result<Vec<Piece<'t>>, Refusal> {
    if template.len() > MAX_TEMPLATE {
        return refused(1, MAX_TEMPLATE);
    }
    let (mut pieces, mut holes, mut context, mut place) = (Vec::new(), 0, 0, 0);
    while place < template.len() {
        let (item, next) = item_at(template, place)?;
        let (piece, led) = match item {
            Item::Literal(byte) => (Some(Piece::Byte(byte)), cross(host, context, &[byte])),
            Item::Hole(_) if holes == MAX_HOLES => return refused(5, place),
            Item::Hole(name) => {
                holes += 1;
                let recipe = host.contexts[context].hole.as_ref();
                let inside = recipe.and_then(|recipe| cross(host, context, recipe.opener));
                let led = recipe
                    .zip(inside)
                    .and_then(|(recipe, body)| cross(host, body, recipe.closer));
                (recipe.map(|recipe| Piece::Hole { name, recipe }), led)
            }
        };
        match (piece, led) {
            (Some(piece), Some(led)) => {
                pieces.push(piece);
                context = led;
            }
            _ => return refused(if matches!(item, Item::Hole(_)) { 7 } else { 6 }, place),
        }
        place = next;
    }
    match host.contexts[context].end {
        Some(_) => Ok(pieces),
        None => refused(8, template.len()),
    }
}

/// The number of holes of a template that is accepted.
pub fn check(host: &'static Host, template: &[u8]) -> Result<usize, Refusal> {
    let pieces = pieces(host, template)?;
    Ok(pieces
        .iter()
        .filter(|piece| matches!(piece, Piece::Hole { .. }))
        .count())
}

// Listings

/// The tokens of a text, while it is read.
#[derive(Default)]
struct Tokens {
    ended: Vec<(u8, Vec<u8>)>,
    open: Option<Vec<u8>>,
}

impl Tokens {
    fn close(&mut self, kind: Option<u8>) {
        if let Some(kind) = kind {
            self.ended
                .push((kind, self.open.take().unwrap_or_default()));
        }
    }

    fn take(&mut self, effect: Effect, byte: u8) {
        self.close(effect.first);
        match effect.middle {
            Middle::Nothing => (),
            Middle::Open => {
                self.open.get_or_insert_with(Vec::new);
            }
            Middle::Keep => self.open.get_or_insert_with(Vec::new).push(byte),
        }
        self.close(effect.last);
    }

    fn fields(self) -> Vec<u8> {
        let mut fields = Vec::new();
        for (kind, bytes) in self.ended {
            fields.extend([kind, (bytes.len() / 256) as u8, (bytes.len() % 256) as u8]);
            fields.extend(bytes);
        }
        fields
    }
}

/// The listing of a text, whatever room there is.
pub fn listing(host: &'static Host, text: &[u8]) -> Result<Vec<u8>, Refusal> {
    if text.len() > MAX_LISTED {
        return refused(18, 0);
    }
    let (mut tokens, mut context) = (Tokens::default(), 0);
    for (place, &byte) in text.iter().enumerate() {
        let Some((effect, next)) = host.step(context, byte) else {
            return refused(19, place);
        };
        tokens.take(effect, byte);
        context = next;
    }
    match host.contexts[context].end {
        Some(effect) => tokens.take(effect, 0),
        None => return refused(19, text.len()),
    }
    Ok(tokens.fields())
}

/// Writes bytes at the start of the output, or tells how much room they need.
pub fn put(bytes: &[u8], out: &mut [u8]) -> Result<usize, Refusal> {
    match out.get_mut(..bytes.len()) {
        Some(start) => start.copy_from_slice(bytes),
        None => return refused(17, bytes.len()),
    }
    Ok(bytes.len())
}

// Records

enum Field<'i> {
    Name(&'i [u8]),
    Value(&'i [u8]),
    End(&'i [u8]),
}

/// The field at a place, and the place after it.
fn field_at(input: &[u8], place: usize) -> Result<(Field<'_>, usize), Refusal> {
    let &[tag, high, low, ref rest @ ..] = &input[place..] else {
        return refused(20, place);
    };
    let len = usize::from(high) * 256 + usize::from(low);
    let Some(bytes) = rest.get(..len) else {
        return refused(20, place);
    };
    let field = match tag {
        1 => Field::Name(bytes),
        2 => Field::Value(bytes),
        3 => Field::End(bytes),
        _ => return refused(21, place),
    };
    Ok((field, place + 3 + len))
}

struct Record<'i> {
    pairs: Vec<(&'i [u8], &'i [u8])>,
    end: usize,
    next: usize,
}

fn is_name(bytes: &[u8]) -> bool {
    (1..=MAX_NAME).contains(&bytes.len())
        && bytes
            .iter()
            .enumerate()
            .all(|(at, &byte)| in_name(at, byte))
}

/// The record at a place; none where the input ends there.
fn record_at(input: &[u8], place: usize) -> Result<Option<Record<'_>>, Refusal> {
    if place > input.len() {
        return refused(20, input.len());
    }
    if place == input.len() {
        return Ok(None);
    }
    let mut pairs: Vec<(&[u8], &[u8])> = Vec::new();
    let mut at = place;
    loop {
        let (field, next) = field_at(input, at)?;
        let name = match field {
            Field::Value(_) => return refused(22, at),
            Field::End([]) => {
                return Ok(Some(Record {
                    pairs,
                    end: at,
                    next,
                }))
            }
            Field::End(_) => return refused(27, at),
            Field::Name(name) => name,
        };
        match () {
            _ if !is_name(name) => return refused(23, at),
            _ if pairs.len() == MAX_PAIRS => return refused(25, at),
            _ if pairs.iter().any(|pair| pair.0 == name) => return refused(26, at),
            _ => at = next,
        }
        match field_at(input, at)? {
            (Field::Value(value), next) if value.len() <= MAX_VALUE => {
                pairs.push((name, value));
                at = next;
            }
            (Field::Value(_), _) => return refused(24, at),
            _ => return refused(22, at),
        }
    }
}

// Merging

/// A text and the place after its record, none where there is no record, or why it is refused.
pub type Merging = Result<Option<(Vec<u8>, usize)>, Refusal>;

/// The text of a record in a template and the place after the record, whatever room there is.
pub fn merging(host: &'static Host, template: &[u8], input: &[u8], place: usize) -> Merging {
    let pieces = pieces(host, template)?;
    let Some(record) = record_at(input, place)? else {
        return Ok(None);
    };
    let (mut text, mut hole) = (Vec::new(), 0);
    for piece in pieces {
        match piece {
            Piece::Byte(byte) => text.push(byte),
            Piece::Hole { name, recipe } => {
                let Some((_, value)) = record.pairs.iter().find(|pair| pair.0 == name) else {
                    return refused_hole(30, hole, record.end);
                };
                text.extend(recipe.opener);
                for (at, &byte) in value.iter().enumerate() {
                    match host.spelling(recipe.body, byte) {
                        Some(bytes) => text.extend(bytes),
                        None => return refused_hole(13, hole, at),
                    }
                }
                text.extend(recipe.closer);
                hole += 1;
            }
        }
    }
    Ok(Some((text, record.next)))
}

/// What is merged, written at the start of the output: the place after the record, and the length of the text.
pub fn put_merging(merging: &Merging, out: &mut [u8]) -> Result<Option<(usize, usize)>, Refusal> {
    match merging {
        Ok(Some((text, next))) => Ok(Some((*next, put(text, out)?))),
        Ok(None) => Ok(None),
        Err(refusal) => Err(*refusal),
    }
}

/// What merging many records came to.
pub struct Merges {
    pub count: usize,
    pub next: usize,
    pub len: usize,
    pub refusal: Option<Refusal>,
}

/// Merges one record after another, each into what is left of the output.
pub fn merge_many(
    host: &'static Host,
    template: &[u8],
    input: &[u8],
    place: usize,
    most: usize,
    out: &mut [u8],
) -> Merges {
    let mut merges = Merges {
        count: 0,
        next: place,
        len: 0,
        refusal: check(host, template).err(),
    };
    while merges.refusal.is_none() && merges.count < most {
        let merging = merging(host, template, input, merges.next);
        match put_merging(&merging, &mut out[merges.len..]) {
            Ok(Some((next, len))) => {
                merges.count += 1;
                merges.next = next;
                merges.len += len;
            }
            Ok(None) => break,
            Err(refusal) => merges.refusal = Some(refusal),
        }
    }
    merges
}
