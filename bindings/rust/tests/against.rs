//! The wrapper against the rules once more: the same inputs to both, and answers and outputs compared byte for byte.

mod rules;

use gabirong::{record, Host, Merged, Merges, Refusal};
use std::collections::BTreeMap;
use std::fmt::Debug;

const HOSTS: [Host; 3] = [Host::Shell, Host::Sql, Host::Csv];
const FILLED: u8 = 0xAA;

fn table(host: Host) -> &'static rules::Host {
    match host {
        Host::Shell => &rules::SHELL,
        Host::Sql => &rules::SQL,
        Host::Csv => &rules::CSV,
    }
}

fn wrapped(refusal: rules::Refusal) -> Refusal {
    let rules::Refusal {
        number,
        hole,
        place,
    } = refusal;
    Refusal {
        number,
        hole,
        place,
    }
}

fn wrapped_merges(merges: rules::Merges) -> Merges {
    let rules::Merges {
        count,
        next,
        len,
        refusal,
    } = merges;
    Merges {
        count,
        next,
        len,
        refusal: refusal.map(wrapped),
    }
}

// Comparing

#[derive(Clone, Copy, PartialEq, Eq, PartialOrd, Ord, Debug)]
enum Call {
    Check,
    List,
    Merge,
    MergeMany,
}

/// What a call came to, for counting.
#[derive(Clone, Copy, PartialEq, Eq, PartialOrd, Ord, Debug)]
enum Outcome {
    Taken,
    Ended,
    Refused(u32),
    /// Refused after at least one record was merged.
    RefusedLater(u32),
}

fn outcome<T>(answer: &Result<T, Refusal>) -> Outcome {
    match answer {
        Ok(_) => Outcome::Taken,
        Err(refusal) => Outcome::Refused(refusal.number),
    }
}

fn outcome_of_many(merges: &Merges, most: usize) -> Outcome {
    match merges.refusal {
        None if merges.count == most => Outcome::Taken,
        None => Outcome::Ended,
        Some(refusal) if merges.count == 0 => Outcome::Refused(refusal.number),
        Some(refusal) => Outcome::RefusedLater(refusal.number),
    }
}

/// What a call answers, and its output afterwards.
type Answer<T> = (T, Vec<u8>);

/// Counts what was reached, and keeps the cases that differ.
#[derive(Default)]
struct Tally {
    reached: BTreeMap<(Call, usize, Outcome), usize>,
    cases: usize,
    differing: usize,
    shown: Vec<String>,
}

impl Tally {
    fn count(&mut self, call: Call, host: Host, outcome: Outcome) {
        self.cases += 1;
        *self
            .reached
            .entry((call, host as usize, outcome))
            .or_default() += 1;
    }

    /// Compares an answer and an output with those of the rules.
    fn compare<T: PartialEq + Debug>(
        &mut self,
        got: Answer<T>,
        wanted: Answer<T>,
        case: impl FnOnce() -> String,
    ) {
        if got == wanted {
            return;
        }
        self.differing += 1;
        if self.shown.len() < 10 {
            let told = |(answer, out): &Answer<T>| format!("{answer:?} {}", shown(out));
            self.shown.push(format!(
                "{}: {}, wanted {}",
                case(),
                told(&got),
                told(&wanted)
            ));
        }
    }

    fn check(&mut self, host: Host, template: &[u8]) {
        let wanted = rules::check(table(host), template).map_err(wrapped);
        let got = host.check(template);
        self.count(Call::Check, host, outcome(&wanted));
        let case = || format!("{host:?} check {}", shown(template));
        self.compare((got, vec![]), (wanted, vec![]), case);
    }

    /// Lists a text into outputs of several lengths.
    fn list(&mut self, host: Host, text: &[u8]) {
        let listing = rules::listing(table(host), text).map_err(wrapped);
        for len in lengths(listing.as_ref().map_or(60, Vec::len)) {
            let (mut got_out, mut wanted_out) = (vec![FILLED; len], vec![FILLED; len]);
            let wanted = match &listing {
                Ok(bytes) => rules::put(bytes, &mut wanted_out).map_err(wrapped),
                Err(refusal) => Err(*refusal),
            };
            let got = host.list(text, &mut got_out);
            self.count(Call::List, host, outcome(&wanted));
            let case = || format!("{host:?} list {} into {len}", shown(text));
            self.compare((got, got_out), (wanted, wanted_out), case);
        }
    }

    /// Merges a record into outputs of several lengths, and answers the place after it.
    fn merge(&mut self, host: Host, template: &[u8], input: &[u8], place: usize) -> Option<usize> {
        let merging = rules::merging(table(host), template, input, place);
        let text = merging.as_ref().ok().and_then(Option::as_ref);
        for len in lengths(text.map_or(50, |(text, _)| text.len())) {
            let (mut got_out, mut wanted_out) = (vec![FILLED; len], vec![FILLED; len]);
            let wanted = rules::put_merging(&merging, &mut wanted_out)
                .map(|found| found.map(|(next, len)| Merged { next, len }))
                .map_err(wrapped);
            let got = host.merge(template, input, place, &mut got_out);
            let came_to = match wanted {
                Ok(None) => Outcome::Ended,
                _ => outcome(&wanted),
            };
            self.count(Call::Merge, host, came_to);
            let case = || {
                let (template, input) = (shown(template), shown(input));
                format!("{host:?} merge {template} with {input} at {place} into {len}")
            };
            self.compare((got, got_out), (wanted, wanted_out), case);
        }
        merging.ok().flatten().map(|(_, next)| next)
    }

    /// Merges many records into outputs that end about where the texts do, each time twice: at most a few, and at most
    /// about as many as there are.
    fn merge_many(
        &mut self,
        numbers: &mut Numbers,
        host: Host,
        template: &[u8],
        input: &[u8],
        place: usize,
    ) {
        let ends = ends(host, template, input, place);
        let mut lens: Vec<usize> = ends.iter().flat_map(|&end| lengths(end)).collect();
        lens.sort();
        lens.dedup();
        for len in lens {
            let few = numbers.pick(&[0, 1, 2]);
            let all = numbers.pick(&[ends.len() - 1, ends.len(), usize::MAX]);
            self.merge_at_most(host, template, input, place, few, len);
            self.merge_at_most(host, template, input, place, all, len);
        }
    }

    fn merge_at_most(
        &mut self,
        host: Host,
        template: &[u8],
        input: &[u8],
        place: usize,
        most: usize,
        len: usize,
    ) {
        let (mut got_out, mut wanted_out) = (vec![FILLED; len], vec![FILLED; len]);
        let wanted = rules::merge_many(table(host), template, input, place, most, &mut wanted_out);
        let wanted = wrapped_merges(wanted);
        let got = host.merge_many(template, input, place, most, &mut got_out);
        self.count(Call::MergeMany, host, outcome_of_many(&wanted, most));
        let case = || {
            let (template, input) = (shown(template), shown(input));
            format!("{host:?} merge {most} of {template} with {input} at {place} into {len}")
        };
        self.compare((got, got_out), (wanted, wanted_out), case);
    }

    fn none_differs(&self) {
        let cases = self.shown.join("\n");
        assert!(
            self.differing == 0,
            "{} of {} differ:\n{cases}",
            self.differing,
            self.cases
        );
        println!("{} cases, none differs", self.cases);
    }

    /// Every call came to each of its outcomes under the host.
    fn all_reached(&self, least: usize, host: Host) {
        use Outcome::{Ended, Refused, RefusedLater, Taken};
        let of_records = [13, 17, 20, 21, 22, 23, 24, 25, 26, 27, 30];
        let check = [1, 2, 3, 5, 6, 7, 8].map(Refused);
        let list = [17, 18, 19].map(Refused);
        let merge = [&[Ended], &check[..], &of_records.map(Refused)].concat();
        let merge_many = [&merge[..], &of_records.map(RefusedLater)].concat();
        let outcomes = [
            (Call::Check, &check[..]),
            (Call::List, &list),
            (Call::Merge, &merge),
            (Call::MergeMany, &merge_many),
        ];
        for (call, others) in outcomes {
            for &outcome in [Taken].iter().chain(others) {
                self.least(least, call, host, outcome);
            }
        }
    }

    fn least(&self, least: usize, call: Call, host: Host, outcome: Outcome) {
        let count = self
            .reached
            .get(&(call, host as usize, outcome))
            .copied()
            .unwrap_or(0);
        println!("{host:?} {call:?} {outcome:?}: {count}");
        assert!(
            count >= least,
            "{call:?} under {host:?} came to {outcome:?} only {count} times"
        );
    }
}

/// The bytes as a literal that can be pasted into a test.
fn shown(bytes: &[u8]) -> String {
    format!("b\"{}\"", bytes.escape_ascii())
}

/// Lengths of outputs for something that needs so much room: none, one short, just enough, and more.
fn lengths(room: usize) -> Vec<usize> {
    let mut lengths = vec![0, room.saturating_sub(1), room, room + 9];
    lengths.dedup();
    lengths
}

/// The lengths of the texts together of no record, of one, and so on, until the file ends or a record is refused.
fn ends(host: Host, template: &[u8], input: &[u8], mut place: usize) -> Vec<usize> {
    let (mut ends, mut end) = (vec![0], 0);
    while let Ok(Some((text, next))) = rules::merging(table(host), template, input, place) {
        place = next;
        end += text.len();
        ends.push(end);
    }
    ends
}

// Making inputs

/// Numbers that look random and are the same in every run.
struct Numbers(u64);

impl Numbers {
    fn next(&mut self) -> u64 {
        self.0 = self.0.wrapping_add(0x9E37_79B9_7F4A_7C15);
        let mixed = (self.0 ^ (self.0 >> 30)).wrapping_mul(0xBF58_476D_1CE4_E5B9);
        let mixed = (mixed ^ (mixed >> 27)).wrapping_mul(0x94D0_49BB_1331_11EB);
        mixed ^ (mixed >> 31)
    }

    fn below(&mut self, bound: usize) -> usize {
        (self.next() % bound as u64) as usize
    }

    fn byte(&mut self) -> u8 {
        self.below(256) as u8
    }

    fn one_in(&mut self, chances: usize) -> bool {
        self.below(chances) == 0
    }

    fn pick<T: Copy>(&mut self, choices: &[T]) -> T {
        choices[self.below(choices.len())]
    }

    /// Pieces put one after another.
    fn joined(&mut self, pieces: &[&[u8]], most: usize) -> Vec<u8> {
        let count = self.below(most + 1);
        (0..count)
            .flat_map(|_| self.pick(pieces).iter().copied())
            .collect()
    }

    /// The bytes with one of them changed, put in, or taken out, or the end cut off.
    fn damaged(&mut self, mut bytes: Vec<u8>) -> Vec<u8> {
        let at = self.below(bytes.len() + 1);
        let sharp = self.pick(b"@{}'\"\\,\r\n$ a\x00\x01\x02\x03");
        let byte = if self.one_in(2) { self.byte() } else { sharp };
        match self.below(4) {
            0 => bytes.truncate(at),
            1 => bytes.insert(at, byte),
            2 if at < bytes.len() => bytes[at] = byte,
            _ if at < bytes.len() => drop(bytes.remove(at)),
            _ => bytes.push(byte),
        }
        bytes
    }
}

/// Pieces of templates that a host mostly takes.
fn pieces(host: Host) -> Vec<&'static [u8]> {
    let listed = match host {
        Host::Shell => concat!(
            r#"cp |a| |@{a}|@{b}| @{c}|'x y'|'@{a}'|"@{b} z"|"\$@{c}\\"|; |@n|@t|\ |\@n|a#b|x=|@@|'|"|>|''|\"#,
            "|\u{e9}|\n"
        ),
        Host::Sql => concat!(
            "SELECT |a.b| | @{a}|,@{b},|(@{c})|'x y'| '@{a}'| 'it''s @{b}@{c}'|;|@n|@t",
            "| @{a}'@{b}' |=|<>|'|''| 'a@@b'|*|\r\n"
        ),
        Host::Csv => concat!(
            r#"a b|,|,|@{a},|,@{b}@r@n|x@{c}y|,"q"|,"@{a}, @{b}"|@r@n|""|"|,@{a}"@{c}"|@@|~"#,
            "|\r\n"
        ),
    };
    listed.split('|').map(str::as_bytes).collect()
}

/// Names that templates and records use; the last ones are none.
const NAMES: [&[u8]; 9] = [
    b"a",
    b"b",
    b"c",
    b"site",
    b"abcdefghijklmnop",
    b"z_9",
    b"abcdefghijklmnopq",
    b"",
    b"A",
];

fn template(numbers: &mut Numbers, host: Host) -> Vec<u8> {
    let bytes = match numbers.below(8) {
        0 => numbers.joined(
            &[
                b"@", b"{", b"}", b"a", b"_", b"1", b"@{", b"n", b"'", b"\"", b",", b" ",
            ],
            12,
        ),
        1 => numbers.joined(&pieces(host), 40),
        2 => {
            let name = numbers.pick(&NAMES);
            [b"@{".as_slice(), name, b"}"].concat()
        }
        _ => numbers.joined(&pieces(host), 6),
    };
    if numbers.one_in(4) {
        return numbers.damaged(bytes);
    }
    bytes
}

fn value(numbers: &mut Numbers) -> Vec<u8> {
    let len = match numbers.below(30) {
        0 => numbers.pick(&[159, 160, 161, 255, 256, 257, 600]),
        1..=4 => 0,
        _ => numbers.below(9),
    };
    let any = numbers.one_in(6);
    let mut byte = || match any {
        // No host takes a byte 00 in a value.
        true if numbers.one_in(8) => 0,
        true => numbers.byte(),
        false => numbers.pick(b"ab c'\"\\$`,;\r\n~@{"),
    };
    (0..len).map(|_| byte()).collect()
}

/// The written form of a record, sometimes damaged.
fn written(numbers: &mut Numbers) -> Vec<u8> {
    let few = if numbers.one_in(20) { NAMES.len() } else { 6 };
    let mut names: Vec<&[u8]> = NAMES[..3].to_vec();
    names.extend((0..numbers.below(3)).map(|_| numbers.pick(&NAMES[3..few])));
    if numbers.one_in(4) {
        names.swap_remove(numbers.below(3));
    }
    let values: Vec<Vec<u8>> = names.iter().map(|_| value(numbers)).collect();
    let pairs: Vec<(&[u8], &[u8])> = names
        .into_iter()
        .zip(values.iter().map(Vec::as_slice))
        .collect();
    let bytes = record(&pairs).expect("a short record");
    if numbers.one_in(6) {
        return numbers.damaged(bytes);
    }
    bytes
}

/// The written form of a record that has all names which templates mostly use.
fn everyday(numbers: &mut Numbers) -> Vec<u8> {
    let [a, b, c] = [(); 3].map(|()| numbers.joined(&[b"x", b"'", b"\"", b"\\", b"$", b" "], 6));
    record(&[(b"a", &a), (b"b", &b), (b"c", &c)]).expect("a short record")
}

/// A record of so many pairs, with names all different.
fn many(count: usize) -> Vec<u8> {
    let names: Vec<Vec<u8>> = (0..count)
        .map(|at| format!("n{at:02}").into_bytes())
        .collect();
    let pairs: Vec<(&[u8], &[u8])> = names
        .iter()
        .map(|name| (name.as_slice(), b"v'\"".as_slice()))
        .collect();
    record(&pairs).expect("a short record")
}

// The tests

#[test]
fn random_inputs_of_the_shell() {
    random_inputs(Host::Shell);
}

#[test]
fn random_inputs_of_sql() {
    random_inputs(Host::Sql);
}

#[test]
fn random_inputs_of_csv() {
    random_inputs(Host::Csv);
}

fn random_inputs(host: Host) {
    let mut tally = Tally::default();
    let mut numbers = Numbers(1 + host as u64);
    for _ in 0..12_000 {
        let template = template(&mut numbers, host);
        tally.check(host, &template);
        tally.list(host, &template);
        let input: Vec<u8> = (0..numbers.below(4))
            .flat_map(|_| written(&mut numbers))
            .collect();
        let mut place = Some(0);
        while let Some(at) = place {
            tally.merge_many(&mut numbers, host, &template, &input, at);
            place = tally.merge(host, &template, &input, at);
        }
        let anywhere = numbers.below(input.len() + 3);
        let place = numbers.pick(&[anywhere, input.len(), usize::MAX]);
        tally.merge(host, &template, &input, place);
        tally.merge_many(&mut numbers, host, &template, &input, place);
    }
    limits(&mut tally, &mut numbers, host);
    files(&mut tally, &mut numbers, host);
    tally.none_differs();
    tally.all_reached(20, host);
}

/// Inputs at the limits: long templates and texts, many holes, many pairs, and damaged ones of these.
fn limits(tally: &mut Tally, numbers: &mut Numbers, host: Host) {
    for round in 0..60 {
        let padded = |len: usize| [b"@{a},".repeat(3), b"a".repeat(len - 15)].concat();
        let long = padded(3580 + round % 10);
        let holes = [b"@{a},".repeat(62 + round % 5), template(numbers, host)].concat();
        let named: Vec<u8> = (0..64)
            .flat_map(|at| format!("@{{n{at:02}}},").into_bytes())
            .collect();
        let input = [many(61 + round % 6), written(numbers)].concat();
        let damaged = numbers.damaged(input.clone());
        let files = [[&many(64), &input], [&input, &damaged]]
            .map(|records| records.map(Vec::as_slice).concat());
        for template in [long, holes, named] {
            let other = numbers.damaged(template.clone());
            for template in [template, other] {
                tally.check(host, &template);
                tally.merge(host, &template, &input, 0);
                tally.merge(host, &template, &damaged, 0);
                tally.merge(host, &template, &written(numbers), 0);
                for file in &files {
                    tally.merge_many(numbers, host, &template, file, 0);
                }
            }
        }
        let len = 65_530 + round % 10;
        let text: Vec<u8> = template(numbers, host)
            .into_iter()
            .chain(b"a ".repeat(len))
            .take(len)
            .collect();
        tally.list(host, &text);
        tally.list(host, &b"a".repeat(len));
        tally.list(host, &numbers.damaged(text));
    }
}

/// Files of many records, whole ones and such with a damaged record.
fn files(tally: &mut Tally, numbers: &mut Numbers, host: Host) {
    for _ in 0..3_000 {
        let template = template(numbers, host);
        let mut records: Vec<Vec<u8>> = (0..numbers.below(20)).map(|_| everyday(numbers)).collect();
        if numbers.one_in(2) {
            let record = written(numbers);
            let at = numbers.below(records.len() + 1);
            records.insert(at, numbers.damaged(record));
        }
        tally.merge_many(numbers, host, &template, &records.concat(), 0);
    }
}

#[test]
fn largest_texts() {
    let mut tally = Tally::default();
    let mut numbers = Numbers(21);
    for host in HOSTS {
        for byte in [b'\'', b'"', b'a', b'\\', b'$', 0xFF, 0] {
            let input = record(&[(b"a", &[byte; 160])]).expect("a short record");
            let inside: &[u8] = if host == Host::Csv { b"\"" } else { b"'" };
            let templates = [
                b"@{a},".repeat(64),
                [inside, &b"@{a}".repeat(64), &b"x".repeat(3326), inside].concat(),
                [b"\"", b"@{a}".repeat(64).as_slice(), b"\""].concat(),
            ];
            for template in templates {
                tally.merge(host, &template, &input, 0);
                tally.merge_many(&mut numbers, host, &template, &input.repeat(2), 0);
            }
        }
    }
    tally.none_differs();
    for host in HOSTS {
        tally.least(20, Call::Merge, host, Outcome::Taken);
        tally.least(20, Call::MergeMany, host, Outcome::Taken);
    }
}

/// Texts that lead a host into each of its contexts.
fn ways(host: Host) -> &'static [&'static [u8]] {
    match host {
        Host::Shell => &[b"", b"a", b"\\", b"a\\", b"'", b"\"", b"\"\\"],
        Host::Sql => &[b"", b"a", b"'", b"'a'"],
        Host::Csv => &[b"", b",", b"a", b"\"", b"\"\"", b"\r"],
    }
}

#[test]
fn every_byte_in_every_context() {
    let mut tally = Tally::default();
    let ends: [&[u8]; 12] = [
        b"", b"'", b"\"", b"a", b"\n", b"\r\n", b"a'", b"a\"", b",a", b"\\\"", b"@{a}", b"@{a}\"",
    ];
    for host in HOSTS {
        for way in ways(host) {
            for byte in 0..=255 {
                let input = record(&[(b"a", &[b'x', byte, byte])]).expect("a short record");
                for end in ends {
                    let text = [way, [byte].as_slice(), end].concat();
                    tally.check(host, &text);
                    tally.list(host, &text);
                    tally.merge(host, &text, &input, 0);
                    tally.merge(host, &[way, b"@{a}".as_slice(), end].concat(), &input, 0);
                }
            }
        }
    }
    tally.none_differs();
}

#[test]
fn every_short_record() {
    let mut tally = Tally::default();
    let bytes = [0, 1, 2, 3, b'a', b'A'];
    for number in 0..bytes.len().pow(6) {
        let digit = |at: u32| bytes[number / bytes.len().pow(at) % bytes.len()];
        let input = [
            digit(0),
            0,
            digit(1),
            digit(2),
            digit(3),
            digit(4),
            digit(5),
        ];
        for len in [input.len(), 1 + number % input.len()] {
            tally.merge(Host::Sql, b"@{a}", &input[..len], 0);
        }
        let with_pair = [b"\x01\x00\x01a\x02\x00\x01a".as_slice(), &input].concat();
        tally.merge(Host::Csv, b"@{a}", &with_pair, 0);
    }
    tally.none_differs();
}
