//! A line in the journal's own form: its fields, its request, or why it is bad. Whether it is good is for the book to say: a line is good exactly where the book
//! writes it of its request.

use crate::answers::counted;
use crate::decimals::{grouped, whole};
use crate::output::{escaped, quoted};
use crate::request::{Request, STEPS};
use velichundam::Step;

/// A figure's name and its range.
pub type Figure = (&'static str, i64, i64);

pub const ID: Figure = ("id", 1, 999_999_999);
const SUFFIX: Figure = ("suffix", 0, 65_535);
pub const SERIES: Figure = ("series", 1, 999_999);
const QUANTITY: Figure = ("quantity", 1, 1_000_000);
const MOST_PRICE: i64 = 1_000_000_000_000;

pub const fn account(name: &'static str) -> Figure {
    (name, 1, 9_999)
}

/// The lines of one letter: what they are, the figures that each has, and those that may follow again and again.
struct Form {
    letter: u8,
    name: &'static str,
    figures: &'static [Figure],
    list: &'static [Figure],
}

const FORMS: [Form; 6] = [
    Form { letter: b'T', name: "a trade", figures: &[ID, account("account"), SERIES, ("side", 1, 4), QUANTITY, ("price", -MOST_PRICE, MOST_PRICE)], list: &[] },
    Form { letter: b'S', name: "a separation", figures: &[ID, SUFFIX, account("account"), SERIES], list: &[("part", 1, 1_000_000)] },
    Form { letter: b'A', name: "a transfer", figures: &[ID, SUFFIX, account("from"), account("to"), SERIES], list: &[] },
    Form { letter: b'M', name: "a merge", figures: &[ID, account("account"), SERIES], list: &[ID, SUFFIX] },
    Form {
        letter: b'G',
        name: "a step of a give-up",
        figures: &[("process", 1, 999_999_999), ID, SUFFIX, account("giving"), account("taking"), SERIES],
        list: &[],
    },
    Form { letter: b'D', name: "a day", figures: &[("day", 1, velichundam::LAST_DAY)], list: &[] },
];

/// The request of a line without its newline, or why the line is bad.
pub fn request_of(line: &[u8]) -> Result<Request, String> {
    if line.is_empty() {
        return Err("an empty line".into());
    }
    if line.contains(&b'\r') {
        return Err("a carriage return".into());
    }
    let request = taken_apart(line)?;
    match request.line() {
        Some(written) if written.strip_suffix(b"\n") == Some(line) => Ok(request),
        _ => Err("not as the book writes it".into()),
    }
}

fn taken_apart(line: &[u8]) -> Result<Request, String> {
    let fields: Vec<&[u8]> = line.split(|byte| *byte == b'\t').collect();
    let form = FORMS.iter().find(|form| fields[0] == [form.letter]);
    let form = form.ok_or_else(|| format!("field 1 (request): {} is none of T, S, A, M, G, D", quoted(fields[0])))?;
    let step = if form.letter == b'G' { Some(step_of(fields.get(1))?) } else { None };
    let first = if step.is_some() { 2 } else { 1 };
    form.has_fields(fields.len(), first)?;
    let figures = form.figures_of(&fields, first)?;
    form.accounts_differ(&figures, first)?;
    Ok(form.request(step, &figures))
}

fn step_of(field: Option<&&[u8]>) -> Result<Step, String> {
    let field = field.ok_or("1 field, a step of a give-up has 8")?;
    let step = STEPS.into_iter().map(|(_, step)| step).find(|step| *field == [step.letter()]);
    step.ok_or_else(|| format!("field 2 (step): {} is none of O, C, X, R, G, T", quoted(field)))
}

impl Form {
    /// That a line of so many fields has as many as its letter asks for; its figures begin after the first so many.
    fn has_fields(&self, fields: usize, first: usize) -> Result<(), String> {
        let least = first + self.figures.len();
        let found = || counted(fields as i64, "field");
        if self.list.is_empty() {
            return if fields == least { Ok(()) } else { Err(format!("{}, {} has {least}", found(), self.name)) };
        }
        if fields < least {
            return Err(format!("{}, {} has {least} and its list", found(), self.name));
        }
        if !(fields - least).is_multiple_of(self.list.len()) {
            return Err(format!("{}, the last source has no suffix", found()));
        }
        let (elements, name) = ((fields - least) / self.list.len(), if self.letter == b'S' { "part" } else { "source" });
        if (2..=1_000).contains(&elements) {
            return Ok(());
        }
        Err(format!("{}, {} has 2 to 1,000", counted(elements as i64, name), self.name))
    }

    /// The figures of a line that has as many fields as its letter asks for.
    fn figures_of(&self, fields: &[&[u8]], first: usize) -> Result<Vec<i64>, String> {
        let names = self.figures.iter().chain(self.list.iter().cycle());
        let figures = fields.iter().skip(first).zip(names).enumerate();
        figures.map(|(place, (field, name))| figure(field, *name).map_err(|why| at(first + place, name, &why))).collect()
    }

    /// That the account to which a record goes is another than that from which it comes.
    fn accounts_differ(&self, figures: &[i64], first: usize) -> Result<(), String> {
        let to = self.figures.iter().position(|(name, ..)| matches!(*name, "to" | "taking"));
        match to {
            Some(to) if figures[to] == figures[to - 1] => {
                Err(at(first + to, &self.figures[to], &format!("{} is {}, too", figures[to], self.figures[to - 1].0)))
            }
            _ => Ok(()),
        }
    }

    /// The request of figures that are as many as the form asks for.
    fn request(&self, step: Option<Step>, figures: &[i64]) -> Request {
        let list = figures[self.figures.len()..].to_vec();
        match (self.letter, step) {
            (b'T', _) => Request::Trade(head(figures)),
            (b'S', _) => Request::Separation(head(figures), list),
            (b'A', _) => Request::Transfer(head(figures)),
            (b'M', _) => Request::Merge(head(figures), list),
            (_, Some(step)) => Request::GiveUp(step, head(figures)),
            _ => Request::Day(figures[0]),
        }
    }
}

fn head<const N: usize>(figures: &[i64]) -> [i64; N] {
    std::array::from_fn(|place| figures[place])
}

/// A reason with the field that it is about; fields are counted from 1.
fn at(place: usize, (name, ..): &Figure, why: &str) -> String {
    format!("field {} ({name}): {why}", place + 1)
}

fn figure(field: &[u8], (_, least, most): Figure) -> Result<i64, String> {
    let digits = field.strip_prefix(b"-").unwrap_or(field);
    if digits.is_empty() || !digits.iter().all(u8::is_ascii_digit) {
        return Err(format!("{} is no whole number", quoted(field)));
    }
    if field != b"0" && digits[0] == b'0' {
        return Err(format!("{} begins with a zero", quoted(field)));
    }
    match whole(field) {
        Ok(number) if (least..=most).contains(&number) => Ok(number),
        _ => Err(outside(field, least, most)),
    }
}

/// That a number is out of its range.
pub fn outside(number: &[u8], least: i64, most: i64) -> String {
    format!("{} is not in {} to {}", escaped(number, 60), grouped(least), grouped(most))
}

#[cfg(test)]
mod tests {
    use super::*;
    use crate::book::{Book, Rooms};
    use velichundam::Reply;

    const LINES: [&str; 9] = [
        "T\t456789\t1\t1\t1\t100\t1250000000",
        "T\t999999999\t9999\t999999\t4\t1000000\t-1000000000000",
        "A\t456789\t0\t1\t2\t1",
        "S\t456789\t2\t2\t1\t50\t25\t25",
        "M\t600000\t2\t1\t456789\t5\t456789\t65535",
        "G\tO\t9001\t456789\t4\t2\t5\t1",
        "G\tX\t9000\t600000\t0\t9999\t1\t1",
        "D\t1",
        "D\t99999",
    ];

    /// What the book's reader says of a line.
    fn is_good(line: &[u8]) -> bool {
        let mut book = Book::empty(Rooms([1, 1, 1]));
        !matches!(book.replay(&[line, b"\n"].concat()), Reply::BadLine { .. })
    }

    /// Numbers that look random, from a seed.
    fn draws(mut state: u64) -> impl FnMut(usize) -> usize {
        move |below| {
            state ^= state << 13;
            state ^= state >> 7;
            state ^= state << 17;
            (state % below as u64) as usize
        }
    }

    /// A line with one to three bytes changed, put in, taken out or doubled.
    fn changed(line: &str, draw: &mut impl FnMut(usize) -> usize) -> Vec<u8> {
        const BYTES: &[u8] = b"0123456789\t-+. TSAMGDOCXR\r\x00\xffabcx/";
        let mut line = line.as_bytes().to_vec();
        for _ in 0..=draw(3) {
            let (place, byte) = (draw(line.len().max(1)).min(line.len()), BYTES[draw(BYTES.len())]);
            match draw(4) {
                0 if place < line.len() => line[place] = byte,
                1 if place < line.len() => drop(line.remove(place)),
                2 if place < line.len() => line.insert(place, line[place]),
                _ => line.insert(place, byte),
            }
        }
        line
    }

    #[test]
    fn a_line_is_bad_where_the_reader_says_so_and_has_a_reason() {
        let mut draw = draws(0x5eed_0f11_e5aa);
        let (mut good, mut bad) = (0, 0);
        for round in 0..200_000 {
            let line = changed(LINES[round % LINES.len()], &mut draw);
            match request_of(&line) {
                Ok(_) => good += 1,
                Err(why) => {
                    bad += 1;
                    assert_ne!(why, "not as the book writes it", "{:?}", String::from_utf8_lossy(&line));
                }
            }
            assert_eq!(request_of(&line).is_ok(), is_good(&line), "{:?}", String::from_utf8_lossy(&line));
        }
        assert!(good > 10_000 && bad > 10_000, "{good} good, {bad} bad");
    }

    #[test]
    fn a_good_line_is_its_request() {
        for line in LINES {
            let request = request_of(line.as_bytes()).unwrap_or_else(|why| panic!("{line}: {why}"));
            let (mut by_call, mut by_replay) = (Book::empty(Rooms([9, 9, 9])), Book::empty(Rooms([9, 9, 9])));
            for book in [&mut by_call, &mut by_replay] {
                let day = b"T\t456789\t1\t1\t1\t100\t5\nA\t456789\t0\t1\t2\t1\n";
                assert_eq!(book.replay(day), Reply::Replayed { lines: 2 });
            }
            let (called, replayed) = (request.call(&mut by_call), by_replay.replay(&request.line().expect("it is good")));
            match called {
                Reply::Refused { number, place } => assert_eq!(replayed, Reply::LineRefused { line: 1, number, place }, "{line}"),
                _ => assert_eq!(replayed, Reply::Replayed { lines: 1 }, "{line}"),
            }
            assert_eq!(by_call, by_replay, "{line}");
        }
    }

    #[test]
    fn lists_have_their_counts() {
        let separation = |parts: usize| format!("S\t1\t0\t1\t1{}", "\t1".repeat(parts));
        let merge = |sources: usize| format!("M\t1\t1\t1{}", "\t1\t0".repeat(sources));
        for count in [0, 1, 2, 3, 999, 1_000, 1_001] {
            for line in [separation(count), merge(count)] {
                assert_eq!(request_of(line.as_bytes()).is_ok(), is_good(line.as_bytes()), "{count}");
                assert_eq!(is_good(line.as_bytes()), (2..=1_000).contains(&count), "{count}");
            }
        }
    }

    #[test]
    fn a_reason_names_the_field() {
        for (line, why) in [
            ("", "an empty line"),
            ("D\t1\r", "a carriage return"),
            ("t\t1", "field 1 (request): \"t\" is none of T, S, A, M, G, D"),
            ("T\t1\t1\t1\t1\t1\t1260.5", "field 7 (price): \"1260.5\" is no whole number"),
            ("T\t1\t0\t1\t1\t1\t1", "field 3 (account): 0 is not in 1 to 9,999"),
            ("T\t1\t1\t1\t1\t1", "6 fields, a trade has 7"),
            ("T\t007\t1\t1\t1\t1\t1", "field 2 (id): \"007\" begins with a zero"),
            ("T\t1\t1\t1\t1\t1\t-0", "field 7 (price): \"-0\" begins with a zero"),
            ("T\t99999999999999999999\t1\t1\t1\t1\t1", "field 2 (id): 99999999999999999999 is not in 1 to 999,999,999"),
            ("A\t1\t0\t2\t2\t1", "field 5 (to): 2 is from, too"),
            ("G\tO\t1\t1\t0\t7\t7\t1", "field 7 (taking): 7 is giving, too"),
            ("G\tZ\t1\t1\t0\t7\t8\t1", "field 2 (step): \"Z\" is none of O, C, X, R, G, T"),
            ("G", "1 field, a step of a give-up has 8"),
            ("M\t1\t1\t1\t5\t0\t5", "7 fields, the last source has no suffix"),
            ("M\t1\t1\t1\t5\t0", "1 source, a merge has 2 to 1,000"),
            ("S\t1\t0\t1", "4 fields, a separation has 5 and its list"),
        ] {
            assert_eq!(request_of(line.as_bytes()), Err(why.to_string()));
        }
    }
}
