//! A journal that is read: its text, the book that it ends with, or the line that is bad or refused.

use crate::answers::at_source;
use crate::book::{Book, Rooms};
use crate::failure::{named, Failure};
use crate::fields;
use crate::output::escaped;
use crate::standard;
use std::ffi::OsStr;
use std::fs::File;
use std::io::Read;
use velichundam::{Refusal, Reply};

/// What is read of a journal. One that is booked whole has fewer bytes, so that of a longer text the line that is named stands in what is read: days take at most
/// 788,886 bytes, 4,096 records at most 49 each, and 1,024 processes at most four further lines of 47 each.
const MOST_BYTES: u64 = 4 * 1_048_576;

pub struct Text {
    pub name: String,
    pub bytes: Vec<u8>,
    /// there is more than was read
    pub cut: bool,
}

/// The book of a journal, in the greatest rooms.
pub fn book(journal: &OsStr) -> Result<Book, Failure> {
    read(journal)?.booked(Rooms::MOST).map(|(_, book)| book)
}

/// Reads a journal; `-` is the input.
pub fn read(journal: &OsStr) -> Result<Text, Failure> {
    let name = named(journal);
    let failed = |error| Failure::io(&name, &error);
    if journal == "-" {
        let input = standard::input().map_err(failed)?;
        return Text::of(name, input);
    }
    let file = File::open(journal).map_err(failed)?;
    Text::of(name, file)
}

impl Text {
    pub fn of(name: String, source: impl Read) -> Result<Text, Failure> {
        let mut bytes = Vec::new();
        source.take(MOST_BYTES + 1).read_to_end(&mut bytes).map_err(|error| Failure::io(&name, &error))?;
        let cut = bytes.len() as u64 > MOST_BYTES;
        Ok(Text { name, bytes, cut })
    }

    /// The number of its lines and the book that it ends with, from empty tables of these rooms on.
    pub fn booked(&self, rooms: Rooms) -> Result<(i64, Book), Failure> {
        let mut book = Book::empty(rooms);
        let (line, why) = match book.replay(&self.bytes) {
            Reply::Replayed { lines } if !self.cut => return Ok((lines, book)),
            Reply::Replayed { lines } => (lines + 1, "bad: more bytes than a journal has".into()),
            Reply::BadLine { line } => (line, format!("bad: {}", self.why_bad(line))),
            Reply::LineRefused { line, number, place } => (line, self.refused(line, number, place)),
            other => unreachable!("no replay is answered {other:?}"),
        };
        Err(Failure::line(format!("{}:{line}: {why}", self.name)))
    }

    /// Takes a last line without its newline off, which a crash has torn: its number and its bytes.
    pub fn take_torn(&mut self) -> Option<(usize, Vec<u8>)> {
        let whole = self.bytes.iter().rposition(|byte| *byte == b'\n').map_or(0, |newline| newline + 1);
        if self.cut || whole == self.bytes.len() {
            return None;
        }
        let torn = self.bytes.split_off(whole);
        Some((self.bytes.iter().filter(|byte| **byte == b'\n').count() + 1, torn))
    }

    /// A line, counted from 1, with its newline if it has one.
    fn line(&self, number: i64) -> &[u8] {
        self.bytes.split_inclusive(|byte| *byte == b'\n').nth(number as usize - 1).unwrap_or_default()
    }

    fn why_bad(&self, number: i64) -> String {
        match self.line(number).strip_suffix(b"\n") {
            Some(line) => fields::request_of(line).err().unwrap_or_else(|| "not as the book writes it".into()),
            None if self.cut => "longer than any line".into(),
            None => "no newline at the end".into(),
        }
    }

    fn refused(&self, line: i64, number: i64, place: i64) -> String {
        let bytes = self.line(line).strip_suffix(b"\n").unwrap_or_default();
        let shown = escaped(bytes, bytes.len()).replace("\\t", " ");
        format!("refused {number}{} ({}): {shown}", at_source(bytes.starts_with(b"M"), number, place), Refusal(number))
    }
}
