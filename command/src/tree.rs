//! The records of one id as a tree: each under its parent, and a merged record under the first inverse that was merged into it.

use crate::book::Book;
use crate::failure::{named, Failure};
use crate::tables::Table;
use std::collections::BTreeSet;
use std::ffi::OsStr;

const ID: usize = 0;
const SUFFIX: usize = 1;
const PARENT: usize = 2;
const INTO: usize = 12;

/// The tree of an id, a line a record; none where the book has no record of it.
pub fn of(book: &Book, id: i64) -> Option<String> {
    let mut tree = Tree { book, seen: BTreeSet::new(), text: String::new() };
    tree.grow(book.record(id, 0)?);
    Some(tree.text)
}

pub fn no_record(journal: &OsStr, id: i64) -> Failure {
    Failure::line(format!("{}: no record of id {id}", named(journal)))
}

struct Tree<'b> {
    book: &'b Book,
    /// the ids whose records are in the text
    seen: BTreeSet<i64>,
    text: String,
}

impl<'b> Tree<'b> {
    /// A record and what came of it. A stack, since a chain may be as long as the table.
    fn grow(&mut self, root: &'b [i64]) {
        let mut waiting = vec![(0, root)];
        while let Some((depth, record)) = waiting.pop() {
            self.seen.insert(record[ID]);
            let merged = (record[INTO] != 0).then(|| self.book.record(record[INTO], 0)).flatten();
            let above = merged.is_some_and(|merged| !self.seen.insert(merged[ID]));
            self.line(depth, record, above);
            let children = self.book.records().iter().filter(|row| row[ID] == record[ID] && row[PARENT] == record[SUFFIX] && row[SUFFIX] != record[SUFFIX]);
            waiting.extend(children.rev().map(|child| (depth + 1, child.as_slice())));
            waiting.extend(merged.filter(|_| !above).map(|merged| (depth + 1, merged)));
        }
    }

    fn line(&mut self, depth: usize, record: &[i64], above: bool) {
        let word = |place: usize| Table::Records.field(place, record[place]).1;
        let into = match record[INTO] {
            0 => String::new(),
            id => format!(", into {id}{}", if above { " (above)" } else { "" }),
        };
        self.text += &format!(
            "{:indent$}{}/{}  {}, {}: account {} series {} {} {} @ {}, day {}{into}\n",
            "",
            record[ID],
            record[SUFFIX],
            word(3),
            word(4),
            word(5),
            word(6),
            word(7),
            word(8),
            word(9),
            word(13),
            indent = 2 * depth,
        );
    }
}
