//! The cells in which two books differ, by key and field.

use crate::book::Book;
use crate::failure::{named, Failure, REFUSED};
use crate::journal;
use crate::output::say;
use crate::tables::Table;
use std::collections::BTreeMap;
use std::ffi::OsStr;

/// Prints the difference, and gives the status: 0 where there is none.
pub fn run(first: &OsStr, second: &OsStr) -> Result<u8, Failure> {
    let books = [journal::book(first)?, journal::book(second)?];
    let text = difference(&books, [&named(first), &named(second)]);
    say(&text)?;
    Ok(if text.is_empty() { 0 } else { REFUSED })
}

fn difference(books: &[Book; 2], names: [&str; 2]) -> String {
    let [first, second] = books.each_ref().map(Book::day);
    let mut text = if first == second { String::new() } else { format!("day: {first}, {second}\n") };
    for table in Table::ALL {
        let rows = books.each_ref().map(|book| keyed(table, book));
        let keys: std::collections::BTreeSet<_> = rows.iter().flat_map(BTreeMap::keys).collect();
        for key in keys {
            text += &row_difference(table, rows.each_ref().map(|rows| rows.get(key).copied()), names);
        }
    }
    text
}

fn keyed(table: Table, book: &Book) -> BTreeMap<[i64; 2], &[i64]> {
    table.rows(book).into_iter().map(|row| (key(table, row), row)).collect()
}

fn key(table: Table, row: &[i64]) -> [i64; 2] {
    match table {
        Table::Records | Table::Positions => [row[0], row[1]],
        Table::Processes => [row[0], 0],
    }
}

/// What a row is called: record 456789/2, position 1/1, process 77.
fn title(table: Table, row: &[i64]) -> String {
    match table {
        Table::Records => format!("record {}/{}", row[0], row[1]),
        Table::Positions => format!("position of account {} series {}", row[0], row[1]),
        Table::Processes => format!("process {}", row[0]),
    }
}

fn row_difference(table: Table, rows: [Option<&[i64]>; 2], names: [&str; 2]) -> String {
    match rows {
        [Some(first), Some(second)] => {
            let differing = (0..first.len()).filter(|place| first[*place] != second[*place]);
            let line = |place: usize| {
                let ((field, one), (_, other)) = (table.field(place, first[place]), table.field(place, second[place]));
                format!("{} {field}: {one}, {other}\n", title(table, first))
            };
            differing.map(line).collect()
        }
        [Some(row), None] => format!("{}: only in {}\n", title(table, row), names[0]),
        [None, Some(row)] => format!("{}: only in {}\n", title(table, row), names[1]),
        [None, None] => String::new(),
    }
}
