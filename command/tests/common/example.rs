//! examples/day.journal, and the rows that it ends with as the proved program `replay` prints them (examples/day.out).

use super::tables::{names, Rows};
use super::Folder;
use std::path::Path;

fn read(name: &str) -> String {
    std::fs::read_to_string(Path::new(env!("CARGO_MANIFEST_DIR")).join("../examples").join(name)).unwrap()
}

/// A folder with that journal as `day.journal`.
pub fn folder() -> Folder {
    let folder = Folder::new();
    folder.write("day.journal", read("day.journal"));
    folder
}

/// The rows of one of its tables.
pub fn rows(table: &str) -> Rows {
    let cells = names(table).len();
    let all = read("day.out");
    let rows = all.lines().map(|line| line.split('\t').map(|cell| cell.parse().unwrap()).collect());
    rows.filter(|row: &Vec<i64>| row.len() == cells).collect()
}
