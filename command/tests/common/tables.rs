//! The tables that the command prints: their names, and readers of their forms.

use super::json::objects;

pub const RECORD: [&str; 14] = ["id", "suffix", "parent", "type", "status", "account", "series", "side", "quantity", "price", "long", "short", "into", "day"];
pub const POSITION: [&str; 7] = ["account", "series", "long", "short", "cash", "quantity", "value"];
pub const PROCESS: [&str; 9] = ["process", "id", "suffix", "giving", "taking", "series", "giver", "taker", "stage"];

pub type Rows = Vec<Vec<i64>>;

/// The names of a table's cells.
pub fn names(table: &str) -> &'static [&'static str] {
    match table {
        "records" => &RECORD,
        "positions" => &POSITION,
        _ => &PROCESS,
    }
}

/// The rows of a text with a heading line and cells parted by that mark, each line ended by a newline alone.
#[track_caller]
pub fn parted(text: &str, mark: char, names: &[&str]) -> Rows {
    let mut lines = text.strip_suffix('\n').expect("no newline at the end").split('\n');
    assert_eq!(lines.next().unwrap().split(mark).collect::<Vec<_>>(), names);
    let whole = |cell: &str| {
        let number: i64 = cell.parse().unwrap_or_else(|_| panic!("{cell:?} is no whole number"));
        assert_eq!(number.to_string(), cell);
        number
    };
    lines.map(|line| line.split(mark).map(whole).collect()).collect()
}

/// The rows of a list of objects, each of which has just these names.
#[track_caller]
pub fn of_json(text: &str, names: &[&str]) -> Rows {
    let row = |object: Vec<(String, i64)>| {
        assert_eq!(object.len(), names.len(), "{object:?}");
        let cell = |name: &&str| object.iter().find(|(there, _)| there == name).unwrap_or_else(|| panic!("no {name} in {object:?}")).1;
        names.iter().map(cell).collect()
    };
    objects(text).into_iter().map(row).collect()
}

/// The rows of a printed table in one of its three plain forms.
#[track_caller]
pub fn rows(form: &str, text: &str, names: &[&str]) -> Rows {
    match form {
        "--tsv" => parted(text, '\t', names),
        "--csv" => parted(text, ',', names),
        _ => of_json(text, names),
    }
}

/// A price with its seven digits after the point.
pub fn decimal(units: i64) -> String {
    let sign = if units < 0 { "-" } else { "" };
    let size = units.unsigned_abs();
    format!("{sign}{}.{:07}", size / 10_000_000, size % 10_000_000)
}

pub fn type_in_words(number: i64) -> &'static str {
    match number {
        0 => "original",
        4 => "transfer",
        6 => "separation",
        10 => "closing error",
        20 => "give-up",
        30 => "take-up",
        901 => "merge",
        _ => panic!("type {number}"),
    }
}

pub fn status_in_words(number: i64) -> &'static str {
    ["adjustable", "adjusted", "inverse", "under give-up"][number as usize]
}

pub fn stage_in_words(number: i64) -> &'static str {
    match number {
        0 => "done",
        6 => "pending",
        9 => "claimed",
        10 => "refused",
        12 => "cancelled",
        _ => panic!("stage {number}"),
    }
}
