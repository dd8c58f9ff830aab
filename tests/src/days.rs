//! Document 02, K8, by a plain scan over the cells: which records are on the list, and what a call may do to the days.

use crate::tables::{Tables, RECORD_DAY};
use std::collections::BTreeMap;

/// The list of sound records that finds so many cells, or its refusal.
pub fn list(tables: &Tables, cells: usize) -> Result<Vec<i64>, i64> {
    let pairs = listed(tables).ok_or(5)?;
    if pairs.len() <= cells {
        Ok(pairs)
    } else {
        Err(14)
    }
}

/// Id and suffix of each record that is reported, or nothing where an inverse of the current day lacks its parent row: each row is held against every row.
pub fn listed(tables: &Tables) -> Option<Vec<i64>> {
    let mut pairs = Vec::new();
    for row in tables.record_rows().filter(|row| row[RECORD_DAY] == tables.today()) {
        let reported = match row[4] {
            0 | 3 => true,
            2 => parent(tables, row)?[RECORD_DAY] != tables.today(),
            _ => false,
        };
        if reported {
            pairs.extend(&row[..2]);
        }
    }
    Some(pairs)
}

/// The row of a record's id whose suffix is its parent.
pub fn parent<'a>(tables: &'a Tables, row: &[i64]) -> Option<&'a [i64]> {
    tables.record_rows().find(|other| other[0] == row[0] && other[1] == row[2])
}

/// The current day never falls, and only what moves days changes it; a row keeps its day; a new row has the current day, or where days move one from the
/// current day before to that after.
pub fn kept(before: &Tables, after: &Tables, moves: bool) -> Result<(), &'static str> {
    if before.records == after.records {
        return Ok(());
    }
    let (first, last) = (before.today(), after.today());
    if last < first || (last > first && !moves) {
        return Err("the current day changed");
    }
    let days: BTreeMap<&[i64], i64> = before.record_rows().map(|row| (&row[..2], row[RECORD_DAY])).collect();
    for row in after.record_rows() {
        match days.get(&row[..2]) {
            Some(day) if *day != row[RECORD_DAY] => return Err("a record's day of booking changed"),
            None if !(first..=last).contains(&row[RECORD_DAY]) => return Err("a new record is of another day"),
            _ => {}
        }
    }
    Ok(())
}
