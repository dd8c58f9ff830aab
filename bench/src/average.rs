//! What the totals beside a position are for: its average entry from their two cells, and summed over the records instead.

use crate::calls;
use crate::request::{Coded, Request};
use crate::stats::Spread;
use crate::turns::{agree, take_turns};
use velichundam::{positions_len, POSITIONS_HEADER, POSITION_CELLS, POSITION_QUANTITY, POSITION_VALUE, RECORDS_HEADER, RECORD_CELLS};

pub struct Line {
    pub rows: usize,
    pub from_cells: Spread,
    pub over_records: Spread,
}

/// The position is looked up as a host would, by halving the range.
#[inline(never)]
fn from_cells(positions: &[i64], account: i64, series: i64) -> i64 {
    let (rows, _) = positions[POSITIONS_HEADER..].as_chunks::<POSITION_CELLS>();
    let found = rows[..positions[0] as usize].binary_search_by_key(&(account, series), |row| (row[0], row[1]));
    found.map_or(0, |at| average(rows[at][POSITION_QUANTITY], rows[at][POSITION_VALUE]))
}

#[inline(never)]
fn over_records(records: &[i64], account: i64, series: i64) -> i64 {
    let [quantity, value] = sums(records, account, series);
    average(quantity, value)
}

fn average(quantity: i64, value: i64) -> i64 {
    value.checked_div(quantity).unwrap_or(0)
}

/// Over the records of status 0 or 3, buys plus and sells minus.
fn sums(records: &[i64], account: i64, series: i64) -> [i64; 2] {
    let (rows, _) = records[RECORDS_HEADER..].as_chunks::<RECORD_CELLS>();
    let (mut quantity, mut value) = (0, 0);
    for row in &rows[..records[0] as usize] {
        if row[5] == account && row[6] == series && (row[4] == 0 || row[4] == 3) {
            let signed = if row[7] % 2 == 1 { row[8] } else { -row[8] };
            quantity += signed;
            value += signed * row[9];
        }
    }
    [quantity, value]
}

/// The tables of `calls`, with the sums over the records in the positions' cells; the position is the one that a trade names.
pub fn measure(samples: usize) -> Vec<Line> {
    let mut lines = Vec::new();
    for rows in [10, 400, 4_000] {
        let (Request::Trade { account, series, .. }, [records, mut positions]) = calls::case(0, rows) else { unreachable!("the request is a trade") };
        for row in 0..positions[0] as usize {
            let at = positions_len(row);
            let totals = sums(&records, positions[at], positions[at + 1]);
            positions[at + POSITION_QUANTITY..=at + POSITION_VALUE].copy_from_slice(&totals);
        }
        let answered = |average: i64| Coded { kind: 0, first: average, second: 0, third: 0 };
        let first = |tables: &mut [Vec<i64>; 2]| answered(from_cells(&tables[1], account, series));
        let second = |tables: &mut [Vec<i64>; 2]| answered(over_records(&tables[0], account, series));
        let tables = [records, positions];
        agree(&tables, "the average entry", first, second);
        let (from_cells, over_records) = take_turns(&tables, 8, samples, first, second);
        lines.push(Line { rows, from_cells, over_records });
    }
    lines
}
