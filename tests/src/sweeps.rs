//! The fixed part of a run: every figure and every cell at the ends of the ranges, every length of a slice around the limits, and full tables.

use crate::checker::Checker;
use crate::draw::{figures, set_figure, ENDS};
use crate::tables::{positions_len, records_len, Tables, MOST_POSITIONS, MOST_RECORDS, POSITION_CELLS, RECORD_CELLS};
use model::{Reply, Request};

/// A small pair of tables on which each of `accepted` is accepted. The current day is 30; record 7 was separated on it, and booked the day before.
pub fn small() -> Tables {
    let mut records = vec![
        6, 30, //
        5, 0, 0, 0, 0, 1, 1, 1, 10, 100, 10, 0, 0, 7, //
        7, 0, 0, 0, 1, 1, 1, 1, 20, 103, 20, 0, 0, 29, //
        7, 1, 0, 6, 2, 1, 1, 1, -20, 103, 0, 0, 0, 30, //
        7, 2, 0, 6, 0, 1, 1, 1, 15, 103, 0, 0, 0, 30, //
        7, 3, 0, 6, 0, 1, 1, 1, 5, 103, 0, 0, 0, 30, //
        9, 0, 0, 10, 0, 3, 2, 4, 8, -7, 0, 8, 0, 30,
    ];
    records.extend((0..RECORD_CELLS as i64 * 6 + 5).map(|k| -1_000 - k));
    let mut positions = vec![
        3, //
        1, 1, 30, 4, -2, 30, 3_060, //
        3, 1, 0, 0, 0, 0, 0, //
        3, 2, 0, 8, 1, -8, 56,
    ];
    positions.extend((0..POSITION_CELLS as i64 * 2 + 3).map(|k| -2_000 - k));
    Tables::without_processes(records, positions)
}

pub fn accepted() -> Vec<Request> {
    vec![
        Request::Trade { id: 8, account: 2, series: 1, side: 1, quantity: 3, price: 99 },
        Request::Trade { id: 6, account: 1, series: 1, side: 3, quantity: 5, price: -99 },
        Request::Separate { id: 7, suffix: 2, account: 1, series: 1, parts: vec![5, 4, 6] },
        Request::Transfer { id: 7, suffix: 3, from: 1, to: 2, series: 1 },
        Request::Merge { id: 6, account: 1, series: 1, pairs: vec![7, 3, 5, 0, 7, 2] },
        Request::Lineage { id: 7, suffix: 3 },
        Request::Trades { figures: vec![8, 2, 1, 1, 3, 99, 6, 1, 1, 4, 35, -99, 10, 2, 1, 4, 2, 0], cells: 4 },
        Request::NewDay { day: 31 },
        Request::Reportable { cells: 9 },
    ]
}

pub fn run(checker: &mut Checker) {
    for request in accepted() {
        assert!(!matches!(checker.ask(&small(), &request).reply, Reply::Refused { .. } | Reply::Stopped { .. }), "{request:?}");
    }
    every_figure(checker);
    every_cell(checker);
    every_length(checker);
    list_lengths(checker);
    last_suffixes(checker);
    full_tables(checker);
    every_place(checker);
    deep_lineage(checker);
    ends_of_averages(checker);
}

/// Each figure of each request at each end.
fn every_figure(checker: &mut Checker) {
    for request in accepted() {
        for which in 0..figures(&request) {
            for end in ENDS {
                let mut request = request.clone();
                set_figure(&mut request, which, end);
                checker.ask(&small(), &request);
            }
        }
    }
}

/// Each cell of both tables at each end, for each request.
fn every_cell(checker: &mut Checker) {
    for request in accepted() {
        let tables = small();
        for end in ENDS {
            for cell in 0..records_len(6) {
                let mut tables = tables.clone();
                tables.records[cell] = end;
                checker.ask(&tables, &request);
            }
            for cell in 0..positions_len(3) {
                let mut tables = tables.clone();
                tables.positions[cell] = end;
                checker.ask(&tables, &request);
            }
        }
    }
}

/// Each length of either slice, with each count.
fn every_length(checker: &mut Checker) {
    for request in accepted() {
        let tables = small();
        for len in 0..tables.records.len() {
            for count in [-1, 0, 1, 2, 3, 5, 6, 7] {
                let mut tables = tables.clone();
                tables.records[0] = count;
                tables.records.truncate(len);
                checker.ask(&tables, &request);
            }
        }
        for len in 0..tables.positions.len() {
            for count in [-1, 0, 1, 2, 3, 4, 5, 6] {
                let mut tables = tables.clone();
                tables.positions[0] = count;
                tables.positions.truncate(len);
                checker.ask(&tables, &request);
            }
        }
    }
}

/// A records table of so many adjustable buys of 1 in account 1, series 1, under ids from 10 on, of days up to 8, the current one, and one position that holds
/// them.
pub fn many(rows: usize, room: usize, quantity: i64) -> Tables {
    let mut records = vec![rows as i64, 8];
    for k in 0..rows as i64 {
        records.extend([10 + k, 0, 0, 0, 0, 1, 1, 1, quantity, 50 + k % 7, quantity, 0, 0, k % 9]);
    }
    records.extend(vec![-9; (room - rows) * RECORD_CELLS + 6]);
    Tables::without_processes(records, vec![1, 1, 1, 1_000_000, 0, 0, 5, -6, -9, -9, -9, -9, -9, -9, -9])
}

/// Parts and pairs of every length around 2 and 1,000.
fn list_lengths(checker: &mut Checker) {
    for quantity in [3, 1_000, 1_001] {
        for count in (0..6).chain(997..1_004) {
            let mut parts = vec![1; count];
            if let Some(last) = parts.last_mut() {
                *last = quantity - (count as i64 - 1);
            }
            checker.ask(&many(3, 1_010, quantity), &Request::Separate { id: 11, suffix: 0, account: 1, series: 1, parts });
        }
    }
    let tables = many(1_003, 2_010, 1);
    for cells in (0..8).chain(1_996..2_005) {
        let pairs: Vec<i64> = (0..cells as i64).map(|k| if k % 2 == 0 { 1_012 - k / 2 } else { 0 }).collect();
        checker.ask(&tables, &Request::Merge { id: 5, account: 1, series: 1, pairs: pairs.clone() });
        checker.ask(&tables, &Request::Merge { id: 500_000, account: 1, series: 1, pairs });
    }
}

/// The suffix 65,535 is reached and not passed.
fn last_suffixes(checker: &mut Checker) {
    for greatest in 65_528..=65_535 {
        let records = [
            vec![3, 5, 4, 0, 0, 0, 0, 1, 1, 1, 6, 10, 6, 0, 0, 4],
            vec![4, greatest - 1, 0, 6, 0, 1, 1, 1, 6, 10, 0, 0, 0, 4],
            vec![4, greatest, 0, 6, 0, 1, 1, 1, 6, 10, 0, 0, 0, 5],
        ];
        let mut tables = Tables::without_processes(records.concat(), vec![1, 1, 1, 99, 0, 0, 18, 180, 0, 0, 0, 0, 0, 0, 0]);
        tables.records.extend(vec![3; RECORD_CELLS * 9]);
        for count in 2..=6 {
            let mut parts = vec![1; count];
            parts[0] = 6 - (count as i64 - 1);
            checker.ask(&tables, &Request::Separate { id: 4, suffix: greatest, account: 1, series: 1, parts });
        }
        checker.ask(&tables, &Request::Transfer { id: 4, suffix: 0, from: 1, to: 2, series: 1 });
        checker.ask(&tables, &Request::Merge { id: 3, account: 1, series: 1, pairs: vec![4, 0, 4, greatest] });
        checker.ask(&tables, &Request::Merge { id: 5, account: 1, series: 1, pairs: vec![4, 0, 4, greatest, 4, greatest - 1] });
        checker.ask(&tables, &Request::Lineage { id: 4, suffix: greatest });
    }
}

/// Tables at 4,096 and 1,024 rows, in slices that are just long enough, shorter and longer.
fn full_tables(checker: &mut Checker) {
    for spare in [0, RECORD_CELLS - 1, RECORD_CELLS, RECORD_CELLS + 1, 40] {
        for count in [4_090, 4_091, 4_092, 4_093, 4_094, 4_095, 4_096, 4_097] {
            let mut tables = many(4_098, 4_100, 4);
            tables.records[0] = count;
            tables.records.truncate(records_len(MOST_RECORDS) + spare);
            checker.ask(&tables, &Request::Trade { id: 9_000, account: 1, series: 1, side: 2, quantity: 1, price: 1 });
            checker.ask(&tables, &Request::Trade { id: 9, account: 1, series: 1, side: 2, quantity: 1, price: 1 });
            checker.ask(&tables, &Request::Separate { id: 2_000, suffix: 0, account: 1, series: 1, parts: vec![1, 2, 1] });
            checker.ask(&tables, &Request::Transfer { id: 2_000, suffix: 0, from: 1, to: 2, series: 1 });
            checker.ask(&tables, &Request::Merge { id: 9, account: 1, series: 1, pairs: vec![2_000, 0, 10, 0] });
            checker.ask(&tables, &Request::Lineage { id: 2_000, suffix: 0 });
        }
    }
    for spare in [0, POSITION_CELLS - 1, POSITION_CELLS, POSITION_CELLS + 1, 50] {
        for count in [1_022, 1_023, 1_024, 1_025] {
            let mut tables = many(5, 20, 4);
            tables.positions = vec![count];
            for k in 0..1_026 {
                tables.positions.extend([1 + k / 400, 1 + 2 * (k % 400), 1_000, 5, k, -k, 7 * k]);
            }
            tables.positions.truncate(positions_len(MOST_POSITIONS) + spare);
            for series in [1, 2, 800] {
                checker.ask(&tables, &Request::Trade { id: 9, account: 1, series, side: 4, quantity: 1_001, price: 1 });
            }
            checker.ask(&tables, &Request::Transfer { id: 12, suffix: 0, from: 1, to: 2, series: 1 });
            checker.ask(&tables, &Request::Transfer { id: 12, suffix: 0, from: 1, to: 7, series: 1 });
            checker.ask(&tables, &Request::Merge { id: 9, account: 1, series: 1, pairs: vec![13, 0, 10, 0] });
        }
    }
    // The limits are reached by booking.
    let mut tables = many(4_000, 4_110, 4);
    for id in 4_010..4_112 {
        checker.call(&mut tables, &Request::Trade { id, account: 1, series: 1, side: 1 + id % 4, quantity: id, price: 1 });
    }
    let mut tables = many(5, 40, 4);
    tables.positions = vec![1_020];
    for k in 0..1_020 {
        tables.positions.extend([3, 10 + k, 0, 0, 0, 0, 0]);
    }
    tables.positions.extend(vec![77; POSITION_CELLS * 12 + 1]);
    for k in 0..8 {
        checker.call(&mut tables, &Request::Trade { id: 1 + k, account: 4 - k % 2 * 2, series: 20 - k, side: 1 + k % 4, quantity: 5, price: 1 });
    }
}

/// Each place of records and positions in tables of few rows, and the places around each power of two in a table of 4,095 and of 4,096 rows: a trade that belongs there, and the
/// lineage of the record before it.
fn every_place(checker: &mut Checker) {
    let of_places = |rows: i64| {
        let mut tables = many(rows as usize, rows as usize + 1, 1);
        for k in 0..rows as usize {
            tables.records[records_len(k)] = 2 + 2 * k as i64;
        }
        tables.positions = vec![rows];
        tables.positions.extend((0..rows).flat_map(|k| [1 + k / 9, 2 + 2 * (k % 9), 5, 5, k, -k, 7 * k]));
        tables.positions.extend([-9; POSITION_CELLS]);
        tables
    };
    for rows in 0..=66 {
        let tables = of_places(rows);
        for place in 0..=rows {
            let (account, series) = (1 + place / 9, 1 + 2 * (place % 9));
            checker.ask(&tables, &Request::Trade { id: 1 + 2 * place, account, series, side: 1, quantity: 1, price: 1 });
            checker.ask(&tables, &Request::Trade { id: 1 + 2 * place, account, series: series + 1, side: 4, quantity: 7, price: 1 });
            checker.ask(&tables, &Request::Lineage { id: 2 * place, suffix: 0 });
        }
    }
    for rows in [4_095, 4_096] {
        let mut tables = of_places(rows);
        tables.positions = small().positions;
        for power in 0..=12 {
            for place in [1 << power, rows - (1 << power)].into_iter().flat_map(|p| p - 1..=p + 1).filter(|p| (0..=rows).contains(p)) {
                checker.ask(&tables, &Request::Trade { id: 1 + 2 * place, account: 1, series: 1, side: 1, quantity: 1, price: 1 });
                checker.ask(&tables, &Request::Lineage { id: 2 * place, suffix: 0 });
            }
        }
    }
}

/// A record separated again and again: every suffix's lineage.
fn deep_lineage(checker: &mut Checker) {
    let mut tables = many(1, 200, 70);
    let mut suffix = 0;
    for quantity in (12..=70).rev() {
        let request = Request::Separate { id: 10, suffix, account: 1, series: 1, parts: vec![1, quantity - 1] };
        assert!(matches!(checker.call(&mut tables, &request).reply, Reply::Booked { .. }), "{request:?}");
        suffix += 3;
    }
    for suffix in 0..=suffix + 1 {
        checker.ask(&tables, &Request::Lineage { id: 10, suffix });
    }
    // A parent row that is missing, the original's among them.
    let rows: Vec<Vec<i64>> = tables.record_rows().map(<[i64]>::to_vec).collect();
    for gone in [0, 1, 2, 60, rows.len() - 1] {
        let mut cells = vec![rows.len() as i64 - 1, tables.today()];
        cells.extend(rows.iter().enumerate().filter(|(k, _)| *k != gone).flat_map(|(_, row)| row.clone()));
        let holed = Tables::without_processes(cells, vec![]);
        for suffix in (0..suffix).step_by(7) {
            checker.ask(&holed, &Request::Lineage { id: 10, suffix });
        }
    }
}

/// Merges whose value is at the ends, and every remainder of small ones: averages above, below and at a half.
fn ends_of_averages(checker: &mut Checker) {
    let merge = |checker: &mut Checker, side: i64, sources: &[(i64, i64)], cash: i64| {
        let mut tables = Tables::without_processes(vec![sources.len() as i64, 2], vec![1, 1, 1, 0, 0, cash, 3, -cash, 4, 4, 4, 4, 4, 4, 4]);
        for (k, (quantity, price)) in sources.iter().enumerate() {
            tables.records.extend([20 + k as i64, 0, 0, 0, 0, 1, 1, side, *quantity, *price, 0, 0, 0, k as i64 % 3]);
        }
        tables.records.extend(vec![6; RECORD_CELLS * (sources.len() + 1)]);
        let pairs = (0..sources.len() as i64).flat_map(|k| [20 + k, 0]).collect();
        checker.ask(&tables, &Request::Merge { id: 22, account: 1, series: 1, pairs });
        let pairs = (0..sources.len() as i64).rev().flat_map(|k| [20 + k, 0]).collect();
        checker.ask(&tables, &Request::Merge { id: 19, account: 1, series: 1, pairs });
    };
    let far = 1_000_000_000_000;
    for side in [1, 2] {
        for first in 1..=5 {
            for second in 1..=5 {
                for price in -4..=4 {
                    merge(checker, side, &[(first, price), (second, 0)], 0);
                }
            }
        }
        for (first, second) in [(1, 999_999), (500_000, 500_000), (499_999, 500_001), (999_999, 1), (999_998, 1), (1_000_000, 1), (333_333, 666_666)] {
            for (a, b) in [(far, far), (-far, -far), (far, -far), (-far, far), (far - 1, far), (1 - far, -far), (0, -1), (1, 0)] {
                for cash in
                    [0, 1_000_000_000_000_000, -1_000_000_000_000_000, 999_999_999_999_999, 999_999_999_500_000, -999_999_999_500_000, -999_999_999_500_001]
                {
                    merge(checker, side, &[(first, a), (second, b)], cash);
                }
            }
        }
    }
}
