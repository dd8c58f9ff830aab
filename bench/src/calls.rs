//! The time of one call of each kind, on tables of 10, 400 and 4,000 records.

use crate::request::{by_hand, ours, Book, Request, KINDS};
use crate::stats::Spread;
use crate::turns::{agree, take_turns};
use velichundam::{positions_len, records_len};

/// Accounts and series of the positions: row k is account 1 + k / 20, series 1 + k % 20.
fn position_key(k: usize) -> (i64, i64) {
    (1 + k as i64 / 20, 1 + k as i64 % 20)
}

const TODAY: i64 = 30;

/// A request that is accepted, and the tables for it, with so many records, booked over 31 days, and a quarter as many positions. In the middle stands one id with five
/// suffixes, each the parent of the next; the other records are adjustable buys under even ids. What a request names lies in the middle of its table,
/// so that half of the rows move.
pub fn case(kind: usize, rows: usize) -> (Request, [Vec<i64>; 2]) {
    let position_count = (rows / 4).clamp(4, 1_000);
    let singles = rows - 5;
    let family_at = singles / 2;
    let id_of = |k: usize| 1_000 + 2 * k as i64 + if k >= family_at { 2 } else { 0 };
    let family = 1_000 + 2 * family_at as i64;
    let sources = [1, 2, 3, 4].map(|fifth| singles * fifth / 5);
    let mut records = vec![rows as i64, TODAY];
    for k in 0..singles {
        if k == family_at {
            for suffix in 0..5 {
                let status = if suffix < 4 { 1 } else { 0 };
                records.extend([family, suffix, (suffix - 1).max(0), 4 * suffix.min(1), status, 1, 1, 1, 40, 12_500_000, 0, 0, 0, TODAY]);
            }
        }
        let (account, series) = if sources.contains(&k) { (1, 1) } else { position_key(k * 7 % position_count) };
        records.extend([id_of(k), 0, 0, 0, 0, account, series, 1, 30, 12_500_000 + k as i64 % 11, 30, 0, 0, k as i64 % (TODAY + 1)]);
    }
    let mut positions = vec![position_count as i64];
    for k in 0..position_count {
        let (account, series) = position_key(k);
        positions.extend([account, series, 1_000_000, 1_000_000, 0, 0, 0]);
    }
    records.resize(records_len(rows + 16), -1);
    positions.resize(positions_len(position_count + 8), -1);

    let middle = family_at + 1;
    let (account, series) = if sources.contains(&middle) { (1, 1) } else { position_key(middle * 7 % position_count) };
    let (to, _) = position_key((0..position_count).find(|&k| position_key(k).1 == series && position_key(k).0 != account).unwrap_or(0));
    let to = if to == account { account + 1 } else { to };
    let (mid_account, mid_series) = position_key(position_count / 2);
    let request = match kind {
        0 => Request::Trade { id: family + 1, account: mid_account, series: mid_series, side: 1, quantity: 100, price: 12_500_000 },
        1 => Request::Separate { id: id_of(middle), suffix: 0, account, series, parts: vec![15, 10, 5] },
        2 => Request::Transfer { id: id_of(middle), suffix: 0, from: account, to, series },
        3 => Request::Merge { id: family + 1, account: 1, series: 1, pairs: sources.iter().flat_map(|&k| [id_of(k), 0]).collect() },
        _ => Request::Lineage { id: family, suffix: 4 },
    };
    (request, [records, positions])
}

pub struct Line {
    pub kind: usize,
    pub rows: usize,
    pub ours: Spread,
    pub by_hand: Spread,
}

pub fn measure(samples: usize) -> Vec<Line> {
    let mut lines = Vec::new();
    for (rows, copies) in [(10, 64), (400, 8), (4_000, 1)] {
        for kind in 0..KINDS.len() {
            let (request, tables) = case(kind, rows);
            let of = |book: Book| {
                let request = &request;
                move |tables: &mut [Vec<i64>; 2]| {
                    let [records, positions] = tables;
                    book(records, positions, request)
                }
            };
            agree(&tables, &format!("{request:?}"), of(ours), of(by_hand));
            let (ours, by_hand) = take_turns(&tables, copies, samples, of(ours), of(by_hand));
            lines.push(Line { kind, rows, ours, by_hand });
        }
    }
    lines
}
