//! The end of a day: its reporting list, and the move to the next day.

use crate::day;
use crate::request::{by_hand, day_by_hand, day_of_ours, list_by_hand, list_of_ours, Coded, LISTED, REFUSED};
use crate::rng::Rng;
use crate::sqlite::SqlBook;
use crate::stats::{spread, Spread};
use std::hint::black_box;
use std::time::Instant;
use velichundam::{pairs_len, positions_len, records_len, CURRENT_DAY, MOST_POSITIONS, MOST_RECORDS, RECORDS_HEADER, RECORD_CELLS, RECORD_DAY};

pub struct Line {
    pub call: &'static str,
    pub rows: usize,
    pub of_the_day: usize,
    pub listed: usize,
    pub ours: Spread,
    pub by_hand: Spread,
    /// A median.
    pub sqlite: Option<f64>,
}

/// Records of about so many rows, booked by drawn requests, of which about so many belong to the current day.
fn records(rows: usize, of_the_day: usize) -> Vec<i64> {
    let mut rng = Rng(rows as u64);
    let (mut records, mut positions) = (vec![0; records_len(MOST_RECORDS)], vec![0; positions_len(MOST_POSITIONS)]);
    for (day, until) in [(17, rows - of_the_day), (18, rows)] {
        assert!(day_by_hand(&mut records, day).kind != REFUSED);
        while (records[0] as usize) < until {
            let request = day::draw(&mut rng, &records);
            by_hand(&mut records, &mut positions, &request);
        }
    }
    records
}

pub fn measure(samples: usize, mut sql: Option<SqlBook>) -> Vec<Line> {
    if let Some(book) = &mut sql {
        book.index_days();
    }
    let mut lines = Vec::new();
    for (rows, of_the_day) in [(400, 40), (400, 400), (4_000, 400), (4_000, 4_000)] {
        let records = records(rows, of_the_day);
        if let Some(book) = &mut sql {
            book.load(&records, &[0]);
        }
        lines.push(lists(samples, &records, &mut sql));
        lines.push(days(samples, records, &mut sql));
    }
    lines
}

/// How many records, and how many of them are of the current day.
fn counts(records: &[i64]) -> (usize, usize) {
    let rows = records[RECORDS_HEADER..].chunks_exact(RECORD_CELLS).take(records[0] as usize);
    (rows.len(), rows.filter(|row| row[RECORD_DAY] == records[CURRENT_DAY]).count())
}

fn time(call: impl FnOnce() -> Coded) -> f64 {
    let began = Instant::now();
    black_box(call());
    began.elapsed().as_nanos() as f64
}

fn lists(samples: usize, records: &[i64], sql: &mut Option<SqlBook>) -> Line {
    let mut pairs = vec![-1; pairs_len(MOST_RECORDS)];
    let answer = list_of_ours(records, &mut pairs);
    assert_eq!(answer.kind, LISTED);
    let same = |call: &mut dyn FnMut(&mut [i64]) -> Coded| {
        let mut other = vec![-1; pairs_len(MOST_RECORDS)];
        assert!(call(&mut other) == answer && other == pairs, "the lists differ");
    };
    same(&mut |pairs| list_by_hand(records, pairs));
    if let Some(book) = sql {
        same(&mut |pairs| book.reportable(pairs));
    }
    let ways = [list_of_ours, list_by_hand];
    let mut runs = [const { Vec::new() }; 3];
    for k in 0..samples {
        // Each goes first in turn.
        for way in [k % 2, (k + 1) % 2] {
            runs[way].push(time(|| ways[way](black_box(records), black_box(&mut pairs))));
        }
        runs[2].extend(sql.as_mut().map(|book| time(|| book.reportable(black_box(&mut pairs)))));
    }
    line("list", records, answer.first as usize, runs)
}

/// Each move is to the next day, on copies of the records; the day is set back before each.
fn days(samples: usize, mut records: Vec<i64>, sql: &mut Option<SqlBook>) -> Line {
    let before = records.clone();
    let (today, listed) = (records[CURRENT_DAY], list_of_ours(&records, &mut vec![0; pairs_len(MOST_RECORDS)]).first);
    let ways = [day_of_ours, day_by_hand];
    let mut runs = [const { Vec::new() }; 3];
    for k in 0..samples {
        for way in [k % 2, (k + 1) % 2] {
            records[CURRENT_DAY] = today;
            runs[way].push(time(|| ways[way](black_box(&mut records), today + 1)));
            assert!(records[CURRENT_DAY] == today + 1 && records[RECORDS_HEADER..] == before[RECORDS_HEADER..], "other cells after a new day");
        }
        // SQLite's day goes on.
        runs[2].extend(sql.as_mut().map(|book| time(|| book.new_day(today + 1 + k as i64))));
    }
    line("new day", &before, listed as usize, runs)
}

fn line(call: &'static str, records: &[i64], listed: usize, runs: [Vec<f64>; 3]) -> Line {
    let (rows, of_the_day) = counts(records);
    let [ours, by_hand, sqlite] = runs;
    let sqlite = (!sqlite.is_empty()).then(|| spread(sqlite).median);
    Line { call, rows, of_the_day, listed, ours: spread(ours), by_hand: spread(by_hand), sqlite }
}
