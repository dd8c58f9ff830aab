//! Journals written and replayed: a day's, one with give-ups over some days, and trades whose rows move none.

use crate::day::{self, Day};
use crate::request::{
    entry_by_hand, entry_of_ours, line_by_hand, line_of_ours, replay_by_hand, replay_of_ours, Coded, Entry, Request, REFUSED, REPLAYED, WRITTEN,
};
use crate::rng::Rng;
use crate::sqlite::SqlBook;
use crate::stats::{spread, Spread};
use peer::Step;
use std::hint::black_box;
use std::time::Instant;
use velichundam::{
    positions_len, processes_len, records_len, CURRENT_DAY, MOST_POSITIONS, MOST_PROCESSES, MOST_RECORDS, PROCESSES_HEADER, PROCESS_CELLS, RECORDS_HEADER,
    RECORD_CELLS,
};

type Tables = [Vec<i64>; 3];

/// The accepted requests of a day from empty tables on, their lines, and the tables at its end.
pub struct Journal {
    name: &'static str,
    entries: Vec<Entry>,
    text: Vec<u8>,
    end: Tables,
}

fn empty_tables() -> Tables {
    [vec![0; records_len(MOST_RECORDS)], vec![0; positions_len(MOST_POSITIONS)], vec![0; processes_len(MOST_PROCESSES)]]
}

impl Journal {
    fn new(name: &'static str, entries: Vec<Entry>) -> Journal {
        let mut end = empty_tables();
        for entry in &entries {
            assert!(entry_by_hand(&mut end, entry).kind != REFUSED, "{entry:?}");
        }
        let mut text = vec![0; 100 * entries.len()];
        let len = write(&mut text, &entries, line_by_hand);
        text.truncate(len);
        Journal { name, entries, text, end }
    }

    /// The requests of which the entries are made, where there is no step and no day among them.
    fn requests(&self) -> Option<Vec<&Request>> {
        let requests = self.entries.iter().map(|entry| match entry {
            Entry::Request(request) => Some(request),
            Entry::Step(..) | Entry::Day(_) => None,
        });
        requests.collect()
    }
}

/// Writes the entries' lines one after the other: how many bytes they take.
fn write(text: &mut [u8], entries: &[Entry], line: fn(&mut [u8], &Entry) -> Coded) -> usize {
    let mut end = 0;
    for entry in entries {
        let answer = line(&mut text[end..], entry);
        assert!(answer.kind == WRITTEN, "{entry:?}");
        end += answer.first as usize;
    }
    end
}

pub fn all() -> [Journal; 3] {
    let day = Day::new(1).bookings().requests.into_iter();
    let trade = |k: i64| Request::Trade {
        id: 100_000 + k,
        account: 1 + k % 40,
        series: 1 + k % 12,
        side: 1 + k % 4,
        quantity: 3 + k % 200,
        price: 12_500_000 + 37 * k,
    };
    [
        Journal::new("day", day.map(Entry::Request).collect()),
        Journal::new("days and give-ups", with_give_ups(2)),
        Journal::new("trades, rising", (0..3_900).map(|k| Entry::Request(trade(k))).collect()),
    ]
}

/// Draws requests, steps and now and then a new day, and keeps the accepted ones, until the book has about 3,900 records.
fn with_give_ups(seed: u64) -> Vec<Entry> {
    let mut rng = Rng(seed);
    let mut tables = empty_tables();
    let mut entries = Vec::new();
    while tables[0][0] < 3_900 {
        let entry = match rng.below(300) {
            0 => Some(Entry::Day(tables[0][CURRENT_DAY] + 1)),
            1..200 => step(&mut rng, &tables),
            _ => None,
        };
        let entry = entry.unwrap_or_else(|| Entry::Request(day::draw(&mut rng, &tables[0])));
        let accepted = entry_by_hand(&mut tables, &entry).kind != REFUSED;
        if accepted && !matches!(entry, Entry::Request(Request::Lineage { .. })) {
            entries.push(entry);
        }
    }
    entries
}

/// The next step of a process, or the opening of one, while there is room.
fn step(rng: &mut Rng, tables: &Tables) -> Option<Entry> {
    let (processes, _) = tables[2][PROCESSES_HEADER..].as_chunks::<PROCESS_CELLS>();
    let pending: Vec<&[i64; PROCESS_CELLS]> = processes[..tables[2][0] as usize].iter().filter(|row| row[8] == 6 || row[8] == 9).collect();
    if pending.len() > 20 || (!pending.is_empty() && rng.below(4) > 0) {
        let [names @ .., giver, _, stage] = *pending[rng.below(pending.len())];
        let step = match (stage, giver) {
            (6, 0) if rng.below(2) == 0 => Step::ApproveGiver,
            (6, _) if rng.below(8) == 0 => Step::Cancel,
            (6, _) if rng.below(8) == 0 => Step::Refuse,
            (6, _) => Step::Claim,
            (_, 0) => Step::ApproveGiver,
            _ => Step::ApproveTaker,
        };
        return Some(Entry::Step(step, names));
    }
    let (records, _) = tables[0][RECORDS_HEADER..].as_chunks::<RECORD_CELLS>();
    let open: Vec<&[i64; RECORD_CELLS]> = records[..tables[0][0] as usize].iter().filter(|row| row[4] == 0 && row[7] < 3).collect();
    if open.is_empty() || tables[2][0] as usize == MOST_PROCESSES {
        return None;
    }
    let row = open[rng.below(open.len())];
    Some(Entry::Step(Step::Open, [1 + rng.below(900_000) as i64, row[0], row[1], row[5], 41 + rng.below(20) as i64, row[6]]))
}

pub struct Replayed {
    pub name: &'static str,
    pub lines: usize,
    pub ours: Spread,
    pub by_hand: Spread,
    /// Medians.
    pub by_calls: f64,
    pub sqlite: Option<f64>,
}

/// The ways to book a journal on lent tables: whether all its lines are booked.
const WAYS: [fn(&mut Tables, &Journal) -> bool; 3] = [
    |tables, journal| is_whole(replay_of_ours(tables, black_box(&journal.text)), journal),
    |tables, journal| is_whole(replay_by_hand(tables, black_box(&journal.text)), journal),
    |tables, journal| journal.entries.iter().all(|entry| entry_of_ours(tables, black_box(entry)).kind != REFUSED),
];

fn is_whole(answer: Coded, journal: &Journal) -> bool {
    answer == Coded { kind: REPLAYED, first: journal.entries.len() as i64, second: 0, third: 0 }
}

pub fn measure_replays(journals: &[Journal], samples: usize, mut sql: Option<SqlBook>) -> Vec<Replayed> {
    let mut lines = Vec::new();
    for journal in journals {
        let mut runs = [const { Vec::new() }; 3];
        let mut of_sql = Vec::new();
        let (mut tables, empty) = (empty_tables(), empty_tables());
        for k in 0..samples {
            // Each goes first in turn.
            for way in (0..WAYS.len()).map(|way| (way + k) % WAYS.len()) {
                for (table, cells) in tables.iter_mut().zip(&empty) {
                    table.copy_from_slice(cells);
                }
                let began = Instant::now();
                let whole = WAYS[way](black_box(&mut tables), journal);
                runs[way].push(began.elapsed().as_nanos() as f64 / journal.entries.len() as f64);
                assert!(whole, "{}: not all lines are booked", journal.name);
                assert!(tables == journal.end, "{}: the tables ended with other cells", journal.name);
            }
            of_sql.extend(sql.as_mut().and_then(|book| sample_sql(journal, book)));
        }
        let [ours, by_hand, by_calls] = runs.map(spread);
        let sqlite = (!of_sql.is_empty()).then(|| spread(of_sql).median);
        lines.push(Replayed { name: journal.name, lines: journal.entries.len(), ours, by_hand, by_calls: by_calls.median, sqlite });
    }
    lines
}

/// Nanoseconds a line, where SQLite's book has all of the requests.
fn sample_sql(journal: &Journal, book: &mut SqlBook) -> Option<f64> {
    let requests = journal.requests()?;
    book.clear();
    let began = Instant::now();
    let done = book.handle_all(black_box(requests));
    let time = began.elapsed().as_nanos() as f64 / journal.entries.len() as f64;
    assert_eq!(done, journal.entries.len());
    let (records, positions) = book.cells();
    assert!(journal.end[0].starts_with(&records) && journal.end[1].starts_with(&positions), "{}: SQLite ended with other rows", journal.name);
    Some(time)
}

pub struct Written {
    pub name: &'static str,
    pub lines: usize,
    pub ours: Spread,
    pub by_hand: Spread,
}

pub fn measure_writing(journals: &[Journal], samples: usize) -> Vec<Written> {
    let written = |journal: &Journal| {
        let mut text = vec![0; journal.text.len() + 1_000];
        let mut runs = [const { Vec::new() }; 2];
        for k in 0..2 * samples {
            // They take turns, and each goes first in every other pair.
            let way = (k + k / 2) % 2;
            let began = Instant::now();
            let len = write(black_box(&mut text), black_box(&journal.entries), [line_of_ours, line_by_hand][way]);
            runs[way].push(began.elapsed().as_nanos() as f64 / journal.entries.len() as f64);
            assert!(text[..len] == journal.text, "{}: other lines were written", journal.name);
        }
        let [ours, by_hand] = runs.map(spread);
        Written { name: journal.name, lines: journal.entries.len(), ours, by_hand }
    };
    journals.iter().map(written).collect()
}
