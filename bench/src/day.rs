//! A day's bookings, from an empty book on: the same list of requests for each way to keep it.

use crate::request::{by_hand, ours, Book, Coded, Request, KINDS, REFUSED};
use crate::rng::Rng;
use crate::sqlite::SqlBook;
use std::time::Instant;
use velichundam::{positions_len, records_len, MOST_POSITIONS, MOST_RECORDS, RECORDS_HEADER, RECORD_CELLS};

pub struct Day {
    pub requests: Vec<Request>,
    pub answers: Vec<Coded>,
    /// The tables at its end.
    pub records: Vec<i64>,
    pub positions: Vec<i64>,
}

fn empty_tables() -> (Vec<i64>, Vec<i64>) {
    (vec![0; records_len(MOST_RECORDS)], vec![0; positions_len(MOST_POSITIONS)])
}

impl Day {
    /// Draws requests and keeps the accepted ones, until the book has about 3,900 records.
    pub fn new(seed: u64) -> Day {
        let mut rng = Rng(seed);
        let (mut records, mut positions) = empty_tables();
        let (mut requests, mut answers) = (Vec::new(), Vec::new());
        while records[0] < 3_900 {
            let request = draw(&mut rng, &records);
            let answer = by_hand(&mut records, &mut positions, &request);
            if answer.kind != REFUSED {
                requests.push(request);
                answers.push(answer);
            }
        }
        Day { requests, answers, records, positions }
    }

    /// The same day without its questions of lineage, which change nothing.
    pub fn bookings(self) -> Day {
        let Day { requests, answers, records, positions } = self;
        let pairs = requests.into_iter().zip(answers).filter(|(request, _)| !matches!(request, Request::Lineage { .. }));
        let (requests, answers) = pairs.unzip();
        Day { requests, answers, records, positions }
    }

    /// Runs the day on lent tables: nanoseconds spent on each kind of request.
    fn on_tables(&self, book: Book) -> [f64; 5] {
        let (mut records, mut positions) = empty_tables();
        let mut spent = [0.0; 5];
        for (request, expected) in self.requests.iter().zip(&self.answers) {
            let began = Instant::now();
            let answer = book(&mut records, &mut positions, request);
            spent[request.kind()] += began.elapsed().as_nanos() as f64;
            assert_eq!(answer, *expected, "{request:?}");
        }
        assert!(records == self.records && positions == self.positions, "the day ended with other cells");
        spent
    }

    fn on_sql(&self, book: &mut SqlBook) -> [f64; 5] {
        book.clear();
        let mut spent = [0.0; 5];
        for (request, expected) in self.requests.iter().zip(&self.answers) {
            let began = Instant::now();
            let answer = book.handle(request);
            spent[request.kind()] += began.elapsed().as_nanos() as f64;
            assert_eq!(answer, *expected, "{request:?}");
        }
        let (records, positions) = book.cells();
        assert!(self.records.starts_with(&records) && self.positions.starts_with(&positions), "the day ended with other rows in SQLite");
        spent
    }

    pub fn counts(&self) -> [usize; 5] {
        let mut counts = [0; 5];
        for request in &self.requests {
            counts[request.kind()] += 1;
        }
        counts
    }

    /// For each kind, and last for the whole day, the nanoseconds of each run: ours, by hand, and SQLite's where it is installed.
    pub fn measure(&self, days: usize, mut sql: Option<SqlBook>) -> Vec<[Vec<f64>; 3]> {
        let mut lines = vec![[Vec::new(), Vec::new(), Vec::new()]; KINDS.len() + 1];
        for _ in 0..days {
            let mut runs = vec![self.on_tables(ours), self.on_tables(by_hand)];
            if let Some(book) = &mut sql {
                runs.push(self.on_sql(book));
            }
            for (way, spent) in runs.into_iter().enumerate() {
                for (kind, nanoseconds) in spent.into_iter().enumerate() {
                    lines[kind][way].push(nanoseconds);
                }
                lines[KINDS.len()][way].push(spent.iter().sum());
            }
        }
        lines
    }
}

pub fn draw(rng: &mut Rng, records: &[i64]) -> Request {
    let (rows, _) = records[RECORDS_HEADER..].as_chunks::<RECORD_CELLS>();
    let rows = &rows[..records[0] as usize];
    let pick = |likes: &dyn Fn(&[i64; RECORD_CELLS]) -> bool, rng: &mut Rng| {
        let liked: Vec<&[i64; RECORD_CELLS]> = rows.iter().filter(|row| row[4] == 0 && likes(row)).collect();
        (!liked.is_empty()).then(|| *liked[rng.below(liked.len())])
    };
    let new_id = 1 + rng.below(900_000) as i64;
    let trade = |rng: &mut Rng| Request::Trade {
        id: new_id,
        account: 1 + rng.below(40) as i64,
        series: 1 + rng.below(12) as i64,
        side: 1 + rng.below(4) as i64,
        quantity: 3 + rng.below(200) as i64,
        price: 12_500_000 + rng.below(100_000) as i64,
    };
    let chosen = rng.below(10);
    match chosen {
        5 => match pick(&|row| row[8] > 2, rng) {
            Some(row) => {
                let part = row[8] / 3;
                Request::Separate { id: row[0], suffix: row[1], account: row[5], series: row[6], parts: vec![part, part, row[8] - 2 * part] }
            }
            None => trade(rng),
        },
        6 | 7 => match pick(&|row| row[7] < 3, rng) {
            Some(row) => Request::Transfer { id: row[0], suffix: row[1], from: row[5], to: 1 + rng.below(40) as i64, series: row[6] },
            None => trade(rng),
        },
        8 => match pick(&|row| row[7] < 3, rng) {
            Some(row) => {
                let alike = rows.iter().filter(|other| other[4] == 0 && other[5..8] == row[5..8]);
                Request::Merge { id: new_id, account: row[5], series: row[6], pairs: alike.take(4).flat_map(|other| [other[0], other[1]]).collect() }
            }
            None => trade(rng),
        },
        9 if !rows.is_empty() => {
            let row = rows[rng.below(rows.len())];
            Request::Lineage { id: row[0], suffix: row[1] }
        }
        _ => trade(rng),
    }
}
