//! 1,000 trades in one call, into an empty book and into one of 3,000 records, against the same trades one by one.

use crate::request::{one_by_one, trades_by_hand, trades_of_ours, Coded, TradesBook};
use crate::rng::Rng;
use crate::sqlite::SqlBook;
use crate::stats::{spread, Spread};
use std::hint::black_box;
use std::time::Instant;
use velichundam::{positions_len, records_len, MOST_POSITIONS, MOST_RECORDS, MOST_TRADES};

const WAYS: [TradesBook; 3] = [trades_of_ours, one_by_one, trades_by_hand];

/// A list of trades that is booked whole on these tables.
struct Case {
    trades: Vec<i64>,
    records: Vec<i64>,
    positions: Vec<i64>,
}

/// Account and series, of some 480 positions.
fn position_key(rng: &mut Rng) -> (i64, i64) {
    (1 + rng.below(40) as i64, 1 + rng.below(12) as i64)
}

const TODAY: i64 = 30;

/// Tables with so many records, adjustable buys under even ids, and the 480 positions, where there are records. Rising ids come after all of the
/// table's, as a morning's do; shuffled ones are odd, lie all over the table and come in any order.
fn case(rows: usize, shuffled: bool) -> Case {
    let mut rng = Rng(rows as u64);
    let (mut records, mut positions) = (vec![rows as i64, TODAY], vec![0]);
    for k in 0..rows as i64 {
        let (account, series) = position_key(&mut rng);
        records.extend([1_000 + 2 * k, 0, 0, 0, 0, account, series, 1, 30, 12_500_000 + k % 11, 30, 0, 0, k % (TODAY + 1)]);
    }
    if rows > 0 {
        positions[0] = 480;
        positions.extend((0..480).flat_map(|k| [1 + k / 12, 1 + k % 12, 1_000, 1_000, 0, 0, 0]));
    }
    records.resize(records_len(MOST_RECORDS), -1);
    positions.resize(positions_len(MOST_POSITIONS), -1);

    let step = 2 * (rows / MOST_TRADES).max(1) as i64;
    let mut ids: Vec<i64> = (0..MOST_TRADES as i64).map(|k| if shuffled { 1_001 + step * k } else { 1_000_001 + k }).collect();
    for k in (1..ids.len()).rev().filter(|_| shuffled) {
        ids.swap(k, rng.below(k + 1));
    }
    let mut trade = |id: i64| {
        let (account, series) = position_key(&mut rng);
        [id, account, series, 1 + rng.below(4) as i64, 3 + rng.below(200) as i64, 12_500_000 + rng.below(100_000) as i64]
    };
    Case { trades: ids.into_iter().flat_map(&mut trade).collect(), records, positions }
}

/// The tables that a sample works on, and the cells for the excesses.
struct Copy {
    records: Vec<i64>,
    positions: Vec<i64>,
    excess: Vec<i64>,
}

impl Copy {
    fn new(case: &Case) -> Copy {
        Copy { records: case.records.clone(), positions: case.positions.clone(), excess: vec![-1; MOST_TRADES] }
    }

    /// Restores the tables, and then times the list: nanoseconds a trade.
    fn sample(&mut self, case: &Case, book: TradesBook) -> f64 {
        self.records.copy_from_slice(&case.records);
        self.positions.copy_from_slice(&case.positions);
        let began = Instant::now();
        black_box(book(black_box(&mut self.records), black_box(&mut self.positions), black_box(&case.trades), black_box(&mut self.excess)));
        began.elapsed().as_nanos() as f64 / MOST_TRADES as f64
    }
}

fn sample_sql(case: &Case, book: &mut SqlBook) -> f64 {
    let mut excess = vec![-1; MOST_TRADES];
    book.load(&case.records, &case.positions);
    let began = Instant::now();
    black_box(book.trades(&case.trades, &mut excess));
    began.elapsed().as_nanos() as f64 / MOST_TRADES as f64
}

pub struct Line {
    pub shuffled: bool,
    pub rows: usize,
    pub ours: Spread,
    pub by_hand: Spread,
    /// Medians.
    pub one_by_one: f64,
    pub sqlite: Option<f64>,
}

pub fn measure(samples: usize, mut sql: Option<SqlBook>) -> Vec<Line> {
    let mut lines = Vec::new();
    for rows in [0, 3_000] {
        for shuffled in [false, true] {
            let case = case(rows, shuffled);
            agree(&case, &mut sql);
            let mut copy = Copy::new(&case);
            let mut runs = [const { Vec::new() }; 4];
            for k in 0..samples {
                // Each goes first in turn.
                for way in (0..WAYS.len()).map(|way| (way + k) % WAYS.len()) {
                    runs[way].push(copy.sample(&case, WAYS[way]));
                }
                runs[3].extend(sql.as_mut().map(|book| sample_sql(&case, book)));
            }
            let [ours, one_by_one, by_hand, sqlite] = runs;
            let sqlite = sql.is_some().then(|| spread(sqlite).median);
            lines.push(Line { shuffled, rows, ours: spread(ours), by_hand: spread(by_hand), one_by_one: spread(one_by_one).median, sqlite });
        }
    }
    lines
}

/// Each way books all the trades, and they leave the same cells and excesses.
fn agree(case: &Case, sql: &mut Option<SqlBook>) {
    let all_booked = Coded { kind: 0, first: MOST_TRADES as i64, second: 0, third: 0 };
    let [first, second, third] = WAYS.map(|book| {
        let mut copy = Copy::new(case);
        assert_eq!(book(&mut copy.records, &mut copy.positions, &case.trades, &mut copy.excess), all_booked);
        copy
    });
    for other in [second, third] {
        assert!(first.records == other.records && first.positions == other.positions && first.excess == other.excess, "the cells differ after a list");
    }
    if let Some(book) = sql {
        let mut excess = vec![-1; MOST_TRADES];
        book.load(&case.records, &case.positions);
        assert_eq!(book.trades(&case.trades, &mut excess), all_booked);
        let (records, positions) = book.cells();
        assert!(first.records.starts_with(&records) && first.positions.starts_with(&positions) && first.excess == excess, "SQLite has other rows after a list");
    }
}
