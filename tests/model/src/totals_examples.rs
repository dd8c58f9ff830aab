//! Document 02, K7, by hand: what each request adds to the totals of a position, and where refusal 16 begins.

use crate::{handle, Reply, Request, Step};

/// Room for 8 records, 3 positions and 1 process.
struct Book {
    records: Vec<i64>,
    positions: Vec<i64>,
    processes: Vec<i64>,
}

/// An empty table with so many cells before its rows.
fn cells(header: usize, rows: usize, width: usize) -> Vec<i64> {
    [vec![0; header], vec![-7; rows * width]].concat()
}

impl Book {
    fn new() -> Book {
        Book { records: cells(2, 8, 14), positions: cells(1, 3, 7), processes: cells(1, 1, 9) }
    }

    /// With one position, of account 1 and series 1: long, short, cash, quantity, value.
    fn holding(figures: [i64; 5]) -> Book {
        let mut book = Book::new();
        book.positions[..8].copy_from_slice(&[&[1, 1, 1][..], &figures].concat());
        book
    }

    fn ask(&mut self, request: &Request) -> Reply {
        handle(&mut self.records, &mut self.positions, &mut self.processes, request).reply
    }

    /// Each request is booked.
    fn book(mut self, requests: &[Request]) -> Book {
        for request in requests {
            assert!(matches!(self.ask(request), Reply::Booked { .. } | Reply::ClosingError { .. }), "{request:?}");
        }
        self
    }

    /// Account, quantity and value of each position.
    fn totals(&self) -> Vec<[i64; 3]> {
        self.positions[1..].chunks_exact(7).take(self.positions[0] as usize).map(|row| [row[0], row[5], row[6]]).collect()
    }
}

fn trade(id: i64, side: i64, quantity: i64, price: i64) -> Request {
    Request::Trade { id, account: 1, series: 1, side, quantity, price }
}

/// From account 1 to account 2.
fn transfer(id: i64) -> Request {
    Request::Transfer { id, suffix: 0, from: 1, to: 2, series: 1 }
}

fn give_up(step: Step) -> Request {
    Request::GiveUp { step, process: 9, id: 7, suffix: 0, giving: 1, taking: 2, series: 1 }
}

const MOST: i64 = 4_000_000_000_000_000_000;
const BOOKED: Reply = Reply::Booked { rows: 1, residual: 0 };
const TWO_ROWS: Reply = Reply::Booked { rows: 2, residual: 0 };
const REFUSED: Reply = Reply::Refused { number: 16, place: 0 };

#[test]
fn buys_plus_sells_minus() {
    assert_eq!(Book::new().book(&[trade(7, 1, 100, 5), trade(8, 2, 40, 6)]).totals(), [[1, 60, 260]]);
    // To close, whole or with an excess, the whole quantity counts.
    assert_eq!(Book::new().book(&[trade(7, 1, 100, 5), trade(8, 4, 40, 6)]).totals(), [[1, 60, 260]]);
    assert_eq!(Book::new().book(&[trade(7, 2, 100, -5), trade(8, 3, 140, 6)]).totals(), [[1, 40, 1_340]]);
}

#[test]
fn each_request() {
    let day = [trade(7, 1, 100, 5), trade(8, 2, 40, 6)];
    assert_eq!(Book::new().book(&day).book(&[transfer(8)]).totals(), [[1, 100, 500], [2, -40, -240]]);
    let separation = Request::Separate { id: 7, suffix: 0, account: 1, series: 1, parts: vec![60, 40] };
    assert_eq!(Book::new().book(&day).book(&[separation]).totals(), [[1, 60, 260]]);
    // 1 at 0 and 1 at 1 come at 1: the residual is 1 for buys and -1 for sells, and so is the change of the value.
    let merge = Request::Merge { id: 9, account: 1, series: 1, pairs: vec![7, 0, 8, 0] };
    assert_eq!(Book::new().book(&[trade(7, 1, 1, 0), trade(8, 1, 1, 1), merge.clone()]).totals(), [[1, 2, 2]]);
    assert_eq!(Book::new().book(&[trade(7, 2, 1, 0), trade(8, 2, 1, 1), merge]).totals(), [[1, -2, -2]]);
    // A record under give-up still counts for the old account; the step that completes moves both totals.
    let book = Book::new().book(&day).book(&[Step::Open, Step::ApproveGiver, Step::Claim].map(give_up));
    assert_eq!(book.totals(), [[1, 60, 260]]);
    assert_eq!(book.book(&[give_up(Step::ApproveTaker)]).totals(), [[1, -40, -240], [2, 100, 500]]);
    let cancelled = Book::new().book(&day).book(&[Step::Open, Step::Cancel].map(give_up));
    assert_eq!(cancelled.totals(), [[1, 60, 260]]);
}

/// A foreign table's totals may be untrue, and stay as untrue as they were.
#[test]
fn untrue_totals() {
    let book = Book::holding([0, 0, 0, 1_000, -3]);
    assert_eq!(book.book(&[trade(7, 1, 100, 5), transfer(7)]).totals(), [[1, 1_000, -3], [2, 100, 500]]);
}

/// Each of the five figures at the ends of its range: it may come back and not go on.
#[test]
fn refusal_16() {
    let (held, cash) = (1_000_000_000_000, 1_000_000_000_000_000);
    let on = |figures: [i64; 5], side: i64, price: i64| Book::holding(figures).ask(&trade(7, side, 1, price));
    for (figures, price, beyond, back) in [
        ([held, 0, 0, 0, 0], 0, 1, 4),
        ([0, held, 0, 0, 0], 0, 2, 3),
        ([1, 1, 0, MOST, 0], 0, 1, 2),
        ([1, 1, 0, -MOST, 0], 0, 2, 1),
        ([1, 1, 0, 0, MOST], 1, 1, 2),
        ([1, 1, 0, 0, -MOST], 1, 2, 1),
        ([1, 1, 0, 0, MOST], -1, 2, 1),
    ] {
        assert_eq!((on(figures, beyond, price), on(figures, back, price)), (REFUSED, BOOKED), "{figures:?}");
    }
    let merged = |side: i64, cash: i64, value: i64| {
        let sources = [trade(7, side, 1, 0), trade(8, side, 1, 1)];
        let before = if side == 1 { value - 1 } else { value + 1 };
        Book::holding([0, 0, cash, 0, before]).book(&sources).ask(&Request::Merge { id: 9, account: 1, series: 1, pairs: vec![7, 0, 8, 0] })
    };
    let booked = |residual: i64| Reply::Booked { rows: 3, residual };
    assert_eq!([merged(1, cash, 0), merged(2, cash, 0), merged(2, -cash, 0)], [REFUSED, booked(-1), REFUSED]);
    assert_eq!([merged(1, 0, MOST), merged(2, 0, MOST - 1), merged(2, 0, -MOST)], [REFUSED, booked(-1), REFUSED]);
}

/// A transfer is tested on both positions; that of the old account may have long and short in range.
#[test]
fn both_accounts() {
    let moved = |side: i64, price: i64, old: [i64; 2], new: [i64; 2]| {
        let mut book = Book::new().book(&[trade(7, side, 1, price)]);
        book.positions[0] = 2;
        book.positions[6..8].copy_from_slice(&old);
        book.positions[8..15].copy_from_slice(&[&[2, 1, 0, 0, 0][..], &new].concat());
        book.ask(&transfer(7))
    };
    for (side, sign) in [(1, 1), (2, -1)] {
        assert_eq!(moved(side, 1, [0, 0], [0, 0]), TWO_ROWS);
        for (old, new) in [([-MOST, 0], [0, 0]), ([0, -MOST], [0, 0]), ([0, 0], [MOST, 0]), ([0, 0], [0, MOST])] {
            assert_eq!(moved(side, 1, old.map(|total| total * sign), new.map(|total| total * sign)), REFUSED);
            assert_eq!(moved(side, 1, old.map(|total| total * -sign), new.map(|total| total * -sign)), TWO_ROWS);
        }
    }
}

/// "after each trade" of a batch, and after each line of a replay: what comes later does not bring a total back.
#[test]
fn after_each_trade() {
    let (first, beyond, back) = ([7, 1, 1, 1, 1, 0], [8, 1, 1, 1, 1, 0], [9, 1, 1, 2, 2, 0]);
    let mut book = Book::holding([0, 0, 0, MOST - 1, 0]);
    let stopped = Reply::Stopped { booked: 1, number: 16, place: 0 };
    assert_eq!(book.ask(&Request::Trades { figures: [first, beyond, back].concat(), cells: 3 }), stopped);
    assert_eq!(book.totals(), [[1, MOST, 0]]);
    let mut book = Book::holding([0, 0, 0, MOST - 1, 0]);
    let text = b"T\t7\t1\t1\t1\t1\t0\nT\t8\t1\t1\t1\t1\t0\nT\t9\t1\t1\t2\t2\t0\n".to_vec();
    assert_eq!(book.ask(&Request::Replay { text }), Reply::LineRefused { line: 2, number: 16, place: 0 });
    assert_eq!(book.totals(), [[1, MOST, 0]]);
}

/// "Soundness asks only that range."
#[test]
fn soundness() {
    let not_sound = Reply::Refused { number: 2, place: 0 };
    for (quantity, value, reply) in
        [(MOST, -MOST, BOOKED), (-MOST, MOST, BOOKED), (MOST + 1, 0, not_sound), (0, -MOST - 1, not_sound), (i64::MIN, 0, not_sound)]
    {
        let other = Request::Trade { id: 7, account: 2, series: 1, side: 1, quantity: 1, price: 1 };
        assert_eq!(Book::holding([0, 0, 0, quantity, value]).ask(&other), reply);
    }
}
