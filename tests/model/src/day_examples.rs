//! Document 02, K8, by hand: a new day, sound days, 002's table for transaction 123456, and each refusal of the list.

use crate::journal::replay;
use crate::{Answer, Reply, Request, Step};

/// Room for 40 records, 9 positions and 9 processes.
struct Book {
    records: Vec<i64>,
    positions: Vec<i64>,
    processes: Vec<i64>,
}

impl Book {
    fn new() -> Book {
        let cells = |header: usize, rows: usize, width: usize| [vec![0; header], vec![-7; rows * width]].concat();
        Book { records: cells(2, 40, 14), positions: cells(1, 9, 7), processes: cells(1, 9, 9) }
    }

    /// With these rows, by id, suffix, parent, status and day.
    fn of(day: i64, rows: &[[i64; 5]]) -> Book {
        let mut book = Book::new();
        book.records[..2].copy_from_slice(&[rows.len() as i64, day]);
        for (cells, &[id, suffix, parent, status, day]) in book.records[2..].chunks_mut(14).zip(rows) {
            cells.copy_from_slice(&[id, suffix, parent, 6, status, 1, 1, 1, if status == 2 { -5 } else { 5 }, 9, 0, 0, 0, day]);
        }
        book
    }

    fn handle(&mut self, request: &Request) -> Answer {
        crate::handle(&mut self.records, &mut self.positions, &mut self.processes, request)
    }

    fn book(&mut self, request: Request) {
        assert!(matches!(self.handle(&request).reply, Reply::Booked { .. }), "{request:?}");
    }

    fn day(&mut self, day: i64) -> Reply {
        self.handle(&Request::NewDay { day }).reply
    }

    fn list(&mut self, cells: usize) -> Answer {
        self.handle(&Request::Reportable { cells })
    }

    /// The suffixes on the list, all of whose records have this id.
    fn listed(&mut self, id: i64) -> Vec<i64> {
        let Answer { reply, output } = self.list(80);
        assert_eq!(reply, Reply::Listed { records: output.len() as i64 / 2 });
        assert!(output.chunks(2).all(|pair| pair[0] == id));
        output.chunks(2).map(|pair| pair[1]).collect()
    }

    /// A give-up of a suffix of 123456 from account 1 to account 2, all at once.
    fn give_up(&mut self, suffix: i64) {
        for step in [Step::Open, Step::Claim, Step::ApproveGiver, Step::ApproveTaker] {
            self.book(Request::GiveUp { step, process: 100 + suffix, id: 123_456, suffix, giving: 1, taking: 2, series: 1 });
        }
    }
}

const BOOKED: Reply = Reply::Booked { rows: 0, residual: 0 };

fn refused(number: i64) -> Reply {
    Reply::Refused { number, place: 0 }
}

#[test]
fn a_new_day() {
    let mut book = Book::new();
    for (day, reply) in [(0, refused(3)), (-1, refused(3)), (1, BOOKED), (1, refused(3)), (7, BOOKED), (6, refused(3)), (100_000, refused(3)), (99_999, BOOKED)]
    {
        assert_eq!(book.day(day), reply, "day {day}");
    }
    assert_eq!(book.records[..3], [0, 99_999, -7]);
    // It is not lent the positions.
    let mut book = Book::of(3, &[[7, 0, 0, 0, 3]]);
    book.positions.clear();
    assert_eq!(book.day(4), BOOKED);
    assert_eq!(book.records[..2], [1, 4]);
    book.records[0] = -1;
    assert_eq!(book.day(4), refused(1));
}

#[test]
fn sound_days() {
    let on = |header: i64, day: i64| Book::of(header, &[[7, 0, 0, 0, day]]).list(2).reply;
    let listed = |records: i64| Reply::Listed { records };
    assert_eq!([on(0, 0), on(5, 5), on(5, 4), on(99_999, 0)], [listed(1), listed(1), listed(0), listed(0)]);
    assert_eq!([on(-1, 0), on(100_000, 0), on(5, 6), on(5, -1)], [refused(1); 4]);
    assert_eq!(crate::handle(&mut [0], &mut [], &mut [], &Request::NewDay { day: 1 }).reply, refused(1));
    assert_eq!(crate::handle(&mut [], &mut [], &mut [], &Request::NewDay { day: 1 }).reply, refused(1));
}

/// "In 002's table for transaction 123456 the first day gives suffixes 2, 7, 9 and 13; the second has inverse 14, not 19."
#[test]
fn transaction_123456() {
    let mut book = Book::new();
    assert_eq!(book.day(17), BOOKED);
    book.book(Request::Trade { id: 123_456, account: 1, series: 1, side: 1, quantity: 100, price: 5 });
    book.book(Request::Separate { id: 123_456, suffix: 0, account: 1, series: 1, parts: vec![40, 30, 20, 10] });
    for suffix in [3, 5, 4] {
        book.give_up(suffix);
    }
    book.book(Request::Transfer { id: 123_456, suffix: 11, from: 2, to: 3, series: 1 });
    assert_eq!(book.listed(123_456), [2, 7, 9, 13]);
    assert_eq!(book.day(18), BOOKED);
    book.book(Request::Separate { id: 123_456, suffix: 2, account: 1, series: 1, parts: vec![10, 10, 10, 10] });
    book.give_up(18);
    assert_eq!(book.listed(123_456), [14, 15, 16, 17, 20]);
    assert_eq!(book.day(19), BOOKED);
    for suffix in [15, 17, 16] {
        book.give_up(suffix);
    }
    assert_eq!(book.listed(123_456), [21, 22, 23, 24, 25, 26]);
    // What was adjusted kept its day.
    let days: Vec<i64> = book.records[2..].chunks(14).take(27).map(|row| row[13]).collect();
    assert_eq!(days, [vec![17; 14], vec![18; 7], vec![19; 6]].concat());
}

#[test]
fn which_are_listed() {
    let listed = |rows: &[[i64; 5]]| Book::of(5, rows).list(20);
    let list = |pairs: &[i64]| Answer { reply: Reply::Listed { records: pairs.len() as i64 / 2 }, output: pairs.to_vec() };
    // By status, and by day.
    assert_eq!(listed(&[[7, 0, 0, 0, 5], [8, 0, 0, 1, 5], [9, 0, 0, 3, 5]]), list(&[7, 0, 9, 0]));
    assert_eq!(listed(&[[7, 0, 0, 0, 4], [8, 0, 0, 1, 4], [9, 0, 0, 3, 4]]), list(&[]));
    // An inverse, by its parent's day; an earlier day's inverse needs no parent row, nor does another status.
    assert_eq!(listed(&[[7, 2, 0, 1, 5], [7, 3, 2, 2, 5]]), list(&[]));
    assert_eq!(listed(&[[7, 2, 0, 1, 4], [7, 3, 2, 2, 5]]), list(&[7, 3]));
    assert_eq!(listed(&[[7, 3, 2, 2, 4], [7, 9, 5, 0, 5]]), list(&[7, 9]));
    // With suffix 0 it is its own parent.
    assert_eq!(listed(&[[7, 0, 0, 2, 5]]), list(&[]));
    assert_eq!(listed(&[]), list(&[]));
}

#[test]
fn refused_lists() {
    let rows = [[6, 0, 0, 0, 5], [7, 0, 0, 1, 4], [7, 1, 0, 2, 5], [9, 4, 3, 2, 5]];
    // 1, 5, 14: the last inverse has no parent row, and there is no cell for a pair.
    let mut book = Book::of(5, &rows);
    assert_eq!(book.list(0).reply, refused(5));
    book.records[1] = 4;
    assert_eq!(book.list(0).reply, refused(1));
    let mut book = Book::of(5, &rows[..3]);
    for cells in 0..7 {
        let expected =
            if cells < 4 { Answer { reply: refused(14), output: vec![] } } else { Answer { reply: Reply::Listed { records: 2 }, output: vec![6, 0, 7, 1] } };
        assert_eq!(book.list(cells), expected);
    }
    book.positions.clear();
    assert_eq!(book.list(4).reply, Reply::Listed { records: 2 });
}

#[test]
fn day_lines() {
    let answer = |positions: usize, text: &str| {
        let mut book = Book::new();
        book.positions.truncate(positions);
        let reply = replay(&mut book.records, &mut book.positions, &mut book.processes, text.as_bytes());
        (reply, book.records[..2].to_vec())
    };
    let trade = "T\t7\t1\t1\t1\t1\t1\n";
    assert_eq!(answer(64, &["D\t3\n", trade, "D\t4\n"].concat()), (Reply::Replayed { lines: 3 }, vec![1, 4]));
    for day in ["3", "2", "1"] {
        assert_eq!(answer(64, &format!("D\t3\n{trade}D\t{day}\n")), (Reply::LineRefused { line: 3, number: 3, place: 0 }, vec![1, 3]));
    }
    for day in ["0", "-1", "100000", "03", "", "3\t4"] {
        assert_eq!(answer(64, &format!("D\t3\nD\t{day}\n")), (Reply::BadLine { line: 2 }, vec![0, 3]));
    }
    // A line of a day has no test 2.
    assert_eq!(answer(0, "D\t3\nD\t4\n"), (Reply::Replayed { lines: 2 }, vec![0, 4]));
    assert_eq!(answer(0, &["D\t3\n", trade].concat()), (Reply::LineRefused { line: 2, number: 2, place: 0 }, vec![0, 3]));
    let mut book = Book::of(5, &[[7, 0, 0, 0, 6]]);
    let reply = replay(&mut book.records, &mut book.positions, &mut book.processes, b"D\t6\n");
    assert_eq!(reply, Reply::LineRefused { line: 1, number: 1, place: 0 });
}
