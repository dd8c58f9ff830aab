//! Document 02, K3, by hand: give-ups that are booked, cancelled and refused, who may do what and when, and each refusal of its own.

use crate::{Reply, Request, Step};
use Step::{ApproveGiver, ApproveTaker, Cancel, Claim, Open, Refuse};

/// Room for five records, two positions and two processes; a buy and a sell of 100 under ids 7 and 8 in account 1, series 1.
struct Book {
    records: Vec<i64>,
    positions: Vec<i64>,
    processes: Vec<i64>,
}

/// An empty table with so many cells before its rows.
fn cells(header: usize, rows: usize, width: usize) -> Vec<i64> {
    [vec![0; header], vec![-7; rows * width]].concat()
}

impl Book {
    fn new() -> Book {
        let mut book = Book { records: cells(2, 5, 14), positions: cells(1, 2, 7), processes: cells(1, 2, 9) };
        for (id, side) in [(7, 1), (8, 2)] {
            assert_eq!(book.ask(&Request::Trade { id, account: 1, series: 1, side, quantity: 100, price: 5 }), booked(1));
        }
        book
    }

    fn ask(&mut self, request: &Request) -> Reply {
        crate::handle(&mut self.records, &mut self.positions, &mut self.processes, request).reply
    }

    /// The answers to some steps of process 9, which gives id 7 up from account 1 to account 2.
    fn steps(&mut self, steps: &[Step]) -> Vec<Reply> {
        steps.iter().map(|step| self.ask(&giving_up(*step))).collect()
    }

    fn with(mut self, change: impl FnOnce(&mut Book)) -> Book {
        change(&mut self);
        self
    }
}

fn giving_up(step: Step) -> Request {
    Request::GiveUp { step, process: 9, id: 7, suffix: 0, giving: 1, taking: 2, series: 1 }
}

/// An opening with any figures.
fn opening(process: i64, id: i64, suffix: i64, giving: i64, taking: i64, series: i64) -> Request {
    Request::GiveUp { step: Open, process, id, suffix, giving, taking, series }
}

fn booked(rows: i64) -> Reply {
    Reply::Booked { rows, residual: 0 }
}

fn refused(number: i64) -> Reply {
    Reply::Refused { number, place: 0 }
}

#[test]
fn from_the_opening_to_the_booked_rows() {
    for steps in [[Claim, ApproveGiver, ApproveTaker], [Claim, ApproveTaker, ApproveGiver], [ApproveGiver, Claim, ApproveTaker]] {
        let mut book = Book::new();
        assert_eq!(book.steps(&[Open]), [booked(0)]);
        assert_eq!(book.records[..7], [2, 0, 7, 0, 0, 0, 3]);
        assert_eq!(book.processes[..10], [1, 9, 7, 0, 1, 2, 1, 0, 0, 6]);
        assert_eq!(book.steps(&steps), [booked(0), booked(0), booked(2)]);
        let rows = [
            [7, 0, 0, 0, 1, 1, 1, 1, 100, 5, 100, 0, 0, 0],
            [7, 1, 0, 20, 2, 1, 1, 1, -100, 5, -100, 0, 0, 0],
            [7, 2, 0, 30, 0, 2, 1, 1, 100, 5, 100, 0, 0, 0],
            [8, 0, 0, 0, 0, 1, 1, 2, 100, 5, 0, 100, 0, 0],
            [-7; 14],
        ];
        assert_eq!(book.records, [vec![4, 0], rows.concat()].concat());
        assert_eq!(book.positions, [2, 1, 1, 0, 100, 0, -100, -500, 2, 1, 100, 0, 0, 100, 500]);
        assert_eq!(book.processes, [&[1, 9, 7, 0, 1, 2, 1, 1, 1, 0], [-7; 9].as_slice()].concat());
        // Nothing follows the end; the row in the new account can be given up in its turn.
        assert_eq!(book.steps(&[Claim, Cancel, Refuse, ApproveGiver, ApproveTaker, Open]), [refused(18); 6]);
        assert_eq!(book.ask(&opening(3, 7, 2, 2, 1, 1)), booked(0));
        assert_eq!(book.processes[..2], [2, 3]);
    }
}

#[test]
fn cancelled_or_refused() {
    for (step, stage) in [(Cancel, 12), (Refuse, 10)] {
        for approved in [false, true] {
            let mut book = Book::new();
            let before = (book.records.clone(), book.positions.clone());
            book.steps(if approved { &[Open, ApproveGiver] } else { &[Open] });
            assert_eq!(book.steps(&[step]), [booked(0)]);
            assert_eq!((book.records.clone(), book.positions.clone()), before);
            assert_eq!(book.processes[7..10], [approved as i64, 0, stage]);
            assert_eq!(book.steps(&[Claim, Cancel, Refuse, ApproveGiver, ApproveTaker, Open]), [refused(18); 6]);
            // A new process, with a new id, may follow.
            assert_eq!(book.ask(&opening(10, 7, 0, 1, 2, 1)), booked(0));
        }
    }
}

#[test]
fn out_of_turn() {
    for steps in [
        vec![ApproveTaker],
        vec![ApproveGiver, ApproveGiver],
        vec![Claim, ApproveTaker, ApproveTaker],
        vec![Claim, Claim],
        vec![Claim, Cancel],
        vec![Claim, Refuse],
        vec![Open],
    ] {
        let mut book = Book::new();
        book.steps(&[Open]);
        let replies = book.steps(&steps);
        assert_eq!(replies.last(), Some(&refused(18)), "{steps:?}");
        assert!(replies[..replies.len() - 1].iter().all(|reply| *reply == booked(0)), "{steps:?}");
    }
}

#[test]
fn order_of_the_tests() {
    let mut book = Book::new();
    // An opening: 3, 18, 5, 6, 7 or 17, 8, 23.
    assert_eq!(book.steps(&[Open]), [booked(0)]);
    for (request, number) in [
        (opening(0, 7, 0, 1, 2, 1), 3),
        (opening(9, 7, 0, 2, 2, 1), 3),
        (opening(9, 5, 0, 1, 2, 1), 18),
        (opening(2, 5, 0, 1, 2, 1), 5),
        (opening(2, 7, 0, 1, 2, 2), 6),
        (opening(2, 7, 0, 2, 1, 1), 6),
        (opening(2, 7, 0, 1, 2, 1), 17),
    ] {
        assert_eq!(book.ask(&request), refused(number), "{request:?}");
    }
    // A later step: 18 for each figure unlike the row's, and 7 for a status that isn't 3.
    for claim in [(8, 7, 0, 1, 2, 1), (9, 8, 0, 1, 2, 1), (9, 7, 1, 1, 2, 1), (9, 7, 0, 2, 1, 1), (9, 7, 0, 1, 3, 1), (9, 7, 0, 1, 2, 2)] {
        let (process, id, suffix, giving, taking, series) = claim;
        assert_eq!(book.ask(&Request::GiveUp { step: Claim, process, id, suffix, giving, taking, series }), refused(18), "{claim:?}");
    }
    for (cell, value, number) in [(2, 6, 5), (7, 3, 6), (6, 0, 7), (6, 1, 7), (9, 3, 8), (9, 1, 0)] {
        book.records[cell] = value;
        let expected = if number == 0 { booked(0) } else { refused(number) };
        assert_eq!(book.steps(&[Claim]), [expected], "cell {cell}");
        (book.records[2], book.records[6], book.records[7]) = (7, 3, 1);
    }
    // Refused steps have changed nothing.
    assert_eq!(book.processes[..10], [1, 9, 7, 0, 1, 2, 1, 0, 0, 9]);
}

#[test]
fn its_own_room_last() {
    let mut book = Book::new().with(|book| book.processes.truncate(1 + 9 + 8));
    book.steps(&[Open]);
    assert_eq!(book.ask(&opening(2, 8, 0, 1, 2, 1)), refused(23));
    assert_eq!(book.ask(&opening(2, 8, 0, 1, 2, 2)), refused(6));
    assert_eq!(book.records[2 + 14 + 4], 0);
}

/// "Adjusting or opening on status 3 is refused 17, one test with 7: a merge's first source failing it gives number and place."
#[test]
fn under_give_up() {
    let mut book = Book::new();
    book.steps(&[Open]);
    let separate = |id: i64, parts: &[i64]| Request::Separate { id, suffix: 0, account: 1, series: 1, parts: parts.to_vec() };
    assert_eq!(book.ask(&separate(7, &[60, 40])), refused(17));
    assert_eq!(book.ask(&Request::Transfer { id: 7, suffix: 0, from: 1, to: 2, series: 1 }), refused(17));
    assert_eq!(book.ask(&separate(8, &[60, 40])), booked(3));
    let merge = |pairs: &[i64]| Request::Merge { id: 6, account: 1, series: 1, pairs: pairs.to_vec() };
    assert_eq!(book.ask(&merge(&[8, 2, 7, 0, 8, 0])), Reply::Refused { number: 17, place: 1 });
    assert_eq!(book.ask(&merge(&[8, 0, 7, 0])), Reply::Refused { number: 7, place: 0 });
    assert_eq!(book.ask(&merge(&[8, 2, 8, 3, 8, 1, 7, 0])), Reply::Refused { number: 7, place: 2 });
}

/// The call that completes is refused by 12 to 16 and changes nothing; before it none of these is tested.
#[test]
fn what_the_completing_call_needs() {
    let changes: [(i64, fn(&mut Book)); 5] = [
        (12, |book| book.positions[3] = 99),
        (13, |book| {
            // suffix 65,534 beside suffix 0
            book.records[2..].copy_within(..28, 14);
            (book.records[0], book.records[17]) = (3, 65_534);
        }),
        (14, |book| book.records.truncate(2 + 3 * 14 + 13)),
        (15, |book| book.positions.truncate(1 + 7 + 6)),
        (16, |book| {
            book.positions[0] = 2;
            book.positions[8..15].copy_from_slice(&[2, 1, 999_999_999_901, 0, 0, 0, 0]);
        }),
    ];
    for (number, change) in changes {
        let mut book = Book::new().with(change);
        assert_eq!(book.steps(&[Open, Claim, ApproveTaker]), [booked(0); 3]);
        let before = (book.records.clone(), book.positions.clone(), book.processes.clone());
        assert_eq!(book.steps(&[ApproveGiver, ApproveGiver]), [refused(number); 2]);
        assert_eq!((book.records, book.positions, book.processes), before);
    }
}

/// "if unsound, refused 19 after 2"; the other requests aren't lent the table.
#[test]
fn unsound_processes() {
    let row = [9, 7, 0, 1, 2, 1, 0, 0, 6];
    let with = |cell: usize, value: i64| {
        let mut cells = [vec![1], row.to_vec()].concat();
        cells[cell] = value;
        cells
    };
    let twice = |second: i64, id: i64| [vec![2], row.to_vec(), vec![second, id, 0, 1, 2, 1, 0, 0, 6]].concat();
    let mut unsound = vec![vec![], with(0, -1), with(0, 2), with(1, 0), with(1, 1_000_000_000), with(2, 0), with(2, 1_000_000_000)];
    unsound.extend([with(3, -1), with(3, 65_536), with(4, 0), with(4, 10_000), with(5, 0), with(5, 10_000), with(6, 0), with(6, 1_000_000)]);
    unsound.extend([with(7, 2), with(7, -1), with(8, 2), with(8, -1), with(9, 1), with(9, 3), with(9, 7), twice(9, 8), twice(8, 7)]);
    for processes in unsound {
        let mut book = Book::new().with(|book| book.processes.clone_from(&processes));
        for step in [Open, Claim, Cancel, Refuse, ApproveGiver, ApproveTaker] {
            assert_eq!(book.ask(&Request::GiveUp { step, process: 0, id: 7, suffix: 0, giving: 1, taking: 2, series: 1 }), refused(19));
        }
        assert_eq!(book.ask(&Request::Transfer { id: 7, suffix: 0, from: 1, to: 2, series: 1 }), booked(2));
        assert_eq!(book.processes, processes);
        book.positions[0] = -1;
        assert_eq!(book.steps(&[Open]), [refused(2)]);
        book.records[0] = -1;
        assert_eq!(book.steps(&[Open]), [refused(1)]);
    }
    // A row with equal accounts is sound, and so are two processes that name one record.
    for processes in [with(5, 1), twice(10, 7)] {
        let mut book = Book::new().with(|book| book.processes = [processes, vec![0; 9]].concat());
        assert_eq!(book.ask(&opening(3, 7, 0, 1, 2, 1)), booked(0));
    }
}

/// A foreign table: a claim may complete; a claimed row with both approvals can't be ended.
#[test]
fn foreign_processes() {
    let with = |progress: [i64; 3]| {
        Book::new().with(|book| {
            book.steps(&[Open]);
            book.processes[7..10].copy_from_slice(&progress);
        })
    };
    assert_eq!(with([1, 1, 6]).steps(&[Claim]), [booked(2)]);
    assert_eq!(with([0, 1, 6]).steps(&[ApproveTaker, Claim, ApproveGiver]), [refused(18), booked(0), booked(2)]);
    assert_eq!(with([1, 1, 6]).steps(&[ApproveGiver, ApproveTaker, Cancel]), [refused(18), refused(18), booked(0)]);
    assert_eq!(with([1, 1, 9]).steps(&[Claim, Cancel, Refuse, ApproveGiver, ApproveTaker]), [refused(18); 5]);
}
