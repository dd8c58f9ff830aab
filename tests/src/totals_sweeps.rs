//! The fixed part of a run for the totals beside the positions: each of the five figures of a position around the ends of its range, for each request that moves
//! it, by itself, in a batch and in a replay; and totals that reach the ends from empty tables on.

use crate::checker::Checker;
use crate::give_ups::{named, CLAIMED, EACH, PENDING};
use crate::histories::sums_over_the_records;
use crate::tables::{positions_len, processes_len, records_len, Tables};
use model::journal::line_of;
use model::{Reply, Request, Step};

const MOST_HELD: i64 = 1_000_000_000_000;
const MOST_CASH: i64 = 1_000_000_000_000_000;
const MOST_TOTAL: i64 = 4_000_000_000_000_000_000;
const MILLION: i64 = 1_000_000;
const FAR: i64 = 1_000_000_000_000;

/// What the position of an account in series 1 gets: long, short, cash, quantity, value.
type Movement = (i64, [i64; 5]);

pub fn run(checker: &mut Checker) {
    trades(checker);
    changes_of_account(checker);
    merges(checker);
    what_moves_nothing(checker);
    from_empty_by_trades(checker);
    from_empty_by_transfers(checker);
    from_empty_by_a_merge(checker);
}

const PRICES: [i64; 6] = [0, 1, -3, FAR, -FAR, FAR - 1];

/// The records with the given rows, booked on day 3 or before, and the positions of accounts 1 and 2, whose figures are far from any end.
fn tables(records: &[[i64; 14]]) -> Tables {
    let middle = |account: i64| [account, 1, MOST_HELD / 2, MOST_HELD / 2, 7, -11, 13];
    let mut tables = Tables {
        records: [vec![records.len() as i64, 3], records.concat()].concat(),
        positions: [&[2][..], &middle(1), &middle(2)].concat(),
        processes: vec![0],
    };
    tables.records.resize(records_len(records.len() + 6) + 5, -81);
    tables.positions.resize(positions_len(4) + 3, -82);
    tables.processes.resize(processes_len(2) + 4, -83);
    tables
}

/// Each figure that the request moves, around the end that it moves to: it may reach the end and not pass it.
fn around_the_ends(checker: &mut Checker, tables: &Tables, request: &Request, moved: &[Movement]) {
    assert!(booked(checker.ask(tables, request).reply), "{request:?}");
    for &(account, by) in moved {
        for (k, most) in [MOST_HELD, MOST_HELD, MOST_CASH, MOST_TOTAL, MOST_TOTAL].into_iter().enumerate() {
            // Long and short don't fall below 0: a transfer is refused 12 before that, and a trade closes no more than is open.
            if by[k] == 0 || (k < 2 && by[k] < 0) {
                continue;
            }
            let end = most * by[k].signum();
            for before in [end - by[k] - 1, end - by[k], end - by[k] + 1, end] {
                let mut tables = tables.clone();
                tables.positions[positions_len(account as usize - 1) + 2 + k] = before;
                let passes = (before + by[k]).abs() <= most;
                in_each_way(checker, &tables, request, passes);
            }
        }
    }
}

fn booked(reply: Reply) -> bool {
    matches!(reply, Reply::Booked { .. } | Reply::ClosingError { .. })
}

/// The request by itself, as a line after one that is booked, and a trade in a batch too, before one that would take it back.
fn in_each_way(checker: &mut Checker, tables: &Tables, request: &Request, passes: bool) {
    let reply = checker.ask(tables, request).reply;
    assert!(if passes { booked(reply) } else { reply == Reply::Refused { number: 16, place: 0 } }, "{request:?} answered {reply:?}");
    let first = Request::Trade { id: 3, account: 5, series: 1, side: 1, quantity: 1, price: 1 };
    let text = [&first, request].map(|request| line_of(request).expect("it has a line")).concat().into_bytes();
    let all = Reply::Replayed { lines: 2 };
    let reply = checker.ask(tables, &Request::Replay { text }).reply;
    assert_eq!(reply, if passes { all } else { Reply::LineRefused { line: 2, number: 16, place: 0 } }, "{request:?}");
    if let &Request::Trade { id, account, series, side, quantity, price } = request {
        let trade = [id, account, series, side, quantity, price];
        let back = [id + 1, account, series, [0, 4, 3, 2, 1][side as usize], quantity, price];
        let figures = [[3, 5, 1, 1, 1, 1], trade, back].concat();
        let reply = checker.ask(tables, &Request::Trades { figures, cells: 3 }).reply;
        assert_eq!(reply, if passes { Reply::Booked { rows: 3, residual: 0 } } else { Reply::Stopped { booked: 1, number: 16, place: 0 } }, "{request:?}");
    }
}

/// Trades of every side, none of them above what is open.
fn trades(checker: &mut Checker) {
    for quantity in [1, 15, MILLION] {
        for price in PRICES {
            let value = quantity * price;
            for (side, by) in [
                (1, [quantity, 0, 0, quantity, value]),
                (2, [0, quantity, 0, -quantity, -value]),
                (3, [0, -quantity, 0, quantity, value]),
                (4, [-quantity, 0, 0, -quantity, -value]),
            ] {
                let request = Request::Trade { id: 7, account: 1, series: 1, side, quantity, price };
                around_the_ends(checker, &tables(&[]), &request, &[(1, by)]);
            }
        }
    }
}

/// What record 7, suffix 0, gives to account 2 and takes from account 1, which holds it.
fn changes_of_account(checker: &mut Checker) {
    for quantity in [15, MILLION] {
        for price in PRICES {
            for side in [1, 2] {
                let sign = if side == 1 { 1 } else { -1 };
                let (long, short) = if side == 1 { (quantity, 0) } else { (0, quantity) };
                let given = [long, short, 0, sign * quantity, sign * quantity * price];
                let moved = [(1, given.map(|figure| -figure)), (2, given)];
                let record = |status: i64| [7, 0, 0, 0, status, 1, 1, side, quantity, price, long, short, 0, 2];
                let transfer = Request::Transfer { id: 7, suffix: 0, from: 1, to: 2, series: 1 };
                around_the_ends(checker, &tables(&[record(0)]), &transfer, &moved);
                for (progress, step) in [([1, 1, PENDING], Step::Claim), ([0, 1, CLAIMED], Step::ApproveGiver), ([1, 0, CLAIMED], Step::ApproveTaker)] {
                    around_the_ends(checker, &with_process(tables(&[record(3)]), progress), &named(step, &GIVEN), &moved);
                }
                without_room(checker, &tables(&[record(0)]), &transfer, moved[0]);
                without_room(checker, &with_process(tables(&[record(3)]), [0, 1, CLAIMED]), &named(Step::ApproveGiver, &GIVEN), moved[0]);
            }
        }
    }
}

/// Process 9 gives record 7, suffix 0, up from account 1 to account 2.
const GIVEN: [i64; 6] = [9, 7, 0, 1, 2, 1];

fn with_process(mut tables: Tables, progress: [i64; 3]) -> Tables {
    tables.processes[..10].copy_from_slice(&[&[1][..], &GIVEN, &progress].concat());
    tables
}

/// The new account has no row and no room for one; a total of the old account is at an end: 15 before 16.
fn without_room(checker: &mut Checker, tables: &Tables, request: &Request, (account, by): Movement) {
    let mut tables = tables.clone();
    tables.positions.truncate(positions_len(1) + 6);
    tables.positions[0] = 1;
    tables.positions[positions_len(account as usize - 1) + 5] = MOST_TOTAL * by[3].signum();
    assert_eq!(checker.ask(&tables, request).reply, Reply::Refused { number: 15, place: 0 });
    tables.positions.resize(positions_len(2), -82);
    assert_eq!(checker.ask(&tables, request).reply, Reply::Refused { number: 16, place: 0 });
}

/// Merges of two sources, whose residual goes to cash and value.
fn merges(checker: &mut Checker) {
    for (first, second, over) in
        [((1, 0), (1, 1), 1), ((1, 0), (1, -1), -1), ((2, 10_000_000), (1, 10_000_001), -1), ((500_000, FAR), (500_000, FAR - 1), 500_000), ((3, 5), (4, 5), 0)]
    {
        for (side, residual) in [(1, over), (2, -over)] {
            let record = |id: i64, (quantity, price): (i64, i64)| [id, 0, 0, 0, 0, 1, 1, side, quantity, price, 0, 0, 0, 3];
            let request = Request::Merge { id: 5, account: 1, series: 1, pairs: vec![8, 0, 7, 0] };
            around_the_ends(checker, &tables(&[record(7, first), record(8, second)]), &request, &[(1, [0, 0, residual, 0, residual])]);
        }
    }
}

/// Separations, and the steps that book no row, with the totals of both accounts at every pair of ends.
fn what_moves_nothing(checker: &mut Checker) {
    for (quantity, value) in [(MOST_TOTAL, MOST_TOTAL), (MOST_TOTAL, -MOST_TOTAL), (-MOST_TOTAL, MOST_TOTAL), (-MOST_TOTAL, -MOST_TOTAL)] {
        for side in [1, 2] {
            let at_the_ends = |status: i64| {
                let mut tables = tables(&[[7, 0, 0, 0, status, 1, 1, side, MILLION, FAR, 0, 0, 0, 0]]);
                for row in 0..2 {
                    tables.positions[positions_len(row) + 5..positions_len(row + 1)].copy_from_slice(&[quantity, value]);
                }
                tables
            };
            let mut separated = at_the_ends(0);
            let before = separated.positions.clone();
            let parts = vec![1, MILLION - 2, 1];
            assert!(booked(checker.call(&mut separated, &Request::Separate { id: 7, suffix: 0, account: 1, series: 1, parts }).reply));
            assert_eq!(separated.positions, before);
            let mut opened = at_the_ends(0);
            assert!(booked(checker.call(&mut opened, &named(Step::Open, &GIVEN)).reply));
            for step in EACH {
                for progress in [[0, 0, PENDING], [0, 0, CLAIMED]] {
                    let mut tables = with_process(at_the_ends(3), progress);
                    checker.call(&mut tables, &named(step, &GIVEN));
                    assert_eq!(tables.positions, before);
                }
            }
        }
    }
}

/// Empty tables with room for so many records, three positions and two processes.
fn empty(records: usize) -> Tables {
    let cells = |empty: usize, len: usize, cell: i64| [vec![0; empty], vec![cell; len - empty]].concat();
    Tables {
        records: cells(records_len(0), records_len(records), -84),
        positions: cells(positions_len(0), positions_len(3), -85),
        processes: cells(processes_len(0), processes_len(2), -86),
    }
}

fn trade(id: i64, account: i64, side: i64, price: i64) -> Request {
    Request::Trade { id, account, series: 1, side, quantity: MILLION, price }
}

/// A day from empty tables: each request but the last is booked, which is refused 16; and the same by one replay. The totals are the sums throughout.
fn refused_at_the_end(checker: &mut Checker, day: &[Request]) -> Tables {
    let mut tables = empty(20);
    let (last, before) = day.split_last().expect("a day has requests");
    for request in before {
        assert!(booked(checker.call(&mut tables, request).reply), "{request:?}");
        sums_over_the_records(checker, &tables);
    }
    assert_eq!(checker.call(&mut tables, last).reply, Reply::Refused { number: 16, place: 0 }, "{last:?}");
    let text: String = day.iter().map(|request| line_of(request).expect("it has a line")).collect();
    let mut again = empty(20);
    let reply = checker.call(&mut again, &Request::Replay { text: text.into_bytes() }).reply;
    assert_eq!(reply, Reply::LineRefused { line: day.len() as i64, number: 16, place: 0 });
    assert_eq!(again, tables);
    tables
}

/// Four trades of the greatest quantity at the greatest price reach the end; a fifth is refused, one at price 0 and one on the other side are not.
fn from_empty_by_trades(checker: &mut Checker) {
    for (side, other) in [(1, 2), (1, 4), (2, 1), (2, 3), (3, 2), (4, 1)] {
        for price in [FAR, -FAR] {
            let day: Vec<Request> = (1..=5).map(|id| trade(id, 1, side, price)).collect();
            let mut tables = refused_at_the_end(checker, &day);
            for request in [trade(6, 1, side, 0), trade(7, 1, other, price), trade(8, 1, side, price)] {
                assert!(booked(checker.call(&mut tables, &request).reply), "{request:?}");
                sums_over_the_records(checker, &tables);
            }
            let figures = (1..=5).flat_map(|id| [id, 1, 1, side, MILLION, price]).collect();
            let mut tables = empty(20);
            assert_eq!(checker.call(&mut tables, &Request::Trades { figures, cells: 5 }).reply, Reply::Stopped { booked: 4, number: 16, place: 0 });
            sums_over_the_records(checker, &tables);
        }
    }
}

/// The old account's value is at an end by five trades against the one that is to leave; the new account's by four like it.
fn from_empty_by_transfers(checker: &mut Checker) {
    let completed = [Step::Open, Step::ApproveGiver, Step::Claim, Step::ApproveTaker].map(|step| named(step, &GIVEN)).to_vec();
    let transferred = vec![Request::Transfer { id: 7, suffix: 0, from: 1, to: 2, series: 1 }];
    for (side, other) in [(1, 2), (2, 1)] {
        for price in [FAR, -FAR] {
            let against: Vec<Request> = (10..15).map(|id| trade(id, 1, other, price)).collect();
            let alike: Vec<Request> = (10..14).map(|id| trade(id, 2, side, price)).collect();
            for others in [against, alike] {
                for last in [&transferred, &completed] {
                    refused_at_the_end(checker, &[vec![trade(7, 1, side, price)], others.clone(), last.clone()].concat());
                }
            }
        }
    }
}

/// 1 at 0 and 1 at 1 of a value of 4,000,000,000,000,000,000 in all: their residual takes it beyond.
fn from_empty_by_a_merge(checker: &mut Checker) {
    for side in [1, 2] {
        for sign in [1, -1] {
            let trade = |id: i64, quantity: i64, price: i64| Request::Trade { id, account: 1, series: 1, side, quantity, price: sign * price };
            let mut day = vec![trade(1, 1, 0), trade(2, 1, 1), trade(3, 1, FAR - 1), trade(4, MILLION - 1, FAR)];
            day.extend((5..8).map(|id| trade(id, MILLION, FAR)));
            day.push(Request::Merge { id: 9, account: 1, series: 1, pairs: vec![1, 0, 2, 0] });
            refused_at_the_end(checker, &day);
        }
    }
}
