//! The fixed part of a run for give-ups, continued: what the step that completes needs, full process tables, foreign ones, and records under give-up.

use crate::checker::Checker;
use crate::give_up_sweeps::{set_record, tables, GIVEN, GIVEN_RECORD};
use crate::give_ups::{named, CLAIMED, EACH, PENDING};
use crate::sweeps::many;
use crate::tables::{positions_len, processes_len, records_len, Tables, MOST_PROCESSES, POSITION_CELLS};
use model::{Reply, Request, Step};
use velichundam::POSITION_QUANTITY;

pub fn run(checker: &mut Checker) {
    completing_refused(checker);
    completing_at_the_limits(checker);
    full_processes(checker);
    up_to_the_greatest_room(checker);
    two_processes_of_one_record(checker);
    foreign_rows(checker);
    under_give_up(checker);
}

const NO_ROW: Reply = Reply::Booked { rows: 0, residual: 0 };
const TWO_ROWS: Reply = Reply::Booked { rows: 2, residual: 0 };

fn refused(number: i64) -> Reply {
    Reply::Refused { number, place: 0 }
}

/// The steps that may complete, with the approvals and the stage before them.
const COMPLETING: [([i64; 3], Step); 3] = [([1, 1, PENDING], Step::Claim), ([0, 1, CLAIMED], Step::ApproveGiver), ([1, 0, CLAIMED], Step::ApproveTaker)];

/// What the step that completes finds: the record's side, what the giving account holds and the quantity among its totals, the id's greatest suffix, the
/// records that have room, the taking account's position, or that it has none, and the positions that have room.
struct Limits {
    side: i64,
    held: i64,
    quantity: i64,
    greatest: i64,
    records_room: usize,
    taken: Option<i64>,
    positions_room: usize,
}

const WIDE: Limits = Limits { side: 1, held: 15, quantity: 3, greatest: 9, records_room: 4, taken: None, positions_room: 2 };

/// Process 5 gives record 7, suffix 0, of 15, up from account 1 to account 2, in series 1.
const NAMES: [i64; 6] = [5, 7, 0, 1, 2, 1];

impl Limits {
    fn tables(&self, progress: [i64; 3]) -> Tables {
        let records = [[7, 0, 0, 0, 3, 1, 1, self.side, 15, -4, 15, 0, 0, 6], [7, self.greatest, 0, 6, 1, 1, 1, 3, 15, -4, 0, 0, 0, 8]];
        let mut records = [vec![2, 9], records.concat()].concat();
        records.resize(records_len(self.records_room) + 7, -71);
        let position = |account: i64, figure: i64| if self.side == 1 { [account, 1, figure, 8, 2, 3, 4] } else { [account, 1, 8, figure, 2, 3, 4] };
        let mut positions = [vec![1], position(1, self.held).to_vec()].concat();
        positions[positions_len(0) + POSITION_QUANTITY] = self.quantity;
        if let Some(figure) = self.taken {
            positions[0] = 2;
            positions.extend(position(2, figure));
        }
        positions.resize(1 + POSITION_CELLS * self.positions_room + 3, -72);
        let processes = [&[1][..], &NAMES, &progress, &[-73; 5]].concat();
        Tables { records, positions, processes }
    }

    /// The answer of each step that completes, which is the same for all three.
    fn ask(&self, checker: &mut Checker) -> Reply {
        let replies = COMPLETING.map(|(progress, step)| checker.ask(&self.tables(progress), &named(step, &NAMES)).reply);
        assert!(replies.iter().all(|reply| *reply == replies[0]), "{replies:?}");
        // The steps that don't complete have none of these tests.
        for (progress, step) in [([0, 0, PENDING], Step::Claim), ([0, 0, CLAIMED], Step::ApproveGiver), ([1, 0, PENDING], Step::Cancel)] {
            assert_eq!(checker.ask(&self.tables(progress), &named(step, &NAMES)).reply, NO_ROW);
        }
        replies[0]
    }
}

/// 12 to 16, alone and together. A position that is absent can't pass its limit, so where 15 and 16 meet, 16 is by the giving account's totals.
fn completing_refused(checker: &mut Checker) {
    for side in [1, 2] {
        for faults in 0..32 {
            let has = |number: i64| faults & (1 << (number - 12)) != 0;
            let limits = Limits {
                side,
                held: if has(12) { 14 } else { 15 },
                quantity: match (has(15) && has(16), side) {
                    (false, _) => 3,
                    (true, 1) => -3_999_999_999_999_999_986,
                    (true, _) => 3_999_999_999_999_999_986,
                },
                greatest: if has(13) { 65_534 } else { 65_533 },
                records_room: if has(14) { 3 } else { 4 },
                taken: if has(16) && !has(15) { Some(999_999_999_986) } else { None },
                positions_room: if has(15) { 1 } else { 2 },
            };
            let first = (12..=16).find(|number| has(*number));
            assert_eq!(limits.ask(checker), first.map_or(TWO_ROWS, refused));
        }
    }
}

/// Each figure that the step that completes tests, around its limit.
fn completing_at_the_limits(checker: &mut Checker) {
    let answers = |checker: &mut Checker, limits: Limits, accepted: bool, number: i64| {
        assert_eq!(limits.ask(checker), if accepted { TWO_ROWS } else { refused(number) });
    };
    for side in [1, 2] {
        for held in [0, 1, 13, 14, 15, 16, 1_000_000_000_000] {
            answers(checker, Limits { side, held, ..WIDE }, held >= 15, 12);
        }
        for greatest in [1, 2, 65_531, 65_532, 65_533, 65_534, 65_535] {
            answers(checker, Limits { side, greatest, ..WIDE }, greatest <= 65_533, 13);
        }
        for records_room in 2..=6 {
            answers(checker, Limits { side, records_room, ..WIDE }, records_room >= 4, 14);
        }
        for positions_room in 1..=3 {
            answers(checker, Limits { side, positions_room, ..WIDE }, positions_room >= 2, 15);
        }
        for below in [0, 1, 13, 14, 15, 16, 1_000_000_000_000] {
            answers(checker, Limits { side, taken: Some(1_000_000_000_000 - below), ..WIDE }, below >= 15, 16);
        }
    }
}

/// So many records under give-up, a process of each under even process ids from 100 on, with such a count, and some records that are adjustable.
fn many_processes(count: usize, len: usize) -> Tables {
    let mut tables = many(1_036, 1_040, 4);
    for row in 0..1_026 {
        set_record(&mut tables, row, 4, 3);
    }
    let rows: Vec<i64> = (0..1_026).flat_map(|k| [100 + 2 * k, 10 + k, 0, 1, 2, 1, k % 2, 0, if k % 3 == 0 { CLAIMED } else { PENDING }]).collect();
    tables.processes = [vec![count as i64], rows, vec![-3; 40]].concat();
    tables.processes.truncate(len);
    tables
}

/// Process tables at 1,024 rows, in slices that are just long enough, shorter and longer.
fn full_processes(checker: &mut Checker) {
    for spare in [0, 8, 9, 10, 40] {
        for count in 1_022..=1_025 {
            let tables = many_processes(count, processes_len(MOST_PROCESSES) + spare);
            let opening = |process: i64| named(Step::Open, &[process, 1_040, 0, 1, 2, 1]);
            let expected = refused_or(count > 1_024, 19, refused_or(count == 1_024, 23, NO_ROW));
            for process in [1, 1_001, 999_999_999] {
                assert_eq!(checker.ask(&tables, &opening(process)).reply, expected, "process {process}, count {count}");
            }
            for k in [0, 1, 3, 511, count as i64 - 1] {
                for step in EACH {
                    checker.ask(&tables, &named(step, &[100 + 2 * k, 10 + k, 0, 1, 2, 1]));
                }
            }
        }
    }
    // Other requests are not lent the table.
    for count in [1_024, 1_025] {
        let request = Request::Transfer { id: 1_040, suffix: 0, from: 1, to: 2, series: 1 };
        assert_eq!(checker.ask(&many_processes(count, processes_len(1_026)), &request).reply, TWO_ROWS);
    }
}

fn refused_or(refuses: bool, number: i64, otherwise: Reply) -> Reply {
    if refuses {
        refused(number)
    } else {
        otherwise
    }
}

/// 1,024 processes are reached by opening, at the front, in between and at the end, and not passed.
fn up_to_the_greatest_room(checker: &mut Checker) {
    let mut tables = many_processes(1_019, processes_len(MOST_PROCESSES) + 12);
    for (k, process) in [7, 99, 101, 1_501, 999_999_999, 6, 3_000].into_iter().enumerate() {
        let request = named(Step::Open, &[process, 1_037 + k as i64, 0, 1, 2, 1]);
        assert_eq!(checker.call(&mut tables, &request).reply, if k < 5 { NO_ROW } else { refused(23) });
    }
}

/// "two processes may name one record": whoever ends first takes it from the other.
fn two_processes_of_one_record(checker: &mut Checker) {
    let (one, other, third) = (GIVEN, [50, 7, 2, 1, 3, 1], [45, 7, 2, 1, 9, 1]);
    let both = || {
        let mut tables = tables([1, 0, PENDING]);
        tables.processes.splice(processes_len(2)..processes_len(2), [&other[..], &[0, 0, PENDING]].concat());
        tables.processes[0] += 1;
        tables
    };
    let paths: [&[(Step, [i64; 6], Reply)]; 4] = [
        &[(Step::Claim, one, NO_ROW), (Step::Claim, other, NO_ROW), (Step::ApproveTaker, one, TWO_ROWS), (Step::ApproveTaker, other, refused(7))],
        &[(Step::Cancel, other, NO_ROW), (Step::Claim, one, refused(7)), (Step::Cancel, one, refused(7)), (Step::ApproveGiver, one, refused(18))],
        &[(Step::Refuse, one, NO_ROW), (Step::Open, third, NO_ROW), (Step::Claim, other, NO_ROW), (Step::Cancel, third, NO_ROW)],
        &[(Step::ApproveGiver, other, NO_ROW), (Step::Open, third, refused(17)), (Step::Claim, other, NO_ROW), (Step::ApproveTaker, other, TWO_ROWS)],
    ];
    for path in paths {
        let mut tables = both();
        for (step, names, expected) in path {
            assert_eq!(checker.call(&mut tables, &named(*step, names)).reply, *expected, "{step:?} {names:?}");
        }
        for step in EACH {
            for names in [one, other, third] {
                checker.ask(&tables, &named(step, &names));
            }
        }
    }
}

/// Rows that no steps lead to: equal accounts, approvals before their turn, and records that are not there or not under give-up.
fn foreign_rows(checker: &mut Checker) {
    let with = |progress: [i64; 3], cell: usize, value: i64| {
        let mut tables = tables(progress);
        tables.processes[processes_len(1) + cell] = value;
        tables
    };
    for step in EACH {
        // A step can't name equal accounts, and others are unlike the row's.
        let equal = with([1, 0, CLAIMED], 4, 1);
        assert_eq!(checker.ask(&equal, &named(step, &[40, 7, 2, 1, 1, 1])).reply, refused(3));
        assert_eq!(checker.ask(&equal, &named(step, &GIVEN)).reply, refused(18));
        for progress in [[0, 1, PENDING], [1, 1, PENDING], [1, 1, CLAIMED], [0, 1, 0], [1, 1, 12]] {
            checker.ask(&tables(progress), &named(step, &GIVEN));
        }
        // Ids 4, 6, 8 and 999,999,999 have no record; suffixes 0, 1 and 3 of id 7 have other statuses.
        for (cell, value) in [(1, 4), (1, 6), (1, 8), (1, 999_999_999), (2, 0), (2, 1), (2, 3), (2, 4), (2, 65_535), (3, 3), (5, 2)] {
            for progress in [[1, 0, CLAIMED], [1, 1, PENDING], [0, 0, PENDING]] {
                let mut names = GIVEN;
                names[cell] = value;
                checker.ask(&with(progress, cell, value), &named(step, &names));
            }
        }
    }
    assert_eq!(checker.ask(&tables([0, 1, PENDING]), &named(Step::ApproveTaker, &GIVEN)).reply, refused(18));
    assert_eq!(checker.ask(&with([0, 0, PENDING], 4, 1), &named(Step::Claim, &[60, 9, 0, 3, 1, 2])).reply, NO_ROW);
}

/// Every request that would adjust a record under give-up: 17, "one test with 7"; in a merge the first source whose status isn't 0 gives number and place.
fn under_give_up(checker: &mut Checker) {
    let before = tables([0, 0, PENDING]);
    for request in [
        Request::Separate { id: 7, suffix: 2, account: 1, series: 1, parts: vec![5, 10] },
        Request::Transfer { id: 7, suffix: 2, from: 1, to: 2, series: 1 },
        named(Step::Open, &[30, 7, 2, 1, 2, 1]),
    ] {
        assert_eq!(checker.ask(&before, &request).reply, refused(17), "{request:?}");
        let mut to_close = before.clone();
        set_record(&mut to_close, GIVEN_RECORD, 7, 3);
        assert_eq!(checker.ask(&to_close, &request).reply, refused(17), "{request:?}");
    }
    let sources = [(5, 0, 0), (7, 0, 7), (7, 1, 7), (7, 2, 17), (7, 3, 0)];
    for (a, b, c) in triples(sources.len()) {
        let listed = [a, b, c].map(|k| sources[k]);
        let pairs = listed.iter().flat_map(|(id, suffix, _)| [*id, *suffix]).collect();
        let reply = checker.ask(&before, &Request::Merge { id: 6, account: 1, series: 1, pairs }).reply;
        if let Some(place) = listed.iter().position(|source| source.2 > 0) {
            assert_eq!(reply, Reply::Refused { number: listed[place].2, place: place as i64 }, "{listed:?}");
        }
    }
    // 6 comes before, over the whole list, and 8 after.
    let merge = |pairs: &[i64]| Request::Merge { id: 6, account: 1, series: 1, pairs: pairs.to_vec() };
    assert_eq!(checker.ask(&before, &merge(&[7, 2, 9, 0])).reply, Reply::Refused { number: 6, place: 1 });
    let mut to_close = before.clone();
    to_close.records[records_len(0) + 7] = 3;
    assert_eq!(checker.ask(&to_close, &merge(&[5, 0, 7, 2])).reply, Reply::Refused { number: 17, place: 1 });
}

/// Three places of so many, in every order.
fn triples(count: usize) -> impl Iterator<Item = (usize, usize, usize)> {
    let all = (0..count).flat_map(move |a| (0..count).flat_map(move |b| (0..count).map(move |c| (a, b, c))));
    all.filter(|(a, b, c)| a != b && b != c && a != c)
}
