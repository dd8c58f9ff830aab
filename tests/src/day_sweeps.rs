//! The fixed part of a run for days and the list: every day around the ends and around the current one, every day in a header and a row, every number of cells
//! for the pairs, every status, day and parent of two records, lines of days, the greatest rooms, and 002's examples.

use crate::checker::Checker;
use crate::days;
use crate::draw::ENDS;
use crate::give_ups::named;
use crate::sweeps::{accepted, many, small};
use crate::tables::{positions_len, processes_len, records_len, Tables, CURRENT_DAY, MOST_RECORDS, RECORD_CELLS, RECORD_DAY};
use model::journal::line_of;
use model::{Answer, Reply, Request, Step};
use velichundam::LAST_DAY;

pub fn run(checker: &mut Checker) {
    every_day(checker);
    every_header_and_row(checker);
    short_tables(checker);
    every_pair_of_records(checker);
    every_number_of_cells(checker);
    missing_parents(checker);
    far_parents(checker);
    greatest_rooms(checker);
    lines_of_days(checker);
    over_two_days(checker);
    transaction_123456(checker);
    average_pricing(checker);
}

const MOVED: Reply = Reply::Booked { rows: 0, residual: 0 };

fn refused(number: i64) -> Reply {
    Reply::Refused { number, place: 0 }
}

fn listed(pairs: &[i64]) -> Answer {
    Answer { reply: Reply::Listed { records: pairs.len() as i64 / 2 }, output: pairs.to_vec() }
}

/// Records by id, suffix, parent, type, status and day, on a current day, with some room and a part of a row at the end.
fn on(today: i64, rows: &[[i64; 6]]) -> Tables {
    let mut records = vec![rows.len() as i64, today];
    for &[id, suffix, parent, kind, status, day] in rows {
        records.extend([id, suffix, parent, kind, status, 1, 1, 1, if status == 2 { -5 } else { 5 }, 9, 0, 0, 0, day]);
    }
    records.resize(records_len(rows.len() + 3) + 5, -91);
    Tables::without_processes(records, vec![0, -92, -92])
}

/// Days around the ends and around the current one, on some current days, beside positions that are sound, not sound and not there.
fn every_day(checker: &mut Checker) {
    for today in [0, 1, 2, 30, 99_997, 99_998, LAST_DAY] {
        let around = (-2..=2).flat_map(|k| [k, today + k, LAST_DAY + k]).chain(ENDS).chain((0..17).map(|power| 1 << power));
        for day in around {
            for positions in [vec![0], vec![-1], vec![]] {
                let mut tables = on(today, &[[7, 0, 0, 0, 0, 0], [8, 0, 0, 0, 0, today]]);
                tables.positions = positions;
                let before = tables.clone();
                let moves = (1..=LAST_DAY).contains(&day) && day > today;
                let reply = checker.call(&mut tables, &Request::NewDay { day }).reply;
                assert_eq!(reply, if moves { MOVED } else { refused(3) }, "day {day} on {today}");
                let mut expected = before;
                if moves {
                    expected.records[CURRENT_DAY] = day;
                }
                assert_eq!(tables, expected);
            }
        }
    }
}

/// Each request on tables whose header and one of whose rows have any days.
fn every_header_and_row(checker: &mut Checker) {
    let around = |day: i64| [-2, -1, 0, 1, day - 1, day, day + 1, day + 2, LAST_DAY - 1, LAST_DAY, LAST_DAY + 1, LAST_DAY + 2, i64::MIN, i64::MAX];
    for request in accepted() {
        for today in around(30) {
            let mut tables = small();
            tables.records[CURRENT_DAY] = today;
            let sound = (30..=LAST_DAY).contains(&today);
            let reply = checker.ask(&tables, &request).reply;
            assert_eq!(reply == refused(1), !sound, "{request:?} on day {today}");
        }
        for row in 0..6 {
            for day in around(30) {
                let mut tables = small();
                tables.records[records_len(row) + RECORD_DAY] = day;
                let reply = checker.ask(&tables, &request).reply;
                assert_eq!(reply == refused(1), !(0..=30).contains(&day), "{request:?}, row {row} of day {day}");
            }
        }
    }
}

/// Each request on tables of few cells: none, one, two, and a part of a row.
fn short_tables(checker: &mut Checker) {
    for request in accepted() {
        for len in 0..RECORD_CELLS + 3 {
            for count in [0, 1, -1] {
                let mut tables = small();
                tables.records = [vec![count], vec![0; RECORD_CELLS + 2]].concat();
                tables.records.truncate(len);
                checker.ask(&tables, &request);
            }
        }
    }
    let trade = Request::Trade { id: 8, account: 1, series: 1, side: 1, quantity: 3, price: 99 };
    for (records, number) in [(vec![], 1), (vec![0], 1), (vec![0, 0], 14)] {
        assert_eq!(checker.ask(&Tables::without_processes(records, vec![0]), &trade).reply, refused(number));
    }
    assert_eq!(checker.ask(&Tables::without_processes(vec![0, 0], vec![]), &Request::NewDay { day: 1 }).reply, MOVED);
    assert_eq!(checker.ask(&Tables::without_processes(vec![0, 0], vec![]), &Request::Reportable { cells: 0 }), listed(&[]));
}

/// Two records of each status and day, the second of which names the first or itself or none as its parent, with any type.
fn every_pair_of_records(checker: &mut Checker) {
    let days = [(0, 0, 0), (1, 0, 0), (1, 0, 1), (1, 1, 0), (1, 1, 1), (9, 7, 8), (9, 7, 9), (9, 9, 7), (9, 9, 9), (9, 0, 9), (LAST_DAY, 99_998, LAST_DAY)];
    for (today, first, second) in days {
        for status in 0..16 {
            for kind in [0, 4, 6, 10, 20, 30, 901] {
                for (suffix, parent) in [(0, 0), (2, 0), (3, 1), (3, 2), (65_535, 65_534)] {
                    // The first has suffix 0 or 2, of the same id or of one before it.
                    for at in [[7, 0], [7, 2], [6, 0]].into_iter().filter(|at| *at < [7, suffix]) {
                        let tables = on(today, &[[at[0], at[1], 0, 6, status / 4, first], [7, suffix, parent, kind, status % 4, second]]);
                        for cells in [2, 4] {
                            checker.ask(&tables, &Request::Reportable { cells });
                        }
                    }
                }
            }
        }
    }
}

/// The list of so many records of the current day, into every number of cells.
fn every_number_of_cells(checker: &mut Checker) {
    for count in 0..6 {
        let rows: Vec<[i64; 6]> = (0..2 * count).map(|k| [20 + k, 0, 0, 0, 3 * (k / 2 % 2), 4 + k % 2]).collect();
        let tables = on(5, &rows);
        let pairs: Vec<i64> = (0..count).flat_map(|k| [21 + 2 * k, 0]).collect();
        for cells in 0..16 {
            let answer = checker.ask(&tables, &Request::Reportable { cells });
            assert_eq!(answer, if cells < pairs.len() { refused(14).into() } else { listed(&pairs) }, "{count} records, {cells} cells");
        }
    }
}

/// An inverse at each place of a family whose parent row is missing: of the current day 5, before a short slice; of another day or status none.
fn missing_parents(checker: &mut Checker) {
    for place in 0..6 {
        for status in 0..4 {
            for day in [4, 5] {
                for of_another_id in [false, true] {
                    let mut rows: Vec<[i64; 6]> = (0..6).map(|k| [7, 10 * k + 10, 0, 6, 0, 5]).collect();
                    rows[place] = [7, 10 * place as i64 + 10, 10 * place as i64 + 5, 6, status, day];
                    if of_another_id {
                        rows.insert(0, [6, 10 * place as i64 + 5, 0, 6, 1, 4]);
                        rows.push([8, 10 * place as i64 + 5, 0, 6, 1, 4]);
                    }
                    let needed = 2 * (5 + usize::from(day == 5 && matches!(status, 0 | 3)));
                    for cells in [0, 1, needed - 1, needed, needed + 1] {
                        let lacks = status == 2 && day == 5;
                        let expected = if lacks { 5 } else { 14 };
                        let reply = checker.ask(&on(5, &rows), &Request::Reportable { cells }).reply;
                        assert_eq!(reply, if lacks || cells < needed { refused(expected) } else { Reply::Listed { records: needed as i64 / 2 } });
                    }
                }
            }
        }
    }
}

/// A family of so many suffixes, of which the last is the inverse of one of the others.
fn far_parents(checker: &mut Checker) {
    for rows in [1, 2, 3, 7, 8, 9, 200, 4_095] {
        for parent in [0, 1, 2, rows / 2, rows - 2, rows - 1].into_iter().filter(|parent| (0..rows).contains(parent)) {
            for day in [4, 5] {
                let mut family: Vec<[i64; 6]> = (0..rows).map(|suffix| [7, suffix, 0, 6, 1, 5]).collect();
                family[parent as usize][5] = day;
                family.push([7, rows, parent, 4, 2, 5]);
                let answer = checker.ask(&on(5, &family), &Request::Reportable { cells: 2 });
                assert_eq!(answer, if day < 5 { listed(&[7, rows]) } else { listed(&[]) });
            }
        }
    }
}

/// Tables at 4,096 records, in slices that are just long enough, shorter and longer: the day, and a list of all of them.
fn greatest_rooms(checker: &mut Checker) {
    for spare in [0, RECORD_CELLS - 1, RECORD_CELLS, 40] {
        for count in [4_095, 4_096, 4_097] {
            let mut tables = many(4_098, 4_100, 4);
            for row in 0..4_098 {
                tables.records[records_len(row) + RECORD_DAY] = 8;
            }
            tables.records[0] = count;
            tables.records.truncate(records_len(MOST_RECORDS) + spare);
            let sound = count <= 4_096;
            for cells in [8_189, 8_190, 8_191, 8_192, 8_193, 9_000] {
                let reply = checker.ask(&tables, &Request::Reportable { cells }).reply;
                let expected = match (sound, 2 * count as usize <= cells) {
                    (false, _) => refused(1),
                    (_, false) => refused(14),
                    _ => Reply::Listed { records: count },
                };
                assert_eq!(reply, expected);
            }
            assert_eq!(checker.ask(&tables, &Request::NewDay { day: 9 }).reply, if sound { MOVED } else { refused(1) });
            assert_eq!(checker.ask(&tables, &Request::NewDay { day: 8 }).reply, refused(if sound { 3 } else { 1 }));
        }
    }
}

fn line(request: &Request) -> String {
    line_of(request).expect("it has a line")
}

/// Lines of days before, between and after others: booked, refused, bad, beside positions and processes that are not sound, and on records that are not.
fn lines_of_days(checker: &mut Checker) {
    let trade = |id: i64| line(&Request::Trade { id, account: 1, series: 1, side: 1, quantity: 2, price: 3 });
    let replay = |checker: &mut Checker, tables: &mut Tables, text: String| checker.call(tables, &Request::Replay { text: text.into_bytes() }).reply;
    for first in (-1..=3).chain([29, 30, 31, LAST_DAY - 1, LAST_DAY, LAST_DAY + 1]) {
        for second in [0, 1, first - 1, first, first + 1, LAST_DAY, LAST_DAY + 1] {
            for today in [0, 2, 30, LAST_DAY] {
                for between in [String::new(), trade(100)] {
                    let mut tables = on(today, &[[7, 0, 0, 0, 0, 0]]);
                    tables.positions = vec![0; positions_len(2)];
                    let text = format!("D\t{first}\n{between}D\t{second}\n{}", trade(101));
                    replay(checker, &mut tables, text);
                }
            }
        }
    }
    for (positions, processes) in [(vec![], vec![0]), (vec![-1], vec![]), (vec![0; positions_len(2)], vec![-1])] {
        let sound = positions.len() > 1;
        for days in 0..4 {
            let lines: String = (1..=days).map(|day| format!("D\t{day}\n")).collect();
            let mut tables = Tables { records: vec![0; records_len(4)], positions: positions.clone(), processes: processes.clone() };
            assert_eq!(replay(checker, &mut tables, lines.clone()), Reply::Replayed { lines: days });
            assert_eq!(tables.today(), days);
            let mut tables = Tables { records: vec![0; records_len(4)], positions: positions.clone(), processes: processes.clone() };
            let stopped = Reply::LineRefused { line: days + 1, number: 2, place: 0 };
            let text = [lines, trade(5), format!("D\t{}\n", days + 1)].concat();
            assert_eq!(replay(checker, &mut tables, text), if sound { Reply::Replayed { lines: days + 2 } } else { stopped });
            assert_eq!(tables.today(), if sound { days + 1 } else { days });
        }
    }
    for records in [vec![], vec![0], vec![0, -1], vec![-1, 0], vec![0, LAST_DAY + 1]] {
        let mut tables = Tables::without_processes(records, vec![0]);
        assert_eq!(replay(checker, &mut tables, "D\t1\n".into()), Reply::LineRefused { line: 1, number: 1, place: 0 });
    }
}

/// A give-up from account 1 to account 2, in series 1, from its opening to the booked rows.
fn give_up(checker: &mut Checker, tables: &mut Tables, id: i64, suffix: i64) {
    for step in [Step::Open, Step::Claim, Step::ApproveGiver, Step::ApproveTaker] {
        book(checker, tables, &named(step, &[1_000 + suffix, id, suffix, 1, 2, 1]));
    }
}

fn book(checker: &mut Checker, tables: &mut Tables, request: &Request) {
    assert!(matches!(checker.call(tables, request).reply, Reply::Booked { .. }), "{request:?}");
}

fn empty() -> Tables {
    let cells = |header: usize, len: usize| [vec![0; header], vec![-93; len - header]].concat();
    Tables {
        records: cells(records_len(0), records_len(40)),
        positions: cells(positions_len(0), positions_len(6)),
        processes: cells(processes_len(0), processes_len(12)),
    }
}

/// The suffixes of an id on the list, with more cells than needed, just enough, and one too few.
fn suffixes(checker: &mut Checker, tables: &Tables, id: i64) -> Vec<i64> {
    let Answer { reply, output } = checker.ask(tables, &Request::Reportable { cells: 80 });
    assert_eq!(reply, Reply::Listed { records: output.len() as i64 / 2 });
    assert_eq!(checker.ask(tables, &Request::Reportable { cells: output.len() }), listed(&output));
    if !output.is_empty() {
        assert_eq!(checker.ask(tables, &Request::Reportable { cells: output.len() - 1 }).reply, refused(14));
    }
    output.chunks(2).filter(|pair| pair[0] == id).map(|pair| pair[1]).collect()
}

/// Each request that adds an inverse, on records of the same day and of an earlier one: a merge of both, a give-up that is opened on one day and completed on
/// another, and one that stays open.
fn over_two_days(checker: &mut Checker) {
    let trade = |id: i64| Request::Trade { id, account: 1, series: 1, side: 1, quantity: 10, price: 5 };
    for moved in [false, true] {
        let mut tables = empty();
        let today = if moved { 2 } else { 0 };
        for id in [10, 20, 30, 40, 50, 60] {
            book(checker, &mut tables, &trade(id));
        }
        book(checker, &mut tables, &named(Step::Open, &[70, 50, 0, 1, 2, 1]));
        book(checker, &mut tables, &named(Step::Open, &[71, 60, 0, 1, 2, 1]));
        if moved {
            book(checker, &mut tables, &Request::NewDay { day: today });
        }
        book(checker, &mut tables, &trade(25));
        book(checker, &mut tables, &Request::Separate { id: 10, suffix: 0, account: 1, series: 1, parts: vec![4, 6] });
        book(checker, &mut tables, &Request::Merge { id: 26, account: 1, series: 1, pairs: vec![20, 0, 25, 0] });
        book(checker, &mut tables, &Request::Transfer { id: 30, suffix: 0, from: 1, to: 3, series: 1 });
        for step in [Step::Claim, Step::ApproveTaker, Step::ApproveGiver] {
            book(checker, &mut tables, &named(step, &[70, 50, 0, 1, 2, 1]));
        }
        let pairs = if moved {
            // The inverse of 25 is left out, whose trade is of this day too.
            vec![10, 1, 10, 2, 10, 3, 20, 1, 26, 0, 30, 1, 30, 2, 50, 1, 50, 2]
        } else {
            // All inverses are left out; what was not adjusted, 60 under give-up among it, is of the day.
            vec![10, 2, 10, 3, 26, 0, 30, 2, 40, 0, 50, 2, 60, 0]
        };
        assert_eq!(checker.ask(&tables, &Request::Reportable { cells: 40 }), listed(&pairs));
        assert_eq!(days::list(&tables, 40), Ok(pairs));
        book(checker, &mut tables, &named(Step::Cancel, &[71, 60, 0, 1, 2, 1]));
        book(checker, &mut tables, &Request::NewDay { day: today + 1 });
        assert_eq!(checker.ask(&tables, &Request::Reportable { cells: 0 }), listed(&[]));
    }
}

/// 002's table for transaction 123456, row by row: suffix, parent, whether it is adjusted (1), inverse (2) or not (0), type, and "Report?".
const TABLE: [(i64, &[[i64; 5]]); 3] = [
    (
        17,
        &[
            [0, 0, 1, 0, 0],
            [1, 0, 2, 6, 0],
            [2, 0, 0, 6, 1],
            [3, 0, 1, 6, 0],
            [4, 0, 1, 6, 0],
            [5, 0, 1, 6, 0],
            [6, 3, 2, 20, 0],
            [7, 3, 0, 30, 1],
            [8, 5, 2, 20, 0],
            [9, 5, 0, 30, 1],
            [10, 4, 2, 20, 0],
            [11, 4, 1, 30, 0],
            [12, 11, 2, 4, 0],
            [13, 11, 0, 4, 1],
        ],
    ),
    (18, &[[14, 2, 2, 6, 1], [15, 2, 0, 6, 1], [16, 2, 0, 6, 1], [17, 2, 0, 6, 1], [18, 2, 1, 6, 0], [19, 18, 2, 20, 0], [20, 18, 0, 30, 1]]),
    (19, &[[21, 15, 2, 20, 1], [22, 15, 0, 30, 1], [23, 17, 2, 20, 1], [24, 17, 0, 30, 1], [25, 16, 2, 20, 1], [26, 16, 0, 30, 1]]),
];

/// The table by our requests: each day adds the rows that it has for the day, of which its list has those that are reported.
fn transaction_123456(checker: &mut Checker) {
    let id = 123_456;
    let mut tables = empty();
    for (day, rows) in TABLE {
        book(checker, &mut tables, &Request::NewDay { day });
        match day {
            17 => {
                book(checker, &mut tables, &Request::Trade { id, account: 1, series: 1, side: 1, quantity: 100, price: 1_250_000_000 });
                book(checker, &mut tables, &Request::Separate { id, suffix: 0, account: 1, series: 1, parts: vec![40, 30, 20, 10] });
                for suffix in [3, 5, 4] {
                    give_up(checker, &mut tables, id, suffix);
                }
                book(checker, &mut tables, &Request::Transfer { id, suffix: 11, from: 2, to: 3, series: 1 });
            }
            18 => {
                book(checker, &mut tables, &Request::Separate { id, suffix: 2, account: 1, series: 1, parts: vec![10, 10, 12, 8] });
                give_up(checker, &mut tables, id, 18);
            }
            _ => {
                for suffix in [15, 17, 16] {
                    give_up(checker, &mut tables, id, suffix);
                }
            }
        }
        let booked: Vec<[i64; 4]> = tables.record_rows().filter(|row| row[RECORD_DAY] == day).map(|row| [row[1], row[2], row[4], row[3]]).collect();
        let of_table: Vec<[i64; 4]> = rows.iter().map(|&[suffix, parent, status, kind, _]| [suffix, parent, status, kind]).collect();
        assert_eq!(booked, of_table);
        let reported: Vec<i64> = rows.iter().filter(|row| row[4] == 1).map(|row| row[0]).collect();
        assert_eq!(suffixes(checker, &tables, id), reported);
    }
    checker.coverage.situation("list: 002's table for transaction 123456");
}

/// 002's two samples of average pricing, with our type 901 in the place of 011: three trades are merged, of which only the merged one is reported; then that one
/// is separated, and a part of it given up.
fn average_pricing(checker: &mut Checker) {
    let (sources, merged) = ([123_456, 456_789, 789_123], 800_000);
    let mut tables = empty();
    book(checker, &mut tables, &Request::NewDay { day: 17 });
    for id in sources {
        book(checker, &mut tables, &Request::Trade { id, account: 1, series: 1, side: 1, quantity: 10, price: id });
    }
    let pairs = sources.into_iter().flat_map(|id| [id, 0]).collect();
    book(checker, &mut tables, &Request::Merge { id: merged, account: 1, series: 1, pairs });
    assert_eq!(checker.ask(&tables, &Request::Reportable { cells: 8 }), listed(&[merged, 0]));
    book(checker, &mut tables, &Request::Separate { id: merged, suffix: 0, account: 1, series: 1, parts: vec![20, 10] });
    give_up(checker, &mut tables, merged, 2);
    assert_eq!(checker.ask(&tables, &Request::Reportable { cells: 8 }), listed(&[merged, 3, merged, 5]));
    checker.coverage.situation("list: 002's average pricing");
}
