//! The fixed part of a run for give-ups: every step at every stage, every figure, cell and length, and the order of the refusals.

use crate::checker::Checker;
use crate::draw::{figures, set_figure, ENDS};
use crate::give_up_limits;
use crate::give_ups::{named, CLAIMED, EACH, PENDING, STAGES};
use crate::sweeps::small;
use crate::tables::{positions_len, processes_len, records_len, Tables, PROCESS_CELLS};
use model::{Reply, Request, Step};

/// What the steps of process 40 name.
pub const GIVEN: [i64; 6] = [40, 7, 2, 1, 2, 1];
/// What an opening names that is accepted beside it.
pub const OPENED: [i64; 6] = [30, 5, 0, 1, 2, 1];
/// The rows of record 7, suffix 2, and of process 40.
pub const GIVEN_RECORD: usize = 3;
const GIVEN_PROCESS: usize = 1;

/// The small tables, and three processes. Process 40 gives record 7, suffix 2, a buy of 15, up from account 1 to account 2, and has these approvals and this
/// stage; beside it stand one that was cancelled and one that is pending, of a sell.
pub fn tables(progress: [i64; 3]) -> Tables {
    let mut tables = small();
    set_record(&mut tables, GIVEN_RECORD, 4, 3);
    for (cell, value) in [(3, 0), (4, 3), (7, 2)] {
        set_record(&mut tables, 5, cell, value);
    }
    let rows = [vec![20, 5, 0, 1, 3, 1, 1, 0, 12], [&GIVEN[..], &progress].concat(), vec![60, 9, 0, 3, 1, 2, 0, 0, PENDING]];
    tables.processes = [vec![3], rows.concat()].concat();
    tables.processes.extend((0..PROCESS_CELLS as i64 * 2 + 4).map(|k| -3_000 - k));
    tables
}

pub fn set_record(tables: &mut Tables, row: usize, cell: usize, value: i64) {
    tables.records[records_len(row) + cell] = value;
}

fn set_process(tables: &mut Tables, cell: usize, value: i64) {
    tables.processes[processes_len(GIVEN_PROCESS) + cell] = value;
}

/// Steps that are accepted, with their tables and the rows that they add.
fn accepted() -> Vec<(Tables, Request, i64)> {
    let step = |progress: [i64; 3], step: Step, rows: i64| (tables(progress), named(step, &GIVEN), rows);
    vec![
        (tables([0, 0, PENDING]), named(Step::Open, &OPENED), 0),
        step([0, 0, PENDING], Step::Claim, 0),
        step([0, 1, PENDING], Step::Claim, 0),
        step([1, 1, PENDING], Step::Claim, 2),
        step([0, 0, PENDING], Step::Cancel, 0),
        step([1, 0, PENDING], Step::Refuse, 0),
        step([0, 0, PENDING], Step::ApproveGiver, 0),
        step([0, 0, CLAIMED], Step::ApproveGiver, 0),
        step([0, 1, CLAIMED], Step::ApproveGiver, 2),
        step([0, 0, CLAIMED], Step::ApproveTaker, 0),
        step([1, 0, CLAIMED], Step::ApproveTaker, 2),
    ]
}

/// One opening and one step that completes: those that read and write the most.
fn opening_and_last() -> Vec<(Tables, Request, i64)> {
    let mut accepted = accepted();
    vec![accepted.remove(0), accepted.pop().expect("there are eleven")]
}

pub fn run(checker: &mut Checker) {
    for (tables, request, rows) in accepted() {
        assert_eq!(checker.ask(&tables, &request).reply, Reply::Booked { rows, residual: 0 }, "{request:?}");
    }
    every_stage(checker);
    every_path(checker, &tables([0, 0, PENDING]), 6);
    every_figure(checker);
    every_cell(checker);
    every_length(checker);
    every_code(checker);
    rising_rows(checker);
    unsound_tables(checker);
    openings(checker);
    later_steps(checker);
    give_up_limits::run(checker);
}

/// Each step at each stage with any approvals, on a record of each status and side; and an opening on that record.
fn every_stage(checker: &mut Checker) {
    for stage in STAGES {
        for approvals in 0..4 {
            for (status, side) in statuses_and_sides() {
                let mut tables = tables([approvals / 2, approvals % 2, stage]);
                set_status_and_side(&mut tables, status, side);
                for step in EACH {
                    checker.ask(&tables, &named(step, &GIVEN));
                }
                checker.ask(&tables, &named(Step::Open, &[30, 7, 2, 1, 2, 1]));
            }
        }
    }
}

fn statuses_and_sides() -> impl Iterator<Item = (i64, i64)> {
    (0..4).flat_map(|status| (1..=4).map(move |side| (status, side)))
}

fn set_status_and_side(tables: &mut Tables, status: i64, side: i64) {
    for (cell, value) in [(4, status), (7, side), (8, if status == 2 { -15 } else { 15 })] {
        set_record(tables, GIVEN_RECORD, cell, value);
    }
}

/// Every step, and after each one that is accepted every step again.
fn every_path(checker: &mut Checker, tables: &Tables, depth: usize) {
    for step in EACH {
        for names in [GIVEN, [50, 7, 2, 1, 2, 1]] {
            let mut after = tables.clone();
            if depth > 0 && matches!(checker.call(&mut after, &named(step, &names)).reply, Reply::Booked { .. }) {
                every_path(checker, &after, depth - 1);
            }
        }
    }
}

/// Each figure of each step at each end.
fn every_figure(checker: &mut Checker) {
    for (tables, request, _) in accepted() {
        for which in 0..figures(&request) {
            for end in ENDS {
                let mut request = request.clone();
                set_figure(&mut request, which, end);
                checker.ask(&tables, &request);
            }
        }
    }
}

/// Each cell of the process table at each end, for each step; each cell of the other two for an opening and a step that completes.
fn every_cell(checker: &mut Checker) {
    for end in ENDS {
        for (before, request, _) in accepted() {
            for cell in 0..processes_len(3) {
                let mut tables = before.clone();
                tables.processes[cell] = end;
                checker.ask(&tables, &request);
            }
        }
        for (before, request, _) in opening_and_last() {
            for cell in 0..records_len(6) {
                let mut tables = before.clone();
                tables.records[cell] = end;
                checker.ask(&tables, &request);
            }
            for cell in 0..positions_len(3) {
                let mut tables = before.clone();
                tables.positions[cell] = end;
                checker.ask(&tables, &request);
            }
        }
    }
}

/// Each length of the process slice with each count, for each step; each length of the other two for an opening and a step that completes.
fn every_length(checker: &mut Checker) {
    for count in -1..=6 {
        for (before, request, _) in accepted() {
            for len in 0..=before.processes.len() {
                let mut tables = before.clone();
                tables.processes[0] = count;
                tables.processes.truncate(len);
                checker.ask(&tables, &request);
            }
        }
    }
    for (before, request, _) in opening_and_last() {
        for len in 0..before.records.len() {
            let mut tables = before.clone();
            tables.records.truncate(len);
            checker.ask(&tables, &request);
        }
        for len in 0..before.positions.len() {
            let mut tables = before.clone();
            tables.positions.truncate(len);
            checker.ask(&tables, &request);
        }
    }
}

/// Every small number as a stage and as an approval, and as the named record's type and status.
fn every_code(checker: &mut Checker) {
    for (before, request, _) in accepted() {
        for code in -2..=33 {
            for cell in 6..9 {
                let mut tables = before.clone();
                set_process(&mut tables, cell, code);
                checker.ask(&tables, &request);
            }
            for cell in 3..5 {
                let mut tables = before.clone();
                set_record(&mut tables, GIVEN_RECORD, cell, code);
                checker.ask(&tables, &request);
            }
        }
    }
}

/// Two process rows whose process ids and ids rise, stay or fall: the process ids alone decide.
fn rising_rows(checker: &mut Checker) {
    for (before, request, _) in accepted() {
        for process in [19, 20, 21, 39, 40, 41] {
            for id in 5..=9 {
                let mut tables = before.clone();
                tables.processes[processes_len(0)] = process;
                tables.processes[processes_len(0) + 1] = id;
                let rises = process < 40;
                let refused_19 = checker.ask(&tables, &request).reply == Reply::Refused { number: 19, place: 0 };
                assert_eq!(refused_19, !rises, "process {process}, id {id}");
            }
        }
    }
}

/// 1, 2, 19 and 3, alone and together.
fn unsound_tables(checker: &mut Checker) {
    let damages: [fn(&mut Vec<i64>); 8] = [
        |cells| cells.clear(),
        |cells| cells[0] = -1,
        |cells| cells[0] = 6,
        |cells| cells[0] = i64::MIN,
        |cells| cells[0] = i64::MAX,
        |cells| cells.copy_within(1..10, 10),
        |cells| cells[processes_len(GIVEN_PROCESS) + 8] = 7,
        |cells| cells[processes_len(GIVEN_PROCESS) + 6] = 2,
    ];
    for (before, request, rows) in accepted() {
        for (k, damage) in damages.iter().enumerate() {
            for faults in 0..16 {
                let has = |fault: usize| faults & (1 << fault) != 0;
                let (mut tables, mut request) = (before.clone(), request.clone());
                if has(0) {
                    tables.records[k % 2 * records_len(1)] = -1;
                }
                if has(1) {
                    tables.positions[k % 2 * 3] = -1;
                }
                if has(2) {
                    damage(&mut tables.processes);
                }
                if has(3) {
                    set_figure(&mut request, k % 6, -1);
                }
                let first = [1, 2, 19, 3].into_iter().enumerate().find(|(fault, _)| has(*fault));
                let expected = first.map_or(Reply::Booked { rows, residual: 0 }, |(_, number)| Reply::Refused { number, place: 0 });
                assert_eq!(checker.ask(&tables, &request).reply, expected, "{request:?}");
            }
        }
    }
}

/// Process 40's record gone, or in another account, or in another series, or as it is.
fn with_record(tables: &Tables, which: usize) -> Tables {
    let mut tables = tables.clone();
    match which {
        0 => {
            tables.records.copy_within(records_len(GIVEN_RECORD + 1)..records_len(6), records_len(GIVEN_RECORD));
            tables.records[0] -= 1;
        }
        1 => set_record(&mut tables, GIVEN_RECORD, 5, 3),
        2 => set_record(&mut tables, GIVEN_RECORD, 6, 2),
        _ => {}
    }
    tables
}

/// What an opening tests, alone and together: the process id, the record, its account and series, status and side, and the room for the process.
fn openings(checker: &mut Checker) {
    for (status, side) in statuses_and_sides() {
        let mut before = tables([0, 0, 12]);
        set_status_and_side(&mut before, status, side);
        for which in 0..4 {
            for process in [30, 40, 70] {
                for len in [processes_len(3), processes_len(4) - 1, processes_len(4), before.processes.len()] {
                    let mut tables = with_record(&before, which);
                    tables.processes.truncate(len);
                    let first = match (process, which, status, side) {
                        (40, ..) => 18,
                        (_, 0, ..) => 5,
                        (_, 1 | 2, ..) => 6,
                        (_, _, 3, _) => 17,
                        (_, _, 1 | 2, _) => 7,
                        (.., 3 | 4) => 8,
                        _ => 23,
                    };
                    let accepted = first == 23 && len >= processes_len(4);
                    let expected = if accepted { Reply::Booked { rows: 0, residual: 0 } } else { Reply::Refused { number: first, place: 0 } };
                    let request = named(Step::Open, &[process, 7, 2, 1, 2, 1]);
                    assert_eq!(checker.ask(&tables, &request).reply, expected, "{request:?}");
                }
            }
        }
    }
}

/// What a later step tests, alone and together: each figure against the row's, the turn, the record, its account and series, status and side.
fn later_steps(checker: &mut Checker) {
    for (status, side) in statuses_and_sides() {
        for stage in [PENDING, CLAIMED] {
            let mut before = tables([0, 0, stage]);
            set_status_and_side(&mut before, status, side);
            for which in 0..4 {
                let tables = with_record(&before, which);
                for unlike in 0..=GIVEN.len() {
                    let mut names = GIVEN;
                    if let Some(figure) = names.get_mut(unlike) {
                        *figure += 2;
                    }
                    for step in &EACH[1..] {
                        let may = unlike == GIVEN.len() && has_turn(*step, stage);
                        let expected = match (which, status, side) {
                            _ if !may => Reply::Refused { number: 18, place: 0 },
                            (0, ..) => Reply::Refused { number: 5, place: 0 },
                            (1 | 2, ..) => Reply::Refused { number: 6, place: 0 },
                            (_, 0..=2, _) => Reply::Refused { number: 7, place: 0 },
                            (.., 3 | 4) => Reply::Refused { number: 8, place: 0 },
                            _ => Reply::Booked { rows: 0, residual: 0 },
                        };
                        assert_eq!(checker.ask(&tables, &named(*step, &names)).reply, expected, "{step:?} {names:?}");
                    }
                }
            }
        }
    }
}

/// Of a process without approvals that is pending or claimed.
fn has_turn(step: Step, stage: i64) -> bool {
    match step {
        Step::Open => false,
        Step::Claim | Step::Cancel | Step::Refuse => stage == PENDING,
        Step::ApproveGiver => true,
        Step::ApproveTaker => stage == CLAIMED,
    }
}
