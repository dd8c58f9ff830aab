//! Give-ups: a process table, and the six steps by which a record passes to another account.

use crate::table::{by_first, Positions, ProcessRow, Processes, Records};
use crate::{adjustable, answer, change_account, is_account, is_id, is_series, is_suffix, is_to_close, named, open, refuse_if};
use crate::{Outcome, Refusal, Reply, ADJUSTABLE, GIVE_UP, STATUS, TAKE_UP, UNDER_GIVE_UP};

#[derive(Clone, Copy, Debug, PartialEq, Eq)]
pub enum Step {
    Open,
    Claim,
    Cancel,
    Refuse,
    ApproveGiver,
    ApproveTaker,
}

impl Step {
    /// The step of a letter in a journal.
    pub fn of_letter(letter: u8) -> Option<Step> {
        match letter {
            b'O' => Some(Step::Open),
            b'C' => Some(Step::Claim),
            b'X' => Some(Step::Cancel),
            b'R' => Some(Step::Refuse),
            b'G' => Some(Step::ApproveGiver),
            b'T' => Some(Step::ApproveTaker),
            _ => None,
        }
    }
}

// The cells of a process row that steps change; those before them are what a step names.
const GIVER: usize = 6;
const TAKER: usize = 7;
const STAGE: usize = 8;

const DONE: i64 = 0;
const PENDING: i64 = 6;
const CLAIMED: i64 = 9;
const REFUSED: i64 = 10;
const CANCELLED: i64 = 12;

const PROCESSES_ROOM: usize = 1_024;

fn is_sound_process(row: &ProcessRow) -> bool {
    let [process, id, suffix, giving, taking, series, giver, taker, stage] = *row;
    are_figures(&[process, id, suffix, giving, taking, series])
        && (0..=1).contains(&giver)
        && (0..=1).contains(&taker)
        && matches!(stage, DONE | PENDING | CLAIMED | REFUSED | CANCELLED)
}

/// What every step names: process, id, suffix, giving, taking, series
pub type Names = [i64; 6];

fn are_figures(names: &Names) -> bool {
    let [process, id, suffix, giving, taking, series] = *names;
    is_id(process) && is_id(id) && is_suffix(suffix) && is_account(giving) && is_account(taking) && is_series(series)
}

#[allow(clippy::too_many_arguments)]
pub fn give_up(
    step: Step,
    records: &mut [i64],
    positions: &mut [i64],
    processes: &mut [i64],
    process: i64,
    id: i64,
    suffix: i64,
    giving: i64,
    taking: i64,
    series: i64,
) -> Reply {
    answer(try_give_up(step, records, positions, processes, &[process, id, suffix, giving, taking, series]))
}

/// Test 19.
pub fn open_processes(processes: &mut [i64]) -> Result<Processes<'_>, Refusal> {
    Processes::open(processes, PROCESSES_ROOM, by_first, |_, row| is_sound_process(row)).ok_or(Refusal { number: 19, place: 0 })
}

/// Test 3 of a step.
pub fn is_step(names: &Names) -> bool {
    are_figures(names) && names[3] != names[4]
}

fn try_give_up(step: Step, records: &mut [i64], positions: &mut [i64], processes: &mut [i64], names: &Names) -> Outcome {
    let (mut records, mut positions) = open(records, positions)?;
    let mut processes = open_processes(processes)?;
    refuse_if(!is_step(names), 3)?;
    book_step(step, &mut records, &mut positions, &mut processes, names)
}

/// A step that passes test 3, on sound tables.
pub fn book_step(step: Step, records: &mut Records, positions: &mut Positions, processes: &mut Processes, names: &Names) -> Outcome {
    let [process, id, suffix, giving, taking, series] = *names;
    let found = processes.find_first(process);
    if step == Step::Open {
        return open_process(records, processes, found, names);
    }
    let Ok(place) = found else { return Err(Refusal { number: 18, place: 0 }) };
    let mut row = processes.rows()[place];
    refuse_if(row[..GIVER] != names[..] || !take_turn(step, &mut row), 18)?;

    let (at, record) = named(records, id, suffix, giving, series)?;
    refuse_if(record[STATUS] != UNDER_GIVE_UP, 7)?;
    refuse_if(is_to_close(&record), 8)?;
    let mut rows = 0;
    match row[STAGE] {
        DONE => {
            change_account(records, positions, at, record, taking, [GIVE_UP, TAKE_UP])?;
            rows = 2;
        }
        CANCELLED | REFUSED => records.rows_mut()[at][STATUS] = ADJUSTABLE,
        _ => {}
    }
    processes.rows_mut()[place] = row;
    Ok(Reply::Booked { rows, residual: 0 })
}

fn open_process(records: &mut Records, processes: &mut Processes, found: Result<usize, usize>, names: &Names) -> Outcome {
    let Err(place) = found else { return Err(Refusal { number: 18, place: 0 }) };
    let [process, id, suffix, giving, taking, series] = *names;
    let (at, record) = adjustable(records, id, suffix, giving, series)?;
    refuse_if(is_to_close(&record), 8)?;
    refuse_if(processes.is_full(1), 23)?;
    records.rows_mut()[at][STATUS] = UNDER_GIVE_UP;
    processes.insert(place, [process, id, suffix, giving, taking, series, 0, 0, PENDING]);
    Ok(Reply::Booked { rows: 0, residual: 0 })
}

/// Whether the step has its turn; the row becomes what the step makes of it.
fn take_turn(step: Step, row: &mut ProcessRow) -> bool {
    let [.., giver, taker, stage] = *row;
    let may = match step {
        Step::Open => false,
        Step::Claim | Step::Cancel | Step::Refuse => stage == PENDING,
        Step::ApproveGiver => (stage == PENDING || stage == CLAIMED) && giver == 0,
        Step::ApproveTaker => stage == CLAIMED && taker == 0,
    };
    match step {
        Step::Open => {}
        Step::Claim => row[STAGE] = CLAIMED,
        Step::Cancel => row[STAGE] = CANCELLED,
        Step::Refuse => row[STAGE] = REFUSED,
        Step::ApproveGiver => row[GIVER] = 1,
        Step::ApproveTaker => row[TAKER] = 1,
    }
    if row[GIVER..] == [1, 1, CLAIMED] {
        row[STAGE] = DONE;
    }
    may
}
