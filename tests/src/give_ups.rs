//! Process tables and steps of give-ups, drawn.

use crate::draw::{draw_id, draw_suffix, some_record, Lean, ACCOUNTS, SERIES};
use crate::rng::Rng;
use crate::tables::Tables;
use model::{Request, Step};
use std::collections::BTreeMap;

pub const EACH: [Step; 6] = [Step::Open, Step::Claim, Step::Cancel, Step::Refuse, Step::ApproveGiver, Step::ApproveTaker];

pub const PENDING: i64 = 6;
pub const CLAIMED: i64 = 9;
pub const STAGES: [i64; 5] = [PENDING, CLAIMED, 10, 12, 0];

/// Now and then a process id that may be a transaction id too.
fn draw_process_id(rng: &mut Rng) -> i64 {
    if rng.percent(70) {
        rng.between(30, 70)
    } else {
        draw_id(rng)
    }
}

/// Rows of a sound process table: most of them name a record under give-up. Some are foreign: they name no record, or one with another status, or a record
/// that another process names; they have equal accounts, or approvals that no steps lead to.
pub fn processes(rng: &mut Rng, records: &[Vec<i64>]) -> Vec<Vec<i64>> {
    let mut rows = BTreeMap::new();
    for record in records {
        let given = record[4] == 3;
        while rng.percent(if given { 75 } else { 8 }) {
            rows.insert(draw_process_id(rng), process_of(rng, record));
            if rng.percent(80) {
                break;
            }
        }
    }
    if rng.percent(15) {
        let row = [draw_id(rng), draw_suffix(rng, Lean::Plain), rng.pick(&ACCOUNTS), rng.pick(&ACCOUNTS), rng.pick(&SERIES)];
        rows.insert(draw_process_id(rng), [&row[..], &progress(rng, &STAGES)].concat());
    }
    rows.into_iter().map(|(process, row)| [vec![process], row].concat()).collect()
}

/// A process row without its process id, of that record.
fn process_of(rng: &mut Rng, record: &[i64]) -> Vec<i64> {
    let taking = if rng.percent(4) { record[5] } else { other_account(rng, record[5]) };
    let giving = if rng.percent(96) { record[5] } else { rng.pick(&ACCOUNTS) };
    let series = if rng.percent(96) { record[6] } else { rng.pick(&SERIES) };
    let stages: &[i64] = if rng.percent(85) { &[PENDING, CLAIMED] } else { &STAGES };
    [&[record[0], record[1], giving, taking, series][..], &progress(rng, stages)].concat()
}

/// Two approvals and a stage.
fn progress(rng: &mut Rng, stages: &[i64]) -> [i64; 3] {
    [rng.between(0, 1), rng.between(0, 1), rng.pick(stages)]
}

fn other_account(rng: &mut Rng, account: i64) -> i64 {
    let others: Vec<i64> = ACCOUNTS.into_iter().filter(|other| *other != account).collect();
    rng.pick(&others)
}

pub fn draw(rng: &mut Rng, tables: &Tables, step: Step) -> Request {
    if step == Step::Open {
        return opening(rng, tables);
    }
    let rows: Vec<&[i64]> = tables.process_rows().collect();
    let ready: Vec<&[i64]> = rows.iter().copied().filter(|row| has_turn(step, row) && (rng.percent(5) || is_under_give_up(tables, row))).collect();
    let mut names = match (ready.as_slice(), rows.as_slice()) {
        ([_, ..], _) if rng.percent(92) => rng.pick(&ready)[..6].to_vec(),
        (_, [_, ..]) if rng.percent(95) => rng.pick(&rows)[..6].to_vec(),
        _ => vec![draw_process_id(rng), draw_id(rng), 0, 1, 2, rng.pick(&SERIES)],
    };
    if rng.percent(4) {
        // a figure unlike the row's
        match rng.below(6) {
            0 => names[0] = draw_process_id(rng),
            1 => names[1] = draw_id(rng),
            2 => names[2] = draw_suffix(rng, Lean::Plain),
            5 => names[5] = rng.pick(&SERIES),
            account => names[account] = rng.pick(&ACCOUNTS),
        }
    }
    named(step, &names)
}

/// The step that names these six figures.
pub fn named(step: Step, names: &[i64]) -> Request {
    let [process, id, suffix, giving, taking, series] = names.try_into().expect("a step names six figures");
    Request::GiveUp { step, process, id, suffix, giving, taking, series }
}

fn opening(rng: &mut Rng, tables: &Tables) -> Request {
    let process = (0..20).map(|_| draw_process_id(rng)).find(|id| !tables.process_rows().any(|row| row[0] == *id));
    let process = if rng.percent(95) { process } else { tables.process_rows().next().map(|row| row[0]) };
    let process = process.unwrap_or_else(|| draw_process_id(rng));
    let Some(row) = some_record(rng, tables, |row| row[4] == 0 && matches!(row[7], 1 | 2)) else {
        return named(Step::Open, &[process, draw_id(rng), 0, 1, 2, 1]);
    };
    let giving = if rng.percent(96) { row[5] } else { rng.pick(&ACCOUNTS) };
    let taking = if rng.percent(97) { other_account(rng, giving) } else { giving };
    let series = if rng.percent(96) { row[6] } else { rng.pick(&SERIES) };
    named(Step::Open, &[process, row[0], row[1], giving, taking, series])
}

/// Whether the row is at a stage at which the step may come.
fn has_turn(step: Step, row: &[i64]) -> bool {
    match step {
        Step::Open => false,
        Step::Claim | Step::Cancel | Step::Refuse => row[8] == PENDING,
        Step::ApproveGiver => row[6] == 0 && (row[8] == PENDING || row[8] == CLAIMED),
        Step::ApproveTaker => row[7] == 0 && row[8] == CLAIMED,
    }
}

fn is_under_give_up(tables: &Tables, row: &[i64]) -> bool {
    tables.record_rows().any(|record| record[..2] == row[1..3] && record[4] == 3)
}
