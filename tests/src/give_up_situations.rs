//! Which special situations of give-ups a call was.

use crate::coverage::Coverage;
use crate::give_ups::{CLAIMED, PENDING, STAGES};
use crate::tables::{processes_len, Tables, MOST_PROCESSES, PROCESS_CELLS};
use model::{Reply, Request, Step};

/// Situations that a good run has met.
pub const GIVE_UP_SITUATIONS: [&str; 40] = [
    "give-up: every step at every stage, with any approvals",
    "give-up: opened below other processes",
    "give-up: opened on a record that was given up before",
    "give-up: booked up to the greatest room, 1,024 processes",
    "give-up: a slice longer than the greatest room is booked in",
    "give-up: a part of a row at the end",
    "give-up: the claim completes",
    "give-up: the giver's approval completes",
    "give-up: the taker's approval completes",
    "give-up: of a buy",
    "give-up: of a sell",
    "give-up: of a suffix above 0",
    "give-up: a position row is made",
    "give-up: up to suffix 65,535",
    "give-up: cancelled after an approval",
    "give-up: refused by the taker after an approval",
    "give-up: 18, a used process id",
    "give-up: 18, an unknown process",
    "give-up: 18, another id",
    "give-up: 18, another suffix",
    "give-up: 18, another giving account",
    "give-up: 18, another taking account",
    "give-up: 18, another series",
    "give-up: 18, out of turn",
    "give-up: 18, a repeated approval",
    "give-up: 19, no cell 0",
    "give-up: 19, a count below 0",
    "give-up: 19, a count above the room",
    "give-up: 19, process ids that do not rise",
    "give-up: 19, an approval",
    "give-up: 19, a stage",
    "give-up: 19, another figure",
    "give-up: an earlier number, and processes that are not sound",
    "give-up: beside another process of the same record",
    "give-up: beside a row with equal accounts",
    "give-up: from empty tables on, two records or more are held",
    "demand 3: a step of a give-up, in another order",
    "demand 3: a step that completes, in another order",
    "demand 3: steps of two processes change places",
    "demand 3: two openings change places",
];

pub fn note(seen: &mut Coverage, before: &Tables, after: &Tables, request: &Request, reply: Reply) {
    let Request::GiveUp { step, process, id, suffix, giving, taking, series } = *request else { return };
    let names = [process, id, suffix, giving, taking, series];
    match reply {
        Reply::Refused { number: 1 | 2, .. } => note_earlier(seen, &before.processes),
        Reply::Refused { number: 18, .. } => note_18(seen, before, step, &names),
        Reply::Refused { number: 19, .. } => seen.situation(unsoundness(&before.processes).expect("19 has a reason")),
        Reply::Booked { rows: 2, .. } => note_completed(seen, before, after, step, &names),
        Reply::Booked { .. } => note_step(seen, before, after, step, &names),
        _ => {}
    }
    let sound = !matches!(reply, Reply::Refused { number: 1 | 2 | 19, .. });
    if let Some(row) = row_of(before, process).filter(|_| sound) {
        seen.progress(step as usize, [row[6], row[7], row[8]]);
    }
    if matches!(reply, Reply::Booked { .. }) {
        note_table(seen, before, after, &names);
    }
}

fn row_of(tables: &Tables, process: i64) -> Option<&[i64]> {
    tables.process_rows().find(|row| row[0] == process)
}

/// Refused 1 or 2, where 19 would be next.
fn note_earlier(seen: &mut Coverage, processes: &[i64]) {
    if unsoundness(processes).is_some() {
        seen.situation("give-up: an earlier number, and processes that are not sound");
    }
}

/// What is wrong with a process table, if anything is.
fn unsoundness(cells: &[i64]) -> Option<&'static str> {
    let Some(&count) = cells.first() else { return Some("give-up: 19, no cell 0") };
    if count < 0 {
        return Some("give-up: 19, a count below 0");
    }
    let rows: Vec<&[i64]> = cells[1..].chunks_exact(PROCESS_CELLS).take(MOST_PROCESSES).collect();
    let Some(rows) = usize::try_from(count).ok().and_then(|count| rows.get(..count)) else { return Some("give-up: 19, a count above the room") };
    if rows.windows(2).any(|pair| pair[0][0] >= pair[1][0]) {
        return Some("give-up: 19, process ids that do not rise");
    }
    rows.iter().find_map(|row| unsound_row(row))
}

fn unsound_row(row: &[i64]) -> Option<&'static str> {
    let ends = [(1, 999_999_999), (1, 999_999_999), (0, 65_535), (1, 9_999), (1, 9_999), (1, 999_999)];
    if row.iter().zip(ends).any(|(cell, (least, most))| !(least..=most).contains(cell)) {
        Some("give-up: 19, another figure")
    } else if row[6..8].iter().any(|approval| !matches!(approval, 0 | 1)) {
        Some("give-up: 19, an approval")
    } else if !STAGES.contains(&row[8]) {
        Some("give-up: 19, a stage")
    } else {
        None
    }
}

fn note_18(seen: &mut Coverage, before: &Tables, step: Step, names: &[i64; 6]) {
    let Some(row) = row_of(before, names[0]) else { return seen.situation("give-up: 18, an unknown process") };
    if step == Step::Open {
        return seen.situation("give-up: 18, a used process id");
    }
    let unlike: Vec<usize> = (1..6).filter(|k| row[*k] != names[*k]).collect();
    seen.situation(match unlike.as_slice() {
        [1] => "give-up: 18, another id",
        [2] => "give-up: 18, another suffix",
        [3] => "give-up: 18, another giving account",
        [4] => "give-up: 18, another taking account",
        [5] => "give-up: 18, another series",
        [] if is_repeated(step, row) => "give-up: 18, a repeated approval",
        [] => "give-up: 18, out of turn",
        _ => return,
    });
}

/// An approval that the row has already, at a stage at which it may be given.
fn is_repeated(step: Step, row: &[i64]) -> bool {
    match step {
        Step::ApproveGiver => row[6] == 1 && (row[8] == PENDING || row[8] == CLAIMED),
        Step::ApproveTaker => row[7] == 1 && row[8] == CLAIMED,
        _ => false,
    }
}

fn record_of<'a>(tables: &'a Tables, names: &[i64; 6]) -> &'a [i64] {
    tables.record_rows().find(|row| row[..2] == names[1..3]).expect("it was booked")
}

fn note_completed(seen: &mut Coverage, before: &Tables, after: &Tables, step: Step, names: &[i64; 6]) {
    seen.situation(match step {
        Step::Claim => "give-up: the claim completes",
        Step::ApproveGiver => "give-up: the giver's approval completes",
        _ => "give-up: the taker's approval completes",
    });
    seen.situation(if record_of(before, names)[7] == 1 { "give-up: of a buy" } else { "give-up: of a sell" });
    if names[2] > 0 {
        seen.situation("give-up: of a suffix above 0");
    }
    if after.positions[0] > before.positions[0] {
        seen.situation("give-up: a position row is made");
    }
    if after.record_rows().any(|row| row[..2] == [names[1], 65_535]) {
        seen.situation("give-up: up to suffix 65,535");
    }
}

/// A step that adds no record.
fn note_step(seen: &mut Coverage, before: &Tables, after: &Tables, step: Step, names: &[i64; 6]) {
    let row = row_of(after, names[0]).expect("it is written");
    match step {
        Step::Open => {
            if after.process_rows().last() > Some(row) {
                seen.situation("give-up: opened below other processes");
            }
            if matches!(record_of(before, names)[3], 20 | 30) {
                seen.situation("give-up: opened on a record that was given up before");
            }
        }
        Step::Cancel if row[6] == 1 => seen.situation("give-up: cancelled after an approval"),
        Step::Refuse if row[6] == 1 => seen.situation("give-up: refused by the taker after an approval"),
        _ => {}
    }
}

/// Of the process table that a step was booked in.
fn note_table(seen: &mut Coverage, before: &Tables, after: &Tables, names: &[i64; 6]) {
    if before.processes.len() >= processes_len(MOST_PROCESSES + 1) {
        seen.situation("give-up: a slice longer than the greatest room is booked in");
    }
    if before.processes[0] < MOST_PROCESSES as i64 && after.processes[0] == MOST_PROCESSES as i64 {
        seen.situation("give-up: booked up to the greatest room, 1,024 processes");
    }
    if (before.processes.len() - 1) % PROCESS_CELLS > 0 {
        seen.situation("give-up: a part of a row at the end");
    }
    if before.process_rows().any(|row| row[0] != names[0] && row[1..3] == names[1..3] && matches!(row[8], PENDING | CLAIMED)) {
        seen.situation("give-up: beside another process of the same record");
    }
    if before.process_rows().any(|row| row[3] == row[4]) {
        seen.situation("give-up: beside a row with equal accounts");
    }
}
