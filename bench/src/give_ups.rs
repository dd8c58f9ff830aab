//! The time of one step of a give-up, on tables of 10, 400 and 4,000 records and 1,000 processes.

use crate::calls;
use crate::request::{step_by_hand, step_of_ours, Names, Request, TRANSFER};
use crate::stats::Spread;
use crate::turns::{agree, take_turns};
use peer::Step;
use velichundam::{processes_len, records_len, MOST_PROCESSES};

const PROCESSES: i64 = 1_000;
const PENDING: i64 = 6;
const CLAIMED: i64 = 9;
const UNDER_GIVE_UP: i64 = 3;

/// Each step, with the approvals and the stage that it finds; the last one completes the give-up.
const STEPS: [(&str, Step, [i64; 3]); 7] = [
    ("open", Step::Open, [0, 0, PENDING]),
    ("claim", Step::Claim, [0, 0, PENDING]),
    ("cancel", Step::Cancel, [0, 0, PENDING]),
    ("refuse", Step::Refuse, [0, 0, PENDING]),
    ("giver's", Step::ApproveGiver, [0, 0, PENDING]),
    ("taker's", Step::ApproveTaker, [0, 0, CLAIMED]),
    ("completing", Step::ApproveTaker, [1, 0, CLAIMED]),
];

/// A step that is accepted, and the tables for it. The record is the one that `calls` transfers, and the process stands in the middle of its table, where
/// an opening puts the new one.
fn case(rows: usize, step: Step, progress: [i64; 3]) -> (Names, [Vec<i64>; 3]) {
    let (Request::Transfer { id, suffix, from, to, series }, [mut records, positions]) = calls::case(TRANSFER, rows) else {
        unreachable!("the request is a transfer")
    };
    let opens = step == Step::Open;
    let names = [1_000 + PROCESSES + opens as i64, id, suffix, from, to, series];
    let mut processes = vec![PROCESSES];
    for k in 0..PROCESSES {
        let process = 1_000 + 2 * k;
        if process == names[0] {
            processes.extend(names.iter().chain(&progress));
        } else {
            // processes of other records, at every stage
            processes.extend([process, 900_000_000 + k, 0, 1 + k % 7, 8 + k % 5, 1 + k % 20, k % 2, k / 2 % 2, [PENDING, CLAIMED, 10, 12, 0][k as usize % 5]]);
        }
    }
    processes.resize(processes_len(MOST_PROCESSES), -1);
    if !opens {
        let at = (0..rows).map(records_len).find(|at| records[*at..*at + 2] == [id, suffix]).expect("the record is there");
        records[at + 4] = UNDER_GIVE_UP;
    }
    (names, [records, positions, processes])
}

pub struct Line {
    pub step: &'static str,
    pub rows: usize,
    pub ours: Spread,
    pub by_hand: Spread,
}

pub fn measure(samples: usize) -> Vec<Line> {
    let mut lines = Vec::new();
    for (rows, copies) in [(10, 8), (400, 4), (4_000, 1)] {
        for (name, step, progress) in STEPS {
            let (names, tables) = case(rows, step, progress);
            let first = |tables: &mut [Vec<i64>; 3]| step_of_ours(tables, step, &names);
            let second = |tables: &mut [Vec<i64>; 3]| step_by_hand(tables, step, &names);
            agree(&tables, name, first, second);
            let (ours, by_hand) = take_turns(&tables, copies, samples, first, second);
            lines.push(Line { step: name, rows, ours, by_hand });
        }
    }
    lines
}
