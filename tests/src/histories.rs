//! The random part of a run: single calls on drawn and damaged tables, and histories of requests.

use crate::batches::{self, trades_of};
use crate::checker::Checker;
use crate::coverage::{column_of, DAY, POSSIBLE, REPLAY, STEPS};
use crate::draw::{any_request, damage, empty_again, empty_tables, request, sound_tables, Lean, LEANS};
use crate::give_ups::{CLAIMED, PENDING};
use crate::journals::{self, journalled, DAMAGES};
use crate::orders::{entries_of, reordered};
use crate::rng::Rng;
use crate::tables::{Tables, POSITION_CELLS, RECORD_CELLS};
use crate::totals::untruth;
use model::journal::{line_of, lines, lines_of};
use model::{Answer, Reply, Request, Writing};

/// For each kind of request and each answer that it may get: calls that get just this answer, drawn until the model gives it, and replays of their lines.
pub fn aimed(checker: &mut Checker, rng: &mut Rng, times: usize) {
    for (kind, answers) in POSSIBLE[..REPLAY].iter().enumerate() {
        for &answer in *answers {
            for _ in 0..times {
                for _ in 0..200_000 {
                    let lean = rng.pick(&LEANS);
                    let mut tables = sound_tables(rng, lean, 14);
                    if matches!(answer, 1 | 2 | 19) {
                        damage(rng, &mut tables);
                    }
                    let request = request(rng, &tables, kind);
                    if column_of(tables.model_reply(&request)) == answer {
                        checker.ask(&tables, &request);
                        replays_of(checker, rng, &tables, request);
                        break;
                    }
                }
            }
        }
    }
}

/// A request's lines alone, and after a line that is booked.
fn replays_of(checker: &mut Checker, rng: &mut Rng, tables: &Tables, asked: Request) {
    let Some(lines) = lines_of(&Writing::Of(asked)) else { return };
    let drawn = (0..30).map(|_| {
        let kind = rng.pick(&[0, 0, 1, 2, 3, STEPS, DAY]);
        request(rng, tables, kind)
    });
    let booked = drawn.into_iter().find(|first| !matches!(tables.model_reply(first), Reply::Refused { .. }));
    for first in ["".to_string()].into_iter().chain(booked.and_then(|first| line_of(&first))) {
        checker.ask(tables, &Request::Replay { text: [first, lines.clone()].concat().into_bytes() });
    }
}

/// One call each on tables that are damaged or not.
pub fn foreign_tables(checker: &mut Checker, rng: &mut Rng, calls: u64) {
    for _ in 0..calls {
        let lean = rng.pick(&LEANS);
        let mut tables = sound_tables(rng, lean, 14);
        let request = any_request(rng, &tables);
        while rng.percent(55) {
            damage(rng, &mut tables);
        }
        checker.ask(&tables, &request);
    }
}

/// A history of requests, refused ones too; then its accepted entries again, from its journal and in other orders.
pub fn history(checker: &mut Checker, rng: &mut Rng) {
    let start = match rng.below(4) {
        0 => empty_tables(rng, 60, 18, 12),
        1 => empty_tables(rng, 20, 6, 4),
        _ => {
            let lean = rng.pick(&[Lean::Plain, Lean::Alike, Lean::LateSuffixes, Lean::Extreme, Lean::Tight]);
            sound_tables(rng, lean, 20)
        }
    };
    let from_empty = start.records[0] == 0 && start.processes[0] == 0;
    let true_totals = start.records[0] == 0 && start.positions[0] == 0;
    let mut tables = start.clone();
    let (mut entries, mut journal) = (Vec::new(), Vec::new());
    // Some histories are of one day, and ask for no list: more of their entries may change places.
    let one_day = rng.percent(40);
    for _ in 0..4 + rng.below(44) {
        let request = any_request(rng, &tables);
        if one_day && matches!(request, Request::NewDay { .. } | Request::Reportable { .. }) {
            continue;
        }
        let before = tables.clone();
        let answer = checker.call(&mut tables, &request);
        journal.extend(journalled(checker, rng, &request, &answer));
        if from_empty {
            held_by_one_process(checker, &tables);
        }
        if true_totals {
            sums_over_the_records(checker, &tables);
        }
        if rng.percent(20) {
            one_by_one(checker, &before, &request, &answer, &tables);
        }
        entries.extend(entries_of(&before, request, answer));
    }
    replayed(checker, rng, &start, &journal, &tables);
    if entries.len() < 2 {
        return;
    }
    for _ in 0..1 + rng.below(2) {
        reordered(checker, rng, &start, &entries, &tables);
    }
}

/// A history's journal on the tables it began with; and where these were empty, into others of the same room: "gives the rows that a day begun on empty
/// tables ended with". Then the journal with some damage, and on tables that are none of its own.
fn replayed(checker: &mut Checker, rng: &mut Rng, start: &Tables, journal: &[u8], end: &Tables) {
    let replay = Request::Replay { text: journal.to_vec() };
    let all = Reply::Replayed { lines: lines(journal).count() as i64 };
    let mut tables = start.clone();
    if checker.call(&mut tables, &replay).reply != all || tables != *end {
        checker.fail_later(&format!("a history and the replay of its journal\n{}\n{}{}", start.print(), journal.escape_ascii(), end.print()));
    }
    checker.coverage.situation("replay: a history again, from the same cells");
    let is_day = start.today() == 0 && [&start.records, &start.positions, &start.processes].into_iter().all(|table| table[0] == 0);
    if !is_day {
        return;
    }
    let mut tables = empty_again(rng, start);
    if checker.call(&mut tables, &replay).reply != all || !tables.has_the_rows_of(end) {
        checker.fail_later(&format!("a day and the replay of its journal\n{}\n{}{}", tables.print(), journal.escape_ascii(), end.print()));
    }
    checker.coverage.situation("replay: a day again, into empty tables of the same room");
    if lines(journal).filter(|line| line[0] == b'D').count() >= 2 {
        checker.coverage.situation("replay: three days or more again, into empty tables of the same room");
    }
    if lines(journal).count() >= 20 && lines(journal).any(|line| line[0] == b'G') {
        checker.coverage.situation("replay: a day of twenty lines or more again, give-ups among them");
    }
    for _ in 0..4 {
        let (mut text, (damage, name)) = (journal.to_vec(), rng.pick(&DAMAGES));
        journals::damage(rng, &mut text, damage);
        if text != journal {
            checker.coverage.situation(name);
            checker.ask(start, &Request::Replay { text });
        }
    }
    let lean = rng.pick(&LEANS);
    let mut foreign = sound_tables(rng, lean, 14);
    if rng.percent(50) {
        damage(rng, &mut foreign);
    }
    checker.ask(&foreign, &replay);
}

/// Batches of 999 to 1,001 trades, on tables with room for about as many. From empty tables most are booked whole or stop far in.
pub fn large_batches(checker: &mut Checker, rng: &mut Rng, times: usize) {
    for k in 0..times {
        let mut tables = if k % 3 > 0 { empty_tables(rng, 0, 16, 0) } else { sound_tables(rng, Lean::Plain, 14) };
        tables.records.extend(vec![-3; RECORD_CELLS * (990 + rng.below(40))]);
        tables.positions.extend(vec![-3; POSITION_CELLS * 20]);
        let count = rng.pick(&[999, 1_000, 1_000, 1_001]);
        let request = batches::of_trades(rng, &tables, count);
        checker.ask(&tables, &request);
    }
}

/// From empty tables on: a record has status 3 exactly where a process that is pending or claimed names it, and then just one does.
fn held_by_one_process(checker: &mut Checker, tables: &Tables) {
    let mut named: Vec<&[i64]> = tables.process_rows().filter(|row| matches!(row[8], PENDING | CLAIMED)).map(|row| &row[1..3]).collect();
    named.sort();
    let held: Vec<&[i64]> = tables.record_rows().filter(|row| row[4] == 3).map(|row| &row[..2]).collect();
    if named != held {
        checker.fail_later(&format!("the records of status 3 and the processes that hold them\n{}", tables.print()));
    }
    if held.len() > 1 {
        checker.coverage.situation("give-up: from empty tables on, two records or more are held");
    }
}

/// "from empty tables they equal the sums over the records", for every account and series, zeros where there is no row.
pub fn sums_over_the_records(checker: &mut Checker, tables: &Tables) {
    if !untruth(tables).is_empty() {
        checker.fail_later(&format!("the totals of the positions are not the sums over the records\n{}", tables.print()));
    }
    checker.coverage.situation("totals: true after a call of a history from empty tables");
}

/// "Tables and answers equal those of the trades handed in one by one."
fn one_by_one(checker: &mut Checker, before: &Tables, request: &Request, answer: &Answer, after: &Tables) {
    let (Request::Trades { figures, .. }, false) = (request, matches!(answer.reply, Reply::Refused { .. })) else { return };
    let (mut tables, mut output, mut stop) = (before.clone(), Vec::new(), None);
    for trade in trades_of(figures) {
        match checker.call(&mut tables, &trade).reply {
            Reply::ClosingError { excess } => output.push(excess),
            Reply::Refused { number, place } => {
                stop = Some((number, place));
                break;
            }
            _ => output.push(0),
        }
    }
    let booked = output.len() as i64;
    let reply = match stop {
        None => Reply::Booked { rows: booked, residual: 0 },
        Some((number, place)) => Reply::Stopped { booked, number, place },
    };
    if (Answer { reply, output }) != *answer || tables != *after {
        checker.fail_later(&format!("a batch and its trades one by one: {request:?} answered {answer:?}\n{}", before.print()));
    }
    checker.coverage.situation("batch: its trades one by one");
}
