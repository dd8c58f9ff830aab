//! Which special situations of journals a replay or a writing call was.

use crate::coverage::Coverage;
use crate::tables::{Tables, MOST_POSITIONS, MOST_PROCESSES, MOST_RECORDS};
use model::journal::{lines, lines_of, request_of};
use model::{Reply, Request, Step, Writing};

/// Situations that a good run has met.
pub const JOURNAL_SITUATIONS: [&str; 48] = [
    "replay: of nothing",
    "replay: of nothing, on tables that are not sound",
    "replay: of one line",
    "replay: of twenty lines or more",
    "replay: of a text of 100,000 bytes or more",
    "replay: lines of each kind and each step booked",
    "replay: without a step, beside processes that are not sound",
    "replay: booked up to the greatest room, 4,096 records",
    "replay: booked up to the greatest room, 1,024 positions",
    "replay: booked up to the greatest room, 1,024 processes",
    "replay: bad at the first line",
    "replay: bad at the first line, on tables that are not sound",
    "replay: bad after booked lines",
    "replay: bad, the last line without a newline",
    "replay: refused at the first line",
    "replay: refused after booked lines, by each of 2 to 19 and 23",
    "replay: refused at a place above 0",
    "replay: refused, and a bad line after it",
    "replay: a history again, from the same cells",
    "replay: a day again, into empty tables of the same room",
    "replay: a day of twenty lines or more again, give-ups among them",
    "damage: a byte changed",
    "damage: a byte dropped",
    "damage: a byte doubled",
    "damage: a byte above 127",
    "damage: a carriage return",
    "damage: a line dropped",
    "damage: a line doubled",
    "damage: two lines swapped",
    "damage: an empty line",
    "damage: no final newline",
    "damage: cut off",
    "damage: a figure out of range",
    "damage: a leading zero",
    "damage: a plus",
    "damage: a minus zero",
    "damage: digits beyond any range",
    "damage: a figure too many",
    "damage: a figure too few",
    "damage: more figures than any line has",
    "demand 3: requests of a replay, in another order",
    "demand 3: requests of a replay that stopped, in another order",
    "writing: each call, into buffers of every kind, and refused",
    "writing: 1,000 trades",
    "writing: 1,000 parts",
    "writing: 1,000 sources",
    "writing: the longest line of each kind",
    "writing: a step by a number that is no letter's",
];

pub fn note(seen: &mut Coverage, before: &Tables, after: &Tables, request: &Request, reply: Reply) {
    let Request::Replay { text } = request else { return };
    let unsound = refusal_of_the_tables(before);
    let listed = lines(text).count() as i64;
    let booked = booked_lines(reply);
    for line in lines(text).take(booked as usize) {
        seen.booked_line([line[0], if line[0] == b'G' { line[2] } else { 0 }]);
    }
    match reply {
        Reply::Replayed { lines: 0 } if unsound.is_some() => seen.situation("replay: of nothing, on tables that are not sound"),
        Reply::Replayed { lines: 0 } => seen.situation("replay: of nothing"),
        Reply::Replayed { lines: 1 } => seen.situation("replay: of one line"),
        Reply::Replayed { lines: 20.. } => seen.situation("replay: of twenty lines or more"),
        Reply::BadLine { line: 1 } if unsound.is_some() => seen.situation("replay: bad at the first line, on tables that are not sound"),
        Reply::BadLine { line: 1 } => seen.situation("replay: bad at the first line"),
        Reply::BadLine { .. } => seen.situation("replay: bad after booked lines"),
        Reply::LineRefused { line: 1, .. } => seen.situation("replay: refused at the first line"),
        Reply::LineRefused { number, .. } => seen.late_line(number),
        _ => {}
    }
    match reply {
        Reply::BadLine { line } if line == listed && lacks_only_its_newline(text) => seen.situation("replay: bad, the last line without a newline"),
        Reply::LineRefused { line, place, .. } => {
            if place > 0 {
                seen.situation("replay: refused at a place above 0");
            }
            if lines(text).skip(line as usize).any(|line| request_of(line).is_none()) {
                seen.situation("replay: refused, and a bad line after it");
            }
        }
        _ => {}
    }
    if booked > 0 {
        note_booked(seen, before, after, text, unsound);
    }
}

/// The last line would be good with a newline.
fn lacks_only_its_newline(text: &[u8]) -> bool {
    lines(text).last().is_some_and(|line| request_of(&[line, b"\n"].concat()).is_some())
}

/// How many lines a replay booked.
pub fn booked_lines(reply: Reply) -> i64 {
    match reply {
        Reply::Replayed { lines } => lines,
        Reply::BadLine { line } | Reply::LineRefused { line, .. } => line - 1,
        _ => 0,
    }
}

/// 1, 2 or 19: what a step is refused by before its figures are looked at.
fn refusal_of_the_tables(tables: &Tables) -> Option<i64> {
    let step = Request::GiveUp { step: Step::Open, process: 0, id: 0, suffix: 0, giving: 0, taking: 0, series: 0 };
    match tables.model_reply(&step) {
        Reply::Refused { number: number @ (1 | 2 | 19), .. } => Some(number),
        _ => None,
    }
}

fn note_booked(seen: &mut Coverage, before: &Tables, after: &Tables, text: &[u8], unsound: Option<i64>) {
    if unsound == Some(19) {
        seen.situation("replay: without a step, beside processes that are not sound");
    }
    if text.len() >= 100_000 {
        seen.situation("replay: of a text of 100,000 bytes or more");
    }
    if before.records[0] < MOST_RECORDS as i64 && after.records[0] == MOST_RECORDS as i64 {
        seen.situation("replay: booked up to the greatest room, 4,096 records");
    }
    // Lines of days alone are booked beside any positions.
    let positions = |tables: &Tables| tables.positions.first().copied().unwrap_or(0);
    if positions(before) < MOST_POSITIONS as i64 && positions(after) == MOST_POSITIONS as i64 {
        seen.situation("replay: booked up to the greatest room, 1,024 positions");
    }
    let processes = |tables: &Tables| tables.processes.first().copied().unwrap_or(0);
    if processes(before) < MOST_PROCESSES as i64 && processes(after) == MOST_PROCESSES as i64 {
        seen.situation("replay: booked up to the greatest room, 1,024 processes");
    }
}

/// The seven writing calls, in the order of the header.
fn call_of(writing: &Writing) -> usize {
    match writing {
        Writing::Of(Request::Trade { .. }) => 0,
        Writing::Of(Request::Trades { .. }) => 1,
        Writing::Of(Request::Separate { .. }) => 2,
        Writing::Of(Request::Transfer { .. }) => 3,
        Writing::Of(Request::Merge { .. }) => 4,
        Writing::Of(Request::NewDay { .. }) => 6,
        Writing::Of(_) | Writing::Step(..) => 5,
    }
}

pub fn note_written(seen: &mut Coverage, writing: &Writing, bytes: usize, reply: Reply) {
    let needed = lines_of(writing).map(|lines| lines.len());
    let what = match needed {
        // No line has fewer bytes.
        None if bytes < 4 => "refused 3, and too short",
        None => "refused 3",
        Some(needed) if bytes > needed => "more than enough",
        Some(needed) if bytes == needed => "just enough",
        Some(needed) if bytes == needed - 1 => "a byte short",
        Some(_) => "shorter",
    };
    seen.writing(call_of(writing), what, reply);
    let Reply::Written { .. } = reply else {
        if matches!(writing, Writing::Step(letter, _) if !b"OCXRGT".map(i64::from).contains(letter)) {
            seen.situation("writing: a step by a number that is no letter's");
        }
        return;
    };
    match writing {
        Writing::Of(Request::Trades { figures, .. }) if figures.len() == 6_000 => seen.situation("writing: 1,000 trades"),
        Writing::Of(Request::Separate { parts, .. }) if parts.len() == 1_000 => seen.situation("writing: 1,000 parts"),
        Writing::Of(Request::Merge { pairs, .. }) if pairs.len() == 2_000 => seen.situation("writing: 1,000 sources"),
        _ => {}
    }
}
