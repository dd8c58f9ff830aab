//! Which of the situations of `coverage` a call was.

use crate::coverage::Coverage;
use crate::tables::{positions_len, records_len, Tables, MOST_POSITIONS, MOST_RECORDS};
use model::{Answer, Reply, Request};
use std::collections::BTreeSet;

pub fn note(seen: &mut Coverage, before: &Tables, after: &Tables, request: &Request, answer: &Answer) {
    note_empty_slices(seen, before, request);
    match answer.reply {
        Reply::Lineage { links: 0, .. } => seen.situation("lineage: no link"),
        Reply::Lineage { links: 3.., .. } => seen.situation("lineage: three links or more"),
        Reply::Refused { number: 3, .. } => note_refused_batch(seen, request),
        Reply::Refused { number: number @ (7 | 17), place } => note_status(seen, before, request, number, place as usize),
        Reply::Booked { .. } | Reply::ClosingError { .. } | Reply::Stopped { .. } => note_booked(seen, before, after, request, answer),
        _ => {}
    }
}

fn note_empty_slices(seen: &mut Coverage, before: &Tables, request: &Request) {
    let empty_list = match request {
        Request::Separate { parts, .. } => parts.is_empty(),
        Request::Merge { pairs, .. } => pairs.is_empty(),
        Request::Trades { figures, cells } => figures.is_empty() || *cells == 0,
        Request::Reportable { cells } => *cells == 0,
        Request::Replay { text } => text.is_empty(),
        _ => false,
    };
    let no_processes = request.lends_processes() && before.processes.is_empty();
    let no_positions = request.lends_positions() && before.positions.is_empty();
    if before.records.is_empty() || no_positions || no_processes || empty_list {
        seen.situation("an empty slice is lent");
    }
}

fn note_booked(seen: &mut Coverage, before: &Tables, after: &Tables, request: &Request, answer: &Answer) {
    if !request.lends_positions() {
        return;
    }
    if before.records.len() >= records_len(MOST_RECORDS + 1) || before.positions.len() >= positions_len(MOST_POSITIONS + 1) {
        seen.situation("a slice longer than the greatest room is booked in");
    }
    if before.records[0] < MOST_RECORDS as i64 && after.records[0] == MOST_RECORDS as i64 {
        seen.situation("records: booked up to the greatest room, 4,096");
    }
    if before.positions[0] < MOST_POSITIONS as i64 && after.positions[0] == MOST_POSITIONS as i64 {
        seen.situation("positions: booked up to the greatest room, 1,024");
    }
    match request {
        Request::Trade { .. } => note_trade(seen, before, after, request, answer.reply),
        Request::Separate { .. } => note_separation(seen, before, after, request),
        Request::Transfer { .. } => note_transfer(seen, before, after, request),
        Request::Merge { pairs, .. } => note_merge(seen, before, pairs, answer.reply),
        Request::Lineage { .. } => {}
        Request::Trades { figures, cells } => note_batch(seen, before, after, figures, *cells, answer),
        // in `give_up_situations`, `journal_situations` and `day_situations`
        Request::GiveUp { .. } | Request::Replay { .. } | Request::NewDay { .. } | Request::Reportable { .. } => {}
    }
}

fn made(before: &Tables, after: &Tables) -> i64 {
    after.positions[0] - before.positions[0]
}

fn named(tables: &Tables, id: i64, suffix: i64) -> &[i64] {
    tables.record_rows().find(|row| (row[0], row[1]) == (id, suffix)).expect("it was booked")
}

fn reaches_the_end(after: &Tables, id: i64) -> bool {
    after.record_rows().any(|row| (row[0], row[1]) == (id, 65_535))
}

fn note_trade(seen: &mut Coverage, before: &Tables, after: &Tables, request: &Request, reply: Reply) {
    let Request::Trade { id, account, series, side, .. } = request else { return };
    let over = matches!(reply, Reply::ClosingError { .. });
    seen.situation(match (side, over) {
        (1, _) => "trade: buy open",
        (2, _) => "trade: sell open",
        (3, false) => "trade: buy close, within the open short",
        (3, true) => "trade: buy close, above the open short",
        (_, false) => "trade: sell close, within the open long",
        (_, true) => "trade: sell close, above the open long",
    });
    if made(before, after) > 0 && after.position_rows().last().map(|row| (row[0], row[1])) > Some((*account, *series)) {
        seen.situation("trade: a position row is made below others");
    }
    if after.record_rows().last().map(|row| (row[0], row[1])) > Some((*id, 0)) {
        seen.situation("trade: the row goes below others");
    }
}

fn note_separation(seen: &mut Coverage, before: &Tables, after: &Tables, request: &Request) {
    let Request::Separate { id, suffix, parts, .. } = request else { return };
    if named(before, *id, *suffix)[7] > 2 {
        seen.situation("separation: of a record to close");
    }
    if *suffix > 0 {
        seen.situation("separation: of a suffix above 0");
    }
    if parts.len() == 1_000 {
        seen.situation("separation: into 1,000 parts");
    }
    if reaches_the_end(after, *id) {
        seen.situation("separation: up to suffix 65,535");
    }
}

fn note_transfer(seen: &mut Coverage, before: &Tables, after: &Tables, request: &Request) {
    let Request::Transfer { id, suffix, .. } = request else { return };
    seen.situation(if named(before, *id, *suffix)[7] == 1 { "transfer: of a buy" } else { "transfer: of a sell" });
    if made(before, after) > 0 {
        seen.situation("transfer: a position row is made");
    }
    if reaches_the_end(after, *id) {
        seen.situation("transfer: up to suffix 65,535");
    }
}

fn note_merge(seen: &mut Coverage, before: &Tables, pairs: &[i64], reply: Reply) {
    let Reply::Booked { residual, .. } = reply else { return };
    let buy = named(before, pairs[0], pairs[1])[7] == 1;
    match (buy, residual.signum()) {
        (true, -1) => seen.situation("merge: buys, residual below 0"),
        (true, 0) => seen.situation("merge: buys, residual 0"),
        (true, _) => seen.situation("merge: buys, residual above 0"),
        (false, -1) => seen.situation("merge: sells, residual below 0"),
        (false, 1) => seen.situation("merge: sells, residual above 0"),
        _ => {}
    }
    let ids: BTreeSet<i64> = pairs.chunks(2).map(|pair| pair[0]).collect();
    if ids.len() < pairs.len() / 2 {
        seen.situation("merge: two sources of one id");
    }
    if pairs.len() == 2_000 {
        seen.situation("merge: of 1,000 sources");
    }
}

/// The first source whose status isn't 0 gives the number: a later one would give the other.
fn note_status(seen: &mut Coverage, before: &Tables, request: &Request, number: i64, place: usize) {
    let Request::Merge { pairs, .. } = request else { return };
    let statuses = pairs.chunks(2).skip(place + 1).map(|pair| named(before, pair[0], pair[1])[4]);
    let other = |status: i64| status != 0 && (status == 3) == (number == 7);
    if statuses.into_iter().any(other) {
        seen.status_before_other(number);
    }
}

fn note_refused_batch(seen: &mut Coverage, request: &Request) {
    let Request::Trades { figures, cells } = request else { return };
    let listed = figures.len() / 6;
    if figures.len() % 6 != 0 && (1..=1_000).contains(&listed) && *cells >= listed {
        seen.situation("batch: refused, no multiple of six figures");
    } else if figures.is_empty() {
        seen.situation("batch: refused, no trade");
    } else if figures.len() == 6_006 && *cells >= listed {
        seen.situation("batch: refused, 1,001 trades");
    } else if figures.len() % 6 == 0 && listed <= 1_000 {
        seen.situation("batch: refused, fewer cells than trades");
    }
}

fn note_batch(seen: &mut Coverage, before: &Tables, after: &Tables, figures: &[i64], cells: usize, answer: &Answer) {
    let listed = figures.len() / 6;
    seen.situation(if cells == listed { "batch: as many cells as trades" } else { "batch: more cells than trades" });
    let booked: Vec<&[i64]> = figures.chunks(6).take(answer.output.len()).collect();
    if booked.len() < listed {
        note_stop(seen, figures, booked.len());
    } else if listed == 1 || listed == 1_000 {
        seen.situation(if listed == 1 { "batch: of one trade" } else { "batch: of 1,000 trades" });
    }
    if booked.windows(2).any(|trades| trades[0][0] > trades[1][0]) {
        seen.situation("batch: ids that do not rise");
    }
    if made(before, after) > 1 {
        seen.situation("batch: two positions or more are made");
    }
    if answer.output.contains(&0) && answer.output.iter().any(|excess| *excess > 0) {
        seen.situation("batch: an excess, and a 0 beside it");
    }
    // The position was not there before, and a trade finds something open in it.
    let absent = |trade: &[i64]| !before.position_rows().any(|row| row[..2] == trade[1..3]);
    if booked.iter().zip(&answer.output).any(|(trade, excess)| trade[3] > 2 && *excess < trade[4] && absent(trade)) {
        seen.situation("batch: a trade closes what one before it opened");
    }
}

fn note_stop(seen: &mut Coverage, figures: &[i64], booked: usize) {
    let trades: Vec<&[i64]> = figures.chunks(6).collect();
    let last = booked + 1 == trades.len();
    seen.situation(match booked {
        0 => "batch: stopped at the first trade",
        _ if last => "batch: stopped at the last trade",
        _ => "batch: stopped in between",
    });
    if last && trades.len() == 1_000 {
        seen.situation("batch: stopped at the last of 1,000");
    }
    if trades[..booked].iter().any(|trade| trade[0] == trades[booked][0]) {
        seen.situation("batch: stopped by an id of its own");
    }
}
