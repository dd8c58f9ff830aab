//! Which situations of days, of the days of booking and of the list a call was.

use crate::coverage::Coverage;
use crate::days;
use crate::journal_situations::booked_lines;
use crate::tables::{records_len, Tables, CURRENT_DAY, MOST_RECORDS, RECORDS_HEADER, RECORD_DAY};
use model::journal::{lines, request_of};
use model::{Answer, Reply, Request, Step};
use velichundam::LAST_DAY;

/// Situations that a good run has met. Those of 1 are tables that would be sound with another day in one cell, or with a cell 1.
pub const DAY_SITUATIONS: [&str; 81] = [
    "day: from 0 to 1",
    "day: to the next one",
    "day: past some",
    "day: to the last one, 99,999",
    "day: to one below the last",
    "day: without a record",
    "day: a table of two cells",
    "day: 4,096 records",
    "day: a slice longer than the greatest room",
    "day: beside positions that are not sound",
    "day: beside no positions at all",
    "day: 3, the same",
    "day: 3, an earlier one",
    "day: 3, 0 on day 0",
    "day: 3, below 0",
    "day: 3, above 99,999",
    "day: 3, any on the last day",
    "day: 1, and 3 too",
    "1: one cell",
    "1: the current day below 0",
    "1: the current day above 99,999",
    "1: a row's day after the current one, by one",
    "1: a row's day after the current one, the first row's alone",
    "1: a row's day after the current one, the last row's alone",
    "1: a row's day below 0",
    "1: of a day",
    "1: of the list, by a day",
    "1: of another request, by a day",
    "14: a trade into records of two cells",
    "booked on a later day: trade",
    "booked on a later day: batch",
    "booked on a later day: separation",
    "booked on a later day: transfer",
    "booked on a later day: merge",
    "booked on a later day: give-up",
    "booked on the last day, 99,999",
    "an earlier record keeps its day: separation",
    "an earlier record keeps its day: transfer",
    "an earlier record keeps its day: merge",
    "an earlier record keeps its day: give-up opened",
    "an earlier record keeps its day: give-up ended without a row",
    "an earlier record keeps its day: give-up booked",
    "an earlier record keeps its day: beside a new row that moves it",
    "list: as the rows say, by a plain scan",
    "list: no record",
    "list: records, and none of the current day",
    "list: records of the current day, and none reported",
    "list: every record of 4,096",
    "list: on day 0",
    "list: on the last day, 99,999",
    "list: just enough cells",
    "list: more cells",
    "list: an odd number of cells",
    "list: no cell, and none needed",
    "list: 14, no cell",
    "list: 14, a cell short",
    "list: 14, as many cells as records",
    "list: 5, a missing parent",
    "list: 5, and 14 too",
    "list: 5, by the last row alone",
    "list: beside positions that are not sound",
    "list: status 0",
    "list: status 1, left out",
    "list: status 3",
    "list: an earlier day's, left out",
    "list: an earlier day's inverse without its parent",
    "list: another status without its parent",
    "list: an inverse of an earlier record, a separation's",
    "list: an inverse of an earlier record, a transfer's",
    "list: an inverse of an earlier record, a give-up's",
    "list: an inverse of an earlier record, a merge's",
    "list: an inverse of the same day, left out, a separation's",
    "list: an inverse of the same day, left out, a transfer's",
    "list: an inverse of the same day, left out, a give-up's",
    "list: an inverse of the same day, left out, a merge's",
    "list: a merge's inverses, some of earlier records and some not",
    "list: an inverse of day 0's record",
    "list: an inverse with suffix 0, its own parent",
    "list: a parent far before, beyond a hundred rows",
    "list: 002's table for transaction 123456",
    "list: 002's average pricing",
];

/// Situations of lines of days, and of other orders.
pub const DAY_LINE_SITUATIONS: [&str; 15] = [
    "replay: a day's line alone",
    "replay: days between other lines",
    "replay: a day's line refused 3, the same day",
    "replay: a day's line refused 3, an earlier day",
    "replay: a day's line refused 3 at the first line",
    "replay: a day's line refused 1",
    "replay: a bad day, 0",
    "replay: a bad day, 100,000",
    "replay: rows of two days or more are made",
    "replay: days beside positions that are not sound",
    "replay: days beside positions that are not sound, then refused 2",
    "replay: three days or more again, into empty tables of the same room",
    "demand 3: other orders before and after a new day",
    "demand 3: another order before a list of two records or more",
    "demand 3: another order over three days or more",
];

pub fn note(seen: &mut Coverage, before: &Tables, after: &Tables, request: &Request, answer: &Answer) {
    match (request, answer.reply) {
        (_, Reply::Refused { number: 1, .. }) => note_unsound(seen, before, request),
        (Request::NewDay { day }, Reply::Refused { .. }) => note_refused_day(seen, before, *day),
        (Request::NewDay { day }, _) => note_day(seen, before, *day),
        (Request::Reportable { cells }, Reply::Refused { number, .. }) => note_refused_list(seen, before, *cells, number),
        (Request::Reportable { cells }, _) => note_list(seen, before, *cells, &answer.output),
        (Request::Replay { text }, reply) => note_replay(seen, before, after, text, reply),
        (Request::Trade { .. }, Reply::Refused { number: 14, .. }) if before.records.len() == RECORDS_HEADER => {
            seen.situation("14: a trade into records of two cells");
        }
        _ if before.records != after.records => note_booked(seen, before, after, request),
        _ => {}
    }
}

/// Whether the positions are refused 2.
fn unsound_positions(tables: &Tables) -> bool {
    let trade = Request::Trade { id: 0, account: 0, series: 0, side: 0, quantity: 0, price: 0 };
    matches!(tables.model_reply(&trade), Reply::Refused { number: 2, .. })
}

fn note_day(seen: &mut Coverage, before: &Tables, day: i64) {
    let today = before.today();
    if (today, day) == (0, 1) {
        seen.situation("day: from 0 to 1");
    }
    seen.situation(if day == today + 1 { "day: to the next one" } else { "day: past some" });
    if day >= LAST_DAY - 1 {
        seen.situation(if day == LAST_DAY { "day: to the last one, 99,999" } else { "day: to one below the last" });
    }
    if before.records[0] == 0 {
        seen.situation("day: without a record");
    }
    if before.records.len() == RECORDS_HEADER {
        seen.situation("day: a table of two cells");
    }
    if before.records[0] == MOST_RECORDS as i64 {
        seen.situation("day: 4,096 records");
    }
    if before.records.len() >= records_len(MOST_RECORDS + 1) {
        seen.situation("day: a slice longer than the greatest room");
    }
    if before.positions.is_empty() {
        seen.situation("day: beside no positions at all");
    } else if unsound_positions(before) {
        seen.situation("day: beside positions that are not sound");
    }
}

/// Refused 3: the records are sound.
fn note_refused_day(seen: &mut Coverage, before: &Tables, day: i64) {
    let today = before.today();
    seen.situation(match day {
        ..=-1 => "day: 3, below 0",
        0 if today == 0 => "day: 3, 0 on day 0",
        _ if day > LAST_DAY => "day: 3, above 99,999",
        _ if day == today => "day: 3, the same",
        _ => "day: 3, an earlier one",
    });
    if today == LAST_DAY {
        seen.situation("day: 3, any on the last day");
    }
}

/// The cell that holds a wrong day where all other cells are sound.
fn note_unsound(seen: &mut Coverage, before: &Tables, request: &Request) {
    if before.records.len() == 1 {
        seen.situation("1: one cell");
    }
    let today = before.today();
    let Some((what, cell, day)) = wrong_day(before) else { return };
    let mut mended = before.clone();
    mended.records[cell] = day;
    if matches!(mended.model_reply(request), Reply::Refused { number: 1, .. }) {
        return;
    }
    seen.situation(what);
    match request {
        Request::NewDay { day } => {
            seen.situation("1: of a day");
            if *day <= today || *day > LAST_DAY {
                seen.situation("day: 1, and 3 too");
            }
        }
        Request::Reportable { .. } => seen.situation("1: of the list, by a day"),
        _ => seen.situation("1: of another request, by a day"),
    }
    let rows = before.record_rows().count();
    if what == "1: a row's day after the current one, by one" && rows > 1 {
        if cell < records_len(1) {
            seen.situation("1: a row's day after the current one, the first row's alone");
        } else if cell >= records_len(rows - 1) {
            seen.situation("1: a row's day after the current one, the last row's alone");
        }
    }
}

/// A situation, its cell and a day that would be sound there.
fn wrong_day(tables: &Tables) -> Option<(&'static str, usize, i64)> {
    let today = *tables.records.get(CURRENT_DAY)?;
    if today < 0 {
        return Some(("1: the current day below 0", CURRENT_DAY, tables.record_rows().map(|row| row[RECORD_DAY]).max().unwrap_or(0)));
    }
    if today > LAST_DAY {
        return Some(("1: the current day above 99,999", CURRENT_DAY, LAST_DAY));
    }
    let wrong = tables.record_rows().position(|row| !(0..=today).contains(&row[RECORD_DAY]))?;
    let cell = records_len(wrong) + RECORD_DAY;
    match tables.records[cell] {
        ..=-1 => Some(("1: a row's day below 0", cell, 0)),
        day if day == today + 1 => Some(("1: a row's day after the current one, by one", cell, 0)),
        _ => None,
    }
}

/// A request that is not a new day and changed the records.
fn note_booked(seen: &mut Coverage, before: &Tables, after: &Tables, request: &Request) {
    let today = before.today();
    let added = after.record_rows().count() > before.record_rows().count();
    if added && today > 0 {
        seen.situation(match request {
            Request::Trade { .. } => "booked on a later day: trade",
            Request::Trades { .. } => "booked on a later day: batch",
            Request::Separate { .. } => "booked on a later day: separation",
            Request::Transfer { .. } => "booked on a later day: transfer",
            Request::Merge { .. } => "booked on a later day: merge",
            _ => "booked on a later day: give-up",
        });
    }
    if added && today == LAST_DAY {
        seen.situation("booked on the last day, 99,999");
    }
    let named: Vec<[i64; 2]> = match request {
        Request::Separate { id, suffix, .. } | Request::Transfer { id, suffix, .. } | Request::GiveUp { id, suffix, .. } => vec![[*id, *suffix]],
        Request::Merge { pairs, .. } => pairs.chunks_exact(2).map(|pair| [pair[0], pair[1]]).collect(),
        _ => Vec::new(),
    };
    let earlier = |row: &[i64]| row[RECORD_DAY] < today;
    if before.record_rows().any(|row| named.iter().any(|key| row[..2] == *key) && earlier(row)) {
        seen.situation(match request {
            Request::Separate { .. } => "an earlier record keeps its day: separation",
            Request::Transfer { .. } => "an earlier record keeps its day: transfer",
            Request::Merge { .. } => "an earlier record keeps its day: merge",
            Request::GiveUp { step: Step::Open, .. } => "an earlier record keeps its day: give-up opened",
            _ if added => "an earlier record keeps its day: give-up booked",
            _ => "an earlier record keeps its day: give-up ended without a row",
        });
    }
    if added && before.record_rows().zip(after.record_rows()).any(|(old, new)| old[..2] != new[..2] && earlier(old)) {
        seen.situation("an earlier record keeps its day: beside a new row that moves it");
    }
}

fn note_refused_list(seen: &mut Coverage, before: &Tables, cells: usize, number: i64) {
    if number == 14 {
        let pairs = days::listed(before).expect("it passed 5");
        if cells == 0 {
            seen.situation("list: 14, no cell");
        }
        if cells + 1 == pairs.len() {
            seen.situation("list: 14, a cell short");
        }
        if cells == pairs.len() / 2 {
            seen.situation("list: 14, as many cells as records");
        }
        return;
    }
    seen.situation("list: 5, a missing parent");
    let lacks = |row: &[i64]| row[4] == 2 && row[RECORD_DAY] == before.today() && days::parent(before, row).is_none();
    let of_the_day = before.record_rows().filter(|row| row[RECORD_DAY] == before.today());
    if cells < 2 * of_the_day.filter(|row| matches!(row[4], 0 | 3)).count() {
        seen.situation("list: 5, and 14 too");
    }
    if before.record_rows().position(lacks) == Some(before.record_rows().count() - 1) {
        seen.situation("list: 5, by the last row alone");
    }
}

fn note_list(seen: &mut Coverage, before: &Tables, cells: usize, pairs: &[i64]) {
    let today = before.today();
    if today == 0 || today == LAST_DAY {
        seen.situation(if today == 0 { "list: on day 0" } else { "list: on the last day, 99,999" });
    }
    if before.record_rows().next().is_none() {
        seen.situation("list: no record");
    } else if before.record_rows().all(|row| row[RECORD_DAY] < today) {
        seen.situation("list: records, and none of the current day");
    } else if pairs.is_empty() {
        seen.situation("list: records of the current day, and none reported");
    }
    if pairs.len() == 2 * MOST_RECORDS {
        seen.situation("list: every record of 4,096");
    }
    seen.situation(if cells == pairs.len() { "list: just enough cells" } else { "list: more cells" });
    if cells % 2 == 1 {
        seen.situation("list: an odd number of cells");
    }
    if cells == 0 {
        seen.situation("list: no cell, and none needed");
    }
    if unsound_positions(before) {
        seen.situation("list: beside positions that are not sound");
    }
    for row in before.record_rows() {
        note_listed(seen, before, row);
    }
    note_merges(seen, before);
}

/// A row, and why it is on the list or not.
fn note_listed(seen: &mut Coverage, tables: &Tables, row: &[i64]) {
    let today = tables.today();
    let lacks_parent = row[1] > 0 && days::parent(tables, row).is_none();
    if row[RECORD_DAY] < today {
        seen.situation("list: an earlier day's, left out");
        if row[4] == 2 && lacks_parent {
            seen.situation("list: an earlier day's inverse without its parent");
        }
        return;
    }
    if row[4] != 2 {
        seen.situation(["list: status 0", "list: status 1, left out", "", "list: status 3"][row[4] as usize]);
        if lacks_parent {
            seen.situation("list: another status without its parent");
        }
        return;
    }
    if row[1] == 0 {
        return seen.situation("list: an inverse with suffix 0, its own parent");
    }
    let parent = days::parent(tables, row).expect("it passed 5");
    if parent[RECORD_DAY] == 0 && today > 0 {
        seen.situation("list: an inverse of day 0's record");
    }
    let place = |row: &[i64]| tables.record_rows().position(|other| other[..2] == row[..2]);
    if place(row) > place(parent).map(|place| place + 100) {
        seen.situation("list: a parent far before, beyond a hundred rows");
    }
    match (row[3], parent[RECORD_DAY] < today) {
        (6, true) => seen.situation("list: an inverse of an earlier record, a separation's"),
        (4, true) => seen.situation("list: an inverse of an earlier record, a transfer's"),
        (20, true) => seen.situation("list: an inverse of an earlier record, a give-up's"),
        (901, true) => seen.situation("list: an inverse of an earlier record, a merge's"),
        (6, false) => seen.situation("list: an inverse of the same day, left out, a separation's"),
        (4, false) => seen.situation("list: an inverse of the same day, left out, a transfer's"),
        (20, false) => seen.situation("list: an inverse of the same day, left out, a give-up's"),
        (901, false) => seen.situation("list: an inverse of the same day, left out, a merge's"),
        _ => {}
    }
}

/// Of the inverses that name one merged record, one has a parent of an earlier day and one of the current day.
fn note_merges(seen: &mut Coverage, tables: &Tables) {
    let today = tables.today();
    let inverses: Vec<&[i64]> = tables.record_rows().filter(|row| row[4] == 2 && row[3] == 901 && row[12] > 0 && row[RECORD_DAY] == today).collect();
    let earlier = |row: &[i64]| days::parent(tables, row).is_some_and(|parent| parent[RECORD_DAY] < today);
    if inverses.iter().any(|row| earlier(row) && inverses.iter().any(|other| other[12] == row[12] && !earlier(other))) {
        seen.situation("list: a merge's inverses, some of earlier records and some not");
    }
}

fn day_of(line: &[u8]) -> Option<i64> {
    match request_of(line) {
        Some(Request::NewDay { day }) => Some(day),
        _ => None,
    }
}

fn note_replay(seen: &mut Coverage, before: &Tables, after: &Tables, text: &[u8], reply: Reply) {
    let booked = booked_lines(reply) as usize;
    let days: Vec<Option<i64>> = lines(text).take(booked).map(day_of).collect();
    let all_days = booked > 0 && days.iter().all(Option::is_some);
    let whole = matches!(reply, Reply::Replayed { .. });
    if all_days && booked == 1 && whole {
        seen.situation("replay: a day's line alone");
    }
    if days.windows(3).any(|three| three[0].is_none() && three[1].is_some() && three[2].is_none()) {
        seen.situation("replay: days between other lines");
    }
    if all_days && unsound_positions(before) {
        seen.situation("replay: days beside positions that are not sound");
        if matches!(reply, Reply::LineRefused { number: 2, .. }) {
            seen.situation("replay: days beside positions that are not sound, then refused 2");
        }
    }
    let made: Vec<i64> = after.record_rows().filter(|row| !before.record_rows().any(|old| old[..2] == row[..2])).map(|row| row[RECORD_DAY]).collect();
    if booked > 1 && made.iter().any(|day| *day != made[0]) {
        seen.situation("replay: rows of two days or more are made");
    }
    let named = lines(text).nth(booked);
    match reply {
        Reply::LineRefused { number: 1, .. } if named.and_then(day_of).is_some() => seen.situation("replay: a day's line refused 1"),
        Reply::LineRefused { line, number: 3, .. } => {
            let day = named.and_then(day_of).expect("no other line is refused 3");
            let same = day == after.today();
            seen.situation(if same { "replay: a day's line refused 3, the same day" } else { "replay: a day's line refused 3, an earlier day" });
            if line == 1 {
                seen.situation("replay: a day's line refused 3 at the first line");
            }
        }
        Reply::BadLine { .. } if named == Some(b"D\t0\n") => seen.situation("replay: a bad day, 0"),
        Reply::BadLine { .. } if named == Some(b"D\t100000\n") => seen.situation("replay: a bad day, 100,000"),
        _ => {}
    }
}
