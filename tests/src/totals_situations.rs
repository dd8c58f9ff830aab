//! Which situations of the totals beside the positions, and of refusal 16, a call was.

use crate::coverage::Coverage;
use crate::tables::{positions_len, Tables, POSITION_CELLS};
use model::journal::{lines, request_of};
use model::{Answer, Reply, Request};
use velichundam::{POSITION_QUANTITY, POSITION_VALUE};

const MOST_TOTAL: i64 = 4_000_000_000_000_000_000;

/// Situations that a good run has met. Those of 16 are refusals by that figure alone; a batch's and a replay's come after a trade or a line that was booked.
pub const TOTALS_SITUATIONS: [&str; 60] = [
    "16, trade: long above",
    "16, trade: short above",
    "16, trade: quantity above",
    "16, trade: quantity below",
    "16, trade: value above",
    "16, trade: value below",
    "16, transfer: old account's quantity above",
    "16, transfer: old account's quantity below",
    "16, transfer: old account's value above",
    "16, transfer: old account's value below",
    "16, transfer: new account's long above",
    "16, transfer: new account's short above",
    "16, transfer: new account's quantity above",
    "16, transfer: new account's quantity below",
    "16, transfer: new account's value above",
    "16, transfer: new account's value below",
    "16, give-up: old account's quantity above",
    "16, give-up: old account's quantity below",
    "16, give-up: old account's value above",
    "16, give-up: old account's value below",
    "16, give-up: new account's long above",
    "16, give-up: new account's short above",
    "16, give-up: new account's quantity above",
    "16, give-up: new account's quantity below",
    "16, give-up: new account's value above",
    "16, give-up: new account's value below",
    "16, merge: cash above",
    "16, merge: cash below",
    "16, merge: value above",
    "16, merge: value below",
    "16, batch: long above",
    "16, batch: short above",
    "16, batch: quantity above",
    "16, batch: quantity below",
    "16, batch: value above",
    "16, batch: value below",
    "16, batch: a total that the next trade would bring back",
    "16, replay: long above",
    "16, replay: short above",
    "16, replay: cash above",
    "16, replay: cash below",
    "16, replay: quantity above",
    "16, replay: quantity below",
    "16, replay: value above",
    "16, replay: value below",
    "16, transfer: 15 comes first",
    "16, give-up: 15 comes first",
    "2: quantity above",
    "2: quantity below",
    "2: value above",
    "2: value below",
    "totals: quantity booked up to its most",
    "totals: quantity booked down to its least",
    "totals: value booked up to its most",
    "totals: value booked down to its least",
    "totals: separation, a total at an end of its range",
    "totals: separation, no position row",
    "totals: as untrue afterwards as before",
    "totals: true afterwards as before",
    "totals: true after a call of a history from empty tables",
];

const FIGURES: [&str; 5] = ["long", "short", "cash", "quantity", "value"];
const RANGES: [(i128, i128); 5] = [
    (0, 1_000_000_000_000),
    (0, 1_000_000_000_000),
    (-1_000_000_000_000_000, 1_000_000_000_000_000),
    (-(MOST_TOTAL as i128), MOST_TOTAL as i128),
    (-(MOST_TOTAL as i128), MOST_TOTAL as i128),
];

pub fn note(seen: &mut Coverage, before: &Tables, after: &Tables, request: &Request, answer: &Answer) {
    match (request, answer.reply) {
        (_, Reply::Refused { number: 2, .. }) => note_unsound(seen, before, request),
        (_, Reply::Refused { number: 16, .. }) => note_16(seen, after, request, kind_of(request)),
        (_, Reply::Refused { number: 15, .. }) if !beyond(after, request).is_empty() => note_15(seen, request),
        (Request::Trades { figures, .. }, Reply::Stopped { booked: booked @ 1.., number: 16, .. }) => {
            let mut later = figures.chunks_exact(6).skip(booked as usize).map(trade_of);
            let refused = later.next().expect("it was refused");
            note_16(seen, after, &refused, "batch");
            note_brought_back(seen, after, &refused, later.next());
        }
        (Request::Replay { text }, Reply::LineRefused { line: line @ 2.., number: 16, .. }) => {
            let refused = lines(text).nth(line as usize - 1).and_then(request_of).expect("it was read");
            note_16(seen, after, &refused, "replay");
        }
        (Request::Separate { id, suffix, .. }, Reply::Booked { .. }) => note_separation(seen, before, *id, *suffix),
        _ if before.positions != after.positions => note_moved(seen, before, after),
        _ => {}
    }
}

fn kind_of(request: &Request) -> &'static str {
    match request {
        Request::Trade { .. } => "trade",
        Request::Transfer { .. } => "transfer",
        Request::Merge { .. } => "merge",
        _ => "give-up",
    }
}

fn trade_of(figures: &[i64]) -> Request {
    let [id, account, series, side, quantity, price] = figures.try_into().expect("six figures");
    Request::Trade { id, account, series, side, quantity, price }
}

/// What a request would add to the five figures of a position.
struct Movement {
    whose: &'static str,
    key: (i64, i64),
    by: [i128; 5],
}

/// Of a request that passes the tests up to 14.
fn movements(tables: &Tables, request: &Request) -> Vec<Movement> {
    let record = |id: i64, suffix: i64| tables.record_rows().find(|row| row[..2] == [id, suffix]).expect("it passed 5");
    match *request {
        Request::Trade { account, series, side, quantity, price, .. } => {
            let [long, short, ..] = figures_of(tables, (account, series));
            let q = i128::from(quantity);
            let (closed_long, closed_short) = (q.min(long), q.min(short));
            let (long, short) = match side {
                1 => (q, 0),
                2 => (0, q),
                3 => (q - closed_short, -closed_short),
                _ => (-closed_long, q - closed_long),
            };
            let signed = if side % 2 == 1 { q } else { -q };
            vec![Movement { whose: "", key: (account, series), by: [long, short, 0, signed, signed * i128::from(price)] }]
        }
        Request::Transfer { id, suffix, from, to, series } => moved_away(record(id, suffix), from, to, series),
        Request::GiveUp { id, suffix, giving, taking, series, .. } => moved_away(record(id, suffix), giving, taking, series),
        Request::Merge { account, series, ref pairs, .. } => {
            let rows: Vec<&[i64]> = pairs.chunks(2).map(|pair| record(pair[0], pair[1])).collect();
            let quantity: i128 = rows.iter().map(|row| i128::from(row[8])).sum();
            let value: i128 = rows.iter().map(|row| i128::from(row[8]) * i128::from(row[9])).sum();
            let average = value.signum() * ((2 * value.abs() + quantity) / (2 * quantity));
            let over = quantity * average - value;
            let residual = if rows[0][7] == 1 { over } else { -over };
            vec![Movement { whose: "", key: (account, series), by: [0, 0, residual, 0, residual] }]
        }
        _ => Vec::new(),
    }
}

/// A record to open leaves one account for another.
fn moved_away(record: &[i64], from: i64, to: i64, series: i64) -> Vec<Movement> {
    let (q, price) = (i128::from(record[8]), i128::from(record[9]));
    let by = if record[7] == 1 { [q, 0, 0, q, q * price] } else { [0, q, 0, -q, -q * price] };
    let away = by.map(|figure| -figure);
    vec![Movement { whose: "old account's ", key: (from, series), by: away }, Movement { whose: "new account's ", key: (to, series), by }]
}

/// Long, short, cash, quantity and value of a position, zeros where there is no row.
fn figures_of(tables: &Tables, key: (i64, i64)) -> [i128; 5] {
    let row = tables.position_rows().find(|row| (row[0], row[1]) == key);
    row.map_or([0; 5], |row| std::array::from_fn(|k| row[2 + k].into()))
}

/// The figures that would leave their range, by name.
fn beyond(tables: &Tables, request: &Request) -> Vec<String> {
    let mut names = Vec::new();
    for Movement { whose, key, by } in movements(tables, request) {
        let figures = figures_of(tables, key);
        for k in 0..5 {
            let (least, most) = RANGES[k];
            let end = if figures[k] + by[k] > most { "above" } else { "below" };
            if !(least..=most).contains(&(figures[k] + by[k])) {
                names.push(format!("{whose}{} {end}", FIGURES[k]));
            }
        }
    }
    names
}

fn note_16(seen: &mut Coverage, tables: &Tables, request: &Request, kind: &str) {
    let names = beyond(tables, request);
    assert!(!names.is_empty(), "16 has a reason: {request:?}");
    if let [name] = names.as_slice() {
        let figure = if kind == "replay" { name.trim_start_matches("old account's ").trim_start_matches("new account's ") } else { name };
        note_named(seen, &format!("16, {kind}: {figure}"));
    }
}

fn note_named(seen: &mut Coverage, name: &str) {
    seen.situation(TOTALS_SITUATIONS.into_iter().find(|known| *known == name).unwrap_or_else(|| panic!("no situation: {name}")));
}

/// Refused 15 where 16 would be next: by the old account's totals, since the new account has no row.
fn note_15(seen: &mut Coverage, request: &Request) {
    match request {
        Request::Transfer { .. } => seen.situation("16, transfer: 15 comes first"),
        Request::GiveUp { .. } => seen.situation("16, give-up: 15 comes first"),
        _ => {}
    }
}

/// The refused trade and the one after it together would leave a total of their position in its range.
fn note_brought_back(seen: &mut Coverage, tables: &Tables, refused: &Request, next: Option<Request>) {
    let names = beyond(tables, refused);
    let [first] = movements(tables, refused).try_into().unwrap_or_else(|_| unreachable!("a trade moves one position"));
    let Some(second) = next.and_then(|next| movements(tables, &next).pop()).filter(|second| second.key == first.key) else { return };
    let figures = figures_of(tables, first.key);
    let both_in_range = (3..5).all(|k| (figures[k] + first.by[k] + second.by[k]).abs() <= MOST_TOTAL.into());
    if both_in_range && names.iter().all(|name| name.starts_with("quantity") || name.starts_with("value")) {
        seen.situation("16, batch: a total that the next trade would bring back");
    }
}

/// One total is beyond its range, and with another in its place the table would be sound.
fn note_unsound(seen: &mut Coverage, before: &Tables, request: &Request) {
    let totals = (0..before.position_rows().count()).flat_map(|row| [POSITION_QUANTITY, POSITION_VALUE].map(|cell| positions_len(row) + cell));
    let wrong: Vec<usize> = totals.filter(|cell| before.positions[*cell].unsigned_abs() > MOST_TOTAL as u64).collect();
    let [cell] = wrong[..] else { return };
    let mut mended = before.clone();
    mended.positions[cell] = 0;
    if !matches!(mended.model_reply(request), Reply::Refused { number: 2, .. }) {
        let figure = if (cell - positions_len(0)) % POSITION_CELLS == POSITION_QUANTITY { "quantity" } else { "value" };
        note_named(seen, &format!("2: {figure} {}", if before.positions[cell] > 0 { "above" } else { "below" }));
    }
}

fn note_separation(seen: &mut Coverage, before: &Tables, id: i64, suffix: i64) {
    let record = before.record_rows().find(|row| row[..2] == [id, suffix]).expect("it was booked");
    match before.position_rows().find(|row| row[..2] == record[5..7]) {
        Some(row) if row[5..].iter().any(|total| total.abs() == MOST_TOTAL) => seen.situation("totals: separation, a total at an end of its range"),
        Some(_) => {}
        None => seen.situation("totals: separation, no position row"),
    }
}

fn note_moved(seen: &mut Coverage, before: &Tables, after: &Tables) {
    for row in after.position_rows().filter(|row| row[5].abs() == MOST_TOTAL || row[6].abs() == MOST_TOTAL) {
        let figures = figures_of(before, (row[0], row[1]));
        for (k, end, name) in [
            (5, MOST_TOTAL, "totals: quantity booked up to its most"),
            (5, -MOST_TOTAL, "totals: quantity booked down to its least"),
            (6, MOST_TOTAL, "totals: value booked up to its most"),
            (6, -MOST_TOTAL, "totals: value booked down to its least"),
        ] {
            if row[k] == end && figures[k - 2] != end.into() {
                seen.situation(name);
            }
        }
    }
}
