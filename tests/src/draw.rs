//! Random tables and random requests on them. Ids, accounts, series and figures come from small pools with the ends of their ranges in them, so that
//! requests meet each other's records and positions and the rules' limits.

use crate::batches;
use crate::coverage::{DAY, LIST, REPLAY, STEPS};
use crate::days;
use crate::give_ups;
use crate::journals;
use crate::rng::Rng;
use crate::tables::{Tables, CURRENT_DAY, POSITIONS_HEADER, POSITION_CELLS, PROCESSES_HEADER, PROCESS_CELLS, RECORDS_HEADER, RECORD_CELLS};
use crate::totals;
use model::Request;
use std::collections::{BTreeMap, BTreeSet};

/// The ends of every range of documents 01 and 02 with their neighbours, the codes of types and stages, and the ends of the machine's numbers.
pub const ENDS: [i64; 46] = [
    i64::MIN,
    i64::MIN + 1,
    -4_000_000_000_000_000_001,
    -4_000_000_000_000_000_000,
    -1_000_000_000_000_001,
    -1_000_000_000_000_000,
    -1_000_000_000_001,
    -1_000_000_000_000,
    -1_000_001,
    -1_000_000,
    -2,
    -1,
    0,
    1,
    2,
    3,
    4,
    5,
    6,
    9,
    10,
    12,
    20,
    30,
    901,
    902,
    9_999,
    10_000,
    65_535,
    65_536,
    99_999,
    100_000,
    999_999,
    1_000_000,
    1_000_001,
    999_999_999,
    1_000_000_000,
    999_999_999_999,
    1_000_000_000_000,
    1_000_000_000_001,
    1_000_000_000_000_000,
    1_000_000_000_000_001,
    4_000_000_000_000_000_000,
    4_000_000_000_000_000_001,
    i64::MAX - 1,
    i64::MAX,
];

pub const ACCOUNTS: [i64; 5] = [1, 2, 3, 40, 9_999];
pub const SERIES: [i64; 3] = [1, 2, 999_999];
const QUANTITIES: [i64; 12] = [1, 1, 2, 3, 3, 4, 7, 100, 2_500, 333_333, 999_999, 1_000_000];
const KINDS: [i64; 7] = [0, 4, 6, 10, 20, 30, 901];

/// What the drawn tables lean towards.
#[derive(Clone, Copy, PartialEq, Eq)]
pub enum Lean {
    Plain,
    /// Many records of one account, series and side.
    Alike,
    /// Suffixes near 65,535.
    LateSuffixes,
    /// Little room or none.
    Tight,
    /// Positions with figures near the ends of their ranges.
    Extreme,
}

pub const LEANS: [Lean; 5] = [Lean::Plain, Lean::Alike, Lean::LateSuffixes, Lean::Tight, Lean::Extreme];

pub fn draw_id(rng: &mut Rng) -> i64 {
    match rng.below(10) {
        0 => 1,
        1 => 999_999_999,
        2 => rng.between(1, 999_999_999),
        _ => rng.between(2, 24),
    }
}

pub fn draw_suffix(rng: &mut Rng, lean: Lean) -> i64 {
    if lean == Lean::LateSuffixes && rng.percent(60) {
        return rng.between(65_525, 65_535);
    }
    match rng.below(10) {
        0..=4 => 0,
        5..=8 => rng.between(0, 7),
        _ => rng.between(0, 65_535),
    }
}

fn draw_price(rng: &mut Rng) -> i64 {
    match rng.below(12) {
        0 => 0,
        1 => -1,
        2 => 1_000_000_000_000,
        3 => -1_000_000_000_000,
        4 => rng.between(-1_000_000_000_000, 1_000_000_000_000),
        5 | 6 => rng.between(-5, 5),
        _ => 10_000_000 + rng.between(-3, 3),
    }
}

fn draw_quantity(rng: &mut Rng) -> i64 {
    if rng.percent(15) {
        rng.between(1, 1_000_000)
    } else {
        rng.pick(&QUANTITIES)
    }
}

fn draw_cells(rng: &mut Rng, count: usize) -> Vec<i64> {
    (0..count).map(|_| if rng.percent(30) { rng.pick(&ENDS) } else { rng.between(-9, 99) }).collect()
}

/// A table of whole rows after its header, of which cell 0 is their count, the cells past them and a part of a row, with some room to spare.
fn table(rng: &mut Rng, header: &[i64], rows: &[Vec<i64>], width: usize, lean: Lean) -> Vec<i64> {
    let spare = if lean == Lean::Tight { rng.pick(&[0, 0, 1, 1, 2, 3]) } else { rng.pick(&[0, 2, 5, 8, 20, 40]) };
    let part = rng.below(width);
    let mut cells = [&[rows.len() as i64], header].concat();
    cells.extend(rows.iter().flatten());
    let past = draw_cells(rng, spare * width + part);
    cells.extend(past);
    cells
}

/// A current day: an end of its range, or one of the first.
fn draw_today(rng: &mut Rng) -> i64 {
    match rng.below(8) {
        0 => 0,
        1 => 99_999,
        2 => rng.between(0, 99_999),
        _ => rng.between(1, 5),
    }
}

/// A day of booking: mostly the current one or one before it.
fn draw_day(rng: &mut Rng, today: i64) -> i64 {
    match rng.below(10) {
        0 => 0,
        1..=3 => (today - 1).max(0),
        4 => rng.between(0, today),
        _ => today,
    }
}

fn records(rng: &mut Rng, lean: Lean, most: usize, today: i64) -> Vec<Vec<i64>> {
    let wanted = rng.below(most + 1);
    let mut keys = BTreeSet::new();
    for _ in 0..wanted {
        let id = draw_id(rng);
        keys.insert((id, draw_suffix(rng, lean)));
        if rng.percent(40) {
            // a family: several suffixes of one id
            for _ in 0..rng.below(5) {
                keys.insert((id, draw_suffix(rng, lean)));
            }
        }
    }
    let alike = lean == Lean::Alike || rng.percent(20);
    let (account, series, side) = (rng.pick(&ACCOUNTS), rng.pick(&SERIES), rng.between(1, 2));
    let keys: Vec<(i64, i64)> = keys.into_iter().collect();
    let mut rows = Vec::new();
    for (k, &(id, suffix)) in keys.iter().enumerate() {
        let lower = keys[..k].iter().rev().take_while(|key| key.0 == id).count();
        let parent = match (suffix, lower) {
            (0, _) => 0,
            (_, 1..) if rng.percent(80) => keys[k - 1 - rng.below(lower)].1,
            _ => rng.between(0, suffix - 1),
        };
        let keep = alike && !rng.percent(12);
        let status = if rng.percent(if keep { 90 } else { 65 }) { 0 } else { rng.between(1, 3) };
        let quantity = if alike && rng.percent(80) { rng.between(1, 9) } else { draw_quantity(rng) };
        rows.push(vec![
            id,
            suffix,
            parent,
            rng.pick(&KINDS),
            status,
            if keep { account } else { rng.pick(&ACCOUNTS) },
            if keep { series } else { rng.pick(&SERIES) },
            if keep { side } else { rng.pick(&[1, 1, 2, 2, 3, 4]) },
            if status == 2 { -quantity } else { quantity },
            draw_price(rng),
            if rng.percent(20) { rng.between(-1_000_000, 1_000_000) } else { 0 },
            if rng.percent(20) { rng.pick(&[-1_000_000, 1_000_000]) } else { 0 },
            if rng.percent(10) { draw_id(rng) } else { 0 },
            draw_day(rng, today),
        ]);
    }
    rows
}

fn draw_held(rng: &mut Rng, lean: Lean) -> i64 {
    match rng.below(if lean == Lean::Extreme { 6 } else { 12 }) {
        0 => 1_000_000_000_000,
        1 => 1_000_000_000_000 - rng.between(0, 1_000_000),
        2 | 3 => rng.between(0, 9),
        4 | 5 => 0,
        _ => rng.between(0, 3_000_000),
    }
}

fn draw_cash(rng: &mut Rng, lean: Lean) -> i64 {
    let near = 1_000_000_000_000_000 - rng.between(0, 3);
    match rng.below(if lean == Lean::Extreme { 3 } else { 9 }) {
        0 => near,
        1 => -near,
        _ => rng.between(-1_000_000, 1_000_000),
    }
}

/// A total that no record need account for: near an end of its range by at most so much, or anywhere in it.
fn draw_total(rng: &mut Rng, lean: Lean, near: i64) -> i64 {
    const MOST: i64 = 4_000_000_000_000_000_000;
    match rng.below(if lean == Lean::Extreme { 6 } else { 24 }) {
        0 => MOST,
        1 => -MOST,
        2 => MOST - rng.between(0, near),
        3 => rng.between(0, near) - MOST,
        4 => rng.between(-MOST, MOST),
        _ => rng.between(-1_000_000, 1_000_000),
    }
}

/// Long, short, cash and the totals of a position; the sums over its records are its totals, where they are given.
fn draw_figures(rng: &mut Rng, lean: Lean, sums: Option<[i64; 2]>) -> [i64; 5] {
    let [quantity, value] = sums.unwrap_or_else(|| [draw_total(rng, lean, 1_000_000), draw_total(rng, lean, 1_000_000_000_000_000_000)]);
    [draw_held(rng, lean), draw_held(rng, lean), draw_cash(rng, lean), quantity, value]
}

/// Positions with totals that are true, in part or all of them, or foreign.
fn positions(rng: &mut Rng, lean: Lean, records: &[Vec<i64>]) -> Vec<Vec<i64>> {
    let sums = totals::sums(records.iter().map(Vec::as_slice));
    let share_true = rng.pick(&[0, 0, 50, 100, 100]);
    let mut rows = BTreeMap::new();
    for account in ACCOUNTS {
        for series in SERIES {
            let sum = sums.get(&(account, series)).copied().unwrap_or_default();
            let sum = sum.map(|total| total.clamp(-4_000_000_000_000_000_000, 4_000_000_000_000_000_000) as i64);
            if rng.percent(60) {
                let sum = rng.percent(share_true).then_some(sum);
                rows.insert((account, series), draw_figures(rng, lean, sum));
            }
        }
    }
    // Rows that no request can name are sound too.
    for key in [(i64::MIN, i64::MIN), (-3, 7), (0, 0), (1, 0), (1, -1), (2, 1_000_000), (10_000, 5), (i64::MAX, i64::MAX)] {
        if rng.percent(10) {
            rows.insert(key, draw_figures(rng, lean, None));
        }
    }
    if rng.percent(5) {
        rows.clear();
    }
    rows.into_iter().map(|((account, series), figures)| [&[account, series][..], &figures].concat()).collect()
}

/// Sound tables with at most about so many records.
pub fn sound_tables(rng: &mut Rng, lean: Lean, most: usize) -> Tables {
    let today = draw_today(rng);
    let record_rows = records(rng, lean, most, today);
    let position_rows = positions(rng, lean, &record_rows);
    let process_rows = give_ups::processes(rng, &record_rows);
    Tables {
        records: table(rng, &[today], &record_rows, RECORD_CELLS, lean),
        positions: table(rng, &[], &position_rows, POSITION_CELLS, lean),
        processes: table(rng, &[], &process_rows, PROCESS_CELLS, lean),
    }
}

/// Empty tables with so much room, and cells past it: "Empty tables start at day 0".
pub fn empty_tables(rng: &mut Rng, records: usize, positions: usize, processes: usize) -> Tables {
    let mut tables = Tables { records: vec![0; RECORDS_HEADER], positions: vec![0; POSITIONS_HEADER], processes: vec![0; PROCESSES_HEADER] };
    let past = draw_cells(rng, records * RECORD_CELLS);
    tables.records.extend(past);
    let past = draw_cells(rng, positions * POSITION_CELLS + 3);
    tables.positions.extend(past);
    let past = draw_cells(rng, processes * PROCESS_CELLS + 4);
    tables.processes.extend(past);
    tables
}

/// Other empty tables of the same room: the cells past the header are others, and so is the part of a row at the end.
pub fn empty_again(rng: &mut Rng, tables: &Tables) -> Tables {
    let mut table = |cells: &[i64], header: usize, width: usize| {
        let past = (cells.len() - header) / width * width + rng.below(width);
        [vec![0; header], draw_cells(rng, past)].concat()
    };
    Tables {
        records: table(&tables.records, RECORDS_HEADER, RECORD_CELLS),
        positions: table(&tables.positions, POSITIONS_HEADER, POSITION_CELLS),
        processes: table(&tables.processes, PROCESSES_HEADER, PROCESS_CELLS),
    }
}

/// Writes something into one cell, or cuts a table: the tables may be sound or not afterwards.
pub fn damage(rng: &mut Rng, tables: &mut Tables) {
    let (cells, header, width) = match rng.below(20) {
        0..=9 => (&mut tables.records, RECORDS_HEADER, RECORD_CELLS),
        10..=14 => (&mut tables.positions, POSITIONS_HEADER, POSITION_CELLS),
        _ => (&mut tables.processes, PROCESSES_HEADER, PROCESS_CELLS),
    };
    if cells.len() < header {
        return;
    }
    let rows = (cells[0].clamp(0, 5_000) as usize).min((cells.len() - header) / width);
    match rng.below(13) {
        12 if header > CURRENT_DAY => {
            cells[CURRENT_DAY] = if rng.percent(50) { rng.pick(&ENDS) } else { cells[CURRENT_DAY].wrapping_add(rng.between(-2, 2)) };
        }
        0 => cells[0] = rng.pick(&ENDS),
        1 => cells[0] = cells[0].wrapping_add(rng.between(-2, 2)),
        2 => {
            let len = rng.below(cells.len() + 1);
            cells.truncate(len);
        }
        3 | 4 if rows > 1 => {
            // two rows change places
            let (a, b) = (rng.below(rows), rng.below(rows));
            for k in 0..width {
                cells.swap(header + a * width + k, header + b * width + k);
            }
        }
        5 if rows > 1 => {
            // a row twice
            let at = header + rng.below(rows - 1) * width;
            cells.copy_within(at..at + width, at + width);
        }
        6 | 7 if rows > 0 => {
            let at = header + rng.below(rows * width);
            cells[at] = cells[at].wrapping_add(rng.between(-2, 2));
        }
        8 if rows > 0 => {
            let at = header + rng.below(rows * width);
            cells[at] = cells[at].wrapping_neg();
        }
        _ if rows > 0 => {
            let at = header + rng.below(rows * width);
            cells[at] = rng.pick(&ENDS);
        }
        _ => cells[0] = rng.between(-1, 1),
    }
}

/// A request of that kind (0 to 14, as in `coverage::KINDS`), mostly one that fits the tables.
pub fn request(rng: &mut Rng, tables: &Tables, kind: usize) -> Request {
    let mut request = match kind {
        0 => trade(rng, tables),
        1 => separation(rng, tables),
        2 => transfer(rng, tables),
        3 => merge(rng, tables),
        4 => lineage(rng, tables),
        5 => batches::draw(rng, tables),
        DAY => new_day(rng, tables),
        LIST => list(rng, tables),
        REPLAY => journals::draw(rng, tables),
        _ => give_ups::draw(rng, tables, give_ups::EACH[kind - STEPS]),
    };
    let count = figures(&request);
    if count > 0 && rng.percent(4) {
        let figure = rng.pick(&ENDS);
        let which = rng.below(count);
        set_figure(&mut request, which, figure);
    }
    request
}

pub fn any_request(rng: &mut Rng, tables: &Tables) -> Request {
    let kind = rng.pick(&[0, 0, 0, 1, 1, 2, 2, 3, 3, 4, 5, 6, 6, 6, 7, 7, 8, 9, 10, 10, 11, 11, DAY, DAY, LIST, LIST, REPLAY]);
    request(rng, tables, kind)
}

/// How many figures a request has, its lists' elements among them.
pub fn figures(request: &Request) -> usize {
    match request {
        Request::Trade { .. } => 6,
        Request::Separate { parts, .. } => 4 + parts.len(),
        Request::Transfer { .. } => 5,
        Request::Merge { pairs, .. } => 3 + pairs.len(),
        Request::Lineage { .. } => 2,
        Request::Trades { figures, .. } => figures.len(),
        Request::GiveUp { .. } => 6,
        Request::NewDay { .. } => 1,
        Request::Reportable { .. } | Request::Replay { .. } => 0,
    }
}

pub fn set_figure(request: &mut Request, which: usize, figure: i64) {
    let place = match request {
        Request::Trade { id, account, series, side, quantity, price } => [id, account, series, side, quantity, price].into_iter().nth(which),
        Request::Separate { id, suffix, account, series, parts } => [id, suffix, account, series].into_iter().chain(parts).nth(which),
        Request::Transfer { id, suffix, from, to, series } => [id, suffix, from, to, series].into_iter().nth(which),
        Request::Merge { id, account, series, pairs } => [id, account, series].into_iter().chain(pairs).nth(which),
        Request::Lineage { id, suffix } => [id, suffix].into_iter().nth(which),
        Request::Trades { figures, .. } => figures.get_mut(which),
        Request::GiveUp { process, id, suffix, giving, taking, series, .. } => [process, id, suffix, giving, taking, series].into_iter().nth(which),
        Request::NewDay { day } => [day].into_iter().nth(which),
        Request::Reportable { .. } | Request::Replay { .. } => None,
    };
    *place.expect("the request has this figure") = figure;
}

/// An id that has no record, most of the time.
fn new_id(rng: &mut Rng, tables: &Tables) -> i64 {
    for _ in 0..20 {
        let id = draw_id(rng);
        if !tables.record_rows().any(|row| row[0] == id) {
            return id;
        }
    }
    draw_id(rng)
}

fn trade(rng: &mut Rng, tables: &Tables) -> Request {
    let id = if rng.percent(90) { new_id(rng, tables) } else { draw_id(rng) };
    let [account, series, side, quantity, price] = trade_figures(rng);
    Request::Trade { id, account, series, side, quantity, price }
}

/// Account, series, side, quantity and price of a trade.
pub fn trade_figures(rng: &mut Rng) -> [i64; 5] {
    [rng.pick(&ACCOUNTS), rng.pick(&SERIES), rng.between(1, 4), draw_quantity(rng), draw_price(rng)]
}

/// A record, most of the time one that the test likes.
pub fn some_record(rng: &mut Rng, tables: &Tables, likes: impl Fn(&[i64]) -> bool) -> Option<Vec<i64>> {
    let liked: Vec<&[i64]> = tables.record_rows().filter(|row| likes(row)).collect();
    if !liked.is_empty() && !rng.percent(12) {
        return Some(rng.pick(&liked).to_vec());
    }
    let all: Vec<&[i64]> = tables.record_rows().collect();
    (!all.is_empty() && !rng.percent(10)).then(|| rng.pick(&all).to_vec())
}

fn separation(rng: &mut Rng, tables: &Tables) -> Request {
    let Some(row) = some_record(rng, tables, |row| row[4] == 0 && row[8] > 1) else {
        return Request::Separate { id: draw_id(rng), suffix: draw_suffix(rng, Lean::Plain), account: 1, series: 1, parts: vec![1, 1] };
    };
    let mut parts = split(rng, row[8].unsigned_abs().min(2_000_000) as i64);
    if rng.percent(6) {
        let k = rng.below(parts.len());
        parts[k] += rng.between(-1, 1);
    }
    if rng.percent(2) {
        parts.truncate(1);
    }
    Request::Separate {
        id: row[0],
        suffix: row[1],
        account: if rng.percent(95) { row[5] } else { rng.pick(&ACCOUNTS) },
        series: if rng.percent(96) { row[6] } else { rng.pick(&SERIES) },
        parts,
    }
}

/// Two or more parts that sum to the quantity, where it is 2 or more.
fn split(rng: &mut Rng, quantity: i64) -> Vec<i64> {
    if quantity < 2 {
        return vec![quantity.max(1), 1];
    }
    let most = if rng.percent(1) { 1_000 } else { 6 };
    let count = rng.between(2, quantity.min(most));
    let mut cuts = BTreeSet::new();
    while (cuts.len() as i64) < count - 1 {
        cuts.insert(rng.between(1, quantity - 1));
    }
    let mut parts = Vec::new();
    let mut last = 0;
    for cut in cuts.into_iter().chain([quantity]) {
        parts.push(cut - last);
        last = cut;
    }
    parts
}

fn transfer(rng: &mut Rng, tables: &Tables) -> Request {
    let holds = |account: i64, series: i64, cell: usize, quantity: i64| {
        tables.position_rows().any(|row| (row[0], row[1]) == (account, series) && row[cell] >= quantity)
    };
    let row = some_record(rng, tables, |row| row[4] == 0 && matches!(row[7], 1 | 2) && holds(row[5], row[6], 1 + row[7] as usize, row[8]));
    let Some(row) = row else {
        return Request::Transfer { id: draw_id(rng), suffix: draw_suffix(rng, Lean::Plain), from: 1, to: 2, series: 1 };
    };
    let from = if rng.percent(95) { row[5] } else { rng.pick(&ACCOUNTS) };
    let others: Vec<i64> = ACCOUNTS.into_iter().filter(|account| *account != from).collect();
    Request::Transfer {
        id: row[0],
        suffix: row[1],
        from,
        to: if rng.percent(97) { rng.pick(&others) } else { from },
        series: if rng.percent(96) { row[6] } else { rng.pick(&SERIES) },
    }
}

fn merge(rng: &mut Rng, tables: &Tables) -> Request {
    let id = if rng.percent(92) { new_id(rng, tables) } else { draw_id(rng) };
    let Some(first) = some_record(rng, tables, |row| row[4] == 0 && row[7] < 3) else {
        return Request::Merge { id, account: 1, series: 1, pairs: vec![draw_id(rng), 0, draw_id(rng), 1] };
    };
    let mut sources: Vec<(i64, i64)> = tables.record_rows().filter(|row| row[4] == 0 && row[5..8] == first[5..8]).map(|row| (row[0], row[1])).collect();
    rng.shuffle(&mut sources);
    let most = if rng.percent(10) { 40 } else { 5 };
    sources.truncate(2 + rng.below(most));
    // Now and then a source that does not belong, at any place.
    while rng.percent(18) || (sources.len() < 2 && !rng.percent(10)) {
        let wrong = match rng.below(7) {
            0 => Some((draw_id(rng), draw_suffix(rng, Lean::Plain))),
            1 if !sources.is_empty() => Some(rng.pick(&sources)),
            2 => pair_of(rng, tables, |row| row[4] != 0),
            3 => pair_of(rng, tables, |row| row[4] == 0 && row[7] > 2 && row[5..7] == first[5..7]),
            4 => pair_of(rng, tables, |row| row[4] == 0 && row[7] < 3 && row[7] != first[7] && row[5..7] == first[5..7]),
            5 => pair_of(rng, tables, |row| row[5..7] != first[5..7]),
            _ => pair_of(rng, tables, |row| row[5..7] == first[5..7]),
        };
        let at = rng.below(sources.len() + 1);
        sources.insert(at, wrong.unwrap_or((draw_id(rng), 0)));
    }
    let mut pairs: Vec<i64> = sources.iter().flat_map(|source| [source.0, source.1]).collect();
    if rng.percent(2) {
        pairs.pop();
    }
    Request::Merge { id, account: first[5], series: first[6], pairs }
}

fn pair_of(rng: &mut Rng, tables: &Tables, likes: impl Fn(&[i64]) -> bool) -> Option<(i64, i64)> {
    let liked: Vec<(i64, i64)> = tables.record_rows().filter(|row| likes(row)).map(|row| (row[0], row[1])).collect();
    (!liked.is_empty()).then(|| rng.pick(&liked))
}

/// Mostly a day after the current one, now and then the same, one before it, or one that nothing can follow.
pub fn new_day(rng: &mut Rng, tables: &Tables) -> Request {
    let today = tables.today();
    let day = match rng.below(20) {
        0 => today,
        1 => today.wrapping_sub(rng.between(1, 3)),
        2 => rng.pick(&[0, 99_999, 100_000]),
        3 => rng.between(0, 99_999),
        _ => today.wrapping_add(rng.pick(&[1, 1, 1, 2, 3, 30])),
    };
    Request::NewDay { day }
}

/// Mostly as many cells as the list needs, or some more or fewer.
fn list(rng: &mut Rng, tables: &Tables) -> Request {
    let needed = days::listed(tables).map_or(2, |pairs| pairs.len());
    let cells = match rng.below(20) {
        0 => 0,
        1 | 2 => needed.saturating_sub(1),
        3 => needed.saturating_sub(2),
        // as many as records
        4 => needed / 2,
        5..=12 => needed,
        13..=15 => needed + 1,
        _ => needed + rng.below(9),
    };
    Request::Reportable { cells }
}

fn lineage(rng: &mut Rng, tables: &Tables) -> Request {
    match some_record(rng, tables, |row| row[1] > 0) {
        Some(row) => Request::Lineage { id: row[0], suffix: row[1] },
        None => Request::Lineage { id: draw_id(rng), suffix: draw_suffix(rng, Lean::Plain) },
    }
}
