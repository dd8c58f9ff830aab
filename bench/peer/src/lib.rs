//! The transaction book as one would write it in Rust by hand: the same lent tables of flat cells, the same tests in the same order, the same
//! bookings. The benchmark compares the proved book with it, and `tests/` can be run against it to try the harness itself.

mod days;
mod give_up;
mod replay;
mod table;
mod writing;

pub use days::{day, reportable};
pub use give_up::{give_up, Step};
pub use replay::replay;
pub use writing::{write_day, write_give_up, write_merge, write_separation, write_trade, write_trades, write_transfer};

use table::{by_pair, sound_rows, PositionRow, Positions, RecordRow, Records};

#[derive(Clone, Copy, Debug, PartialEq, Eq)]
pub enum Reply {
    Booked { rows: i64, residual: i64 },
    ClosingError { excess: i64 },
    Lineage { price: i64, links: i64 },
    Refused { number: i64, place: i64 },
    Stopped { booked: i64, number: i64, place: i64 },
    Written { bytes: i64 },
    Replayed { lines: i64 },
    BadLine { line: i64 },
    LineRefused { line: i64, number: i64, place: i64 },
    Listed { records: i64 },
}

#[derive(Clone, Copy)]
struct Refusal {
    number: i64,
    place: usize,
}

type Outcome = Result<Reply, Refusal>;

fn refuse_if(applies: bool, number: i64) -> Result<(), Refusal> {
    if applies {
        Err(Refusal { number, place: 0 })
    } else {
        Ok(())
    }
}

/// Refuses at the first place of the list where the test applies.
fn refuse_each<T>(list: &[T], number: i64, applies: impl Fn(&T) -> bool) -> Result<(), Refusal> {
    match list.iter().position(applies) {
        Some(place) => Err(Refusal { number, place }),
        None => Ok(()),
    }
}

fn answer(outcome: Outcome) -> Reply {
    outcome.unwrap_or_else(|refusal| Reply::Refused { number: refusal.number, place: refusal.place as i64 })
}

// The cells of a records row.
const ID: usize = 0;
const SUFFIX: usize = 1;
const PARENT: usize = 2;
const KIND: usize = 3;
const STATUS: usize = 4;
const ACCOUNT: usize = 5;
const SERIES: usize = 6;
const SIDE: usize = 7;
const QUANTITY: usize = 8;
const PRICE: usize = 9;
const LONG: usize = 10;
const SHORT: usize = 11;
const INTO: usize = 12;
const DAY: usize = 13;

// The cell of the records' header after the count.
const TODAY: usize = 1;

// The cells of a positions row after account and series.
const OPEN_LONG: usize = 2;
const OPEN_SHORT: usize = 3;
const CASH: usize = 4;
const TOTAL_QUANTITY: usize = 5;
const TOTAL_VALUE: usize = 6;

const ADJUSTABLE: i64 = 0;
const ADJUSTED: i64 = 1;
const INVERSE: i64 = 2;
const UNDER_GIVE_UP: i64 = 3;

const ORIGINAL: i64 = 0;
const TRANSFER: i64 = 4;
const SEPARATION: i64 = 6;
const CLOSING_ERROR: i64 = 10;
const GIVE_UP: i64 = 20;
const TAKE_UP: i64 = 30;
const MERGE: i64 = 901;

const BUY_OPEN: i64 = 1;
const SELL_OPEN: i64 = 2;
const BUY_CLOSE: i64 = 3;

const GREATEST_SUFFIX: i64 = 65_535;
const MOST_QUANTITY: i64 = 1_000_000;
const MOST_PRICE: i64 = 1_000_000_000_000;
const MOST_HELD: i64 = 1_000_000_000_000;
const MOST_CASH: i64 = 1_000_000_000_000_000;
const MOST_TOTAL: i64 = 4_000_000_000_000_000_000;
const LAST_DAY: i64 = 99_999;

fn is_id(z: i64) -> bool {
    (1..=999_999_999).contains(&z)
}

fn is_suffix(z: i64) -> bool {
    (0..=GREATEST_SUFFIX).contains(&z)
}

fn is_account(z: i64) -> bool {
    (1..=9_999).contains(&z)
}

fn is_series(z: i64) -> bool {
    (1..=999_999).contains(&z)
}

fn is_quantity(z: i64) -> bool {
    (1..=MOST_QUANTITY).contains(&z)
}

fn is_price(z: i64) -> bool {
    (-MOST_PRICE..=MOST_PRICE).contains(&z)
}

fn is_sound_record(header: &[i64; 2], row: &RecordRow) -> bool {
    let [id, suffix, parent, kind, status, account, series, side, quantity, price, long, short, into, day] = *row;
    is_id(id)
        && is_suffix(suffix)
        && is_suffix(parent)
        && (parent < suffix || (parent == 0 && suffix == 0))
        && matches!(kind, ORIGINAL | TRANSFER | SEPARATION | CLOSING_ERROR | GIVE_UP | TAKE_UP | MERGE)
        && is_account(account)
        && is_series(series)
        && (1..=4).contains(&side)
        && match status {
            ADJUSTABLE | ADJUSTED | UNDER_GIVE_UP => is_quantity(quantity),
            INVERSE => (-MOST_QUANTITY..=-1).contains(&quantity),
            _ => false,
        }
        && is_price(price)
        && (-MOST_QUANTITY..=MOST_QUANTITY).contains(&long)
        && (-MOST_QUANTITY..=MOST_QUANTITY).contains(&short)
        && (into == 0 || is_id(into))
        && (0..=header[TODAY]).contains(&day)
}

fn is_sound_position(row: &PositionRow) -> bool {
    let [_, _, long, short, cash, quantity, value] = *row;
    (0..=MOST_HELD).contains(&long)
        && (0..=MOST_HELD).contains(&short)
        && (-MOST_CASH..=MOST_CASH).contains(&cash)
        && (-MOST_TOTAL..=MOST_TOTAL).contains(&quantity)
        && (-MOST_TOTAL..=MOST_TOTAL).contains(&value)
}

const RECORDS_ROOM: usize = 4_096;
const POSITIONS_ROOM: usize = 1_024;

/// Test 1.
fn open_records(records: &mut [i64]) -> Result<Records<'_>, Refusal> {
    Records::open(records, RECORDS_ROOM, by_pair, is_sound_record).filter(|records| is_today(records.header[TODAY])).ok_or(Refusal { number: 1, place: 0 })
}

/// Test 1 of a call that only reads: the current day and the rows.
fn read_records(records: &[i64]) -> Result<(i64, &[RecordRow]), Refusal> {
    let sound = sound_rows(records, RECORDS_ROOM, by_pair, is_sound_record).filter(|(header, _)| is_today(header[TODAY]));
    sound.map(|(header, rows)| (header[TODAY], rows)).ok_or(Refusal { number: 1, place: 0 })
}

fn is_today(day: i64) -> bool {
    (0..=LAST_DAY).contains(&day)
}

/// Test 2.
fn open_positions(positions: &mut [i64]) -> Result<Positions<'_>, Refusal> {
    Positions::open(positions, POSITIONS_ROOM, by_pair, |_, row| is_sound_position(row)).ok_or(Refusal { number: 2, place: 0 })
}

/// Tests 1 and 2.
fn open<'a>(records: &'a mut [i64], positions: &'a mut [i64]) -> Result<(Records<'a>, Positions<'a>), Refusal> {
    Ok((open_records(records)?, open_positions(positions)?))
}

/// Tests 5 and 6 of a request that names one record: its place in the table, and a copy of it.
fn named(records: &Records, id: i64, suffix: i64, account: i64, series: i64) -> Result<(usize, RecordRow), Refusal> {
    let at = records.find(id, suffix).map_err(|_| Refusal { number: 5, place: 0 })?;
    let row = records.rows()[at];
    refuse_if(row[ACCOUNT] != account || row[SERIES] != series, 6)?;
    Ok((at, row))
}

/// Tests 5 to 7, with 17, of a request that adjusts one record or opens a give-up of it.
fn adjustable(records: &Records, id: i64, suffix: i64, account: i64, series: i64) -> Result<(usize, RecordRow), Refusal> {
    let (at, row) = named(records, id, suffix, account, series)?;
    refuse_if(row[STATUS] != ADJUSTABLE, status_refusal(&row))?;
    Ok((at, row))
}

/// The number for a record that is not adjustable.
fn status_refusal(row: &RecordRow) -> i64 {
    if row[STATUS] == UNDER_GIVE_UP {
        17
    } else {
        7
    }
}

fn is_to_close(row: &RecordRow) -> bool {
    row[SIDE] > SELL_OPEN
}

/// A quantity with the sign of its side: buys plus, sells minus.
fn signed(side: i64, quantity: i64) -> i64 {
    if side == BUY_OPEN || side == BUY_CLOSE {
        quantity
    } else {
        -quantity
    }
}

/// Where the rows of an id end, and the suffix of the last one.
fn end_of(records: &Records, id: i64) -> (usize, i64) {
    let end = records.find(id + 1, i64::MIN).unwrap_or_else(|place| place);
    (end, records.rows()[end - 1][SUFFIX])
}

#[allow(clippy::too_many_arguments)]
pub fn trade(records: &mut [i64], positions: &mut [i64], id: i64, account: i64, series: i64, side: i64, quantity: i64, price: i64) -> Reply {
    answer(try_trade(records, positions, &[id, account, series, side, quantity, price]))
}

/// id, account, series, side, quantity, price
type Trade = [i64; 6];

/// Test 3 of a trade.
fn is_trade(trade: &Trade) -> bool {
    let [id, account, series, side, quantity, price] = *trade;
    is_id(id) && is_account(account) && is_series(series) && (1..=4).contains(&side) && is_quantity(quantity) && is_price(price)
}

fn try_trade(records: &mut [i64], positions: &mut [i64], trade: &Trade) -> Outcome {
    let (mut records, mut positions) = open(records, positions)?;
    refuse_if(!is_trade(trade), 3)?;
    let excess = book_trade(&mut records, &mut positions, trade)?;
    Ok(if excess > 0 { Reply::ClosingError { excess } } else { Reply::Booked { rows: 1, residual: 0 } })
}

/// A trade that passes test 3, on sound tables: its excess.
#[inline(always)]
fn book_trade(records: &mut Records, positions: &mut Positions, trade: &Trade) -> Result<i64, Refusal> {
    let [id, account, series, side, quantity, price] = *trade;
    let place = records.find(id, i64::MIN).unwrap_or_else(|place| place);
    refuse_if(records.rows().get(place).is_some_and(|row| row[ID] == id), 4)?;
    refuse_if(records.is_full(1), 14)?;
    let held = positions.find(account, series);
    refuse_if(held.is_err() && positions.is_full(1), 15)?;

    let mut position = positions.row_or_zeros(held, account, series);
    let (long, short) = match side {
        BUY_OPEN => (quantity, 0),
        SELL_OPEN => (0, quantity),
        BUY_CLOSE => {
            let closed = quantity.min(position[OPEN_SHORT]);
            (quantity - closed, -closed)
        }
        _ => {
            let closed = quantity.min(position[OPEN_LONG]);
            (-closed, quantity - closed)
        }
    };
    position[OPEN_LONG] += long;
    position[OPEN_SHORT] += short;
    let signed = signed(side, quantity);
    position[TOTAL_QUANTITY] += signed;
    position[TOTAL_VALUE] += signed * price;
    refuse_if(!is_sound_position(&position), 16)?;

    let excess = if side < BUY_CLOSE { 0 } else { long.max(short) };
    let kind = if excess > 0 { CLOSING_ERROR } else { ORIGINAL };
    let today = records.header[TODAY];
    records.insert(place, [id, 0, 0, kind, ADJUSTABLE, account, series, side, quantity, price, long, short, 0, today]);
    positions.put(held, position);
    Ok(excess)
}

/// A list of trades, six figures each: both tables are tested once, then each trade is booked, up to the first that is refused.
pub fn trades(records: &mut [i64], positions: &mut [i64], trades: &[i64], excess: &mut [i64]) -> Reply {
    answer(try_trades(records, positions, trades, excess))
}

fn try_trades(records: &mut [i64], positions: &mut [i64], trades: &[i64], excess: &mut [i64]) -> Outcome {
    let (mut records, mut positions) = open(records, positions)?;
    let (trades, rest) = trades.as_chunks::<6>();
    refuse_if(!rest.is_empty() || !(1..=1_000).contains(&trades.len()) || excess.len() < trades.len(), 3)?;
    for (booked, (trade, cell)) in trades.iter().zip(excess).enumerate() {
        match refuse_if(!is_trade(trade), 3).and_then(|()| book_trade(&mut records, &mut positions, trade)) {
            Ok(over) => *cell = over,
            Err(Refusal { number, place }) => return Ok(Reply::Stopped { booked: booked as i64, number, place: place as i64 }),
        }
    }
    Ok(Reply::Booked { rows: trades.len() as i64, residual: 0 })
}

pub fn separate(records: &mut [i64], positions: &mut [i64], id: i64, suffix: i64, account: i64, series: i64, parts: &[i64]) -> Reply {
    answer(try_separate(records, positions, &[id, suffix, account, series], parts))
}

/// Test 3 of a separation of id, suffix, account and series.
fn is_separation(names: &[i64; 4], parts: &[i64]) -> bool {
    let [id, suffix, account, series] = *names;
    is_id(id)
        && is_suffix(suffix)
        && is_account(account)
        && is_series(series)
        && (2..=1_000).contains(&parts.len())
        && parts.iter().all(|&part| is_quantity(part))
}

fn try_separate(records: &mut [i64], positions: &mut [i64], names: &[i64; 4], parts: &[i64]) -> Outcome {
    let (mut records, _) = open(records, positions)?;
    refuse_if(!is_separation(names, parts), 3)?;
    book_separation(&mut records, names, parts)
}

/// A separation that passes test 3, on sound tables.
#[inline(always)]
fn book_separation(records: &mut Records, names: &[i64; 4], parts: &[i64]) -> Outcome {
    let [id, suffix, account, series] = *names;
    let (at, mut row) = adjustable(records, id, suffix, account, series)?;
    refuse_if(parts.iter().sum::<i64>() != row[QUANTITY], 11)?;
    let added = parts.len() + 1;
    let (end, greatest) = end_of(records, id);
    refuse_if(greatest + added as i64 > GREATEST_SUFFIX, 13)?;
    refuse_if(records.is_full(added), 14)?;

    records.rows_mut()[at][STATUS] = ADJUSTED;
    row[PARENT] = suffix;
    row[KIND] = SEPARATION;
    row[LONG] = 0;
    row[SHORT] = 0;
    row[INTO] = 0;
    row[DAY] = records.header[TODAY];
    let gap = records.open_gap(end, added);
    for (k, place) in gap.iter_mut().enumerate() {
        row[SUFFIX] = greatest + 1 + k as i64;
        (row[STATUS], row[QUANTITY]) = match k {
            0 => (INVERSE, -row[QUANTITY]),
            _ => (ADJUSTABLE, parts[k - 1]),
        };
        *place = row;
    }
    Ok(Reply::Booked { rows: added as i64, residual: 0 })
}

pub fn transfer(records: &mut [i64], positions: &mut [i64], id: i64, suffix: i64, from: i64, to: i64, series: i64) -> Reply {
    answer(try_transfer(records, positions, &[id, suffix, from, to, series]))
}

/// Test 3 of a transfer of id, suffix, from, to and series.
fn is_transfer(names: &[i64; 5]) -> bool {
    let [id, suffix, from, to, series] = *names;
    is_id(id) && is_suffix(suffix) && is_account(from) && is_account(to) && is_series(series) && from != to
}

fn try_transfer(records: &mut [i64], positions: &mut [i64], names: &[i64; 5]) -> Outcome {
    let (mut records, mut positions) = open(records, positions)?;
    refuse_if(!is_transfer(names), 3)?;
    book_transfer(&mut records, &mut positions, names)
}

/// A transfer that passes test 3, on sound tables.
#[inline(always)]
fn book_transfer(records: &mut Records, positions: &mut Positions, names: &[i64; 5]) -> Outcome {
    let [id, suffix, from, to, series] = *names;
    let (at, row) = adjustable(records, id, suffix, from, series)?;
    refuse_if(is_to_close(&row), 8)?;
    change_account(records, positions, at, row, to, [TRANSFER; 2])
}

/// Tests 12 to 16 of a record, by its place and a copy of it, that goes to another account; then its inverse row and the row in the new account, of
/// these types.
#[inline(always)]
fn change_account(records: &mut Records, positions: &mut Positions, at: usize, mut row: RecordRow, to: i64, kinds: [i64; 2]) -> Outcome {
    let (id, suffix, from, series) = (row[ID], row[SUFFIX], row[ACCOUNT], row[SERIES]);
    let quantity = row[QUANTITY];
    // The moved cell of a position row: its long for a buy, its short for a sell.
    let cell = if row[SIDE] == BUY_OPEN { OPEN_LONG } else { OPEN_SHORT };
    let old = positions.find(from, series);
    let mut giver = positions.row_or_zeros(old, from, series);
    refuse_if(giver[cell] < quantity, 12)?;
    let (end, greatest) = end_of(records, id);
    refuse_if(greatest + 2 > GREATEST_SUFFIX, 13)?;
    refuse_if(records.is_full(2), 14)?;
    let new = positions.find(to, series);
    refuse_if(new.is_err() && positions.is_full(1), 15)?;
    let mut taker = positions.row_or_zeros(new, to, series);
    let signed = signed(row[SIDE], quantity);
    let value = signed * row[PRICE];
    giver[cell] -= quantity;
    giver[TOTAL_QUANTITY] -= signed;
    giver[TOTAL_VALUE] -= value;
    taker[cell] += quantity;
    taker[TOTAL_QUANTITY] += signed;
    taker[TOTAL_VALUE] += value;
    refuse_if(!is_sound_position(&giver) || !is_sound_position(&taker), 16)?;

    records.rows_mut()[at][STATUS] = ADJUSTED;
    (row[LONG], row[SHORT]) = if cell == OPEN_LONG { (quantity, 0) } else { (0, quantity) };
    row[SUFFIX] = greatest + 1;
    row[PARENT] = suffix;
    row[INTO] = 0;
    row[DAY] = records.header[TODAY];
    let gap = records.open_gap(end, 2);
    gap[1] = row;
    gap[1][SUFFIX] += 1;
    gap[1][KIND] = kinds[1];
    gap[1][STATUS] = ADJUSTABLE;
    gap[1][ACCOUNT] = to;
    gap[0] = row;
    gap[0][KIND] = kinds[0];
    gap[0][STATUS] = INVERSE;
    gap[0][QUANTITY] = -quantity;
    gap[0][LONG] = -row[LONG];
    gap[0][SHORT] = -row[SHORT];
    // The old account's row first: it is there, since it holds the quantity, and writing it moves no row.
    positions.put(old, giver);
    positions.put(new, taker);
    Ok(Reply::Booked { rows: 2, residual: 0 })
}

pub fn merge(records: &mut [i64], positions: &mut [i64], id: i64, account: i64, series: i64, pairs: &[i64]) -> Reply {
    answer(try_merge(records, positions, &[id, account, series], pairs))
}

/// Test 3 of a merge into id, account and series.
fn is_merge(names: &[i64; 3], pairs: &[i64]) -> bool {
    let [id, account, series] = *names;
    let (sources, odd) = pairs.as_chunks::<2>();
    is_id(id)
        && is_account(account)
        && is_series(series)
        && odd.is_empty()
        && (2..=1_000).contains(&sources.len())
        && sources.iter().all(|pair| is_id(pair[0]) && is_suffix(pair[1]))
}

fn try_merge(records: &mut [i64], positions: &mut [i64], names: &[i64; 3], pairs: &[i64]) -> Outcome {
    let (mut records, mut positions) = open(records, positions)?;
    refuse_if(!is_merge(names, pairs), 3)?;
    book_merge(&mut records, &mut positions, names, pairs)
}

/// A merge that passes test 3, on sound tables.
fn book_merge(records: &mut Records, positions: &mut Positions, names: &[i64; 3], pairs: &[i64]) -> Outcome {
    let [id, account, series] = *names;
    let (sources, _) = pairs.as_chunks::<2>();
    let place = records.find(id, i64::MIN).unwrap_or_else(|place| place);
    refuse_if(records.rows().get(place).is_some_and(|row| row[ID] == id), 4)?;
    let rows = sources
        .iter()
        .enumerate()
        .map(|(place, pair)| records.find(pair[0], pair[1]).map_err(|_| Refusal { number: 5, place }))
        .collect::<Result<Vec<usize>, Refusal>>()?;
    let row = |at: usize| &records.rows()[at];
    refuse_each(&rows, 6, |&at| row(at)[ACCOUNT] != account || row(at)[SERIES] != series)?;
    if let Some(place) = rows.iter().position(|&at| row(at)[STATUS] != ADJUSTABLE) {
        return Err(Refusal { number: status_refusal(row(rows[place])), place });
    }
    refuse_each(&rows, 8, |&at| is_to_close(row(at)))?;
    if let Some(place) = (0..rows.len()).find(|&k| rows[..k].contains(&rows[k])) {
        return Err(Refusal { number: 9, place });
    }
    let side = row(rows[0])[SIDE];
    refuse_each(&rows, 10, |&at| row(at)[SIDE] != side)?;
    let quantity: i64 = rows.iter().map(|&at| row(at)[QUANTITY]).sum();
    refuse_if(quantity > MOST_QUANTITY, 11)?;
    refuse_if(overflows_suffixes(records, sources), 13)?;
    refuse_if(records.is_full(sources.len() + 1), 14)?;
    let held = positions.find(account, series);
    refuse_if(held.is_err() && positions.is_full(1), 15)?;
    let value: i64 = rows.iter().map(|&at| row(at)[QUANTITY] * row(at)[PRICE]).sum();
    let average = (2 * value + value.signum() * quantity) / (2 * quantity);
    let over = quantity * average - value;
    let residual = if side == BUY_OPEN { over } else { -over };
    let mut position = positions.row_or_zeros(held, account, series);
    position[CASH] += residual;
    position[TOTAL_VALUE] += residual;
    refuse_if(!is_sound_position(&position), 16)?;

    let today = records.header[TODAY];
    for pair in sources {
        let at = records.find(pair[0], pair[1]).unwrap_or_else(|place| place);
        let (end, greatest) = end_of(records, pair[0]);
        let row = &mut records.rows_mut()[at];
        row[STATUS] = ADJUSTED;
        let mut inverse = *row;
        inverse[SUFFIX] = greatest + 1;
        inverse[PARENT] = pair[1];
        inverse[KIND] = MERGE;
        inverse[STATUS] = INVERSE;
        inverse[QUANTITY] = -inverse[QUANTITY];
        inverse[LONG] = 0;
        inverse[SHORT] = 0;
        inverse[INTO] = id;
        inverse[DAY] = today;
        records.insert(end, inverse);
    }
    let place = records.find(id, 0).unwrap_or_else(|place| place);
    records.insert(place, [id, 0, 0, MERGE, ADJUSTABLE, account, series, side, quantity, average, 0, 0, 0, today]);
    positions.put(held, position);
    Ok(Reply::Booked { rows: sources.len() as i64 + 1, residual })
}

/// Whether the inverse rows of some id's sources would need a suffix above the greatest.
fn overflows_suffixes(records: &Records, sources: &[[i64; 2]]) -> bool {
    sources.iter().any(|&[id, _]| {
        let (_, greatest) = end_of(records, id);
        // Only an id near the end of its suffixes asks how many sources share it.
        greatest + sources.len() as i64 > GREATEST_SUFFIX && {
            let sharing = sources.iter().filter(|pair| pair[0] == id).count();
            greatest + sharing as i64 > GREATEST_SUFFIX
        }
    })
}

pub fn lineage(records: &[i64], id: i64, suffix: i64) -> Reply {
    answer(try_lineage(records, id, suffix))
}

fn try_lineage(records: &[i64], id: i64, suffix: i64) -> Outcome {
    let (_, rows) = read_records(records)?;
    refuse_if(!is_id(id) || !is_suffix(suffix), 3)?;
    let mut at = suffix;
    for links in 0.. {
        let place = rows.binary_search_by_key(&(id, at), |row| (row[ID], row[SUFFIX])).map_err(|_| Refusal { number: 5, place: 0 })?;
        if at == 0 {
            return Ok(Reply::Lineage { price: rows[place][PRICE], links });
        }
        at = rows[place][PARENT];
    }
    unreachable!("a parent is below its suffix")
}
