//! Document 01, "Booking rules" and "Replies". Each request runs its tests in the order of the refusals' numbers and then books. A batch of trades
//! (document 02, K1) is in `batch`, the steps of a give-up (K3) are in `give_up`, lines of a journal (K5) in `journal`, a new day and the list (K8) in `days`.

use crate::books::{Books, Record, Records};
use crate::tables::{is_sound_position, ACCOUNTS, IDS, PRICES, QUANTITIES, SERIES, SIDES, SUFFIXES};
use crate::{batch, days, give_up};

/// What is asked of the book, with any figures. A batch has six figures for each trade, and the number of cells that are lent for the excesses;
/// the list has the number of cells that are lent for its pairs.
#[derive(Clone, Debug, PartialEq, Eq)]
pub enum Request {
    Trade { id: i64, account: i64, series: i64, side: i64, quantity: i64, price: i64 },
    Separate { id: i64, suffix: i64, account: i64, series: i64, parts: Vec<i64> },
    Transfer { id: i64, suffix: i64, from: i64, to: i64, series: i64 },
    Merge { id: i64, account: i64, series: i64, pairs: Vec<i64> },
    Lineage { id: i64, suffix: i64 },
    Trades { figures: Vec<i64>, cells: usize },
    GiveUp { step: Step, process: i64, id: i64, suffix: i64, giving: i64, taking: i64, series: i64 },
    Replay { text: Vec<u8> },
    NewDay { day: i64 },
    Reportable { cells: usize },
}

/// A step of a give-up (document 02, K3).
#[derive(Clone, Copy, Debug, PartialEq, Eq)]
pub enum Step {
    Open,
    Claim,
    Cancel,
    Refuse,
    ApproveGiver,
    ApproveTaker,
}

impl Request {
    /// "(not for lineage)", 01; of a new day and the list K8: "It and the list skip test 2"
    pub fn lends_positions(&self) -> bool {
        !matches!(self, Request::Lineage { .. } | Request::NewDay { .. } | Request::Reportable { .. })
    }

    /// "a lent process table, read by these steps only", and so by a text's lines that are steps
    pub fn lends_processes(&self) -> bool {
        matches!(self, Request::GiveUp { .. } | Request::Replay { .. })
    }
}

#[derive(Clone, Copy, Debug, PartialEq, Eq)]
pub enum Reply {
    Booked { rows: i64, residual: i64 },
    ClosingError { excess: i64 },
    Lineage { price: i64, links: i64 },
    Refused { number: i64, place: i64 },
    Stopped { booked: i64, number: i64, place: i64 },
    Written { bytes: i64 },
    Replayed { lines: i64 },
    BadLine { line: i64 },
    LineRefused { line: i64, number: i64, place: i64 },
    Listed { records: i64 },
}

/// A reply, and what is written to the lent output, from its first cell on.
#[derive(Clone, Debug, PartialEq, Eq)]
pub struct Answer {
    pub reply: Reply,
    pub output: Vec<i64>,
}

impl From<Reply> for Answer {
    fn from(reply: Reply) -> Answer {
        Answer { reply, output: Vec::new() }
    }
}

#[derive(Clone, Copy, Debug, PartialEq, Eq)]
pub struct Refusal {
    pub number: i64,
    pub place: usize,
}

impl Refusal {
    pub fn number(number: i64) -> Refusal {
        Refusal { number, place: 0 }
    }
}

/// Refused by that number unless it holds.
pub fn ensure(holds: bool, number: i64) -> Result<(), Refusal> {
    if holds {
        Ok(())
    } else {
        Err(Refusal::number(number))
    }
}

/// "Each test runs over the whole list before the next number is tried." The place is that of the first that fails.
fn ensure_each<T>(list: &[T], number: i64, mut holds: impl FnMut(usize, &T) -> bool) -> Result<(), Refusal> {
    match list.iter().enumerate().find(|(place, item)| !holds(*place, item)) {
        Some((place, _)) => Err(Refusal { number, place }),
        None => Ok(()),
    }
}

/// The tests of a request that books, from 3 on, and its booking. The caller drops the books of a refused one.
pub fn book(books: &mut Books, request: &Request) -> Result<Answer, Refusal> {
    match request {
        Request::Trades { figures, cells } => return batch::trades(books, figures, *cells),
        Request::Reportable { cells } => return days::reportable(books, *cells),
        _ => {}
    }
    let sums = books.sums();
    let reply = match request {
        Request::Trade { id, account, series, side, quantity, price } => trade(books, *id, *account, *series, *side, *quantity, *price)?,
        Request::Separate { id, suffix, account, series, parts } => separate(books, *id, *suffix, *account, *series, parts)?,
        Request::Transfer { id, suffix, from, to, series } => transfer(books, *id, *suffix, *from, *to, *series)?,
        Request::Merge { id, account, series, pairs } => merge(books, *id, *account, *series, pairs)?,
        Request::Lineage { id, suffix } => lineage(&books.records, *id, *suffix)?,
        Request::GiveUp { step, process, id, suffix, giving, taking, series } => {
            give_up::give_up(books, *step, *process, *id, *suffix, *giving, *taking, *series)?
        }
        Request::NewDay { day } => days::new_day(books, *day)?,
        Request::Trades { .. } | Request::Reportable { .. } | Request::Replay { .. } => unreachable!("it is handled elsewhere"),
    };
    books.add_the_change(sums);
    fits(books)?;
    Ok(reply.into())
}

fn trade(books: &mut Books, id: i64, account: i64, series: i64, side: i64, quantity: i64, price: i64) -> Result<Reply, Refusal> {
    let figures = IDS.contains(&id)
        && ACCOUNTS.contains(&account)
        && SERIES.contains(&series)
        && SIDES.contains(&side)
        && QUANTITIES.contains(&quantity)
        && PRICES.contains(&price);
    ensure(figures, 3)?;
    ensure(books.greatest_suffix(id).is_none(), 4)?;

    let open = books.position(account, series);
    let (long, short, excess) = match side {
        1 => (quantity, 0, 0),
        2 => (0, quantity, 0),
        3 => {
            let closed = quantity.min(open.short);
            (quantity - closed, -closed, quantity - closed)
        }
        _ => {
            let closed = quantity.min(open.long);
            (-closed, quantity - closed, quantity - closed)
        }
    };
    let kind = if excess > 0 { 10 } else { 0 };
    books.add_record((id, 0), Record { parent: 0, kind, status: 0, account, series, side, quantity, price, long, short, into: 0, day: 0 });
    books.move_position(account, series, long, short, 0);
    Ok(if excess > 0 { Reply::ClosingError { excess } } else { Reply::Booked { rows: 1, residual: 0 } })
}

fn separate(books: &mut Books, id: i64, suffix: i64, account: i64, series: i64, parts: &[i64]) -> Result<Reply, Refusal> {
    let figures = IDS.contains(&id) && SUFFIXES.contains(&suffix) && ACCOUNTS.contains(&account) && SERIES.contains(&series);
    ensure(figures && (2..=1_000).contains(&parts.len()) && parts.iter().all(|part| QUANTITIES.contains(part)), 3)?;
    let named = named_record(books, id, suffix, account, series)?;
    ensure(parts.iter().sum::<i64>() == named.quantity, 11)?;
    ensure(books.next_suffix(id) + parts.len() as i64 <= *SUFFIXES.end(), 13)?;

    set_status(books, (id, suffix), 1);
    let row = Record { parent: suffix, kind: 6, long: 0, short: 0, into: 0, ..named };
    append(books, id, Record { status: 2, quantity: -row.quantity, ..row.clone() });
    for &part in parts {
        append(books, id, Record { status: 0, quantity: part, ..row.clone() });
    }
    Ok(Reply::Booked { rows: 1 + parts.len() as i64, residual: 0 })
}

fn transfer(books: &mut Books, id: i64, suffix: i64, from: i64, to: i64, series: i64) -> Result<Reply, Refusal> {
    let figures = IDS.contains(&id) && SUFFIXES.contains(&suffix) && ACCOUNTS.contains(&from) && ACCOUNTS.contains(&to) && SERIES.contains(&series);
    ensure(figures && from != to, 3)?;
    let named = named_record(books, id, suffix, from, series)?;
    ensure(!named.is_to_close(), 8)?;
    change_account(books, (id, suffix), named, to, [4, 4])
}

/// Tests 12 and 13 of a record that goes to another account, and its booking: an inverse row in the old account and an adjustable row in the new, of these
/// types.
pub fn change_account(books: &mut Books, (id, suffix): (i64, i64), named: Record, to: i64, kinds: [i64; 2]) -> Result<Reply, Refusal> {
    let (q, from, series) = (named.quantity, named.account, named.series);
    let held = books.position(from, series);
    ensure(q <= if named.is_buy() { held.long } else { held.short }, 12)?;
    ensure(books.next_suffix(id) + 1 <= *SUFFIXES.end(), 13)?;

    set_status(books, (id, suffix), 1);
    let (long, short) = if named.is_buy() { (q, 0) } else { (0, q) };
    let row = Record { parent: suffix, into: 0, ..named };
    append(books, id, Record { kind: kinds[0], status: 2, quantity: -q, long: -long, short: -short, ..row.clone() });
    append(books, id, Record { kind: kinds[1], status: 0, account: to, long, short, ..row });
    books.move_position(from, series, -long, -short, 0);
    books.move_position(to, series, long, short, 0);
    Ok(Reply::Booked { rows: 2, residual: 0 })
}

fn merge(books: &mut Books, new: i64, account: i64, series: i64, pairs: &[i64]) -> Result<Reply, Refusal> {
    let sources: Vec<(i64, i64)> = pairs.chunks(2).map(|pair| (pair[0], *pair.last().unwrap())).collect();
    let figures = IDS.contains(&new) && ACCOUNTS.contains(&account) && SERIES.contains(&series);
    let list = pairs.len() % 2 == 0 && (2..=1_000).contains(&sources.len());
    let members = || sources.iter().all(|(id, suffix)| IDS.contains(id) && SUFFIXES.contains(suffix));
    ensure(figures && list && members(), 3)?;
    ensure(books.greatest_suffix(new).is_none(), 4)?;
    ensure_each(&sources, 5, |_, key| books.records.contains_key(key))?;
    let rows: Vec<Record> = sources.iter().map(|key| books.records[key].clone()).collect();
    ensure_each(&rows, 6, |_, row| row.account == account && row.series == series)?;
    // K3: "one test with 7: a merge's first source failing it gives number and place"
    if let Some(place) = rows.iter().position(|row| row.status != 0) {
        return Err(Refusal { number: not_adjustable(&rows[place]), place });
    }
    ensure_each(&rows, 8, |_, row| !row.is_to_close())?;
    ensure_each(&sources, 9, |place, key| !sources[..place].contains(key))?;
    ensure_each(&rows, 10, |_, row| row.is_buy() == rows[0].is_buy())?;
    let quantity: i64 = rows.iter().map(|row| row.quantity).sum();
    ensure(QUANTITIES.contains(&quantity), 11)?;

    let value: i128 = rows.iter().map(|row| i128::from(row.quantity) * i128::from(row.price)).sum();
    let average = average(value, quantity);
    let over = i128::from(quantity) * average - value;
    let residual = if rows[0].is_buy() { over } else { -over } as i64;
    for (key, row) in sources.iter().zip(&rows) {
        set_status(books, *key, 1);
        append(books, key.0, Record { parent: key.1, kind: 901, status: 2, quantity: -row.quantity, long: 0, short: 0, into: new, ..row.clone() });
    }
    ensure(sources.iter().all(|key| books.greatest_suffix(key.0) <= Some(*SUFFIXES.end())), 13)?;
    let merged = Record { parent: 0, kind: 901, status: 0, quantity, price: average as i64, long: 0, short: 0, into: 0, ..rows[0].clone() };
    books.add_record((new, 0), merged);
    books.move_position(account, series, 0, 0, residual);
    Ok(Reply::Booked { rows: sources.len() as i64 + 1, residual })
}

/// "V/Q rounded to a whole unit" (01), "A half goes away from zero" (02, K4): of the magnitude the greatest whole number that is at most |V|/Q + 1/2,
/// with V's sign.
fn average(value: i128, quantity: i64) -> i128 {
    let quantity = i128::from(quantity);
    value.signum() * ((2 * value.abs() + quantity) / (2 * quantity))
}

/// "follows parent to parent until suffix 0"; "no such record; for lineage also a parent row missing"
pub fn lineage(records: &Records, id: i64, suffix: i64) -> Result<Reply, Refusal> {
    ensure(IDS.contains(&id) && SUFFIXES.contains(&suffix), 3)?;
    let mut links = 0;
    let mut at = suffix;
    loop {
        let row = records.get(&(id, at)).ok_or(Refusal::number(5))?;
        if at == 0 {
            return Ok(Reply::Lineage { price: row.price, links });
        }
        at = row.parent;
        links += 1;
    }
}

/// Tests 5 to 7 of a request that adjusts one record, or opens a give-up of it.
pub fn named_record(books: &Books, id: i64, suffix: i64, account: i64, series: i64) -> Result<Record, Refusal> {
    let row = found_record(books, id, suffix, account, series)?;
    ensure(row.status == 0, not_adjustable(&row))?;
    Ok(row)
}

/// Tests 5 and 6.
pub fn found_record(books: &Books, id: i64, suffix: i64, account: i64, series: i64) -> Result<Record, Refusal> {
    let row = books.records.get(&(id, suffix)).ok_or(Refusal::number(5))?;
    ensure(row.account == account && row.series == series, 6)?;
    Ok(row.clone())
}

/// The number for a record whose status isn't 0. K3: "Adjusting or opening on status 3 is refused 17, one test with 7".
fn not_adjustable(row: &Record) -> i64 {
    if row.status == 3 {
        17
    } else {
        7
    }
}

/// "It becomes status 1", and nothing else of it changes.
pub fn set_status(books: &mut Books, key: (i64, i64), status: i64) {
    books.records.get_mut(&key).expect("the record was found").status = status;
}

/// Puts a row under the next suffix of its id.
fn append(books: &mut Books, id: i64, row: Record) {
    let suffix = books.next_suffix(id);
    books.add_record((id, suffix), row);
}

/// Tests 14 to 16, on the books as they would be "after the whole request" (K7). A step that adds no row passes them.
fn fits(books: &Books) -> Result<(), Refusal> {
    ensure(books.records.len() <= books.records_room, 14)?;
    ensure(books.positions.len() <= books.positions_room, 15)?;
    ensure(books.positions.values().all(is_sound_position), 16)
}
