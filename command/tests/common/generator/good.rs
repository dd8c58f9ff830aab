//! Requests that are booked, but for a transfer or a last approval of what an account no longer holds.

use super::book::{Book, Process, Record, Status};
use super::{booked, request, Request};
use crate::common::tables::decimal;

const NOT_HELD: &str = "refused 12: the account holds less than the quantity";
const TAKEN: &str = "refused 4: the new id has a record";
const PAST: &str = "refused 7: the record's status does not allow it";
const OUT_OF_TURN: &str = "refused 18: the process is taken, unknown or not at this step";
const OUT_OF_RANGE: &str = "refused 3: a figure or a count is out of range";

pub fn any(book: &mut Book) -> Option<Request> {
    match book.rng.within(0, 19) {
        0..=6 => Some(trade(book)),
        7..=9 => separation(book),
        10..=11 => transfer(book),
        12..=13 => merge(book),
        14..=15 => opening(book),
        16..=18 => later_step(book),
        _ => day(book),
    }
}

fn trade(book: &mut Book) -> Request {
    let id = book.new_id();
    let (account, series) = (book.an_account(), book.rng.within(1, 3));
    let side = if book.rng.once_in(5) { book.rng.within(3, 4) } else { book.rng.within(1, 2) };
    let quantity = if book.rng.once_in(10) { 900 } else { book.rng.within(1, 60) };
    let price = book.rng.within(-20_000_000, 2_000_000_000);
    let record = Record { id, suffix: 0, account, series, side, quantity, price, status: Status::Adjustable };
    let answer = hold_trade(book, &record);
    let side_words = ["buy open", "sell open", "buy close", "sell close"][side as usize - 1];
    let words = format!("trade {id} account {account} series {series} {side_words} {quantity} @ {}", decimal(price));
    let fields = format!("T {id} {account} {series} {side} {quantity} {price}");
    book.add(record);
    request(words, fields, answer, TAKEN)
}

/// What a trade does to its position, and its answer.
fn hold_trade(book: &mut Book, record: &Record) -> String {
    let Record { account, series, quantity, .. } = *record;
    let is_buy = record.is_buy();
    if record.is_to_open() {
        book.hold(account, series, is_buy, quantity);
        return booked(1, 0);
    }
    let closes = quantity.min(book.held(account, series, !is_buy));
    book.hold(account, series, !is_buy, -closes);
    book.hold(account, series, is_buy, quantity - closes);
    match quantity - closes {
        0 => booked(1, 0),
        excess => format!("booked with closing error, excess {excess}"),
    }
}

fn separation(book: &mut Book) -> Option<Request> {
    let place = book.pick(|record| record.status == Status::Adjustable && record.quantity >= 2)?;
    let record = book.records[place].clone();
    let Record { id, suffix, account, series, quantity, .. } = record;
    let most = if book.rng.once_in(12) { 300 } else { 5 };
    let parts = parts(quantity, book.rng.within(2, quantity.min(most)));
    book.records[place].status = Status::Past;
    book.add(record.but(account, -quantity, Status::Past));
    for part in &parts {
        book.add(record.but(account, *part, Status::Adjustable));
    }
    let listed: Vec<String> = parts.iter().map(i64::to_string).collect();
    let listed = listed.join(" ");
    let words = format!("separate {} account {account} series {series} into {listed}", book.named(id, suffix));
    Some(request(words, format!("S {id} {suffix} {account} {series} {listed}"), booked(1 + parts.len(), 0), PAST))
}

/// So many parts of a quantity, the first of them the greatest.
fn parts(quantity: i64, count: i64) -> Vec<i64> {
    let mut parts = vec![quantity / count; count as usize];
    parts[0] += quantity % count;
    parts
}

fn transfer(book: &mut Book) -> Option<Request> {
    let place = book.pick(|record| record.status == Status::Adjustable && record.is_to_open())?;
    let Record { id, suffix, account, series, .. } = book.records[place].clone();
    let to = book.another_account(account);
    let answer = if book.moves(place, to) { booked(2, 0) } else { NOT_HELD.to_string() };
    let words = format!("transfer {} account {account} to {to} series {series}", book.named(id, suffix));
    Some(request(words, format!("A {id} {suffix} {account} {to} {series}"), answer, PAST))
}

fn merge(book: &mut Book) -> Option<Request> {
    let first = book.pick(|record| record.status == Status::Adjustable && record.is_to_open())?;
    let Record { account, series, side, .. } = book.records[first];
    let alike = |record: &Record| record.status == Status::Adjustable && (record.account, record.series, record.side) == (account, series, side);
    let most = if book.rng.once_in(10) { 200 } else { 4 };
    let sources: Vec<usize> = (first..book.records.len()).filter(|place| alike(&book.records[*place])).take(most).collect();
    if sources.len() < 2 {
        return None;
    }
    let id = book.new_id();
    let records: Vec<Record> = sources.iter().map(|place| book.records[*place].clone()).collect();
    let words: Vec<String> = records.iter().map(|record| book.named(record.id, record.suffix)).collect();
    let pairs: Vec<String> = records.iter().map(|record| format!("{} {}", record.id, record.suffix)).collect();
    for place in sources {
        book.records[place].status = Status::Past;
    }
    let residual = merged(book, id, &records);
    let words = format!("merge {id} account {account} series {series} from {}", words.join(" "));
    let fields = format!("M {id} {account} {series} {}", pairs.join(" "));
    Some(request(words, fields, booked(1 + records.len(), residual), TAKEN))
}

/// Adds the inverses and the merged record: the residual.
fn merged(book: &mut Book, id: i64, sources: &[Record]) -> i64 {
    let quantity: i64 = sources.iter().map(|source| source.quantity).sum();
    let value: i64 = sources.iter().map(|source| source.quantity * source.price).sum();
    // A half goes away from zero.
    let price = value.signum() * ((2 * value.abs() + quantity) / (2 * quantity));
    for source in sources {
        book.add(source.but(source.account, -source.quantity, Status::Past));
    }
    book.add(Record { id, quantity, price, ..sources[0].clone() });
    let over = quantity * price - value;
    if sources[0].is_buy() {
        over
    } else {
        -over
    }
}

fn opening(book: &mut Book) -> Option<Request> {
    let place = book.pick(|record| record.status == Status::Adjustable && record.is_to_open())?;
    let giving = book.records[place].account;
    let (process, taking) = (book.new_id(), book.another_account(giving));
    book.records[place].status = Status::UnderGiveUp;
    book.processes.push(Process { process, record: place, giving, taking, is_pending: true, has_ended: false, giver: false, taker: false });
    Some(step(book, book.processes.len() - 1, "open", booked(0, 0)))
}

fn later_step(book: &mut Book) -> Option<Request> {
    let going: Vec<usize> = (0..book.processes.len()).filter(|place| !book.processes[*place].has_ended).collect();
    if going.is_empty() {
        return None;
    }
    let place = going[book.rng.place(going.len())];
    let process = &mut book.processes[place];
    let turn = book.rng.within(0, 9);
    if process.is_pending && turn < 2 {
        process.has_ended = true;
        book.records[process.record].status = Status::Adjustable;
        let name = if turn == 0 { "cancel" } else { "refuse" };
        return Some(step(book, place, name, booked(0, 0)));
    }
    if process.is_pending && turn < 7 {
        process.is_pending = false;
        return Some(step(book, place, "claim", booked(0, 0)));
    }
    approval(book, place, turn % 2 == 0)
}

/// An approval whose turn it is; the second one after the claim moves the record.
fn approval(book: &mut Book, place: usize, of_giver: bool) -> Option<Request> {
    let process = &mut book.processes[place];
    let given = if of_giver { &mut process.giver } else { &mut process.taker };
    if *given || (process.is_pending && !of_giver) {
        return None;
    }
    *given = true;
    let name = if of_giver { "approve-giver" } else { "approve-taker" };
    if process.is_pending || !(process.giver && process.taker) {
        return Some(step(book, place, name, booked(0, 0)));
    }
    let (record, taking) = (process.record, process.taking);
    if book.moves(record, taking) {
        book.processes[place].has_ended = true;
        return Some(step(book, place, name, booked(2, 0)));
    }
    let process = &mut book.processes[place];
    *(if of_giver { &mut process.giver } else { &mut process.taker }) = false;
    Some(step(book, place, name, NOT_HELD.to_string()))
}

pub fn step(book: &mut Book, place: usize, name: &str, answer: String) -> Request {
    let Process { process, record, giving, taking, .. } = book.processes[place];
    let Record { id, suffix, series, .. } = book.records[record];
    let letter = match name {
        "open" => "O",
        "claim" => "C",
        "cancel" => "X",
        "refuse" => "R",
        "approve-giver" => "G",
        _ => "T",
    };
    let words = format!("give-up {process} {name} {} account {giving} to {taking} series {series}", book.named(id, suffix));
    request(words, format!("G {letter} {process} {id} {suffix} {giving} {taking} {series}"), answer, OUT_OF_TURN)
}

fn day(book: &mut Book) -> Option<Request> {
    book.day += book.rng.within(1, 3);
    Some(request(format!("day {}", book.day), format!("D {}", book.day), booked(0, 0), OUT_OF_RANGE))
}
