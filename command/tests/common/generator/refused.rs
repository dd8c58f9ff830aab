//! Requests that are refused, by each number that a small change of a good one brings.

use super::book::{Book, Record, Status};
use super::{good, request, Request};

pub fn any(book: &mut Book) -> Option<Request> {
    match book.rng.within(0, 9) {
        0 => taken_id(book),
        1 => no_such_record(book),
        2 => elsewhere(book),
        3 => past(book),
        4 => under_give_up(book),
        5 => to_close(book),
        6 => twice(book),
        7 => wrong_sum(book),
        8 => out_of_turn(book),
        _ => late_day(book),
    }
}

fn refused(words: String, fields: String, why: &str) -> Option<Request> {
    Some(request(words, fields, format!("refused {why}"), ""))
}

fn transfer(record: &Record, why: &str) -> Option<Request> {
    let Record { id, suffix, account, series, .. } = record;
    let to = account % 5 + 1;
    refused(format!("transfer {id}/{suffix} account {account} to {to} series {series}"), format!("A {id} {suffix} {account} {to} {series}"), why)
}

fn separate(record: &Record, parts: [i64; 2], why: &str) -> Option<Request> {
    let Record { id, suffix, account, series, .. } = record;
    let listed = format!("{} {}", parts[0], parts[1]);
    let words = format!("separate {id}/{suffix} account {account} series {series} into {listed}");
    refused(words, format!("S {id} {suffix} {account} {series} {listed}"), why)
}

fn taken_id(book: &mut Book) -> Option<Request> {
    let place = book.pick(|_| true)?;
    let id = book.records[place].id;
    refused(format!("trade {id} account 1 series 1 buy open 5 @ 1"), format!("T {id} 1 1 1 5 10000000"), "4: the new id has a record")
}

fn no_such_record(book: &mut Book) -> Option<Request> {
    let place = book.pick(|_| true)?;
    let record = Record { suffix: 60_000, ..book.records[place].clone() };
    transfer(&record, "5: no such record")
}

fn elsewhere(book: &mut Book) -> Option<Request> {
    let place = book.pick(|_| true)?;
    let record = &book.records[place];
    let record = Record { account: record.account % 5 + 1, ..record.clone() };
    separate(&record, [1, 1], "6: the record is of another account or series")
}

fn past(book: &mut Book) -> Option<Request> {
    let place = book.pick(|record| record.status == Status::Past)?;
    transfer(&book.records[place], "7: the record's status does not allow it")
}

fn under_give_up(book: &mut Book) -> Option<Request> {
    let place = book.pick(|record| record.status == Status::UnderGiveUp)?;
    separate(&book.records[place], [1, 1], "17: the record is under give-up")
}

fn to_close(book: &mut Book) -> Option<Request> {
    let place = book.pick(|record| record.status == Status::Adjustable && !record.is_to_open())?;
    transfer(&book.records[place], "8: the record is to close")
}

fn twice(book: &mut Book) -> Option<Request> {
    let place = book.pick(|record| record.status == Status::Adjustable && record.is_to_open())?;
    let new = book.new_id();
    let Record { id, suffix, account, series, .. } = book.records[place];
    let words = format!("merge {new} account {account} series {series} from {id}/{suffix} {id}/{suffix}");
    let fields = format!("M {new} {account} {series} {id} {suffix} {id} {suffix}");
    refused(words, fields, "9 at source 1: this pair stood earlier in the list")
}

fn wrong_sum(book: &mut Book) -> Option<Request> {
    let place = book.pick(|record| record.status == Status::Adjustable)?;
    let record = &book.records[place];
    separate(record, [record.quantity, 1], "11: the sum of the quantities does not fit")
}

fn out_of_turn(book: &mut Book) -> Option<Request> {
    let place = book.processes.iter().position(|process| process.has_ended)?;
    Some(good::step(book, place, "claim", "refused 18: the process is taken, unknown or not at this step".to_string()))
}

fn late_day(book: &mut Book) -> Option<Request> {
    if book.day == 0 {
        return None;
    }
    let day = book.rng.within(1, book.day);
    refused(format!("day {day}"), format!("D {day}"), "3: a figure or a count is out of range")
}
