//! As much of a book as the generator needs to know: the records, what accounts hold, the processes and the day.

use super::super::rng::Rng;
use std::collections::HashMap;

#[derive(Clone, Copy, PartialEq, Eq)]
pub enum Status {
    Adjustable,
    /// Adjusted, or an inverse.
    Past,
    UnderGiveUp,
}

#[derive(Clone)]
pub struct Record {
    pub id: i64,
    pub suffix: i64,
    pub account: i64,
    pub series: i64,
    pub side: i64,
    pub quantity: i64,
    pub price: i64,
    pub status: Status,
}

impl Record {
    pub fn is_buy(&self) -> bool {
        self.side % 2 == 1
    }

    pub fn is_to_open(&self) -> bool {
        self.side <= 2
    }

    /// The same record otherwise placed; the suffix is given to it when it is added.
    pub fn but(&self, account: i64, quantity: i64, status: Status) -> Record {
        Record { account, quantity, status, ..self.clone() }
    }
}

pub struct Process {
    pub process: i64,
    pub record: usize,
    pub giving: i64,
    pub taking: i64,
    pub is_pending: bool,
    pub has_ended: bool,
    pub giver: bool,
    pub taker: bool,
}

pub struct Book {
    pub rng: Rng,
    pub records: Vec<Record>,
    pub processes: Vec<Process>,
    pub day: i64,
    ids: i64,
    suffixes: HashMap<i64, i64>,
    /// By account, series and side: long of the buys, short of the sells.
    held: HashMap<(i64, i64, bool), i64>,
}

impl Book {
    pub fn new(seed: u64) -> Book {
        let (records, processes, suffixes, held) = (Vec::new(), Vec::new(), HashMap::new(), HashMap::new());
        Book { rng: Rng::new(seed), records, processes, day: 0, ids: 0, suffixes, held }
    }

    /// Room for 4,096 records and 1,024 processes; no request here adds more than 310 rows.
    pub fn nearly_full(&self) -> bool {
        self.records.len() > 4_096 - 310 || self.processes.len() >= 1_024
    }

    /// An id that no record and no process has. They don't rise, so that new rows go between others.
    pub fn new_id(&mut self) -> i64 {
        self.ids += 1;
        self.ids * 611_953 % 999_999_999
    }

    pub fn an_account(&mut self) -> i64 {
        self.rng.within(1, 5)
    }

    pub fn another_account(&mut self, than: i64) -> i64 {
        1 + (than - 1 + self.rng.within(1, 4)) % 5
    }

    /// One of the records of which that is true.
    pub fn pick(&mut self, wanted: impl Fn(&Record) -> bool) -> Option<usize> {
        let those: Vec<usize> = (0..self.records.len()).filter(|place| wanted(&self.records[*place])).collect();
        if those.is_empty() {
            return None;
        }
        Some(those[self.rng.place(those.len())])
    }

    /// Adds a record under its id's next suffix.
    pub fn add(&mut self, record: Record) {
        let next = self.suffixes.entry(record.id).or_insert(0);
        let suffix = *next;
        *next += 1;
        self.records.push(Record { suffix, ..record });
    }

    pub fn held(&self, account: i64, series: i64, is_buy: bool) -> i64 {
        *self.held.get(&(account, series, is_buy)).unwrap_or(&0)
    }

    pub fn hold(&mut self, account: i64, series: i64, is_buy: bool, more: i64) {
        *self.held.entry((account, series, is_buy)).or_insert(0) += more;
    }

    /// Moves a record to another account, as a transfer and a completed give-up do, unless the account holds less than its quantity.
    pub fn moves(&mut self, place: usize, to: i64) -> bool {
        let record = self.records[place].clone();
        let (is_buy, quantity) = (record.is_buy(), record.quantity);
        if self.held(record.account, record.series, is_buy) < quantity {
            return false;
        }
        self.hold(record.account, record.series, is_buy, -quantity);
        self.hold(to, record.series, is_buy, quantity);
        self.records[place].status = Status::Past;
        self.add(record.but(record.account, -quantity, Status::Past));
        self.add(record.but(to, quantity, Status::Adjustable));
        true
    }

    /// A record as words name it: without its suffix 0 now and then.
    pub fn named(&mut self, id: i64, suffix: i64) -> String {
        if suffix == 0 && self.rng.once_in(2) {
            id.to_string()
        } else {
            format!("{id}/{suffix}")
        }
    }
}
