//! The rows of the three tables as sorted maps, and the few ways in which requests look at them and change them.

use std::collections::BTreeMap;

/// A records row without its key, which is (id, suffix).
#[derive(Clone, Debug, PartialEq, Eq)]
pub struct Record {
    pub parent: i64,
    pub kind: i64,
    pub status: i64,
    pub account: i64,
    pub series: i64,
    pub side: i64,
    pub quantity: i64,
    pub price: i64,
    pub long: i64,
    pub short: i64,
    pub into: i64,
    /// Document 02, K8: the day of booking.
    pub day: i64,
}

/// A positions row without its key, which is (account, series).
#[derive(Clone, Debug, Default, PartialEq, Eq)]
pub struct Position {
    pub long: i64,
    pub short: i64,
    pub cash: i64,
    /// Document 02, K7: the two totals.
    pub quantity: i64,
    pub value: i64,
}

/// Document 02, K3: how far a give-up has come.
#[derive(Clone, Copy, Debug, PartialEq, Eq)]
pub enum Stage {
    Pending,
    Claimed,
    Refused,
    Cancelled,
    Done,
}

/// A row of the process table without its key, which is the process id. The approvals are those of the giver's and of the taker's clearing member.
#[derive(Clone, Debug, PartialEq, Eq)]
pub struct Process {
    pub id: i64,
    pub suffix: i64,
    pub giving: i64,
    pub taking: i64,
    pub series: i64,
    pub giver: bool,
    pub taker: bool,
    pub stage: Stage,
}

pub type Records = BTreeMap<(i64, i64), Record>;
pub type Positions = BTreeMap<(i64, i64), Position>;
pub type Processes = BTreeMap<i64, Process>;

/// For each account and series that has a record of status 0 or 3, "the signed quantity and signed quantity times price over its records of status 0 or 3"
/// (document 02, K7).
pub type Sums = BTreeMap<(i64, i64), [i128; 2]>;

#[derive(Clone, Debug, Default)]
pub struct Books {
    /// Document 02, K8: the current day.
    pub day: i64,
    pub records: Records,
    pub positions: Positions,
    /// Empty, without room, for a request that is not lent the process table.
    pub processes: Processes,
    pub records_room: usize,
    pub positions_room: usize,
    pub processes_room: usize,
}

impl Record {
    pub fn is_buy(&self) -> bool {
        self.side == 1 || self.side == 3
    }

    pub fn is_to_close(&self) -> bool {
        self.side == 3 || self.side == 4
    }

    /// "buys plus, sells minus"
    fn signed_quantity(&self) -> i128 {
        i128::from(if self.is_buy() { self.quantity } else { -self.quantity })
    }
}

impl Books {
    /// The greatest suffix that the id has, where it has any.
    pub fn greatest_suffix(&self, id: i64) -> Option<i64> {
        self.records.range((id, i64::MIN)..=(id, i64::MAX)).next_back().map(|(key, _)| key.1)
    }

    /// "The next suffix is one above the greatest that the id has."
    pub fn next_suffix(&self, id: i64) -> i64 {
        self.greatest_suffix(id).map_or(0, |greatest| greatest + 1)
    }

    /// "an absent row reads as zeros"
    pub fn position(&self, account: i64, series: i64) -> Position {
        self.positions.get(&(account, series)).cloned().unwrap_or_default()
    }

    /// K8: "new rows take the header's" day
    pub fn add_record(&mut self, key: (i64, i64), row: Record) {
        self.records.insert(key, Record { day: self.day, ..row });
    }

    /// Adds to the row of that key, which is "made with zeros" where it is absent.
    pub fn move_position(&mut self, account: i64, series: i64, long: i64, short: i64, cash: i64) {
        let row = self.positions.entry((account, series)).or_default();
        row.long += long;
        row.short += short;
        row.cash += cash;
    }

    pub fn sums(&self) -> Sums {
        let mut sums = Sums::new();
        for record in self.records.values().filter(|record| matches!(record.status, 0 | 3)) {
            let sum = sums.entry((record.account, record.series)).or_default();
            sum[0] += record.signed_quantity();
            sum[1] += record.signed_quantity() * i128::from(record.price);
        }
        sums
    }

    /// K7: "Every request adds to the stored figures what it changes in these sums, so true ones stay true". Given are the sums before the request.
    pub fn add_the_change(&mut self, before: Sums) {
        let mut change = self.sums();
        for (key, [quantity, value]) in before {
            let sum = change.entry(key).or_default();
            sum[0] -= quantity;
            sum[1] -= value;
        }
        for (key, [quantity, value]) in change.into_iter().filter(|(_, sum)| *sum != [0, 0]) {
            let row = self.positions.get_mut(&key).expect("a position whose sums change is one that the request needs");
            row.quantity += quantity as i64;
            row.value += value as i64;
        }
    }
}
