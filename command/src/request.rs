//! A request that a person or a line asks for: handed in to the book, and written as a line of the journal by the book's own calls.

use crate::book::Book;
use velichundam::{Reply, Step};

#[derive(Clone, Debug, PartialEq, Eq)]
pub enum Request {
    /// id, account, series, side, quantity, price
    Trade([i64; 6]),
    /// id, suffix, account, series; the parts
    Separation([i64; 4], Vec<i64>),
    /// id, suffix, from, to, series
    Transfer([i64; 5]),
    /// id, account, series; id and suffix of each source
    Merge([i64; 3], Vec<i64>),
    /// process, id, suffix, giving, taking, series
    GiveUp(Step, [i64; 6]),
    Day(i64),
    /// id, suffix
    Lineage([i64; 2]),
}

/// The steps of a give-up with the words for them.
pub const STEPS: [(&str, Step); 6] = [
    ("open", Step::Open),
    ("claim", Step::Claim),
    ("cancel", Step::Cancel),
    ("refuse", Step::Refuse),
    ("approve-giver", Step::ApproveGiver),
    ("approve-taker", Step::ApproveTaker),
];

impl Request {
    /// Hands the request in.
    pub fn call(&self, book: &mut Book) -> Reply {
        let Book { records, positions, processes } = book;
        match self {
            Request::Trade([id, account, series, side, quantity, price]) => {
                velichundam::trade(records, positions, *id, *account, *series, *side, *quantity, *price)
            }
            Request::Separation([id, suffix, account, series], parts) => velichundam::separate(records, positions, *id, *suffix, *account, *series, parts),
            Request::Transfer([id, suffix, from, to, series]) => velichundam::transfer(records, positions, *id, *suffix, *from, *to, *series),
            Request::Merge([id, account, series], pairs) => velichundam::merge(records, positions, *id, *account, *series, pairs),
            Request::GiveUp(step, [process, id, suffix, giving, taking, series]) => {
                velichundam::give_up(*step, records, positions, processes, *process, *id, *suffix, *giving, *taking, *series)
            }
            Request::Day(day) => velichundam::day(records, *day),
            Request::Lineage([id, suffix]) => velichundam::lineage(records, *id, *suffix),
        }
    }

    /// Its line in the journal, with the newline. None where it has none: a lineage question, and what fails test 3.
    pub fn line(&self) -> Option<Vec<u8>> {
        let mut text = vec![0; self.longest_line()];
        let reply = match self {
            Request::Trade([id, account, series, side, quantity, price]) => {
                velichundam::write_trade(&mut text, *id, *account, *series, *side, *quantity, *price)
            }
            Request::Separation([id, suffix, account, series], parts) => velichundam::write_separation(&mut text, *id, *suffix, *account, *series, parts),
            Request::Transfer([id, suffix, from, to, series]) => velichundam::write_transfer(&mut text, *id, *suffix, *from, *to, *series),
            Request::Merge([id, account, series], pairs) => velichundam::write_merge(&mut text, *id, *account, *series, pairs),
            Request::GiveUp(step, [process, id, suffix, giving, taking, series]) => {
                velichundam::write_give_up(&mut text, *step, *process, *id, *suffix, *giving, *taking, *series)
            }
            Request::Day(day) => velichundam::write_day(&mut text, *day),
            Request::Lineage(_) => return None,
        };
        let Reply::Written { bytes } = reply else { return None };
        text.truncate(usize::try_from(bytes).ok()?);
        Some(text)
    }

    fn longest_line(&self) -> usize {
        match self {
            Request::Trade(_) => velichundam::TRADE_LINE,
            Request::Separation(_, parts) => velichundam::separation_line(parts.len()),
            Request::Transfer(_) => velichundam::TRANSFER_LINE,
            Request::Merge(_, pairs) => velichundam::merge_line(pairs.len().div_ceil(2)),
            Request::GiveUp(..) => velichundam::GIVE_UP_LINE,
            Request::Day(_) => velichundam::DAY_LINE,
            Request::Lineage(_) => 0,
        }
    }
}
