//! A request, and the two books that answer it on lent tables and write and replay its line: the archive through its C interface, and the peer by hand.

use peer::Step;
pub use velichundam::c::Coded;
use velichundam::c::{velichundam_day, velichundam_reportable, velichundam_write_day};
use velichundam::c::{velichundam_give_up_approve_giver, velichundam_give_up_approve_taker, velichundam_give_up_cancel};
use velichundam::c::{velichundam_give_up_claim, velichundam_give_up_open, velichundam_give_up_refuse};
use velichundam::c::{velichundam_lineage, velichundam_merge, velichundam_separate, velichundam_trade, velichundam_trades, velichundam_transfer};
use velichundam::c::{velichundam_replay, velichundam_write_give_up, velichundam_write_merge, velichundam_write_separation};
use velichundam::c::{velichundam_write_trade, velichundam_write_transfer};

#[derive(Clone, Debug)]
pub enum Request {
    Trade { id: i64, account: i64, series: i64, side: i64, quantity: i64, price: i64 },
    Separate { id: i64, suffix: i64, account: i64, series: i64, parts: Vec<i64> },
    Transfer { id: i64, suffix: i64, from: i64, to: i64, series: i64 },
    Merge { id: i64, account: i64, series: i64, pairs: Vec<i64> },
    Lineage { id: i64, suffix: i64 },
}

pub const KINDS: [&str; 5] = ["trade", "separation", "transfer", "merge", "lineage"];
pub const TRANSFER: usize = 2;

impl Request {
    pub fn kind(&self) -> usize {
        match self {
            Request::Trade { .. } => 0,
            Request::Separate { .. } => 1,
            Request::Transfer { .. } => TRANSFER,
            Request::Merge { .. } => 3,
            Request::Lineage { .. } => 4,
        }
    }
}

pub const REFUSED: i64 = 3;
const STOPPED: i64 = 4;
pub const WRITTEN: i64 = 5;
pub const REPLAYED: i64 = 6;
pub const LISTED: i64 = 9;

pub type Book = fn(&mut [i64], &mut [i64], &Request) -> Coded;

/// The archive.
#[inline(never)]
pub fn ours(records: &mut [i64], positions: &mut [i64], request: &Request) -> Coded {
    let (r, rn, p, pn) = (records.as_mut_ptr(), records.len(), positions.as_mut_ptr(), positions.len());
    unsafe {
        match request {
            Request::Trade { id, account, series, side, quantity, price } => velichundam_trade(r, rn, p, pn, *id, *account, *series, *side, *quantity, *price),
            Request::Separate { id, suffix, account, series, parts } => {
                velichundam_separate(r, rn, p, pn, *id, *suffix, *account, *series, parts.as_ptr(), parts.len())
            }
            Request::Transfer { id, suffix, from, to, series } => velichundam_transfer(r, rn, p, pn, *id, *suffix, *from, *to, *series),
            Request::Merge { id, account, series, pairs } => velichundam_merge(r, rn, p, pn, *id, *account, *series, pairs.as_ptr(), pairs.len()),
            Request::Lineage { id, suffix } => velichundam_lineage(r, rn, *id, *suffix),
        }
    }
}

/// The peer.
#[inline(never)]
pub fn by_hand(records: &mut [i64], positions: &mut [i64], request: &Request) -> Coded {
    let reply = match request {
        Request::Trade { id, account, series, side, quantity, price } => peer::trade(records, positions, *id, *account, *series, *side, *quantity, *price),
        Request::Separate { id, suffix, account, series, parts } => peer::separate(records, positions, *id, *suffix, *account, *series, parts),
        Request::Transfer { id, suffix, from, to, series } => peer::transfer(records, positions, *id, *suffix, *from, *to, *series),
        Request::Merge { id, account, series, pairs } => peer::merge(records, positions, *id, *account, *series, pairs),
        Request::Lineage { id, suffix } => peer::lineage(records, *id, *suffix),
    };
    coded(reply)
}

fn coded(reply: peer::Reply) -> Coded {
    let (kind, first, second, third) = match reply {
        peer::Reply::Booked { rows, residual } => (0, rows, residual, 0),
        peer::Reply::ClosingError { excess } => (1, excess, 0, 0),
        peer::Reply::Lineage { price, links } => (2, price, links, 0),
        peer::Reply::Refused { number, place } => (REFUSED, number, place, 0),
        peer::Reply::Stopped { booked, number, place } => (STOPPED, booked, number, place),
        peer::Reply::Written { bytes } => (WRITTEN, bytes, 0, 0),
        peer::Reply::Replayed { lines } => (REPLAYED, lines, 0, 0),
        peer::Reply::BadLine { line } => (7, line, 0, 0),
        peer::Reply::LineRefused { line, number, place } => (8, line, number, place),
        peer::Reply::Listed { records } => (LISTED, records, 0, 0),
    };
    Coded { kind, first, second, third }
}

/// Books a list of trades, six figures each, and writes each one's excess.
pub type TradesBook = fn(&mut [i64], &mut [i64], &[i64], &mut [i64]) -> Coded;

/// The archive, in one call.
#[inline(never)]
pub fn trades_of_ours(records: &mut [i64], positions: &mut [i64], trades: &[i64], excess: &mut [i64]) -> Coded {
    let (r, p, e) = (records.as_mut_ptr(), positions.as_mut_ptr(), excess.as_mut_ptr());
    unsafe { velichundam_trades(r, records.len(), p, positions.len(), trades.as_ptr(), trades.len(), e, excess.len()) }
}

/// The peer, in one call.
#[inline(never)]
pub fn trades_by_hand(records: &mut [i64], positions: &mut [i64], trades: &[i64], excess: &mut [i64]) -> Coded {
    coded(peer::trades(records, positions, trades, excess))
}

/// The archive, a call for each trade.
#[inline(never)]
pub fn one_by_one(records: &mut [i64], positions: &mut [i64], trades: &[i64], excess: &mut [i64]) -> Coded {
    let (r, rn, p, pn) = (records.as_mut_ptr(), records.len(), positions.as_mut_ptr(), positions.len());
    let (trades, _) = trades.as_chunks::<6>();
    for (booked, (&[id, account, series, side, quantity, price], cell)) in trades.iter().zip(excess).enumerate() {
        match unsafe { velichundam_trade(r, rn, p, pn, id, account, series, side, quantity, price) } {
            Coded { kind: REFUSED, first, second, .. } => return Coded { kind: STOPPED, first: booked as i64, second: first, third: second },
            Coded { kind, first, .. } => *cell = if kind == 1 { first } else { 0 },
        }
    }
    Coded { kind: 0, first: trades.len() as i64, second: 0, third: 0 }
}

/// What a step of a give-up names: process, id, suffix, giving, taking, series
pub type Names = [i64; 6];

/// The archive, a step of a give-up.
#[inline(never)]
pub fn step_of_ours(tables: &mut [Vec<i64>; 3], step: Step, names: &Names) -> Coded {
    let call = match step {
        Step::Open => velichundam_give_up_open,
        Step::Claim => velichundam_give_up_claim,
        Step::Cancel => velichundam_give_up_cancel,
        Step::Refuse => velichundam_give_up_refuse,
        Step::ApproveGiver => velichundam_give_up_approve_giver,
        Step::ApproveTaker => velichundam_give_up_approve_taker,
    };
    let [(r, rn), (p, pn), (q, qn)] = tables.each_mut().map(|table| (table.as_mut_ptr(), table.len()));
    let [process, id, suffix, giving, taking, series] = *names;
    unsafe { call(r, rn, p, pn, q, qn, process, id, suffix, giving, taking, series) }
}

/// The peer, a step of a give-up.
#[inline(never)]
pub fn step_by_hand(tables: &mut [Vec<i64>; 3], step: Step, names: &Names) -> Coded {
    let [records, positions, processes] = tables;
    let [process, id, suffix, giving, taking, series] = *names;
    coded(peer::give_up(step, records, positions, processes, process, id, suffix, giving, taking, series))
}

/// The archive, a new day.
#[inline(never)]
pub fn day_of_ours(records: &mut [i64], day: i64) -> Coded {
    unsafe { velichundam_day(records.as_mut_ptr(), records.len(), day) }
}

/// The peer, a new day.
#[inline(never)]
pub fn day_by_hand(records: &mut [i64], day: i64) -> Coded {
    coded(peer::day(records, day))
}

/// The archive, the reporting list.
#[inline(never)]
pub fn list_of_ours(records: &[i64], pairs: &mut [i64]) -> Coded {
    unsafe { velichundam_reportable(records.as_ptr(), records.len(), pairs.as_mut_ptr(), pairs.len()) }
}

/// The peer, the reporting list.
#[inline(never)]
pub fn list_by_hand(records: &[i64], pairs: &mut [i64]) -> Coded {
    coded(peer::reportable(records, pairs))
}

/// What a line of a journal asks for: a request that changes a table, a step of a give-up, or a new day.
#[derive(Clone, Debug)]
pub enum Entry {
    Request(Request),
    Step(Step, Names),
    Day(i64),
}

fn letter(step: Step) -> i64 {
    let letter = match step {
        Step::Open => b'O',
        Step::Claim => b'C',
        Step::Cancel => b'X',
        Step::Refuse => b'R',
        Step::ApproveGiver => b'G',
        Step::ApproveTaker => b'T',
    };
    i64::from(letter)
}

/// The archive, a call.
pub fn entry_of_ours(tables: &mut [Vec<i64>; 3], entry: &Entry) -> Coded {
    match entry {
        Entry::Request(request) => {
            let [records, positions, _] = tables;
            ours(records, positions, request)
        }
        Entry::Step(step, names) => step_of_ours(tables, *step, names),
        Entry::Day(day) => day_of_ours(&mut tables[0], *day),
    }
}

/// The peer, a call.
pub fn entry_by_hand(tables: &mut [Vec<i64>; 3], entry: &Entry) -> Coded {
    match entry {
        Entry::Request(request) => {
            let [records, positions, _] = tables;
            by_hand(records, positions, request)
        }
        Entry::Step(step, names) => step_by_hand(tables, *step, names),
        Entry::Day(day) => day_by_hand(&mut tables[0], *day),
    }
}

/// The archive, a line written.
#[inline(never)]
pub fn line_of_ours(text: &mut [u8], entry: &Entry) -> Coded {
    let (t, tn) = (text.as_mut_ptr(), text.len());
    unsafe {
        match entry {
            Entry::Request(Request::Trade { id, account, series, side, quantity, price }) => {
                velichundam_write_trade(t, tn, *id, *account, *series, *side, *quantity, *price)
            }
            Entry::Request(Request::Separate { id, suffix, account, series, parts }) => {
                velichundam_write_separation(t, tn, *id, *suffix, *account, *series, parts.as_ptr(), parts.len())
            }
            Entry::Request(Request::Transfer { id, suffix, from, to, series }) => velichundam_write_transfer(t, tn, *id, *suffix, *from, *to, *series),
            Entry::Request(Request::Merge { id, account, series, pairs }) => {
                velichundam_write_merge(t, tn, *id, *account, *series, pairs.as_ptr(), pairs.len())
            }
            Entry::Request(Request::Lineage { .. }) => unreachable!("it changes no table"),
            Entry::Step(step, [process, id, suffix, giving, taking, series]) => {
                velichundam_write_give_up(t, tn, letter(*step), *process, *id, *suffix, *giving, *taking, *series)
            }
            Entry::Day(day) => velichundam_write_day(t, tn, *day),
        }
    }
}

/// The peer, a line written.
#[inline(never)]
pub fn line_by_hand(text: &mut [u8], entry: &Entry) -> Coded {
    let reply = match entry {
        Entry::Request(Request::Trade { id, account, series, side, quantity, price }) => {
            peer::write_trade(text, *id, *account, *series, *side, *quantity, *price)
        }
        Entry::Request(Request::Separate { id, suffix, account, series, parts }) => peer::write_separation(text, *id, *suffix, *account, *series, parts),
        Entry::Request(Request::Transfer { id, suffix, from, to, series }) => peer::write_transfer(text, *id, *suffix, *from, *to, *series),
        Entry::Request(Request::Merge { id, account, series, pairs }) => peer::write_merge(text, *id, *account, *series, pairs),
        Entry::Request(Request::Lineage { .. }) => unreachable!("it changes no table"),
        Entry::Step(step, [process, id, suffix, giving, taking, series]) => {
            peer::write_give_up(text, letter(*step), *process, *id, *suffix, *giving, *taking, *series)
        }
        Entry::Day(day) => peer::write_day(text, *day),
    };
    coded(reply)
}

/// The archive, a text replayed.
#[inline(never)]
pub fn replay_of_ours(tables: &mut [Vec<i64>; 3], text: &[u8]) -> Coded {
    let [(r, rn), (p, pn), (q, qn)] = tables.each_mut().map(|table| (table.as_mut_ptr(), table.len()));
    unsafe { velichundam_replay(r, rn, p, pn, q, qn, text.as_ptr(), text.len()) }
}

/// The peer, a text replayed.
#[inline(never)]
pub fn replay_by_hand(tables: &mut [Vec<i64>; 3], text: &[u8]) -> Coded {
    let [records, positions, processes] = tables;
    coded(peer::replay(records, positions, processes, text))
}
