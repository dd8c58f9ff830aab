//! What is tested: the functions of include/velichundam.h, called on lent memory.

use crate::lent::{Arena, Fence};
use crate::tables::Tables;
use model::journal::letter_of;
use model::{Reply, Request, Step, Writing};
pub use velichundam::c::Coded;
use velichundam::c::{velichundam_day, velichundam_reportable, velichundam_write_day};
use velichundam::c::{velichundam_give_up_approve_giver, velichundam_give_up_approve_taker, velichundam_give_up_cancel};
use velichundam::c::{velichundam_give_up_claim, velichundam_give_up_open, velichundam_give_up_refuse};
use velichundam::c::{velichundam_lineage, velichundam_merge, velichundam_separate, velichundam_trade, velichundam_trades, velichundam_transfer};
use velichundam::c::{velichundam_replay, velichundam_write_give_up, velichundam_write_merge, velichundam_write_separation};
use velichundam::c::{velichundam_write_trade, velichundam_write_trades, velichundam_write_transfer};

/// The numbers by which include/velichundam.h gives an answer.
pub fn coded(reply: Reply) -> Coded {
    let (kind, first, second, third) = match reply {
        Reply::Booked { rows, residual } => (0, rows, residual, 0),
        Reply::ClosingError { excess } => (1, excess, 0, 0),
        Reply::Lineage { price, links } => (2, price, links, 0),
        Reply::Refused { number, place } => (3, number, place, 0),
        Reply::Stopped { booked, number, place } => (4, booked, number, place),
        Reply::Written { bytes } => (5, bytes, 0, 0),
        Reply::Replayed { lines } => (6, lines, 0, 0),
        Reply::BadLine { line } => (7, line, 0, 0),
        Reply::LineRefused { line, number, place } => (8, line, number, place),
        Reply::Listed { records } => (9, records, 0, 0),
    };
    Coded { kind, first, second, third }
}

/// What the cells of an output hold when they are lent: nothing that a call writes.
pub fn lent_output(request: &Request) -> Vec<i64> {
    let cells = if let Request::Trades { cells, .. } | Request::Reportable { cells } = request { *cells } else { 0 };
    (0..cells as i64).map(|k| -5_000_000_000 - k).collect()
}

/// The call for a step of a give-up.
fn call_of(step: Step) -> unsafe extern "C" fn(*mut i64, usize, *mut i64, usize, *mut i64, usize, i64, i64, i64, i64, i64, i64) -> Coded {
    match step {
        Step::Open => velichundam_give_up_open,
        Step::Claim => velichundam_give_up_claim,
        Step::Cancel => velichundam_give_up_cancel,
        Step::Refuse => velichundam_give_up_refuse,
        Step::ApproveGiver => velichundam_give_up_approve_giver,
        Step::ApproveTaker => velichundam_give_up_approve_taker,
    }
}

/// The pieces of memory that calls borrow.
pub struct Subject {
    records: Arena<i64>,
    positions: Arena<i64>,
    processes: Arena<i64>,
    list: Arena<i64>,
    output: Arena<i64>,
    text: Arena<u8>,
}

/// What came of a call: its answer, the cells afterwards, and what it may not have written: the memory around them, and the lent list or text.
pub struct Outcome {
    pub answer: Coded,
    pub tables: Tables,
    pub output: Vec<i64>,
    pub guards_kept: bool,
    pub list_kept: bool,
}

/// What came of a call that writes: its answer, the bytes of the buffer afterwards, and what it may not have written.
pub struct Wrote {
    pub answer: Coded,
    pub text: Vec<u8>,
    pub guards_kept: bool,
    pub list_kept: bool,
}

/// The list that a request lends.
fn list_of(request: &Request) -> &[i64] {
    match request {
        Request::Separate { parts, .. } => parts,
        Request::Merge { pairs, .. } => pairs,
        Request::Trades { figures, .. } => figures,
        _ => &[],
    }
}

impl Subject {
    pub fn new() -> Subject {
        let [records, positions, processes, list, output] = [64_000, 8_000, 10_000, 8_000, 10_000].map(Arena::new);
        Subject { records, positions, processes, list, output, text: Arena::new(400_000) }
    }

    pub fn call(&mut self, tables: &Tables, request: &Request, fence: Fence) -> Outcome {
        let list = list_of(request);
        let text: &[u8] = if let Request::Replay { text } = request { text } else { &[] };
        let records = self.records.lend(&tables.records, fence);
        let positions = self.positions.lend(&tables.positions, fence);
        let processes = self.processes.lend(&tables.processes, fence);
        let lent_list = self.list.lend(list, fence);
        let output = self.output.lend(&lent_output(request), fence);
        let lent_text = self.text.lend(text, fence);
        let (r, rn, p, pn, l, ln) = (records.first, records.len, positions.first, positions.len, lent_list.first.cast_const(), lent_list.len);
        let answer = unsafe {
            match *request {
                Request::Trade { id, account, series, side, quantity, price } => velichundam_trade(r, rn, p, pn, id, account, series, side, quantity, price),
                Request::Separate { id, suffix, account, series, .. } => velichundam_separate(r, rn, p, pn, id, suffix, account, series, l, ln),
                Request::Transfer { id, suffix, from, to, series } => velichundam_transfer(r, rn, p, pn, id, suffix, from, to, series),
                Request::Merge { id, account, series, .. } => velichundam_merge(r, rn, p, pn, id, account, series, l, ln),
                Request::Lineage { id, suffix } => velichundam_lineage(r.cast_const(), rn, id, suffix),
                Request::Trades { .. } => velichundam_trades(r, rn, p, pn, l, ln, output.first, output.len),
                Request::GiveUp { step, process, id, suffix, giving, taking, series } => {
                    call_of(step)(r, rn, p, pn, processes.first, processes.len, process, id, suffix, giving, taking, series)
                }
                Request::NewDay { day } => velichundam_day(r, rn, day),
                Request::Reportable { .. } => velichundam_reportable(r.cast_const(), rn, output.first, output.len),
                Request::Replay { .. } => velichundam_replay(r, rn, p, pn, processes.first, processes.len, lent_text.first.cast_const(), lent_text.len),
            }
        };
        let (records, records_kept) = self.records.take_back(rn, fence);
        let (positions, positions_kept) = self.positions.take_back(pn, fence);
        let (processes, processes_kept) = self.processes.take_back(processes.len, fence);
        let (list_after, list_guards_kept) = self.list.take_back(ln, fence);
        let (output, output_guards_kept) = self.output.take_back(output.len, fence);
        let (text_after, text_guards_kept) = self.text.take_back(lent_text.len, fence);
        Outcome {
            answer,
            tables: Tables { records: records.to_vec(), positions: positions.to_vec(), processes: processes.to_vec() },
            output: output.to_vec(),
            guards_kept: records_kept && positions_kept && processes_kept && list_guards_kept && output_guards_kept && text_guards_kept,
            list_kept: list_after == list && text_after == text,
        }
    }

    pub fn write(&mut self, writing: &Writing, buffer: &[u8], fence: Fence) -> Wrote {
        let list = if let Writing::Of(request) = writing { list_of(request) } else { &[] };
        let lent_list = self.list.lend(list, fence);
        let text = self.text.lend(buffer, fence);
        let (t, tn, l, ln) = (text.first, text.len, lent_list.first.cast_const(), lent_list.len);
        let answer = unsafe {
            match *writing {
                Writing::Of(Request::Trade { id, account, series, side, quantity, price }) => {
                    velichundam_write_trade(t, tn, id, account, series, side, quantity, price)
                }
                Writing::Of(Request::Trades { .. }) => velichundam_write_trades(t, tn, l, ln),
                Writing::Of(Request::Separate { id, suffix, account, series, .. }) => velichundam_write_separation(t, tn, id, suffix, account, series, l, ln),
                Writing::Of(Request::Transfer { id, suffix, from, to, series }) => velichundam_write_transfer(t, tn, id, suffix, from, to, series),
                Writing::Of(Request::Merge { id, account, series, .. }) => velichundam_write_merge(t, tn, id, account, series, l, ln),
                Writing::Of(Request::GiveUp { step, process, id, suffix, giving, taking, series }) => {
                    velichundam_write_give_up(t, tn, letter_of(step), process, id, suffix, giving, taking, series)
                }
                Writing::Step(letter, [process, id, suffix, giving, taking, series]) => {
                    velichundam_write_give_up(t, tn, letter, process, id, suffix, giving, taking, series)
                }
                Writing::Of(Request::NewDay { day }) => velichundam_write_day(t, tn, day),
                Writing::Of(Request::Lineage { .. } | Request::Reportable { .. } | Request::Replay { .. }) => unreachable!("it has no line"),
            }
        };
        let (text, text_guards_kept) = self.text.take_back(tn, fence);
        let (list_after, list_guards_kept) = self.list.take_back(ln, fence);
        Wrote { answer, text: text.to_vec(), guards_kept: text_guards_kept && list_guards_kept, list_kept: list_after == list }
    }
}

/// The peer behind the same interface, where it is tested in the place of the archive.
#[cfg(feature = "peer")]
#[rustfmt::skip]
mod peer_behind_the_interface {
    use super::Coded;
    use peer::{Reply, Step};
    use std::slice::{from_raw_parts, from_raw_parts_mut};

    fn coded(reply: Reply) -> Coded {
        match reply {
            Reply::Booked { rows, residual } => Coded { kind: 0, first: rows, second: residual, third: 0 },
            Reply::ClosingError { excess } => Coded { kind: 1, first: excess, second: 0, third: 0 },
            Reply::Lineage { price, links } => Coded { kind: 2, first: price, second: links, third: 0 },
            Reply::Refused { number, place } => Coded { kind: 3, first: number, second: place, third: 0 },
            Reply::Stopped { booked, number, place } => Coded { kind: 4, first: booked, second: number, third: place },
            Reply::Written { bytes } => Coded { kind: 5, first: bytes, second: 0, third: 0 },
            Reply::Replayed { lines } => Coded { kind: 6, first: lines, second: 0, third: 0 },
            Reply::BadLine { line } => Coded { kind: 7, first: line, second: 0, third: 0 },
            Reply::LineRefused { line, number, place } => Coded { kind: 8, first: line, second: number, third: place },
            Reply::Listed { records } => Coded { kind: 9, first: records, second: 0, third: 0 },
        }
    }

    #[no_mangle]
    unsafe extern "C" fn velichundam_trade(records: *mut i64, records_len: usize, positions: *mut i64, positions_len: usize,
        id: i64, account: i64, series: i64, side: i64, quantity: i64, price: i64) -> Coded {
        coded(peer::trade(from_raw_parts_mut(records, records_len), from_raw_parts_mut(positions, positions_len), id, account, series, side, quantity, price))
    }

    #[no_mangle]
    unsafe extern "C" fn velichundam_trades(records: *mut i64, records_len: usize, positions: *mut i64, positions_len: usize,
        trades: *const i64, trades_len: usize, excess: *mut i64, excess_len: usize) -> Coded {
        coded(peer::trades(from_raw_parts_mut(records, records_len), from_raw_parts_mut(positions, positions_len), from_raw_parts(trades, trades_len), from_raw_parts_mut(excess, excess_len)))
    }

    #[no_mangle]
    unsafe extern "C" fn velichundam_separate(records: *mut i64, records_len: usize, positions: *mut i64, positions_len: usize,
        id: i64, suffix: i64, account: i64, series: i64, parts: *const i64, parts_len: usize) -> Coded {
        coded(peer::separate(from_raw_parts_mut(records, records_len), from_raw_parts_mut(positions, positions_len), id, suffix, account, series, from_raw_parts(parts, parts_len)))
    }

    #[no_mangle]
    unsafe extern "C" fn velichundam_transfer(records: *mut i64, records_len: usize, positions: *mut i64, positions_len: usize,
        id: i64, suffix: i64, from: i64, to: i64, series: i64) -> Coded {
        coded(peer::transfer(from_raw_parts_mut(records, records_len), from_raw_parts_mut(positions, positions_len), id, suffix, from, to, series))
    }

    #[no_mangle]
    unsafe extern "C" fn velichundam_merge(records: *mut i64, records_len: usize, positions: *mut i64, positions_len: usize,
        id: i64, account: i64, series: i64, pairs: *const i64, pairs_len: usize) -> Coded {
        coded(peer::merge(from_raw_parts_mut(records, records_len), from_raw_parts_mut(positions, positions_len), id, account, series, from_raw_parts(pairs, pairs_len)))
    }

    macro_rules! step {
        ($name:ident, $step:expr) => {
            #[no_mangle]
            unsafe extern "C" fn $name(records: *mut i64, records_len: usize, positions: *mut i64, positions_len: usize,
                processes: *mut i64, processes_len: usize, process: i64, id: i64, suffix: i64, giving: i64, taking: i64, series: i64) -> Coded {
                let (records, positions) = (from_raw_parts_mut(records, records_len), from_raw_parts_mut(positions, positions_len));
                coded(peer::give_up($step, records, positions, from_raw_parts_mut(processes, processes_len), process, id, suffix, giving, taking, series))
            }
        };
    }

    step!(velichundam_give_up_open, Step::Open);
    step!(velichundam_give_up_claim, Step::Claim);
    step!(velichundam_give_up_cancel, Step::Cancel);
    step!(velichundam_give_up_refuse, Step::Refuse);
    step!(velichundam_give_up_approve_giver, Step::ApproveGiver);
    step!(velichundam_give_up_approve_taker, Step::ApproveTaker);

    #[no_mangle]
    unsafe extern "C" fn velichundam_lineage(records: *const i64, records_len: usize, id: i64, suffix: i64) -> Coded {
        coded(peer::lineage(from_raw_parts(records, records_len), id, suffix))
    }

    #[no_mangle]
    unsafe extern "C" fn velichundam_day(records: *mut i64, records_len: usize, day: i64) -> Coded {
        coded(peer::day(from_raw_parts_mut(records, records_len), day))
    }

    #[no_mangle]
    unsafe extern "C" fn velichundam_reportable(records: *const i64, records_len: usize, pairs: *mut i64, pairs_len: usize) -> Coded {
        coded(peer::reportable(from_raw_parts(records, records_len), from_raw_parts_mut(pairs, pairs_len)))
    }

    #[no_mangle]
    unsafe extern "C" fn velichundam_write_day(text: *mut u8, text_len: usize, day: i64) -> Coded {
        coded(peer::write_day(from_raw_parts_mut(text, text_len), day))
    }

    #[no_mangle]
    unsafe extern "C" fn velichundam_write_trade(text: *mut u8, text_len: usize,
        id: i64, account: i64, series: i64, side: i64, quantity: i64, price: i64) -> Coded {
        coded(peer::write_trade(from_raw_parts_mut(text, text_len), id, account, series, side, quantity, price))
    }

    #[no_mangle]
    unsafe extern "C" fn velichundam_write_trades(text: *mut u8, text_len: usize, trades: *const i64, trades_len: usize) -> Coded {
        coded(peer::write_trades(from_raw_parts_mut(text, text_len), from_raw_parts(trades, trades_len)))
    }

    #[no_mangle]
    unsafe extern "C" fn velichundam_write_separation(text: *mut u8, text_len: usize,
        id: i64, suffix: i64, account: i64, series: i64, parts: *const i64, parts_len: usize) -> Coded {
        coded(peer::write_separation(from_raw_parts_mut(text, text_len), id, suffix, account, series, from_raw_parts(parts, parts_len)))
    }

    #[no_mangle]
    unsafe extern "C" fn velichundam_write_transfer(text: *mut u8, text_len: usize, id: i64, suffix: i64, from: i64, to: i64, series: i64) -> Coded {
        coded(peer::write_transfer(from_raw_parts_mut(text, text_len), id, suffix, from, to, series))
    }

    #[no_mangle]
    unsafe extern "C" fn velichundam_write_merge(text: *mut u8, text_len: usize,
        id: i64, account: i64, series: i64, pairs: *const i64, pairs_len: usize) -> Coded {
        coded(peer::write_merge(from_raw_parts_mut(text, text_len), id, account, series, from_raw_parts(pairs, pairs_len)))
    }

    #[no_mangle]
    unsafe extern "C" fn velichundam_write_give_up(text: *mut u8, text_len: usize,
        step: i64, process: i64, id: i64, suffix: i64, giving: i64, taking: i64, series: i64) -> Coded {
        coded(peer::write_give_up(from_raw_parts_mut(text, text_len), step, process, id, suffix, giving, taking, series))
    }

    #[no_mangle]
    unsafe extern "C" fn velichundam_replay(records: *mut i64, records_len: usize, positions: *mut i64, positions_len: usize,
        processes: *mut i64, processes_len: usize, text: *const u8, text_len: usize) -> Coded {
        let (records, positions) = (from_raw_parts_mut(records, records_len), from_raw_parts_mut(positions, positions_len));
        coded(peer::replay(records, positions, from_raw_parts_mut(processes, processes_len), from_raw_parts(text, text_len)))
    }
}
