//! The proved transaction book for hosts in Rust: the calls of include/velichundam.h, on lent slices and with an enum for the answer.
//!
//! What each call answers and leaves in every cell is said in that header, and proved in crates/velichundam. The borrow checker sees to what the header asks of a
//! host: slices of the right length that do not overlap, and nobody else who writes them. The archive's folder is VELICHUNDAM_LIB_DIR,
//! or that in which `make` leaves it. The header also says how much stack a call may need.

mod refusal;

pub use refusal::Refusal;

/// Cells before the first row of the records table: cell 0 is the row count, cell 1 the current day.
pub const RECORDS_HEADER: usize = 2;
/// The cell of the records table that holds the current day.
pub const CURRENT_DAY: usize = 1;
/// Cells of a record.
pub const RECORD_CELLS: usize = 14;
/// The cell of a record that holds its day of booking.
pub const RECORD_DAY: usize = 13;
/// The greatest day that a table can come to.
pub const LAST_DAY: i64 = 99_999;
/// The greatest room of a records table; a longer slice is fine.
pub const MOST_RECORDS: usize = 4_096;
/// Cells before the first row of the positions table: cell 0 is the row count.
pub const POSITIONS_HEADER: usize = 1;
/// Cells of a position.
pub const POSITION_CELLS: usize = 7;
/// The greatest room of a positions table; a longer slice is fine.
pub const MOST_POSITIONS: usize = 1_024;
/// The cell of a position that keeps the signed quantity of its records of status 0 or 3: buys plus, sells minus.
pub const POSITION_QUANTITY: usize = 5;
/// The cell of a position that keeps the signed quantity times price of its records of status 0 or 3. Divided by the quantity, where that is not 0, it is the
/// average entry; where there are buys and sells, that is the break-even price, at which their margin is 0.
pub const POSITION_VALUE: usize = 6;
/// Cells before the first row of the process table: cell 0 is the row count.
pub const PROCESSES_HEADER: usize = 1;
/// Cells of a process.
pub const PROCESS_CELLS: usize = 9;
/// The greatest room of a process table; a longer slice is fine.
pub const MOST_PROCESSES: usize = 1_024;
/// Figures of a trade in a list: id, account, series, side, quantity, price.
pub const TRADE_FIGURES: usize = 6;
/// The most trades that one call takes.
pub const MOST_TRADES: usize = 1_000;

/// The most bytes that the line of a trade takes in a journal.
pub const TRADE_LINE: usize = 49;
/// The most bytes that the line of a transfer takes in a journal.
pub const TRANSFER_LINE: usize = 35;
/// The most bytes that the line of a step of a give-up takes in a journal.
pub const GIVE_UP_LINE: usize = 47;
/// The most bytes that the line of a new day takes in a journal.
pub const DAY_LINE: usize = 8;
/// Cells of a record on the reporting list: id, suffix.
pub const PAIR_CELLS: usize = 2;

/// The most bytes that the line of a separation into so many parts takes in a journal.
pub const fn separation_line(parts: usize) -> usize {
    30 + 8 * parts
}

/// The most bytes that the line of a merge of so many sources takes in a journal.
pub const fn merge_line(sources: usize) -> usize {
    24 + 16 * sources
}

/// How many cells a records table takes that has room for so many rows.
pub const fn records_len(rows: usize) -> usize {
    RECORDS_HEADER + RECORD_CELLS * rows
}

/// How many cells a positions table takes that has room for so many rows.
pub const fn positions_len(rows: usize) -> usize {
    POSITIONS_HEADER + POSITION_CELLS * rows
}

/// How many cells a process table takes that has room for so many rows.
pub const fn processes_len(rows: usize) -> usize {
    PROCESSES_HEADER + PROCESS_CELLS * rows
}

/// How many cells the pairs of so many records take on the reporting list.
pub const fn pairs_len(records: usize) -> usize {
    PAIR_CELLS * records
}

/// A step of a give-up. The header has a picture of who may do what, and when.
#[derive(Clone, Copy, Debug, PartialEq, Eq)]
pub enum Step {
    /// The giving account's member opens a process.
    Open,
    /// The taker claims.
    Claim,
    /// The giving account's member takes the process back.
    Cancel,
    /// The taker refuses.
    Refuse,
    /// The giver's clearing member approves.
    ApproveGiver,
    /// The taker's clearing member approves.
    ApproveTaker,
}

impl Step {
    /// The letter of the step in a journal.
    pub const fn letter(self) -> u8 {
        match self {
            Step::Open => b'O',
            Step::Claim => b'C',
            Step::Cancel => b'X',
            Step::Refuse => b'R',
            Step::ApproveGiver => b'G',
            Step::ApproveTaker => b'T',
        }
    }
}

/// How far a give-up has come: the last cell of a process, by its number.
#[derive(Clone, Copy, Debug, PartialEq, Eq)]
pub enum Stage {
    Done = 0,
    Pending = 6,
    Claimed = 9,
    Refused = 10,
    Cancelled = 12,
}

impl Stage {
    /// The stage of that number, if it is one.
    pub fn of(number: i64) -> Option<Stage> {
        [Stage::Done, Stage::Pending, Stage::Claimed, Stage::Refused, Stage::Cancelled].into_iter().find(|stage| *stage as i64 == number)
    }
}

/// An answer.
#[derive(Clone, Copy, Debug, PartialEq, Eq)]
pub enum Reply {
    /// Booked: the rows added to the records table, and the residual, which is 0 but for a merge.
    Booked { rows: i64, residual: i64 },
    /// Booked, a trade to close that exceeds what was open by so much.
    ClosingError { excess: i64 },
    /// The price of the original, and the links followed to it.
    Lineage { price: i64, links: i64 },
    /// Refused, with the first number that applies, 1 to 19 or 23, and its place in the list; no cell has changed.
    Refused { number: i64, place: i64 },
    /// A list of trades stopped at one that is refused: how many trades before it are booked, and that refusal. Those stay booked.
    Stopped { booked: i64, number: i64, place: i64 },
    /// Written to a journal: so many bytes, from the first of the lent text on.
    Written { bytes: i64 },
    /// A journal replayed to its end: so many lines, all of them booked.
    Replayed { lines: i64 },
    /// A journal replayed up to this line, counted from 1, which is none that a writing call writes. The lines before it stay booked.
    BadLine { line: i64 },
    /// A journal replayed up to this line, counted from 1, whose request is refused, and that refusal. The lines before it stay booked.
    LineRefused { line: i64, number: i64, place: i64 },
    /// The reporting list: so many records, a pair of cells for each, from the first lent cell on.
    Listed { records: i64 },
}

impl Reply {
    /// The refusal that it tells of: of the request, of the trade that a list stopped at, or of a journal's line.
    pub const fn refusal(&self) -> Option<Refusal> {
        match *self {
            Reply::Refused { number, .. } | Reply::Stopped { number, .. } | Reply::LineRefused { number, .. } => Some(Refusal(number)),
            _ => None,
        }
    }
}

/// The answer that the numbers of the C interface stand for.
///
/// # Panics
///
/// At a kind that is none of 0 to 9. The archive is proved to answer with these alone, so another number means that the archive that was linked and this crate
/// don't belong together. To call it a refusal would be to say that no cell has changed, which nobody knows then.
impl From<c::Coded> for Reply {
    fn from(coded: c::Coded) -> Reply {
        let c::Coded { kind, first, second, third } = coded;
        match kind {
            0 => Reply::Booked { rows: first, residual: second },
            1 => Reply::ClosingError { excess: first },
            2 => Reply::Lineage { price: first, links: second },
            3 => Reply::Refused { number: first, place: second },
            4 => Reply::Stopped { booked: first, number: second, place: third },
            5 => Reply::Written { bytes: first },
            6 => Reply::Replayed { lines: first },
            7 => Reply::BadLine { line: first },
            8 => Reply::LineRefused { line: first, number: second, place: third },
            9 => Reply::Listed { records: first },
            _ => panic!("an answer of kind {kind}: the archive that is linked is not the one that this crate was written for"),
        }
    }
}

/// The numbers of the C interface that stand for the answer. A number that it lacks is 0.
impl From<Reply> for c::Coded {
    fn from(reply: Reply) -> c::Coded {
        let (kind, [first, second, third]) = match reply {
            Reply::Booked { rows, residual } => (0, [rows, residual, 0]),
            Reply::ClosingError { excess } => (1, [excess, 0, 0]),
            Reply::Lineage { price, links } => (2, [price, links, 0]),
            Reply::Refused { number, place } => (3, [number, place, 0]),
            Reply::Stopped { booked, number, place } => (4, [booked, number, place]),
            Reply::Written { bytes } => (5, [bytes, 0, 0]),
            Reply::Replayed { lines } => (6, [lines, 0, 0]),
            Reply::BadLine { line } => (7, [line, 0, 0]),
            Reply::LineRefused { line, number, place } => (8, [line, number, place]),
            Reply::Listed { records } => (9, [records, 0, 0]),
        };
        c::Coded { kind, first, second, third }
    }
}

/// Books a trade. Sides: 1 buy open, 2 sell open, 3 buy close, 4 sell close.
#[allow(clippy::too_many_arguments)]
pub fn trade(records: &mut [i64], positions: &mut [i64], id: i64, account: i64, series: i64, side: i64, quantity: i64, price: i64) -> Reply {
    let (r, p) = (records.as_mut_ptr(), positions.as_mut_ptr());
    unsafe { c::velichundam_trade(r, records.len(), p, positions.len(), id, account, series, side, quantity, price) }.into()
}

/// Books a list of 1 to 1,000 trades, six figures each, one by one up to the first that is refused. Each booked trade's excess, 0 if none, goes to its cell of
/// `excess`, which has a cell for each listed trade or more; the other cells stay.
pub fn trades(records: &mut [i64], positions: &mut [i64], trades: &[i64], excess: &mut [i64]) -> Reply {
    let (r, p, e) = (records.as_mut_ptr(), positions.as_mut_ptr(), excess.as_mut_ptr());
    unsafe { c::velichundam_trades(r, records.len(), p, positions.len(), trades.as_ptr(), trades.len(), e, excess.len()) }.into()
}

/// Separates a record into parts, whose quantities come to the record's.
pub fn separate(records: &mut [i64], positions: &mut [i64], id: i64, suffix: i64, account: i64, series: i64, parts: &[i64]) -> Reply {
    let (r, p) = (records.as_mut_ptr(), positions.as_mut_ptr());
    unsafe { c::velichundam_separate(r, records.len(), p, positions.len(), id, suffix, account, series, parts.as_ptr(), parts.len()) }.into()
}

/// Transfers a record to another account.
pub fn transfer(records: &mut [i64], positions: &mut [i64], id: i64, suffix: i64, from: i64, to: i64, series: i64) -> Reply {
    let (r, p) = (records.as_mut_ptr(), positions.as_mut_ptr());
    unsafe { c::velichundam_transfer(r, records.len(), p, positions.len(), id, suffix, from, to, series) }.into()
}

/// Merges records, named by id and suffix in turn, into a new id at their average price, a half going away from zero.
pub fn merge(records: &mut [i64], positions: &mut [i64], id: i64, account: i64, series: i64, pairs: &[i64]) -> Reply {
    let (r, p) = (records.as_mut_ptr(), positions.as_mut_ptr());
    unsafe { c::velichundam_merge(r, records.len(), p, positions.len(), id, account, series, pairs.as_ptr(), pairs.len()) }.into()
}

/// A step of a give-up, by which a record passes to another account once its taker has claimed it and both clearing members have approved. Every step names the
/// process, the record, both accounts and the series. The one that completes books two rows, any other none.
#[allow(clippy::too_many_arguments)]
pub fn give_up(
    step: Step,
    records: &mut [i64],
    positions: &mut [i64],
    processes: &mut [i64],
    process: i64,
    id: i64,
    suffix: i64,
    giving: i64,
    taking: i64,
    series: i64,
) -> Reply {
    let call = match step {
        Step::Open => c::velichundam_give_up_open,
        Step::Claim => c::velichundam_give_up_claim,
        Step::Cancel => c::velichundam_give_up_cancel,
        Step::Refuse => c::velichundam_give_up_refuse,
        Step::ApproveGiver => c::velichundam_give_up_approve_giver,
        Step::ApproveTaker => c::velichundam_give_up_approve_taker,
    };
    let (r, p, q) = (records.as_mut_ptr(), positions.as_mut_ptr(), processes.as_mut_ptr());
    unsafe { call(r, records.len(), p, positions.len(), q, processes.len(), process, id, suffix, giving, taking, series) }.into()
}

/// Asks where a record came from.
pub fn lineage(records: &[i64], id: i64, suffix: i64) -> Reply {
    unsafe { c::velichundam_lineage(records.as_ptr(), records.len(), id, suffix) }.into()
}

/// Moves the current day forward: to a later one, at most `LAST_DAY`. No other cell changes; what is booked from then on is of that day.
pub fn day(records: &mut [i64], day: i64) -> Reply {
    unsafe { c::velichundam_day(records.as_mut_ptr(), records.len(), day) }.into()
}

/// Lists the records of the current day that are reported at its end, in table order: id and suffix of each go to two cells of `pairs`, from the first on, and
/// the other cells stay. Listed are those that are adjustable or under give-up, and inverses whose parent was booked on an earlier day. The cells that
/// `pairs_len` gives for the table's rows are always enough.
pub fn reportable(records: &[i64], pairs: &mut [i64]) -> Reply {
    unsafe { c::velichundam_reportable(records.as_ptr(), records.len(), pairs.as_mut_ptr(), pairs.len()) }.into()
}

/// Writes the line of a trade to the front of `text`. A host does so for each request that was accepted, and replays the lines later.
///
/// This and the other calls that write answer the bytes written, at most those of `TRADE_LINE` and its like. They refuse what fails test 3 by 3, and then a text
/// that is too short by 14; a refusal leaves the text as it was. The bytes past what is written stay.
pub fn write_trade(text: &mut [u8], id: i64, account: i64, series: i64, side: i64, quantity: i64, price: i64) -> Reply {
    unsafe { c::velichundam_write_trade(text.as_mut_ptr(), text.len(), id, account, series, side, quantity, price) }.into()
}

/// Writes a line for each of 1 to 1,000 trades, six figures each: of a list that stopped, those that it booked.
pub fn write_trades(text: &mut [u8], trades: &[i64]) -> Reply {
    unsafe { c::velichundam_write_trades(text.as_mut_ptr(), text.len(), trades.as_ptr(), trades.len()) }.into()
}

/// Writes the line of a separation.
pub fn write_separation(text: &mut [u8], id: i64, suffix: i64, account: i64, series: i64, parts: &[i64]) -> Reply {
    unsafe { c::velichundam_write_separation(text.as_mut_ptr(), text.len(), id, suffix, account, series, parts.as_ptr(), parts.len()) }.into()
}

/// Writes the line of a transfer.
pub fn write_transfer(text: &mut [u8], id: i64, suffix: i64, from: i64, to: i64, series: i64) -> Reply {
    unsafe { c::velichundam_write_transfer(text.as_mut_ptr(), text.len(), id, suffix, from, to, series) }.into()
}

/// Writes the line of a merge.
pub fn write_merge(text: &mut [u8], id: i64, account: i64, series: i64, pairs: &[i64]) -> Reply {
    unsafe { c::velichundam_write_merge(text.as_mut_ptr(), text.len(), id, account, series, pairs.as_ptr(), pairs.len()) }.into()
}

/// Writes the line of a step of a give-up.
#[allow(clippy::too_many_arguments)]
pub fn write_give_up(text: &mut [u8], step: Step, process: i64, id: i64, suffix: i64, giving: i64, taking: i64, series: i64) -> Reply {
    let letter = i64::from(step.letter());
    unsafe { c::velichundam_write_give_up(text.as_mut_ptr(), text.len(), letter, process, id, suffix, giving, taking, series) }.into()
}

/// Writes the line of a new day, which is refused by its range alone: the call is lent no table, and knows no current day.
pub fn write_day(text: &mut [u8], day: i64) -> Reply {
    unsafe { c::velichundam_write_day(text.as_mut_ptr(), text.len(), day) }.into()
}

/// Books the lines of a journal one by one, each as its own call does, up to the first that is bad or refused.
pub fn replay(records: &mut [i64], positions: &mut [i64], processes: &mut [i64], text: &[u8]) -> Reply {
    let (r, p, q) = (records.as_mut_ptr(), positions.as_mut_ptr(), processes.as_mut_ptr());
    unsafe { c::velichundam_replay(r, records.len(), p, positions.len(), q, processes.len(), text.as_ptr(), text.len()) }.into()
}

/// The C interface as it is.
pub mod c {
    /// An answer by the numbers of include/velichundam.h.
    #[repr(C)]
    #[derive(Clone, Copy, Debug, PartialEq, Eq)]
    pub struct Coded {
        pub kind: i64,
        pub first: i64,
        pub second: i64,
        pub third: i64,
    }

    #[rustfmt::skip]
    extern "C" {
        pub fn velichundam_trade(records: *mut i64, records_len: usize, positions: *mut i64, positions_len: usize,
            id: i64, account: i64, series: i64, side: i64, quantity: i64, price: i64) -> Coded;
        pub fn velichundam_trades(records: *mut i64, records_len: usize, positions: *mut i64, positions_len: usize,
            trades: *const i64, trades_len: usize, excess: *mut i64, excess_len: usize) -> Coded;
        pub fn velichundam_separate(records: *mut i64, records_len: usize, positions: *mut i64, positions_len: usize,
            id: i64, suffix: i64, account: i64, series: i64, parts: *const i64, parts_len: usize) -> Coded;
        pub fn velichundam_transfer(records: *mut i64, records_len: usize, positions: *mut i64, positions_len: usize,
            id: i64, suffix: i64, from: i64, to: i64, series: i64) -> Coded;
        pub fn velichundam_merge(records: *mut i64, records_len: usize, positions: *mut i64, positions_len: usize,
            id: i64, account: i64, series: i64, pairs: *const i64, pairs_len: usize) -> Coded;
        pub fn velichundam_give_up_open(records: *mut i64, records_len: usize, positions: *mut i64, positions_len: usize,
            processes: *mut i64, processes_len: usize, process: i64, id: i64, suffix: i64, giving: i64, taking: i64, series: i64) -> Coded;
        pub fn velichundam_give_up_claim(records: *mut i64, records_len: usize, positions: *mut i64, positions_len: usize,
            processes: *mut i64, processes_len: usize, process: i64, id: i64, suffix: i64, giving: i64, taking: i64, series: i64) -> Coded;
        pub fn velichundam_give_up_cancel(records: *mut i64, records_len: usize, positions: *mut i64, positions_len: usize,
            processes: *mut i64, processes_len: usize, process: i64, id: i64, suffix: i64, giving: i64, taking: i64, series: i64) -> Coded;
        pub fn velichundam_give_up_refuse(records: *mut i64, records_len: usize, positions: *mut i64, positions_len: usize,
            processes: *mut i64, processes_len: usize, process: i64, id: i64, suffix: i64, giving: i64, taking: i64, series: i64) -> Coded;
        pub fn velichundam_give_up_approve_giver(records: *mut i64, records_len: usize, positions: *mut i64, positions_len: usize,
            processes: *mut i64, processes_len: usize, process: i64, id: i64, suffix: i64, giving: i64, taking: i64, series: i64) -> Coded;
        pub fn velichundam_give_up_approve_taker(records: *mut i64, records_len: usize, positions: *mut i64, positions_len: usize,
            processes: *mut i64, processes_len: usize, process: i64, id: i64, suffix: i64, giving: i64, taking: i64, series: i64) -> Coded;
        pub fn velichundam_lineage(records: *const i64, records_len: usize, id: i64, suffix: i64) -> Coded;
        pub fn velichundam_day(records: *mut i64, records_len: usize, day: i64) -> Coded;
        pub fn velichundam_reportable(records: *const i64, records_len: usize, pairs: *mut i64, pairs_len: usize) -> Coded;
        pub fn velichundam_write_trade(text: *mut u8, text_len: usize,
            id: i64, account: i64, series: i64, side: i64, quantity: i64, price: i64) -> Coded;
        pub fn velichundam_write_trades(text: *mut u8, text_len: usize, trades: *const i64, trades_len: usize) -> Coded;
        pub fn velichundam_write_separation(text: *mut u8, text_len: usize,
            id: i64, suffix: i64, account: i64, series: i64, parts: *const i64, parts_len: usize) -> Coded;
        pub fn velichundam_write_transfer(text: *mut u8, text_len: usize, id: i64, suffix: i64, from: i64, to: i64, series: i64) -> Coded;
        pub fn velichundam_write_merge(text: *mut u8, text_len: usize,
            id: i64, account: i64, series: i64, pairs: *const i64, pairs_len: usize) -> Coded;
        pub fn velichundam_write_give_up(text: *mut u8, text_len: usize,
            step: i64, process: i64, id: i64, suffix: i64, giving: i64, taking: i64, series: i64) -> Coded;
        pub fn velichundam_write_day(text: *mut u8, text_len: usize, day: i64) -> Coded;
        pub fn velichundam_replay(records: *mut i64, records_len: usize, positions: *mut i64, positions_len: usize,
            processes: *mut i64, processes_len: usize, text: *const u8, text_len: usize) -> Coded;
    }
}
