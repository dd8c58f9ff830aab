//! A host in Rust: document 01's P11, the answers that carry other values, a refusal that changes nothing, refusals in words, the average entry of a position, a
//! list of trades, give-ups, a journal and its replay, a day's end, and what is no answer at all.

use velichundam::{c::Coded, give_up, lineage, merge, positions_len, processes_len, records_len, separate, trade, trades, transfer, Reply, Stage, Step};
use velichundam::{day, pairs_len, reportable, write_day, CURRENT_DAY, DAY_LINE, LAST_DAY, RECORD_DAY};
use velichundam::{merge_line, separation_line, GIVE_UP_LINE, TRADE_LINE, TRANSFER_LINE};
use velichundam::{replay, write_give_up, write_merge, write_separation, write_trade, write_trades, write_transfer};
use velichundam::{Refusal, POSITION_QUANTITY, POSITION_VALUE};

#[test]
fn each_call_answers_by_its_enum() {
    let (mut records, mut positions) = (vec![0; records_len(20)], vec![0; positions_len(5)]);
    assert_eq!(trade(&mut records, &mut positions, 456789, 1, 1, 1, 100, 1_250_000_000), Reply::Booked { rows: 1, residual: 0 });
    assert_eq!(transfer(&mut records, &mut positions, 456789, 0, 1, 2, 1), Reply::Booked { rows: 2, residual: 0 });
    assert_eq!(separate(&mut records, &mut positions, 456789, 2, 2, 1, &[50, 25, 25]), Reply::Booked { rows: 4, residual: 0 });
    assert_eq!(lineage(&records, 456789, 6), Reply::Lineage { price: 1_250_000_000, links: 2 });
    assert_eq!((records[0], &positions[..15]), (7, &[2, 1, 1, 0, 0, 0, 0, 0, 2, 1, 100, 0, 0, 100, 125_000_000_000][..]));

    let before = (records.clone(), positions.clone());
    assert_eq!(merge(&mut records, &mut positions, 7, 2, 1, &[456789, 4, 456789, 4]), Reply::Refused { number: 9, place: 1 });
    assert_eq!((records.clone(), positions.clone()), before);

    assert_eq!(merge(&mut records, &mut positions, 7, 2, 1, &[456789, 4, 456789, 5]), Reply::Booked { rows: 3, residual: 0 });
    assert_eq!(trade(&mut records, &mut positions, 8, 3, 1, 3, 5, 1), Reply::ClosingError { excess: 5 });
}

/// An answer as a host may tell it: a refusal in words, any other as it is.
fn told(reply: Reply) -> String {
    reply.refusal().map_or(format!("{reply:?}"), |refusal| format!("refused {}: {refusal}", refusal.0))
}

#[test]
fn a_refusal_is_told_in_words() {
    let (mut records, mut positions, mut processes) = (vec![0; records_len(3)], vec![0; positions_len(1)], vec![0; processes_len(0)]);
    assert_eq!(told(transfer(&mut records, &mut positions, 7, 0, 1, 2, 1)), "refused 5: no such record");
    let list = [7, 1, 1, 1, 100, 5, 7, 1, 1, 1, 100, 5];
    assert_eq!(told(trades(&mut records, &mut positions, &list, &mut [0; 2])), "refused 4: the new id has a record");
    let line = replay(&mut records, &mut positions, &mut processes, b"A\t7\t0\t1\t2\t1\n");
    assert_eq!(told(line), "refused 15: no room for the new positions");
    assert_eq!(told(lineage(&records, 7, 0)), "Lineage { price: 5, links: 0 }");
}

#[test]
fn a_refusal_is_an_error() {
    let fails = || -> Result<(), Box<dyn std::error::Error>> { Err(Refusal(8))? };
    assert_eq!(fails().unwrap_err().to_string(), "the record is to close");
}

/// The average entry of the position in that row, in units of 0.0000001, a remainder cut off; none where nothing is held net.
fn average_entry(positions: &[i64], row: usize) -> Option<i64> {
    let cells = &positions[positions_len(row)..positions_len(row + 1)];
    cells[POSITION_VALUE].checked_div(cells[POSITION_QUANTITY])
}

#[test]
fn the_average_entry_is_read_from_two_cells() {
    let (mut records, mut positions) = (vec![0; records_len(9)], vec![0; positions_len(1)]);
    for (id, side, quantity, price, average) in
        [(7, 1, 100, 5, Some(5)), (8, 1, 300, 9, Some(8)), (9, 2, 100, 20, Some(4)), (10, 4, 300, 5, None), (11, 3, 60, -2, Some(-7))]
    {
        assert!(!matches!(trade(&mut records, &mut positions, id, 1, 1, side, quantity, price), Reply::Refused { .. }));
        assert_eq!(average_entry(&positions, 0), average, "after trade {id}");
    }
    // After the fourth nothing was held net, and the value was -300: bought for 3,200, sold for 3,500. What was bought then stands with that gain.
    assert_eq!(positions, [1, 1, 1, 100, 40, 0, 60, -420]);
    positions[1 + POSITION_VALUE] = 4_000_000_000_000_000_000;
    assert_eq!(trade(&mut records, &mut positions, 12, 1, 1, 1, 1, 1), Reply::Refused { number: 16, place: 0 });
    positions[1 + POSITION_VALUE] += 1;
    assert_eq!(trade(&mut records, &mut positions, 12, 1, 1, 1, 1, 0), Reply::Refused { number: 2, place: 0 });
}

#[test]
fn a_list_of_trades_is_booked_or_stops() {
    let (mut records, mut positions) = (vec![0; records_len(3)], vec![0; positions_len(2)]);
    let list = [30, 1, 1, 1, 40, 5, 10, 1, 1, 4, 60, 5, 30, 1, 1, 2, 1, 5];
    let mut excess = [-1; 4];
    assert_eq!(trades(&mut records, &mut positions, &list, &mut excess), Reply::Stopped { booked: 2, number: 4, place: 0 });
    assert_eq!((records[0], records[records_len(0)], records[records_len(1)], excess), (2, 10, 30, [0, 20, -1, -1]));
    assert_eq!(positions[..8], [1, 1, 1, 0, 20, 0, -20, -100]);

    let before = (records.clone(), positions.clone());
    assert_eq!(trades(&mut records, &mut positions, &list, &mut excess[..2]), Reply::Refused { number: 3, place: 0 });
    assert_eq!(trades(&mut records, &mut positions, &[], &mut excess), Reply::Refused { number: 3, place: 0 });
    assert_eq!((records.clone(), positions.clone(), excess), (before.0, before.1, [0, 20, -1, -1]));

    assert_eq!(trades(&mut records, &mut positions, &[20, 9, 9, 2, 7, 5], &mut excess[3..]), Reply::Booked { rows: 1, residual: 0 });
    assert_eq!((records[0], positions[0], excess), (3, 2, [0, 20, -1, 0]));
}

/// Room for eight records, three positions and three processes, and a buy of 100 under id 7 in account 1, series 1.
struct Book {
    records: Vec<i64>,
    positions: Vec<i64>,
    processes: Vec<i64>,
}

impl Book {
    fn new() -> Book {
        let mut book = Book { records: vec![0; records_len(8)], positions: vec![0; positions_len(3)], processes: vec![0; processes_len(3)] };
        assert_eq!(trade(&mut book.records, &mut book.positions, 7, 1, 1, 1, 100, 5), Reply::Booked { rows: 1, residual: 0 });
        book
    }

    /// A step of a process that gives id 7 up from account 1 to account 2.
    fn step(&mut self, process: i64, step: Step) -> Reply {
        give_up(step, &mut self.records, &mut self.positions, &mut self.processes, process, 7, 0, 1, 2, 1)
    }

    fn replay(&mut self, text: &str) -> Reply {
        replay(&mut self.records, &mut self.positions, &mut self.processes, text.as_bytes())
    }

    /// The status of id 7, and of the process in that row the approvals and the stage.
    fn state(&self, row: usize) -> (i64, [i64; 2], Option<Stage>) {
        let cells = &self.processes[processes_len(row)..processes_len(row + 1)];
        (self.records[records_len(0) + 4], [cells[6], cells[7]], Stage::of(cells[8]))
    }
}

const NO_ROW: Reply = Reply::Booked { rows: 0, residual: 0 };

#[test]
fn a_give_up_is_booked_once_claimed_and_approved() {
    let mut book = Book::new();
    for (step, approvals, stage) in [(Step::Open, [0, 0], Stage::Pending), (Step::ApproveGiver, [1, 0], Stage::Pending), (Step::Claim, [1, 0], Stage::Claimed)]
    {
        assert_eq!(book.step(9, step), NO_ROW);
        assert_eq!(book.state(0), (3, approvals, Some(stage)));
    }
    assert_eq!(book.step(9, Step::ApproveTaker), Reply::Booked { rows: 2, residual: 0 });
    assert_eq!(book.state(0), (1, [1, 1], Some(Stage::Done)));
    let added = [[7, 1, 0, 20, 2, 1, 1, 1, -100, 5, -100, 0, 0, 0], [7, 2, 0, 30, 0, 2, 1, 1, 100, 5, 100, 0, 0, 0]];
    assert_eq!((book.records[0], &book.records[records_len(1)..records_len(3)]), (3, added.concat().as_slice()));
    assert_eq!(book.positions[..15], [2, 1, 1, 0, 0, 0, 0, 0, 2, 1, 100, 0, 0, 100, 500]);
}

#[test]
fn a_give_up_is_cancelled_or_refused_while_pending() {
    let mut book = Book::new();
    for (row, (step, stage)) in [(Step::Cancel, Stage::Cancelled), (Step::Refuse, Stage::Refused)].into_iter().enumerate() {
        let process = 5 + row as i64;
        assert_eq!(book.step(process, Step::Open), NO_ROW);
        let (r, p) = (&mut book.records, &mut book.positions);
        assert_eq!(transfer(r, p, 7, 0, 1, 2, 1), Reply::Refused { number: 17, place: 0 });
        assert_eq!(book.step(process, Step::ApproveTaker), Reply::Refused { number: 18, place: 0 });
        assert_eq!(book.step(process, step), NO_ROW);
        assert_eq!(book.state(row), (0, [0, 0], Some(stage)));
        assert_eq!(book.step(process, Step::Claim), Reply::Refused { number: 18, place: 0 });
    }
    assert_eq!(book.step(4, Step::Open), NO_ROW);
    assert_eq!(book.step(4, Step::Cancel), NO_ROW);
    assert_eq!(book.step(3, Step::Open), Reply::Refused { number: 23, place: 0 });
    book.processes[9] = 1;
    assert_eq!(book.step(3, Step::Open), Reply::Refused { number: 19, place: 0 });
    assert_eq!(Stage::of(1), None);
}

/// A journal, to which lines are appended.
#[derive(Default)]
struct Journal(Vec<u8>);

impl Journal {
    /// Lends room for a line of at most so many bytes after the others.
    fn append(&mut self, most: usize, write: impl FnOnce(&mut [u8]) -> Reply) {
        let end = self.0.len();
        self.0.resize(end + most, 0);
        let reply = write(&mut self.0[end..]);
        let Reply::Written { bytes } = reply else { panic!("{}", told(reply)) };
        self.0.truncate(end + bytes as usize);
    }
}

#[test]
fn a_day_is_journalled_and_replayed() {
    let mut book = Book::new();
    let mut journal = Journal::default();
    journal.append(TRADE_LINE, |text| write_trade(text, 7, 1, 1, 1, 100, 5));

    let (list, mut excess) = ([30, 1, 1, 1, 40, -5, 10, 1, 1, 4, 60, 5, 30, 1, 1, 2, 1, 5], [0; 3]);
    assert_eq!(trades(&mut book.records, &mut book.positions, &list, &mut excess), Reply::Stopped { booked: 2, number: 4, place: 0 });
    journal.append(2 * TRADE_LINE, |text| write_trades(text, &list[..12]));

    for step in [Step::Open, Step::Cancel] {
        assert_eq!(book.step(9, step), NO_ROW);
        journal.append(GIVE_UP_LINE, |text| write_give_up(text, step, 9, 7, 0, 1, 2, 1));
    }
    let (records, positions) = (&mut book.records, &mut book.positions);
    assert_eq!(merge(records, positions, 8, 1, 1, &[7, 0, 30, 0]), Reply::Booked { rows: 3, residual: -20 });
    journal.append(merge_line(2), |text| write_merge(text, 8, 1, 1, &[7, 0, 30, 0]));
    assert_eq!(separate(records, positions, 10, 0, 1, 1, &[59, 1]), Reply::Refused { number: 14, place: 0 });
    assert_eq!(transfer(records, positions, 8, 0, 1, 2, 1), Reply::Refused { number: 12, place: 0 });

    let text =
        "T\t7\t1\t1\t1\t100\t5\nT\t30\t1\t1\t1\t40\t-5\nT\t10\t1\t1\t4\t60\t5\nG\tO\t9\t7\t0\t1\t2\t1\nG\tX\t9\t7\t0\t1\t2\t1\nM\t8\t1\t1\t7\t0\t30\t0\n";
    assert_eq!(std::str::from_utf8(&journal.0), Ok(text));
    let mut again = Book { records: vec![0; records_len(8)], positions: vec![0; positions_len(3)], processes: vec![0; processes_len(3)] };
    assert_eq!(again.replay(text), Reply::Replayed { lines: 6 });
    assert_eq!((again.records, again.positions, again.processes), (book.records, book.positions, book.processes));
}

#[test]
fn a_replay_stops_at_a_line() {
    let mut book = Book::new();
    assert_eq!(book.replay(""), Reply::Replayed { lines: 0 });
    assert_eq!(book.replay("A\t7\t0\t1\t2\t1\nS\t7\t2\t2\t1\t60\t40\nM\t8\t2\t1\t7\t3\t7\t4\n"), Reply::LineRefused { line: 3, number: 7, place: 0 });
    assert_eq!((book.records[0], &book.positions[..15]), (6, &[2, 1, 1, 0, 0, 0, 0, 0, 2, 1, 100, 0, 0, 100, 500][..]));
    assert_eq!(book.replay("T\t9\t1\t1\t1\t1\t1\nT\t10\t1\t1\t1\t01\t1\n"), Reply::BadLine { line: 2 });
    assert_eq!(book.replay("T\t11\t1\t1\t1\t1\t1"), Reply::BadLine { line: 1 });
    assert_eq!(book.records[0], 7);
}

/// A host's end of a day: the list as pairs of id and suffix, then the day after it.
fn end_day(records: &mut [i64]) -> Vec<[i64; 2]> {
    let mut pairs = vec![-1; pairs_len(records[0] as usize)];
    let reply = reportable(records, &mut pairs);
    let Reply::Listed { records: listed } = reply else { panic!("{}", told(reply)) };
    let (pairs, rest) = pairs.split_at(pairs_len(listed as usize));
    assert!(rest.iter().all(|cell| *cell == -1));
    assert_eq!(day(records, records[CURRENT_DAY] + 1), NO_ROW);
    pairs.as_chunks().0.to_vec()
}

#[test]
fn a_day_ends_with_its_list() {
    let mut book = Book::new();
    assert_eq!(book.step(9, Step::Open), NO_ROW);
    // Under give-up it counts as adjustable.
    assert_eq!(end_day(&mut book.records), [[7, 0]]);
    assert_eq!((book.records[CURRENT_DAY], book.records[RECORD_DAY + records_len(0)]), (1, 0));
    for step in [Step::Claim, Step::ApproveGiver, Step::ApproveTaker] {
        book.step(9, step);
    }
    // The trade was reported the day before, so that its inverse is reported too; the separated row and its inverse are both of this day.
    let (records, positions) = (&mut book.records, &mut book.positions);
    assert_eq!(separate(records, positions, 7, 2, 2, 1, &[60, 40]), Reply::Booked { rows: 3, residual: 0 });
    assert_eq!(end_day(records), [[7, 1], [7, 4], [7, 5]]);
    let days: Vec<i64> = (0..6).map(|row| records[records_len(row) + RECORD_DAY]).collect();
    assert_eq!((records[CURRENT_DAY], days), (2, vec![0, 1, 1, 1, 1, 1]));
    assert_eq!(end_day(records), [[0; 2]; 0]);
}

#[test]
fn a_day_or_a_list_is_refused() {
    let mut book = Book::new();
    let refused = |number: i64| Reply::Refused { number, place: 0 };
    let mut pairs = [-1; 3];
    assert_eq!(reportable(&book.records, &mut pairs[..1]), refused(14));
    assert_eq!(pairs, [-1; 3]);
    assert_eq!(reportable(&book.records, &mut pairs), Reply::Listed { records: 1 });
    assert_eq!(pairs, [7, 0, -1]);
    for wrong in [-1, 0, LAST_DAY + 1] {
        assert_eq!(day(&mut book.records, wrong), refused(3));
    }
    assert_eq!(day(&mut book.records, LAST_DAY), NO_ROW);
    assert_eq!(day(&mut book.records, LAST_DAY), refused(3));
    // An inverse of the current day whose parent row is not there, and a row that is of a later day than the table.
    book.records[records_len(0)..records_len(1)].copy_from_slice(&[7, 4, 3, 6, 2, 1, 1, 1, -100, 5, 0, 0, 0, LAST_DAY]);
    assert_eq!(reportable(&book.records, &mut pairs), refused(5));
    book.records[CURRENT_DAY] -= 1;
    assert_eq!(reportable(&book.records, &mut pairs), refused(1));
    assert_eq!(day(&mut book.records, LAST_DAY), refused(1));
    assert_eq!(day(&mut [0], 1), refused(1));
}

#[test]
fn days_are_journalled_and_replayed() {
    let mut journal = Journal::default();
    journal.append(DAY_LINE, |text| write_day(text, 17));
    journal.append(DAY_LINE, |text| write_day(text, LAST_DAY));
    assert_eq!(journal.0, b"D\t17\nD\t99999\n");
    assert_eq!(write_day(&mut [0; DAY_LINE], 0), Reply::Refused { number: 3, place: 0 });
    assert_eq!(write_day(&mut [0; 4], 17), Reply::Refused { number: 14, place: 0 });
    let mut book = Book::new();
    assert_eq!(book.replay("D\t17\nA\t7\t0\t1\t2\t1\nD\t18\nD\t18\n"), Reply::LineRefused { line: 4, number: 3, place: 0 });
    assert_eq!((book.records[CURRENT_DAY], book.records[records_len(2) + RECORD_DAY]), (18, 17));
    assert_eq!(book.replay("D\t100000\n"), Reply::BadLine { line: 1 });
    // A line of a day has no test 2.
    book.positions.clear();
    assert_eq!(book.replay("D\t19\nD\t20\nA\t7\t2\t2\t1\t1\n"), Reply::LineRefused { line: 3, number: 2, place: 0 });
    assert_eq!(book.records[CURRENT_DAY], 20);
}

#[test]
fn a_text_that_is_too_short_stays() {
    let mut text = [7; TRANSFER_LINE];
    assert_eq!(write_transfer(&mut text, 999_999_999, 65_535, 9_998, 9_999, 999_999), Reply::Written { bytes: 35 });
    assert_eq!(&text, b"A\t999999999\t65535\t9998\t9999\t999999\n");
    let mut short = [7; separation_line(2) - 1];
    assert_eq!(write_separation(&mut short, 999_999_999, 65_535, 9_999, 999_999, &[1_000_000; 2]), Reply::Refused { number: 14, place: 0 });
    assert_eq!(write_separation(&mut short, 999_999_999, 65_535, 9_999, 999_999, &[1_000_000]), Reply::Refused { number: 3, place: 0 });
    assert_eq!(short, [7; 45]);
}

#[test]
fn each_kind_has_its_case() {
    let answer = |kind| Reply::from(Coded { kind, first: 7, second: 8, third: 9 });
    assert_eq!(answer(0), Reply::Booked { rows: 7, residual: 8 });
    assert_eq!(answer(1), Reply::ClosingError { excess: 7 });
    assert_eq!(answer(2), Reply::Lineage { price: 7, links: 8 });
    assert_eq!(answer(3), Reply::Refused { number: 7, place: 8 });
    assert_eq!(answer(4), Reply::Stopped { booked: 7, number: 8, place: 9 });
    assert_eq!(answer(5), Reply::Written { bytes: 7 });
    assert_eq!(answer(6), Reply::Replayed { lines: 7 });
    assert_eq!(answer(7), Reply::BadLine { line: 7 });
    assert_eq!(answer(8), Reply::LineRefused { line: 7, number: 8, place: 9 });
    assert_eq!(answer(9), Reply::Listed { records: 7 });
}

#[test]
fn each_answer_has_its_numbers() {
    let rest = [[8, 0], [0, 0], [8, 0], [8, 0], [8, 9], [0, 0], [0, 0], [0, 0], [8, 9], [0, 0]];
    for (kind, [second, third]) in (0..).zip(rest) {
        let reply = Reply::from(Coded { kind, first: 7, second: 8, third: 9 });
        assert_eq!(Coded::from(reply), Coded { kind, first: 7, second, third });
    }
}

#[test]
fn three_answers_tell_a_refusal() {
    let refusal = |kind| Reply::from(Coded { kind, first: 7, second: 8, third: 9 }).refusal();
    let told: Vec<(i64, Refusal)> = (0..=9).filter_map(|kind| Some((kind, refusal(kind)?))).collect();
    assert_eq!(told, [(3, Refusal(7)), (4, Refusal(8)), (8, Refusal(8))]);
}

#[test]
#[should_panic(expected = "an answer of kind 10:")]
fn an_unknown_kind_is_no_refusal() {
    let _ = Reply::from(Coded { kind: 10, first: 7, second: 8, third: 9 });
}

#[test]
#[should_panic(expected = "an answer of kind -1:")]
fn a_kind_below_0_is_no_refusal() {
    let _ = Reply::from(Coded { kind: -1, first: 7, second: 8, third: 9 });
}
