//! The fixed part of a run for batches: a stop at every place by every number, every length of the list and of the output, 1,000 trades, and the
//! greatest rooms.

use crate::checker::Checker;
use crate::sweeps::{many, small};
use crate::tables::{positions_len, records_len, Tables, MOST_POSITIONS, MOST_RECORDS, POSITION_CELLS, RECORD_CELLS};
use model::{Reply, Request};

type Trade = [i64; 6];

/// Trades of two positions in turn, each opened and closed long and then short, under ids from 20,000 on that do not rise.
fn trades(count: usize) -> Vec<Trade> {
    (0..count as i64).map(|k| [20_000 + k * 617 % 1_009, 1 + k % 2, 1, [1, 4, 2, 3][k as usize / 2 % 4], 20 + 3 * k % 8, 100 - k]).collect()
}

fn batch(trades: &[Trade], cells: usize) -> Request {
    Request::Trades { figures: trades.concat(), cells }
}

/// The small tables with room for so many rows more, and a part of a row at the end.
fn with_room(records: usize, positions: usize) -> Tables {
    let mut tables = small();
    tables.records.resize(records_len(6 + records) + 5, -1_000);
    tables.positions.resize(positions_len(3 + positions) + 3, -2_000);
    tables
}

pub fn run(checker: &mut Checker) {
    for place in 0..12 {
        stops_at(checker, 12, place);
    }
    for place in [0, 1, 499, 998, 999] {
        stops_at(checker, 1_000, place);
    }
    lengths(checker);
    limit_of_a_position(checker);
    greatest_rooms(checker);
}

/// Asks with as many cells as trades, and with more; the batch stops there by that number.
fn stops(checker: &mut Checker, tables: &Tables, trades: &[Trade], place: usize, number: i64) {
    for cells in [trades.len(), trades.len() + 3] {
        let answer = checker.ask(tables, &batch(trades, cells));
        assert_eq!(answer.reply, Reply::Stopped { booked: place as i64, number, place: 0 });
    }
}

/// A batch of so many trades that stops at this place, by each number that a trade is refused by.
fn stops_at(checker: &mut Checker, count: usize, place: usize) {
    let tables = with_room(count, 3);
    let with = |figure: usize, value: i64| {
        let mut trades = trades(count);
        trades[place][figure] = value;
        trades
    };
    let price = 1_000_000_000_001;
    let past_the_ends = [(0, 1_000_000_000), (0, 10_000), (0, 1_000_000), (0, 5), (0, 1_000_001), (-price, price)];
    for (figure, (below, above)) in past_the_ends.into_iter().enumerate() {
        stops(checker, &tables, &with(figure, below), place, 3);
        stops(checker, &tables, &with(figure, above), place, 3);
    }
    stops(checker, &tables, &with(0, 7), place, 4);
    for earlier in [0, place / 2, place.saturating_sub(1)] {
        if earlier < place {
            stops(checker, &tables, &with(0, trades(count)[earlier][0]), place, 4);
        }
    }
    stops(checker, &with_room(place, 3), &trades(count), place, 14);
    // The second trade makes a row. Series 5 has none, and no room for one.
    stops(checker, &with_room(count, (place > 1) as usize), &with(2, 5), place, 15);
    let mut full = with_room(count, 3);
    full.positions[positions_len(1)..positions_len(2)].copy_from_slice(&[3, 1, 1_000_000_000_000, 1_000_000_000_000, 0, 0, 0]);
    let mut trades = with(1, 3);
    trades[place][3] = 1 + place as i64 % 2;
    stops(checker, &full, &trades, place, 16);
}

/// Each length of the list around none and around 1,000 trades, with fewer, as many and more cells than trades.
fn lengths(checker: &mut Checker) {
    let tables = with_room(1_003, 3);
    let figures = trades(1_003).concat();
    for len in (0..=20).chain(5_988..=6_013) {
        let listed: usize = len / 6;
        for cells in [0, listed.saturating_sub(1), listed, listed + 1, listed + 40] {
            let answer = checker.ask(&tables, &Request::Trades { figures: figures[..len].to_vec(), cells });
            let accepted = len % 6 == 0 && (1..=1_000).contains(&listed) && cells >= listed;
            assert_eq!(matches!(answer.reply, Reply::Booked { .. }), accepted, "{len} figures, {cells} cells");
        }
    }
}

/// The trades before reach the limit of a position; it is not passed.
fn limit_of_a_position(checker: &mut Checker) {
    for (side, other) in [(1, 3), (2, 4)] {
        for below in 1_999_998..=2_000_001 {
            let mut tables = with_room(9, 1);
            let open = 1_000_000_000_000 - below;
            tables.positions[positions_len(1)..positions_len(2)].copy_from_slice(&[3, 1, open, open, 0, 0, 0]);
            let trade = |id: i64, side: i64, quantity: i64| [id, 3, 1, side, quantity, 0];
            let million = 1_000_000;
            checker.ask(&tables, &batch(&[trade(31, side, million), trade(30, side, million), trade(32, side, 1), trade(33, side, 1)], 4));
            checker.ask(&tables, &batch(&[trade(31, side, million), trade(30, side, million), trade(32, other, 1), trade(33, other, million)], 5));
        }
    }
}

/// Batches that reach 4,096 records or 1,024 positions, in slices that are just long enough, shorter and longer.
fn greatest_rooms(checker: &mut Checker) {
    let around: Vec<Trade> = (0..6).map(|k| [if k % 2 == 0 { 9 - k } else { 9_000 - k }, 1, 1, 1 + k % 4, 1 + k, k]).collect();
    for spare in [0, RECORD_CELLS - 1, RECORD_CELLS, 40] {
        for count in [4_089, 4_090, 4_091, 4_095, 4_096, 4_097] {
            let mut tables = many(4_098, 4_100, 4);
            tables.records[0] = count;
            tables.records.truncate(records_len(MOST_RECORDS) + spare);
            checker.ask(&tables, &batch(&around, 6));
        }
    }
    let apart: Vec<Trade> = (0..6).map(|k| [9 - k, 1 + k % 3, 2 + 100 * k, 1 + k % 4, 1 + k, k]).collect();
    for spare in [0, POSITION_CELLS - 1, POSITION_CELLS, 50] {
        for count in [1_017, 1_018, 1_019, 1_023, 1_024, 1_025] {
            let mut tables = many(5, 20, 4);
            tables.positions = vec![count];
            for k in 0..1_026 {
                tables.positions.extend([1 + k / 400, 1 + 2 * (k % 400), 1_000, 5, k, -k, 7 * k]);
            }
            tables.positions.truncate(positions_len(MOST_POSITIONS) + spare);
            checker.ask(&tables, &batch(&apart, 9));
        }
    }
}
