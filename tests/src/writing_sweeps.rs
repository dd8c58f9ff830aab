//! The fixed part of a run for the calls that write: every length of the buffer, every figure at the ends of the ranges and at every number of digits, every
//! length of a list, every number for a step; and requests drawn at random.

use crate::checker::Checker;
use crate::coverage::{LINEAGE_KIND, LIST, REPLAY};
use crate::draw::{self, figures, set_figure, sound_tables, ENDS, LEANS};
use crate::give_ups::{named, EACH};
use crate::rng::Rng;
use model::journal::{letter_of, lines_of};
use model::{Reply, Request, Writing};
use velichundam::{merge_line, separation_line, DAY_LINE, GIVE_UP_LINE, LAST_DAY, TRADE_LINE, TRANSFER_LINE};

const NAMES: [i64; 6] = [77, 456_789, 0, 1, 2, 1];

/// A request of each kind that has a line.
fn valid() -> Vec<Request> {
    let mut requests = vec![
        Request::Trade { id: 456_789, account: 1, series: 1, side: 1, quantity: 100, price: 1_250_000_000 },
        Request::Trades { figures: vec![8, 2, 1, 1, 3, 99, 600_000, 1, 1, 4, 35, -99, 10, 2, 1, 4, 2, 0], cells: 0 },
        Request::Separate { id: 456_789, suffix: 2, account: 2, series: 1, parts: vec![50, 25, 25] },
        Request::Transfer { id: 456_789, suffix: 0, from: 1, to: 2, series: 1 },
        Request::Merge { id: 7, account: 2, series: 1, pairs: vec![456_789, 5, 8, 65_535] },
        Request::NewDay { day: 31 },
    ];
    requests.extend(EACH.map(|step| named(step, &NAMES)));
    requests
}

/// Writes into buffers around the length that is needed, and into none; or, where test 3 fails, into none and into a long one.
fn around(checker: &mut Checker, writing: &Writing) {
    match lines_of(writing).map(|lines| lines.len()) {
        Some(needed) => {
            for bytes in [0, 1, needed / 2, needed - 2, needed - 1, needed, needed + 1, needed + 2, needed + 100] {
                let (reply, _) = checker.write(writing, bytes);
                let expected = if bytes < needed { Reply::Refused { number: 14, place: 0 } } else { Reply::Written { bytes: needed as i64 } };
                assert_eq!(reply, expected, "{writing:?}");
            }
        }
        None => {
            for bytes in [0, 200] {
                assert_eq!(checker.write(writing, bytes).0, Reply::Refused { number: 3, place: 0 }, "{writing:?}");
            }
        }
    }
}

pub fn run(checker: &mut Checker) {
    every_buffer(checker);
    every_figure(checker);
    list_lengths(checker);
    listed_trades(checker);
    every_step(checker);
    longest_lines(checker);
}

fn every_buffer(checker: &mut Checker) {
    for request in valid() {
        let writing = Writing::Of(request);
        let needed = lines_of(&writing).expect("it passes test 3").len();
        for bytes in 0..needed + 20 {
            checker.write(&writing, bytes);
        }
    }
}

/// Each figure at each end, and around each power of ten, with both signs: every number of digits.
fn every_figure(checker: &mut Checker) {
    let powers = (0..=18).map(|power| 10_i64.pow(power));
    let numbers: Vec<i64> = powers.flat_map(|power| [power - 1, power, power + 1, 2 * (power / 3), -power - 1, -power, 1 - power]).chain(ENDS).collect();
    for request in valid() {
        for which in 0..figures(&request) {
            for &number in &numbers {
                let mut request = request.clone();
                set_figure(&mut request, which, number);
                around(checker, &Writing::Of(request));
            }
        }
    }
}

/// Parts and pairs of every length around 2 and 1,000.
fn list_lengths(checker: &mut Checker) {
    for count in (0..6).chain(997..1_004) {
        let parts = (0..count).map(|k| 1 + k * 1_009 % 1_000_000).collect();
        around(checker, &Writing::Of(Request::Separate { id: 11, suffix: 65_535, account: 9_999, series: 1, parts }));
    }
    for cells in (0..8).chain(1_996..2_005) {
        let pairs = (0..cells).map(|k| 1 + k * 32 % 65_535).collect();
        around(checker, &Writing::Of(Request::Merge { id: 500_000, account: 1, series: 999_999, pairs }));
    }
}

/// Lists of trades of every length around none and around 1,000, and with one that fails test 3 at any place.
fn listed_trades(checker: &mut Checker) {
    let figures: Vec<i64> = (0..1_003).flat_map(|k| [20_000 + k * 617 % 1_009, 1 + k % 2, 1, 1 + k % 4, 20 + 3 * k % 8, 100 - 7 * k]).collect();
    for len in (0..=20).chain(5_988..=6_013) {
        around(checker, &Writing::Of(Request::Trades { figures: figures[..len].to_vec(), cells: 0 }));
    }
    for (count, places) in [(12, (0..12).collect()), (1_000, vec![0, 1, 499, 998, 999])] {
        for place in places {
            for figure in 0..6 {
                for wrong in [-1_000_000_000_001, 1_000_000_000_001] {
                    let mut figures = figures[..6 * count].to_vec();
                    figures[6 * place + figure] = wrong;
                    around(checker, &Writing::Of(Request::Trades { figures, cells: 0 }));
                }
            }
        }
    }
}

/// Each number for a step, those among them that have a letter's number as their last byte or half.
fn every_step(checker: &mut Checker) {
    let like = EACH
        .into_iter()
        .map(letter_of)
        .flat_map(|letter| [letter + (1 << 8), letter - (1 << 8), letter + (1 << 32), letter - (1 << 32), letter + i64::MIN, -letter, letter + 32]);
    for letter in (-2..300).chain(like).chain(ENDS) {
        around(checker, &Writing::Step(letter, NAMES));
        let mut equal = NAMES;
        equal[4] = equal[3];
        around(checker, &Writing::Step(letter, equal));
    }
}

/// The lengths that the header and the crate state.
fn longest_lines(checker: &mut Checker) {
    let (id, suffix, account, series, quantity, price) = (999_999_999, 65_535, 9_999, 999_999, 1_000_000, -1_000_000_000_000);
    let trade = [id, account, series, 4, quantity, price];
    let longest = [
        (Request::Trade { id, account, series, side: 4, quantity, price }, TRADE_LINE),
        (Request::Trades { figures: trade.repeat(1_000), cells: 0 }, 1_000 * TRADE_LINE),
        (Request::Separate { id, suffix, account, series, parts: vec![quantity; 2] }, separation_line(2)),
        (Request::Separate { id, suffix, account, series, parts: vec![quantity; 1_000] }, separation_line(1_000)),
        (Request::Transfer { id, suffix, from: account, to: account - 1, series }, TRANSFER_LINE),
        (Request::Merge { id, account, series, pairs: [id, suffix].repeat(2) }, merge_line(2)),
        (Request::Merge { id, account, series, pairs: [id, suffix].repeat(1_000) }, merge_line(1_000)),
        (named(EACH[0], &[id, id, suffix, account, account - 1, series]), GIVE_UP_LINE),
        (Request::NewDay { day: LAST_DAY }, DAY_LINE),
    ];
    for (request, bytes) in longest {
        let writing = Writing::Of(request);
        assert_eq!(checker.write(&writing, bytes).0, Reply::Written { bytes: bytes as i64 }, "{writing:?}");
        around(checker, &writing);
    }
    checker.coverage.situation("writing: the longest line of each kind");
}

/// Requests drawn as for the tables, mostly with a figure at an end more, into buffers around the length that is needed.
pub fn drawn(checker: &mut Checker, rng: &mut Rng, times: usize) {
    for _ in 0..times {
        let lean = rng.pick(&LEANS);
        let tables = sound_tables(rng, lean, 6);
        let kinds: Vec<usize> = (0..REPLAY).filter(|kind| ![LINEAGE_KIND, LIST].contains(kind)).collect();
        let kind = rng.pick(&kinds);
        let mut request = draw::request(rng, &tables, kind);
        let count = figures(&request);
        while count > 0 && rng.percent(40) {
            let (which, figure) = (rng.below(count), rng.pick(&ENDS));
            set_figure(&mut request, which, figure);
        }
        let writing = Writing::Of(request);
        let needed = lines_of(&writing).map_or(40, |lines| lines.len());
        checker.write(&writing, (needed + 3).saturating_sub(rng.below(6)));
    }
}
