//! Batches of trades, drawn.

use crate::draw::{draw_id, trade_figures, ENDS};
use crate::rng::Rng;
use crate::tables::Tables;
use model::Request;
use std::collections::BTreeSet;

/// A batch of none to a few dozen trades, now and then of 1,000 or 1,001, mostly one whose first trades are accepted.
pub fn draw(rng: &mut Rng, tables: &Tables) -> Request {
    let count = match rng.below(400) {
        0 => 1_000,
        1 => 1_001,
        2..=9 => 0,
        10..=60 => rng.below(40),
        _ => 1 + rng.below(7),
    };
    of_trades(rng, tables, count)
}

/// A batch of about so many trades: now and then one that is refused, at any place, a part of a trade at the end, or too few cells.
pub fn of_trades(rng: &mut Rng, tables: &Tables, count: usize) -> Request {
    let mut taken: BTreeSet<i64> = tables.record_rows().map(|row| row[0]).collect();
    // Some batches name one position alone: they touch little.
    let (alone, first) = (rng.percent(40), trade_figures(rng));
    let mut figures = Vec::with_capacity(6 * count + 5);
    for _ in 0..count {
        let [account, series, side, quantity, price] = trade_figures(rng);
        let (account, series) = if alone { (first[0], first[1]) } else { (account, series) };
        figures.extend([new_id(rng, &mut taken), account, series, side, quantity, price]);
    }
    spoil(rng, &mut figures, count);
    if rng.percent(3) {
        let cut = rng.below(figures.len().min(5) + 1);
        figures.truncate(figures.len() - cut);
    } else if rng.percent(2) {
        figures.extend(vec![1; 1 + rng.below(5)]);
    }
    let cells = match rng.below(20) {
        0 if count > 0 => rng.below(count),
        1..=9 => count,
        _ => count + rng.below(9),
    };
    Request::Trades { figures, cells }
}

/// An id that neither the table nor the batch has.
fn new_id(rng: &mut Rng, taken: &mut BTreeSet<i64>) -> i64 {
    let drawn = (0..6).map(|_| draw_id(rng)).find(|id| !taken.contains(id));
    let id = drawn.unwrap_or_else(|| rng.between(25, 999_999_998));
    taken.insert(id);
    id
}

/// Now and then a trade gets an id that was there before, or a figure at an end.
fn spoil(rng: &mut Rng, figures: &mut [i64], count: usize) {
    if count > 1 && rng.percent(12) {
        let at = 1 + rng.below(count - 1);
        figures[6 * at] = figures[6 * rng.below(at)];
    }
    if count > 0 && rng.percent(12) {
        let at = rng.below(figures.len());
        figures[at] = rng.pick(&ENDS);
    }
}

/// The trades of a batch.
pub fn trades_of(figures: &[i64]) -> impl Iterator<Item = Request> + '_ {
    let (trades, _) = figures.as_chunks::<6>();
    trades.iter().map(|&[id, account, series, side, quantity, price]| Request::Trade { id, account, series, side, quantity, price })
}
