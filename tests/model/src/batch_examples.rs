//! Document 02, K1, by hand: batches that are booked, stop and are refused.

use crate::{Answer, Reply, Request};

fn handle(records: &mut [i64], positions: &mut [i64], request: &Request) -> Answer {
    crate::handle(records, positions, &mut [], request)
}

/// The current day is 4.
fn tables() -> (Vec<i64>, Vec<i64>) {
    ([vec![0, 4], vec![-7; 3 * 14]].concat(), [vec![0], vec![-7; 2 * 7]].concat())
}

fn batch(trades: &[[i64; 6]], cells: usize) -> Request {
    Request::Trades { figures: trades.concat(), cells }
}

/// A buy of 40 to open, and a sell of 60 to close, which exceeds it by 20.
const BUY: [i64; 6] = [30, 1, 1, 1, 40, 5];
const SELL: [i64; 6] = [10, 1, 1, 4, 60, 5];

#[test]
fn all_booked() {
    let (mut records, mut positions) = tables();
    let answer = handle(&mut records, &mut positions, &batch(&[BUY, SELL], 2));
    assert_eq!(answer, Answer { reply: Reply::Booked { rows: 2, residual: 0 }, output: vec![0, 20] });
    let rows = [[10, 0, 0, 10, 0, 1, 1, 4, 60, 5, -40, 20, 0, 4], [30, 0, 0, 0, 0, 1, 1, 1, 40, 5, 40, 0, 0, 4]];
    assert_eq!(records[..30], [vec![2, 4], rows.concat()].concat());
    assert_eq!(positions[..8], [1, 1, 1, 0, 20, 0, -20, -100]);
    assert!(records[30..].iter().chain(&positions[8..]).all(|cell| *cell == -7));
}

#[test]
fn stopped() {
    let other = |id: i64, account: i64| [id, account, 2, 1, 7, 5];
    for (trades, booked, number) in [
        (vec![[0, 1, 1, 1, 40, 5], BUY], 0, 3),
        (vec![BUY, [31, 1, 1, 5, 40, 5], SELL], 1, 3),
        (vec![BUY, SELL, BUY], 2, 4),
        (vec![BUY, SELL, other(11, 2), other(12, 2)], 3, 14),
        (vec![BUY, other(11, 2), other(12, 3)], 2, 15),
    ] {
        let (mut records, mut positions) = tables();
        let answer = handle(&mut records, &mut positions, &batch(&trades, 9));
        assert_eq!((answer.reply, answer.output.len() as i64), (Reply::Stopped { booked, number, place: 0 }, booked));
        let (mut as_booked, mut moved) = tables();
        for &[id, account, series, side, quantity, price] in &trades[..booked as usize] {
            handle(&mut as_booked, &mut moved, &Request::Trade { id, account, series, side, quantity, price });
        }
        assert_eq!((records, positions), (as_booked, moved));
    }
}

#[test]
fn refused() {
    let (mut records, mut positions) = tables();
    let before = (records.clone(), positions.clone());
    let mut number = |records: &mut [i64], request: &Request| match handle(records, &mut positions, request) {
        Answer { reply: Reply::Refused { number, place: 0 }, output } if output.is_empty() => number,
        other => panic!("{other:?}"),
    };
    let three = [(vec![], 5), (vec![1; 7], 5), ([BUY, SELL].concat(), 1), (BUY.repeat(1_001), 2_000)];
    for (figures, cells) in three {
        assert_eq!(number(&mut records, &Request::Trades { figures, cells }), 3);
    }
    assert_eq!(number(&mut [], &batch(&[], 0)), 1);
    assert_eq!((records, positions), before);
    assert_eq!(handle(&mut [0, 0], &mut [], &batch(&[], 0)).reply, Reply::Refused { number: 2, place: 0 });
}
