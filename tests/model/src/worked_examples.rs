//! Document 01, "Figures to check by hand", one by one.

use crate::{Reply, Request};

fn handle(records: &mut [i64], positions: &mut [i64], request: &Request) -> Reply {
    crate::handle(records, positions, &mut [], request).reply
}

fn tables(records: usize, positions: usize) -> (Vec<i64>, Vec<i64>) {
    ([vec![0, 0], vec![-7; records * 14]].concat(), [vec![0], vec![-7; positions * 7]].concat())
}

fn trade(id: i64, side: i64, quantity: i64, price: i64) -> Request {
    Request::Trade { id, account: 1, series: 1, side, quantity, price }
}

fn booked(rows: i64, residual: i64) -> Reply {
    Reply::Booked { rows, residual }
}

fn refused(number: i64, place: i64) -> Reply {
    Reply::Refused { number, place }
}

/// A trade to close on a position with that long and short: the answer, the new row's type and booked cells.
fn closing(long: i64, short: i64, quantity: i64) -> (Reply, [i64; 3]) {
    let (mut records, mut positions) = tables(2, 2);
    positions[..8].copy_from_slice(&[1, 1, 1, long, short, 0, 0, 0]);
    let reply = handle(&mut records, &mut positions, &trade(7, 3, quantity, 5));
    (reply, [records[5], records[12], records[13]])
}

/// Two trades to open and their merge: the answer and the average.
fn merging(side: i64, first: (i64, i64), second: (i64, i64)) -> (Reply, i64) {
    let (mut records, mut positions) = tables(5, 1);
    assert_eq!(handle(&mut records, &mut positions, &trade(1, side, first.0, first.1)), booked(1, 0));
    assert_eq!(handle(&mut records, &mut positions, &trade(2, side, second.0, second.1)), booked(1, 0));
    let reply = handle(&mut records, &mut positions, &Request::Merge { id: 3, account: 1, series: 1, pairs: vec![1, 0, 2, 0] });
    (reply, records[2 + 4 * 14 + 9])
}

#[test]
fn p1_to_p3() {
    assert_eq!(closing(100, 120, 150), (Reply::ClosingError { excess: 30 }, [10, 30, -120]));
    assert_eq!(closing(0, 0, 100), (Reply::ClosingError { excess: 100 }, [10, 100, 0]));
    assert_eq!(closing(0, 120, 120), (booked(1, 0), [0, 0, -120]));
}

#[test]
fn p4_to_p6() {
    assert_eq!(merging(1, (2, 10_000_000), (1, 10_000_001)), (booked(3, -1), 10_000_000));
    assert_eq!(merging(1, (1, 10_000_000), (1, 10_000_001)), (booked(3, 1), 10_000_001));
    assert_eq!(merging(2, (1, 10_000_000), (1, 10_000_001)), (booked(3, -1), 10_000_001));
    // K4: "P6 becomes average -1, residual -1"
    assert_eq!(merging(1, (1, -1), (1, 0)), (booked(3, -1), -1));
    // "V = -3 with Q = 4 gives -1, not 0."
    assert_eq!(merging(1, (1, 0), (3, -1)).1, -1);
}

/// K4: "negating every price negates the average"
#[test]
fn negated_prices() {
    for side in [1, 2] {
        for (first, second) in [(1, 1), (1, 3), (2, 2), (3, 2), (5, 1)] {
            for price in -7..=7 {
                let (Reply::Booked { residual, .. }, average) = merging(side, (first, price), (second, 0)) else { panic!("a merge is booked") };
                assert_eq!(merging(side, (first, -price), (second, 0)), (booked(3, -residual), -average));
            }
        }
    }
}

#[test]
fn p7_to_p10() {
    let (mut records, mut positions) = tables(6, 1);
    handle(&mut records, &mut positions, &trade(8, 1, 100, 5));
    let separate = |parts: &[i64]| Request::Separate { id: 8, suffix: 0, account: 1, series: 1, parts: parts.to_vec() };
    assert_eq!(handle(&mut records, &mut positions, &separate(&[50, 25, 24])), refused(11, 0));
    assert_eq!(handle(&mut records, &mut positions, &separate(&[1])), refused(3, 0));
    let twice = Request::Merge { id: 9, account: 1, series: 1, pairs: vec![8, 0, 8, 0] };
    assert_eq!(handle(&mut records, &mut positions, &twice), refused(9, 1));
    assert_eq!(handle(&mut records, &mut positions, &separate(&[50, 25, 25])), booked(4, 0));
}

#[test]
fn p11() {
    let (mut records, mut positions) = tables(8, 3);
    let trade = Request::Trade { id: 456_789, account: 1, series: 1, side: 1, quantity: 100, price: 1_250_000_000 };
    assert_eq!(handle(&mut records, &mut positions, &trade), booked(1, 0));
    let transfer = Request::Transfer { id: 456_789, suffix: 0, from: 1, to: 2, series: 1 };
    assert_eq!(handle(&mut records, &mut positions, &transfer), booked(2, 0));
    let separate = Request::Separate { id: 456_789, suffix: 2, account: 2, series: 1, parts: vec![50, 25, 25] };
    assert_eq!(handle(&mut records, &mut positions, &separate), booked(4, 0));
    let rows = [
        [456789, 0, 0, 0, 1, 1, 1, 1, 100, 1250000000, 100, 0, 0, 0],
        [456789, 1, 0, 4, 2, 1, 1, 1, -100, 1250000000, -100, 0, 0, 0],
        [456789, 2, 0, 4, 1, 2, 1, 1, 100, 1250000000, 100, 0, 0, 0],
        [456789, 3, 2, 6, 2, 2, 1, 1, -100, 1250000000, 0, 0, 0, 0],
        [456789, 4, 2, 6, 0, 2, 1, 1, 50, 1250000000, 0, 0, 0, 0],
        [456789, 5, 2, 6, 0, 2, 1, 1, 25, 1250000000, 0, 0, 0, 0],
        [456789, 6, 2, 6, 0, 2, 1, 1, 25, 1250000000, 0, 0, 0, 0],
    ];
    // K8: "P11's cell 1 and new cells are 0."
    assert_eq!(records, [vec![7, 0], rows.concat(), vec![-7; 14]].concat());
    // K7: "P11's rows then end 0, 0 and 100, 125,000,000,000."
    let rows = [[1, 1, 0, 0, 0, 0, 0], [2, 1, 100, 0, 0, 100, 125_000_000_000], [-7; 7]];
    assert_eq!(positions, [vec![2], rows.concat()].concat());
    let question = Request::Lineage { id: 456_789, suffix: 6 };
    assert_eq!(handle(&mut records, &mut [], &question), Reply::Lineage { price: 1_250_000_000, links: 2 });
}

#[test]
fn the_rest() {
    let (mut records, mut positions) = tables(1, 1);
    assert_eq!(handle(&mut records, &mut positions, &trade(8, 1, 1_000_001, 5)), refused(3, 0));
    assert_eq!(handle(&mut records, &mut positions, &trade(8, 1, 1_000_000, 5)), booked(1, 0));
    assert_eq!(handle(&mut [], &mut positions, &trade(8, 1, 1, 5)), refused(1, 0));
    // K8: "two lone 0s now refuse a trade 1; records 0, 0 refuse it 14"
    assert_eq!(handle(&mut [0], &mut [0], &trade(8, 1, 1, 5)), refused(1, 0));
    assert_eq!(handle(&mut [0, 0], &mut [0], &trade(8, 1, 1, 5)), refused(14, 0));
}
