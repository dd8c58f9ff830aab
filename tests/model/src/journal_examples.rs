//! Document 02, K5, by hand: the line of each kind of request, lines that are bad, and replays that end, stop at a bad line and stop at a refusal.

use crate::journal::{replay, request_of, write, Writing};
use crate::{handle, Reply, Request, Step};

const P11: &str = "T\t456789\t1\t1\t1\t100\t1250000000\n";

fn p11() -> Request {
    Request::Trade { id: 456_789, account: 1, series: 1, side: 1, quantity: 100, price: 1_250_000_000 }
}

/// A request of each kind, with its line.
fn each_kind() -> Vec<(Request, &'static str)> {
    let step = |step: Step| Request::GiveUp { step, process: 77, id: 456_789, suffix: 0, giving: 1, taking: 2, series: 1 };
    let least = Request::Trade { id: 999_999_999, account: 9_999, series: 999_999, side: 4, quantity: 1_000_000, price: -1_000_000_000_000 };
    vec![
        (p11(), P11),
        (least, "T\t999999999\t9999\t999999\t4\t1000000\t-1000000000000\n"),
        (Request::Trade { id: 1, account: 1, series: 1, side: 2, quantity: 1, price: 0 }, "T\t1\t1\t1\t2\t1\t0\n"),
        (Request::Separate { id: 456_789, suffix: 2, account: 2, series: 1, parts: vec![50, 25, 25] }, "S\t456789\t2\t2\t1\t50\t25\t25\n"),
        (Request::Transfer { id: 456_789, suffix: 0, from: 1, to: 2, series: 1 }, "A\t456789\t0\t1\t2\t1\n"),
        (Request::Merge { id: 7, account: 2, series: 1, pairs: vec![456_789, 5, 456_789, 65_535] }, "M\t7\t2\t1\t456789\t5\t456789\t65535\n"),
        (step(Step::Open), "G\tO\t77\t456789\t0\t1\t2\t1\n"),
        (step(Step::Claim), "G\tC\t77\t456789\t0\t1\t2\t1\n"),
        (step(Step::Cancel), "G\tX\t77\t456789\t0\t1\t2\t1\n"),
        (step(Step::Refuse), "G\tR\t77\t456789\t0\t1\t2\t1\n"),
        (step(Step::ApproveGiver), "G\tG\t77\t456789\t0\t1\t2\t1\n"),
        (step(Step::ApproveTaker), "G\tT\t77\t456789\t0\t1\t2\t1\n"),
        (Request::NewDay { day: 1 }, "D\t1\n"),
        (Request::NewDay { day: 99_999 }, "D\t99999\n"),
    ]
}

#[test]
fn written_and_read() {
    for (request, line) in each_kind() {
        let mut text = vec![7; line.len() + 2];
        assert_eq!(write(&Writing::Of(request.clone()), &mut text), Reply::Written { bytes: line.len() as i64 });
        assert_eq!(text, [line.as_bytes(), &[7; 2]].concat());
        assert_eq!(request_of(line.as_bytes()), Some(request.clone()));
        let mut short = vec![7; line.len() - 1];
        assert_eq!(write(&Writing::Of(request), &mut short), Reply::Refused { number: 14, place: 0 });
        assert!(short.iter().all(|byte| *byte == 7));
    }
    let names = [77, 456_789, 0, 1, 2, 1];
    let mut text = [0; 23];
    assert_eq!(write(&Writing::Step(i64::from(b'X'), names), &mut text), Reply::Written { bytes: 22 });
    assert_eq!(&text[..22], b"G\tX\t77\t456789\t0\t1\t2\t1\n");
    for letter in [0, -79, 90, 111, 79 + 256, i64::MAX] {
        assert_eq!(write(&Writing::Step(letter, names), &mut text), Reply::Refused { number: 3, place: 0 });
    }
}

#[test]
fn a_batch_as_its_trades() {
    let trade = [456_789, 1, 1, 1, 100, 1_250_000_000];
    let written = |figures: Vec<i64>, bytes: usize| {
        let mut text = vec![7; bytes];
        let reply = write(&Writing::Of(Request::Trades { figures, cells: 0 }), &mut text);
        (reply, text)
    };
    let twice = P11.repeat(2).into_bytes();
    assert_eq!(written(trade.repeat(2), 60), (Reply::Written { bytes: 60 }, twice));
    assert_eq!(written(trade.repeat(2), 59), (Reply::Refused { number: 14, place: 0 }, vec![7; 59]));
    for figures in [vec![], trade[..5].to_vec(), trade.repeat(1_001), [trade, [0, 1, 1, 1, 100, 5]].concat()] {
        assert_eq!(written(figures, 59), (Reply::Refused { number: 3, place: 0 }, vec![7; 59]));
    }
    assert_eq!(written(trade.repeat(1_000), 30_000).0, Reply::Written { bytes: 30_000 });
}

#[test]
fn test_3_before_the_buffer() {
    for request in [
        Request::Trade { id: 0, account: 1, series: 1, side: 1, quantity: 1, price: 1 },
        Request::Transfer { id: 1, suffix: 0, from: 2, to: 2, series: 1 },
        Request::Separate { id: 1, suffix: 0, account: 1, series: 1, parts: vec![1] },
        Request::Merge { id: 1, account: 1, series: 1, pairs: vec![2, 0, 3] },
    ] {
        assert_eq!(write(&Writing::Of(request), &mut []), Reply::Refused { number: 3, place: 0 });
    }
}

#[test]
fn bad_lines() {
    let spelled = |quantity: &str, price: &str, after: &str| format!("T\t456789\t1\t1\t1\t{quantity}\t{price}{after}");
    assert!(request_of(spelled("100", "-5", "\n").as_bytes()).is_some());
    for (quantity, price, after) in [
        ("0100", "5", "\n"),
        ("+100", "5", "\n"),
        ("-100", "5", "\n"),
        ("", "5", "\n"),
        ("1 0", "5", "\n"),
        ("1e2", "5", "\n"),
        ("100", "-0", "\n"),
        ("100", "-05", "\n"),
        ("100", "--5", "\n"),
        ("100", "5-", "\n"),
        ("100", "00", "\n"),
        ("100", "1000000000001", "\n"),
        ("100", "11111111111111", "\n"),
        ("100", "18446744073709551621", "\n"),
        ("100", "5", ""),
        ("100", "5", "\r\n"),
        ("100", "5", " \n"),
        ("100", "5", "\t\n"),
        ("100", "5", "\t6\n"),
        ("100", "", "\n"),
        ("100", "5", "\n\n"),
    ] {
        assert_eq!(request_of(spelled(quantity, price, after).as_bytes()), None, "{quantity:?} {price:?} {after:?}");
    }
    let others: [&[u8]; 12] = [
        b"",
        b"\n",
        b"T\n",
        b"t\t456789\t1\t1\t1\t100\t5\n",
        b" T\t456789\t1\t1\t1\t100\t5\n",
        b"T 456789 1 1 1 100 5\n",
        b"T\t\xb9\t1\t1\t1\t100\t5\n",
        b"D\t0\n",
        b"G\tZ\t77\t456789\t0\t1\t2\t1\n",
        b"G\t77\t456789\t0\t1\t2\t1\n",
        b"GO\t77\t456789\t0\t1\t2\t1\n",
        b"A\t456789\t0\t1\t1\t1\n",
    ];
    for line in others {
        assert_eq!(request_of(line), None, "{line:?}");
    }
}

fn tables() -> [Vec<i64>; 3] {
    [(2, 14), (1, 7), (1, 9)].map(|(header, width)| [vec![0; header], vec![-7; 4 * width]].concat())
}

fn replayed(text: &str) -> (Reply, [Vec<i64>; 3]) {
    let [mut records, mut positions, mut processes] = tables();
    let reply = replay(&mut records, &mut positions, &mut processes, text.as_bytes());
    (reply, [records, positions, processes])
}

#[test]
fn replays() {
    assert_eq!(replayed(""), (Reply::Replayed { lines: 0 }, tables()));
    let day = [P11, "A\t456789\t0\t1\t2\t1\n", "G\tO\t77\t456789\t2\t2\t3\t1\n"].concat();
    let (reply, [records, positions, processes]) = replayed(&day);
    assert_eq!(reply, Reply::Replayed { lines: 3 });
    assert_eq!((records[0], records[2 + 2 * 14 + 4]), (3, 3));
    assert_eq!(positions[..15], [2, 1, 1, 0, 0, 0, 0, 0, 2, 1, 100, 0, 0, 100, 125_000_000_000]);
    assert_eq!(processes[..10], [1, 77, 456_789, 2, 2, 3, 1, 0, 0, 6]);

    // Lines before the one that is named stay booked, and those after it are not read.
    let [mut records, mut positions, mut processes] = tables();
    handle(&mut records, &mut positions, &mut processes, &p11());
    let one = [records, positions, processes];
    assert_eq!(replayed(&[P11, "\n", "T\t1\t1\t1\t1\t1\t1\n"].concat()), (Reply::BadLine { line: 2 }, one.clone()));
    assert_eq!(replayed(&[P11, P11, "\n"].concat()), (Reply::LineRefused { line: 2, number: 4, place: 0 }, one.clone()));
    assert_eq!(replayed(&[P11, "M\t7\t1\t1\t456789\t0\t456789\t0\n"].concat()), (Reply::LineRefused { line: 2, number: 9, place: 1 }, one.clone()));
    assert_eq!(replayed(&[P11, P11.trim_end()].concat()), (Reply::BadLine { line: 2 }, one));
}

#[test]
fn unsound_tables() {
    let (trade, step) = (P11, "G\tO\t77\t456789\t0\t1\t3\t1\n");
    let answer = |unsound: [bool; 3], text: &str| {
        let [mut records, mut positions, mut processes] = tables();
        for (table, _) in [&mut records, &mut positions, &mut processes].into_iter().zip(unsound).filter(|(_, unsound)| *unsound) {
            table.clear();
        }
        replay(&mut records, &mut positions, &mut processes, text.as_bytes())
    };
    let refused = |line: i64, number: i64| Reply::LineRefused { line, number, place: 0 };
    for (unsound, of_a_trade, of_a_step) in [
        ([true, true, true], refused(1, 1), refused(1, 1)),
        ([false, true, true], refused(1, 2), refused(1, 2)),
        ([false, false, true], Reply::Replayed { lines: 1 }, refused(1, 19)),
    ] {
        assert_eq!(answer(unsound, trade), of_a_trade);
        assert_eq!(answer(unsound, step), of_a_step);
        assert_eq!(answer(unsound, ""), Reply::Replayed { lines: 0 });
        assert_eq!(answer(unsound, "T\n"), Reply::BadLine { line: 1 });
        assert_eq!(answer(unsound, "A\t1\t0\t1\t1\t1\n"), Reply::BadLine { line: 1 });
    }
    assert_eq!(answer([false, false, true], &[trade, step].concat()), refused(2, 19));
}
