//! The fixed part of a run for replays: every byte of a line, every spelling of a figure, every number of figures, every place of a line that is bad or
//! refused, every cell and length of the tables, and the greatest rooms.

use crate::checker::Checker;
use crate::draw::{figures, set_figure, ENDS};
use crate::give_up_sweeps::{tables, GIVEN, OPENED};
use crate::give_ups::{named, CLAIMED, EACH, PENDING};
use crate::sweeps::many;
use crate::tables::{positions_len, processes_len, records_len, Tables, MOST_POSITIONS, MOST_PROCESSES, MOST_RECORDS};
use crate::tables::{POSITION_CELLS, RECORD_CELLS};
use model::journal::{line_of, lines};
use model::{Reply, Request, Step};

/// The small tables with three processes, of which one is claimed and approved by the giver's clearing member.
fn small() -> Tables {
    tables([1, 0, CLAIMED])
}

/// A request of each kind that is accepted on the small tables; the last completes a give-up.
fn accepted() -> Vec<Request> {
    vec![
        Request::Trade { id: 8, account: 2, series: 1, side: 1, quantity: 30, price: -99 },
        Request::Separate { id: 7, suffix: 3, account: 1, series: 1, parts: vec![1, 2, 2] },
        Request::Transfer { id: 7, suffix: 3, from: 1, to: 2, series: 1 },
        Request::Merge { id: 6, account: 1, series: 1, pairs: vec![7, 3, 5, 0] },
        Request::NewDay { day: 31 },
        named(Step::Open, &OPENED),
        named(Step::ApproveTaker, &GIVEN),
    ]
}

fn line(request: &Request) -> Vec<u8> {
    line_of(request).expect("it has a line").into_bytes()
}

fn replay(checker: &mut Checker, tables: &Tables, text: Vec<u8>) -> Reply {
    checker.ask(tables, &Request::Replay { text }).reply
}

fn refused(line: i64, number: i64) -> Reply {
    Reply::LineRefused { line, number, place: 0 }
}

pub fn run(checker: &mut Checker) {
    for request in accepted() {
        assert_eq!(replay(checker, &small(), line(&request)), Reply::Replayed { lines: 1 }, "{request:?}");
    }
    every_byte(checker);
    every_figure(checker);
    every_spelling(checker);
    figure_counts(checker);
    every_place(checker);
    every_step(checker);
    every_cell(checker);
    every_length(checker);
    greatest_rooms(checker);
    long_texts(checker);
}

/// At each place of each line each byte; each byte dropped, doubled, and swapped with the next; each beginning and each end of the line.
fn every_byte(checker: &mut Checker) {
    for request in accepted() {
        let line = line(&request);
        for at in 0..line.len() {
            for byte in 0..=255 {
                let mut text = line.clone();
                text[at] = byte;
                replay(checker, &small(), text);
            }
            for byte in *b"\x000159-+.eTGO \t\n\r\x80\xb2\xff" {
                let mut text = line.clone();
                text.insert(at, byte);
                replay(checker, &small(), text);
            }
            let mut dropped = line.clone();
            dropped.remove(at);
            replay(checker, &small(), dropped);
            let mut swapped = line.clone();
            swapped.swap(at, (at + 1) % line.len());
            replay(checker, &small(), swapped);
            replay(checker, &small(), line[..at].to_vec());
            replay(checker, &small(), line[at..].to_vec());
        }
    }
}

/// Each figure of each line at each end.
fn every_figure(checker: &mut Checker) {
    for request in accepted() {
        for which in 0..figures(&request) {
            for end in ENDS {
                let mut request = request.clone();
                set_figure(&mut request, which, end);
                replay(checker, &small(), line(&request));
            }
        }
    }
}

/// Other spellings of a figure.
fn spellings(figure: &str) -> Vec<String> {
    let value: i128 = figure.parse().unwrap_or(1);
    let mut all: Vec<String> = ["", "0", "-0", "+0", "00", "-", "+", "--1", " ", "1e3", "1.0", "1,000", "0x1", "\u{0663}", "\u{ff11}", "one", "\0", "T", "\r"]
        .map(String::from)
        .to_vec();
    all.extend(["0", "00", "+", "-", " ", "\0", "0000000000000"].map(|before| format!("{before}{figure}")));
    all.extend(["-", ".", " ", ".0", "e0", "\0", "0", "0000000000000"].map(|after| format!("{figure}{after}")));
    // A machine's number would lose these powers.
    all.extend([8, 16, 31, 32, 53, 62, 63, 64, 65, 96, 126].map(|power| (value + (1 << power)).to_string()));
    all.extend([8, 16, 31, 32, 53, 62, 63, 64, 65, 96, 126].map(|power| (value - (1 << power)).to_string()));
    for digits in 1..=25 {
        all.extend(["1", "9"].map(|digit| digit.repeat(digits)));
        all.push(format!("1{}", "0".repeat(digits)));
        all.push(format!("-1{}", "0".repeat(digits)));
        // So many digits of which the last are the figure's, in case the first are lost.
        all.push(format!("1{figure:0>digits$}"));
    }
    all
}

/// Each field of each line in each spelling.
fn every_spelling(checker: &mut Checker) {
    for request in accepted() {
        let line = line_of(&request).expect("it has a line");
        let fields: Vec<&str> = line.trim_end().split('\t').collect();
        for k in 0..fields.len() {
            for spelling in spellings(fields[k]) {
                let mut fields = fields.clone();
                fields[k] = &spelling;
                replay(checker, &small(), [fields.join("\t").as_bytes(), b"\n"].concat());
            }
        }
    }
}

/// Each letter and each step with each number of figures, up to those that no line has; lists of every length around 2 and 1,000.
fn figure_counts(checker: &mut Checker) {
    let headings = ["T", "S", "A", "M", "G", "D", "G\tO", "G\tC", "G\tX", "G\tR", "G\tG", "G\tT"];
    for heading in headings {
        for count in (0..12).chain([1_000, 1_004, 1_005, 2_002, 2_003, 2_004, 2_005, 2_006, 2_100, 6_000]) {
            for figure in ["1", "7"] {
                let text = [heading, &format!("\t{figure}").repeat(count), "\n"].concat();
                replay(checker, &small(), text.into_bytes());
            }
        }
    }
    for quantity in [3, 1_000, 1_001] {
        for count in (0..6).chain(997..1_004) {
            let mut parts = vec![1; count];
            if let Some(last) = parts.last_mut() {
                *last = quantity - (count as i64 - 1);
            }
            replay(checker, &many(3, 1_010, quantity), line(&Request::Separate { id: 11, suffix: 0, account: 1, series: 1, parts }));
        }
    }
    let tables = many(1_003, 2_010, 1);
    for cells in (0..8).chain(1_996..2_005) {
        let pairs: Vec<i64> = (0..cells as i64).map(|k| if k % 2 == 0 { 1_012 - k / 2 } else { 0 }).collect();
        replay(checker, &tables, line(&Request::Merge { id: 500_000, account: 1, series: 1, pairs }));
    }
}

/// A day of every kind of line from empty tables, which goes on over two more, and these tables.
fn day() -> (Tables, Vec<u8>) {
    let given = |step: Step| named(step, &[77, 456_789, 4, 2, 5, 1]);
    let requests = [
        Request::Trade { id: 456_789, account: 1, series: 1, side: 1, quantity: 100, price: 1_250_000_000 },
        Request::Transfer { id: 456_789, suffix: 0, from: 1, to: 2, series: 1 },
        Request::Separate { id: 456_789, suffix: 2, account: 2, series: 1, parts: vec![50, 25, 25] },
        given(Step::Open),
        given(Step::Claim),
        Request::NewDay { day: 4 },
        given(Step::ApproveGiver),
        given(Step::ApproveTaker),
        Request::Merge { id: 500_000, account: 2, series: 1, pairs: vec![456_789, 6, 456_789, 5] },
        Request::NewDay { day: 99_999 },
        Request::Trade { id: 7, account: 5, series: 1, side: 4, quantity: 60, price: -3 },
        named(Step::Open, &[9, 500_000, 0, 2, 1, 1]),
        named(Step::Cancel, &[9, 500_000, 0, 2, 1, 1]),
    ];
    let empty = |header: usize, cells: usize| [vec![0; header], vec![-5; cells + 2 - header]].concat();
    (
        Tables {
            records: empty(records_len(0), records_len(16)),
            positions: empty(positions_len(0), positions_len(4)),
            processes: empty(processes_len(0), processes_len(3)),
        },
        requests.iter().flat_map(line).collect(),
    )
}

/// A line of the day that is bad or refused, at each place; and the day cut off at each byte.
fn every_place(checker: &mut Checker) {
    let (tables, text) = day();
    let all: Vec<&[u8]> = lines(&text).collect();
    assert_eq!(replay(checker, &tables, text.clone()), Reply::Replayed { lines: all.len() as i64 });
    let first = all[0];
    let wrong: [(&[u8], Option<i64>); 9] = [
        (b"\n", None),
        (b"\r\n", None),
        (b"\t\n", None),
        (b"T\n", None),
        (b"T\t456789\t1\t1\t1\t100\t1250000000\r\n", None),
        (b"T\t456789\t1\t1\t1\t100\t1250000000\t\n", None),
        (b"A\t456789\t0\t1\t1\t1\n", None),
        (b"A\t456788\t0\t1\t2\t1\n", Some(5)),
        (b"G\tC\t78\t456789\t0\t1\t2\t1\n", Some(18)),
    ];
    for k in 0..=all.len() {
        let named = k as i64 + 1;
        for (line, number) in wrong {
            let text = [all[..k].concat(), line.to_vec(), all[k..].concat()].concat();
            assert_eq!(replay(checker, &tables, text), number.map_or(Reply::BadLine { line: named }, |number| refused(named, number)));
        }
        // The rest after a line that is not ended is that line's.
        let joined = [all[..k].concat(), first[..first.len() - 1].to_vec(), all[k..].concat()].concat();
        assert_eq!(replay(checker, &tables, joined), Reply::BadLine { line: named });
        // The first line again is refused, and whatever follows is not read.
        if k > 0 {
            let again = [all[..k].concat(), first.to_vec(), b"no line\n\n".to_vec()].concat();
            assert_eq!(replay(checker, &tables, again), refused(named, 4));
        }
    }
    for k in 0..all.len() {
        replay(checker, &tables, [all[..k].concat(), all[k + 1..].concat()].concat());
        replay(checker, &tables, [all[..=k].concat(), all[k..].concat()].concat());
        for other in 0..k {
            let mut swapped = all.clone();
            swapped.swap(k, other);
            replay(checker, &tables, swapped.concat());
        }
    }
    for len in 0..text.len() {
        let booked = lines(&text[..len]).filter(|line| line.ends_with(b"\n")).count() as i64;
        let whole = len == 0 || text[len - 1] == b'\n';
        let expected = if whole { Reply::Replayed { lines: booked } } else { Reply::BadLine { line: booked + 1 } };
        assert_eq!(replay(checker, &tables, text[..len].to_vec()), expected);
    }
}

/// Each step's line at each stage, and two steps after each other.
fn every_step(checker: &mut Checker) {
    for progress in [[0, 0, PENDING], [1, 0, PENDING], [1, 1, PENDING], [0, 0, CLAIMED], [1, 0, CLAIMED], [0, 1, CLAIMED], [0, 0, 10], [0, 0, 12], [1, 1, 0]] {
        for first in EACH {
            for second in EACH {
                replay(checker, &tables(progress), [line(&named(first, &GIVEN)), line(&named(second, &GIVEN))].concat());
            }
        }
    }
}

/// A trade and an opening, an opening and a trade, no line, and a bad one.
fn short_texts() -> [Vec<u8>; 4] {
    let (trade, opening) = (line(&accepted()[0]), line(&named(Step::Open, &OPENED)));
    [[trade.clone(), opening.clone()].concat(), [opening, trade].concat(), Vec::new(), b"T\t8\n".to_vec()]
}

/// Each cell of the tables at some ends: an unsound process table stops a step alone.
fn every_cell(checker: &mut Checker) {
    let tables = small();
    for text in short_texts() {
        for end in ENDS.into_iter().step_by(3).chain([i64::MAX]) {
            for cell in 0..records_len(6) {
                let mut tables = tables.clone();
                tables.records[cell] = end;
                replay(checker, &tables, text.clone());
            }
            for cell in 0..positions_len(3) {
                let mut tables = tables.clone();
                tables.positions[cell] = end;
                replay(checker, &tables, text.clone());
            }
            for cell in 0..processes_len(3) {
                let mut tables = tables.clone();
                tables.processes[cell] = end;
                replay(checker, &tables, text.clone());
            }
        }
    }
}

/// Each length of each slice.
fn every_length(checker: &mut Checker) {
    let tables = small();
    for text in short_texts() {
        for len in 0..tables.records.len() {
            let mut tables = tables.clone();
            tables.records.truncate(len);
            replay(checker, &tables, text.clone());
        }
        for len in 0..tables.positions.len() {
            let mut tables = tables.clone();
            tables.positions.truncate(len);
            replay(checker, &tables, text.clone());
        }
        for len in 0..tables.processes.len() {
            let mut tables = tables.clone();
            tables.processes.truncate(len);
            replay(checker, &tables, text.clone());
        }
    }
}

/// Texts that reach 4,096 records, 1,024 positions or 1,024 processes, in slices that are just long enough, shorter and longer.
fn greatest_rooms(checker: &mut Checker) {
    let trade = |id: i64, series: i64| line(&Request::Trade { id, account: 4, series, side: 1, quantity: 1, price: 1 });
    let trades: Vec<u8> = (0..6).flat_map(|k| trade(if k % 2 == 0 { 9 - k } else { 9_000 - k }, 1)).collect();
    for spare in [0, RECORD_CELLS - 1, RECORD_CELLS, 40] {
        for count in [4_089, 4_090, 4_091, 4_096, 4_097] {
            let mut tables = many(4_098, 4_100, 4);
            tables.records[0] = count;
            tables.records.truncate(records_len(MOST_RECORDS) + spare);
            replay(checker, &tables, trades.clone());
        }
    }
    let apart: Vec<u8> = (0..6).flat_map(|k| trade(9 - k, 6 - k)).collect();
    for spare in [0, POSITION_CELLS - 1, POSITION_CELLS, 50] {
        for count in [1_017, 1_018, 1_019, 1_024, 1_025] {
            let mut tables = many(5, 20, 4);
            tables.positions = vec![count];
            for k in 0..1_026 {
                tables.positions.extend([1 + k / 400, 1 + 2 * (k % 400), 1_000, 5, k, -k, 7 * k]);
            }
            tables.positions.truncate(positions_len(MOST_POSITIONS) + spare);
            replay(checker, &tables, apart.clone());
        }
    }
    let openings: Vec<u8> = (0..6).flat_map(|k| line(&named(Step::Open, &[[99, 5_000, 101, 1_501, 98, 4_000][k], 11 + k as i64, 0, 1, 2, 1]))).collect();
    for spare in [0, 8, 9, 40] {
        for count in [1_017, 1_018, 1_019, 1_024, 1_025] {
            let mut tables = many(20, 24, 4);
            tables.processes = vec![count];
            for k in 0..1_026 {
                tables.processes.extend([100 + 2 * k, 10, 0, 1, 2, 1, 0, 0, 12]);
            }
            tables.processes.truncate(processes_len(MOST_PROCESSES) + spare);
            replay(checker, &tables, openings.clone());
        }
    }
}

/// A text of more than 100,000 bytes that is refused at the last line but one, where the room ends; and the longest lines.
fn long_texts(checker: &mut Checker) {
    let trade = |k: i64| {
        let (id, quantity, price) = (100_000_001 + k * 617 % 4_096, 100_000 + k, -999_999_999_999 + k);
        Request::Trade { id, account: 9_999, series: 999_999, side: 1 + k % 4, quantity, price }
    };
    let text: Vec<u8> = (0..2_200).flat_map(|k| line(&trade(k))).collect();
    assert!(text.len() >= 100_000, "{} bytes", text.len());
    let tables = many(1_898, 4_100, 4);
    assert_eq!(replay(checker, &tables, text), refused(2_199, 14));

    let parts = Request::Separate { id: 999_999_999, suffix: 0, account: 1, series: 1, parts: vec![1_000; 1_000] };
    let pairs = (0..1_000).flat_map(|k| [999_999_999, 2 + k]).collect();
    let text = [
        line(&Request::Trade { id: 999_999_999, account: 1, series: 1, side: 2, quantity: 1_000_000, price: 7 }),
        line(&parts),
        line(&Request::Merge { id: 999_999_998, account: 1, series: 1, pairs }),
    ];
    assert_eq!(replay(checker, &many(3, 2_010, 4), text.concat()), Reply::Replayed { lines: 3 });
}
