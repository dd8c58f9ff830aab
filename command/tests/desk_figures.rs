//! Figures in the desk's words: prices exactly, whole numbers of 64 bits, and lists of any length.

mod common;

use common::talk::{answers, bad};
use common::{run, Folder};

const OUT_OF_RANGE: &str = "refused 3: a figure or a count is out of range";

/// The journal that a trade at that price leaves.
#[track_caller]
fn booked_at(price: &str, units: i64) {
    let folder = Folder::new();
    run(&folder, &["desk", "-j", "day.journal"], format!("trade 7 account 1 series 1 buy open 1 @ {price}\n")).prints("booked 1 row\n");
    assert_eq!(folder.read("day.journal"), format!("T\t7\t1\t1\t1\t1\t{units}\n"), "{price}");
}

#[test]
fn prices_are_booked_to_the_last_unit() {
    let prices = [("125.00", 1_250_000_000), ("125", 1_250_000_000), ("125.0", 1_250_000_000), ("125.0000001", 1_250_000_001), ("0", 0), ("0.5", 5_000_000)];
    let others = [("0.0000001", 1), ("-0.0000001", -1), ("-125.25", -1_252_500_000), ("99999.9999999", 999_999_999_999), ("100000", 1_000_000_000_000)];
    let odd = [("-100000.0000000", -1_000_000_000_000), ("000125.10", 1_251_000_000), ("0.1234567", 1_234_567), ("-0.9", -9_000_000)];
    for (price, units) in prices.into_iter().chain(others).chain(odd) {
        booked_at(price, units);
    }
}

#[test]
fn an_eighth_digit_is_bad() {
    let prices =
        ["125.00000001", "125.00000000", "0.12345678", "-0.00000001", "1.00000000000000000000", "1e3", "1,5", "x", "1.2.3", "--1", "1.5x", "0x10", "1_000"];
    for price in prices {
        bad(format!("trade 7 account 1 series 1 buy open 1 @ {price}"));
    }
}

#[test]
fn prices_out_of_range_are_refused_and_those_past_64_bits_bad() {
    let at = |price: &str| format!("trade 7 account 1 series 1 buy open 1 @ {price}");
    for price in ["100000.0000001", "-100000.0000001", "922337203685.4775807", "-922337203685.4775808"] {
        answers(&[(&at(price), OUT_OF_RANGE)]);
    }
    for price in ["922337203685.4775808", "-922337203685.4775809", "9223372036854775807", "99999999999999999999999999"] {
        bad(at(price));
    }
}

/// Lines of words, with X in the place of a figure.
const FIGURES: [&str; 19] = [
    "trade X account 1 series 1 buy open 1 @ 1",
    "trade 1 account X series 1 buy open 1 @ 1",
    "trade 1 account 1 series X buy open 1 @ 1",
    "trade 1 account 1 series 1 buy open X @ 1",
    "separate X/0 account 1 series 1 into 1 1",
    "separate 1/X account 1 series 1 into 1 1",
    "separate 1/0 account 1 series 1 into 1 X",
    "transfer 1/X account 1 to 2 series 1",
    "transfer 1/0 account X to 2 series 1",
    "transfer 1/0 account 1 to X series 1",
    "transfer 1/0 account 1 to 2 series X",
    "merge X account 1 series 1 from 1/0 2/0",
    "merge 9 account 1 series 1 from 1/0 X/0",
    "merge 9 account 1 series 1 from 1/X 2/0",
    "give-up X open 1/0 account 1 to 2 series 1",
    "give-up 7 claim X account 1 to 2 series 1",
    "give-up 7 cancel 1/0 account 1 to X series 1",
    "day X",
    "lineage X",
];

#[test]
fn whole_numbers_of_64_bits_are_handed_to_the_book() {
    for line in FIGURES {
        for figure in ["1000000000", "9223372036854775807", "-1", "-9223372036854775808", "0001000000000"] {
            answers(&[(&line.replace('X', figure), OUT_OF_RANGE)]);
        }
    }
}

#[test]
fn what_is_no_whole_number_of_64_bits_is_bad() {
    for line in FIGURES {
        for figure in ["9223372036854775808", "-9223372036854775809", "1.5", "one", "1e3", "0x1", "--1", "1,000", "99999999999999999999999"] {
            bad(line.replace('X', figure));
        }
    }
}

#[test]
fn zeros_before_a_figure_are_fine() {
    let folder = Folder::new();
    let input = "trade 007 account 01 series 001 buy open 0100 @ 0005.10\nseparate 07/00 account 1 series 1 into 050 0050\nday 018\n";
    run(&folder, &["desk", "-j", "day.journal"], input).prints("booked 1 row\nbooked 3 rows\nbooked 0 rows\n");
    assert_eq!(folder.read("day.journal"), "T\t7\t1\t1\t1\t100\t51000000\nS\t7\t0\t1\t1\t50\t50\nD\t18\n");
}

#[test]
fn a_thousand_parts_and_sources() {
    let trade = "trade 7 account 1 series 1 buy open 1000 @ 1";
    let separate = format!("separate 7 account 1 series 1 into{}", " 1".repeat(1_000));
    let sources: String = (2..=1_001).map(|suffix| format!(" 7/{suffix}")).collect();
    let merge = format!("merge 8 account 1 series 1 from{sources}");
    answers(&[(trade, "booked 1 row"), (&separate, "booked 1001 rows"), (&merge, "booked 1001 rows"), (&merge, "refused 4: the new id has a record")]);
    let more = separate + " 1";
    let more_sources = merge.clone() + " 7/1002";
    answers(&[(trade, "booked 1 row"), (&more, OUT_OF_RANGE), (&more_sources, OUT_OF_RANGE)]);
}

/// In the journal's form what is out of range is bad, as the book's reader says.
#[test]
fn a_thousand_parts_in_the_journals_form() {
    let trade = "T\t7\t1\t1\t1\t1000\t1";
    let separate = format!("S\t7\t0\t1\t1{}", "\t1".repeat(1_000));
    answers(&[(trade, "booked 1 row"), (&separate, "booked 1001 rows")]);
    bad(separate + "\t1");
    bad("S\t7\t0\t1\t1\t1");
}
