//! The desk's lines: which are passed over, which are bad and why, and which form they have.

mod common;

use common::talk::{answers, bad};
use common::{run, Folder};

#[test]
fn blank_lines_and_comments_are_passed_over() {
    let folder = Folder::new();
    run(&folder, &["desk"], "").prints("");
    run(&folder, &["desk"], "\n   \n# trade 1 account 1\n#\n\n#\tT\n").prints("");
    run(&folder, &["desk"], "\n# a day\nday 18\n\n# and another\nday 19\n  \n").prints("booked 0 rows\nbooked 0 rows\n");
}

#[test]
fn spaces_part_words() {
    answers(&[("trade  1   account 1 series 1    buy open 1  @ 1", "booked 1 row"), ("day    18", "booked 0 rows")]);
}

#[test]
fn the_journals_form_is_taken_as_it_is() {
    let folder = Folder::new();
    let journal = "T\t456789\t1\t1\t1\t100\t1250000000\nA\t456789\t0\t1\t2\t1\nS\t456789\t2\t2\t1\t50\t25\t25\nM\t500\t2\t1\t456789\t4\t456789\t5\n";
    let steps = "G\tO\t77\t500\t0\t2\t1\t1\nG\tC\t77\t500\t0\t2\t1\t1\nG\tG\t77\t500\t0\t2\t1\t1\nG\tT\t77\t500\t0\t2\t1\t1\nD\t18\n";
    let input = format!("{journal}{steps}");
    let answers = "booked 1 row\nbooked 2 rows\nbooked 4 rows\nbooked 3 rows\nbooked 0 rows\nbooked 0 rows\nbooked 0 rows\nbooked 2 rows\nbooked 0 rows\n";
    run(&folder, &["desk", "-j", "day.journal"], &input).prints(answers);
    assert_eq!(folder.read("day.journal"), input);
    let others = "T\t7\t1\t1\t2\t1\t-5\nG\tO\t78\t7\t0\t1\t2\t1\nG\tX\t78\t7\t0\t1\t2\t1\nG\tO\t79\t7\t0\t1\t2\t1\nG\tR\t79\t7\t0\t1\t2\t1\n";
    run(&folder, &["desk", "-j", "day.journal"], others).prints("booked 1 row\nbooked 0 rows\nbooked 0 rows\nbooked 0 rows\nbooked 0 rows\n");
    assert_eq!(folder.read("day.journal"), input + others);
}

#[test]
fn the_journals_form_is_refused_as_words_are() {
    answers(&[
        ("A\t456\t0\t1\t2\t1", "refused 5: no such record"),
        ("T\t8\t1\t1\t1\t1\t1", "booked 1 row"),
        ("M\t9\t1\t1\t8\t0\t8\t0", "refused 9 at source 1: this pair stood earlier in the list"),
        ("D\t5", "booked 0 rows"),
        ("D\t5", "refused 3: a figure or a count is out of range"),
    ]);
}

#[test]
fn reasons_in_the_journals_form() {
    assert_eq!(bad("T\t500001\t3\t1\t4\t60\t1260.5"), "field 7 (price): \"1260.5\" is no whole number");
    assert_eq!(bad("T\t500001\t0\t1\t4\t60\t1260"), "field 3 (account): 0 is not in 1 to 9,999");
    assert_eq!(bad("X\t500001\t0\t1\t4\t60\t1260"), "field 1 (request): \"X\" is none of T, S, A, M, G, D");
    assert_eq!(bad("t\t1\t1\t1\t1\t1\t1"), "field 1 (request): \"t\" is none of T, S, A, M, G, D");
    assert_eq!(bad("T\t5\t1\t1\t1\t1\t1\r"), "a carriage return");
    assert_eq!(bad("T\t0\t1\t1\t1\t1\t1"), "field 2 (id): 0 is not in 1 to 999,999,999");
    assert_eq!(bad("T\t5\t1\t0\t1\t1\t1"), "field 4 (series): 0 is not in 1 to 999,999");
    assert_eq!(bad("T\t5\t1\t1\t0\t1\t1"), "field 5 (side): 0 is not in 1 to 4");
    assert_eq!(bad("T\t5\t1\t1\t5\t1\t1"), "field 5 (side): 5 is not in 1 to 4");
    assert_eq!(bad("T\t5\t1\t1\t1\t0\t1"), "field 6 (quantity): 0 is not in 1 to 1,000,000");
    assert_eq!(bad("S\t5\t-1\t1\t1\t1\t1"), "field 3 (suffix): -1 is not in 0 to 65,535");
    assert_eq!(bad("D\t0"), "field 2 (day): 0 is not in 1 to 99,999");
    let price = bad("T\t5\t1\t1\t1\t1\t1000000000001");
    assert!(price.starts_with("field 7 (price): ") && price.ends_with(" is not in -1,000,000,000,000 to 1,000,000,000,000"), "{price}");
}

#[test]
fn figures_that_are_none() {
    for figure in ["07", "00", "+7", "-0", "7.0", "7 ", " 7", "x", "7x", "0x7", "1,000"] {
        let reason = bad(format!("T\t{figure}\t1\t1\t1\t1\t1"));
        assert!(reason.starts_with(&format!("field 2 (id): \"{figure}\" ")), "{reason}");
    }
    assert!(bad("T\t\t1\t1\t1\t1\t1").starts_with("field 2 (id): "));
}

#[test]
fn bad_lines_in_the_journals_form() {
    let counts = [
        "T\t1\t1\t1\t1\t1",
        "T\t1\t1\t1\t1\t1\t1\t1",
        "T\t",
        "A\t1\t0\t1\t2",
        "A\t1\t0\t1\t2\t1\t1",
        "D\t",
        "D\t1\t2",
        "G\tO\t7\t1\t0\t1\t2",
        "M\t9\t1\t1\t1\t0\t2",
    ];
    let others = ["A\t1\t0\t1\t1\t1", "G\tO\t7\t1\t0\t1\t1\t1", "G\tZ\t7\t1\t0\t1\t2\t1", "G\to\t7\t1\t0\t1\t2\t1", "G\tOO\t7\t1\t0\t1\t2\t1", "\tD\t1"];
    let odd = [
        "TT\t1\t1\t1\t1\t1\t1",
        " D\t1",
        "D \t1",
        "D\t1 ",
        "day\t18",
        "trade\t1\taccount 1 series 1 buy open 1 @ 1",
        "M\t9\t1\t1\t1\t0",
        "D\t99999999999999999999",
    ];
    for line in counts.into_iter().chain(others).chain(odd) {
        bad(line);
    }
}

#[test]
fn bad_words() {
    let trades =
        ["trade", "trade 1", "trade 1 account 1 series 1 buy open 1", "trade 1 account 1 series 1 buy open 1 @", "trade 1 account 1 series 1 buy hold 1 @ 1"];
    let swapped = ["trade 1 series 1 account 1 buy open 1 @ 1", "trade 1 account 1 series 1 open buy 1 @ 1", "trade 1 account 1 series 1 buy open 1 at 1"];
    let longer = [
        "trade 1 account 1 series 1 buy open 1 @ 1 1",
        "day 18 19",
        "day",
        "lineage",
        "lineage 1 2",
        "transfer 1 account 1 to 2",
        "transfer 1 account 1 series 1",
    ];
    let steps =
        ["give-up 7 approve 1 account 1 to 2 series 1", "give-up open 1 account 1 to 2 series 1", "give-up 7 1 account 1 to 2 series 1", "give-up 7 open"];
    let others = [
        "nosuch",
        "1",
        "@",
        "D 18",
        "T 1 1 1 1 1 1",
        "merge 9 account 1 series 1 1/0 2/0",
        "separate 1 account 1 series 1 50 50",
        "lineage 1/",
        "lineage /1",
        "lineage 1/0/0",
    ];
    for line in trades.into_iter().chain(swapped).chain(longer).chain(steps).chain(others) {
        bad(line);
    }
}

#[test]
fn a_bad_line_changes_nothing() {
    let folder = Folder::new();
    let input = "trade 1 account 1 series 1 buy open 1 @ 1.00000001\nnosuch\nT\t1\t0\t1\t1\t1\t1\ntrade 1 account 1 series 1 buy open 1 @ 1\n";
    let ran = run(&folder, &["desk", "-j", "day.journal"], input);
    assert_eq!((ran.status, ran.output.lines().last()), (1, Some("booked 1 row")));
    assert_eq!(ran.output.lines().filter(|answer| answer.starts_with("bad: ")).count(), 3);
    assert_eq!(folder.read("day.journal"), "T\t1\t1\t1\t1\t1\t10000000\n");
}

#[test]
fn bytes_that_are_not_printable_are_escaped() {
    assert_eq!(bad(b"T\t\x01\x80\x991\t1\t1\t1\t1\t1"), "field 2 (id): \"\\x01\\x80\\x991\" is no whole number");
    assert_eq!(bad(b"T\t\x00\t1\t1\t1\t1\t1"), "field 2 (id): \"\\x00\" is no whole number");
    assert_eq!(bad(b"T\ta\\b\"c\t1\t1\t1\t1\t1"), "field 2 (id): \"a\\\\b\\\"c\" is no whole number");
    assert_eq!(bad(b"\x7f\t1"), "field 1 (request): \"\\x7f\" is none of T, S, A, M, G, D");
    for line in [&b"day 18\r"[..], b"d\xffay 18", b"day \xc3\xa9", b"\x00", b"\x1b[31mtrade", b"day 1\x008", b"\xff\xfe\xfd", b"trade \x07 account 1"] {
        bad(line);
    }
}

#[test]
fn long_fields_are_cut_after_60_bytes() {
    for length in [60, 61, 100, 5_000] {
        let reason = bad(format!("T\t{}\t1\t1\t1\t1\t1", "z".repeat(length)));
        assert_eq!(reason.matches('z').count(), 60, "{reason}");
        assert_eq!(reason.contains(".."), length > 60, "{reason}");
    }
}

#[test]
fn a_line_longer_than_65536_bytes_is_bad() {
    let padded = |length: usize| format!("day{}18", " ".repeat(length - 5));
    answers(&[(&padded(65_536), "booked 0 rows"), ("day 19", "booked 0 rows")]);
    for length in [65_538, 131_072, 131_077, 3_000_000] {
        let ran = run(&Folder::new(), &["desk"], format!("day 17\n{}\nday 19\n", padded(length)));
        let given: Vec<&str> = ran.output.lines().collect();
        assert_eq!((ran.status, given.len(), given[0], given[2]), (1, 3, "booked 0 rows", "booked 0 rows"), "{length}: {given:?}");
        assert!(given[1].starts_with("bad: "), "{}", given[1]);
    }
    bad("9".repeat(70_000));
    bad(vec![0xff; 70_000]);
    bad(format!("S\t7\t0\t1\t1{}", "\t1".repeat(40_000)));
}
