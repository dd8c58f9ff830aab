//! The desk's journal: what is appended and what is not, journals that are resumed, and journals with a line that is bad or refused.

mod common;

use common::generator::requests;
use common::{line, lines, run, Folder, Ran, P11, P11_WORDS};

#[test]
fn what_was_accepted_and_changed_a_table_is_appended() {
    let folder = Folder::new();
    let input = [
        "# a morning",
        "trade 456789 account 1 series 1 buy open 100 @ 125.00",
        "lineage 456789",
        "trade 456789 account 1 series 1 buy open 100 @ 125.00",
        "nosuch",
        "",
        "T\t8\t0\t1\t1\t1\t1",
        "give-up 77 open 456789 account 1 to 2 series 1",
        "show positions",
        "give-up 77 cancel 456789 account 1 to 2 series 1",
        "report",
        "trade 9 account 1 series 1 sell close 150 @ -0.0000005",
        "merge 10 account 1 series 1 from 456789 456789",
        "day 18",
        "day 18",
        "help",
    ];
    let ran = run(&folder, &["desk", "-j", "day.journal"], input.join("\n") + "\n");
    assert_eq!((ran.status, ran.errors.as_str()), (1, ""));
    let booked = ["T 456789 1 1 1 100 1250000000", "G O 77 456789 0 1 2 1", "G X 77 456789 0 1 2 1", "T 9 1 1 4 150 -5", "D 18"];
    assert_eq!(folder.read("day.journal"), lines(&booked));
}

#[test]
fn every_request_has_its_line() {
    let folder = Folder::new();
    let words = [
        ("trade 1 account 1 series 1 buy open 10 @ 1", "T 1 1 1 1 10 10000000"),
        ("trade 2 account 1 series 1 sell open 20 @ 2", "T 2 1 1 2 20 20000000"),
        ("trade 3 account 1 series 1 buy close 3 @ 3", "T 3 1 1 3 3 30000000"),
        ("trade 4 account 1 series 1 sell close 4 @ 4", "T 4 1 1 4 4 40000000"),
        ("trade 5 account 1 series 1 buy open 5 @ 5.5", "T 5 1 1 1 5 55000000"),
        ("separate 1 account 1 series 1 into 4 6", "S 1 0 1 1 4 6"),
        ("merge 9 account 1 series 1 from 1/2 1/3", "M 9 1 1 1 2 1 3"),
        ("transfer 5 account 1 to 2 series 1", "A 5 0 1 2 1"),
        ("give-up 70 open 2 account 1 to 2 series 1", "G O 70 2 0 1 2 1"),
        ("give-up 70 cancel 2 account 1 to 2 series 1", "G X 70 2 0 1 2 1"),
        ("give-up 71 open 2 account 1 to 2 series 1", "G O 71 2 0 1 2 1"),
        ("give-up 71 refuse 2 account 1 to 2 series 1", "G R 71 2 0 1 2 1"),
        ("give-up 72 open 5/2 account 2 to 3 series 1", "G O 72 5 2 2 3 1"),
        ("give-up 72 claim 5/2 account 2 to 3 series 1", "G C 72 5 2 2 3 1"),
        ("give-up 72 approve-giver 5/2 account 2 to 3 series 1", "G G 72 5 2 2 3 1"),
        ("give-up 72 approve-taker 5/2 account 2 to 3 series 1", "G T 72 5 2 2 3 1"),
        ("day 99999", "D 99999"),
    ];
    let input: String = words.iter().map(|(words, _)| format!("{words}\n")).collect();
    let ran = run(&folder, &["desk", "-j", "day.journal", "--sync", "never"], input);
    assert!(ran.done().lines().all(|answer| answer.starts_with("booked ")), "{}", ran.output);
    assert_eq!(folder.read("day.journal"), words.map(|(_, fields)| line(fields)).concat());
}

#[test]
fn a_missing_journal_is_created() {
    let folder = Folder::new();
    run(&folder, &["desk", "-j", "day.journal"], "").prints("");
    assert_eq!(folder.read("day.journal"), "");
    let ran = run(&folder, &["desk", "-j", "refused.journal"], "lineage 5\n");
    assert_eq!((ran.status, ran.output.as_str()), (1, "refused 5: no such record\n"));
    assert_eq!(folder.read("refused.journal"), "");
    assert_eq!(folder.names(), ["day.journal", "refused.journal"]);
}

#[test]
fn a_journal_is_resumed() {
    let folder = Folder::new();
    let mut booked = String::new();
    for ((words, answer), journal) in P11_WORDS.iter().zip(P11.split_inclusive('\n')) {
        run(&folder, &["desk", "-j", "day.journal"], format!("{words}\n")).prints(&format!("{answer}\n"));
        booked += journal;
        assert_eq!(folder.read("day.journal"), booked);
    }
    let again = run(&folder, &["desk", "-j", "day.journal"], "trade 456789 account 1 series 1 buy open 100 @ 125.00\nlineage 456789/6\nday 18\n");
    assert_eq!((again.status, again.errors.as_str()), (1, ""));
    assert_eq!(again.output, "refused 4: the new id has a record\noriginal price 125.0000000, 2 links\nbooked 0 rows\n");
    assert_eq!(folder.read("day.journal"), booked + "D\t18\n");
}

/// A whole book, entered in pieces by as many desks.
#[test]
fn a_long_day_is_resumed() {
    let folder = Folder::new();
    let day = requests(3, 3_000);
    for piece in day.chunks(250) {
        let input: String = piece.iter().map(|one| format!("{}\n", one.words)).collect();
        let ran = run(&folder, &["desk", "-j", "day.journal", "--sync", "never"], input);
        let wanted: String = piece.iter().map(|one| format!("{}\n", one.answer)).collect();
        assert_eq!((ran.output, ran.errors), (wanted, String::new()));
    }
    let accepted: Vec<&str> = day.iter().filter(|one| one.booked).map(|one| one.line.as_str()).collect();
    assert_eq!(folder.read("day.journal"), accepted.concat());
    run(&folder, &["replay", "day.journal"], "").prints(&format!("{} lines booked\n", accepted.len()));
}

#[test]
fn replay_counts_lines() {
    let folder = Folder::new();
    for (journal, said) in [("", "0 lines booked\n"), ("D\t1\n", "1 line booked\n"), ("D\t1\nD\t2\n", "2 lines booked\n"), (P11, "3 lines booked\n")] {
        folder.write("day.journal", journal);
        run(&folder, &["replay", "day.journal"], "").prints(said);
        run(&folder, &["replay", "-"], journal).prints(said);
    }
}

/// A journal, the number of its first line that is not booked, and what is said of that line.
const STOPPED: [(&str, &str); 14] = [
    ("T\t456\t1\t1\t1\t1\t1\nA\t456\t9\t1\t2\t1\nX\n", "2: refused 5 (no such record): A 456 9 1 2 1"),
    ("A\t456\t0\t1\t2\t1\n", "1: refused 5 (no such record): A 456 0 1 2 1"),
    ("T\t7\t1\t1\t1\t1\t1\nM\t8\t1\t1\t7\t0\t7\t0\n", "2: refused 9 at source 1 (this pair stood earlier in the list): M 8 1 1 7 0 7 0"),
    ("T\t7\t1\t1\t1\t1\t1\nM\t8\t1\t1\t9\t0\t7\t0\n", "2: refused 5 at source 0 (no such record): M 8 1 1 9 0 7 0"),
    ("D\t5\nD\t5\n", "2: refused 3 (a figure or a count is out of range): D 5"),
    ("T\t7\t1\t1\t1\t1\t-1\nT\t7\t1\t1\t1\t1\t-1\n", "2: refused 4 (the new id has a record): T 7 1 1 1 1 -1"),
    ("G\tC\t77\t7\t0\t1\t2\t1\n", "1: refused 18 (the process is taken, unknown or not at this step): G C 77 7 0 1 2 1"),
    ("D\t1\nD\t2\nD\t3\nD\t4\nD\t5\nD\t6\nT\t500001\t3\t1\t4\t60\t1260.5\n", "7: bad: field 7 (price): \"1260.5\" is no whole number"),
    ("D\t1\nT\t500001\t0\t1\t4\t60\t1260\n", "2: bad: field 3 (account): 0 is not in 1 to 9,999"),
    ("D\t1\r\nD\t2\r\n", "1: bad: a carriage return"),
    ("D\t1\n\nD\t2\n", "2: bad: an empty line"),
    ("\n", "1: bad: an empty line"),
    ("X\t1\n", "1: bad: field 1 (request): \"X\" is none of T, S, A, M, G, D"),
    ("D\t1\nD\t\\\"\n", "2: bad: field 2 (day): \"\\\\\\\"\" is no whole number"),
];

/// What each subcommand but desk says of a journal, as a file and as its input.
fn readers(folder: &Folder, name: &str) -> Vec<Ran> {
    let words =
        ["replay J", "show J", "show J records --json", "show J positions --tsv", "report J", "report J --csv", "tree J 7", "diff J empty", "diff empty J"];
    let of = |words: &str| run(folder, &words.replace('J', name).split(' ').collect::<Vec<_>>(), folder.bytes("day.journal"));
    words.iter().map(|words| of(words)).collect()
}

#[test]
fn the_line_that_is_bad_or_refused_is_named() {
    let folder = Folder::new();
    folder.write("empty", "");
    for (journal, said) in STOPPED {
        folder.write("day.journal", journal);
        for name in ["day.journal", "-"] {
            for ran in readers(&folder, name) {
                assert_eq!(ran.fails(1), format!("{name}:{said}"), "{}", ran.words);
            }
        }
        let ran = run(&folder, &["desk", "-j", "day.journal"], "day 18\n");
        assert_eq!(ran.fails(1), format!("day.journal:{said}"));
        assert_eq!(folder.read("day.journal"), journal);
    }
}

/// Nothing but a good line is one, and whatever the bytes are, what is said of them is printable.
#[test]
fn other_lines_are_bad() {
    let folder = Folder::new();
    folder.write("empty", "");
    let journals: [&[u8]; 12] = [
        b"# a day\n",
        b"day 18\n",
        b"D 18\n",
        b"D\t018\n",
        b"D\t18 \n",
        b"d\t18\n",
        b"\xff\xfe\n",
        b"\x00\n",
        b"D\t\x1b[2J\n",
        b"D\t18\t\n",
        b"A\t7\t0\t1\t1\t1\n",
        b"T\t7\n",
    ];
    for journal in journals {
        folder.write("day.journal", [b"D\t1\n", journal].concat());
        let ran = run(&folder, &["desk", "-j", "day.journal", "--cut-torn-line"], "day 18\n");
        for ran in readers(&folder, "day.journal").into_iter().chain([ran]) {
            let said = ran.fails(1);
            assert!(said.starts_with("day.journal:2: bad: ") && said.bytes().all(|byte| (32..127).contains(&byte)), "{said:?}");
        }
    }
}

#[test]
fn a_journal_that_lacks_its_last_newline_is_bad() {
    let folder = Folder::new();
    folder.write("empty", "");
    for (journal, place) in [("D\t1\nD\t2", 2), ("D", 1), ("D\t1\nT\t5\t1", 2), ("D\t1\nD\t2\nX", 3)] {
        folder.write("day.journal", journal);
        for name in ["day.journal", "-"] {
            for ran in readers(&folder, name) {
                assert_eq!(ran.fails(1), format!("{name}:{place}: bad: no newline at the end"), "{}", ran.words);
            }
        }
    }
}

#[test]
fn a_smaller_room_refuses_a_line() {
    let folder = Folder::new();
    folder.write("day.journal", P11);
    let full = "refused 14 (no room for the records or the text)";
    let said = |ran: &Ran| ran.fails(1).to_string();
    assert_eq!(said(&run(&folder, &["replay", "day.journal", "--room", "6,2,0"], "")), format!("day.journal:3: {full}: S 456789 2 2 1 50 25 25"));
    assert_eq!(said(&run(&folder, &["replay", "day.journal", "--room", "0,0,0"], "")), format!("day.journal:1: {full}: T 456789 1 1 1 100 1250000000"));
    let ran = run(&folder, &["replay", "day.journal", "--room", "7,1,0"], "");
    assert_eq!(said(&ran), "day.journal:2: refused 15 (no room for the new positions): A 456789 0 1 2 1");
    let ran = run(&folder, &["desk", "-j", "day.journal", "--room", "2,2,2"], "day 18\n");
    assert_eq!(said(&ran), format!("day.journal:2: {full}: A 456789 0 1 2 1"));
    assert_eq!(folder.read("day.journal"), P11);
}

/// The input as a journal.
#[test]
fn a_journal_from_the_input() {
    let folder = Folder::new();
    folder.write("day.journal", P11);
    let forms = ["show J", "show J records", "show J positions --json", "report J --tsv", "report J", "tree J 456789"];
    for words in forms {
        let of = |name: &str| words.replace('J', name);
        let wanted = run(&folder, &of("day.journal").split(' ').collect::<Vec<_>>(), "").done().to_string();
        assert!(!wanted.is_empty(), "{words}");
        run(&folder, &of("-").split(' ').collect::<Vec<_>>(), P11).prints(&wanted);
    }
    run(&folder, &["diff", "-", "day.journal"], P11).prints("");
    run(&folder, &["diff", "day.journal", "-"], P11).prints("");
    let differs = run(&folder, &["diff", "day.journal", "-"], "");
    assert_eq!((differs.status, differs.errors.as_str()), (1, ""));
    assert!(!differs.output.is_empty());
}
