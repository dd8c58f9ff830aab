//! A desk over pipes: each answer before the next line is read, no word beside the answers, its end and its status; and its answers by numbers.

mod common;

use common::talk::answers_with;
use common::{run, Desk, Folder, P11, P11_WORDS};

#[test]
fn each_answer_comes_before_the_next_line() {
    let folder = Folder::new();
    for words in [&["-j", "day.journal"][..], &[], &["--room", "99,9,9"]] {
        let mut desk = Desk::open(&folder, words);
        for (line, answer) in P11_WORDS {
            assert_eq!(desk.ask(line), answer);
        }
        assert_eq!(desk.ask("nosuch").split(' ').next(), Some("bad:"));
        assert_eq!(desk.ask("lineage 5"), "refused 5: no such record");
        desk.say("# nothing\n\n");
        assert_eq!(desk.ask("lineage 456789/2"), "original price 125.0000000, 1 link");
        assert_eq!(desk.end(), (1, vec![], String::new()));
    }
}

#[test]
fn each_answer_comes_before_the_next_line_by_numbers() {
    let mut desk = Desk::open(&Folder::new(), &["--tsv"]);
    assert_eq!(desk.ask("trade 1 account 1 series 1 buy open 100 @ 125.00"), "0\t1\t0\t0");
    assert_eq!(desk.ask("lineage 1/0"), "2\t1250000000\t0\t0");
    assert_eq!(desk.end(), (0, vec![], String::new()));
}

/// The journal has a request's line when its answer is read.
#[test]
fn what_is_answered_is_in_the_journal() {
    for sync in ["every", "never"] {
        let folder = Folder::new();
        let mut desk = Desk::open(&folder, &["-j", "day.journal", "--sync", sync]);
        let mut booked = String::new();
        for ((line, answer), journal) in P11_WORDS.iter().zip(P11.split_inclusive('\n')) {
            assert_eq!(desk.ask(line), *answer);
            booked += journal;
            assert_eq!(folder.read("day.journal"), booked);
        }
        assert_eq!(desk.end(), (0, vec![], String::new()));
    }
}

/// A line is answered when its newline has come, in whatever pieces it comes.
#[test]
fn a_line_in_pieces() {
    let mut desk = Desk::open(&Folder::new(), &[]);
    for piece in ["da", "y", " 1", "8\nday 1"] {
        desk.say(piece);
    }
    assert_eq!(desk.answer(), "booked 0 rows");
    desk.say("9\nday 20\nday 21\n");
    assert_eq!([desk.answer(), desk.answer(), desk.answer()], ["booked 0 rows", "booked 0 rows", "booked 0 rows"]);
    assert_eq!(desk.end(), (0, vec![], String::new()));
}

#[test]
fn the_last_line_may_lack_its_newline() {
    let folder = Folder::new();
    run(&folder, &["desk", "-j", "day.journal"], "day 18\nday 19").prints("booked 0 rows\nbooked 0 rows\n");
    run(&folder, &["desk", "-j", "day.journal"], "D\t20").prints("booked 0 rows\n");
    assert_eq!(folder.read("day.journal"), "D\t18\nD\t19\nD\t20\n");
    let ran = run(&folder, &["desk"], "day");
    assert!(ran.status == 1 && ran.output.starts_with("bad: ") && ran.output.ends_with('\n'), "{}", ran.output);
    run(&folder, &["desk"], "# day 18").prints("");
}

#[test]
fn quit_ends_the_desk() {
    let folder = Folder::new();
    run(&folder, &["desk"], "quit\n").prints("");
    run(&folder, &["desk", "-j", "day.journal"], "day 18\nquit\nday 19\nnosuch\n").prints("booked 0 rows\n");
    assert_eq!(folder.read("day.journal"), "D\t18\n");
    let mut desk = Desk::open(&folder, &["-j", "day.journal"]);
    assert_eq!(desk.ask("day 18"), "refused 3: a figure or a count is out of range");
    desk.say("quit\n");
    assert_eq!(desk.end(), (1, vec![], String::new()));
}

#[test]
fn a_file_of_requests() {
    let folder = Folder::new();
    folder.write("requests", P11_WORDS.map(|(line, _)| format!("{line}\n")).concat());
    let wanted = P11_WORDS.map(|(_, answer)| format!("{answer}\n")).concat();
    run(&folder, &["desk", "requests"], "day 18\n").prints(&wanted);
    run(&folder, &["desk", "-j", "day.journal", "requests"], "nosuch\n").prints(&wanted);
    assert_eq!(folder.read("day.journal"), P11);
    let ran = run(&folder, &["desk", "requests", "-j", "day.journal"], "");
    assert_eq!((ran.status, ran.errors.as_str()), (1, ""));
    assert_eq!(folder.read("day.journal"), P11);
}

#[test]
fn help_in_the_desk() {
    let ran = run(&Folder::new(), &["desk"], "help\n");
    for form in ["trade", "separate", "transfer", "merge", "give-up", "day", "lineage", "report", "show", "quit"] {
        assert!(ran.done().contains(form), "{form}: {}", ran.output);
    }
}

#[test]
fn answers_by_numbers() {
    answers_with(
        &["--tsv"],
        &[
            ("trade 456789 account 1 series 1 buy open 100 @ 125.00", "0\t1\t0\t0"),
            ("transfer 456789/0 account 1 to 2 series 1", "0\t2\t0\t0"),
            ("separate 456789/2 account 2 series 1 into 50 25 25", "0\t4\t0\t0"),
            ("lineage 456789/5", "2\t1250000000\t2\t0"),
            ("lineage 456789/7", "3\t5\t0\t0"),
            ("merge 8 account 2 series 1 from 456789/4 456789/4", "3\t9\t1\t0"),
            ("trade 3 account 1 series 1 buy close 30 @ 5", "1\t30\t0\t0"),
            ("trade 1 account 3 series 1 buy open 2 @ 1", "0\t1\t0\t0"),
            ("trade 2 account 3 series 1 buy open 1 @ 1.0000001", "0\t1\t0\t0"),
            ("merge 9 account 3 series 1 from 1 2", "0\t3\t-1\t0"),
            ("day 18", "0\t0\t0\t0"),
            ("D\t18", "3\t3\t0\t0"),
            ("T\t5\t0\t1\t1\t1\t1", "bad\tfield 3 (account): 0 is not in 1 to 9,999"),
            ("X\t5", "bad\tfield 1 (request): \"X\" is none of T, S, A, M, G, D"),
        ],
    );
}

/// A reason has no tab or newline of its own.
#[test]
fn bad_lines_by_numbers() {
    for line in [&b"nosuch"[..], b"T\ta\\b\t\t\t\t\t", b"D\t\x01\x07", b"D\t18\r", b"day \xff", b"trade 1 account"] {
        let ran = run(&Folder::new(), &["desk", "--tsv"], [line, b"\n"].concat());
        let words = run(&Folder::new(), &["desk"], [line, b"\n"].concat());
        assert_eq!(Some(ran.output), words.output.strip_prefix("bad: ").map(|reason| format!("bad\t{reason}")));
        assert_eq!((ran.status, words.output.matches('\t').count(), words.output.matches('\n').count()), (1, 0, 1));
    }
}

/// What the subcommand prints of the same book.
#[track_caller]
fn prints_as_the_subcommand(tsv: &[&str], line: &str, before: &str, words: &[&str]) {
    let folder = Folder::new();
    let journal = common::three_days(2);
    folder.write("day.journal", &journal);
    let wanted = run(&folder, words, "").done().to_string();
    assert!(!wanted.is_empty());
    let desk: Vec<&str> = ["desk", "-j", "day.journal"].iter().chain(tsv).copied().collect();
    run(&folder, &desk, format!("{line}\n")).prints(&format!("{before}{wanted}"));
    assert_eq!(folder.read("day.journal"), journal);
}

#[test]
fn show_and_report_in_the_desk() {
    prints_as_the_subcommand(&[], "report", "", &["report", "day.journal"]);
    prints_as_the_subcommand(&[], "show", "", &["show", "day.journal"]);
    for table in ["records", "positions", "processes"] {
        prints_as_the_subcommand(&[], &format!("show {table}"), "", &["show", "day.journal", table]);
        prints_as_the_subcommand(&["--tsv"], &format!("show {table}"), "", &["show", "day.journal", table, "--tsv"]);
        for form in ["--tsv", "--csv", "--json"] {
            prints_as_the_subcommand(&[], &format!("show {table} {form}"), "", &["show", "day.journal", table, form]);
        }
    }
    prints_as_the_subcommand(&["--tsv"], "report", "9\t5\t0\t0\n", &["report", "day.journal", "--tsv"]);
    prints_as_the_subcommand(&[], "show --id 123456", "", &["show", "day.journal", "--id", "123456"]);
    prints_as_the_subcommand(&[], "show records --account 3 --series 1", "", &["show", "day.journal", "records", "--account", "3", "--series", "1"]);
    prints_as_the_subcommand(&["--tsv"], "show processes --account 2", "", &["show", "day.journal", "processes", "--account", "2", "--tsv"]);
}

#[test]
fn bad_questions_in_the_desk() {
    for line in [
        "show trades",
        "show records --id 0",
        "show positions --id 5",
        "show --tsv",
        "show records --tsv --csv",
        "show --nosuch",
        "show records positions",
        "report 5",
    ] {
        common::talk::bad(line);
    }
    let ran = run(&Folder::new(), &["desk", "--tsv"], "show\n");
    assert!(ran.status == 1 && ran.output.starts_with("bad\t"), "{}", ran.output);
}
