//! `report`: the end-of-day list of the day that the journal ends in.

mod common;

use common::tables::{names, rows, Rows};
use common::{lines, run, three_days, Folder, P11};

const FORMS: [&str; 3] = ["--tsv", "--csv", "--json"];

/// The suffixes that are listed of 002's transaction at the end of each day.
const LISTED: [&[i64]; 3] = [&[2, 7, 9, 13], &[14, 15, 16, 17, 20], &[21, 22, 23, 24, 25, 26]];

fn book(journal: &str) -> Folder {
    let folder = Folder::new();
    folder.write("day.journal", journal);
    folder
}

/// The report in that form.
fn report(folder: &Folder, form: &str) -> Rows {
    rows(form, run(folder, &["report", "day.journal", form], "").done(), names("records"))
}

/// The records of 002's three days, each whole and just these.
#[test]
fn three_days_of_002() {
    for (day, listed) in (1..).zip(LISTED) {
        let folder = book(&three_days(day));
        let records = rows("--tsv", run(&folder, &["show", "day.journal", "records", "--tsv"], "").done(), names("records"));
        let wanted: Rows = records.into_iter().filter(|row| listed.contains(&row[1])).collect();
        assert_eq!(wanted.iter().map(|row| row[1]).collect::<Vec<_>>(), listed);
        for form in FORMS {
            assert_eq!(report(&folder, form), wanted, "day {day} {form}");
        }
    }
}

#[test]
fn three_days_of_002_for_people() {
    for (day, listed) in (1..).zip(LISTED) {
        let ran = run(&book(&three_days(day)), &["report", "day.journal"], "");
        let rows: Vec<&str> = ran.done().lines().filter(|line| line.trim_start().starts_with("123456 ")).collect();
        let suffixes: Vec<i64> = rows.iter().map(|line| line.split_whitespace().nth(1).unwrap().parse().unwrap()).collect();
        assert_eq!(suffixes, listed, "{}", ran.output);
        assert!(rows.iter().all(|line| line.contains(" 125.0000000 ")), "{}", ran.output);
        let heading = ran.output.lines().find(|line| line.contains("suffix")).unwrap();
        assert_eq!(heading.split_whitespace().collect::<Vec<_>>(), names("records"));
    }
}

/// Day 18's cells by themselves: an inverse of an earlier day's record, three parts, and what was taken up.
#[test]
fn the_cells_of_a_report() {
    let row = |suffix, parent, kind, status, account, quantity, long| {
        vec![123_456, suffix, parent, kind, status, account, 1, 1, quantity, 1_250_000_000, long, 0, 0, 18]
    };
    let wanted = [row(14, 2, 6, 2, 1, -40, 0), row(15, 2, 6, 0, 1, 10, 0), row(16, 2, 6, 0, 1, 10, 0), row(17, 2, 6, 0, 1, 12, 0), row(20, 18, 30, 0, 2, 8, 8)];
    for form in FORMS {
        assert_eq!(report(&book(&three_days(2)), form), wanted);
    }
}

#[test]
fn days_with_nothing_to_report() {
    for journal in ["", "D\t5\n", &format!("{P11}D\t5\n"), &(three_days(3) + "D\t20\n")] {
        let folder = book(journal);
        for form in FORMS {
            assert_eq!(report(&folder, form), Rows::new());
        }
        assert!(!run(&folder, &["report", "day.journal"], "").done().contains("123456"));
    }
}

/// A record under give-up is reported, one that was adjusted is not.
#[test]
fn a_day_without_a_number() {
    let folder = book(&(P11.to_string() + &lines(&["G O 77 456789 4 2 3 1"])));
    let listed: Vec<(i64, i64)> = report(&folder, "--tsv").iter().map(|row| (row[1], row[4])).collect();
    assert_eq!(listed, [(4, 3), (5, 0), (6, 0)]);
}
