//! `diff`: the cells in which two books differ, by key and field, the current day included.

mod common;

use common::generator::requests;
use common::{lines, run, three_days, Folder, P11};

fn books(one: &str, other: &str) -> Folder {
    let folder = Folder::new();
    folder.write("one", one);
    folder.write("other", other);
    folder
}

#[track_caller]
fn are_equal(one: &str, other: &str) {
    run(&books(one, other), &["diff", "one", "other"], "").prints("");
}

/// The lines in which they differ.
#[track_caller]
fn differences(one: &str, other: &str) -> Vec<String> {
    let ran = run(&books(one, other), &["diff", "one", "other"], "");
    assert_eq!((ran.status, ran.errors.as_str()), (1, ""));
    assert!(ran.output.ends_with('\n'));
    ran.output.lines().map(String::from).collect()
}

/// The numbers and words of a line.
fn words(line: &str) -> Vec<&str> {
    line.split(|c: char| !c.is_ascii_alphanumeric() && c != '-' && c != '.').filter(|word| !word.is_empty()).collect()
}

/// One line that has all of these words.
#[track_caller]
fn one_has(lines: &[String], wanted: &[&str]) {
    let those = lines.iter().filter(|line| wanted.iter().all(|word| words(line).contains(word)));
    assert_eq!(those.count(), 1, "{wanted:?} in {lines:#?}");
}

#[test]
fn equal_books() {
    are_equal("", "");
    are_equal(P11, P11);
    are_equal(&three_days(3), &three_days(3));
    let day: String = requests(5, 3_000).into_iter().filter(|one| one.booked).map(|one| one.line).collect();
    are_equal(&day, &day);
}

/// Requests that don't touch may stand in either order.
#[test]
fn equal_books_by_different_journals() {
    are_equal(&lines(&["T 1 1 1 1 10 5", "T 2 2 1 1 20 5", "S 2 0 2 1 5 15"]), &lines(&["T 2 2 1 1 20 5", "T 1 1 1 1 10 5", "S 2 0 2 1 5 15"]));
    are_equal(&lines(&["D 1", "D 5"]), &lines(&["D 5"]));
}

/// Another quantity: of the record its quantity and what it booked, of the position three figures.
#[test]
fn cells_differ() {
    let found = differences("T\t5\t1\t2\t1\t100\t7\n", "T\t5\t1\t2\t1\t200\t7\n");
    assert_eq!(found.len(), 5, "{found:#?}");
    one_has(&found, &["5", "0", "quantity", "100", "200"]);
    one_has(&found, &["5", "0", "long", "100", "200"]);
    one_has(&found, &["1", "2", "long", "100", "200"]);
    one_has(&found, &["1", "2", "quantity", "100", "200"]);
    assert_eq!(found.iter().filter(|line| words(line).contains(&"value")).count(), 1, "{found:#?}");
}

#[test]
fn a_cell_of_a_process_differs() {
    let opened = ["T 5 1 2 1 100 7", "G O 77 5 0 1 3 2"];
    let claimed = ["T 5 1 2 1 100 7", "G O 77 5 0 1 3 2", "G C 77 5 0 1 3 2"];
    let found = differences(&lines(&opened), &lines(&claimed));
    assert_eq!(found.len(), 1, "{found:#?}");
    one_has(&found, &["77", "stage"]);
    let approved = ["T 5 1 2 1 100 7", "G O 77 5 0 1 3 2", "G G 77 5 0 1 3 2"];
    let found = differences(&lines(&opened), &lines(&approved));
    assert_eq!(found.len(), 1, "{found:#?}");
    one_has(&found, &["77", "giver"]);
}

#[test]
fn the_day_differs() {
    let found = differences("D\t17\n", "D\t18\n");
    assert_eq!(found.len(), 1, "{found:#?}");
    one_has(&found, &["day", "17", "18"]);
    let found = differences(&(P11.to_string() + "D\t17\n"), P11);
    assert_eq!(found.len(), 1, "{found:#?}");
    one_has(&found, &["day", "17", "0"]);
}

/// Of a record whose day of booking differs, and the current day.
#[test]
fn the_day_of_booking_differs() {
    let found = differences("D\t17\nT\t5\t1\t2\t1\t100\t7\nD\t20\n", "D\t18\nT\t5\t1\t2\t1\t100\t7\nD\t20\n");
    assert_eq!(found.len(), 1, "{found:#?}");
    one_has(&found, &["5", "0", "day", "17", "18"]);
}

/// A row that one book lacks, whichever it is, and no other.
#[test]
fn rows_differ() {
    let (one, both) = ("T\t5\t1\t2\t1\t100\t7\n", "T\t5\t1\t2\t1\t100\t7\nT\t678\t91\t33\t1\t100\t7\n");
    for found in [differences(one, both), differences(both, one)] {
        let record = |line: &String| ["678", "0"].iter().all(|word| words(line).contains(word));
        let position = |line: &String| ["91", "33"].iter().all(|word| words(line).contains(word));
        assert!(found.iter().any(record) && found.iter().any(position), "{found:#?}");
        assert!(found.iter().all(|line| record(line) || position(line)), "{found:#?}");
    }
    assert_ne!(differences(one, both), differences(both, one));
}

#[test]
fn a_row_of_a_process_differs() {
    let found = differences(&lines(&["T 5 1 2 1 100 7", "G O 77 5 0 1 3 2", "G X 77 5 0 1 3 2"]), "T\t5\t1\t2\t1\t100\t7\n");
    assert!(found.iter().all(|line| words(line).contains(&"77")), "{found:#?}");
}

#[test]
fn many_cells_differ() {
    let found = differences(&three_days(3), &three_days(2));
    one_has(&found, &["day", "19", "18"]);
    assert!((21..=26).all(|suffix| found.iter().any(|line| ["123456", &suffix.to_string()].iter().all(|word| words(line).contains(word)))), "{found:#?}");
    one_has(&found, &["123456", "16", "status"]);
}
