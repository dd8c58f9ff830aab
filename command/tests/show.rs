//! `show`: whole cells under the page's names, tables for people, and filters.

mod common;

use common::tables::{decimal, names, rows, stage_in_words, status_in_words, type_in_words, Rows};
use common::{example, lines, run, Folder, P11};

const TABLES: [&str; 3] = ["records", "positions", "processes"];
const FORMS: [&str; 3] = ["--tsv", "--csv", "--json"];

/// The lines of a table for people, the heading first.
fn table(folder: &Folder, words: &[&str]) -> Vec<String> {
    let ran = run(folder, &[&["show", "day.journal"], words].concat(), "");
    assert!(ran.done().ends_with('\n'));
    ran.output.lines().map(String::from).collect()
}

#[test]
fn whole_cells_in_every_form() {
    let folder = example::folder();
    for name in TABLES {
        let wanted = example::rows(name);
        assert!(wanted.len() >= 3, "{name}");
        for form in FORMS {
            let ran = run(&folder, &["show", "day.journal", name, form], "");
            assert_eq!(rows(form, ran.done(), names(name)), wanted, "{name} {form}");
        }
    }
}

#[test]
fn an_empty_book_in_every_form() {
    let folder = Folder::new();
    folder.write("day.journal", "D\t5\n");
    for name in TABLES {
        for form in FORMS {
            let ran = run(&folder, &["show", "day.journal", name, form], "");
            assert_eq!(rows(form, ran.done(), names(name)), Rows::new(), "{name} {form}");
        }
        assert_eq!(table(&folder, &[name]).len(), 1, "{name}");
    }
}

#[test]
fn the_greatest_figures_are_whole() {
    let folder = Folder::new();
    let trades: Vec<String> = (1..=4).map(|id| format!("T {} 9999 999999 2 1000000 1000000000000", 999_999_995 + id)).collect();
    folder.write("day.journal", lines(&trades.iter().map(String::as_str).collect::<Vec<_>>()));
    for form in FORMS {
        let ran = run(&folder, &["show", "day.journal", "positions", form], "");
        assert_eq!(rows(form, ran.done(), names("positions")), [[9_999, 999_999, 0, 4_000_000, 0, -4_000_000, -4_000_000_000_000_000_000]]);
        let ran = run(&folder, &["show", "day.journal", "records", form], "");
        let last = [999_999_999, 0, 0, 0, 0, 9_999, 999_999, 2, 1_000_000, 1_000_000_000_000, 0, 1_000_000, 0, 0];
        assert_eq!(rows(form, ran.done(), names("records")).last().unwrap(), &last);
    }
}

#[test]
fn headings_have_the_names() {
    let folder = example::folder();
    for name in TABLES {
        let heading = &table(&folder, &[name])[0];
        assert_eq!(heading.split_whitespace().collect::<Vec<_>>(), names(name));
    }
}

#[test]
fn records_for_people() {
    let folder = example::folder();
    let printed = table(&folder, &["records"]);
    let wanted = example::rows("records");
    assert_eq!(printed.len(), 1 + wanted.len());
    for (line, row) in printed[1..].iter().zip(&wanted) {
        let words: Vec<&str> = line.split_whitespace().collect();
        let first: Vec<String> = row[..3].iter().map(i64::to_string).collect();
        assert_eq!(words[..3], first);
        for shown in [type_in_words(row[3]), status_in_words(row[4]), &decimal(row[9]), &row[8].to_string()] {
            assert!(line.contains(&format!(" {shown} ")), "no {shown}: {line}");
        }
        let last: Vec<String> = row[10..].iter().map(i64::to_string).collect();
        assert_eq!(words[words.len() - 4..], last);
    }
}

#[test]
fn processes_for_people() {
    let folder = Folder::new();
    let steps = ["G O 70 1 0 1 2 1", "G O 71 2 0 1 2 1", "G C 71 2 0 1 2 1", "G O 72 3 0 1 2 1", "G R 72 3 0 1 2 1", "G O 73 3 0 1 2 1", "G X 73 3 0 1 2 1"];
    let done = ["G O 74 3 0 1 2 1", "G G 74 3 0 1 2 1", "G C 74 3 0 1 2 1", "G T 74 3 0 1 2 1"];
    let trades = ["T 1 1 1 1 10 1", "T 2 1 1 1 10 1", "T 3 1 1 1 10 1"];
    folder.write("day.journal", lines(&[&trades[..], &steps, &done].concat()));
    let printed = table(&folder, &["processes"]);
    let wanted = [("70 1 0 1 2 1", 6), ("71 2 0 1 2 1", 9), ("72 3 0 1 2 1", 10), ("73 3 0 1 2 1", 12), ("74 3 0 1 2 1", 0)];
    assert_eq!(printed.len(), 1 + wanted.len());
    for (line, (figures, stage)) in printed[1..].iter().zip(wanted) {
        let words: Vec<&str> = line.split_whitespace().collect();
        assert_eq!((words[..6].join(" ").as_str(), words[words.len() - 1]), (figures, stage_in_words(stage)));
    }
}

/// The column after the last byte of a line's word at that place.
fn end_of_word(line: &str, place: usize) -> usize {
    let word = line.split_whitespace().nth(place).unwrap();
    word.as_ptr() as usize - line.as_ptr() as usize + word.len()
}

/// Ids of one to nine digits, and prices of all lengths, stand right under one another.
#[test]
fn numbers_stand_right() {
    let folder = Folder::new();
    folder
        .write("day.journal", lines(&["T 5 1 1 1 1 1", "T 77 22 1 1 1000000 -1000000000000", "T 123456789 9999 999999 1 20 1250000000", "T 900 1 333 1 3 -5"]));
    let printed = table(&folder, &["records"]);
    let price_end = |line: &str| {
        let place = line.split_whitespace().position(|word| word.contains('.') || word == "price").unwrap();
        end_of_word(line, place)
    };
    let (id, suffix, price) = (end_of_word(&printed[0], 0), end_of_word(&printed[0], 1), price_end(&printed[0]));
    for line in &printed {
        assert_eq!((end_of_word(line, 0), end_of_word(line, 1), price_end(line)), (id, suffix, price), "{line}");
    }
    let positions = table(&folder, &["positions"]);
    assert_eq!(positions.len(), 5);
    for place in 0..7 {
        let ends: Vec<usize> = positions.iter().map(|line| end_of_word(line, place)).collect();
        assert!(ends.iter().all(|end| *end == ends[0]), "{place}: {ends:?}");
    }
}

/// Without a table's name: each of the three under its title.
#[test]
fn all_three_tables() {
    let folder = example::folder();
    let all = run(&folder, &["show", "day.journal"], "").done().to_string();
    let mut rest = all.as_str();
    for name in TABLES {
        let printed = run(&folder, &["show", "day.journal", name], "").done().to_string();
        let place = rest.find(&printed).unwrap_or_else(|| panic!("no {name} in {rest}"));
        let title = rest[..place].lines().last().unwrap_or("");
        assert!(title.to_lowercase().starts_with(name), "{title} above the {name}");
        rest = &rest[place + printed.len()..];
    }
    assert_eq!(rest.trim(), "");
}

/// The rows that are left of a table where each of these cells is one of the figures.
fn filtered(name: &str, cells: &[(&[&str], i64)]) -> Rows {
    let place = |cell: &str| names(name).iter().position(|there| *there == cell).unwrap();
    let keeps = |row: &Vec<i64>| cells.iter().all(|(any, figure)| any.iter().any(|cell| row[place(cell)] == *figure));
    example::rows(name).into_iter().filter(keeps).collect()
}

#[track_caller]
fn shows(folder: &Folder, words: &str, wanted: Rows) {
    let words: Vec<&str> = words.split(' ').collect();
    for form in FORMS {
        let ran = run(folder, &[&["show", "day.journal"], &words[..], &[form]].concat(), "");
        assert_eq!(rows(form, ran.done(), names(words[0])), wanted, "{words:?} {form}");
    }
    assert_eq!(table(folder, &words).len(), 1 + wanted.len());
}

#[test]
fn filters() {
    let folder = example::folder();
    shows(&folder, "records --id 456789", filtered("records", &[(&["id"], 456_789)]));
    shows(&folder, "records --account 3", filtered("records", &[(&["account"], 3)]));
    shows(&folder, "records --series 2", filtered("records", &[(&["series"], 2)]));
    shows(&folder, "records --id 456789 --account 2", filtered("records", &[(&["id"], 456_789), (&["account"], 2)]));
    shows(&folder, "records --series 1 --id 600000 --account 1", filtered("records", &[(&["id"], 600_000), (&["account"], 1), (&["series"], 1)]));
    shows(&folder, "records --id 999999999", Rows::new());
    shows(&folder, "positions --account 3", filtered("positions", &[(&["account"], 3)]));
    shows(&folder, "positions --series 2", filtered("positions", &[(&["series"], 2)]));
    shows(&folder, "positions --series 1 --account 3", filtered("positions", &[(&["account"], 3), (&["series"], 1)]));
    shows(&folder, "positions --account 9999", Rows::new());
    shows(&folder, "processes --id 456789", filtered("processes", &[(&["id"], 456_789)]));
    shows(&folder, "processes --id 9001", Rows::new());
    shows(&folder, "processes --series 999999", Rows::new());
    for account in 1..=5 {
        shows(&folder, &format!("processes --account {account}"), filtered("processes", &[(&["giving", "taking"], account)]));
    }
    shows(&folder, "processes --account 5 --id 456789 --series 1", filtered("processes", &[(&["giving", "taking"], 5), (&["id"], 456_789)]));
}

/// With all three tables `--id` leaves the positions empty, since they have none.
#[test]
fn filters_of_all_three_tables() {
    let folder = example::folder();
    let has = |filter: &[&str], table: &[&str]| {
        let all = run(&folder, &[&["show", "day.journal"], filter].concat(), "");
        let part = run(&folder, &[&["show", "day.journal"], table].concat(), "");
        assert!(all.done().contains(part.done()), "{}\nin\n{}", part.output, all.output);
        all.output
    };
    let by_id = has(&["--id", "600000"], &["records", "--id", "600000"]);
    assert!(by_id.contains("\n  9000") || by_id.contains("\n   9000"), "{by_id}");
    assert!(!has(&["--id", "600000"], &["positions", "--account", "9999"]).contains("25000000000"));
    has(&["--id", "600000"], &["processes", "--id", "600000"]);
    for table in TABLES {
        has(&["--account", "2", "--series", "1"], &[table, "--account", "2", "--series", "1"]);
    }
}

/// The journal is only read.
#[test]
fn the_journal_stays() {
    let folder = Folder::new();
    folder.write("day.journal", P11);
    table(&folder, &["records"]);
    assert_eq!((folder.read("day.journal").as_str(), folder.names()), (P11, vec!["day.journal".to_string()]));
}
