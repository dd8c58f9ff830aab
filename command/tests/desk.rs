//! The desk's words: each form, and its answer word for word.

mod common;

use common::generator::requests;
use common::talk::{answers, answers_with};
use common::{run, Folder, P11_WORDS};

const BOOKED: &str = "booked 0 rows";

#[test]
fn p11s_day() {
    let after = [
        ("lineage 456789", "original price 125.0000000, 0 links"),
        ("lineage 456789/0", "original price 125.0000000, 0 links"),
        ("lineage 456789/2", "original price 125.0000000, 1 link"),
        ("lineage 456789/5", "original price 125.0000000, 2 links"),
        ("merge 500 account 2 series 1 from 456789/4 456789/5", "booked 3 rows"),
        ("lineage 500", "original price 125.0000000, 0 links"),
        ("give-up 77 open 500/0 account 2 to 1 series 1", BOOKED),
        ("day 18", BOOKED),
        ("quit", ""),
    ];
    answers(&[&P11_WORDS[..], &after[..8]].concat());
    let input: String = P11_WORDS.iter().chain(&after).map(|(line, _)| format!("{line}\n")).collect();
    let wanted: String = P11_WORDS.iter().chain(&after[..8]).map(|(_, answer)| format!("{answer}\n")).collect();
    run(&Folder::new(), &["desk"], input).prints(&wanted);
}

#[test]
fn each_step_of_a_give_up() {
    let opened = [("trade 456789 account 1 series 1 buy open 100 @ 125.00", "booked 1 row"), ("give-up 77 open 456789/0 account 1 to 2 series 1", BOOKED)];
    let out_of_turn = "refused 18: the process is taken, unknown or not at this step";
    let completed = [
        ("give-up 77 approve-taker 456789/0 account 1 to 2 series 1", out_of_turn),
        ("give-up 77 approve-giver 456789/0 account 1 to 2 series 1", BOOKED),
        ("separate 456789/0 account 1 series 1 into 50 50", "refused 17: the record is under give-up"),
        ("give-up 77 claim 456789 account 1 to 2 series 1", BOOKED),
        ("give-up 77 approve-taker 456789/0 account 1 to 2 series 1", "booked 2 rows"),
        ("lineage 456789/2", "original price 125.0000000, 1 link"),
    ];
    answers(&[&opened[..], &completed].concat());
    let refused = [("give-up 77 refuse 456789/0 account 1 to 2 series 1", BOOKED), ("give-up 77 claim 456789/0 account 1 to 2 series 1", out_of_turn)];
    answers(&[&opened[..], &refused].concat());
    let cancelled = [("give-up 77 cancel 456789 account 1 to 2 series 1", BOOKED), ("give-up 77 open 456789 account 1 to 2 series 1", out_of_turn)];
    answers(&[&opened[..], &cancelled].concat());
}

#[test]
fn closing_errors() {
    let open = [("trade 1 account 1 series 1 buy open 100 @ 5", "booked 1 row"), ("trade 2 account 1 series 1 sell open 120 @ 5", "booked 1 row")];
    answers(&[&open[..], &[("trade 3 account 1 series 1 buy close 150 @ 5", "booked with closing error, excess 30")]].concat());
    answers(&[("trade 3 account 1 series 1 buy close 100 @ 5", "booked with closing error, excess 100")]);
    answers(&[open[1], ("trade 3 account 1 series 1 buy close 120 @ 5", "booked 1 row")]);
    answers(&[open[0], ("trade 3 account 1 series 1 sell close 101 @ 5", "booked with closing error, excess 1")]);
}

/// Two trades of that side at these quantities and prices, merged: the answer.
#[track_caller]
fn merged(side: &str, sources: [(i64, &str); 2], answer: &str) {
    let trade = |id: i64, (quantity, price): (i64, &str)| format!("trade {id} account 1 series 1 {side} open {quantity} @ {price}");
    let (first, second) = (trade(1, sources[0]), trade(2, sources[1]));
    answers(&[(&first, "booked 1 row"), (&second, "booked 1 row"), ("merge 500 account 1 series 1 from 1 2/0", answer)]);
}

#[test]
fn residuals() {
    merged("buy", [(2, "1.0000000"), (1, "1.0000001")], "booked 3 rows, residual -0.0000001");
    merged("buy", [(1, "1"), (1, "1.0000001")], "booked 3 rows, residual 0.0000001");
    merged("sell", [(1, "1"), (1, "1.0000001")], "booked 3 rows, residual -0.0000001");
    merged("buy", [(1, "-0.0000001"), (1, "0")], "booked 3 rows, residual -0.0000001");
    merged("sell", [(1, "-0.0000001"), (1, "0")], "booked 3 rows, residual 0.0000001");
    merged("sell", [(2, "1.0000000"), (1, "1.0000001")], "booked 3 rows, residual 0.0000001");
    merged("buy", [(5, "1"), (5, "1.0000002")], "booked 3 rows");
    merged("buy", [(500_000, "0.0000001"), (500_000, "0")], "booked 3 rows, residual 0.0500000");
    merged("buy", [(500_000, "-0.0000001"), (500_000, "0")], "booked 3 rows, residual -0.0500000");
}

#[test]
fn refusals_in_words() {
    let book = [("trade 1 account 1 series 1 buy open 10 @ 5", "booked 1 row"), ("trade 2 account 1 series 1 sell close 10 @ 5", "booked 1 row")];
    let refused = [
        ("trade 0 account 1 series 1 buy open 10 @ 5", "refused 3: a figure or a count is out of range"),
        ("separate 1 account 1 series 1 into 10", "refused 3: a figure or a count is out of range"),
        ("transfer 1 account 1 to 1 series 1", "refused 3: a figure or a count is out of range"),
        ("merge 5 account 1 series 1 from 1/0", "refused 3: a figure or a count is out of range"),
        ("trade 1 account 1 series 1 buy open 10 @ 5", "refused 4: the new id has a record"),
        ("transfer 456 account 1 to 2 series 1", "refused 5: no such record"),
        ("lineage 1/1", "refused 5: no such record"),
        ("separate 1 account 2 series 1 into 5 5", "refused 6: the record is of another account or series"),
        ("transfer 2 account 1 to 2 series 1", "refused 8: the record is to close"),
        ("separate 1 account 1 series 1 into 5 6", "refused 11: the sum of the quantities does not fit"),
        ("transfer 1 account 1 to 2 series 1", "refused 12: the account holds less than the quantity"),
        ("give-up 77 claim 1 account 1 to 2 series 1", "refused 18: the process is taken, unknown or not at this step"),
        ("give-up 77 open 2 account 1 to 2 series 1", "refused 8: the record is to close"),
        ("separate 2 account 1 series 1 into 5 5", "booked 3 rows"),
        ("separate 2 account 1 series 1 into 5 5", "refused 7: the record's status does not allow it"),
        ("give-up 77 open 1 account 1 to 2 series 1", BOOKED),
        ("transfer 1 account 1 to 2 series 1", "refused 17: the record is under give-up"),
        ("day 18", BOOKED),
        ("day 18", "refused 3: a figure or a count is out of range"),
        ("day 17", "refused 3: a figure or a count is out of range"),
        ("day 100000", "refused 3: a figure or a count is out of range"),
    ];
    answers(&[&book[..], &refused].concat());
}

#[test]
fn refusals_of_full_tables_and_ranges() {
    let trade = |id: i64, account: i64| format!("trade {id} account {account} series 1 buy open 1000000 @ 100000");
    let (one, two, three) = (trade(1, 1), trade(2, 1), trade(3, 2));
    let full = "refused 14: no room for the records or the text";
    answers_with(&["--room", "1,1,1"], &[(&one, "booked 1 row"), (&two, full), ("transfer 1 account 1 to 2 series 1", full)]);
    answers_with(&["--room", "0,0,0"], &[(&one, full), ("day 1", BOOKED)]);
    answers_with(&["--room=9,1,1"], &[(&one, "booked 1 row"), (&three, "refused 15: no room for the new positions")]);
    let open = "give-up 7 open 1 account 1 to 2 series 1";
    answers_with(&["--room", "9,9,0"], &[(&one, "booked 1 row"), (open, "refused 23: no room for the new process")]);
    let four: Vec<String> = (1..=4).map(|id| trade(id, 1)).collect();
    let mut talk: Vec<(&str, &str)> = four.iter().map(|line| (line.as_str(), "booked 1 row")).collect();
    talk.push(("trade 5 account 1 series 1 buy open 1000000 @ 100000", "refused 16: a position would leave its range"));
    answers(&talk);
}

/// So many trades, each in its own position where it is asked for.
fn trades(count: i64, own_position: bool) -> String {
    let account = |id: i64| if own_position { id } else { 1 };
    (1..=count).map(|id| format!("trade {id} account {} series 1 buy open 1 @ 1\n", account(id))).collect()
}

/// Rooms are 4,096, 1,024 and 1,024 if nothing else is said.
#[test]
fn the_usual_rooms() {
    let last = |input: String, booked: usize, refused: &str| {
        let ran = run(&Folder::new(), &["desk"], input);
        let answers: Vec<&str> = ran.output.lines().collect();
        assert_eq!((answers.len(), answers[booked]), (booked + 1, refused));
        assert!(answers[..booked].iter().all(|answer| answer.starts_with("booked ")));
    };
    last(trades(4_097, false), 4_096, "refused 14: no room for the records or the text");
    last(trades(1_025, true), 1_024, "refused 15: no room for the new positions");
    let openings: String = (1..=1_025).map(|id| format!("give-up {id} open {id} account 1 to 2 series 1\n")).collect();
    last(trades(1_025, false) + &openings, 2_049, "refused 23: no room for the new process");
    let journal: String = (1..=4_097).map(|id| format!("T\t{id}\t1\t1\t1\t1\t1\n")).collect();
    let ran = run(&Folder::new(), &["replay", "-"], &journal);
    assert_eq!(ran.fails(1), "-:4097: refused 14 (no room for the records or the text): T 4097 1 1 1 1 1");
    let full = journal.split_inclusive('\n').take(4_096).collect::<String>();
    run(&Folder::new(), &["replay", "-"], &full).prints("4096 lines booked\n");
    assert_eq!(run(&Folder::new(), &["show", "-", "records", "--csv"], &full).done().lines().count(), 4_097);
}

/// The place of a refusal is told of merges alone, for 5 to 10 and 17.
#[test]
fn refusals_at_a_source() {
    answers(&[
        ("trade 1 account 1 series 1 buy open 10 @ 5", "booked 1 row"),
        ("trade 2 account 1 series 1 buy open 10 @ 5", "booked 1 row"),
        ("trade 3 account 2 series 1 buy open 10 @ 5", "booked 1 row"),
        ("trade 4 account 1 series 1 sell open 999995 @ 5", "booked 1 row"),
        ("trade 5 account 1 series 1 sell close 5 @ 5", "booked 1 row"),
        ("trade 6 account 1 series 1 buy open 10 @ 5", "booked 1 row"),
        ("trade 7 account 1 series 1 sell open 10 @ 5", "booked 1 row"),
        ("separate 6 account 1 series 1 into 5 5", "booked 3 rows"),
        ("merge 9 account 1 series 1 from 11/0 1/0", "refused 5 at source 0: no such record"),
        ("merge 9 account 1 series 1 from 1/0 2/0 3/1", "refused 5 at source 2: no such record"),
        ("merge 9 account 1 series 1 from 1/0 3/0", "refused 6 at source 1: the record is of another account or series"),
        ("merge 9 account 1 series 1 from 1/0 6/0", "refused 7 at source 1: the record's status does not allow it"),
        ("merge 9 account 1 series 1 from 5/0 1/0", "refused 8 at source 0: the record is to close"),
        ("merge 9 account 1 series 1 from 1/0 1/0", "refused 9 at source 1: this pair stood earlier in the list"),
        ("merge 9 account 1 series 1 from 1 2 2/0", "refused 9 at source 2: this pair stood earlier in the list"),
        ("merge 9 account 1 series 1 from 1/0 4/0", "refused 10 at source 1: the side differs from the first source's"),
        ("merge 9 account 1 series 1 from 4/0 7/0", "refused 11: the sum of the quantities does not fit"),
        ("merge 2 account 1 series 1 from 1/0 6/2", "refused 4: the new id has a record"),
        ("give-up 77 open 2/0 account 1 to 2 series 1", BOOKED),
        ("merge 9 account 1 series 1 from 1/0 2/0", "refused 17 at source 1: the record is under give-up"),
        ("merge 9 account 1 series 1 from 1/0 6/2", "booked 3 rows"),
    ]);
}

/// A day of every kind of request, each answer foretold by the rules; in words and in the journal's form.
#[test]
fn a_long_day_is_answered_as_the_rules_say() {
    for seed in [1, 2] {
        let day = requests(seed, 3_000);
        let input: String = day.iter().enumerate().map(|(place, one)| if place % 2 == 0 { one.words.clone() + "\n" } else { one.line.clone() }).collect();
        let ran = run(&Folder::new(), &["desk"], input);
        for (one, answer) in day.iter().zip(ran.output.lines()) {
            assert_eq!(answer, one.answer, "seed {seed}: {}", one.words);
        }
        assert_eq!((ran.output.lines().count(), ran.status), (day.len(), 1));
    }
}
