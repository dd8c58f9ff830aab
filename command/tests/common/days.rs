//! Days that the tests book: P11's, and 002's three of transaction 123456.

/// P11's trade, its transfer and its separation, as a journal has them.
pub const P11: &str = "T\t456789\t1\t1\t1\t100\t1250000000\nA\t456789\t0\t1\t2\t1\nS\t456789\t2\t2\t1\t50\t25\t25\n";

/// The same in words, with the answers.
pub const P11_WORDS: [(&str, &str); 3] = [
    ("trade 456789 account 1 series 1 buy open 100 @ 125.00", "booked 1 row"),
    ("transfer 456789/0 account 1 to 2 series 1", "booked 2 rows"),
    ("separate 456789/2 account 2 series 1 into 50 25 25", "booked 4 rows"),
];

/// A line of a journal, from its fields parted by spaces.
pub fn line(fields: &str) -> String {
    format!("{}\n", fields.replace(' ', "\t"))
}

/// Such lines one after the other.
pub fn lines(lines: &[&str]) -> String {
    lines.iter().map(|fields| line(fields)).collect()
}

/// The journal of the first so many of 002's three days, as examples/end_of_day.c books them: days 17, 18 and 19.
pub fn three_days(days: usize) -> String {
    let first = ["D 17", "T 123456 1 1 1 100 1250000000", "S 123456 0 1 1 40 30 20 10"];
    let days_lines = [
        lines(&first) + &give_up(3) + &give_up(5) + &give_up(4) + &line("A 123456 11 2 3 1"),
        lines(&["D 18", "S 123456 2 1 1 10 10 12 8"]) + &give_up(18),
        line("D 19") + &give_up(15) + &give_up(17) + &give_up(16),
    ];
    days_lines[..days].concat()
}

/// The four steps of a give-up of that suffix, from the opening to the booked rows.
fn give_up(suffix: i64) -> String {
    ["O", "C", "G", "T"].iter().map(|step| line(&format!("G {step} {} 123456 {suffix} 1 2 1", 9000 + suffix))).collect()
}
