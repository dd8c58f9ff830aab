//! The time of a request, for the proved book, for the same written by hand in Rust, and for SQLite:
//! `cargo run --release -- [--samples N] [--lists N] [--batches N] [--days N] [--replays N] [--desk-days N]`, or with `--desk` that of the desk alone.
//! The desk is the command $VELICHUNDAM, or build/velichundam. No time is asserted; that the books agree is.

mod average;
mod batch;
mod calls;
mod day;
mod desk;
mod disk;
mod give_ups;
mod journal;
mod list;
mod request;
mod rng;
mod sqlite;
mod stats;
mod turns;

use request::KINDS;
use sqlite::SqlBook;
use stats::{spread, Spread};

fn number(words: &[String], name: &str, otherwise: usize) -> usize {
    let at = words.iter().position(|word| word == name);
    at.and_then(|k| words.get(k + 1)).and_then(|n| n.parse().ok()).unwrap_or(otherwise).max(3)
}

fn main() {
    let words: Vec<String> = std::env::args().collect();
    if !words.iter().any(|word| word == "--desk") {
        print_books(&words);
        println!();
    }
    print_desk(number(&words, "--desk-days", 15));
}

fn print_books(words: &[String]) {
    let samples = number(words, "--samples", 1_000);
    print_calls(samples);
    print_give_ups(samples);
    print_averages(samples);
    print_lists(number(words, "--lists", 200));
    print_batches(number(words, "--batches", 50));
    print_day(number(words, "--days", 15));
    print_journals(number(words, "--replays", 50));
}

fn cell(s: Spread) -> String {
    format!("{:.0} [{:.0} .. {:.0}]", s.median, s.low, s.high)
}

fn print_calls(samples: usize) {
    println!("One call, in nanoseconds: median of {samples} samples [a tenth below .. a tenth above]. Tables are restored before each call, untimed.\n");
    println!("| request    |  rows |                     ours |              by hand, Rust | ours / by hand |");
    println!("|------------|------:|-------------------------:|---------------------------:|---------------:|");
    for line in calls::measure(samples) {
        let ratio = line.ours.median / line.by_hand.median;
        println!("| {:<10} | {:>5} | {:>24} | {:>26} | {ratio:>14.2} |", KINDS[line.kind], line.rows, cell(line.ours), cell(line.by_hand));
    }
}

fn print_give_ups(samples: usize) {
    println!("\nOne step of a give-up, with 1,000 processes, likewise. Completing: the taker's approval, by which the give-up is booked.\n");
    println!("| step       |  rows |                     ours |              by hand, Rust | ours / by hand |");
    println!("|------------|------:|-------------------------:|---------------------------:|---------------:|");
    for line in give_ups::measure(samples) {
        let ratio = line.ours.median / line.by_hand.median;
        println!("| {:<10} | {:>5} | {:>24} | {:>26} | {ratio:>14.2} |", line.step, line.rows, cell(line.ours), cell(line.by_hand));
    }
}

fn print_averages(samples: usize) {
    println!("\nThe average entry of one position, likewise: by a host from the position's two cells, and summed over the records instead.\n");
    println!("|  rows |           from two cells |           over the records | over the records / from two cells |");
    println!("|------:|-------------------------:|---------------------------:|----------------------------------:|");
    for line in average::measure(samples) {
        let ratio = line.over_records.median / line.from_cells.median;
        println!("| {:>5} | {:>24} | {:>26} | {ratio:>33.0} |", line.rows, cell(line.from_cells), cell(line.over_records));
    }
}

fn print_lists(samples: usize) {
    let sql = SqlBook::open();
    println!("\nThe end of a day, in nanoseconds a call: median of {samples} samples [a tenth below .. a tenth above]. The records were booked by a day's requests, so");
    println!("many of them on the current day, of which the list has those that are listed. {}\n", sql_note(&sql, "in memory", "with an index on the day"));
    println!("| call    |  rows | of the day | listed |                     ours |              by hand, Rust |     SQLite | ours / by hand | SQLite / ours |");
    println!("|---------|------:|-----------:|-------:|-------------------------:|---------------------------:|-----------:|---------------:|--------------:|");
    for line in list::measure(samples, sql) {
        let (ours, by_hand) = (line.ours.median, line.by_hand.median);
        let (sqlite, against) = line.sqlite.map_or(("-".into(), "-".into()), |time| (format!("{time:.0}"), format!("{:.2}", time / ours)));
        print!("| {:<7} | {:>5} | {:>10} | {:>6} | {:>24} | {:>26} ", line.call, line.rows, line.of_the_day, line.listed, cell(line.ours), cell(line.by_hand));
        println!("| {sqlite:>10} | {:>14.2} | {against:>13} |", ours / by_hand);
    }
}

fn print_batches(samples: usize) {
    let sql = SqlBook::open();
    println!(
        "\n1,000 trades in one call, in nanoseconds a trade: median of {samples} samples [a tenth below .. a tenth above]. Tables are restored before each,"
    );
    println!("untimed. Rising ids come after the table's, shuffled ones lie all over it. One by one: the same trades by our call for one trade.");
    println!("{}\n", sql_note(&sql, "in memory", "all trades in one transaction"));
    println!(
        "| ids      |  rows |                  ours |         by hand, Rust | one by one |   SQLite | ours / by hand | one by one / ours | SQLite / ours |"
    );
    println!(
        "|----------|------:|----------------------:|----------------------:|-----------:|---------:|---------------:|------------------:|--------------:|"
    );
    for line in batch::measure(samples, sql) {
        let ids = if line.shuffled { "shuffled" } else { "rising" };
        let (ours, by_hand, singly) = (line.ours.median, line.by_hand.median, line.one_by_one);
        let (sqlite, against) = line.sqlite.map_or(("-".into(), "-".into()), |time| (format!("{time:.0}"), format!("{:.2}", time / ours)));
        print!("| {ids:<8} | {:>5} | {:>21} | {:>21} | {singly:>10.0} | {sqlite:>8} ", line.rows, cell(line.ours), cell(line.by_hand));
        println!("| {:>14.2} | {:>17.2} | {against:>13} |", ours / by_hand, singly / ours);
    }
}

fn sql_note(sql: &Option<SqlBook>, place: &str, how: &str) -> String {
    match sql {
        Some(book) => format!("SQLite {} {place}, {how}.", book.version()),
        None => "SQLite is skipped: the library libsqlite3 is not installed.".to_string(),
    }
}

fn print_day(days: usize) {
    let day = day::Day::new(1);
    let counts = day.counts();
    let sql = SqlBook::open();
    println!("\nA day of {} requests from an empty book on, in microseconds a request: median of {days} days.", day.requests.len());
    println!("{}\n", sql_note(&sql, "in memory", "a transaction for each"));
    println!("| request    | count |     ours |  by hand |   SQLite | ours / by hand | SQLite / ours |");
    println!("|------------|------:|---------:|---------:|---------:|---------------:|--------------:|");
    for (kind, ways) in day.measure(days, sql).into_iter().enumerate() {
        let (name, count) = if kind < KINDS.len() { (KINDS[kind], counts[kind]) } else { ("whole day", day.requests.len()) };
        let micros: Vec<f64> = ways.into_iter().filter(|runs| !runs.is_empty()).map(|runs| spread(runs).median / 1_000.0 / count.max(1) as f64).collect();
        let sqlite = micros.get(2).map_or("-".to_string(), |time| format!("{time:.2}"));
        let against = micros.get(2).map_or("-".to_string(), |time| format!("{:.2}", time / micros[0]));
        println!("| {name:<10} | {count:>5} | {:>8.2} | {:>8.2} | {sqlite:>8} | {:>14.2} | {against:>13} |", micros[0], micros[1], micros[0] / micros[1]);
    }
}

fn print_journals(samples: usize) {
    let sql = SqlBook::open();
    println!("\nA journal replayed into empty tables, in nanoseconds a line: median of {samples} samples [a tenth below .. a tenth above]. By calls: the same");
    println!("requests, each by our call for it. {}\n", sql_note(&sql, "in memory", "the same requests in one transaction, not read from a text"));
    println!(
        "| journal           | lines |                  ours |         by hand, Rust | by calls |   SQLite | ours / by hand | by calls / ours | SQLite / ours |"
    );
    println!(
        "|-------------------|------:|----------------------:|----------------------:|---------:|---------:|---------------:|----------------:|--------------:|"
    );
    let journals = journal::all();
    for line in journal::measure_replays(&journals, samples, sql) {
        let (ours, by_hand, calls) = (line.ours.median, line.by_hand.median, line.by_calls);
        let (sqlite, against) = line.sqlite.map_or(("-".into(), "-".into()), |time| (format!("{time:.0}"), format!("{:.2}", time / ours)));
        print!("| {:<17} | {:>5} | {:>21} | {:>21} | {calls:>8.0} | {sqlite:>8} ", line.name, line.lines, cell(line.ours), cell(line.by_hand));
        println!("| {:>14.2} | {:>15.2} | {against:>13} |", ours / by_hand, calls / ours);
    }
    println!("\nThe lines of these journals written, likewise.\n");
    println!("| journal           | lines |                  ours |         by hand, Rust | ours / by hand |");
    println!("|-------------------|------:|----------------------:|----------------------:|---------------:|");
    for line in journal::measure_writing(&journals, samples) {
        let ratio = line.ours.median / line.by_hand.median;
        println!("| {:<17} | {:>5} | {:>21} | {:>21} | {ratio:>14.2} |", line.name, line.lines, cell(line.ours), cell(line.by_hand));
    }
}

fn print_desk(days: usize) {
    let command = std::env::var_os("VELICHUNDAM").map_or("build/velichundam".into(), std::path::PathBuf::from);
    let bench = desk::Bench::new(command);
    println!("A day's {} bookings kept on the disk ({}), from an empty book on, in requests a second:", bench.requests(), bench.file_system());
    println!(
        "median of {days} days [a tenth below .. a tenth above]. The desk has them from a file, or in a dialogue, each after the answer to the one before;"
    );
    println!(
        "it syncs every line or never, SQLite likewise (FULL or OFF). {}",
        sql_note(&SqlBook::open(), "in a file with a write-ahead log", "a transaction for each")
    );
    println!("No book: the same lines appended and synced by this program, in a dialogue each after an echo by cat.\n");
    println!(
        "| synced | requests      |                     desk |                   SQLite |                      no book | desk / SQLite | desk / no book |"
    );
    println!(
        "|--------|---------------|-------------------------:|-------------------------:|-----------------------------:|--------------:|---------------:|"
    );
    let lines = bench.measure(days);
    for of_sync in &lines {
        for (name, line) in [("from a file", &of_sync.from_file), ("in a dialogue", &of_sync.dialogue)] {
            let ratio = |other: Spread| format!("{:.2}", line.desk.median / other.median);
            let (sqlite, against) = line.sqlite.map_or(("-".into(), "-".into()), |sqlite| (cell(sqlite), ratio(sqlite)));
            print!("| {:<6} | {name:<13} | {:>24} | {sqlite:>24} | {:>28} ", of_sync.sync.word(), cell(line.desk), cell(line.no_book));
            println!("| {against:>13} | {:>14} |", ratio(line.no_book));
        }
    }
    let [every, never] = lines.map(|of_sync| of_sync.start * 1e3);
    println!("\nA desk's start and end, which are left out, took {every:.1} milliseconds with a journal that is synced, {never:.1} with one that is not.");
}
