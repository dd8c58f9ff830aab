//! Compares the book, as a host links it, with the model of documents 01 and 02: `cargo run --release -- [--seed S] [--calls N] [--show K]`.
//!
//! A run has a fixed part (the ends of every range, every length around the limits, full tables, every step of a give-up at every stage, every byte of a
//! journal's lines, each figure of a position around the ends of its range, days and lists: some 267,000 calls) and a random part of which the seed decides,
//! until N calls are made. After each call the totals beside the positions are held against the sums over the records, and days and lists against the rows. It
//! prints which answers it saw, and ends with a line that says how many calls passed. The first difference is printed in full.

mod batch_sweeps;
mod batches;
mod checker;
mod coverage;
mod day_situations;
mod day_sweeps;
mod days;
mod draw;
mod give_up_limits;
mod give_up_situations;
mod give_up_sweeps;
mod give_ups;
mod histories;
mod journal_situations;
mod journal_sweeps;
mod journals;
mod lent;
mod orders;
mod rng;
mod situations;
mod subject;
mod sweeps;
mod tables;
mod totals;
mod totals_situations;
mod totals_sweeps;
mod writing_sweeps;

use checker::Checker;
use rng::Rng;
use std::process::ExitCode;
use std::time::Instant;

struct Options {
    seed: u64,
    calls: u64,
    show: Option<u64>,
}

fn options() -> Result<Options, String> {
    let mut options = Options { seed: 1, calls: 530_000, show: None };
    let mut words = std::env::args().skip(1);
    while let Some(word) = words.next() {
        let mut number = || words.next().and_then(|n| n.replace([',', '_'], "").parse::<u64>().ok()).ok_or(format!("{word} needs a number"));
        match word.as_str() {
            "--seed" => options.seed = number()?,
            "--calls" => options.calls = number()?,
            "--show" => options.show = Some(number()?),
            _ => return Err(format!("unknown word {word}")),
        }
    }
    Ok(options)
}

fn main() -> ExitCode {
    let options = match options() {
        Ok(options) => options,
        Err(what) => {
            eprintln!("{what}\nusage: differential [--seed S] [--calls N] [--show K]");
            return ExitCode::from(2);
        }
    };
    let began = Instant::now();
    lent::catch_faults();
    let mut rng = Rng::new(options.seed);
    let mut checker = Checker::new(options.seed, options.show);

    sweeps::run(&mut checker);
    batch_sweeps::run(&mut checker);
    give_up_sweeps::run(&mut checker);
    writing_sweeps::run(&mut checker);
    journal_sweeps::run(&mut checker);
    totals_sweeps::run(&mut checker);
    day_sweeps::run(&mut checker);
    println!("the ends of the ranges, the lengths and the limits: {} calls", checker.calls);
    let fixed = checker.calls;
    histories::aimed(&mut checker, &mut rng, 20);
    histories::large_batches(&mut checker, &mut rng, 20);
    writing_sweeps::drawn(&mut checker, &mut rng, 5_000);
    for _ in 0..100 {
        histories::history(&mut checker, &mut rng);
    }
    let left = options.calls.saturating_sub(checker.calls);
    histories::foreign_tables(&mut checker, &mut rng, left / 5);
    while checker.calls < options.calls {
        histories::history(&mut checker, &mut rng);
    }
    println!("drawn with seed {}: {} calls", options.seed, checker.calls - fixed);

    let (report, missing) = checker.coverage.report();
    println!("\n{report}");
    if !missing.is_empty() {
        println!("FAILED: not met in this run:");
        for what in missing {
            println!("  {what}");
        }
        return ExitCode::FAILURE;
    }
    println!("{} calls passed (seed {}, {:.1} s)", checker.calls, options.seed, began.elapsed().as_secs_f64());
    ExitCode::SUCCESS
}
