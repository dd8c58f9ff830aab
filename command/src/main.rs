//! The command `velichundam`: a desk that answers requests and keeps a journal, and what an auditor asks of a journal. It turns words into figures and answers into
//! words; every decision is a call of the proved book.

mod answers;
mod book;
mod decimals;
mod desk;
mod diff;
mod failure;
mod fields;
mod help;
mod journal;
mod output;
mod request;
mod standard;
mod store;
mod tables;
mod tree;
mod usage;
mod words;

use failure::Failure;
use output::say;
use std::process::ExitCode;
use usage::Order;

fn main() -> ExitCode {
    store::outlive_a_file_size_limit();
    match usage::order(std::env::args_os().skip(1)).and_then(follow) {
        Ok(status) => ExitCode::from(status),
        Err(failure) => failure.tell(),
    }
}

/// Does what is asked, and gives the exit status of what was done.
fn follow(order: Order) -> Result<u8, Failure> {
    match order {
        Order::Desk(desk) => return desk::run(&desk),
        Order::Diff(first, second) => return diff::run(&first, &second),
        Order::Say(text) => say(&text)?,
        Order::Replay(journal, rooms) => {
            let (lines, _) = journal::read(&journal)?.booked(rooms)?;
            say(&format!("{} booked\n", answers::counted(lines, "line")))?
        }
        Order::Show(journal, view) => say(&tables::shown(&journal::book(&journal)?, &view))?,
        Order::Report(journal, format) => {
            let book = journal::book(&journal)?;
            let rows = book.reportable().map_err(|refusal| Failure::line(format!("{}: refused {}: {refusal}", failure::named(&journal), refusal.0)))?;
            say(&tables::Table::Records.printed(&rows, format))?
        }
        Order::Tree(journal, id) => say(&tree::of(&journal::book(&journal)?, id).ok_or_else(|| tree::no_record(&journal, id))?)?,
    }
    Ok(0)
}
