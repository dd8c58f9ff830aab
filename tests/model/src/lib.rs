//! The transaction book once more, written from documents 01 and 02 alone and in another style than the book itself: the rows of the tables are read into
//! sorted maps, a request works on a copy of the maps with numbers of 128 bits, and the rows are written back where no refusal applies. It is slow
//! and says what it means; nothing of it is shared with the book.

mod batch;
mod books;
mod days;
mod give_up;
pub mod journal;
mod requests;
mod tables;

pub use books::{Books, Position, Process, Record, Stage};
pub use journal::Writing;
pub use requests::{Answer, Reply, Request, Step};

use requests::Refusal;

/// Handles one request on the lent tables: the answer, and the cells of the tables afterwards.
///
/// A lineage question, a new day and the list lend no positions table, and only the steps of a give-up and a replay lend a process table; whatever is passed for a table that is not
/// lent is neither read nor written.
pub fn handle(records: &mut [i64], positions: &mut [i64], processes: &mut [i64], request: &Request) -> Answer {
    if let Request::Replay { text } = request {
        return journal::replay(records, positions, processes, text).into();
    }
    match attempt(records, positions, processes, request) {
        Ok((answer, books)) => {
            if let Some(books) = books {
                tables::write_records(records, books.day, &books.records);
                if request.lends_positions() {
                    tables::write_positions(positions, &books.positions);
                }
                if request.lends_processes() {
                    tables::write_processes(processes, &books.processes);
                }
            }
            answer
        }
        // "A refused request changes nothing."
        Err(Refusal { number, place }) => Reply::Refused { number, place: place as i64 }.into(),
    }
}

/// The answer and, for a request that books, the books afterwards. Refusals 1, 2 and 19 are tested here, the others by the request.
fn attempt(records: &[i64], positions: &[i64], processes: &[i64], request: &Request) -> Result<(Answer, Option<Books>), Refusal> {
    let (day, record_rows) = tables::read_records(records).ok_or(Refusal::number(1))?;
    if let Request::Lineage { id, suffix } = *request {
        return Ok((requests::lineage(&record_rows, id, suffix)?.into(), None));
    }
    let positions = if request.lends_positions() { positions } else { &[0] };
    let position_rows = tables::read_positions(positions).ok_or(Refusal::number(2))?;
    // "read by these steps only"; "if unsound, refused 19 after 2"
    let processes = if request.lends_processes() { processes } else { &[0] };
    let process_rows = tables::read_processes(processes).ok_or(Refusal::number(19))?;
    let mut books = Books {
        day,
        records: record_rows,
        positions: position_rows,
        processes: process_rows,
        records_room: tables::records_room(records),
        positions_room: tables::positions_room(positions),
        processes_room: tables::processes_room(processes),
    };
    let answer = requests::book(&mut books, request)?;
    // The list only reads.
    let books = Some(books).filter(|_| !matches!(request, Request::Reportable { .. }));
    Ok((answer, books))
}

#[cfg(test)]
mod batch_examples;
#[cfg(test)]
mod day_examples;
#[cfg(test)]
mod give_up_examples;
#[cfg(test)]
mod journal_examples;
#[cfg(test)]
mod totals_examples;
#[cfg(test)]
mod worked_examples;
