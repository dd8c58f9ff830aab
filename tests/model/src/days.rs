//! Document 02, K8: "End-of-day reporting list." The current day and the days of booking are in `tables` and `books`.

use crate::books::{Books, Record};
use crate::requests::{ensure, Answer, Refusal, Reply};
use crate::tables::DAYS;

/// "A new request moves the day forward; the same or an earlier day, or one outside 1 to 99,999, is refused 3."
pub fn new_day(books: &mut Books, day: i64) -> Result<Reply, Refusal> {
    ensure(DAYS.contains(&day) && day > books.day, 3)?;
    books.day = day;
    Ok(Reply::Booked { rows: 0, residual: 0 })
}

/// "The list comes out in table order as id and suffix pairs in a lent slice, each reportable record once, and no other, the answer their number. A current-day
/// inverse without its parent row is refused 5, a short slice 14."
pub fn reportable(books: &Books, cells: usize) -> Result<Answer, Refusal> {
    let today = || books.records.iter().filter(|(_, row)| row.day == books.day);
    ensure(today().all(|((id, _), row)| row.status != 2 || parent_of(books, *id, row).is_some()), 5)?;
    let listed = today().filter(|((id, _), row)| is_reportable(books, *id, row));
    let pairs: Vec<i64> = listed.flat_map(|(&(id, suffix), _)| [id, suffix]).collect();
    ensure(pairs.len() <= cells, 14)?;
    Ok(Answer { reply: Reply::Listed { records: pairs.len() as i64 / 2 }, output: pairs })
}

/// An inverse with suffix 0 has parent 0 too: it is its own parent.
fn parent_of<'a>(books: &'a Books, id: i64, row: &Record) -> Option<&'a Record> {
    books.records.get(&(id, row.parent))
}

/// Of a record of the current day: "reported when its status at day end is adjustable, or when it is inverse and its parent was booked on an earlier day.
/// Status 3 counts as adjustable (house)."
fn is_reportable(books: &Books, id: i64, row: &Record) -> bool {
    match row.status {
        0 | 3 => true,
        2 => parent_of(books, id, row).is_some_and(|parent| parent.day < books.day),
        _ => false,
    }
}
