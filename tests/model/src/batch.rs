//! Document 02, K1: "A morning's trades in one call."

use crate::books::Books;
use crate::requests::{book, Answer, Refusal, Reply, Request};

/// The trades of a list: "1 to 1,000 trades of six figures"
pub fn trades_of(figures: &[i64]) -> Option<Vec<Request>> {
    let trade = |figures: &[i64]| match *figures {
        [id, account, series, side, quantity, price] => Some(Request::Trade { id, account, series, side, quantity, price }),
        _ => None,
    };
    let trades: Vec<Request> = figures.chunks(6).map(trade).collect::<Option<_>>()?;
    (1..=1_000).contains(&trades.len()).then_some(trades)
}

/// "(otherwise refusal 3 ..)", "fewer cells than listed trades: 3"
pub fn trades(books: &mut Books, figures: &[i64], cells: usize) -> Result<Answer, Refusal> {
    let listed = trades_of(figures).filter(|listed| listed.len() <= cells).ok_or(Refusal::number(3))?;
    let mut excesses = Vec::new();
    let stop = one_by_one(books, &listed, &mut excesses);
    let booked = excesses.len() as i64;
    let reply = match stop {
        Ok(()) => Reply::Booked { rows: booked, residual: 0 },
        // "reports how many were booked and that refusal"
        Err(Refusal { number, place }) => Reply::Stopped { booked, number, place: place as i64 },
    };
    Ok(Answer { reply, output: excesses })
}

/// The first trade, then the others: "it stops at the first refusal, keeps what came before". A refused trade's books are dropped.
fn one_by_one(books: &mut Books, trades: &[Request], excesses: &mut Vec<i64>) -> Result<(), Refusal> {
    let Some((trade, later)) = trades.split_first() else {
        return Ok(());
    };
    let mut after = books.clone();
    let reply = book(&mut after, trade)?.reply;
    *books = after;
    // "each booked trade's excess, 0 if none"
    excesses.push(if let Reply::ClosingError { excess } = reply { excess } else { 0 });
    one_by_one(books, later, excesses)
}
