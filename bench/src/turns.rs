//! Two books on the same tables, whose samples take turns.

use crate::request::{Coded, REFUSED};
use crate::stats::{spread, Spread};
use std::hint::black_box;
use std::time::Instant;

/// Restores every copy of the tables, and then times a call on each: nanoseconds a call. A short call is timed many times in a row, each on tables of its own.
fn sample<const N: usize>(start: &[Vec<i64>; N], copies: &mut [[Vec<i64>; N]], book: impl Fn(&mut [Vec<i64>; N]) -> Coded) -> f64 {
    for copy in copies.iter_mut() {
        for (table, cells) in copy.iter_mut().zip(start) {
            table.copy_from_slice(cells);
        }
    }
    let began = Instant::now();
    for copy in copies.iter_mut() {
        black_box(book(black_box(copy)));
    }
    began.elapsed().as_nanos() as f64 / copies.len() as f64
}

/// The time of a call of each book on these tables, of which there are so many copies.
pub fn take_turns<const N: usize>(
    start: &[Vec<i64>; N],
    copies: usize,
    samples: usize,
    ours: impl Fn(&mut [Vec<i64>; N]) -> Coded,
    by_hand: impl Fn(&mut [Vec<i64>; N]) -> Coded,
) -> (Spread, Spread) {
    let mut copies = vec![start.clone(); copies];
    let (mut first, mut second) = (Vec::new(), Vec::new());
    for _ in 0..samples / 10 + 5 {
        sample(start, &mut copies, &ours);
        sample(start, &mut copies, &by_hand);
    }
    for k in 0..samples {
        // Each goes first in turn.
        if k % 2 == 0 {
            first.push(sample(start, &mut copies, &ours));
            second.push(sample(start, &mut copies, &by_hand));
        } else {
            second.push(sample(start, &mut copies, &by_hand));
            first.push(sample(start, &mut copies, &ours));
        }
    }
    (spread(first), spread(second))
}

/// Both books accept, with the same answer, and leave the same cells.
pub fn agree<const N: usize>(start: &[Vec<i64>; N], what: &str, ours: impl Fn(&mut [Vec<i64>; N]) -> Coded, by_hand: impl Fn(&mut [Vec<i64>; N]) -> Coded) {
    let (mut first, mut second) = (start.clone(), start.clone());
    let answers = (ours(&mut first), by_hand(&mut second));
    assert_eq!(answers.0, answers.1, "{what}");
    assert!(answers.0.kind != REFUSED, "{what} is refused: {:?}", answers.0);
    assert!(first == second, "the cells differ after {what}");
}
