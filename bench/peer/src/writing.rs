//! The line of a request in a journal, written to a lent buffer. The widths are summed first, so that a short buffer stays as it was.

use crate::days::is_day;
use crate::give_up::is_step;
use crate::{answer, is_merge, is_separation, is_trade, is_transfer, refuse_if, Outcome, Reply, Step};

/// How many bytes a figure takes with its tab.
fn width(figure: i64) -> usize {
    let digits = 1 + figure.unsigned_abs().checked_ilog10().unwrap_or(0) as usize;
    1 + usize::from(figure < 0) + digits
}

/// How many bytes a line takes: its letters, its figures and the newline.
fn line_width(letters: &[u8], figures: &[i64], list: &[i64]) -> usize {
    letters.len() + figures.iter().chain(list).map(|&figure| width(figure)).sum::<usize>() + 1
}

/// Writes a figure and its tab over so many bytes, the last digit first.
fn put_figure(bytes: &mut [u8], figure: i64) {
    let mut left = figure.unsigned_abs();
    let first = 1 + usize::from(figure < 0);
    for byte in bytes[first..].iter_mut().rev() {
        *byte = b'0' + (left % 10) as u8;
        left /= 10;
    }
    bytes[first - 1] = b'-';
    bytes[0] = b'\t';
}

/// Writes a line at the front of the buffer, which has the bytes for it, and gives the rest of the buffer.
fn put_line<'a>(text: &'a mut [u8], letters: &[u8], figures: &[i64], list: &[i64]) -> &'a mut [u8] {
    let (heading, mut rest) = text.split_at_mut(letters.len());
    heading.copy_from_slice(letters);
    for &figure in figures.iter().chain(list) {
        let (bytes, after) = rest.split_at_mut(width(figure));
        put_figure(bytes, figure);
        rest = after;
    }
    let (newline, rest) = rest.split_at_mut(1);
    newline[0] = b'\n';
    rest
}

fn write_line(text: &mut [u8], valid: bool, letters: &[u8], figures: &[i64], list: &[i64]) -> Outcome {
    refuse_if(!valid, 3)?;
    let bytes = line_width(letters, figures, list);
    refuse_if(text.len() < bytes, 14)?;
    put_line(text, letters, figures, list);
    Ok(Reply::Written { bytes: bytes as i64 })
}

pub fn write_trade(text: &mut [u8], id: i64, account: i64, series: i64, side: i64, quantity: i64, price: i64) -> Reply {
    let trade = [id, account, series, side, quantity, price];
    answer(write_line(text, is_trade(&trade), b"T", &trade, &[]))
}

/// A line for each trade of a list.
pub fn write_trades(text: &mut [u8], trades: &[i64]) -> Reply {
    answer(try_write_trades(text, trades))
}

fn try_write_trades(text: &mut [u8], trades: &[i64]) -> Outcome {
    let (trades, rest) = trades.as_chunks::<6>();
    let listed = rest.is_empty() && (1..=1_000).contains(&trades.len());
    refuse_if(!listed || !trades.iter().all(is_trade), 3)?;
    let bytes = trades.iter().map(|trade| line_width(b"T", trade, &[])).sum::<usize>();
    refuse_if(text.len() < bytes, 14)?;
    trades.iter().fold(text, |rest, trade| put_line(rest, b"T", trade, &[]));
    Ok(Reply::Written { bytes: bytes as i64 })
}

pub fn write_separation(text: &mut [u8], id: i64, suffix: i64, account: i64, series: i64, parts: &[i64]) -> Reply {
    let names = [id, suffix, account, series];
    answer(write_line(text, is_separation(&names, parts), b"S", &names, parts))
}

pub fn write_transfer(text: &mut [u8], id: i64, suffix: i64, from: i64, to: i64, series: i64) -> Reply {
    let names = [id, suffix, from, to, series];
    answer(write_line(text, is_transfer(&names), b"A", &names, &[]))
}

pub fn write_merge(text: &mut [u8], id: i64, account: i64, series: i64, pairs: &[i64]) -> Reply {
    let names = [id, account, series];
    answer(write_line(text, is_merge(&names, pairs), b"M", &names, pairs))
}

pub fn write_day(text: &mut [u8], day: i64) -> Reply {
    answer(write_line(text, is_day(day), b"D", &[day], &[]))
}

/// A step of a give-up, by the number of its letter.
#[allow(clippy::too_many_arguments)]
pub fn write_give_up(text: &mut [u8], step: i64, process: i64, id: i64, suffix: i64, giving: i64, taking: i64, series: i64) -> Reply {
    let names = [process, id, suffix, giving, taking, series];
    let letter = u8::try_from(step).ok().filter(|&letter| Step::of_letter(letter).is_some());
    answer(write_line(text, letter.is_some() && is_step(&names), &[b'G', b'\t', letter.unwrap_or(0)], &names, &[]))
}
