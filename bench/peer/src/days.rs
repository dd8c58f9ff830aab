//! The current day, and the list of the records that are reported at its end.

use crate::table::RecordRow;
use crate::{answer, open_records, read_records, refuse_if, Outcome, Refusal, Reply};
use crate::{ADJUSTABLE, DAY, ID, INVERSE, LAST_DAY, PARENT, RECORDS_ROOM, STATUS, SUFFIX, TODAY, UNDER_GIVE_UP};

/// The range of a day that is moved to.
pub fn is_day(day: i64) -> bool {
    (1..=LAST_DAY).contains(&day)
}

pub fn day(records: &mut [i64], day: i64) -> Reply {
    answer(open_records(records).and_then(|records| move_day(records.header, day)))
}

/// Test 3 of a new day on sound records, and the day moved.
pub fn move_day(header: &mut [i64; 2], day: i64) -> Outcome {
    refuse_if(!is_day(day) || day <= header[TODAY], 3)?;
    header[TODAY] = day;
    Ok(Reply::Booked { rows: 0, residual: 0 })
}

pub fn reportable(records: &[i64], pairs: &mut [i64]) -> Reply {
    answer(try_reportable(records, pairs))
}

/// Which rows are reported is marked in a first pass, so that a refusal writes no pair and each parent is looked up once.
fn try_reportable(records: &[i64], pairs: &mut [i64]) -> Outcome {
    let (today, rows) = read_records(records)?;
    let mut reported = [0_u64; RECORDS_ROOM / 64];
    let mut listed = 0;
    for (at, row) in rows.iter().enumerate() {
        if is_reportable(today, rows, at, row)? {
            reported[at / 64] |= 1 << (at % 64);
            listed += 1;
        }
    }
    refuse_if(pairs.len() / 2 < listed, 14)?;
    let places = reported.iter().enumerate().flat_map(|(k, &marks)| Marks(marks).map(move |bit| 64 * k + bit));
    let (pairs, _) = pairs.as_chunks_mut::<2>();
    for (pair, at) in pairs.iter_mut().zip(places) {
        *pair = [rows[at][ID], rows[at][SUFFIX]];
    }
    Ok(Reply::Listed { records: listed as i64 })
}

/// The places of the ones in a word, from the lowest on.
struct Marks(u64);

impl Iterator for Marks {
    type Item = usize;

    fn next(&mut self) -> Option<usize> {
        let left = self.0;
        self.0 &= left.wrapping_sub(1);
        (left != 0).then(|| left.trailing_zeros() as usize)
    }
}

/// Whether the row at this place is reported; 5 where it is an inverse without its parent row.
#[inline(always)]
fn is_reportable(today: i64, rows: &[RecordRow], at: usize, row: &RecordRow) -> Result<bool, Refusal> {
    if row[DAY] != today {
        return Ok(false);
    }
    match row[STATUS] {
        ADJUSTABLE | UNDER_GIVE_UP => Ok(true),
        INVERSE => Ok(rows[parent_of(rows, at, row)?][DAY] < today),
        _ => Ok(false),
    }
}

/// The place of a row's parent: at most so many rows before it as its suffix is above the parent's.
#[inline(always)]
fn parent_of(rows: &[RecordRow], at: usize, row: &RecordRow) -> Result<usize, Refusal> {
    let first = at.saturating_sub((row[SUFFIX] - row[PARENT]) as usize);
    let found = rows[first..=at].binary_search_by_key(&(row[ID], row[PARENT]), |other| (other[ID], other[SUFFIX]));
    found.map(|place| first + place).map_err(|_| Refusal { number: 5, place: 0 })
}
