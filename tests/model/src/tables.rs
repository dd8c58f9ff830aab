//! Document 01, "The two tables", with what document 02 adds to them, the totals (K7) and the days (K8), and the process table of K3: how rows lie in the lent
//! cells, and when a table is sound.

use crate::books::{Position, Positions, Process, Processes, Record, Records, Stage};
use std::ops::RangeInclusive;

/// K8: "the records table's header gains the current day as cell 1, the rows following it"; "Records gain a last cell"
pub const RECORDS_HEADER: usize = 2;
pub const RECORD_CELLS: usize = 14;
pub const POSITION_CELLS: usize = 7;
pub const PROCESS_CELLS: usize = 9;
const MOST_RECORDS: usize = 4_096;
const MOST_POSITIONS: usize = 1_024;
const MOST_PROCESSES: usize = 1_024;

pub const IDS: RangeInclusive<i64> = 1..=999_999_999;
pub const SUFFIXES: RangeInclusive<i64> = 0..=65_535;
pub const ACCOUNTS: RangeInclusive<i64> = 1..=9_999;
pub const SERIES: RangeInclusive<i64> = 1..=999_999;
pub const QUANTITIES: RangeInclusive<i64> = 1..=1_000_000;
pub const PRICES: RangeInclusive<i64> = -1_000_000_000_000..=1_000_000_000_000;
pub const SIDES: RangeInclusive<i64> = 1..=4;
pub const LONG_OR_SHORT: RangeInclusive<i64> = 0..=1_000_000_000_000;
pub const CASH: RangeInclusive<i64> = -1_000_000_000_000_000..=1_000_000_000_000_000;
/// Document 02, K7: "Each magnitude stays within 4,000,000,000,000,000,000"
pub const TOTALS: RangeInclusive<i64> = -4_000_000_000_000_000_000..=4_000_000_000_000_000_000;
/// K8: "one outside 1 to 99,999, is refused 3"
pub const DAYS: RangeInclusive<i64> = 1..=99_999;
const BOOKED: RangeInclusive<i64> = -1_000_000..=1_000_000;

/// "Room is the whole rows that fit after cell 0, at most 4,096"; after the header, with K8.
pub fn records_room(cells: &[i64]) -> usize {
    MOST_RECORDS.min(cells.len().saturating_sub(RECORDS_HEADER) / RECORD_CELLS)
}

/// "Room likewise, at most 1,024."
pub fn positions_room(cells: &[i64]) -> usize {
    MOST_POSITIONS.min(cells.len().saturating_sub(1) / POSITION_CELLS)
}

/// K3: "cell 0 the count, room at most 1,024"
pub fn processes_room(cells: &[i64]) -> usize {
    MOST_PROCESSES.min(cells.len().saturating_sub(1) / PROCESS_CELLS)
}

/// The rows that cell 0 counts, which follow so many cells, or nothing where there are fewer cells or the count is not between 0 and the room.
fn counted(cells: &[i64], header: usize, width: usize, room: usize) -> Option<Vec<&[i64]>> {
    let rows = cells.get(header..)?;
    let count = usize::try_from(cells[0]).ok()?;
    (count <= room).then(|| rows.chunks(width).take(count).collect())
}

/// The current day and the rows of a sound records table. K8: "sound tables have a header day from 0 to 99,999 and row days from 0 to it"
pub fn read_records(cells: &[i64]) -> Option<(i64, Records)> {
    let mut rows = Records::new();
    let listed = counted(cells, RECORDS_HEADER, RECORD_CELLS, records_room(cells))?;
    let day = Some(cells[1]).filter(|day| (0..=*DAYS.end()).contains(day))?;
    for row in listed {
        let key = (row[0], row[1]);
        let record = Record {
            parent: row[2],
            kind: row[3],
            status: row[4],
            account: row[5],
            series: row[6],
            side: row[7],
            quantity: row[8],
            price: row[9],
            long: row[10],
            short: row[11],
            into: row[12],
            day: row[13],
        };
        let rises = rows.last_key_value().map_or(true, |(last, _)| *last < key);
        if !rises || !is_sound_record(key, &record) || !(0..=day).contains(&record.day) {
            return None;
        }
        rows.insert(key, record);
    }
    Some((day, rows))
}

fn is_sound_record((id, suffix): (i64, i64), r: &Record) -> bool {
    let figures = IDS.contains(&id)
        && SUFFIXES.contains(&suffix)
        && SUFFIXES.contains(&r.parent)
        && ACCOUNTS.contains(&r.account)
        && SERIES.contains(&r.series)
        && SIDES.contains(&r.side)
        && PRICES.contains(&r.price);
    // K3: "the status becomes 3, sound like 0, as are types 20 and 30"
    let kind = matches!(r.kind, 0 | 4 | 6 | 10 | 20 | 30 | 901);
    let status = matches!(r.status, 0..=3);
    // "Quantity is not zero, magnitude at most 1,000,000, negative exactly where status is 2."
    let magnitude = if r.status == 2 { r.quantity.checked_neg() } else { Some(r.quantity) };
    let quantity = magnitude.is_some_and(|q| QUANTITIES.contains(&q));
    let booked = BOOKED.contains(&r.long) && BOOKED.contains(&r.short);
    // "Into is 0 or an id. Parent is below suffix, or both are 0."
    let into = r.into == 0 || IDS.contains(&r.into);
    let parent = r.parent < suffix || (r.parent == 0 && suffix == 0);
    figures && kind && status && quantity && booked && into && parent
}

/// The rows of a sound positions table. Nothing is asked of account and series but that the rows rise by them.
pub fn read_positions(cells: &[i64]) -> Option<Positions> {
    let mut rows = Positions::new();
    for row in counted(cells, 1, POSITION_CELLS, positions_room(cells))? {
        let key = (row[0], row[1]);
        let position = Position { long: row[2], short: row[3], cash: row[4], quantity: row[5], value: row[6] };
        let rises = rows.last_key_value().map_or(true, |(last, _)| *last < key);
        if !rises || !is_sound_position(&position) {
            return None;
        }
        rows.insert(key, position);
    }
    Some(rows)
}

/// Of the totals K7: "Soundness asks only that range."
pub fn is_sound_position(p: &Position) -> bool {
    let held = LONG_OR_SHORT.contains(&p.long) && LONG_OR_SHORT.contains(&p.short);
    held && CASH.contains(&p.cash) && TOTALS.contains(&p.quantity) && TOTALS.contains(&p.value)
}

/// The rows of a sound process table: "process ids (ranged as transaction ids) strictly rising, figures in range, approvals 0 or 1, a stage below".
pub fn read_processes(cells: &[i64]) -> Option<Processes> {
    let mut rows = Processes::new();
    for row in counted(cells, 1, PROCESS_CELLS, processes_room(cells))? {
        let key = row[0];
        let rises = rows.last_key_value().map_or(true, |(last, _)| *last < key);
        if !rises || !IDS.contains(&key) {
            return None;
        }
        rows.insert(key, sound_process(row)?);
    }
    Some(rows)
}

fn sound_process(row: &[i64]) -> Option<Process> {
    let process = Process {
        id: row[1],
        suffix: row[2],
        giving: row[3],
        taking: row[4],
        series: row[5],
        giver: approval(row[6])?,
        taker: approval(row[7])?,
        stage: STAGES.into_iter().find(|(number, _)| *number == row[8])?.1,
    };
    let figures = IDS.contains(&process.id)
        && SUFFIXES.contains(&process.suffix)
        && ACCOUNTS.contains(&process.giving)
        && ACCOUNTS.contains(&process.taking)
        && SERIES.contains(&process.series);
    figures.then_some(process)
}

/// "approvals 0 or 1"
fn approval(cell: i64) -> Option<bool> {
    match cell {
        0 => Some(false),
        1 => Some(true),
        _ => None,
    }
}

/// "pending (6), claimed (9), refused (10), cancelled (12) or done (house code 0)"
const STAGES: [(i64, Stage); 5] = [(6, Stage::Pending), (9, Stage::Claimed), (10, Stage::Refused), (12, Stage::Cancelled), (0, Stage::Done)];

fn stage_number(stage: Stage) -> i64 {
    STAGES.into_iter().find(|(_, named)| *named == stage).expect("each stage has a number").0
}

/// Writes the count, the current day and the rows. Cells past the last row stay as they are.
pub fn write_records(cells: &mut [i64], day: i64, rows: &Records) {
    cells[0] = rows.len() as i64;
    cells[1] = day;
    let places = cells[RECORDS_HEADER..].chunks_mut(RECORD_CELLS);
    for (cells, ((id, suffix), r)) in places.zip(rows) {
        cells.copy_from_slice(&[*id, *suffix, r.parent, r.kind, r.status, r.account, r.series, r.side, r.quantity, r.price, r.long, r.short, r.into, r.day]);
    }
}

pub fn write_positions(cells: &mut [i64], rows: &Positions) {
    cells[0] = rows.len() as i64;
    let places = cells[1..].chunks_mut(POSITION_CELLS);
    for (cells, ((account, series), p)) in places.zip(rows) {
        cells.copy_from_slice(&[*account, *series, p.long, p.short, p.cash, p.quantity, p.value]);
    }
}

/// "A row's nine cells: process id, id, suffix, giving and taking account, series, the two clearing approvals, and a stage"; "the giver's approval is
/// the seventh cell"
pub fn write_processes(cells: &mut [i64], rows: &Processes) {
    cells[0] = rows.len() as i64;
    let places = cells[1..].chunks_mut(PROCESS_CELLS);
    for (cells, (process, p)) in places.zip(rows) {
        let (giver, taker) = (i64::from(p.giver), i64::from(p.taker));
        cells.copy_from_slice(&[*process, p.id, p.suffix, p.giving, p.taking, p.series, giver, taker, stage_number(p.stage)]);
    }
}
