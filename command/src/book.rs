//! A book in memory: the three tables that the calls are lent.

use velichundam::{Refusal, Reply};

/// Room for so many records, positions and processes.
#[derive(Clone, Copy, Debug, PartialEq, Eq)]
pub struct Rooms(pub [usize; 3]);

impl Rooms {
    pub const MOST: Rooms = Rooms([velichundam::MOST_RECORDS, velichundam::MOST_POSITIONS, velichundam::MOST_PROCESSES]);
}

#[derive(Clone, Debug, PartialEq, Eq)]
pub struct Book {
    pub records: Vec<i64>,
    pub positions: Vec<i64>,
    pub processes: Vec<i64>,
}

impl Book {
    pub fn empty(Rooms([records, positions, processes]): Rooms) -> Book {
        Book {
            records: vec![0; velichundam::records_len(records)],
            positions: vec![0; velichundam::positions_len(positions)],
            processes: vec![0; velichundam::processes_len(processes)],
        }
    }

    pub fn replay(&mut self, text: &[u8]) -> Reply {
        velichundam::replay(&mut self.records, &mut self.positions, &mut self.processes, text)
    }

    pub fn day(&self) -> i64 {
        self.records[velichundam::CURRENT_DAY]
    }

    pub fn records(&self) -> &[[i64; velichundam::RECORD_CELLS]] {
        rows(&self.records, velichundam::RECORDS_HEADER)
    }

    pub fn positions(&self) -> &[[i64; velichundam::POSITION_CELLS]] {
        rows(&self.positions, velichundam::POSITIONS_HEADER)
    }

    pub fn processes(&self) -> &[[i64; velichundam::PROCESS_CELLS]] {
        rows(&self.processes, velichundam::PROCESSES_HEADER)
    }

    /// The record of that id and suffix.
    pub fn record(&self, id: i64, suffix: i64) -> Option<&[i64]> {
        let place = self.records().binary_search_by_key(&(id, suffix), |row| (row[0], row[1])).ok()?;
        Some(&self.records()[place])
    }

    /// The records that are reported at the end of the current day, in table order.
    pub fn reportable(&self) -> Result<Vec<&[i64]>, Refusal> {
        let mut pairs = vec![0; velichundam::pairs_len(self.records().len())];
        let reply = velichundam::reportable(&self.records, &mut pairs);
        match reply {
            Reply::Listed { records } => {
                let listed = pairs.chunks(velichundam::PAIR_CELLS).take(records as usize);
                Ok(listed.filter_map(|pair| self.record(pair[0], pair[1])).collect())
            }
            other => Err(other.refusal().unwrap_or(Refusal(0))),
        }
    }
}

/// The rows that the count in cell 0 names.
fn rows<const N: usize>(cells: &[i64], header: usize) -> &[[i64; N]] {
    let (rows, _) = cells[header..].as_chunks();
    &rows[..usize::try_from(cells[0]).unwrap_or(0).min(rows.len())]
}
