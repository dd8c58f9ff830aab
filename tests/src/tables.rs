//! The cells of the three tables, and how they are printed.

use model::{Reply, Request};
use std::fmt::Write;

pub use velichundam::{positions_len, processes_len, records_len, MOST_POSITIONS, MOST_PROCESSES, MOST_RECORDS};
pub use velichundam::{CURRENT_DAY, POSITIONS_HEADER, POSITION_CELLS, PROCESSES_HEADER, PROCESS_CELLS, RECORDS_HEADER, RECORD_CELLS, RECORD_DAY};

/// Only the steps of a give-up and a replay are lent the processes.
#[derive(Clone, Debug, PartialEq, Eq)]
pub struct Tables {
    pub records: Vec<i64>,
    pub positions: Vec<i64>,
    pub processes: Vec<i64>,
}

/// The rows that cell 0 counts, after so many cells, as far as they lie in the cells: whatever the cells are.
fn counted(cells: &[i64], header: usize, width: usize) -> impl Iterator<Item = &[i64]> {
    let count = cells.first().map_or(0, |count| (*count).clamp(0, 100_000)) as usize;
    cells.get(header..).unwrap_or(&[]).chunks_exact(width).take(count)
}

impl Tables {
    /// Tables for requests that are not lent processes.
    pub fn without_processes(records: Vec<i64>, positions: Vec<i64>) -> Tables {
        Tables { records, positions, processes: Vec::new() }
    }

    pub fn record_rows(&self) -> impl Iterator<Item = &[i64]> {
        counted(&self.records, RECORDS_HEADER, RECORD_CELLS)
    }

    pub fn position_rows(&self) -> impl Iterator<Item = &[i64]> {
        counted(&self.positions, POSITIONS_HEADER, POSITION_CELLS)
    }

    pub fn process_rows(&self) -> impl Iterator<Item = &[i64]> {
        counted(&self.processes, PROCESSES_HEADER, PROCESS_CELLS)
    }

    /// The current day, or 0 where there is no cell for it.
    pub fn today(&self) -> i64 {
        self.records.get(CURRENT_DAY).copied().unwrap_or(0)
    }

    /// Whether each table has the same rows, and the records the same day, whatever the other cells are.
    pub fn has_the_rows_of(&self, other: &Tables) -> bool {
        self.today() == other.today()
            && self.record_rows().eq(other.record_rows())
            && self.position_rows().eq(other.position_rows())
            && self.process_rows().eq(other.process_rows())
    }

    /// The answer of the model, without a look at the tables that it leaves.
    pub fn model_reply(&self, request: &Request) -> Reply {
        model::handle(&mut self.records.clone(), &mut self.positions.clone(), &mut self.processes.clone(), request).reply
    }

    /// Every cell: the count and the day, a line for each row, and the cells past the last row.
    pub fn print(&self) -> String {
        let mut text = String::new();
        print_table(
            &mut text,
            "records",
            &self.records,
            [RECORDS_HEADER, RECORD_CELLS],
            "id suffix parent type status account series side quantity price long short into day",
        );
        print_table(&mut text, "positions", &self.positions, [POSITIONS_HEADER, POSITION_CELLS], "account series long short cash quantity value");
        print_table(&mut text, "processes", &self.processes, [PROCESSES_HEADER, PROCESS_CELLS], "process id suffix giving taking series giver taker stage");
        text
    }
}

fn print_table(text: &mut String, name: &str, cells: &[i64], [header, width]: [usize; 2], columns: &str) {
    let _ = writeln!(text, "{name}: {} cells", cells.len());
    for (k, cell) in cells.iter().take(header).enumerate() {
        let _ = writeln!(text, "  cell {k} ({}): {cell}", ["count", "day"][k]);
    }
    let Some(rest) = cells.get(header..) else { return };
    let rows = counted(cells, header, width).count();
    if rows > 0 {
        let _ = writeln!(text, "  rows: {columns}");
    }
    for (k, row) in rest.chunks(width).enumerate() {
        let mark = if k < rows { "row" } else { "past" };
        let words: Vec<String> = row.iter().map(i64::to_string).collect();
        let _ = writeln!(text, "  {mark} {k} (cell {}): {}", header + k * width, words.join(" "));
    }
}

/// The first cells in which two tables differ.
pub fn first_differences(name: &str, subject: &[i64], model: &[i64]) -> String {
    let mut text = String::new();
    let places = (0..subject.len().max(model.len())).filter(|k| subject.get(*k) != model.get(*k));
    for k in places.take(12) {
        let _ = writeln!(text, "  {name} cell {k}: book {:?}, model {:?}", subject.get(k), model.get(k));
    }
    text
}
