//! A lent table: a header, of which cell 0 is the row count, then the rows, sorted by their first two cells, or the processes by their first alone. The
//! header of the records has the current day after the count.

pub type RecordRow = [i64; 14];
pub type PositionRow = [i64; 7];
pub type ProcessRow = [i64; 9];
pub type Records<'a> = Table<'a, 2, 14>;
pub type Positions<'a> = Table<'a, 1, 7>;
pub type Processes<'a> = Table<'a, 1, 9>;

/// Whether a row's key is below another's, by two cells.
pub fn by_pair<const W: usize>(low: &[i64; W], high: &[i64; W]) -> bool {
    (low[0], low[1]) < (high[0], high[1])
}

/// Whether a row's key is below another's, by one cell.
pub fn by_first<const W: usize>(low: &[i64; W], high: &[i64; W]) -> bool {
    low[0] < high[0]
}

/// The header and the rows that its first cell counts, where each row is sound beside the header: one pass over them.
pub fn sound_rows<const H: usize, const W: usize>(
    cells: &[i64],
    most: usize,
    rise: impl Fn(&[i64; W], &[i64; W]) -> bool,
    is_sound: impl Fn(&[i64; H], &[i64; W]) -> bool,
) -> Option<(&[i64; H], &[[i64; W]])> {
    let (header, cells) = cells.split_first_chunk::<H>()?;
    let (rows, _) = cells.as_chunks::<W>();
    let count = usize::try_from(header[0]).ok()?;
    if count > rows.len().min(most) {
        return None;
    }
    let rows = &rows[..count];
    let mut last: Option<&[i64; W]> = None;
    for row in rows {
        let rises = last.is_none_or(|last| rise(last, row));
        if !rises || !is_sound(header, row) {
            return None;
        }
        last = Some(row);
    }
    Some((header, rows))
}

/// A sound table that may be written: its header, and the rows that it has room for.
pub struct Table<'a, const H: usize, const W: usize> {
    pub header: &'a mut [i64; H],
    rows: &'a mut [[i64; W]],
}

impl<'a, const H: usize, const W: usize> Table<'a, H, W> {
    pub fn open(
        cells: &'a mut [i64],
        most: usize,
        rise: impl Fn(&[i64; W], &[i64; W]) -> bool,
        is_sound: impl Fn(&[i64; H], &[i64; W]) -> bool,
    ) -> Option<Self> {
        sound_rows(cells, most, rise, is_sound)?;
        let (header, cells) = cells.split_first_chunk_mut::<H>()?;
        let (rows, _) = cells.as_chunks_mut::<W>();
        let room = rows.len().min(most);
        Some(Table { header, rows: &mut rows[..room] })
    }

    fn len(&self) -> usize {
        self.header[0] as usize
    }

    /// Whether so many more rows find no room.
    pub fn is_full(&self, more: usize) -> bool {
        self.len() + more > self.rows.len()
    }

    pub fn rows(&self) -> &[[i64; W]] {
        &self.rows[..self.len()]
    }

    pub fn rows_mut(&mut self) -> &mut [[i64; W]] {
        let len = self.len();
        &mut self.rows[..len]
    }

    /// The place of the row with that key, or the place where it would go.
    pub fn find(&self, major: i64, minor: i64) -> Result<usize, usize> {
        self.rows().binary_search_by_key(&(major, minor), |row| (row[0], row[1]))
    }

    /// The same by the first cell alone.
    pub fn find_first(&self, major: i64) -> Result<usize, usize> {
        self.rows().binary_search_by_key(&major, |row| row[0])
    }

    /// Moves the rows from `at` on up by `more` rows, and lends the gap.
    pub fn open_gap(&mut self, at: usize, more: usize) -> &mut [[i64; W]] {
        let len = self.len();
        self.rows.copy_within(at..len, at + more);
        self.header[0] += more as i64;
        &mut self.rows[at..at + more]
    }

    pub fn insert(&mut self, at: usize, row: [i64; W]) {
        self.open_gap(at, 1)[0] = row;
    }

    /// The row at a place that `find` gave, or a row of that key with zeros.
    pub fn row_or_zeros(&self, found: Result<usize, usize>, major: i64, minor: i64) -> [i64; W] {
        match found {
            Ok(at) => self.rows[at],
            Err(_) => {
                let mut row = [0; W];
                row[0] = major;
                row[1] = minor;
                row
            }
        }
    }

    /// Writes a row at the place that `find` gave for its key.
    pub fn put(&mut self, found: Result<usize, usize>, row: [i64; W]) {
        match found {
            Ok(at) => self.rows[at] = row,
            Err(at) => self.insert(at, row),
        }
    }
}
