//! Sheets: top lines, rows and trailer, read from the lines of one input.

use crate::{number, text, Refused};

/// The most names that line 2 of a sheet may have.
const NAMES_LIMIT: usize = 32;

/// The most columns that a kind needs.
const NEEDED_LIMIT: usize = 7;

/// A kind of row.
pub trait Row: Sized {
    const MARK: &'static [u8];
    /// The columns that are needed; a column's place here is its role.
    const COLUMNS: &'static [&'static [u8]];

    /// Reads a row from its cells, or tells that one does not fit.
    fn read(fields: &mut Fields) -> Option<Self>;
}

/// The needed cells of a row by their roles, and the leftmost that was found not to fit.
pub struct Fields<'r, 'i> {
    cells: &'r [&'i [u8]],
    columns: &'r [usize; NEEDED_LIMIT],
    leftmost_misfit: usize,
}

impl<'i> Fields<'_, 'i> {
    /// The cell of a role.
    pub fn cell(&self, role: usize) -> &'i [u8] {
        self.cells[self.columns[role]]
    }

    /// Reads the cell of a role, and notes it where it does not fit.
    pub fn read<T>(&mut self, role: usize, read: impl FnOnce(&[u8]) -> Option<T>) -> Option<T> {
        let value = read(self.cell(role));
        if value.is_none() {
            self.leftmost_misfit = self.leftmost_misfit.min(self.columns[role]);
        }
        value
    }
}

/// The trailer of a sheet that was read.
pub struct End {
    pub line: u32,
    pub rows: u32,
}

/// Reads an input line by line. An unended line at its end is none.
pub struct Reader<'i> {
    rest: &'i [u8],
    lines_read: u32,
    /// The cells of the line read last.
    cells: Vec<&'i [u8]>,
}

impl<'i> Reader<'i> {
    pub fn new(input: &'i [u8]) -> Self {
        Reader {
            rest: input,
            lines_read: 0,
            cells: Vec::with_capacity(NAMES_LIMIT),
        }
    }

    pub fn is_at_end(&self) -> bool {
        self.rest.is_empty()
    }

    /// The number of the line that follows the lines read, whether one stands there or not.
    pub fn next_line(&self) -> u32 {
        self.lines_read + 1
    }

    /// Reads the next line into its cells, or tells that there is none; then the cells mean nothing.
    fn read_line(&mut self) -> bool {
        self.cells.clear();
        let mut cell_start = 0;
        for (place, byte) in self.rest.iter().enumerate() {
            match byte {
                b';' => {
                    self.cells.push(&self.rest[cell_start..place]);
                    cell_start = place + 1;
                }
                b'\n' => {
                    self.cells.push(&self.rest[cell_start..place]);
                    self.rest = &self.rest[place + 1..];
                    self.lines_read += 1;
                    return true;
                }
                _ => {}
            }
        }
        false
    }

    /// Reads a sheet from its first line to its trailer, and hands each of its rows on with its
    /// line. The first refusal ends it.
    pub fn read_sheet<R: Row>(
        &mut self,
        mut take: impl FnMut(R, u32) -> Result<(), Refused>,
    ) -> Result<End, Refused> {
        self.read_mark::<R>()?;
        let columns = self.read_names::<R>()?;
        let width = self.cells.len();
        let mut rows = 0;
        loop {
            if !self.read_line() {
                return Err(Refused::sheet(number::TRAILER, self.next_line()));
            }
            let line = self.lines_read;
            if self.cells[0] == b"END" {
                return self.judge_trailer(rows);
            }
            if self.cells.len() != width {
                return Err(Refused::sheet(number::CELL_COUNT, line));
            }
            let mut fields = Fields {
                cells: &self.cells,
                columns: &columns,
                leftmost_misfit: usize::MAX,
            };
            match R::read(&mut fields) {
                Some(row) => take(row, line)?,
                None => return Err(Refused::cell(line, fields.leftmost_misfit as u32 + 1)),
            }
            rows += 1;
        }
    }

    /// Line 1 has two cells, the mark and a version from 1 to 255.
    fn read_mark<R: Row>(&mut self) -> Result<(), Refused> {
        if !self.read_line() {
            return Err(Refused::sheet(number::MARK, self.next_line()));
        }
        match self.cells[..] {
            [mark, version] if mark == R::MARK && text::within(version, 1, 255).is_some() => Ok(()),
            _ => Err(Refused::sheet(number::MARK, self.lines_read)),
        }
    }

    /// Line 2 has at most 32 names, and each needed one just once. Answers their columns by role.
    fn read_names<R: Row>(&mut self) -> Result<[usize; NEEDED_LIMIT], Refused> {
        if !self.read_line() {
            return Err(Refused::sheet(number::COLUMNS, self.next_line()));
        }
        let refused = Refused::sheet(number::COLUMNS, self.lines_read);
        if self.cells.len() > NAMES_LIMIT {
            return Err(refused);
        }
        let mut columns = [0; NEEDED_LIMIT];
        for (role, needed) in R::COLUMNS.iter().enumerate() {
            let mut places = (0..self.cells.len()).filter(|column| self.cells[*column] == *needed);
            match (places.next(), places.next()) {
                (Some(column), None) => columns[role] = column,
                _ => return Err(refused),
            }
        }
        Ok(columns)
    }

    /// The trailer, which is the line read last, has two cells, `END` and the count of the rows.
    fn judge_trailer(&self, rows: u32) -> Result<End, Refused> {
        match self.cells[..] {
            [_, count] if text::whole(count) == Some(u64::from(rows)) => Ok(End {
                line: self.lines_read,
                rows,
            }),
            _ => Err(Refused::sheet(number::TRAILER, self.lines_read)),
        }
    }
}
