//! An input as lines, and lines as sheets.

use super::forms::{number, Form, MOST_TITLES};

/// The cells of a line.
pub type Line<'i> = Vec<&'i [u8]>;

const MOST_NAMES: usize = 32;

/// A kind of sheet.
pub struct Kind {
    pub mark: &'static str,
    /// The needed names, each with the form of its cells.
    pub columns: &'static [(&'static str, Form)],
    /// The name whose cells differ from row to row.
    pub key: Option<&'static str>,
    /// The most rows that the sheet may have; one of the day is counted at its trailer.
    pub most_rows: Option<usize>,
}

const DAY_NUMBER: Form = Form::Number(0..=65_535);

pub static DAY: Kind = Kind {
    mark: "DAY",
    columns: &[
        ("TODAY", DAY_NUMBER),
        ("NEXT", DAY_NUMBER),
        ("MODE", Form::Letter(b"NG")),
        ("CURVE", Form::Letter(b"SL")),
    ],
    key: None,
    most_rows: None,
};

pub static PERCENTAGES: Kind = Kind {
    mark: "PAR",
    columns: &[
        ("TRANCHE", Form::Number(1..=6)),
        ("PCT", Form::Number(0..=10_000)),
    ],
    key: Some("TRANCHE"),
    most_rows: None,
};

pub static POINTS: Kind = Kind {
    mark: "CRV",
    columns: &[("TERM", DAY_NUMBER), ("RATE", Form::Number(-500..=3_000))],
    key: Some("TERM"),
    most_rows: Some(64),
};

pub static PRICES: Kind = Kind {
    mark: "PRC",
    columns: &[
        ("ISIN", Form::Isin),
        ("PRICE", Form::Number(1..=2_000_000)),
        ("MATURITY", DAY_NUMBER),
    ],
    key: Some("ISIN"),
    most_rows: Some(256),
};

pub static POSITIONS: Kind = Kind {
    mark: "POS",
    columns: &[
        ("REF", Form::Number(1..=4_294_967_295)),
        ("ISIN", Form::Isin),
        ("SIDE", Form::Letter(b"BS")),
        ("BLOCK", Form::Letter(b"TFHC")),
        ("TITLES", Form::Titles),
        ("CASH", Form::Number(0..=1_000_000_000_000)),
        ("DATE", DAY_NUMBER),
    ],
    key: Some("REF"),
    most_rows: Some(1_024),
};

static KINDS: [&Kind; 5] = [&DAY, &PERCENTAGES, &POINTS, &PRICES, &POSITIONS];

/// The sheets of an input, as far as there are any, and what stands behind the fifth.
pub struct Sheets<'i> {
    pub sheets: Vec<Sheet<'i>>,
    /// The ended lines of the input.
    pub lines: usize,
    /// Whether something stands behind the last line feed.
    pub is_unended: bool,
}

/// The lines of one sheet, from its first to its trailer, or to the last where no trailer stands.
pub struct Sheet<'i> {
    pub kind: &'static Kind,
    /// The number of its first line, which may be missing.
    pub first_line: usize,
    lines: Vec<Line<'i>>,
    has_trailer: bool,
}

/// What a line is, that stands or is missing.
#[derive(Clone, Copy, Debug, PartialEq, Eq)]
pub enum Role {
    Mark,
    Names,
    /// A row, by the count of the rows above it.
    Row(usize),
    Trailer,
}

impl Kind {
    /// The form of the cells under a name, where the name is needed.
    pub fn form_under(&self, name: &[u8]) -> Option<&Form> {
        let mut columns = self.columns.iter();
        let column = columns.find(|(needed, _)| needed.as_bytes() == name);
        column.map(|(_, form)| form)
    }
}

impl<'i> Sheets<'i> {
    pub fn of(bytes: &'i [u8]) -> Self {
        let mut pieces: Vec<&[u8]> = bytes.split(|byte| *byte == b'\n').collect();
        let behind = pieces.pop().unwrap_or_default();
        let mut lines = pieces.iter().map(|line| cells(line));
        let mut sheets: Vec<Sheet> = Vec::new();
        let mut first_line = 1;
        for kind in KINDS {
            if sheets.last().is_some_and(|sheet| !sheet.has_trailer) {
                break;
            }
            let sheet = Sheet::from(kind, first_line, &mut lines);
            first_line += sheet.lines.len();
            sheets.push(sheet);
        }
        Sheets {
            sheets,
            lines: pieces.len(),
            is_unended: !behind.is_empty(),
        }
    }

    /// The number of the last line, also of one that is not ended.
    pub fn last_line(&self) -> usize {
        self.lines + usize::from(self.is_unended)
    }

    /// The five sheets, each with its trailer, with nothing behind them.
    pub fn five(&self) -> Option<&[Sheet<'i>; 5]> {
        let five: &[Sheet; 5] = self.sheets[..].try_into().ok()?;
        (five[4].has_trailer && !self.is_behind(self.last_line())).then_some(five)
    }

    /// The sheet that has the line, and what it is there.
    pub fn at(&self, line: usize) -> Option<(&Sheet<'i>, Role)> {
        self.sheets
            .iter()
            .find_map(|sheet| Some((sheet, sheet.role(line)?)))
    }

    /// Whether the line stands behind the fifth sheet, ended or not.
    pub fn is_behind(&self, line: usize) -> bool {
        let is_below =
            |sheet: &Sheet| sheet.has_trailer && line >= sheet.first_line + sheet.lines.len();
        self.sheets.get(4).is_some_and(is_below) && line <= self.last_line()
    }
}

fn cells(line: &[u8]) -> Line<'_> {
    line.split(|byte| *byte == b';').collect()
}

fn is_end(line: &Line) -> bool {
    line[0] == b"END"
}

impl<'i> Sheet<'i> {
    /// The sheet that begins with the next line. Its trailer is the first line from its third on
    /// whose first cell is `END`.
    fn from(
        kind: &'static Kind,
        first_line: usize,
        lines: &mut impl Iterator<Item = Line<'i>>,
    ) -> Self {
        let mut sheet = Sheet {
            kind,
            first_line,
            lines: Vec::new(),
            has_trailer: false,
        };
        while !sheet.has_trailer {
            let Some(line) = lines.next() else { break };
            sheet.has_trailer = sheet.lines.len() >= 2 && is_end(&line);
            sheet.lines.push(line);
        }
        sheet
    }

    fn role(&self, line: usize) -> Option<Role> {
        // One line more where the trailer, or a line above it, is missing.
        let lines = self.lines.len() + usize::from(!self.has_trailer);
        let place = line.checked_sub(self.first_line)?;
        match place {
            _ if place >= lines => None,
            0 => Some(Role::Mark),
            1 => Some(Role::Names),
            _ if place - 2 < self.rows().len() => Some(Role::Row(place - 2)),
            _ => Some(Role::Trailer),
        }
    }

    pub fn is_of(&self, kind: &Kind) -> bool {
        self.kind.mark == kind.mark
    }

    pub fn version(&self) -> &'i [u8] {
        let version = self.lines.first().and_then(|line| line.get(1));
        version.copied().unwrap_or_default()
    }

    pub fn names(&self) -> &[&'i [u8]] {
        self.lines.get(1).map_or(&[], |names| names)
    }

    pub fn rows(&self) -> &[Line<'i>] {
        let end = self.lines.len() - usize::from(self.has_trailer);
        self.lines.get(2..end).unwrap_or(&[])
    }

    /// The place of the cells under a name.
    pub fn column(&self, name: &str) -> Option<usize> {
        self.names()
            .iter()
            .position(|other| *other == name.as_bytes())
    }

    /// The cell of a row under a name.
    pub fn cell(&self, row: &Line<'i>, name: &str) -> Option<&'i [u8]> {
        row.get(self.column(name)?).copied()
    }

    /// The number that a row's cell under a name spells.
    pub fn number(&self, row: &Line<'i>, name: &str) -> Option<i64> {
        number(self.cell(row, name)?)
    }

    /// Line 1 has two cells: the mark, and a version from 1 to 255.
    pub fn has_mark(&self) -> bool {
        let versions = Form::Number(1..=255);
        self.lines.first().is_some_and(|line| {
            matches!(line[..], [mark, version]
                if mark == self.kind.mark.as_bytes() && versions.fits(version, b""))
        })
    }

    /// Line 2 has at most 32 names, and each needed one once.
    pub fn has_names(&self) -> bool {
        let names = self.names();
        let stands_once = |needed: &str| {
            let those = names.iter().filter(|name| **name == needed.as_bytes());
            those.count() == 1
        };
        names.len() <= MOST_NAMES && self.kind.columns.iter().all(|(name, _)| stands_once(name))
    }

    /// The row has as many cells as line 2.
    pub fn has_width(&self, row: &Line) -> bool {
        row.len() == self.names().len()
    }

    /// Whether a cell of a row stands under a needed name and is outside its form or range.
    pub fn is_misfit(&self, row: &Line<'i>, place: usize) -> bool {
        let (Some(name), Some(cell)) = (self.names().get(place), row.get(place)) else {
            return false;
        };
        let block = self.cell(row, "BLOCK").unwrap_or_default();
        let form = self.kind.form_under(name);
        form.is_some_and(|form| !form.fits(cell, block))
    }

    pub fn fits(&self, row: &Line<'i>) -> bool {
        self.has_width(row) && !(0..row.len()).any(|place| self.is_misfit(row, place))
    }

    /// The trailer has two cells; the second is the count of the rows.
    pub fn has_count(&self) -> bool {
        let count = self.rows().len() as i64;
        self.has_trailer
            && self.lines.last().is_some_and(
                |line| matches!(line[..], [_, counted] if number(counted) == Some(count)),
            )
    }

    /// Whether this is a sheet of its kind, from its first line to its trailer.
    pub fn is_whole(&self) -> bool {
        self.has_mark()
            && self.has_names()
            && self.rows().iter().all(|row| self.fits(row))
            && self.has_count()
    }

    /// Whether a row has the key of one above it.
    pub fn has_key_above(&self, row: usize) -> bool {
        let Some(column) = self.kind.key.and_then(|key| self.column(key)) else {
            return false;
        };
        // A key has one spelling, so that keys are the same where their cells are.
        let key = self.rows()[row].get(column);
        self.rows()[..row]
            .iter()
            .any(|above| above.get(column) == key)
    }

    /// Whether the titles of a position and those above it of its ISIN and block, bought and sold
    /// together, pass the most.
    pub fn has_too_many_titles(&self, row: usize) -> bool {
        if !self.is_of(&POSITIONS) {
            return false;
        }
        let columns = ["ISIN", "BLOCK", "TITLES"].map(|name| self.column(name));
        let [Some(isin), Some(block), Some(titles)] = columns else {
            return false;
        };
        let rows = self.rows();
        let group = |row: &Line<'i>| (row.get(isin).copied(), row.get(block).copied());
        let own = group(&rows[row]);
        let together: i64 = rows[..=row]
            .iter()
            .filter(|other| group(other) == own)
            .filter_map(|other| number(other.get(titles)?))
            .sum();
        together > MOST_TITLES
    }

    /// Whether as many rows as the sheet may have stand above a row.
    pub fn has_most_rows_above(&self, row: usize) -> bool {
        self.kind.most_rows.is_some_and(|most| row >= most)
    }
}
