//! The causes of refusals, as the table under "The promise of a run" in `docs/RULES.md` says them,
//! and the places at which the table in "What is answered" of `docs/FORMATS.md` has them told.

use std::collections::BTreeMap;

use super::delivered::{Day, Delivered, Lack, Position};
use super::sheets::{Role, Sheet, Sheets, DAY};
use crate::number::*;
use crate::{Refused, INPUT_LIMIT};

/// What is wrong with a run, and where.
pub struct Causes<'i> {
    sheets: Sheets<'i>,
    /// The first row of the day, by which positions are dated.
    day: Option<Day>,
    /// The references of the lines that lack something, with the number that says what.
    lacking: BTreeMap<u32, u32>,
    input_is_too_long: bool,
    statement_is_longer: bool,
}

impl<'i> Causes<'i> {
    /// Of an input and a buffer of so many bytes. The statement is so long as a buffer that is never
    /// too short is given it, where it is given one.
    pub fn of(input: &'i [u8], statement: Option<usize>, room: usize) -> Self {
        let sheets = Sheets::of(input);
        let days = &sheets.sheets[0];
        Causes {
            day: days.rows().first().and_then(|row| days.day(row)),
            lacking: Delivered::by(&sheets).map_or(BTreeMap::new(), lacking),
            input_is_too_long: input.len() > INPUT_LIMIT,
            statement_is_longer: statement.is_some_and(|length| length > room),
            sheets,
        }
    }

    /// Whether the cause of a refusal is so at the line, the cell and the reference that it tells,
    /// and all else that it tells is 0.
    pub fn hold(&self, told: Refused) -> bool {
        let place = (told.line as usize, told.cell as usize, told.reference);
        match (told.layer, place) {
            (0, (0, 0, 0)) => {
                told.number == TOO_LONG && (self.input_is_too_long || self.statement_is_longer)
            }
            (1, (line, cell, 0)) => self.hold_in_sheet(told.number, line, cell),
            (2, (line, 0, reference)) => self.hold_in_book(told.number, line, reference),
            (3, (0, 0, reference)) => self.hold_in_margin(told.number, reference),
            _ => false,
        }
    }

    /// The refusals whose causes hold, in the order in which the causes are looked for.
    pub fn in_order(&self) -> impl Iterator<Item = Refused> + '_ {
        let too_long = Refused {
            number: TOO_LONG,
            ..Refused::default()
        };
        let of_input = self.input_is_too_long.then_some(too_long);
        let of_statement = self.statement_is_longer.then_some(too_long);
        // One line more: the one that is missing.
        let lines = 1..=self.sheets.last_line() + 1;
        let of_lines = lines.flat_map(|line| self.tellable_at(line));
        let between = of_lines
            .chain(self.tellable_of_margin())
            .filter(|told| self.hold(*told));
        of_input.into_iter().chain(between).chain(of_statement)
    }

    /// What may be told of a line, in the order of the table.
    fn tellable_at(&self, line: usize) -> impl Iterator<Item = Refused> {
        let place = Refused {
            layer: 1,
            line: line as u32,
            ..Refused::default()
        };
        let of_line = move |number| Refused { number, ..place };
        let of_cell = move |cell| Refused {
            cell,
            ..of_line(VALUE)
        };
        let reference = self.reference_at(line);
        let of_row = move |number| Refused {
            layer: 2,
            reference,
            ..of_line(number)
        };

        let at = self.sheets.at(line);
        let width = at.map_or(0, |(sheet, _)| sheet.names().len()) as u32;
        [MARK, COLUMNS, CELL_COUNT]
            .map(of_line)
            .into_iter()
            .chain((1..=width).map(of_cell))
            .chain([KEY_PRESENT, DATE, TITLES_LIMIT, FULL].map(of_row))
            .chain([of_line(TRAILER)])
    }

    /// What may be told of the lines that lack something, by reference.
    fn tellable_of_margin(&self) -> impl Iterator<Item = Refused> + '_ {
        self.lacking.iter().map(|(reference, number)| Refused {
            number: *number,
            layer: 3,
            reference: *reference,
            ..Refused::default()
        })
    }

    fn hold_in_sheet(&self, number: u32, line: usize, cell: usize) -> bool {
        if self.sheets.is_behind(line) {
            return number == TRAILER && cell == 0;
        }
        let Some((sheet, role)) = self.sheets.at(line) else {
            return false;
        };
        match (number, role, cell) {
            (MARK, Role::Mark, 0) => !sheet.has_mark(),
            (COLUMNS, Role::Names, 0) => !sheet.has_names(),
            (CELL_COUNT, Role::Row(row), 0) => !sheet.has_width(&sheet.rows()[row]),
            (VALUE, Role::Row(row), 1..) => is_leftmost_misfit(sheet, row, cell - 1),
            (TRAILER, Role::Trailer, 0) => !sheet.has_count() || has_other_days_than_one(sheet),
            _ => false,
        }
    }

    fn hold_in_book(&self, number: u32, line: usize, reference: u32) -> bool {
        let Some((sheet, Role::Row(row))) = self.sheets.at(line) else {
            return false;
        };
        let is_new = || !sheet.has_key_above(row);
        let is_dated = || !self.has_wrong_date(sheet, row);
        let has_few_titles = || !sheet.has_too_many_titles(row);
        let is_so = match number {
            KEY_PRESENT => !is_new(),
            DATE => is_new() && !is_dated(),
            TITLES_LIMIT => is_new() && is_dated() && !has_few_titles(),
            FULL => sheet.has_most_rows_above(row) && is_new() && is_dated() && has_few_titles(),
            _ => false,
        };
        is_so && reference == self.reference_at(line)
    }

    /// The line of the reference lacks what the number says, and no line of a lower reference lacks
    /// anything.
    fn hold_in_margin(&self, number: u32, reference: u32) -> bool {
        self.lacking.first_key_value() == Some((&reference, &number))
    }

    /// A row of the day whose `NEXT` is not 1 to 10 days after `TODAY`, or a position whose date is
    /// outside its days.
    fn has_wrong_date(&self, sheet: &Sheet<'i>, row: usize) -> bool {
        let row = &sheet.rows()[row];
        if let Some(day) = sheet.day(row) {
            !day.is_right()
        } else if let (Some(day), Some(line)) = (self.day, sheet.position(row)) {
            !day.has_date(line.block, line.date)
        } else {
            false
        }
    }

    /// The reference of a row of positions, else 0.
    fn reference_at(&self, line: usize) -> u32 {
        match self.sheets.at(line) {
            Some((sheet, Role::Row(row))) => sheet
                .position(&sheet.rows()[row])
                .map_or(0, |line| line.reference),
            _ => 0,
        }
    }
}

fn is_leftmost_misfit(sheet: &Sheet, row: usize, place: usize) -> bool {
    let row = &sheet.rows()[row];
    sheet.is_misfit(row, place) && !(0..place).any(|left| sheet.is_misfit(row, left))
}

/// The sheet is that of the day, and has not just one row.
fn has_other_days_than_one(sheet: &Sheet) -> bool {
    sheet.is_of(&DAY) && sheet.rows().len() != 1
}

fn lacking(run: Delivered) -> BTreeMap<u32, u32> {
    let lack = |line: &Position| Some((line.reference, number_of(run.lack(line)?)));
    run.positions.iter().filter_map(lack).collect()
}

fn number_of(lack: Lack) -> u32 {
    match lack {
        Lack::Price => NO_PRICE,
        Lack::Percentage => NO_PERCENTAGE,
        Lack::Rate => NO_RATE,
    }
}
