//! The same run spelled in other ways.

use super::forms::number;
use super::sheets::{Kind, Sheet, Sheets, POSITIONS};
use crate::generator::random::Random;

/// The text of an accepted run, by its five sheets.
#[derive(Clone)]
pub struct Text {
    sheets: Vec<SheetText>,
}

#[derive(Clone)]
struct SheetText {
    kind: &'static Kind,
    version: Vec<u8>,
    names: Vec<Vec<u8>>,
    rows: Vec<Vec<Vec<u8>>>,
}

impl Text {
    pub fn of(input: &[u8]) -> Option<Self> {
        let sheets = Sheets::of(input);
        let five = sheets.five()?;
        let sheets = five.iter().map(SheetText::of).collect();
        Some(Text { sheets })
    }

    pub fn spell(&self) -> Vec<u8> {
        let mut text = Vec::new();
        for sheet in &self.sheets {
            sheet.spell(&mut text);
        }
        text
    }

    /// The columns of each sheet stand in another order.
    pub fn shuffle_columns(&mut self, random: &mut Random) {
        for sheet in &mut self.sheets {
            sheet.shuffle_columns(random);
        }
    }

    /// The rows of each sheet stand in another order.
    pub fn shuffle_rows(&mut self, random: &mut Random) {
        for sheet in &mut self.sheets {
            random.shuffle(&mut sheet.rows);
        }
    }

    /// The columns that are skipped are left out.
    pub fn leave_out_skipped(&mut self) {
        for sheet in &mut self.sheets {
            sheet.leave_out_skipped();
        }
    }

    /// Each sheet has any of the versions that are read.
    pub fn change_versions(&mut self, random: &mut Random) {
        for sheet in &mut self.sheets {
            sheet.version = (1 + random.below(255)).to_string().into_bytes();
        }
    }

    /// The lines of the account change their references among each other.
    pub fn exchange_references(&mut self, random: &mut Random) {
        let mut references: Vec<_> = self.references().map(|cell| cell.clone()).collect();
        random.shuffle(&mut references);
        for (cell, reference) in self.references().zip(references) {
            *cell = reference;
        }
    }

    /// The lines of the account have new references, one after another to the old ones from the
    /// lowest on.
    pub fn renew_references(&mut self, renewed: impl Iterator<Item = u32>) {
        let mut cells: Vec<_> = self.references().collect();
        cells.sort_by_key(|cell| number(cell));
        for (cell, reference) in cells.into_iter().zip(renewed) {
            *cell = reference.to_string().into_bytes();
        }
    }

    fn references(&mut self) -> impl Iterator<Item = &mut Vec<u8>> {
        self.sheets
            .iter_mut()
            .filter(|sheet| sheet.kind.mark == POSITIONS.mark)
            .flat_map(|sheet| sheet.column("REF"))
    }
}

impl SheetText {
    fn of(sheet: &Sheet) -> Self {
        let owned = |cells: &[&[u8]]| cells.iter().map(|cell| cell.to_vec()).collect();
        SheetText {
            kind: sheet.kind,
            version: sheet.version().to_vec(),
            names: owned(sheet.names()),
            rows: sheet.rows().iter().map(|row| owned(row)).collect(),
        }
    }

    fn spell(&self, text: &mut Vec<u8>) {
        let mark = vec![self.kind.mark.into(), self.version.clone()];
        let trailer = vec![b"END".to_vec(), self.rows.len().to_string().into_bytes()];
        let lines = [&mark, &self.names]
            .into_iter()
            .chain(&self.rows)
            .chain([&trailer]);
        for line in lines {
            text.extend_from_slice(&line.join(&b';'));
            text.push(b'\n');
        }
    }

    fn shuffle_columns(&mut self, random: &mut Random) {
        let mut order: Vec<usize> = (0..self.names.len()).collect();
        random.shuffle(&mut order);
        // A row whose first cell is `END` would be a trailer.
        let is_free_of_end = |place: &usize| self.rows.iter().all(|row| row[*place] != b"END");
        let first = order.iter().position(is_free_of_end);
        order.swap(0, first.expect("no cell under a needed name is END"));
        self.take_columns(&order);
    }

    fn leave_out_skipped(&mut self) {
        let is_needed = |place: &usize| self.kind.form_under(&self.names[*place]).is_some();
        let kept: Vec<usize> = (0..self.names.len()).filter(is_needed).collect();
        self.take_columns(&kept);
    }

    fn take_columns(&mut self, places: &[usize]) {
        for line in std::iter::once(&mut self.names).chain(&mut self.rows) {
            *line = places.iter().map(|place| line[*place].clone()).collect();
        }
    }

    fn column(&mut self, name: &str) -> impl Iterator<Item = &mut Vec<u8>> {
        let place = self.names.iter().position(|other| other == name.as_bytes());
        let place = place.expect("a needed name stands in line 2");
        self.rows.iter_mut().map(move |row| &mut row[place])
    }
}
