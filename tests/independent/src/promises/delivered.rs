//! What the rows of five sheets deliver, by the names of their columns.

use std::collections::BTreeSet;

use super::sheets::{Line, Sheet, Sheets, DAY, POSITIONS};

#[derive(Clone, Copy, Debug, PartialEq, Eq)]
pub struct Day {
    pub today: i64,
    pub next: i64,
}

pub struct Price {
    pub isin: Vec<u8>,
    pub maturity: i64,
}

/// The blocks, in the order of the statement's rows.
#[derive(Clone, Copy, Debug, PartialEq, Eq, PartialOrd, Ord, Hash)]
pub enum Block {
    Trade,
    Failed,
    Held,
    CashOnly,
}

pub struct Position {
    pub reference: u32,
    pub isin: Vec<u8>,
    pub block: Block,
    pub titles: i64,
    pub date: i64,
}

/// The parts of a run that a refusal or its statement may show.
pub struct Delivered {
    pub day: Day,
    pub tranches: Vec<i64>,
    pub terms: Vec<i64>,
    pub prices: Vec<Price>,
    pub positions: Vec<Position>,
}

/// What a line may lack.
#[derive(Clone, Copy, Debug, PartialEq, Eq)]
pub enum Lack {
    Price,
    Percentage,
    Rate,
}

impl Delivered {
    /// What the input delivers, where it is five sheets, of which that of the day has just one row,
    /// with nothing behind them.
    pub fn of(bytes: &[u8]) -> Option<Self> {
        Delivered::by(&Sheets::of(bytes))
    }

    pub fn by(sheets: &Sheets) -> Option<Self> {
        let five = sheets.five()?;
        if !five.iter().all(Sheet::is_whole) {
            return None;
        }
        let [days, percentages, points, prices, positions] = five;
        let [day] = days.rows() else { return None };
        Some(Delivered {
            day: days.day(day)?,
            tranches: percentages.numbers("TRANCHE")?,
            terms: points.numbers("TERM")?,
            prices: prices.each(Sheet::price)?,
            positions: positions.each(Sheet::position)?,
        })
    }

    /// The first of a price, a percentage and a rate that the line lacks.
    pub fn lack(&self, line: &Position) -> Option<Lack> {
        if line.block == Block::CashOnly {
            return None;
        }
        let Some(price) = self.prices.iter().find(|price| price.isin == line.isin) else {
            return Some(Lack::Price);
        };
        if !self.tranches.contains(&tranche(self.day.life(price))) {
            return Some(Lack::Percentage);
        }
        let term = self.day.term(line);
        let has_rate = line.block != Block::Trade || self.terms.iter().any(|point| *point >= term);
        (!has_rate).then_some(Lack::Rate)
    }

    /// The ISINs and blocks that have a line, by ISIN in byte order, then by block.
    pub fn groups(&self) -> BTreeSet<(&[u8], Block)> {
        self.positions
            .iter()
            .map(|line| (&line.isin[..], line.block))
            .collect()
    }

    /// The amounts that are rounded: two for each ISIN and block but the cash-only ones, and one for
    /// each trade.
    pub fn rounded_amounts(&self) -> usize {
        let groups = self.groups();
        let with_titles = groups
            .iter()
            .filter(|(_, block)| *block != Block::CashOnly)
            .count();
        let is_trade = |line: &&Position| line.block == Block::Trade;
        2 * with_titles + self.positions.iter().filter(is_trade).count()
    }
}

impl Day {
    /// `NEXT` is 1 to 10 days after `TODAY`.
    pub fn is_right(self) -> bool {
        (1..=10).contains(&(self.next - self.today))
    }

    /// Whether the date is within the days of the block.
    pub fn has_date(self, block: Block, date: i64) -> bool {
        match block {
            Block::Trade => (self.today..=self.today + 365).contains(&date),
            _ => date <= self.today,
        }
    }

    fn term(self, trade: &Position) -> i64 {
        (trade.date - self.today - 1).max(0)
    }

    fn life(self, price: &Price) -> i64 {
        (price.maturity - self.today).max(0)
    }
}

/// The tranche of a residual life in days.
fn tranche(life: i64) -> i64 {
    match life {
        ..=365 => 1,
        366..=1_095 => 2,
        1_096..=1_825 => 3,
        1_826..=3_650 => 4,
        3_651..=7_300 => 5,
        _ => 6,
    }
}

impl Block {
    pub fn of_letter(cell: &[u8]) -> Option<Self> {
        match cell {
            b"T" => Some(Block::Trade),
            b"F" => Some(Block::Failed),
            b"H" => Some(Block::Held),
            b"C" => Some(Block::CashOnly),
            _ => None,
        }
    }
}

impl<'i> Sheet<'i> {
    fn each<T>(&self, part: fn(&Self, &Line<'i>) -> Option<T>) -> Option<Vec<T>> {
        self.rows().iter().map(|row| part(self, row)).collect()
    }

    fn numbers(&self, name: &str) -> Option<Vec<i64>> {
        self.rows()
            .iter()
            .map(|row| self.number(row, name))
            .collect()
    }

    /// A row of the sheet of the day.
    pub fn day(&self, row: &Line<'i>) -> Option<Day> {
        self.is_of(&DAY).then_some(())?;
        Some(Day {
            today: self.number(row, "TODAY")?,
            next: self.number(row, "NEXT")?,
        })
    }

    fn price(&self, row: &Line<'i>) -> Option<Price> {
        Some(Price {
            isin: self.cell(row, "ISIN")?.to_vec(),
            maturity: self.number(row, "MATURITY")?,
        })
    }

    /// A row of the sheet of positions.
    pub fn position(&self, row: &Line<'i>) -> Option<Position> {
        self.is_of(&POSITIONS).then_some(())?;
        Some(Position {
            reference: self.number(row, "REF")?.try_into().ok()?,
            isin: self.cell(row, "ISIN")?.to_vec(),
            block: Block::of_letter(self.cell(row, "BLOCK")?)?,
            titles: self.number(row, "TITLES")?,
            date: self.number(row, "DATE")?,
        })
    }
}
