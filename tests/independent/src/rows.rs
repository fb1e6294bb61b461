//! The five kinds of row, as their cells hold them.

use crate::isin::Isin;
use crate::sheet::{Fields, Row};
use crate::text::{signed_within, within};

/// The most titles that a line, or the lines of an ISIN and block together, may have.
pub const TITLES_LIMIT: u32 = 2_000_000;

const PRICE_LIMIT: u64 = 2_000_000;
const CASH_LIMIT: u64 = 1_000_000_000_000;

#[derive(Clone, Copy, Debug, PartialEq, Eq)]
pub enum Rule {
    Net,
    Gross,
}

#[derive(Clone, Copy, Debug, PartialEq, Eq)]
pub enum CurveKind {
    Step,
    Sloping,
}

#[derive(Clone, Copy, Debug, PartialEq, Eq)]
pub enum Side {
    Bought,
    Sold,
}

/// The blocks, in the order of the statement's rows.
#[derive(Clone, Copy, Debug, PartialEq, Eq, PartialOrd, Ord)]
pub enum Block {
    Trade,
    Failed,
    Held,
    CashOnly,
}

pub struct DayRow {
    pub today: i32,
    pub next: i32,
    pub rule: Rule,
    pub curve: CurveKind,
}

pub struct Percentage {
    pub tranche: usize,
    pub basis_points: i64,
}

pub struct Point {
    pub term: i32,
    pub rate: i64,
}

pub struct Price {
    pub isin: Isin,
    pub price: i64,
    pub maturity: i32,
}

pub struct Position {
    pub reference: u32,
    pub isin: Isin,
    pub side: Side,
    pub block: Block,
    pub titles: u32,
    pub cash: i64,
    pub date: i32,
}

/// A day number, and a term in days has the same range.
fn day_number(cell: &[u8]) -> Option<i32> {
    within(cell, 0, 65_535).map(|day| day as i32)
}

impl Row for DayRow {
    const MARK: &'static [u8] = b"DAY";
    const COLUMNS: &'static [&'static [u8]] = &[b"TODAY", b"NEXT", b"MODE", b"CURVE"];

    fn read(fields: &mut Fields) -> Option<Self> {
        let today = fields.read(0, day_number);
        let next = fields.read(1, day_number);
        let rule = fields.read(2, |cell| match cell {
            b"N" => Some(Rule::Net),
            b"G" => Some(Rule::Gross),
            _ => None,
        });
        let curve = fields.read(3, |cell| match cell {
            b"S" => Some(CurveKind::Step),
            b"L" => Some(CurveKind::Sloping),
            _ => None,
        });
        Some(DayRow {
            today: today?,
            next: next?,
            rule: rule?,
            curve: curve?,
        })
    }
}

impl Row for Percentage {
    const MARK: &'static [u8] = b"PAR";
    const COLUMNS: &'static [&'static [u8]] = &[b"TRANCHE", b"PCT"];

    fn read(fields: &mut Fields) -> Option<Self> {
        let tranche = fields.read(0, |cell| within(cell, 1, 6));
        let basis_points = fields.read(1, |cell| within(cell, 0, 10_000));
        Some(Percentage {
            tranche: tranche? as usize,
            basis_points: basis_points? as i64,
        })
    }
}

impl Row for Point {
    const MARK: &'static [u8] = b"CRV";
    const COLUMNS: &'static [&'static [u8]] = &[b"TERM", b"RATE"];

    fn read(fields: &mut Fields) -> Option<Self> {
        let term = fields.read(0, day_number);
        let rate = fields.read(1, |cell| signed_within(cell, -500, 3_000));
        Some(Point {
            term: term?,
            rate: rate?,
        })
    }
}

impl Row for Price {
    const MARK: &'static [u8] = b"PRC";
    const COLUMNS: &'static [&'static [u8]] = &[b"ISIN", b"PRICE", b"MATURITY"];

    fn read(fields: &mut Fields) -> Option<Self> {
        let isin = fields.read(0, Isin::parse);
        let price = fields.read(1, |cell| within(cell, 1, PRICE_LIMIT));
        let maturity = fields.read(2, day_number);
        Some(Price {
            isin: isin?,
            price: price? as i64,
            maturity: maturity?,
        })
    }
}

impl Row for Position {
    const MARK: &'static [u8] = b"POS";
    const COLUMNS: &'static [&'static [u8]] = &[
        b"REF", b"ISIN", b"SIDE", b"BLOCK", b"TITLES", b"CASH", b"DATE",
    ];

    fn read(fields: &mut Fields) -> Option<Self> {
        let reference = fields.read(0, |cell| within(cell, 1, u64::from(u32::MAX)));
        let isin = fields.read(1, Isin::parse);
        let side = fields.read(2, |cell| match cell {
            b"B" => Some(Side::Bought),
            b"S" => Some(Side::Sold),
            _ => None,
        });
        let block = fields.read(3, |cell| match cell {
            b"T" => Some(Block::Trade),
            b"F" => Some(Block::Failed),
            b"H" => Some(Block::Held),
            b"C" => Some(Block::CashOnly),
            _ => None,
        });
        // Titles are judged by the block, and beside a block that is none by their widest range.
        let (fewest, most) = match block {
            Some(Block::CashOnly) => (0, 0),
            Some(_) => (1, TITLES_LIMIT),
            None => (0, TITLES_LIMIT),
        };
        let titles = fields.read(4, |cell| within(cell, fewest, u64::from(most)));
        let cash = fields.read(5, |cell| within(cell, 0, CASH_LIMIT));
        let date = fields.read(6, day_number);
        Some(Position {
            reference: reference? as u32,
            isin: isin?,
            side: side?,
            block: block?,
            titles: titles? as u32,
            cash: cash? as i64,
            date: date?,
        })
    }
}
