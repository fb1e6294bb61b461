//! What a statement says.

use super::delivered::{Block, Delivered};
use super::forms::number;

/// A row of a statement.
#[derive(Debug)]
pub struct ToldRow {
    pub isin: Vec<u8>,
    pub block: Block,
    pub scenario: i64,
    pub initial: i64,
    pub variation: i64,
}

/// A statement by its numbers.
#[derive(Debug)]
pub struct Told {
    pub rows: Vec<ToldRow>,
    pub margin: i64,
    pub rounded: i64,
}

impl Told {
    /// What the text says, where it is that of a statement.
    pub fn of(text: &[u8]) -> Option<Self> {
        let text = text.strip_prefix(b"STM;1\nISIN;BLOCK;SCEN;IM;VM\n")?;
        let lines: Vec<&[u8]> = text
            .strip_suffix(b"\n")?
            .split(|byte| *byte == b'\n')
            .collect();
        let [rows @ .., total, end] = &lines[..] else {
            return None;
        };
        let [margin, rounded] = numbers(total.strip_prefix(b"TOTAL;")?)?;
        let [counted] = numbers(end.strip_prefix(b"END;")?)?;
        (counted == rows.len() as i64).then_some(())?;
        Some(Told {
            rows: rows
                .iter()
                .map(|row| ToldRow::of(row))
                .collect::<Option<_>>()?,
            margin,
            rounded,
        })
    }

    /// Whether the statement is one of these lines, as far as they show it without amounts: its rows
    /// are those of the ISINs and blocks that have a line, and it counts the amounts that are rounded.
    pub fn is_of_lines(&self, run: &Delivered) -> bool {
        let rows = self.rows.iter().map(|row| (&row.isin[..], row.block));
        rows.eq(run.groups()) && self.rounded == run.rounded_amounts() as i64
    }

    /// Whether the margin is that of the rows: the sum of the blocks, none of them below 0.
    pub fn is_margin_of_rows(&self) -> bool {
        let blocks = [Block::Trade, Block::Failed, Block::Held, Block::CashOnly];
        self.margin == blocks.map(|block| self.charge(block).max(0)).iter().sum()
    }

    fn charge(&self, block: Block) -> i64 {
        let rows = self.rows.iter().filter(|row| row.block == block);
        rows.map(|row| row.initial - row.variation).sum()
    }
}

impl ToldRow {
    fn of(line: &[u8]) -> Option<Self> {
        let (isin, rest) = line.split_at_checked(12)?;
        let [b';', block, b';', rest @ ..] = rest else {
            return None;
        };
        let [scenario, initial, variation] = numbers(rest)?;
        Some(ToldRow {
            isin: isin.to_vec(),
            block: Block::of_letter(&[*block])?,
            scenario,
            initial,
            variation,
        })
    }

    /// Whether the row is one that its block may have.
    pub fn is_of_its_block(&self) -> bool {
        let scenarios = match self.block {
            Block::Trade => 1..=3,
            _ => 0..=0,
        };
        let may_vary = self.block != Block::CashOnly;
        scenarios.contains(&self.scenario) && self.initial >= 0 && (may_vary || self.variation == 0)
    }
}

/// As many numbers as are asked, parted by semicolons.
fn numbers<const COUNT: usize>(text: &[u8]) -> Option<[i64; COUNT]> {
    let numbers: Option<Vec<i64>> = text.split(|byte| *byte == b';').map(number).collect();
    numbers?.try_into().ok()
}
