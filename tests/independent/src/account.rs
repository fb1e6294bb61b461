//! The lines of an account as they are taken, grouped by ISIN and block.

use std::collections::btree_map::{BTreeMap, Entry};

use crate::isin::Isin;
use crate::market::Day;
use crate::number;
use crate::rows::{Block, Position, Side, TITLES_LIMIT};

/// The most lines of a run.
const LINES_LIMIT: usize = 1_024;

pub struct Line {
    /// The place of its ISIN and block among the groups.
    pub group: usize,
    pub side: Side,
    pub titles: i64,
    pub cash: i64,
    pub date: i32,
}

#[derive(Default)]
pub struct Account {
    /// By reference.
    pub lines: BTreeMap<u32, Line>,
    /// The group of each ISIN and block that has a line.
    pub groups: BTreeMap<(Isin, Block), usize>,
    /// The ISIN and block of each group, in the order in which they came.
    pub names: Vec<(Isin, Block)>,
    /// The titles of each group, bought and sold together.
    titles: Vec<u32>,
}

impl Account {
    pub fn enter(&mut self, day: &Day, row: Position) -> Result<(), u32> {
        let full = self.lines.len() == LINES_LIMIT;
        let Entry::Vacant(place) = self.lines.entry(row.reference) else {
            return Err(number::KEY_PRESENT);
        };
        let date_fits = match row.block {
            Block::Trade => day.is_settlement(row.date),
            _ => row.date <= day.today,
        };
        if !date_fits {
            return Err(number::DATE);
        }
        // A refusal ends the run, so that a group that is made before one does no harm.
        let group = *self.groups.entry((row.isin, row.block)).or_insert_with(|| {
            self.names.push((row.isin, row.block));
            self.titles.push(0);
            self.titles.len() - 1
        });
        self.titles[group] += row.titles;
        if self.titles[group] > TITLES_LIMIT {
            return Err(number::TITLES_LIMIT);
        }
        if full {
            return Err(number::FULL);
        }
        place.insert(Line {
            group,
            side: row.side,
            titles: i64::from(row.titles),
            cash: row.cash,
            date: row.date,
        });
        Ok(())
    }
}
