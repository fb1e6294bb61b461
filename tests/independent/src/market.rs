//! The day, the prices and the margin percentages that an account is margined on.

use std::collections::btree_map::{BTreeMap, Entry};

use crate::isin::Isin;
use crate::number;
use crate::rows::{CurveKind, DayRow, Percentage, Price, Rule};

/// The most prices of a run.
const PRICES_LIMIT: usize = 256;

/// The last day of residual life of each tranche but the sixth.
const TRANCHE_ENDS: [i32; 5] = [365, 1_095, 1_825, 3_650, 7_300];

/// Today and the next business day, with what the day's row says of the margin.
#[derive(Clone, Copy, Debug)]
pub struct Day {
    pub today: i32,
    pub next: i32,
    pub rule: Rule,
    pub curve: CurveKind,
}

impl Day {
    pub fn new(row: DayRow) -> Result<Self, u32> {
        if !(1..=10).contains(&(row.next - row.today)) {
            return Err(number::DATE);
        }
        Ok(Day {
            today: row.today,
            next: row.next,
            rule: row.rule,
            curve: row.curve,
        })
    }

    /// Whether a trade may settle on the date.
    pub fn is_settlement(&self, date: i32) -> bool {
        (self.today..=self.today + 365).contains(&date)
    }

    /// The term of a trade that settles on the date.
    pub fn term(&self, date: i32) -> i32 {
        (date - self.today - 1).max(0)
    }

    fn tranche(&self, maturity: i32) -> usize {
        let life = (maturity - self.today).max(0);
        1 + TRANCHE_ENDS.iter().filter(|end| life > **end).count()
    }
}

/// What a bond's titles are margined on.
#[derive(Clone, Copy, Debug)]
pub struct Terms {
    pub price: i64,
    /// None where the bond's tranche has no percentage.
    pub percentage: Option<i64>,
}

#[derive(Default)]
pub struct Market {
    /// Price and maturity.
    prices: BTreeMap<Isin, (i64, i32)>,
    /// By tranche; place 0 stays empty.
    percentages: [Option<i64>; 7],
}

impl Market {
    pub fn add_percentage(&mut self, row: Percentage) -> Result<(), u32> {
        let place = &mut self.percentages[row.tranche];
        if place.is_some() {
            return Err(number::KEY_PRESENT);
        }
        *place = Some(row.basis_points);
        Ok(())
    }

    pub fn add_price(&mut self, row: Price) -> Result<(), u32> {
        let full = self.prices.len() == PRICES_LIMIT;
        match self.prices.entry(row.isin) {
            Entry::Occupied(_) => Err(number::KEY_PRESENT),
            Entry::Vacant(_) if full => Err(number::FULL),
            Entry::Vacant(place) => {
                place.insert((row.price, row.maturity));
                Ok(())
            }
        }
    }

    /// The terms of an ISIN, or none where it has no price.
    pub fn terms(&self, isin: Isin, day: &Day) -> Option<Terms> {
        let (price, maturity) = *self.prices.get(&isin)?;
        Some(Terms {
            price,
            percentage: self.percentages[day.tranche(maturity)],
        })
    }
}

#[cfg(test)]
mod tests {
    use super::*;

    const DAY: Day = Day {
        today: 9_000,
        next: 9_001,
        rule: Rule::Net,
        curve: CurveKind::Step,
    };

    #[test]
    fn tranches_end_where_they_should() {
        let ends = [
            (-9_000, 1),
            (0, 1),
            (365, 1),
            (366, 2),
            (1_095, 2),
            (1_096, 3),
            (1_825, 3),
            (1_826, 4),
            (3_650, 4),
            (3_651, 5),
            (7_300, 5),
            (7_301, 6),
            (56_535, 6),
        ];
        for (life, tranche) in ends {
            assert_eq!(DAY.tranche(9_000 + life), tranche, "{life}");
        }
    }

    #[test]
    fn terms_of_trades() {
        for (after, term) in [(0, 0), (1, 0), (2, 1), (101, 100), (365, 364)] {
            assert!(DAY.is_settlement(9_000 + after));
            assert_eq!(DAY.term(9_000 + after), term);
        }
        assert!(!DAY.is_settlement(9_366) && !DAY.is_settlement(8_999));
    }
}
