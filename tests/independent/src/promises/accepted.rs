//! When a run is accepted, as the list at the end of "A run" in `docs/FORMATS.md` says it.

use std::collections::{BTreeMap, HashSet};
use std::hash::Hash;

use super::delivered::Delivered;
use super::forms::MOST_TITLES;
use crate::INPUT_LIMIT;

const MOST_POINTS: usize = 64;
const MOST_PRICES: usize = 256;
const MOST_POSITIONS: usize = 1_024;

/// Whether nothing is wrong with an input. Then all that its run asks for is a buffer that its
/// statement fits.
pub fn nothing_is_wrong(input: &[u8]) -> bool {
    input.len() <= INPUT_LIMIT
        && Delivered::of(input).is_some_and(|run| {
            run.day.is_right()
                && run.keys_differ()
                && run.has_few_rows()
                && run.positions_are_dated()
                && run.titles_are_few()
                && run.no_line_lacks_anything()
        })
}

impl Delivered {
    fn keys_differ(&self) -> bool {
        differ(&self.tranches)
            && differ(&self.terms)
            && differ(self.prices.iter().map(|price| &price.isin))
            && differ(self.positions.iter().map(|line| line.reference))
    }

    fn has_few_rows(&self) -> bool {
        self.terms.len() <= MOST_POINTS
            && self.prices.len() <= MOST_PRICES
            && self.positions.len() <= MOST_POSITIONS
    }

    fn positions_are_dated(&self) -> bool {
        self.positions
            .iter()
            .all(|line| self.day.has_date(line.block, line.date))
    }

    fn titles_are_few(&self) -> bool {
        let mut titles = BTreeMap::<_, i64>::new();
        for line in &self.positions {
            *titles.entry((&line.isin, line.block)).or_default() += line.titles;
        }
        titles.values().all(|together| *together <= MOST_TITLES)
    }

    fn no_line_lacks_anything(&self) -> bool {
        self.positions.iter().all(|line| self.lack(line).is_none())
    }
}

fn differ<K: Eq + Hash>(keys: impl IntoIterator<Item = K>) -> bool {
    let mut taken = HashSet::new();
    keys.into_iter().all(|key| taken.insert(key))
}
