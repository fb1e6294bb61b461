//! Points by term, and the two curves that are made of them.

use std::collections::btree_map::{BTreeMap, Entry};

use crate::number;
use crate::rows::{CurveKind, Point};

/// The most points of a curve.
const POINTS_LIMIT: usize = 64;

/// Rates by term.
#[derive(Default)]
pub struct Points(BTreeMap<i32, i64>);

impl Points {
    pub fn add(&mut self, row: Point) -> Result<(), u32> {
        let full = self.0.len() == POINTS_LIMIT;
        match self.0.entry(row.term) {
            Entry::Occupied(_) => Err(number::KEY_PRESENT),
            Entry::Vacant(_) if full => Err(number::FULL),
            Entry::Vacant(place) => {
                place.insert(row.rate);
                Ok(())
            }
        }
    }

    pub fn curve(&self, kind: CurveKind) -> Curve {
        Curve {
            kind,
            points: self.0.iter().map(|(term, rate)| (*term, *rate)).collect(),
        }
    }
}

pub struct Curve {
    kind: CurveKind,
    /// Terms and rates, by term.
    points: Vec<(i32, i64)>,
}

impl Curve {
    /// The rate for a term, or none where the term is past the last point.
    pub fn rate(&self, term: i32) -> Option<i64> {
        let place = self.points.partition_point(|(point, _)| *point < term);
        let (later, rate_there) = *self.points.get(place)?;
        if self.kind == CurveKind::Step || later == term || place == 0 {
            return Some(rate_there);
        }
        let (earlier, rate_before) = self.points[place - 1];
        let rise = (rate_there - rate_before) * i64::from(term - earlier);
        Some(rate_before + rise.div_euclid(i64::from(later - earlier)))
    }
}

#[cfg(test)]
mod tests {
    use super::*;

    fn curve(kind: CurveKind, points: &[(i32, i64)]) -> Curve {
        let mut kept = Points::default();
        for (term, rate) in points {
            kept.add(Point {
                term: *term,
                rate: *rate,
            })
            .unwrap();
        }
        kept.curve(kind)
    }

    #[test]
    fn the_documents_example() {
        let points = [(20, 95), (10, 100)];
        assert_eq!(curve(CurveKind::Sloping, &points).rate(13), Some(98));
        assert_eq!(curve(CurveKind::Step, &points).rate(13), Some(95));
    }

    #[test]
    fn ends_of_a_curve() {
        for kind in [CurveKind::Step, CurveKind::Sloping] {
            let curve = curve(kind, &[(10, 100), (20, -95)]);
            assert_eq!(curve.rate(0), Some(100));
            assert_eq!(curve.rate(10), Some(100));
            assert_eq!(curve.rate(20), Some(-95));
            assert_eq!(curve.rate(21), None);
        }
        assert_eq!(curve(CurveKind::Step, &[]).rate(0), None);
        assert_eq!(curve(CurveKind::Sloping, &[(0, 7)]).rate(0), Some(7));
    }

    #[test]
    fn places_of_points() {
        let mut points = Points::default();
        for term in 0..64 {
            assert_eq!(points.add(Point { term, rate: 0 }), Ok(()));
        }
        assert_eq!(
            points.add(Point { term: 63, rate: 0 }),
            Err(number::KEY_PRESENT)
        );
        assert_eq!(points.add(Point { term: 64, rate: 0 }), Err(number::FULL));
    }
}
