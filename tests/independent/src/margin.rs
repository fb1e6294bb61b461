//! The margin of an account, by rows of ISIN and block.

use crate::account::Line;
use crate::isin::Isin;
use crate::market::Day;
use crate::number;
use crate::rows::{Block, Rule, Side};
use crate::{Book, Refused};

/// A year of 360 days in basis points.
const YEAR: i64 = 3_600_000;

pub struct Row {
    pub isin: Isin,
    pub block: Block,
    /// The worst scenario of trades, 0 outside them.
    pub scenario: usize,
    pub initial: i64,
    pub variation: i64,
}

pub struct Margin {
    pub rows: Vec<Row>,
    pub margin: i64,
    pub rounded: i64,
}

/// What lines have together: titles by side, and cash that is received less cash that is paid, at
/// its present value where it is discounted.
#[derive(Clone, Copy, Default)]
struct Sums {
    bought: i64,
    sold: i64,
    received: i64,
}

impl Sums {
    fn add(&mut self, line: &Line, present_value: i64) {
        match line.side {
            Side::Bought => {
                self.bought += line.titles;
                self.received -= present_value;
            }
            Side::Sold => {
                self.sold += line.titles;
                self.received += present_value;
            }
        }
    }

    fn variation(&self, price: i64) -> i64 {
        // Rounded down, also below zero.
        (price * (self.bought - self.sold)).div_euclid(10) + self.received
    }
}

/// The scenarios 1 to 3 of trades stand in places 0 to 2; other blocks use the first alone.
type Scenarios = [Sums; 3];

/// Works the margin, or tells the first line, by reference, that has none.
pub fn work(book: &Book) -> Result<Margin, Refused> {
    let day = &book.day;
    let curve = book.points.curve(day.curve);
    let names = &book.account.names;
    let terms: Vec<_> = names
        .iter()
        .map(|(isin, _)| book.market.terms(*isin, day))
        .collect();
    let mut groups = vec![Scenarios::default(); names.len()];
    let mut rounded = 0;

    for (reference, line) in &book.account.lines {
        let sums = &mut groups[line.group];
        let block = names[line.group].1;
        if block == Block::CashOnly {
            sums[0].add(line, line.cash);
            continue;
        }
        let refused = |number| Refused::margin(number, *reference);
        let terms = terms[line.group].ok_or(refused(number::NO_PRICE))?;
        terms.percentage.ok_or(refused(number::NO_PERCENTAGE))?;
        if block != Block::Trade {
            sums[0].add(line, line.cash);
            continue;
        }
        let term = day.term(line.date);
        let rate = curve.rate(term).ok_or(refused(number::NO_RATE))?;
        let present_value = present_value(line, rate * i64::from(term));
        rounded += 1;
        for (place, sums) in sums.iter_mut().enumerate() {
            if is_in_scenario(day, line.date, place + 1) {
                sums.add(line, present_value);
            }
        }
    }

    let mut rows = Vec::with_capacity(names.len());
    let mut block_charges = [0; 4];
    for ((isin, block), group) in &book.account.groups {
        let sums = &groups[*group];
        let row = |scenario, (initial, variation)| Row {
            isin: *isin,
            block: *block,
            scenario,
            initial,
            variation,
        };
        let row = match (block, terms[*group]) {
            (Block::CashOnly, _) => row(0, ((-sums[0].received).max(0), 0)),
            (_, None) => unreachable!("a line without a price was refused"),
            (_, Some(terms)) => {
                let percentage = terms
                    .percentage
                    .expect("a line without a percentage was refused");
                rounded += 2;
                let amounts = |sums: &Sums, titles| {
                    (
                        initial(titles, terms.price, percentage),
                        sums.variation(terms.price),
                    )
                };
                if *block == Block::Trade {
                    let scenarios = sums.map(|sums| amounts(&sums, charged(day.rule, &sums)));
                    let mut worst = 0;
                    for place in 1..3 {
                        if charge(scenarios[place]) > charge(scenarios[worst]) {
                            worst = place;
                        }
                    }
                    row(worst + 1, scenarios[worst])
                } else {
                    row(0, amounts(&sums[0], sums[0].bought + sums[0].sold))
                }
            }
        };
        block_charges[*block as usize] += row.initial - row.variation;
        rows.push(row);
    }
    let margin = block_charges
        .iter()
        .map(|charge: &i64| (*charge).max(0))
        .sum();
    Ok(Margin {
        rows,
        margin,
        rounded,
    })
}

fn charge((initial, variation): (i64, i64)) -> i64 {
    initial - variation
}

fn is_in_scenario(day: &Day, date: i32, scenario: usize) -> bool {
    match scenario {
        1 => true,
        2 => date != day.today,
        _ => date > day.next,
    }
}

/// The titles that the account's rule charges.
fn charged(rule: Rule, sums: &Sums) -> i64 {
    match rule {
        Rule::Net => (sums.bought - sums.sold).abs(),
        Rule::Gross => sums.bought.max(sums.sold),
    }
}

/// The initial margin of charged titles, rounded up. It is at most
/// 2,000,000 * 2,000,000 * 10,000 before it is divided.
fn initial(titles: i64, price: i64, percentage: i64) -> i64 {
    div_up(titles * price * percentage, 100_000)
}

/// The present value of a trade's cash: what is paid is rounded up, what is received is rounded
/// down. The cash times the year is at most 3.6e18 and so below 2^63, and the lower number is above
/// zero, as rate times term is at least -500 * 364.
fn present_value(line: &Line, rate_times_term: i64) -> i64 {
    let upper = line.cash * YEAR;
    let lower = YEAR + rate_times_term;
    match line.side {
        Side::Bought => div_up(upper, lower),
        Side::Sold => upper / lower,
    }
}

/// The quotient of a number that is not negative, rounded up.
fn div_up(upper: i64, lower: i64) -> i64 {
    upper / lower + i64::from(upper % lower != 0)
}

#[cfg(test)]
mod tests {
    use super::*;

    fn line(side: Side, cash: i64) -> Line {
        Line {
            group: 0,
            side,
            titles: 1,
            cash,
            date: 9_101,
        }
    }

    #[test]
    fn present_values_of_the_documents() {
        let discount = 360 * 100;
        assert_eq!(
            present_value(&line(Side::Bought, 101_000_000), discount),
            100_000_000
        );
        assert_eq!(
            present_value(&line(Side::Sold, 101_000_000), discount),
            100_000_000
        );
        assert_eq!(present_value(&line(Side::Bought, 1), discount), 1);
        assert_eq!(present_value(&line(Side::Sold, 1), discount), 0);
        assert_eq!(present_value(&line(Side::Bought, 1), 0), 1);
        // 10^12 * 3,600,000 / 3,418,000 is 1,053,247,513,165.59...
        let most = 1_000_000_000_000;
        assert_eq!(
            present_value(&line(Side::Bought, most), -500 * 364),
            1_053_247_513_166
        );
        assert_eq!(
            present_value(&line(Side::Sold, most), -500 * 364),
            1_053_247_513_165
        );
    }

    #[test]
    fn amounts_of_the_documents() {
        assert_eq!(initial(3, 999_999, 50), 1_500);
        let sums = |bought, sold| Sums {
            bought,
            sold,
            received: 0,
        };
        assert_eq!(sums(3, 0).variation(999_999), 299_999);
        assert_eq!(sums(0, 3).variation(999_999), -300_000);
        assert_eq!(charged(Rule::Net, &sums(1_000, 400)), 600);
        assert_eq!(charged(Rule::Gross, &sums(1_000, 400)), 1_000);
        assert_eq!(charged(Rule::Net, &sums(400, 1_000)), 600);
        assert_eq!(charged(Rule::Gross, &sums(400, 1_000)), 1_000);
    }

    #[test]
    fn the_largest_amounts_fit() {
        assert_eq!(initial(2_000_000, 2_000_000, 10_000), 400_000_000_000);
    }
}
