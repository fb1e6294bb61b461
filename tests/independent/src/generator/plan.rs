//! What a run holds, as numbers: a good account on a good market, and what may be wrong in it.

use std::collections::BTreeSet;

use super::random::Random;
use crate::Isin;

/// How large a run is.
#[derive(Clone, Copy, Debug, PartialEq, Eq)]
pub enum Size {
    Small,
    Middle,
    Limits,
}

#[derive(Clone)]
pub struct DayPlan {
    pub today: i64,
    pub next: i64,
    pub mode: &'static str,
    pub curve: &'static str,
}

#[derive(Clone)]
pub struct PricePlan {
    pub isin: [u8; 12],
    pub price: i64,
    pub maturity: i64,
}

#[derive(Clone)]
pub struct LinePlan {
    pub reference: i64,
    pub isin: [u8; 12],
    pub side: u8,
    pub block: u8,
    pub titles: i64,
    pub cash: i64,
    pub date: i64,
}

#[derive(Clone)]
pub struct Plan {
    /// The day that the rest goes by, and the rows of its sheet.
    pub day: DayPlan,
    pub days: Vec<DayPlan>,
    pub percentages: Vec<(i64, i64)>,
    pub points: Vec<(i64, i64)>,
    pub prices: Vec<PricePlan>,
    pub lines: Vec<LinePlan>,
}

const LAST_DAY: i64 = 65_535;
const MOST_TITLES: i64 = 2_000_000;
const MOST_CASH: i64 = 1_000_000_000_000;
const TRANCHE_EDGES: [i64; 14] = [
    -1, 0, 1, 365, 366, 1_095, 1_096, 1_825, 1_826, 3_650, 3_651, 7_300, 7_301, 20_000,
];

/// ISINs that differ from all taken before.
pub struct Isins {
    taken: BTreeSet<[u8; 12]>,
    prefix: [u8; 10],
}

impl Isins {
    pub fn new(random: &mut Random) -> Self {
        let mut prefix = *b"ES00000010";
        if random.chance(50) {
            for (place, byte) in prefix.iter_mut().enumerate() {
                *byte = letter_or_digit(random, place < 2);
            }
        }
        Isins {
            taken: BTreeSet::new(),
            prefix,
        }
    }

    pub fn fresh(&mut self, random: &mut Random) -> [u8; 12] {
        loop {
            let mut front = [0; 11];
            front[..10].copy_from_slice(&self.prefix);
            // From all bytes new to the last alone, so that neighbours differ late too.
            let renewed = random.pick(&[0, 2, 5, 8, 9]);
            for (place, byte) in front.iter_mut().enumerate().skip(renewed) {
                *byte = letter_or_digit(random, place < 2);
            }
            let isin = Isin::with_check_digit(&front).expect("a check digit is always due");
            if self.taken.insert(isin) {
                return isin;
            }
        }
    }
}

fn letter_or_digit(random: &mut Random, letter: bool) -> u8 {
    if letter || random.chance(40) {
        b'A' + random.below(26) as u8
    } else {
        b'0' + random.below(10) as u8
    }
}

impl Plan {
    /// A run that should be accepted.
    pub fn good(random: &mut Random, size: Size) -> Self {
        let day = good_day(random);
        let mut isins = Isins::new(random);
        let priced = match size {
            Size::Small => random.below(6),
            Size::Middle => 1 + random.below(40),
            Size::Limits => random.pick(&[1, 20, 255, 256, 256]),
        };
        let prices: Vec<_> = (0..priced)
            .map(|_| good_price(random, &day, &mut isins))
            .collect();
        let unpriced: Vec<_> = (0..random.below(3)).map(|_| isins.fresh(random)).collect();

        let count = match size {
            Size::Small => random.below(13),
            Size::Middle => random.below(120),
            Size::Limits => random.pick(&[900, 1_023, 1_024, 1_024]),
        };
        let lines = good_lines(random, &day, &prices, &unpriced, &mut isins, count, size);
        let mut plan = Plan {
            percentages: good_percentages(random),
            points: Vec::new(),
            days: vec![day.clone()],
            day,
            prices,
            lines,
        };
        plan.points = plan.good_points(random, size);
        if random.chance(20) && plan.lines.iter().all(|line| line.block == b'C') {
            plan.percentages.clear();
        }
        plan
    }

    pub fn today(&self) -> i64 {
        self.day.today
    }

    pub fn term(&self, line: &LinePlan) -> i64 {
        (line.date - self.today() - 1).max(0)
    }

    fn longest_term(&self) -> Option<i64> {
        self.lines
            .iter()
            .filter(|line| line.block == b'T')
            .map(|line| self.term(line))
            .max()
    }

    /// Points that have a rate for every trade.
    fn good_points(&self, random: &mut Random, size: Size) -> Vec<(i64, i64)> {
        let longest = self.longest_term();
        if longest.is_none() && random.chance(50) {
            return Vec::new();
        }
        let longest = longest.unwrap_or(0);
        let last = match random.below(5) {
            0 | 1 => longest,
            2 => longest.max(364),
            3 => random.between(longest, longest + 40),
            _ => random.between(longest, LAST_DAY),
        };
        let mut terms = BTreeSet::from([last]);
        let wished = match size {
            Size::Small => random.below(6),
            Size::Middle => random.below(64),
            Size::Limits => 63,
        };
        for _ in 0..4 * wished {
            if terms.len() > wished {
                break;
            }
            let term = match random.below(4) {
                0 if !self.lines.is_empty() => {
                    let term = self.term(random.one_of(&self.lines)) + random.between(-1, 1);
                    term.max(0)
                }
                1 => random.between(0, longest),
                2 => random.between(0, 400),
                _ => random.between(0, last),
            };
            if term <= LAST_DAY {
                terms.insert(term);
            }
        }
        let mut points: Vec<_> = terms
            .into_iter()
            .map(|term| (term, good_rate(random)))
            .collect();
        random.shuffle(&mut points);
        points
    }

    /// A place in the rows, more often near their ends than in the middle.
    fn place(random: &mut Random, len: usize) -> usize {
        if len == 0 || random.chance(30) {
            len
        } else {
            random.below(len + 1)
        }
    }

    /// Makes one thing wrong that only the book or the margin can see, if there is something to make
    /// wrong.
    pub fn spoil(&mut self, random: &mut Random) {
        match random.below(25) {
            0 => {
                if let Some(day) = self.days.last_mut() {
                    let next = day.today + random.pick(&[0, 11, -1, 12, -300, 400]);
                    day.next = next.clamp(0, LAST_DAY);
                }
            }
            1 => match random.below(4) {
                0 => self.days.clear(),
                1 => self.days.push(self.day.clone()),
                2 => self.days.push(good_day(random)),
                _ => {
                    let mut day = good_day(random);
                    day.next = day.today;
                    self.days.push(day);
                }
            },
            2 => {
                if let Some((tranche, _)) = pick(random, &self.percentages) {
                    let place = Self::place(random, self.percentages.len());
                    self.percentages
                        .insert(place, (tranche, good_percentage(random)));
                }
            }
            3 => {
                if let Some((term, _)) = pick(random, &self.points) {
                    let place = Self::place(random, self.points.len());
                    self.points.insert(place, (term, good_rate(random)));
                }
            }
            4 => {
                if let Some(mut price) = pick(random, &self.prices) {
                    price.price = random.between(1, MOST_TITLES);
                    let place = Self::place(random, self.prices.len());
                    self.prices.insert(place, price);
                }
            }
            5 | 6 => {
                if self.lines.len() > 1 {
                    let copied = pick(random, &self.lines).unwrap();
                    let mut line = pick(random, &self.lines).unwrap();
                    line.reference = copied.reference;
                    if random.chance(30) {
                        line.date = random.between(0, LAST_DAY);
                    }
                    let place = Self::place(random, self.lines.len());
                    self.lines.insert(place, line);
                }
            }
            7..=9 => {
                let today = self.today();
                if !self.lines.is_empty() {
                    let place = random.below(self.lines.len());
                    let line = &mut self.lines[place];
                    let after = match line.block {
                        b'T' => random.pick(&[-1, 366, 367, -100, 1_000]),
                        _ => random.pick(&[1, 1, 2, 300]),
                    };
                    line.date = (today + after).clamp(0, LAST_DAY);
                }
            }
            10..=12 => self.fill_titles(random),
            13 => {
                let mut terms: BTreeSet<i64> = self.points.iter().map(|(term, _)| *term).collect();
                let wished = 64 + random.below(3);
                while terms.len() < wished {
                    let term = random.between(0, 500);
                    if terms.insert(term) {
                        self.points.push((term, good_rate(random)));
                    }
                }
                if random.chance(30) {
                    let copied = random.pick(&self.points);
                    let place = Self::place(random, self.points.len());
                    self.points.insert(place, copied);
                }
            }
            14 => {
                if random.chance(50) {
                    self.add_prices(random);
                }
            }
            15 => {
                if random.chance(35) {
                    self.add_lines(random);
                }
            }
            16..=18 => {
                // A price that a line needs, or just one.
                let needed: Vec<_> = self
                    .lines
                    .iter()
                    .filter(|line| line.block != b'C')
                    .map(|line| line.isin)
                    .collect();
                if let Some(isin) = pick(random, &needed) {
                    self.prices.retain(|price| price.isin != isin);
                }
            }
            19 => {
                // Several that a line needs, so that the order of their refusals shows.
                self.percentages.retain(|_| random.chance(20));
                self.points.retain(|_| random.chance(20));
                if random.chance(30) && !self.prices.is_empty() {
                    self.prices.remove(random.below(self.prices.len()));
                }
            }
            20 | 21 => {
                for _ in 0..1 + random.below(4) {
                    if !self.percentages.is_empty() {
                        self.percentages
                            .remove(random.below(self.percentages.len()));
                    }
                }
            }
            _ => {
                // The curve ends before the longest term.
                let Some(longest) = self.longest_term() else {
                    return;
                };
                let last = match random.below(3) {
                    0 => longest - 1,
                    1 => random.between(0, longest) - 1,
                    _ => -1,
                };
                self.points.retain(|(term, _)| *term <= last);
                if last >= 0
                    && self.points.iter().all(|(term, _)| *term != last)
                    && self.points.len() < 64
                {
                    self.points.push((last, good_rate(random)));
                }
            }
        }
    }

    /// Adds lines of one ISIN and block until they are just at, or past, the most titles together.
    fn fill_titles(&mut self, random: &mut Random) {
        let with_titles: Vec<_> = self
            .lines
            .iter()
            .filter(|line| line.block != b'C')
            .cloned()
            .collect();
        let Some(model) = pick(random, &with_titles) else {
            return;
        };
        let standing: i64 = self
            .lines
            .iter()
            .filter(|line| line.isin == model.isin && line.block == model.block)
            .map(|line| line.titles)
            .sum();
        let past = random.pick(&[0, 1, 1, 2, 1_000_000]);
        let mut left = MOST_TITLES + past - standing;
        while left > 0 {
            let mut line = model.clone();
            line.titles = if random.chance(50) {
                left
            } else {
                random.between(1, left)
            };
            line.titles = line.titles.min(MOST_TITLES);
            left -= line.titles;
            line.side = random.pick(b"BS");
            line.reference = self.fresh_reference(random);
            let place = Self::place(random, self.lines.len());
            self.lines.insert(place, line);
        }
    }

    fn fresh_reference(&self, random: &mut Random) -> i64 {
        loop {
            let reference = random.between(1, 4_294_967_295);
            if self.lines.iter().all(|line| line.reference != reference) {
                return reference;
            }
        }
    }

    /// Brings the prices to about the most of a run.
    fn add_prices(&mut self, random: &mut Random) {
        let wished = 255 + random.below(4);
        let mut isins = Isins::new(random);
        isins
            .taken
            .extend(self.prices.iter().map(|price| price.isin));
        while self.prices.len() < wished {
            let price = good_price(random, &self.day, &mut isins);
            let place = Self::place(random, self.prices.len());
            self.prices.insert(place, price);
        }
        if random.chance(30) {
            let copied = random.one_of(&self.prices).clone();
            self.prices.push(copied);
        }
    }

    /// Brings the lines to about the most of a run, small ones so that they fit the input, and now
    /// and then spoils the last ones, so that the order of the checks shows.
    fn add_lines(&mut self, random: &mut Random) {
        let wished = 1_023 + random.below(4);
        let mut reference = 1;
        let isin = random.pick(&[*b"ES0000001018", *b"US0378331005"]);
        let today = self.today();
        let mut taken: BTreeSet<i64> = self.lines.iter().map(|line| line.reference).collect();
        while self.lines.len() < wished {
            while !taken.insert(reference) {
                reference += 1;
            }
            self.lines.push(LinePlan {
                reference,
                isin,
                side: random.pick(b"BS"),
                block: b'C',
                titles: 0,
                cash: random.between(0, 99),
                date: random.between(0, today),
            });
        }
        let last = self.lines.len() - 1;
        match random.below(5) {
            0 => self.lines[last].reference = self.lines[random.below(last)].reference,
            1 => self.lines[last].date = (today + 1).min(LAST_DAY),
            2 => {
                let model = random.one_of(&self.lines[..last]).clone();
                self.lines[last] = LinePlan {
                    reference: self.lines[last].reference,
                    titles: MOST_TITLES,
                    block: b'H',
                    ..model
                };
                self.lines[last - 1] = LinePlan {
                    reference: self.lines[last - 1].reference,
                    titles: 1,
                    ..self.lines[last].clone()
                };
            }
            _ => {}
        }
    }
}

fn pick<T: Clone>(random: &mut Random, items: &[T]) -> Option<T> {
    if items.is_empty() {
        None
    } else {
        Some(random.one_of(items).clone())
    }
}

fn good_day(random: &mut Random) -> DayPlan {
    let today = match random.below(8) {
        0 => random.pick(&[
            0, 1, 65_534, 65_533, 65_525, 65_526, 65_524, 65_169, 65_170, 65_171,
        ]),
        1 => random.between(0, 65_534),
        2 => random.between(0, 400),
        _ => 9_000,
    };
    let next = match random.below(4) {
        0 => today + 1,
        1 => today + 10,
        _ => today + random.between(1, 10),
    };
    DayPlan {
        today,
        next: next.min(LAST_DAY),
        mode: random.pick(&["N", "G"]),
        curve: random.pick(&["S", "L"]),
    }
}

fn good_rate(random: &mut Random) -> i64 {
    match random.below(6) {
        0 => random.pick(&[-500, 3_000, 0, -1, 1, -499, 2_999]),
        1 => random.between(-500, 0),
        2 => random.between(-500, 3_000),
        _ => random.between(-50, 450),
    }
}

fn good_percentage(random: &mut Random) -> i64 {
    match random.below(4) {
        0 => random.pick(&[0, 1, 9_999, 10_000]),
        1 => random.between(0, 10_000),
        _ => random.between(0, 900),
    }
}

fn good_percentages(random: &mut Random) -> Vec<(i64, i64)> {
    let mut percentages: Vec<_> = (1..=6)
        .map(|tranche| (tranche, good_percentage(random)))
        .collect();
    if random.chance(40) {
        random.shuffle(&mut percentages);
    }
    percentages
}

fn good_price(random: &mut Random, day: &DayPlan, isins: &mut Isins) -> PricePlan {
    let isin = isins.fresh(random);
    let price = match random.below(5) {
        0 => random.pick(&[1, 2, 9, 10, 11, 999_999, 1_000_000, 1_999_999, 2_000_000]),
        1 => random.between(1, 2_000_000),
        _ => random.between(900_000, 1_100_000),
    };
    let maturity = match random.below(5) {
        0 => random.pick(&[0, LAST_DAY]),
        1 => random.between(0, LAST_DAY),
        _ => day.today + random.pick(&TRANCHE_EDGES),
    };
    PricePlan {
        isin,
        price,
        maturity: maturity.clamp(0, LAST_DAY),
    }
}

fn good_references(random: &mut Random, count: usize) -> Vec<i64> {
    let mut references: Vec<i64> = match random.below(3) {
        0 => (1..=count as i64).collect(),
        1 => {
            let mut taken = BTreeSet::new();
            while taken.len() < count {
                taken.insert(random.between(1, 4_294_967_295));
            }
            taken.into_iter().collect()
        }
        _ => {
            let mut taken: BTreeSet<i64> = [
                1,
                4_294_967_295,
                4_294_967_294,
                255,
                256,
                65_536,
                16_777_216,
                2_147_483_648,
            ]
            .into_iter()
            .take(count)
            .collect();
            while taken.len() < count {
                taken.insert(random.between(1, 5_000));
            }
            taken.into_iter().collect()
        }
    };
    if random.chance(70) {
        random.shuffle(&mut references);
    }
    references
}

fn good_lines(
    random: &mut Random,
    day: &DayPlan,
    prices: &[PricePlan],
    unpriced: &[[u8; 12]],
    isins: &mut Isins,
    count: usize,
    size: Size,
) -> Vec<LinePlan> {
    let references = good_references(random, count);
    // In some runs all lines are of one ISIN, or each cash-only line has one of its own.
    let one_isin = random.chance(15);
    let own_isins = random.chance(10);
    let blocks: &[u8] = random.pick(&[&b"TTTTFFHHC"[..], b"TTTTFFHHC", b"T", b"C", b"TFH"]);
    let large = random.chance(15);
    let mut titles_left = std::collections::BTreeMap::new();
    let mut lines: Vec<LinePlan> = Vec::with_capacity(count);
    for reference in references {
        if !lines.is_empty() && random.chance(12) {
            // A line like one before, or its counterpart.
            let mut line = random.one_of(&lines).clone();
            line.reference = reference;
            if random.chance(40) {
                line.side = if line.side == b'B' { b'S' } else { b'B' };
            }
            let left = titles_left
                .entry((line.isin, line.block))
                .or_insert(MOST_TITLES);
            if *left >= line.titles {
                *left -= line.titles;
                lines.push(line);
                continue;
            }
        }
        let mut block = random.pick(blocks);
        let place = if one_isin {
            0
        } else {
            random.below(prices.len().max(1))
        };
        let price = prices.get(place);
        let mut isin = price.map(|price| price.isin);
        if block == b'C' || isin.is_none() {
            block = b'C';
            if own_isins {
                isin = Some(isins.fresh(random));
            } else if !unpriced.is_empty() && (isin.is_none() || random.chance(30)) {
                isin = Some(random.pick(unpriced));
            }
        }
        let isin = isin.unwrap_or(*b"ES0000001018");
        let left = titles_left.entry((isin, block)).or_insert(MOST_TITLES);
        if *left == 0 {
            block = b'C';
        }
        let titles = match block {
            b'C' => 0,
            _ => {
                let wish = match random.below(12) {
                    0 => 1,
                    1 | 2 if large => *left,
                    3 if large => *left - 1,
                    4 | 5 if large => random.between(1, *left),
                    1..=3 => random.between(1, 20),
                    _ => random.between(1, 3_000),
                };
                let titles = wish.clamp(1, *left);
                *left -= titles;
                titles
            }
        };
        let cash = match price {
            Some(price) if block != b'C' && random.chance(70) => {
                let value = titles * price.price / 10;
                (value + random.between(-(value / 50), value / 50)).min(MOST_CASH)
            }
            _ => match random.below(8) {
                0 => random.pick(&[0, 1, MOST_CASH, MOST_CASH - 1]),
                1 => random.between(0, MOST_CASH),
                _ => random.between(0, if size == Size::Limits { 900 } else { 1_000_000 }),
            },
        };
        let date = if block == b'T' {
            let gap = day.next - day.today;
            let edges = [0, 0, 1, gap, gap, gap + 1, 2, 364, 365];
            let after = if random.chance(60) {
                random.pick(&edges)
            } else {
                random.between(0, 365)
            };
            (day.today + after).min(LAST_DAY)
        } else if random.chance(60) {
            day.today - random.between(0, 3.min(day.today))
        } else {
            random.between(0, day.today)
        };
        lines.push(LinePlan {
            reference,
            isin,
            side: random.pick(b"BS"),
            block,
            titles,
            cash,
            date,
        });
    }
    lines
}

/// A run like those of a plain day: as many lines and ISINs as are asked, sides and blocks mixed,
/// points at even terms.
pub fn typical(random: &mut Random, lines: usize, isins: usize, points: usize) -> Plan {
    let day = DayPlan {
        today: 9_000,
        next: 9_001,
        mode: "N",
        curve: "L",
    };
    let mut taken = Isins::new(random);
    let prices: Vec<PricePlan> = (0..isins)
        .map(|_| PricePlan {
            isin: taken.fresh(random),
            price: random.between(900_000, 1_100_000),
            maturity: 9_000 + random.between(30, 11_000),
        })
        .collect();
    let lines = (0..lines)
        .map(|place| {
            let price = &prices[place % isins];
            let block = random.pick(b"TTTTTTTFHC");
            let titles = if block == b'C' {
                0
            } else {
                random.between(1, 7_000)
            };
            let value = titles * price.price / 10;
            LinePlan {
                reference: 100_001 + 7 * place as i64,
                isin: price.isin,
                side: random.pick(b"BS"),
                block,
                titles,
                cash: if block == b'C' {
                    random.between(0, 5_000_000)
                } else {
                    value + random.between(-value / 80, value / 80)
                },
                date: if block == b'T' {
                    9_000 + random.between(0, 365)
                } else {
                    9_000 - random.between(0, 3)
                },
            }
        })
        .collect();
    Plan {
        days: vec![day.clone()],
        day,
        percentages: (1..=6).map(|tranche| (tranche, 50 * tranche)).collect(),
        points: (1..=points as i64)
            .map(|place| (364 * place / points as i64, 200 + 3 * place))
            .collect(),
        prices,
        lines,
    }
}

/// As many lines as a run may have, each of an ISIN of its own: as many as there may be prices are
/// trades, the others cash only, which needs no price.
pub fn each_its_isin(random: &mut Random) -> Plan {
    let mut plan = typical(random, 1_024, 256, 64);
    let mut taken = Isins::new(random);
    taken.taken.extend(plan.prices.iter().map(|price| price.isin));
    for (place, line) in plan.lines.iter_mut().enumerate() {
        line.titles = 0;
        line.cash = random.between(0, 5_000_000);
        if place < 256 {
            line.block = b'T';
            line.titles = 1 + place as i64;
            line.date = 9_000 + place as i64;
        } else {
            line.isin = taken.fresh(random);
            line.block = b'C';
            line.date = 9_000;
        }
    }
    plan
}

/// As many lines as a run may have, all different, four in each of as many ISINs as may have a
/// price: one of each block, so that the statement has as many rows as it may have.
pub fn all_differing(random: &mut Random) -> Plan {
    let mut plan = typical(random, 1_024, 256, 64);
    let mut prices = plan.prices.clone();
    random.shuffle(&mut prices);
    for (place, line) in plan.lines.iter_mut().enumerate() {
        let price = &prices[place % 256];
        line.isin = price.isin;
        line.block = b"TFHC"[place / 256];
        line.titles = if line.block == b'C' {
            0
        } else {
            1 + place as i64
        };
        line.cash = line.titles * price.price / 10 + place as i64;
        line.date = if line.block == b'T' {
            9_000 + place as i64
        } else {
            9_000
        };
    }
    plan
}
