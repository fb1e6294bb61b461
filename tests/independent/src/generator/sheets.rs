//! A run as sheets of cells, and what may be wrong in their text.

use super::plan::Plan;
use super::random::Random;
use crate::Isin;

type Cell = Vec<u8>;

#[derive(Clone)]
pub struct Sheet {
    top: Vec<Cell>,
    names: Vec<Cell>,
    rows: Vec<Vec<Cell>>,
    /// The trailer where it is not the one due.
    trailer: Option<Vec<Vec<Cell>>>,
    /// The rows that the trailer counts where they are not those that stand.
    counted: Option<usize>,
}

const MARKS: [&str; 5] = ["DAY", "PAR", "CRV", "PRC", "POS"];

const NEEDED: [&[&str]; 5] = [
    &["TODAY", "NEXT", "MODE", "CURVE"],
    &["TRANCHE", "PCT"],
    &["TERM", "RATE"],
    &["ISIN", "PRICE", "MATURITY"],
    &["REF", "ISIN", "SIDE", "BLOCK", "TITLES", "CASH", "DATE"],
];

const SKIPPED_NAMES: [&str; 12] = [
    "", "", "END", "TRADED", "TRADED", "Ref", "isin", "DATE ", " TERM", "NOTE", "POS", "\u{20ac}",
];

const SKIPPED_CELLS: [&str; 10] = [
    "",
    "",
    "x",
    "0",
    "007",
    "-0",
    "end",
    "ES0000001018",
    "\u{e4}\u{f6}",
    " END",
];

/// Cells that may stand in the place of any.
const EDGE_CELLS: [&str; 33] = [
    "",
    "0",
    "-0",
    "00",
    "01",
    "007",
    "+1",
    " 1",
    "1 ",
    "1,000",
    "1.0",
    "1e3",
    "-1",
    "-",
    "--1",
    "x",
    "0x1",
    "\u{663}",
    "\u{e4}",
    "\0",
    "\r",
    "\t1",
    "END",
    "1\r",
    "'1'",
    "\"1\"",
    "N",
    "B",
    "T",
    "4294967296",
    "18446744073709551616",
    "99999999999999999999999",
    "340282366920938463463374607431768211457",
];

/// Cells for the edges of the columns, those that fit and those that do not.
fn edges(name: &[u8]) -> &'static [&'static str] {
    match name {
        b"TODAY" | b"NEXT" | b"MATURITY" | b"DATE" | b"TERM" => &[
            "0", "1", "65535", "65536", "065535", "-1", "99999", "655350", "131071",
        ],
        b"MODE" => &["N", "G", "n", "g", "NG", "NN", " N", "S", "L", "B"],
        b"CURVE" => &["S", "L", "s", "l", "SL", "S ", "N", "G"],
        b"TRANCHE" => &["0", "1", "6", "7", "06", "-1", "16", "256", "257"],
        b"PCT" => &["0", "1", "10000", "10001", "010000", "-1", "65536", "65537"],
        b"RATE" => &[
            "-500",
            "-501",
            "3000",
            "3001",
            "-0",
            "-1",
            "-01",
            "0",
            "+5",
            "--5",
            "-",
            "-0500",
            "- 5",
            "65036",
            "-32768",
            "-65536",
            "-4294967295",
            "-99999999999999999999",
        ],
        b"ISIN" => &[
            "ES0000001018",
            "ES0000001017",
            "es0000001018",
            "ES000000101",
            "ES00000010180",
            "US0378331005",
            "US0378331006",
            "0S0000001018",
            "E00000001018",
            "ES000000101A",
            "ES00000\u{e4}018",
            "ES0000001 18",
            "AU0000XVGZA3",
            "GB00026349460",
            "DE000BAY0017",
            "DE000bAY0017",
            "ES0000001019",
            "\u{c9}S000000108",
        ],
        b"PRICE" => &[
            "0",
            "1",
            "2000000",
            "2000001",
            "02000000",
            "-1",
            "4294967297",
            "1.5",
        ],
        b"REF" => &[
            "0",
            "1",
            "4294967295",
            "4294967296",
            "4294967297",
            "01",
            "-1",
            "18446744073709551617",
        ],
        b"SIDE" => &["B", "S", "b", "s", "BS", "T", "N", " B", "B "],
        b"BLOCK" => &[
            "T", "F", "H", "C", "t", "c", "TC", "X", "S", " C", "C ", "\u{421}",
        ],
        b"TITLES" => &[
            "0",
            "0",
            "1",
            "2000000",
            "2000001",
            "2000001",
            "02000000",
            "00",
            "-0",
            "-1",
            "4294967297",
        ],
        b"CASH" => &[
            "0",
            "1",
            "1000000000000",
            "1000000000001",
            "01000000000000",
            "10000000000000",
            "-1",
            "18446744073709551617",
            "1000000000000.0",
        ],
        _ => &["0"],
    }
}

fn text(number: i64) -> Cell {
    number.to_string().into_bytes()
}

fn cells(texts: &[&str]) -> Vec<Cell> {
    texts.iter().map(|text| text.as_bytes().to_vec()).collect()
}

/// The five sheets of a plan, their columns in the documents' order.
pub fn spell(plan: &Plan) -> Vec<Sheet> {
    let rows: [Vec<Vec<Cell>>; 5] = [
        plan.days
            .iter()
            .map(|day| {
                vec![
                    text(day.today),
                    text(day.next),
                    day.mode.into(),
                    day.curve.into(),
                ]
            })
            .collect(),
        plan.percentages
            .iter()
            .map(|(tranche, percentage)| vec![text(*tranche), text(*percentage)])
            .collect(),
        plan.points
            .iter()
            .map(|(term, rate)| vec![text(*term), text(*rate)])
            .collect(),
        plan.prices
            .iter()
            .map(|price| vec![price.isin.to_vec(), text(price.price), text(price.maturity)])
            .collect(),
        plan.lines
            .iter()
            .map(|line| {
                vec![
                    text(line.reference),
                    line.isin.to_vec(),
                    vec![line.side],
                    vec![line.block],
                    text(line.titles),
                    text(line.cash),
                    text(line.date),
                ]
            })
            .collect(),
    ];
    rows.into_iter()
        .enumerate()
        .map(|(kind, rows)| Sheet {
            top: cells(&[MARKS[kind], "1"]),
            names: cells(NEEDED[kind]),
            rows,
            trailer: None,
            counted: None,
        })
        .collect()
}

pub fn render(sheets: &[Sheet]) -> Vec<u8> {
    let mut input = Vec::with_capacity(4_096);
    for sheet in sheets {
        render_line(&sheet.top, &mut input);
        render_line(&sheet.names, &mut input);
        for row in &sheet.rows {
            render_line(row, &mut input);
        }
        match &sheet.trailer {
            Some(lines) => lines.iter().for_each(|line| render_line(line, &mut input)),
            None => {
                let count = sheet.counted.unwrap_or(sheet.rows.len());
                render_line(
                    &[b"END".to_vec(), count.to_string().into_bytes()],
                    &mut input,
                );
            }
        }
    }
    input
}

fn render_line(cells: &[Cell], input: &mut Vec<u8>) {
    for (place, cell) in cells.iter().enumerate() {
        if place > 0 {
            input.push(b';');
        }
        input.extend_from_slice(cell);
    }
    input.push(b'\n');
}

impl Sheet {
    /// Adds a column, with a cell in every row.
    fn add_column(&mut self, place: usize, name: &[u8], mut cell: impl FnMut() -> Cell) {
        self.names.insert(place, name.to_vec());
        for row in &mut self.rows {
            let place = place.min(row.len());
            row.insert(place, cell());
        }
    }

    fn shuffle_columns(&mut self, random: &mut Random) {
        let mut order: Vec<usize> = (0..self.names.len()).collect();
        random.shuffle(&mut order);
        let moved = |cells: &Vec<Cell>| {
            order
                .iter()
                .map(|place| cells[*place].clone())
                .collect::<Vec<_>>()
        };
        self.names = moved(&self.names);
        for row in &mut self.rows {
            *row = moved(row);
        }
    }

    /// Leaves the sheet as good as it is: other orders of columns, more of them, other versions.
    pub fn vary(&mut self, random: &mut Random) {
        if random.chance(35) {
            self.shuffle_columns(random);
        }
        if random.chance(30) {
            let more = match random.below(12) {
                0 => 32 - self.names.len(),
                _ => 1 + random.below(4),
            };
            for _ in 0..more {
                let place = random.below(self.names.len() + 1);
                let name = random.pick(&SKIPPED_NAMES).as_bytes();
                let long = random.chance(3);
                self.add_column(place, name, || {
                    let end = place > 0 && random.chance(10);
                    let cell = if end {
                        "END"
                    } else {
                        random.pick(&SKIPPED_CELLS)
                    };
                    if long {
                        cell.repeat(9)
                    } else {
                        cell.to_owned()
                    }
                    .into_bytes()
                });
            }
        }
        if random.chance(10) {
            self.top[1] = text(random.pick(&[1, 2, 9, 10, 99, 100, 254, 255]));
        }
    }

    /// Makes one thing wrong in the text of the sheet, or what looks so.
    pub fn damage(&mut self, random: &mut Random) {
        match random.below(20) {
            0 | 1 => self.damage_top(random),
            2..=4 => self.damage_names(random),
            5 | 6 => self.damage_trailer(random),
            7..=9 => self.damage_rows(random),
            10 => {
                self.damage_cell(random);
                self.damage_rows(random);
            }
            11..=13 => self.damage_one_row_twice(random),
            _ => self.damage_cell(random),
        }
    }

    fn damage_top(&mut self, random: &mut Random) {
        let top = &mut self.top;
        if top.len() < 2 {
            return;
        }
        match random.below(9) {
            0 => top[0] = random.pick(&MARKS).as_bytes().to_vec(),
            1 => {
                let wrong = [
                    "",
                    "day",
                    "Pos",
                    "STM",
                    "DAYS",
                    "PA",
                    " CRV",
                    "PRC ",
                    "END",
                    "\u{feff}DAY",
                ];
                top[0] = random.pick(&wrong).as_bytes().to_vec();
            }
            2 | 3 => {
                let versions = [
                    "0",
                    "256",
                    "255",
                    "01",
                    "001",
                    "+1",
                    "-1",
                    "",
                    " 1",
                    "1 ",
                    "1\r",
                    "x",
                    "257",
                    "65537",
                    "4294967297",
                    "1.0",
                ];
                top[1] = random.pick(&versions).as_bytes().to_vec();
            }
            4 => drop(top.pop()),
            5 => top.push(Vec::new()),
            6 => top.insert(0, Vec::new()),
            7 => top.swap(0, 1),
            _ => *top = vec![Vec::new()],
        }
    }

    fn damage_names(&mut self, random: &mut Random) {
        let place = random.below(self.names.len());
        match random.below(10) {
            0 => self.names[place] = random.pick(&SKIPPED_NAMES).as_bytes().to_vec(),
            1 => self.names[place].make_ascii_lowercase(),
            2 => self.names[place].push(random.pick(b" \r;X")),
            3 => {
                // A name that stands twice, with its cells.
                let name = self.names[place].clone();
                let at = random.below(self.names.len() + 1);
                self.add_column(at, &name, || b"1".to_vec());
            }
            4 => {
                let other = random.below(self.names.len());
                self.names[place] = self.names[other].clone();
            }
            5..=7 => {
                // About the most columns, with their cells.
                let wished = random.pick(&[31, 32, 32, 33, 33, 34, 40, 64, 255, 256, 257, 300]);
                while self.names.len() < wished {
                    let at = random.below(self.names.len() + 1);
                    self.add_column(at, b"", Vec::new);
                }
            }
            8 if self.names.len() > 1 => drop(self.names.remove(place)),
            _ => self.names = vec![Vec::new()],
        }
    }

    fn damage_trailer(&mut self, random: &mut Random) {
        let count = self.rows.len();
        let due = count.to_string();
        let line = |texts: &[&str]| vec![cells(texts)];
        self.trailer = Some(match random.below(12) {
            0 => line(&["END", &(count + 1).to_string()]),
            1 => line(&["END", &count.saturating_sub(1).to_string()]),
            2 => line(&["END", &format!("0{due}")]),
            3 => {
                let wrong = [
                    "",
                    "-0",
                    "+0",
                    " 0",
                    "x",
                    "00",
                    "4294967296",
                    "18446744073709551616",
                ];
                line(&["END", random.pick(&wrong)])
            }
            4 => line(&["END"]),
            5 => line(&["END", &due, ""]),
            6 => Vec::new(),
            7 => line(&["end", &due]),
            8 => line(&[
                random.pick(&[" END", "END ", "END\r", "", "ENDE", "EN"]),
                &due,
            ]),
            9 => vec![cells(&["END", &due]), cells(&["END", &due])],
            10 => line(&["END", &format!("{due}\r")]),
            _ => line(&[
                "END",
                &(count as u128 + random.pick(&[256, 65_536, 1 << 32, 1 << 64])).to_string(),
            ]),
        });
    }

    fn damage_rows(&mut self, random: &mut Random) {
        if self.rows.is_empty() {
            self.rows
                .push(vec![Vec::new(); random.pick(&[1, 2, self.names.len()])]);
            return;
        }
        let before = self.rows.len();
        let place = random.below(before);
        match random.below(11) {
            0 => drop(self.rows[place].pop()),
            1 => self.rows[place].push(Vec::new()),
            2 => {
                let at = random.below(self.rows[place].len());
                self.rows[place].remove(at);
            }
            3 => {
                let at = random.below(self.rows[place].len() + 1);
                self.rows[place].insert(at, b"x".to_vec());
            }
            4 => self.rows[place] = vec![Vec::new()],
            5 => self.rows.insert(place, vec![Vec::new()]),
            6 => {
                let row = self.rows[place].clone();
                self.rows.insert(random.below(before + 1), row);
            }
            7 => drop(self.rows.remove(place)),
            8 => self.rows.swap(place, random.below(before)),
            9 => {
                let wide = random.pick(&[33, 100, 300]);
                self.rows[place].resize(wide, b"1".to_vec());
            }
            _ => match self.rows[place].first_mut() {
                Some(first) => *first = b"END".to_vec(),
                None => self.rows[place].push(b"END".to_vec()),
            },
        }
        for row in &mut self.rows {
            if row.is_empty() {
                row.push(Vec::new());
            }
        }
        if random.chance(40) {
            self.counted = Some(before);
        }
    }

    fn damage_cell(&mut self, random: &mut Random) {
        if !self.rows.is_empty() {
            let row = random.below(self.rows.len());
            self.damage_cell_of(random, row);
        }
    }

    /// Two or three cells of a row: the leftmost is to be told.
    fn damage_one_row_twice(&mut self, random: &mut Random) {
        if !self.rows.is_empty() {
            let row = random.below(self.rows.len());
            for _ in 0..2 + random.below(2) {
                self.damage_cell_of(random, row);
            }
        }
    }

    fn damage_cell_of(&mut self, random: &mut Random, row: usize) {
        let width = self.rows[row].len().min(self.names.len());
        if width == 0 {
            return;
        }
        let place = random.below(width);
        let name: &[u8] = &self.names[place];
        let cell = &mut self.rows[row][place];
        match random.below(10) {
            0 | 1 => *cell = random.pick(&EDGE_CELLS).as_bytes().to_vec(),
            2 if !cell.is_empty() => {
                let at = random.below(cell.len());
                cell[at] = random.pick(b"09AZaz-+ .\r\0\xff\x80;:/@[");
            }
            3 => cell.insert(0, random.pick(b"0- +1")),
            4 => cell.push(random.pick(b"0 1\r")),
            5..=7 if name == b"ISIN" && cell.len() == 12 => {
                let place = random.below(11);
                if random.chance(60) {
                    // A byte that is none of an ISIN, with the check digit of the letter that it
                    // is like, or with any, so also with that due to a reading that takes it.
                    let like = cell[place].to_ascii_lowercase();
                    if like != cell[place] && random.chance(50) {
                        cell[place] = like;
                    } else {
                        cell[place] = random.pick(b"abcxyzaz@[`{/:0A\x80\xff");
                    }
                    if random.chance(70) {
                        cell[11] = random.pick(b"0123456789");
                    }
                } else {
                    let mut front = [0; 11];
                    front.copy_from_slice(&cell[..11]);
                    front[place] = random.pick(b"0123456789ABCXYZ");
                    if let Some(isin) = Isin::with_check_digit(&front) {
                        *cell = isin.to_vec();
                    }
                }
            }
            _ => *cell = random.pick(edges(name)).as_bytes().to_vec(),
        }
    }

    /// Spells the block and the titles of a row of positions by chance, in a row that may be good.
    pub fn cross_titles(&mut self, random: &mut Random) {
        let find = |name: &[u8]| self.names.iter().position(|other| other == name);
        let (Some(block), Some(titles)) = (find(b"BLOCK"), find(b"TITLES")) else {
            return;
        };
        if self.rows.is_empty() {
            return;
        }
        let row = random.below(self.rows.len());
        if self.rows[row].len() <= block.max(titles) {
            return;
        }
        let blocks = ["T", "F", "H", "C", "C", "X", "", "t"];
        self.rows[row][block] = random.pick(&blocks).as_bytes().to_vec();
        self.rows[row][titles] = random.pick(edges(b"TITLES")).as_bytes().to_vec();
    }

    /// Adds a skipped column whose name is so long.
    pub fn pad(&mut self, random: &mut Random, length: usize) {
        let place = random.below(self.names.len() + 1).max(1);
        self.add_column(place, &vec![b'P'; length], Vec::new);
    }
}
