//! Runs by chance, good ones and damaged ones, at every edge that the documents name.

pub mod plan;
pub mod random;
mod sheets;

use plan::{Plan, Size};
use random::Random;
use sheets::Sheet;

/// The length of a buffer, told by the length of the statement where there is one.
#[derive(Clone, Copy, Debug, PartialEq, Eq)]
pub enum Room {
    Exact,
    OneLess,
    OneMore,
    Fewer,
    So(usize),
}

impl Room {
    /// The length for a statement of the given length.
    pub fn length(self, random: &mut Random, statement: usize) -> usize {
        match self {
            Room::Exact => statement,
            Room::OneLess => statement.saturating_sub(1),
            Room::OneMore => statement + 1,
            Room::Fewer => random.below(statement.max(1)),
            Room::So(length) => length,
        }
    }
}

pub struct Case {
    pub input: Vec<u8>,
    pub room: Room,
}

/// One run by chance.
pub fn case(random: &mut Random) -> Case {
    let size = match random.below(1_000) {
        0..=3 => Size::Limits,
        4..=60 => Size::Middle,
        _ => Size::Small,
    };
    let mut plan = Plan::good(random, size);
    // Of what is wrong there is nothing, one thing, or several.
    let (mut in_plan, mut in_text, mut in_order, mut in_bytes) = (0, 0, 0, 0);
    match random.below(100) {
        0..=43 => {}
        44..=66 => in_plan = 1,
        67..=82 => in_text = 1,
        83..=86 => in_order = 1,
        87..=92 => in_bytes = 1,
        93..=95 => in_plan = 2 + random.below(3),
        _ => {
            in_plan = random.below(3);
            in_text = random.below(4);
            in_order = usize::from(random.chance(10));
            in_bytes = random.below(2);
        }
    }
    for _ in 0..in_plan {
        plan.spoil(random);
    }
    let mut sheets = sheets::spell(&plan);
    for sheet in &mut sheets {
        sheet.vary(random);
    }
    for _ in 0..in_text {
        if random.chance(8) {
            sheets[4].cross_titles(random);
        } else {
            let place = random.below(6).min(4);
            sheets[place].damage(random);
        }
    }
    for _ in 0..in_order {
        disorder(random, &mut sheets);
    }
    if random.chance(2) {
        pad(random, &mut sheets);
    }
    let mut input = sheets::render(&sheets);
    for _ in 0..in_bytes {
        damage_bytes(random, &mut input);
    }
    let room = match random.below(20) {
        0..=5 => Room::Exact,
        6 | 7 => Room::OneLess,
        8 | 9 => Room::OneMore,
        10 => Room::Fewer,
        11 => Room::So(0),
        12 => Room::So(random.below(400)),
        _ => Room::So(65_536),
    };
    Case { input, room }
}

/// Sheets swapped, missing, or twice.
fn disorder(random: &mut Random, sheets: &mut Vec<Sheet>) {
    if sheets.is_empty() {
        return;
    }
    let place = random.below(sheets.len());
    match random.below(4) {
        0 => {
            let other = random.below(sheets.len());
            sheets.swap(place, other);
        }
        1 => drop(sheets.remove(place)),
        2 => sheets.truncate(place),
        _ => {
            let sheet = sheets[place].clone();
            sheets.insert(random.below(sheets.len() + 1), sheet);
        }
    }
}

/// Brings the input to about its most bytes.
fn pad(random: &mut Random, sheets: &mut [Sheet]) {
    let Some(place) = sheets
        .len()
        .checked_sub(1)
        .map(|last| random.below(last + 1))
    else {
        return;
    };
    let wished = match random.below(8) {
        0 => 65_535,
        1..=3 => 65_536,
        4 | 5 => 65_537,
        6 => 65_538,
        _ => 65_500 + random.below(3_000),
    };
    // The column itself takes a semicolon in each line, so it is added first.
    let mut padded = sheets[place].clone();
    padded.pad(&mut Random::of_run(1, 1), 0);
    let length = {
        let mut others = sheets.to_vec();
        others[place] = padded;
        sheets::render(&others).len()
    };
    if length < wished {
        sheets[place].pad(&mut Random::of_run(1, 1), wished - length);
    }
}

fn damage_bytes(random: &mut Random, input: &mut Vec<u8>) {
    let len = input.len();
    if len == 0 {
        return;
    }
    let place = random.below(len);
    match random.below(14) {
        0 => input[place] ^= 1 << random.below(8),
        1 => input[place] = random.below(256) as u8,
        2 => drop(input.remove(place)),
        3 => input.insert(place, random.pick(b"\n;0 -\rE\0\xff")),
        4 => input.truncate(place),
        5 => drop(input.pop()),
        6 => {
            // An end at a line's end: sheets, trailers and top lines are missing.
            let ends: Vec<usize> = (0..len).filter(|place| input[*place] == b'\n').collect();
            if !ends.is_empty() {
                input.truncate(random.pick(&ends) + random.below(2));
            }
        }
        7 | 8 => {
            let behind: &[&[u8]] = &[
                b"\n",
                b"x",
                b"END;0\n",
                b"\0",
                b" ",
                b"DAY;1\n",
                b"POS;2\nx",
                b"\r\n",
                b";",
            ];
            input.extend_from_slice(random.pick(behind));
        }
        9 => {
            *input = input
                .iter()
                .flat_map(|byte| {
                    if *byte == b'\n' {
                        vec![b'\r', b'\n']
                    } else {
                        vec![*byte]
                    }
                })
                .collect()
        }
        10 => {
            let end = (place + 1 + random.below(30)).min(len);
            input.drain(place..end);
        }
        11 => {
            let end = (place + 1 + random.below(60)).min(len);
            let piece = input[place..end].to_vec();
            let at = random.below(len + 1);
            input.splice(at..at, piece);
        }
        12 => {
            // A line swapped with the next, deleted, or doubled.
            let mut lines: Vec<Vec<u8>> = input
                .split_inclusive(|byte| *byte == b'\n')
                .map(<[u8]>::to_vec)
                .collect();
            let at = random.below(lines.len());
            match random.below(3) {
                0 if at + 1 < lines.len() => lines.swap(at, at + 1),
                1 => drop(lines.remove(at)),
                _ => lines.insert(at, lines[at].clone()),
            }
            *input = lines.concat();
        }
        _ => {
            let ends: Vec<usize> = (0..len).filter(|place| input[*place] == b'\n').collect();
            if !ends.is_empty() {
                let end = random.pick(&ends);
                if random.chance(50) {
                    input.remove(end);
                } else {
                    input.insert(end, random.pick(b"\r ;\n"));
                }
            }
        }
    }
}

/// The runs that the pace is measured on, with their names.
pub fn paces() -> Vec<(&'static str, Vec<u8>)> {
    let mut random = Random::of_run(7, 7);
    let typical = sheets::spell(&plan::typical(&mut random, 60, 20, 12));
    let mut limits = sheets::spell(&plan::typical(&mut random, 1_024, 256, 64));
    fill(&mut limits);
    let many = sheets::spell(&plan::all_differing(&mut random));
    let mut each = plan::each_its_isin(&mut random);
    let isins = sheets::spell(&each);
    random.shuffle(&mut each.lines);
    let shuffled = sheets::spell(&each);
    vec![
        ("typical: 60 lines, 20 ISINs", sheets::render(&typical)),
        (
            "limits: 1,024 lines, 256 prices, 64 points, near 65,536 bytes",
            sheets::render(&limits),
        ),
        (
            "differing: 1,024 lines in 256 ISINs, four blocks each",
            sheets::render(&many),
        ),
        (
            "ISINs: 1,024 lines in 1,024 ISINs, 256 of them priced",
            sheets::render(&isins),
        ),
        (
            "shuffled: the same, its lines in no order of their references",
            sheets::render(&shuffled),
        ),
    ]
}

/// Fills the input up to its most bytes, with skipped cells of the positions and a long name.
fn fill(sheets: &mut [Sheet]) {
    let mut random = Random::of_run(3, 3);
    loop {
        let mut wider = sheets.to_vec();
        wider[4].pad(&mut random, 1);
        if sheets::render(&wider).len() > crate::INPUT_LIMIT - 1_100 {
            break;
        }
        sheets[4] = wider[4].clone();
    }
    let length = sheets::render(sheets).len();
    sheets[1].pad(&mut random, crate::INPUT_LIMIT - length - 7);
}
