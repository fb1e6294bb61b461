//! Generates runs by chance and compares this version with the engine on each: the answer, all parts
//! of the refusal, and the whole buffer byte for byte. Without the engine the runs are worked by this
//! version alone, and only the outcomes are counted.
//!
//! `compare SEED COUNT [FIRST]`: runs FIRST (0 where not told) to FIRST + COUNT - 1 of the seed. Each run
//! of a seed is the same alone and among others. On a difference both inputs of the run, its bytes and
//! its buffer, are written to files, and the status is 1.

use std::collections::BTreeMap;
use std::process::ExitCode;

use independent::generator::{self, random::Random};
use independent::{number, run, Refused, INPUT_LIMIT};

/// Longer than every statement.
const ROOM: usize = 100_000;

/// Bytes before and behind the buffer that nothing may touch.
const GUARD: usize = 64;

fn main() -> ExitCode {
    let mut arguments = std::env::args().skip(1);
    let mut argument = |default: Option<u64>| match arguments.next() {
        Some(text) => text.parse().ok(),
        None => default,
    };
    let (Some(seed), Some(count), Some(first)) =
        (argument(None), argument(None), argument(Some(0)))
    else {
        eprintln!("compare SEED COUNT [FIRST]");
        return ExitCode::from(2);
    };

    let mut outcomes = Outcomes::default();
    for index in first..first + count {
        if let Err(difference) = compare_run(seed, index, &mut outcomes) {
            outcomes.print(seed, index + 1 - first);
            println!("DIFFERENCE in run {index} of seed {seed}: {difference}");
            return ExitCode::FAILURE;
        }
    }
    outcomes.print(seed, count);
    ExitCode::SUCCESS
}

/// Bytes that follow from their places, other ones for each run.
fn pattern(length: usize, start: u64) -> Vec<u8> {
    (0..length as u64)
        .map(|place| (start.wrapping_mul(37) + place * 11 + place / 251) as u8)
        .collect()
}

/// What one of the versions did.
#[derive(PartialEq, Eq)]
struct Done {
    /// The length of the statement, or minus the number of the refusal.
    answer: i64,
    refused: Refused,
    /// The buffer between its guards.
    buffer: Vec<u8>,
}

fn ours(input: &[u8], room: usize, start: u64) -> Done {
    let mut buffer = pattern(room + 2 * GUARD, start);
    let answer = run(input, &mut buffer[GUARD..GUARD + room]);
    Done {
        answer: answer.map_or_else(|refused| -i64::from(refused.number), |length| length as i64),
        refused: answer.err().unwrap_or_default(),
        buffer,
    }
}

fn compare_run(seed: u64, index: u64, outcomes: &mut Outcomes) -> Result<(), String> {
    let mut random = Random::of_run(seed, index);
    let case = generator::case(&mut random);
    let mut statement = vec![0; ROOM];
    let length = run(&case.input, &mut statement).unwrap_or(0);
    let room = case.room.length(&mut random, length);

    let done = ours(&case.input, room, index);
    let before = pattern(room + 2 * GUARD, index);
    let written = done.answer.max(0) as usize;
    assert_eq!(done.buffer[..GUARD], before[..GUARD]);
    assert_eq!(done.buffer[GUARD..GUARD + written], statement[..written]);
    assert_eq!(done.buffer[GUARD + written..], before[GUARD + written..]);
    outcomes.count(&case.input, &done, &statement[..written]);
    against_engine(&case.input, room, seed, index, &done)
}

#[cfg(not(engine))]
fn against_engine(_: &[u8], _: usize, _: u64, _: u64, _: &Done) -> Result<(), String> {
    Ok(())
}

#[cfg(engine)]
fn against_engine(
    input: &[u8],
    room: usize,
    seed: u64,
    index: u64,
    ours: &Done,
) -> Result<(), String> {
    use independent::engine;

    let mut buffer = pattern(room + 2 * GUARD, index);
    let handed = input.to_vec();
    let (answer, told) = engine::run_told(&handed, &mut buffer[GUARD..GUARD + room]);
    let refused = Refused {
        number: told.number.into(),
        layer: told.layer.into(),
        line: told.line.try_into().unwrap_or(u32::MAX),
        cell: told.cell.try_into().unwrap_or(u32::MAX),
        reference: told.reference,
    };
    let engines = Done {
        answer,
        refused,
        buffer,
    };
    let mut plain_buffer = pattern(room + 2 * GUARD, index);
    let plain_answer = engine::run(&handed, &mut plain_buffer[GUARD..GUARD + room]);

    let mut differences = Vec::new();
    if ours.answer != engines.answer {
        differences.push(format!(
            "answer {} here, {} of the engine",
            ours.answer, engines.answer
        ));
    }
    if ours.refused != engines.refused {
        differences.push(format!(
            "{:?} here, {:?} of the engine",
            ours.refused, engines.refused
        ));
    }
    if let Some(place) =
        (0..ours.buffer.len()).find(|place| ours.buffer[*place] != engines.buffer[*place])
    {
        differences.push(format!(
            "the buffer, first at byte {}",
            place as i64 - GUARD as i64
        ));
    }
    if plain_answer != engines.answer || plain_buffer != engines.buffer {
        differences.push(format!(
            "margin_run, which answers {plain_answer}, and margin_run_told differ"
        ));
    }
    if handed != input {
        differences.push("the engine changed its input".to_owned());
    }
    if differences.is_empty() {
        return Ok(());
    }
    let write = |part: &str, bytes: &[u8]| {
        let path = format!("difference-{seed}-{index}.{part}");
        match std::fs::write(&path, bytes) {
            Ok(()) => path,
            Err(error) => format!("nowhere ({path}: {error})"),
        }
    };
    let bounds = GUARD..GUARD + room;
    differences.push(format!(
        "written to {}, {}, {} and {}",
        write("run", input),
        write("buffer", &pattern(room + 2 * GUARD, index)[bounds.clone()]),
        write("ours", &ours.buffer[bounds.clone()]),
        write("engine", &engines.buffer[bounds]),
    ));
    Err(differences.join("; "))
}

/// How often each outcome came.
#[derive(Default)]
struct Outcomes {
    by_place: BTreeMap<(u32, String), u64>,
    by_number: BTreeMap<u32, u64>,
    of_accepted: BTreeMap<&'static str, u64>,
}

impl Outcomes {
    fn count(&mut self, input: &[u8], done: &Done, statement: &[u8]) {
        let number = done.refused.number;
        *self.by_number.entry(number).or_default() += 1;
        if number == 0 {
            for trait_of_run in traits_of(input, statement) {
                *self.of_accepted.entry(trait_of_run).or_default() += 1;
            }
        } else {
            *self
                .by_place
                .entry((number, place_of(input, &done.refused)))
                .or_default() += 1;
        }
    }

    fn print(&self, seed: u64, count: u64) {
        for ((number, place), times) in &self.by_place {
            println!("{number:>2} {place:<24} {times}");
        }
        for (trait_of_run, times) in &self.of_accepted {
            println!("accepted, {trait_of_run:<40} {times}");
        }
        let versions = if cfg!(engine) {
            "both versions agree"
        } else {
            "this version alone"
        };
        let numbers: Vec<String> = self
            .by_number
            .iter()
            .map(|(number, times)| match number {
                0 => format!("accepted {times}"),
                _ => format!("{number}: {times}"),
            })
            .collect();
        println!(
            "seed {seed}, {count} runs, {versions}; {}",
            numbers.join(", ")
        );
    }
}

/// What an accepted run shows.
fn traits_of(input: &[u8], statement: &[u8]) -> Vec<&'static str> {
    let mut traits = Vec::new();
    let lines: Vec<Vec<&[u8]>> = statement
        .split(|byte| *byte == b'\n')
        .map(|line| line.split(|byte| *byte == b';').collect())
        .collect();
    let rows = &lines[2..lines.len() - 3];
    let any = |test: &dyn Fn(&[&[u8]]) -> bool| rows.iter().any(|row| test(row));
    let shown = [
        (rows.is_empty(), "no rows"),
        (rows.len() >= 500, "500 rows or more"),
        (
            any(&|row| row[1] == b"T" && row[2] == b"1"),
            "a trade row of scenario 1",
        ),
        (
            any(&|row| row[1] == b"T" && row[2] == b"2"),
            "a trade row of scenario 2",
        ),
        (
            any(&|row| row[1] == b"T" && row[2] == b"3"),
            "a trade row of scenario 3",
        ),
        (
            any(&|row| row[1] == b"T" && row[2] != b"1" && row[3] == b"0" && row[4] == b"0"),
            "an empty worst scenario",
        ),
        (any(&|row| row[4].starts_with(b"-")), "a VM below zero"),
        (any(&|row| row[1] == b"F"), "a failed row"),
        (any(&|row| row[1] == b"H"), "a held row"),
        (
            any(&|row| row[1] == b"C" && row[3] != b"0"),
            "a cash-only row that is charged",
        ),
        (
            any(&|row| row[1] == b"C" && row[3] == b"0"),
            "a cash-only row that is not charged",
        ),
        (
            lines[lines.len() - 3][1] == b"0" && !rows.is_empty(),
            "rows, but margin 0",
        ),
        (input.len() == INPUT_LIMIT, "just 65,536 bytes"),
        (input.len() > 60_000, "over 60,000 bytes"),
    ];
    traits.extend(
        shown
            .iter()
            .filter(|(shows, _)| *shows)
            .map(|(_, name)| *name),
    );
    traits
}

/// The sheet and what of it a refusal tells, worked out from the input.
fn place_of(input: &[u8], refused: &Refused) -> String {
    match (refused.number, refused.layer) {
        (number::TOO_LONG, _) if input.len() > INPUT_LIMIT => return "input".to_owned(),
        (number::TOO_LONG, _) => return "statement".to_owned(),
        (_, 3) => return "margin".to_owned(),
        _ => {}
    }
    let ended = input
        .iter()
        .rposition(|byte| *byte == b'\n')
        .map_or(0, |end| end + 1);
    let lines: Vec<&[u8]> = input[..ended]
        .split_inclusive(|byte| *byte == b'\n')
        .map(|line| &line[..line.len() - 1])
        .collect();
    let told = refused.line as usize - 1;
    let mut sheet = 0;
    let mut first = 0;
    while sheet < 5 {
        let is_trailer = |line: &&[u8]| line.split(|byte| *byte == b';').next() == Some(b"END");
        let trailer = lines
            .iter()
            .skip(first + 2)
            .position(is_trailer)
            .map(|place| first + 2 + place);
        match trailer {
            Some(trailer) if trailer < told => {
                first = trailer + 1;
                sheet += 1;
            }
            _ => break,
        }
    }
    let kind = ["DAY", "PAR", "CRV", "PRC", "POS", "behind"][sheet];
    if told >= lines.len() && sheet < 5 {
        return format!("{kind} missing");
    }
    match refused.number {
        number::VALUE => {
            let name = lines[first + 1]
                .split(|byte| *byte == b';')
                .nth(refused.cell as usize - 1);
            format!("{kind} {}", String::from_utf8_lossy(name.unwrap_or(b"?")))
        }
        number::DATE if kind == "POS" => {
            let names: Vec<&[u8]> = lines[first + 1].split(|byte| *byte == b';').collect();
            let cells: Vec<&[u8]> = lines[told].split(|byte| *byte == b';').collect();
            let block = names
                .iter()
                .position(|name| *name == b"BLOCK")
                .map_or(&b"?"[..], |place| cells[place]);
            format!("{kind} block {}", String::from_utf8_lossy(block))
        }
        _ => kind.to_owned(),
    }
}
