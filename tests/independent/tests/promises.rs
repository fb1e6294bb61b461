//! What is promised of a run, over generated runs, good and damaged, and over each run that is one
//! byte or one line away from the example of the documents.
//!
//! Both versions are held to it where the engine is linked, and else the one that stands here.

use std::collections::BTreeMap;

use independent::generator::{self, random::Random};
use independent::promises::{nothing_is_wrong, Causes, Delivered, Text, Told};
use independent::{number, run, Refused, INPUT_LIMIT};

const EXAMPLE: &[u8] = include_bytes!("../../../examples/run.txt");

/// The length of a buffer that is never too short.
const NEVER_TOO_SHORT: usize = 65_536;

const GENERATED: u64 = 4_000;
const VARIED: u64 = 1_500;

type Run = fn(&[u8], &mut [u8]) -> Result<usize, Refused>;

const VERSIONS: &[(&str, Run)] = &[
    ("independent", run),
    #[cfg(engine)]
    ("engine", engine::run),
];

#[cfg(engine)]
mod engine {
    use independent::{engine, Refused};

    pub fn run(input: &[u8], buffer: &mut [u8]) -> Result<usize, Refused> {
        let (answer, told) = engine::run_told(input, buffer);
        usize::try_from(answer).map_err(|_| Refused {
            number: told.number.into(),
            layer: told.layer.into(),
            line: told.line.try_into().unwrap_or(u32::MAX),
            cell: told.cell.try_into().unwrap_or(u32::MAX),
            reference: told.reference,
        })
    }
}

/// A run of one of the versions.
struct Worked<'i> {
    version: &'static str,
    input: &'i [u8],
    room: usize,
    /// The answer in a buffer of so much room.
    answer: Result<usize, Refused>,
    /// The statement in a buffer that is never too short, or why there is none.
    statement: Result<Vec<u8>, Refused>,
}

impl Worked<'_> {
    fn length(&self) -> Option<usize> {
        self.statement.as_ref().ok().map(Vec::len)
    }

    fn fits(&self) -> bool {
        self.length().is_some_and(|length| length <= self.room)
    }

    /// What a failed assertion shows.
    fn shown(&self) -> String {
        format!(
            "{} in {} bytes: {:?}\n{}",
            self.version,
            self.room,
            self.answer,
            self.input.escape_ascii().to_string().replace("\\n", "\n")
        )
    }
}

/// The statement in a buffer that is never too short.
fn statement(run: Run, input: &[u8]) -> Result<Vec<u8>, Refused> {
    let mut buffer = vec![0; NEVER_TOO_SHORT];
    let length = run(input, &mut buffer)?;
    buffer.truncate(length);
    Ok(buffer)
}

/// Works an input by each version, in a buffer whose room goes by the statement's length.
fn work(input: &[u8], mut room: impl FnMut(usize) -> usize, promise: &mut impl FnMut(&Worked)) {
    for (version, run) in VERSIONS {
        let statement = statement(*run, input);
        let room = room(statement.as_ref().map_or(0, Vec::len));
        let answer = run(input, &mut vec![0; room]);
        promise(&Worked {
            version,
            input,
            room,
            answer,
            statement,
        });
    }
}

fn of_generated(seed: u64, runs: u64, mut promise: impl FnMut(&Worked)) {
    for index in 0..runs {
        let mut random = Random::of_run(seed, index);
        let case = generator::case(&mut random);
        work(
            &case.input,
            |length| case.room.length(&mut random, length),
            &mut promise,
        );
    }
}

/// Over the runs that are one byte or one line away from the example.
fn of_neighbours(mut promise: impl FnMut(&Worked)) {
    for input in one_byte_away(EXAMPLE).chain(one_line_away(EXAMPLE)) {
        work(&input, |_| NEVER_TOO_SHORT, &mut promise);
    }
}

/// A byte left out, or another in its place or before it; and each beginning.
fn one_byte_away(text: &[u8]) -> impl Iterator<Item = Vec<u8>> + '_ {
    const BYTES: &[u8] = b"\n;0159-ENBSTFC \r\xff";
    (0..=text.len()).flat_map(move |place| {
        let (front, rest) = text.split_at(place);
        let behind = rest.get(1..).unwrap_or_default();
        let with = move |byte: &u8| {
            [
                [front, &[*byte], behind].concat(),
                [front, &[*byte], rest].concat(),
            ]
        };
        let others = BYTES.iter().flat_map(with);
        others.chain([[front, behind].concat(), front.to_vec()])
    })
}

/// A line left out, or another of the text in its place or before it.
fn one_line_away(text: &[u8]) -> impl Iterator<Item = Vec<u8>> + '_ {
    let lines: Vec<&[u8]> = text.split_inclusive(|byte| *byte == b'\n').collect();
    (0..lines.len()).flat_map(move |place| {
        let (front, rest) = (lines[..place].concat(), lines[place..].concat());
        let behind = lines[place + 1..].concat();
        let mut away = vec![[&front[..], &behind].concat()];
        for line in &lines {
            away.push([&front[..], line, &behind].concat());
            away.push([&front[..], line, &rest].concat());
        }
        away
    })
}

fn is_accepted_just_where_nothing_is_wrong(worked: &Worked) {
    let is_right = nothing_is_wrong(worked.input);
    assert_eq!(worked.statement.is_ok(), is_right, "{}", worked.shown());
    assert_eq!(
        worked.answer.is_ok(),
        is_right && worked.fits(),
        "{}",
        worked.shown()
    );
}

fn is_refused_by_the_first_cause(worked: &Worked) {
    let causes = Causes::of(worked.input, worked.length(), worked.room);
    if let Err(told) = worked.answer {
        assert!(causes.hold(told), "no such cause: {}", worked.shown());
    }
    let first = causes.in_order().next();
    assert_eq!(
        worked.answer.err(),
        first,
        "the first cause: {}",
        worked.shown()
    );
}

fn is_of_the_lines(worked: &Worked) {
    let Ok(text) = &worked.statement else { return };
    assert!((1..=65_536).contains(&text.len()), "{}", worked.shown());
    let told = Told::of(text).expect("the text of a statement");
    let run = Delivered::of(worked.input).expect("an accepted run");
    assert!(told.is_of_lines(&run), "{told:?}\n{}", worked.shown());
    assert!(told.is_margin_of_rows(), "{told:?}\n{}", worked.shown());
    assert!(
        told.rows.iter().all(|row| row.is_of_its_block()),
        "{told:?}"
    );
}

#[test]
fn accepted_exactly_when_nothing_is_wrong() {
    of_generated(11, GENERATED, is_accepted_just_where_nothing_is_wrong);
    of_neighbours(is_accepted_just_where_nothing_is_wrong);
}

#[test]
fn each_refusal_has_its_cause_and_is_the_first() {
    let mut times = BTreeMap::<u32, u64>::new();
    of_generated(12, GENERATED, |worked| {
        is_refused_by_the_first_cause(worked);
        *times
            .entry(worked.answer.map_or_else(|told| told.number, |_| 0))
            .or_default() += 1;
    });
    of_neighbours(is_refused_by_the_first_cause);
    let seldom: Vec<u32> = (0..=number::NO_RATE)
        .chain([number::TOO_LONG])
        .filter(|number| times.get(number).is_none_or(|times| *times < 10))
        .collect();
    assert!(seldom.is_empty(), "{seldom:?} of {times:?}");
}

#[test]
fn a_statement_is_of_the_lines_delivered() {
    of_generated(13, GENERATED, is_of_the_lines);
    of_neighbours(is_of_the_lines);
    for (_, input) in generator::paces() {
        work(&input, |length| length, &mut |worked| {
            is_accepted_just_where_nothing_is_wrong(worked);
            is_of_the_lines(worked);
            assert!(worked.answer.is_ok(), "{}", worked.shown());
        });
    }
}

/// Over generated runs that are accepted: spelled in another way they have the same statement.
fn keeps_the_statement(seed: u64, mut respell: impl FnMut(&mut Text, &mut Random)) {
    let mut accepted = 0;
    of_generated(seed, VARIED, |worked| {
        let Ok(text) = &worked.statement else { return };
        let mut random = Random::of_run(seed, worked.input.len() as u64);
        let mut other = Text::of(worked.input).expect("an accepted run is five sheets");
        respell(&mut other, &mut random);
        let input = other.spell();
        if input.len() > INPUT_LIMIT {
            return;
        }
        for (version, run) in VERSIONS {
            let same = statement(*run, &input);
            assert_eq!(same.as_ref(), Ok(text), "{version}: {}", worked.shown());
        }
        accepted += 1;
    });
    assert!(accepted > VARIED / 3, "{accepted}");
}

#[test]
fn an_input_is_respelled_to_the_byte() {
    let text = Text::of(EXAMPLE).expect("the example is five sheets");
    assert_eq!(text.spell(), EXAMPLE);
}

#[test]
fn columns_may_stand_in_any_order() {
    keeps_the_statement(14, |text, random| text.shuffle_columns(random));
}

#[test]
fn rows_may_stand_in_any_order() {
    keeps_the_statement(15, |text, random| text.shuffle_rows(random));
}

#[test]
fn columns_that_are_not_needed_and_versions_change_nothing() {
    keeps_the_statement(16, |text, random| {
        text.leave_out_skipped();
        text.change_versions(random);
    });
}

#[test]
fn references_may_be_any_that_differ() {
    keeps_the_statement(17, |text, random| text.exchange_references(random));
    keeps_the_statement(18, |text, _| text.renew_references(1..));
    keeps_the_statement(18, |text, _| text.renew_references((1..=1_024).rev()));
    keeps_the_statement(18, |text, _| text.renew_references((1..=u32::MAX).rev()));
}
