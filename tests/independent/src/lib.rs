//! The whole run of a margin engine, written a second time from its documents alone
//! (`docs/FORMATS.md` and `docs/RULES.md`): five sheets are read, the margin is worked, and the
//! statement is written. It shares no code with the engine, so that where the two agree, it is
//! because both say what the documents say.

mod account;
mod curve;
mod isin;
mod margin;
mod market;
mod rows;
mod sheet;
mod statement;
mod text;

#[cfg(engine)]
pub mod engine;
pub mod generator;
pub mod promises;

pub use isin::Isin;

use account::Account;
use curve::Points;
use market::{Day, Market};
use sheet::Reader;

/// The longest input that is read, in bytes.
pub const INPUT_LIMIT: usize = 65_536;

/// The numbers of the refusals.
pub mod number {
    pub const MARK: u32 = 1;
    pub const COLUMNS: u32 = 2;
    pub const CELL_COUNT: u32 = 3;
    pub const VALUE: u32 = 4;
    pub const TRAILER: u32 = 5;
    pub const KEY_PRESENT: u32 = 6;
    pub const DATE: u32 = 7;
    pub const TITLES_LIMIT: u32 = 8;
    pub const FULL: u32 = 9;
    pub const NO_PRICE: u32 = 10;
    pub const NO_PERCENTAGE: u32 = 11;
    pub const NO_RATE: u32 = 12;
    pub const TOO_LONG: u32 = 14;
}

/// Why a run is refused. Parts that do not apply are 0.
#[derive(Clone, Copy, Debug, PartialEq, Eq, Default)]
pub struct Refused {
    pub number: u32,
    /// 1 a sheet, 2 the book, 3 the margin, 0 neither.
    pub layer: u32,
    pub line: u32,
    pub cell: u32,
    pub reference: u32,
}

impl Refused {
    fn too_long() -> Self {
        Refused {
            number: number::TOO_LONG,
            ..Refused::default()
        }
    }

    fn sheet(number: u32, line: u32) -> Self {
        Refused {
            number,
            layer: 1,
            line,
            ..Refused::default()
        }
    }

    fn cell(line: u32, cell: u32) -> Self {
        Refused {
            number: number::VALUE,
            layer: 1,
            line,
            cell,
            reference: 0,
        }
    }

    fn book(number: u32, line: u32, reference: u32) -> Self {
        Refused {
            number,
            layer: 2,
            line,
            cell: 0,
            reference,
        }
    }

    fn margin(number: u32, reference: u32) -> Self {
        Refused {
            number,
            layer: 3,
            reference,
            ..Refused::default()
        }
    }
}

/// Works a whole run: writes its statement at the front of the buffer and answers its length, or
/// leaves the buffer as it was and answers the refusal.
pub fn run(input: &[u8], buffer: &mut [u8]) -> Result<usize, Refused> {
    if input.len() > INPUT_LIMIT {
        return Err(Refused::too_long());
    }
    let book = read(input)?;
    let margin = margin::work(&book)?;
    let statement = statement::spell(&margin);
    let front = buffer
        .get_mut(..statement.len())
        .ok_or(Refused::too_long())?;
    front.copy_from_slice(&statement);
    Ok(statement.len())
}

/// What the five sheets hold together.
struct Book {
    day: Day,
    market: Market,
    points: Points,
    account: Account,
}

/// Reads the five sheets, in their order and with nothing between or behind them.
fn read(input: &[u8]) -> Result<Book, Refused> {
    let mut reader = Reader::new(input);
    let day = read_day(&mut reader)?;

    let mut market = Market::default();
    reader.read_sheet(|row: rows::Percentage, line| {
        market
            .add_percentage(row)
            .map_err(|number| Refused::book(number, line, 0))
    })?;

    let mut points = Points::default();
    reader.read_sheet(|row: rows::Point, line| {
        points
            .add(row)
            .map_err(|number| Refused::book(number, line, 0))
    })?;

    reader.read_sheet(|row: rows::Price, line| {
        market
            .add_price(row)
            .map_err(|number| Refused::book(number, line, 0))
    })?;

    let mut account = Account::default();
    reader.read_sheet(|row: rows::Position, line| {
        let reference = row.reference;
        account
            .enter(&day, row)
            .map_err(|number| Refused::book(number, line, reference))
    })?;

    if !reader.is_at_end() {
        return Err(Refused::sheet(number::TRAILER, reader.next_line()));
    }
    Ok(Book {
        day,
        market,
        points,
        account,
    })
}

/// Reads the sheet of the day. A second row is read and checked like the first; only at the trailer
/// it is told that there is not just one.
fn read_day(reader: &mut Reader) -> Result<Day, Refused> {
    let mut day = None;
    let end = reader.read_sheet(|row: rows::DayRow, line| {
        day = Some(Day::new(row).map_err(|number| Refused::book(number, line, 0))?);
        Ok(())
    })?;
    match day {
        Some(day) if end.rows == 1 => Ok(day),
        _ => Err(Refused::sheet(number::TRAILER, end.line)),
    }
}
