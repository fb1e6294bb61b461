//! The forms that cells may have.

use std::ops::RangeInclusive;

/// What a cell under a needed name may be.
pub enum Form {
    Number(RangeInclusive<i64>),
    Letter(&'static [u8]),
    Isin,
    /// By the block that stands in the same row.
    Titles,
}

pub const MOST_TITLES: i64 = 2_000_000;

impl Form {
    /// Whether the cell has this form, in a row with this cell under `BLOCK`.
    pub fn fits(&self, cell: &[u8], block: &[u8]) -> bool {
        match self {
            Form::Number(range) => is_within(cell, range),
            Form::Letter(letters) => matches!(cell, [letter] if letters.contains(letter)),
            Form::Isin => is_isin(cell),
            Form::Titles => is_within(cell, &titles_beside(block)),
        }
    }
}

/// The number that the cell spells. Each number has one spelling.
pub fn number(cell: &[u8]) -> Option<i64> {
    let text = std::str::from_utf8(cell).ok()?;
    let number: i64 = text.parse().ok()?;
    (number.to_string() == text).then_some(number)
}

fn is_within(cell: &[u8], range: &RangeInclusive<i64>) -> bool {
    number(cell).is_some_and(|number| range.contains(&number))
}

fn titles_beside(block: &[u8]) -> RangeInclusive<i64> {
    match block {
        b"C" => 0..=0,
        b"T" | b"F" | b"H" => 1..=MOST_TITLES,
        _ => 0..=MOST_TITLES,
    }
}

/// Two letters, nine letters or digits and one check digit, with the check of ISO 6166.
fn is_isin(cell: &[u8]) -> bool {
    let is_letter_or_digit = |byte: &u8| byte.is_ascii_uppercase() || byte.is_ascii_digit();
    cell.len() == 12
        && cell[..2].iter().all(u8::is_ascii_uppercase)
        && cell[2..11].iter().all(is_letter_or_digit)
        && cell[11].is_ascii_digit()
        && check_sum(cell).is_multiple_of(10)
}

/// The sum of the digits of all results: everything is written out as digits, and from the right,
/// beginning beside the check digit, every second digit is doubled.
fn check_sum(isin: &[u8]) -> u32 {
    let written_out: String = isin
        .iter()
        .filter_map(|byte| char::from(*byte).to_digit(36))
        .map(|value| value.to_string())
        .collect();
    written_out
        .bytes()
        .rev()
        .map(|digit| u32::from(digit - b'0'))
        .enumerate()
        .map(|(place, digit)| digit << (place % 2))
        .map(|result| result / 10 + result % 10)
        .sum()
}

#[cfg(test)]
mod tests {
    use super::*;

    #[test]
    fn a_number_is_its_one_spelling() {
        for number in [0, 1, -1, 10, -500, 1_000_000_000_000] {
            assert_eq!(super::number(number.to_string().as_bytes()), Some(number));
        }
        for wrong in [
            "",
            "007",
            "+7",
            " 7",
            "7 ",
            "7.0",
            "1,000",
            "-0",
            "-",
            "-01",
            "7\r",
            "\u{663}",
            "99999999999999999999",
        ] {
            assert_eq!(number(wrong.as_bytes()), None, "{wrong}");
        }
    }

    #[test]
    fn an_isin_has_its_check_digit() {
        assert_eq!(check_sum(b"ES0000001018"), 30);
        for isin in [
            "ES0000001018",
            "ES0000002024",
            "US0378331005",
            "AU0000XVGZA3",
        ] {
            assert!(is_isin(isin.as_bytes()), "{isin}");
        }
        for wrong in [
            "ES0000001017",
            "es0000001018",
            "ES000000101",
            "E00000001018",
            "",
        ] {
            assert!(!is_isin(wrong.as_bytes()), "{wrong}");
        }
    }

    #[test]
    fn titles_go_by_the_block() {
        for (titles, block, fits) in [
            ("0", "C", true),
            ("1", "C", false),
            ("0", "T", false),
            ("1", "F", true),
            ("2000000", "H", true),
            ("2000001", "H", false),
            ("0", "X", true),
            ("2000001", "X", false),
        ] {
            let found = Form::Titles.fits(titles.as_bytes(), block.as_bytes());
            assert_eq!(found, fits, "{titles} beside {block}");
        }
    }
}
