//! The spellings of numbers: each number has one.

/// The whole number that the cell spells: digits, with no zero in front of others.
///
/// A cell of 20 digits or more spells none here, as its number is beyond every range that is asked.
pub fn whole(cell: &[u8]) -> Option<u64> {
    if cell.is_empty() || cell.len() > 19 || (cell[0] == b'0' && cell.len() > 1) {
        return None;
    }
    let mut number = 0u64;
    for byte in cell {
        let digit = byte.wrapping_sub(b'0');
        if digit > 9 {
            return None;
        }
        number = number * 10 + u64::from(digit);
    }
    Some(number)
}

/// The whole number that the cell spells, where it lies within the bounds.
pub fn within(cell: &[u8], lowest: u64, highest: u64) -> Option<u64> {
    whole(cell).filter(|number| (lowest..=highest).contains(number))
}

/// The number, perhaps negative, that the cell spells, where it lies within the bounds.
pub fn signed_within(cell: &[u8], lowest: i64, highest: i64) -> Option<i64> {
    let number = match cell.split_first() {
        Some((b'-', digits)) => match i64::try_from(whole(digits)?).ok()? {
            0 => return None,
            number => -number,
        },
        _ => i64::try_from(whole(cell)?).ok()?,
    };
    Some(number).filter(|number| (lowest..=highest).contains(number))
}

/// Writes a number as it is spelled.
pub fn spell(number: i64, text: &mut Vec<u8>) {
    let mut digits = [0; 20];
    let mut first = digits.len();
    let mut rest = number.unsigned_abs();
    loop {
        first -= 1;
        digits[first] = b'0' + (rest % 10) as u8;
        rest /= 10;
        if rest == 0 {
            break;
        }
    }
    if number < 0 {
        text.push(b'-');
    }
    text.extend_from_slice(&digits[first..]);
}

#[cfg(test)]
mod tests {
    use super::*;

    #[test]
    fn whole_numbers_have_one_spelling() {
        assert_eq!(whole(b"0"), Some(0));
        assert_eq!(whole(b"7"), Some(7));
        assert_eq!(whole(b"1000000000000"), Some(1_000_000_000_000));
        assert_eq!(
            whole(b"9999999999999999999"),
            Some(9_999_999_999_999_999_999)
        );
        for wrong in [
            "",
            "007",
            "00",
            "+7",
            " 7",
            "7 ",
            "1,000",
            "-7",
            "-0",
            "7a",
            "\u{663}",
            "10000000000000000000",
        ] {
            assert_eq!(whole(wrong.as_bytes()), None, "{wrong}");
        }
    }

    #[test]
    fn negative_numbers_have_one_spelling() {
        assert_eq!(signed_within(b"-500", -500, 3_000), Some(-500));
        assert_eq!(signed_within(b"-501", -500, 3_000), None);
        assert_eq!(signed_within(b"0", -500, 3_000), Some(0));
        assert_eq!(signed_within(b"3000", -500, 3_000), Some(3_000));
        assert_eq!(signed_within(b"3001", -500, 3_000), None);
        for wrong in [
            "-0",
            "-",
            "--1",
            "-01",
            "- 1",
            "+1",
            "-+1",
            "",
            "-9999999999999999999",
        ] {
            assert_eq!(
                signed_within(wrong.as_bytes(), -500, 3_000),
                None,
                "{wrong}"
            );
        }
    }

    #[test]
    fn numbers_are_spelled() {
        for number in [0, 1, -1, 10, 300_000, -300_000, i64::MAX, i64::MIN] {
            let mut text = Vec::new();
            spell(number, &mut text);
            assert_eq!(text, number.to_string().into_bytes());
        }
    }
}
