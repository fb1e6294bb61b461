//! ISINs by ISO 6166.

/// A valid ISIN: its twelve bytes as one number, the first byte highest, so that the order of the
/// numbers is the order of the bytes.
#[derive(Clone, Copy, Debug, PartialEq, Eq, PartialOrd, Ord)]
pub struct Isin(u128);

impl Isin {
    /// The ISIN that the cell spells: two letters, nine letters or digits, and the check digit that
    /// is due.
    pub fn parse(cell: &[u8]) -> Option<Self> {
        let bytes: &[u8; 12] = cell.try_into().ok()?;
        let (country, rest) = bytes.split_at(2);
        let (number, check) = rest.split_at(9);
        let fits = country.iter().all(u8::is_ascii_uppercase)
            && number
                .iter()
                .all(|byte| byte.is_ascii_uppercase() || byte.is_ascii_digit())
            && check[0].is_ascii_digit();
        if !fits || !check_sum(bytes).is_multiple_of(10) {
            return None;
        }
        Some(Isin(
            bytes
                .iter()
                .fold(0, |number, byte| number << 8 | u128::from(*byte)),
        ))
    }

    /// The ISIN with the given front and the check digit that makes it valid.
    pub fn with_check_digit(front: &[u8; 11]) -> Option<[u8; 12]> {
        let mut bytes = [b'0'; 12];
        bytes[..11].copy_from_slice(front);
        for digit in b'0'..=b'9' {
            bytes[11] = digit;
            if Isin::parse(&bytes).is_some() {
                return Some(bytes);
            }
        }
        None
    }

    pub fn bytes(self) -> [u8; 12] {
        let mut bytes = [0; 12];
        bytes.copy_from_slice(&self.0.to_be_bytes()[4..]);
        bytes
    }
}

/// The sum of the digits of all results: letters written out as 10 to 35, every second digit from
/// the right doubled, beginning beside the check digit.
fn check_sum(bytes: &[u8; 12]) -> u32 {
    let mut sum = 0;
    let mut doubled = false;
    let mut add = |digit: u32| {
        let result = if doubled { 2 * digit } else { digit };
        sum += result / 10 + result % 10;
        doubled = !doubled;
    };
    for byte in bytes.iter().rev() {
        if byte.is_ascii_digit() {
            add(u32::from(byte - b'0'));
        } else {
            let value = u32::from(byte - b'A') + 10;
            add(value % 10);
            add(value / 10);
        }
    }
    sum
}

#[cfg(test)]
mod tests {
    use super::*;

    #[test]
    fn the_check_digit_is_asked() {
        assert_eq!(check_sum(b"ES0000001018"), 30);
        assert!(Isin::parse(b"ES0000001018").is_some());
        assert!(Isin::parse(b"ES0000001017").is_none());
        assert!(Isin::parse(b"ES0000002024").is_some());
        for known in [
            b"US0378331005",
            b"DE000BAY0017",
            b"GB0002634946",
            b"AU0000XVGZA3",
        ] {
            assert!(Isin::parse(known).is_some());
        }
    }

    #[test]
    fn the_form_is_asked() {
        for wrong in [
            &b""[..],
            b"es0000001018",
            b"E00000001018",
            b"ES000000101",
            b"ES00000010180",
            b"ES000000101 ",
            b"ES0000-01018",
            b"US037833100A",
        ] {
            assert!(Isin::parse(wrong).is_none());
        }
    }

    #[test]
    fn the_order_is_that_of_the_bytes() {
        let digits = Isin::parse(b"ES0000001018").unwrap();
        let higher = Isin::parse(b"ES0000002024").unwrap();
        let letters = Isin::parse(&Isin::with_check_digit(b"ESA00000000").unwrap()).unwrap();
        assert!(digits < higher && higher < letters);
        assert_eq!(&digits.bytes(), b"ES0000001018");
    }
}
