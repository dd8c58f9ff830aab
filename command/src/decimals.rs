//! Prices and amounts in units of 0.0000001, as decimals, and whole numbers as they are typed and printed.

use crate::output::quoted;

const DIGITS: usize = 7;
const UNIT: i64 = 10_000_000;

/// A number of units with seven digits after the point.
pub fn decimal(units: i64) -> String {
    let sign = if units < 0 { "-" } else { "" };
    let (whole, part) = (units.unsigned_abs() / UNIT.unsigned_abs(), units.unsigned_abs() % UNIT.unsigned_abs());
    format!("{sign}{whole}.{part:07}")
}

/// The units of a decimal, exactly: at most seven digits after the point.
pub fn units(word: &[u8]) -> Result<i64, String> {
    let (sign, magnitude) = signed(word);
    let (whole, part) = match magnitude.iter().position(|byte| *byte == b'.') {
        Some(point) => (&magnitude[..point], Some(&magnitude[point + 1..])),
        None => (magnitude, None),
    };
    if !is_digits(whole) || !part.is_none_or(is_digits) {
        return Err(format!("{} is no decimal number", quoted(word)));
    }
    let part = part.unwrap_or_default();
    if part.len() > DIGITS {
        return Err(format!("{} has more than seven digits after the point", quoted(word)));
    }
    let padded = part.iter().chain(b"0000000").take(DIGITS);
    digits_value(sign, whole.iter().chain(padded)).ok_or_else(|| too_great(word))
}

/// A whole number as it is typed.
pub fn whole(word: &[u8]) -> Result<i64, String> {
    let (sign, digits) = signed(word);
    if !is_digits(digits) {
        return Err(format!("{} is no whole number", quoted(word)));
    }
    digits_value(sign, digits.iter()).ok_or_else(|| too_great(word))
}

/// A whole number with its digits in groups of three.
pub fn grouped(number: i64) -> String {
    let digits = number.unsigned_abs().to_string();
    let mut text = if number < 0 { "-".to_string() } else { String::new() };
    for (place, digit) in digits.chars().enumerate() {
        if place > 0 && (digits.len() - place).is_multiple_of(3) {
            text.push(',');
        }
        text.push(digit);
    }
    text
}

fn signed(word: &[u8]) -> (i64, &[u8]) {
    match word.strip_prefix(b"-") {
        Some(rest) => (-1, rest),
        None => (1, word),
    }
}

fn is_digits(bytes: &[u8]) -> bool {
    !bytes.is_empty() && bytes.iter().all(u8::is_ascii_digit)
}

/// The value of a sign and digits, where it fits 64 bits.
fn digits_value<'a>(sign: i64, mut digits: impl Iterator<Item = &'a u8>) -> Option<i64> {
    digits.try_fold(0_i64, |value, digit| value.checked_mul(10)?.checked_add(sign * i64::from(digit - b'0')))
}

fn too_great(word: &[u8]) -> String {
    format!("{} does not fit 64 bits", quoted(word))
}

#[cfg(test)]
mod tests {
    use super::*;

    #[test]
    fn a_decimal_has_seven_digits_and_its_sign() {
        assert_eq!([1_250_000_000, -1, 0, 7, i64::MIN].map(decimal), ["125.0000000", "-0.0000001", "0.0000000", "0.0000007", "-922337203685.4775808"]);
    }

    #[test]
    fn units_are_exact_or_none() {
        for (word, value) in [("125", 1_250_000_000), ("125.00", 1_250_000_000), ("-0.0000001", -1), ("0.5", 5_000_000), ("-922337203685.4775808", i64::MIN)] {
            assert_eq!(units(word.as_bytes()), Ok(value), "{word}");
            assert_eq!(units(decimal(value).as_bytes()), Ok(value), "{word}");
        }
        for word in ["", "-", ".", ".5", "5.", "1.00000000", "1e3", "+1", "1,000", "1.2.3", "922337203685.4775808", "--1", "1 "] {
            assert!(units(word.as_bytes()).is_err(), "{word}");
        }
    }

    #[test]
    fn whole_numbers_are_of_64_bits() {
        assert_eq!((whole(b"007"), whole(b"-9223372036854775808")), (Ok(7), Ok(i64::MIN)));
        for word in ["", "-", "1.0", "9223372036854775808", "0x1"] {
            assert!(whole(word.as_bytes()).is_err(), "{word}");
        }
    }

    #[test]
    fn digits_are_grouped() {
        assert_eq!([0, 999, 1_000, -1_000_000_000_000].map(grouped), ["0", "999", "1,000", "-1,000,000,000,000"]);
    }
}
