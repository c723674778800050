//! Numbers as they are written: whole ones, and degrees.

use crate::trouble::Trouble;

/// The decimals of a degree that are kept.
const DECIMALS: usize = 6;

/// A whole number. One that is too large for 32 bits is taken for the largest of 32 bits, which
/// the library refuses as it would refuse the number itself.
pub fn whole(name: &str, value: &str) -> Result<u32, Trouble> {
    if !is_digits(value) {
        let what = "is a whole number, written in digits";
        return Err(Trouble::usage(format!("{name} {what}, not '{value}'")));
    }
    Ok(value.parse().unwrap_or(u32::MAX))
}

/// Millionths of a degree: a whole number of them, or degrees with a decimal point. What is too
/// large for 32 bits is taken for the largest, as above.
pub fn microdegrees(name: &str, value: &str) -> Result<i32, Trouble> {
    let (minus, digits) = match value.strip_prefix('-') {
        Some(digits) => (true, digits),
        None => (false, value.strip_prefix('+').unwrap_or(value)),
    };
    let size = match digits.split_once('.') {
        None => is_digits(digits).then(|| digits.to_string()),
        Some((whole, part)) if is_digits(whole) && is_digits(part) => {
            let kept = part.trim_end_matches('0');
            if kept.len() > DECIMALS {
                let what = "has more than six decimals: degrees are exact to a millionth, so round";
                return Err(Trouble::usage(format!("{name} {what} '{value}'")));
            }
            Some(format!("{whole}{kept:0<DECIMALS$}"))
        }
        Some(_) => None,
    };
    let Some(size) = size else {
        let what = "is degrees with a decimal point (22.5) or whole millionths of a degree \
                    (22500000), south and west negative";
        return Err(Trouble::usage(format!("{name} {what}, not '{value}'")));
    };
    let size = size.parse().unwrap_or(i32::MAX);
    Ok(if minus { -size } else { size })
}

fn is_digits(text: &str) -> bool {
    !text.is_empty() && text.bytes().all(|byte| byte.is_ascii_digit())
}

/// Millionths of a degree as degrees, with all six decimals.
pub fn degrees(microdegrees: i32) -> String {
    let (sign, size) = (if microdegrees < 0 { "-" } else { "" }, microdegrees.unsigned_abs());
    format!("{sign}{}.{:06}", size / 1_000_000, size % 1_000_000)
}

#[cfg(test)]
mod tests {
    use super::*;

    #[test]
    fn whole_numbers_are_digits_and_large_ones_are_the_largest() {
        assert_eq!(whole("N", "007").unwrap(), 7);
        assert_eq!(whole("N", "99999999999").unwrap(), u32::MAX);
        for wrong in ["", "-1", "+1", "1.5", "0x10", "1e3", " 1", "٣"] {
            assert!(whole("N", wrong).is_err(), "{wrong}");
        }
    }

    #[test]
    fn degrees_by_the_point_and_millionths_without() {
        let right = [
            ("-90000000", -90_000_000),
            ("22.5", 22_500_000),
            ("-0.5", -500_000),
            ("+0.000001", 1),
            ("179.999999000", 179_999_999),
            ("007.0", 7_000_000),
            ("7", 7),
            ("99999999999", i32::MAX),
            ("-99999999999", -i32::MAX),
            ("99999.0", i32::MAX),
        ];
        for (text, value) in right {
            assert_eq!(microdegrees("latitude", text).unwrap(), value, "{text}");
        }
        for wrong in ["", "-", ".5", "5.", "1.2.3", "--1", "1e2", "0.0000001", "-.5", "20N", "1,5"]
        {
            assert!(microdegrees("latitude", wrong).is_err(), "{wrong}");
        }
    }

    #[test]
    fn printed_degrees_come_back() {
        for value in [0, 1, -1, 999_999, -45_000_000, 179_999_999, -180_000_000] {
            assert_eq!(microdegrees("latitude", &degrees(value)).unwrap(), value);
        }
        assert_eq!(degrees(-500_000), "-0.500000");
    }
}
