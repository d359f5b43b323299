//! Numbers as people write them, read exactly: nothing here goes through a floating point number. `None` is for what is no such number.
use crate::printed::out::Out;
use crate::words::named::shown;
use std::ffi::OsString;

/// A whole number: decimal, or hexadecimal behind 0x.
pub fn whole(text: &str) -> Option<u64> {
    match text.strip_prefix("0x") {
        Some(digits) => is_all(digits, |c| c.is_ascii_hexdigit()).then(|| u64::from_str_radix(digits, 16).ok())?,
        None => decimal(text),
    }
}

/// Hz, or samples a second: 102300000, 102300k, 102.3M, 0.1023G, each with or without `Hz` behind it. It must come to a whole number.
pub fn hertz(text: &str) -> Option<u64> {
    if text.starts_with("0x") {
        return whole(text);
    }
    let text = text.strip_suffix("Hz").unwrap_or(text);
    let (number, zeros) = match text.char_indices().next_back()? {
        (at, 'k' | 'K') => (&text[..at], 3),
        (at, 'M') => (&text[..at], 6),
        (at, 'G') => (&text[..at], 9),
        _ => (text, 0),
    };
    shifted(number, zeros)
}

/// The one frequency behind a command; told as a mistake where there is none or more.
pub fn one_hertz(command: &str, operands: &[OsString], out: &mut Out) -> Option<u64> {
    let wants = format!("{command} wants a whole number of Hz to 18446744073709551615, as 102300000, 102300k or 102.3M");
    match operands {
        [] => out.mistake(&wants),
        [word] => match word.to_str().and_then(hertz) {
            Some(hz) => return Some(hz),
            None => out.mistake(&format!("{wants}, not `{}`", shown(word))),
        },
        [_, more @ ..] => {
            for word in more {
                out.mistake(&format!("{command} wants one frequency, and no `{}` behind it", shown(word)));
            }
        }
    }
    None
}

/// A number with a minus or without.
pub fn signed(text: &str) -> Option<i32> {
    let (minus, digits) = sign(text);
    let magnitude = i64::try_from(decimal(digits)?).ok()?;
    i32::try_from(if minus { -magnitude } else { magnitude }).ok()
}

/// Hz with a minus or without, of 64 bits.
pub fn shift(text: &str) -> Option<i64> {
    let (minus, number) = sign(text);
    let magnitude = i128::from(hertz(number)?);
    i64::try_from(if minus { -magnitude } else { magnitude }).ok()
}

/// Tenths, as 29.7, 30 or -1.5 spell them: a point has one digit behind it. To 6553.5 on both sides, so that a tenth is one binary32.
pub fn tenths(text: &str) -> Option<i32> {
    let (minus, number) = sign(text);
    if number.split_once('.').is_some_and(|(_, behind)| behind.len() > 1) {
        return None;
    }
    let magnitude = i32::from(u16::try_from(shifted(number, 1)?).ok()?);
    Some(if minus { -magnitude } else { magnitude })
}

fn sign(text: &str) -> (bool, &str) {
    match text.strip_prefix('-') {
        Some(rest) => (true, rest),
        None => (false, text),
    }
}

/// A decimal number, with or without a point, times ten to the power `zeros`.
fn shifted(number: &str, zeros: usize) -> Option<u64> {
    let (before, behind) = match number.split_once('.') {
        Some((before, behind)) if is_all(behind, |c| c.is_ascii_digit()) => (before, behind.trim_end_matches('0')),
        Some(_) => return None,
        None => (number, ""),
    };
    let missing = zeros.checked_sub(behind.len())?;
    let power = |n: usize| 10u64.pow(n as u32);
    let fraction = if behind.is_empty() { 0 } else { decimal(behind)? };
    decimal(before)?.checked_mul(power(zeros))?.checked_add(fraction * power(missing))
}

fn decimal(digits: &str) -> Option<u64> {
    // `parse` alone would take a plus.
    is_all(digits, |c| c.is_ascii_digit()).then(|| digits.parse().ok())?
}

fn is_all(text: &str, is: impl Fn(char) -> bool) -> bool {
    !text.is_empty() && text.chars().all(is)
}

#[cfg(test)]
mod tests {
    use super::*;

    #[test]
    fn hertz_as_people_write_them() {
        for text in
            ["102300000", "102300k", "102300K", "102.3M", "102.300M", "102.3MHz", "0.1023G", "102300000Hz", "102300000.0", "0x618f960"]
        {
            assert_eq!(hertz(text), Some(102_300_000), "{text}");
        }
        assert_eq!(hertz("2.4M"), Some(2_400_000));
        assert_eq!(hertz("0"), Some(0));
        assert_eq!(hertz("0.001k"), Some(1));
        assert_eq!(hertz("0.000000001G"), Some(1));
        assert_eq!(hertz("18446744073709551615"), Some(u64::MAX));
        assert_eq!(hertz("18446744073.709551615G"), Some(u64::MAX));
        assert_eq!(hertz("0xffffffffffffffff"), Some(u64::MAX));
    }

    #[test]
    fn shifts() {
        assert_eq!((shift("-2G"), shift("28.8M"), shift("0"), shift("-0")), (Some(-2_000_000_000), Some(28_800_000), Some(0), Some(0)));
        assert_eq!((shift("-9223372036854775808"), shift("9223372036854775807")), (Some(i64::MIN), Some(i64::MAX)));
        for text in ["-9223372036854775809", "9223372036854775808", "--1", "-", "", "1.5"] {
            assert_eq!(shift(text), None, "{text}");
        }
    }

    #[test]
    fn hertz_that_are_none() {
        let none = [
            "",
            "k",
            "M",
            ".",
            ".5M",
            "1.M",
            "102.3",
            "0.0001k",
            "0.0000000001G",
            "102,3M",
            "102m",
            "102.3.1M",
            "-1",
            "+1",
            "1 M",
            " 1",
            "1e6",
            "0x",
            "0xg",
            "0x1k",
            "1kk",
            "Hz",
            "\u{661}",
            "1\u{212a}",
            "18446744073709551616",
            "18446744073.709551616G",
            "18446744074G",
            "0x10000000000000000",
            "99999999999999999999999999999999G",
        ];
        for text in none {
            assert_eq!(hertz(text), None, "{text}");
        }
    }

    #[test]
    fn signed_numbers() {
        assert_eq!(signed("2147483647"), Some(i32::MAX));
        assert_eq!(signed("-2147483648"), Some(i32::MIN));
        assert_eq!(signed("-0"), Some(0));
        for text in ["", "-", "--1", "+1", "1.5", "2147483648", "-2147483649", "-18446744073709551615", "0x1"] {
            assert_eq!(signed(text), None, "{text}");
        }
    }

    #[test]
    fn tenths_of_a_decibel() {
        let good = [
            ("29.7", 297),
            ("30", 300),
            ("30.0", 300),
            ("-1.5", -15),
            ("-0.1", -1),
            ("0", 0),
            ("-0", 0),
            ("6553.5", 65_535),
            ("-6553.5", -65_535),
        ];
        for (text, wanted) in good {
            assert_eq!(tenths(text), Some(wanted), "{text}");
        }
        for text in ["", "-", ".5", "1.", "1.25", "1.50", "6553.6", "-6553.6", "1,5", "3dB", "0x3", "nan", "1844674407370955161.6"] {
            assert_eq!(tenths(text), None, "{text}");
        }
    }

    #[test]
    fn whole_numbers() {
        assert_eq!((whole("255"), whole("0xff"), whole("0xFF"), whole("007")), (Some(255), Some(255), Some(255), Some(7)));
        for text in ["", "0x", "0X1", "1k", "-1", "+1", "0x+1", "1.0", "18446744073709551616"] {
            assert_eq!(whole(text), None, "{text}");
        }
    }
}
