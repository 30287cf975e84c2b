//! Values that are words: numbers and truth values. Dates and times are outside of the subset.

use super::{Fault, Value};

pub fn value(word: &str) -> Result<Value, Fault> {
    match word {
        "true" => return Ok(Value::Boolean(true)),
        "false" => return Ok(Value::Boolean(false)),
        _ if begins_date(word.as_bytes()) => return Err(Fault::OutsideSubset),
        _ => {}
    }
    for (prefix, radix) in [("0x", 16), ("0o", 8), ("0b", 2)] {
        if let Some(digits) = word.strip_prefix(prefix) {
            return integer(digits, radix, "");
        }
    }
    let (sign, rest) = match word.strip_prefix(['+', '-']) {
        Some(rest) => (&word[..1], rest),
        None => ("", word),
    };
    if is_whole(rest) {
        return integer(rest, 10, sign);
    }
    if !is_float(rest) {
        return Err(Fault::NotToml);
    }
    // TOML does not say whether a number too large for a float is an error.
    let is_too_large = rest != "inf" && rest.replace('_', "").parse() == Ok(f64::INFINITY);
    if is_too_large {
        return Err(Fault::OutsideSubset);
    }
    Ok(Value::Float)
}

/// `1979-..` and `07:..`.
fn begins_date(word: &[u8]) -> bool {
    let digits = word.iter().take_while(|it| it.is_ascii_digit()).count();
    matches!((digits, word.get(digits)), (4, Some(b'-')) | (2, Some(b':')))
}

fn integer(digits: &str, radix: u32, sign: &str) -> Result<Value, Fault> {
    if !are_digits(digits, radix) {
        return Err(Fault::NotToml);
    }
    let number = sign.to_string() + &digits.replace('_', "");
    i64::from_str_radix(&number, radix).map(Value::Integer).map_err(|_| Fault::NotToml)
}

/// Digits, where single underscores may stand between two of them.
fn are_digits(word: &str, radix: u32) -> bool {
    let is_group = |group: &str| !group.is_empty() && group.chars().all(|it| it.is_digit(radix));
    word.split('_').all(is_group)
}

/// A decimal number without a zero before it.
fn is_whole(word: &str) -> bool {
    are_digits(word, 10) && (word == "0" || !word.starts_with('0'))
}

fn is_float(word: &str) -> bool {
    if matches!(word, "inf" | "nan") {
        return true;
    }
    let (number, exponent) = match word.split_once(['e', 'E']) {
        Some((number, exponent)) => (number, Some(exponent)),
        None => (word, None),
    };
    let (whole, fraction) = match number.split_once('.') {
        Some((whole, fraction)) => (whole, Some(fraction)),
        None => (number, None),
    };
    let exponent_digits = exponent.map(|it| it.strip_prefix(['+', '-']).unwrap_or(it));
    is_whole(whole)
        && (fraction.is_some() || exponent.is_some())
        && fraction.map_or(true, |it| are_digits(it, 10))
        && exponent_digits.map_or(true, |it| are_digits(it, 10))
}
