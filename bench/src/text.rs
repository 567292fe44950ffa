//! Fields and numbers of sheets and journals.

use crate::market::{Direction, Kind};

/// The fields of a line, one space between two.
pub fn fields(line: &[u8]) -> impl Iterator<Item = &[u8]> {
    line.split(|&byte| byte == b' ')
}

/// A decimal number without leading zeros that fits 64 bits.
pub fn u64(field: &[u8]) -> Option<u64> {
    if field.is_empty() || (field.len() > 1 && field[0] == b'0') {
        return None;
    }
    field.iter().try_fold(0u64, |number, &byte| {
        let digit = byte.wrapping_sub(b'0');
        if digit > 9 {
            return None;
        }
        number.checked_mul(10)?.checked_add(digit.into())
    })
}

/// A decimal number without leading zeros that fits 32 bits.
pub fn u32(field: &[u8]) -> Option<u32> {
    u64(field)?.try_into().ok()
}

/// A decimal number of 63 bits, with a minus sign if below 0.
pub fn i64(field: &[u8]) -> Option<i64> {
    match field.strip_prefix(b"-") {
        Some(digits) => i64::try_from(u64(digits)?).ok().filter(|&n| n > 0).map(|n| -n),
        None => u64(field)?.try_into().ok(),
    }
}

pub fn kind(field: &[u8]) -> Option<Kind> {
    match field {
        b"S" => Some(Kind::Short),
        b"L" => Some(Kind::Long),
        _ => None,
    }
}

pub fn direction(field: &[u8]) -> Option<Direction> {
    match field {
        b"X" => Some(Direction::Export),
        b"M" => Some(Direction::Import),
        _ => None,
    }
}

pub fn kind_letter(kind: Kind) -> &'static [u8] {
    match kind {
        Kind::Short => b"S",
        Kind::Long => b"L",
    }
}

pub fn direction_letter(direction: Direction) -> &'static [u8] {
    match direction {
        Direction::Export => b"X",
        Direction::Import => b"M",
    }
}

/// Appends a number in decimal.
pub fn put(out: &mut Vec<u8>, number: u64) {
    let mut digits = [0; 20];
    let mut at = digits.len();
    let mut rest = number;
    loop {
        at -= 1;
        digits[at] = b'0' + (rest % 10) as u8;
        rest /= 10;
        if rest == 0 {
            break;
        }
    }
    out.extend_from_slice(&digits[at..]);
}

/// Appends numbers with one space before each.
pub fn put_each(out: &mut Vec<u8>, numbers: impl IntoIterator<Item = u64>) {
    for number in numbers {
        out.push(b' ');
        put(out, number);
    }
}

/// Appends a number in decimal, with a minus sign if below 0.
pub fn put_signed(out: &mut Vec<u8>, number: i64) {
    if number < 0 {
        out.push(b'-');
    }
    put(out, number.unsigned_abs());
}

/// Appends a word, one space and a number as a line.
pub fn put_count(out: &mut Vec<u8>, word: &str, number: usize) {
    out.extend_from_slice(word.as_bytes());
    out.push(b' ');
    put(out, number as u64);
    out.push(b'\n');
}
