//! Damage to a text that was right.

use super::Chance;

/// Damages a text of lines once.
pub fn damage(chance: &mut Chance, text: &mut Vec<u8>) {
    match chance.below(16) {
        0..=2 => change_byte(chance, text),
        3 => remove_byte(chance, text),
        4 => insert_byte(chance, text),
        5 => text.truncate(chance.below(text.len() as u64 + 1) as usize),
        6 => leading_zero(chance, text),
        7 => second_space(chance, text),
        8 => long_number(chance, text),
        9 => more_at_end(chance, text),
        10 => wrong_count(chance, text),
        _ => damage_lines(chance, text),
    }
}

/// Damages one line, which stays one line.
pub fn damage_line(chance: &mut Chance, line: &mut Vec<u8>) {
    match chance.below(9) {
        0..=1 => change_byte(chance, line),
        2 => remove_byte(chance, line),
        3 => insert_byte(chance, line),
        4 => line.truncate(chance.below(line.len() as u64 + 1) as usize),
        5 => leading_zero(chance, line),
        6 => second_space(chance, line),
        7 => long_number(chance, line),
        _ => line.extend_from_slice(chance.pick(&[" ", " 0", " 1", "\r", " x", "0"]).as_bytes()),
    }
    line.retain(|&byte| byte != b'\n');
}

fn random_byte(chance: &mut Chance) -> u8 {
    match chance.below(4) {
        0 => chance.below(256) as u8,
        1 => b'0' + chance.below(10) as u8,
        _ => chance.pick(b" \n\t\rSLXM-+.0aZ"),
    }
}

fn place(chance: &mut Chance, text: &[u8]) -> usize {
    chance.below(text.len().max(1) as u64) as usize
}

fn change_byte(chance: &mut Chance, text: &mut [u8]) {
    let at = place(chance, text);
    if let Some(byte) = text.get_mut(at) {
        *byte = random_byte(chance);
    }
}

fn remove_byte(chance: &mut Chance, text: &mut Vec<u8>) {
    let at = place(chance, text);
    if at < text.len() {
        text.remove(at);
    }
}

fn insert_byte(chance: &mut Chance, text: &mut Vec<u8>) {
    let at = place(chance, text);
    text.insert(at, random_byte(chance));
}

/// Places of the bytes that `is` finds behind another byte.
fn places(text: &[u8], is: impl Fn(u8, u8) -> bool) -> Vec<usize> {
    (1..text.len()).filter(|&at| is(text[at - 1], text[at])).collect()
}

fn insert_at_one(chance: &mut Chance, text: &mut Vec<u8>, places: &[usize], more: &[u8]) {
    if !places.is_empty() {
        let at = chance.pick(places);
        text.splice(at..at, more.iter().copied());
    }
}

fn number_starts(text: &[u8]) -> Vec<usize> {
    places(text, |before, byte| byte.is_ascii_digit() && !before.is_ascii_digit())
}

fn leading_zero(chance: &mut Chance, text: &mut Vec<u8>) {
    let starts = number_starts(text);
    insert_at_one(chance, text, &starts, b"0");
}

fn second_space(chance: &mut Chance, text: &mut Vec<u8>) {
    let ends = places(text, |before, byte| before == b' ' || byte == b'\n');
    insert_at_one(chance, text, &ends, b" ");
}

/// Makes a number long: past 32 bits, 13 digits or 64 bits, or just not.
fn long_number(chance: &mut Chance, text: &mut Vec<u8>) {
    let starts = number_starts(text);
    let digits = chance.pick(&["42949672", "429496729", "1000000000", "999999999999", "18446744073709551", "-"]);
    insert_at_one(chance, text, &starts, digits.as_bytes());
}

fn more_at_end(chance: &mut Chance, text: &mut Vec<u8>) {
    match chance.below(6) {
        0 => text.push(b'\n'),
        1 => text.push(b' '),
        2 => text.extend_from_slice(b"bids 0\n"),
        3 => text.resize(16_384, b'x'),
        4 => text.resize(text.len().max(16_384) + 1, b'0'),
        _ => drop(text.pop()),
    }
}

/// Rebuilds a text from its lines, changed.
fn damage_lines(chance: &mut Chance, text: &mut Vec<u8>) {
    let mut lines: Vec<&[u8]> = text.split_inclusive(|&byte| byte == b'\n').collect();
    if lines.is_empty() {
        return;
    }
    let at = chance.below(lines.len() as u64) as usize;
    let other = chance.below(lines.len() as u64) as usize;
    match chance.below(5) {
        0..=1 => drop(lines.remove(at)),
        2 => lines.insert(other, lines[at]),
        3 => lines.insert(at, lines[at]),
        _ => lines.swap(at, other),
    }
    *text = lines.concat();
}

/// Changes the number of a count line.
fn wrong_count(chance: &mut Chance, text: &mut Vec<u8>) {
    let lines: Vec<&[u8]> = text.split_inclusive(|&byte| byte == b'\n').collect();
    let counts: Vec<usize> = (1..lines.len()).filter(|&at| lines[at][0].is_ascii_lowercase()).collect();
    if counts.is_empty() {
        return;
    }
    let at = chance.pick(&counts);
    let line = String::from_utf8_lossy(lines[at]).into_owned();
    let (word, number) = line.trim_end().split_once(' ').unwrap_or((&line, "0"));
    let number: i64 = number.parse().unwrap_or(0);
    let wrong = number + chance.pick(&[-1, 1, 1, 10, 4_294_967_295, 4_294_967_296]);
    let changed = format!("{word} {wrong}\n");
    *text = [&lines[..at].concat()[..], changed.as_bytes(), &lines[at + 1..].concat()[..]].concat();
}
