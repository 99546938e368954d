//! Breaks of a file's form, number 2 to 5.

use super::{accepted, small_size, write, LIMITS};
use crate::check::{check, WRITE};
use crate::line::{leading_blanks, Letter, LINE_LENGTH, MOST_LINES};
use crate::random::Random;
use std::ops::Range;

/// Bytes that some reader may take for a line's end.
const LIKE_AN_END: &[u8] = b"\r \x00\x0b\x8a";

// How many kinds of wrong bytes there are.
const WRONG_BLANKS: usize = LIKE_A_BLANK.len() * 3;
const WRONG_ENDS: usize = LIKE_AN_END.len();
const WRONG_DIGITS: usize = 7;
const WRONG_LETTERS: usize = 4;

/// An accepted file with one wrong byte, so that it gets number 2. The steps go
/// through the kinds of places and the bytes in turn.
pub fn one_wrong_byte(random: &mut Random, step: usize) -> Vec<u8> {
    let kinds = WRONG_BLANKS + WRONG_ENDS + WRONG_DIGITS + WRONG_LETTERS;
    loop {
        let size = small_size(random);
        let mut lines = split(&write(&accepted(random, size)));
        let place = random.place(0, lines.len());
        put_wrong_byte(random, &mut lines[place], step % kinds);
        let bytes = lines.concat();
        if check(&bytes).number() == 2 {
            return bytes;
        }
    }
}

/// Puts a wrong byte of this kind in a line.
fn put_wrong_byte(random: &mut Random, line: &mut [u8], mut kind: usize) {
    let used = fields_in_use(line);
    let field = columns(random.below(used));
    let blanks = leading_blanks(&line[field.clone()]);
    if kind < WRONG_BLANKS {
        // In place of the last blank before a number, of its first blank,
        // or of a blank in a field without use.
        let column = match kind % 3 {
            0 => field.start + blanks - 1,
            1 => field.start,
            _ => (1 + 5 * used + random.below(5)).min(LINE_LENGTH - 2),
        };
        line[column] = LIKE_A_BLANK[kind / 3];
        return;
    }
    kind -= WRONG_BLANKS;
    if kind < WRONG_ENDS {
        line[LINE_LENGTH - 1] = LIKE_AN_END[kind];
        return;
    }
    kind -= WRONG_ENDS;
    if kind < WRONG_DIGITS {
        let column = random.between(field.start + blanks, field.end - 1);
        let [a, b, c, d, e] = like_a_digit(line[column]);
        line[column] = [a, b, c, d, e, b' ', b'O'][kind];
        return;
    }
    let letter = line[0];
    let others: [u8; WRONG_LETTERS] = [letter | 0x20, letter | 0x80, letter & 0x1f, b' '];
    line[0] = others[kind - WRONG_DIGITS];
}

/// Bytes that some reader may take for this digit.
fn like_a_digit(digit: u8) -> [u8; 5] {
    [b'/', b':', digit | 0x80, digit & 0x0f, digit ^ 0x40]
}

/// Breaks a rule of the file's form: number 2 to 5.
pub(super) fn bend_lines(random: &mut Random, lines: &mut Vec<Vec<u8>>, number: usize) {
    match number {
        2 => bend_form(random, lines),
        3 => bend_counts(random, lines),
        4 => bend_range(random, lines),
        _ => bend_order(random, lines),
    }
}

pub(super) fn split(bytes: &[u8]) -> Vec<Vec<u8>> {
    bytes
        .chunks(LINE_LENGTH)
        .map(|line| line.to_vec())
        .collect()
}

/// The columns of field 0 to 3.
pub(super) fn columns(field: usize) -> Range<usize> {
    1 + 5 * field..6 + 5 * field
}

pub(super) fn fields_in_use(line: &[u8]) -> usize {
    Letter::read(line[0]).map_or(2, Letter::fields_in_use)
}

/// The number in a field, 0 where there is none.
fn number_in(line: &[u8], field: usize) -> usize {
    std::str::from_utf8(&line[columns(field)])
        .ok()
        .and_then(|text| text.trim().parse().ok())
        .unwrap_or(0)
}

/// Puts a number of up to five digits in a field.
fn put_number(line: &mut [u8], field: usize, number: usize) {
    line[columns(field)].copy_from_slice(format!("{:>5}", number.min(99_999)).as_bytes());
}

/// A malformed line, an unknown letter, or H missing or found later.
fn bend_form(random: &mut Random, lines: &mut Vec<Vec<u8>>) {
    let place = random.place(0, lines.len());
    match random.below(14) {
        0 => bend_letter(random, &mut lines[place]),
        1 => lines[place][LINE_LENGTH - 1] = random.pick(b"\r \x000\x0b\x8aA"),
        // H found later.
        2 => {
            let mut heading = lines[0].clone();
            if random.percent(30) {
                put_number(&mut heading, 1, 999);
            }
            lines[place] = heading;
        }
        // H missing on line 1.
        3 if lines.len() > 1 => match random.below(3) {
            0 => {
                lines.remove(0);
            }
            1 => lines.swap(0, place),
            _ => lines[0] = lines[place].clone(),
        },
        4 | 5 => bend_unused_field(random, &mut lines[place]),
        _ => bend_used_field(random, &mut lines[place]),
    }
}

fn bend_letter(random: &mut Random, line: &mut [u8]) {
    line[0] = match random.below(5) {
        0 => line[0].to_ascii_lowercase(),
        1 => line[0] | 0x80,
        2 => line[0] + 1,
        3 => random.byte(),
        _ => random.pick(b"BCEFGIJKLMNQRTVWXYZ 0\x00\n"),
    };
}

/// Bytes that some reader may take for a blank or pass over.
const LIKE_A_BLANK: &[u8] = b"\t\x00\n\r\x0b\x0c\x1f!\xa00+-.,_";

fn bend_used_field(random: &mut Random, line: &mut [u8]) {
    let field = random.below(fields_in_use(line));
    let field = &mut line[columns(field)];
    let blanks = leading_blanks(field);
    let some_blanks = (1..5).contains(&blanks);
    match random.below(12) {
        // Not right-justified.
        0 if some_blanks => {
            let steps = random.between(1, blanks);
            field.rotate_left(steps);
        }
        // Leading zeros.
        1 if some_blanks => {
            let zeros = random.between(1, blanks);
            field[blanks - zeros..blanks].fill(b'0');
        }
        2 => field.fill(b' '),
        // Another byte in place of a blank, right before the digits or not.
        3..=5 if some_blanks => {
            let column = random.place(0, blanks);
            field[column] = random.pick(LIKE_A_BLANK);
        }
        // A blank inside the number.
        6 if some_blanks && blanks > 1 => {
            field[blanks - 1] = b' ';
            field[blanks - 2] = b'1';
        }
        7 => {
            field.copy_from_slice(random.pick(&[b"   00", b"00000", b"    -", b"1   1", b"   0x"]))
        }
        _ => {
            let column = if some_blanks {
                random.between(blanks, 4)
            } else {
                random.below(5)
            };
            field[column] = instead_of_digit(random, field[column]);
        }
    }
}

/// Another byte in place of a digit.
fn instead_of_digit(random: &mut Random, digit: u8) -> u8 {
    match random.below(8) {
        5 => b'\n',
        6 => b' ',
        7 => random.byte(),
        index => like_a_digit(digit)[index],
    }
}

fn bend_unused_field(random: &mut Random, line: &mut [u8]) {
    let first = fields_in_use(line);
    if first == 4 {
        return bend_used_field(random, line);
    }
    let field = random.between(first, 3);
    match random.below(4) {
        0 => put_number(line, field, 0),
        1 => put_number(line, field, random.between(1, 99_999)),
        2 => {
            let value = number_in(line, 0);
            put_number(line, field, value);
        }
        _ => {
            let column = columns(field).start + random.below(5);
            line[column] = random.pick(LIKE_A_BLANK);
        }
    }
}

/// A number above `highest`, often one that looks right in 8 or 16 bits.
fn too_high(random: &mut Random, number: usize, highest: usize) -> usize {
    let value = match random.below(6) {
        0 | 1 => highest + 1,
        2 => highest + 1 + random.below(20),
        3 => number + 256 * random.between(1, 300),
        4 => number + 65_536,
        _ => random.pick(&[9_999, 10_000, 65_535, 65_536, 99_999]),
    };
    value.max(highest + 1).min(99_999)
}

/// A count outside its limits.
fn bend_counts(random: &mut Random, lines: &mut [Vec<u8>]) {
    for _ in 0..random.pick(&[1, 1, 1, 2, 4]) {
        let field = random.below(4);
        let number = number_in(&lines[0], field);
        let value = if field == 0 && random.percent(40) {
            0
        } else {
            too_high(random, number, LIMITS[field])
        };
        put_number(&mut lines[0], field, value);
    }
}

/// A number out of its range, on some line after the first.
fn bend_range(random: &mut Random, lines: &mut [Vec<u8>]) {
    if lines.len() < 2 {
        return;
    }
    let count = |field: usize, lines: &[Vec<u8>]| number_in(&lines[0], field);
    if random.percent(15) {
        // Fewer things counted than the lines name.
        let field = random.below(4);
        let number = count(field, lines);
        let lowest = usize::from(field == 0);
        if number > lowest {
            let value = random.between(lowest, number - 1);
            put_number(&mut lines[0], field, value);
        }
        return;
    }
    let place = random.place(1, lines.len());
    let field = random.below(fields_in_use(&lines[place]));
    // Which of the H line's counts limits the field; 4 is the mode.
    let limit = match (lines[place][0], field) {
        (b'D', _) | (b'U' | b'O', 1) => 0,
        (b'S', _) | (b'P', 0) | (b'A', 1) => 1,
        (b'U' | b'A', 0) => 2,
        (b'O', 0) | (b'P', 1) => 3,
        _ => 4,
    };
    let highest = if limit == 4 {
        WRITE
    } else {
        count(limit, lines)
    };
    let number = number_in(&lines[place], field);
    let value = if random.percent(35) {
        0
    } else {
        too_high(random, number, highest)
    };
    put_number(&mut lines[place], field, value);
}

/// Lines out of order or repeated.
fn bend_order(random: &mut Random, lines: &mut Vec<Vec<u8>>) {
    if lines.len() < 2 {
        return;
    }
    let place = random.place(1, lines.len());
    let other = random.place(1, lines.len());
    match random.below(9) {
        // A line repeated right after itself, or later.
        0 | 1 => {
            let line = lines[place].clone();
            insert_after(lines, place, line);
        }
        2 => {
            let line = lines[place].clone();
            lines[place.max(other)] = line;
        }
        // Neighbours changed over, or any two lines.
        3 if place + 1 < lines.len() => lines.swap(place, place + 1),
        3 | 4 => lines.swap(place, other),
        7 | 8 => insert_falling_line(random, lines, place),
        // A line put elsewhere.
        5 => {
            let line = lines.remove(place);
            let target = random.between(1, lines.len());
            lines.insert(target, line);
        }
        _ => move_letter(random, lines, place),
    }
}

/// Puts after a line one that falls in its last field, or in an earlier field
/// although the last one rises.
fn insert_falling_line(random: &mut Random, lines: &mut Vec<Vec<u8>>, place: usize) {
    let used = fields_in_use(&lines[place]);
    let falling = if random.percent(60) {
        used - 1
    } else {
        random.below(used)
    };
    let mut next = lines[place].clone();
    let number = number_in(&next, falling);
    if number <= 1 {
        put_number(&mut lines[place], falling, 2);
    } else {
        put_number(&mut next, falling, number - 1);
    }
    for field in falling + 1..used {
        let number = number_in(&next, field);
        put_number(&mut next, field, number + random.below(2));
    }
    insert_after(lines, place, next);
}

/// Puts all lines of a line's letter elsewhere, or turned round at the end.
fn move_letter(random: &mut Random, lines: &mut Vec<Vec<u8>>, place: usize) {
    let letter = lines[place][0];
    let (mut moved, mut rest): (Vec<_>, Vec<_>) =
        lines.drain(..).partition(|line| line[0] == letter);
    let mut target = random.between(1, rest.len());
    if random.percent(50) {
        moved.reverse();
        target = rest.len();
    }
    rest.splice(target..target, moved);
    *lines = rest;
}

/// Puts a line after the one at a place; the last line goes where there is no
/// room for one more.
fn insert_after(lines: &mut Vec<Vec<u8>>, place: usize, line: Vec<u8>) {
    if lines.len() >= MOST_LINES {
        lines.pop();
    }
    let target = (place + 1).min(lines.len());
    lines.insert(target, line);
}
