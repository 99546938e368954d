//! Torn files: bytes and lines damaged without regard to any rule.

use super::form::{columns, fields_in_use};
use super::{accepted, any_size, write, Size};
use crate::line::{print_line, LINE_LENGTH, MOST_BYTES};
use crate::random::Random;
use std::ops::Range;

/// A file damaged on its way, or no role file at all.
pub fn torn(random: &mut Random) -> Vec<u8> {
    match random.below(12) {
        0 => unrelated(random),
        1 => around_the_limit(random),
        2 => line_soup(random),
        _ => {
            let size = any_size(random);
            let mut bytes = write(&accepted(random, size));
            for _ in 0..random.pick(&[1, 1, 1, 2, 3, 8]) {
                tear(random, &mut bytes);
            }
            bytes
        }
    }
}

/// Bytes that were never a role file.
fn unrelated(random: &mut Random) -> Vec<u8> {
    match random.below(7) {
        0 => Vec::new(),
        1 => {
            let length = random.below(200);
            random.bytes(length)
        }
        2 => {
            let length = LINE_LENGTH * random.between(1, 30);
            random.bytes(length)
        }
        // Lengths next to a multiple of 22.
        3 => {
            let length = LINE_LENGTH * random.between(1, 30) + random.between(0, 2) - 1;
            random.bytes(length)
        }
        4 => vec![random.pick(b" \x00\n0H\xff"); LINE_LENGTH * random.between(1, 5)],
        // Only bytes that a role file may hold.
        5 => {
            let length = LINE_LENGTH * random.between(1, 12);
            (0..length)
                .map(|_| random.pick(b"HDSUOPA 0123456789\n"))
                .collect()
        }
        _ => b"H    1    0    0    0\n"[..random.below(23)].to_vec(),
    }
}

/// 63,800 bytes, one less, one more, one line more, far more.
fn around_the_limit(random: &mut Random) -> Vec<u8> {
    let lengths = [
        MOST_BYTES - LINE_LENGTH,
        MOST_BYTES - 1,
        MOST_BYTES,
        MOST_BYTES + 1,
        MOST_BYTES + LINE_LENGTH,
        65_536,
        2 * MOST_BYTES,
    ];
    let length = random.pick(&lengths);
    match random.below(4) {
        0 => random.bytes(length),
        // A good file and then more of the same line.
        1 => {
            let mut bytes = write(&accepted(random, Size::Small));
            let last = bytes[bytes.len() - LINE_LENGTH..].to_vec();
            while bytes.len() < length {
                bytes.extend(&last);
            }
            bytes.truncate(length);
            bytes
        }
        // A full file, cut or continued by well-formed lines.
        _ => {
            let mut bytes = write(&accepted(random, Size::Full));
            while bytes.len() < length {
                bytes.extend(print_line(b'A', &[256, 128]));
            }
            bytes.truncate(length);
            bytes
        }
    }
}

/// Well-formed lines, picked without regard to order or range.
fn line_soup(random: &mut Random) -> Vec<u8> {
    let mut bytes = print_line(b'H', &[random.between(1, 4), 3, 3, 3]);
    for _ in 0..random.below(8) {
        let letter = random.pick(b"DSUOPADSUOPAH");
        let used = fields_in_use(&[letter]);
        let numbers: Vec<usize> = (0..used).map(|_| random.below(5)).collect();
        bytes.extend(print_line(letter, &numbers));
    }
    bytes
}

/// One damage to the bytes.
fn tear(random: &mut Random, bytes: &mut Vec<u8>) {
    if bytes.len() < LINE_LENGTH {
        bytes.push(random.byte());
        return;
    }
    let length = bytes.len();
    let at = random.place(0, length);
    let lines = length / LINE_LENGTH;
    let start = random.place(0, lines) * LINE_LENGTH;
    match random.below(22) {
        0 | 1 => bytes[at] ^= 1 << random.below(8),
        2 => bytes[at] = random.byte(),
        3 => bytes[at] = random.pick(b" 0123456789HDSUOPA\n"),
        // Cut at any byte, at a line's end, or at the front.
        4 => bytes.truncate(at),
        5 | 6 => bytes.truncate(start),
        7 => lose(bytes, 0..at),
        8 => lose(bytes, 0..start),
        9 => bytes.insert(at, random.byte()),
        10 => lose(bytes, at..at + 1),
        // A line doubled, two lines changed over, a line deleted.
        11 => double_line(bytes, start),
        12 => swap_lines(bytes, start, random.place(0, lines) * LINE_LENGTH),
        13 | 14 => lose(bytes, start..start + LINE_LENGTH),
        15 => shift_field(random, &mut bytes[start..]),
        16 => put_zeros(random, &mut bytes[start..]),
        // Another letter.
        17 => bytes[start] = random.pick(b"HDSUOPAhdsuopaVRFC"),
        18 => bytes[start + LINE_LENGTH - 1] = b'\r',
        19 => change_line_ends(random, bytes),
        // A run of bytes overwritten, or a stretch lost.
        20 => overwrite(random, &mut bytes[at..]),
        _ => {
            let end = (at + random.between(1, 80)).min(length);
            lose(bytes, at..end);
        }
    }
}

fn lose(bytes: &mut Vec<u8>, range: Range<usize>) {
    bytes.drain(range);
}

fn double_line(bytes: &mut Vec<u8>, start: usize) {
    let doubled = bytes[start..start + LINE_LENGTH].to_vec();
    bytes.splice(start..start, doubled);
}

fn swap_lines(bytes: &mut [u8], start: usize, other: usize) {
    for column in 0..LINE_LENGTH {
        bytes.swap(start + column, other + column);
    }
}

/// Puts any bytes over the first ones.
fn overwrite(random: &mut Random, bytes: &mut [u8]) {
    let run = random.between(1, 60).min(bytes.len());
    for byte in &mut bytes[..run] {
        *byte = random.byte();
    }
}

/// Moves blanks and digits within a field of a line.
fn shift_field(random: &mut Random, line: &mut [u8]) {
    let field = columns(random.below(4));
    line[field].rotate_left(random.between(1, 4));
}

/// Puts leading zeros in a field of a line.
fn put_zeros(random: &mut Random, line: &mut [u8]) {
    let field = columns(random.below(4));
    for column in line[field].iter_mut().filter(|column| **column == b' ') {
        *column = b'0';
    }
}

/// CR instead of each LF, CR before each LF, or no LF.
fn change_line_ends(random: &mut Random, bytes: &mut Vec<u8>) {
    let end: &[u8] = match random.below(3) {
        0 => b"\r",
        1 => b"\r\n",
        _ => b"",
    };
    let lines: Vec<&[u8]> = bytes.split(|&byte| byte == b'\n').collect();
    *bytes = lines.join(end);
}
