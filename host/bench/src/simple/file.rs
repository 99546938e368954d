//! The lines of a file, and the numbers 1 to 6.

use crate::verdict::{refused, Verdict};
use std::collections::HashMap;

/// The letters, in the order in which their lines come.
const LETTERS: &str = "HDSUOPA";

/// A line: its letter's place among the letters, and its numbers.
#[derive(PartialEq, PartialOrd)]
pub struct Line {
    letter: usize,
    numbers: Vec<u64>,
}

fn number(columns: &str) -> Option<u64> {
    let digits = columns.trim_start_matches(' ');
    let decimal = digits.bytes().all(|byte| byte.is_ascii_digit());
    let padded = digits.len() > 1 && digits.starts_with('0');
    (decimal && !padded).then(|| digits.parse().ok())?
}

fn line(bytes: &[u8]) -> Option<Line> {
    let text = std::str::from_utf8(bytes).ok()?.strip_suffix('\n')?;
    if !text.is_ascii() {
        return None;
    }
    let letter = LETTERS.find(&text[..1])?;
    let (used, unused) = text[1..].split_at(5 * [4, 2, 2, 2, 2, 3, 2][letter]);
    if !unused.trim_matches(' ').is_empty() {
        return None;
    }
    let fields = (0..used.len()).step_by(5).map(|i| &used[i..i + 5]);
    let numbers = fields.map(number).collect::<Option<_>>()?;
    Some(Line { letter, numbers })
}

/// Whether the numbers of a line are within their limits, by the counts.
fn fits(line: &Line, counts: &[u64]) -> bool {
    let [labels, roles, users, cards] = [0, 1, 2, 3].map(|i| 1..=counts[i]);
    let limits = match &LETTERS[line.letter..=line.letter] {
        "H" => vec![1..=32, 0..=128, 0..=256, 0..=512],
        "D" => vec![labels.clone(), labels],
        "S" => vec![roles.clone(), roles],
        "U" => vec![users, labels],
        "O" => vec![cards, labels],
        "P" => vec![roles, cards, 1..=2],
        _ => vec![users, roles],
    };
    let mut numbers = line.numbers.iter().zip(limits);
    numbers.all(|(number, limits)| limits.contains(number))
}

/// 1 to 5, or the lines.
pub fn lines(file: &[u8]) -> Result<Vec<Line>, Verdict> {
    if file.is_empty() || !file.len().is_multiple_of(22) || file.len() > 63800 {
        return Err(refused(1, 0, 0));
    }
    let mut lines: Vec<Line> = Vec::new();
    for (bytes, at) in file.chunks(22).zip(1..) {
        let line = line(bytes).filter(|line| (line.letter == 0) == (at == 1));
        let line = line.ok_or(refused(2, at, 0))?;
        if !fits(&line, &lines.first().unwrap_or(&line).numbers) {
            return Err(refused(if at == 1 { 3 } else { 4 }, at, 0));
        }
        if lines.last().is_some_and(|before| *before >= line) {
            return Err(refused(5, at, 0));
        }
        lines.push(line);
    }
    Ok(lines)
}

/// The numbers of the lines of a letter.
pub fn numbers(lines: &[Line], letter: char) -> impl Iterator<Item = &[u64]> {
    let letter = LETTERS.find(letter);
    let of_letter = move |line: &&Line| Some(line.letter) == letter;
    lines
        .iter()
        .filter(of_letter)
        .map(|line| line.numbers.as_slice())
}

/// The numbers of the lines of a letter that has two.
pub fn pairs(lines: &[Line], letter: char) -> Vec<(u64, u64)> {
    numbers(lines, letter).map(|n| (n[0], n[1])).collect()
}

/// The label of each of n things; 6 for the lowest thing with no label or several.
pub fn labels(
    lines: &[Line],
    letter: char,
    n: u64,
    kind: usize,
) -> Result<HashMap<u64, u64>, Verdict> {
    let mut labels: HashMap<u64, Vec<u64>> = HashMap::new();
    for (thing, label) in pairs(lines, letter) {
        labels.entry(thing).or_default().push(label);
    }
    let one = |thing| match labels.get(&thing).map(Vec::as_slice) {
        Some(&[label]) => Ok((thing, label)),
        _ => Err(refused(6, kind, thing as usize)),
    };
    (1..=n).map(one).collect()
}
