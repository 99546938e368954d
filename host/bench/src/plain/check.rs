//! The numbers 1 to 5: the file's length, and line by line its form, its numbers and its order.

use super::read::{line, Line, LINE};
use crate::verdict::{refused, Verdict};

const MOST_BYTES: usize = 63800;

/// 3: the counts are within their limits.
fn counts_fit(head: &Line) -> bool {
    (1..=32).contains(&head.a) && head.b <= 128 && head.c <= 256 && head.d <= 512
}

/// 4: the numbers of a line are within their limits.
fn numbers_fit(head: &Line, line: &Line) -> bool {
    let first = match line.letter {
        2 => head.a,
        3 | 6 => head.b,
        5 => head.d,
        _ => head.c,
    };
    let second = match line.letter {
        3 | 7 => head.b,
        6 => head.d,
        _ => head.a,
    };
    (1..=first).contains(&line.a)
        && (1..=second).contains(&line.b)
        && (line.letter != 6 || (1..=2).contains(&line.c))
}

/// 5: the line comes after the one before it.
fn comes_after(before: &Line, line: &Line) -> bool {
    (before.letter, before.a, before.b, before.c) < (line.letter, line.a, line.b, line.c)
}

/// 1 to 5; the counts where there is nothing to refuse.
pub fn lines(file: &[u8]) -> Result<Line, Verdict> {
    if file.is_empty() || !file.len().is_multiple_of(LINE) || MOST_BYTES < file.len() {
        return Err(refused(1, 0, 0));
    }
    let mut lines = file.chunks_exact(LINE).map(line).zip(1..);
    let head = match lines.next() {
        Some((Some(head), _)) if head.letter == 1 => head,
        _ => return Err(refused(2, 1, 0)),
    };
    if !counts_fit(&head) {
        return Err(refused(3, 1, 0));
    }
    let mut before = head;
    for (line, number) in lines {
        let line = match line {
            Some(line) if line.letter != 1 => line,
            _ => return Err(refused(2, number, 0)),
        };
        if !numbers_fit(&head, &line) {
            return Err(refused(4, number, 0));
        }
        if !comes_after(&before, &line) {
            return Err(refused(5, number, 0));
        }
        before = line;
    }
    Ok(head)
}
