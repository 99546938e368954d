//! Lists of numbers as text.

use crate::arguments::Settings;
use crate::names::Kind;

/// `1-4 7 9-12` of rising numbers; `none` where there is none.
pub fn ranges(numbers: &[u64]) -> String {
    if numbers.is_empty() {
        return "none".to_string();
    }
    let mut text = String::with_capacity(4 * numbers.len());
    for range in numbers.chunk_by(|before, after| before + 1 == *after) {
        if !text.is_empty() {
            text.push(' ');
        }
        push(&mut text, range[0]);
        if let [_, .., last] = range {
            text.push('-');
            push(&mut text, *last);
        }
    }
    text
}

/// Adds a number, faster than formatting does: pages have many.
fn push(text: &mut String, number: u64) {
    if number > 9 {
        push(text, number / 10);
    }
    text.push(char::from(b'0' + (number % 10) as u8));
}

/// The rows that a list takes: one with its ranges; where each is asked for, or there is one alone,
/// one for each number, with its name.
pub fn rows(numbers: &[u64], kind: Kind, settings: &Settings) -> Vec<String> {
    match numbers {
        [] => vec![ranges(numbers)],
        [_, _, ..] if !settings.each => vec![ranges(numbers)],
        _ => {
            let names = &settings.names;
            let named = numbers.iter().map(|&number| names.number(kind, number));
            named.collect()
        }
    }
}

/// `role 65 (office reader)`, `roles 65-67`
pub fn things(numbers: &[u64], kind: Kind, settings: &Settings) -> String {
    let ending = if numbers.len() == 1 { "" } else { "s" };
    let listed = rows(numbers, kind, settings).join(", ");
    format!("{}{ending} {listed}", kind.word())
}

#[cfg(test)]
mod tests {
    use super::*;

    #[test]
    fn lists_are_written_as_ranges() {
        for (numbers, text) in [
            (&[][..], "none"),
            (&[7], "7"),
            (&[1, 2], "1-2"),
            (&[1, 3], "1 3"),
            (&[1, 2, 3, 4, 7, 9, 10, 11, 12], "1-4 7 9-12"),
            (&[99, 100, 511, 512], "99-100 511-512"),
        ] {
            assert_eq!(ranges(numbers), text);
        }
    }
}
