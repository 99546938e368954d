//! Sets of numbers as text.

use std::collections::BTreeSet;

/// " a" or " a-b" for each range, rising; " none" for no number.
pub fn text(numbers: &BTreeSet<usize>) -> String {
    if numbers.is_empty() {
        return " none".to_string();
    }
    let first = |number: &&usize| !numbers.contains(&(**number - 1));
    let last = |number: &&usize| !numbers.contains(&(**number + 1));
    let firsts = numbers.iter().filter(first);
    let lasts = numbers.iter().filter(last);
    firsts
        .zip(lasts)
        .map(|(first, last)| {
            if first == last {
                format!(" {first}")
            } else {
                format!(" {first}-{last}")
            }
        })
        .collect()
}
