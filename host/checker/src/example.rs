//! The example files, and files written with single blanks.

/// Document 01's example file.
pub const EXAMPLE: &str = include_str!("../../../examples/document.role");

/// The file of the two makers, which is longer.
pub const TWO_MAKERS: &str = include_str!("../../../examples/two-makers.role");

/// "Role 2 writing card 1 too": the example with a role for low sessions alone.
pub const REVIEWER: &str = include_str!("../../cases/writing-1-too.role");

/// A role that reads at label 2 and writes at label 1: no label serves.
pub const DOWNWARDS: &str = include_str!("../../cases/reading-2-writing-1.role");

/// A user cleared to 1 and a role that writes at 2, which have no label below
/// both.
pub const BESIDE: &str = include_str!("../../cases/writing-beside-the-clearance.role");

/// A file with single blanks, for tests that change its lines.
pub fn single_blanks(file: &str) -> String {
    let words = |line: &str| line.split_whitespace().collect::<Vec<_>>().join(" ");
    file.lines().map(|line| words(line) + "\n").collect()
}

/// Document 01's example file with single blanks.
pub fn example() -> String {
    single_blanks(EXAMPLE)
}

/// The bytes of a file whose lines are given with single blanks.
pub fn role_file(text: &str) -> Vec<u8> {
    let mut bytes = String::new();
    for line in text.lines().map(str::trim).filter(|line| !line.is_empty()) {
        let mut words = line.split(' ');
        let mut padded = String::from(words.next().unwrap_or_default());
        for word in words {
            padded.push_str(&format!("{word:>5}"));
        }
        bytes.push_str(&format!("{padded:<21}\n"));
    }
    bytes.into_bytes()
}
