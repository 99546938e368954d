//! The lines of a role file, to be quoted and to explain.

/// "A line is 22 bytes", its newline included.
pub const LINE_BYTES: usize = 22;

/// The letters in the order in which they stand.
pub const LETTERS: [u8; 7] = *b"HDSUOPA";

/// One line, numbered from 1.
#[derive(Clone, Copy, Debug, PartialEq, Eq)]
pub struct Line<'a> {
    pub number: usize,
    pub letter: u8,
    /// 0 where the letter does not use the field.
    pub fields: [u64; 4],
    /// Its 21 bytes before the newline.
    pub text: &'a [u8],
}

/// The lines of a file.
pub struct Lines<'a> {
    lines: Vec<Line<'a>>,
}

impl<'a> Lines<'a> {
    /// The lines as they stand, 22 bytes each; what is no number reads as 0.
    pub fn of(file: &'a [u8]) -> Lines<'a> {
        let numbered = file.chunks_exact(LINE_BYTES).zip(1..);
        let lines = numbered
            .map(|(bytes, number)| line(bytes, number))
            .collect();
        Lines { lines }
    }

    pub fn all(&self) -> &[Line<'a>] {
        &self.lines
    }

    /// The lines with this letter, in file order.
    pub fn with(&self, letter: u8) -> impl Iterator<Item = &Line<'a>> {
        self.lines.iter().filter(move |line| line.letter == letter)
    }
}

fn line(bytes: &[u8], number: usize) -> Line<'_> {
    Line {
        number,
        letter: bytes[0],
        fields: [1, 6, 11, 16].map(|start| value(&bytes[start..start + 5])),
        text: &bytes[..LINE_BYTES - 1],
    }
}

/// The number that five columns show.
fn value(columns: &[u8]) -> u64 {
    let shown = std::str::from_utf8(columns).unwrap_or("");
    shown.trim_start_matches(' ').parse().unwrap_or(0)
}

/// How many of the four fields a letter uses.
pub fn fields_of(letter: u8) -> usize {
    match letter {
        b'H' => 4,
        b'P' => 3,
        _ => 2,
    }
}
