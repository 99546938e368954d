//! Text of a page: lines, quoted lines of a file, numbers as people read them.

use crate::lines::Line;

/// How many rows of a list a page shows unless all are asked for.
pub const ROWS: usize = 20;

/// A page of text in the making.
#[derive(Default)]
pub struct Page {
    text: String,
}

impl Page {
    pub fn new() -> Page {
        Page::default()
    }

    /// Adds a line; blanks at its end are left out.
    pub fn line(&mut self, text: impl AsRef<str>) {
        self.text += text.as_ref().trim_end();
        self.text.push('\n');
    }

    /// Adds a line of the file, quoted with its number, and a note beside it.
    pub fn quote(&mut self, indent: usize, line: &Line, note: &str) {
        self.line(format!("{:indent$}{}    {note}", "", quoted(line)));
    }

    /// Says how many of a list's rows were left out, where some were.
    pub fn left_out(&mut self, indent: usize, count: usize) {
        if count > 0 {
            let count = grouped(count as u64);
            self.line(format!(
                "{:indent$}... {count} more; yeruvoi check --all shows them",
                ""
            ));
        }
    }

    pub fn into_text(self) -> String {
        self.text
    }
}

/// `line 1854    A   12   66          `
pub fn quoted(line: &Line) -> String {
    format!("line {:<4}    {}", line.number, shown(line.text))
}

/// Bytes of a file as they are shown: `?` for one that is no printed character
/// of ASCII.
pub fn shown(bytes: &[u8]) -> String {
    bytes.iter().map(|&byte| shown_byte(byte)).collect()
}

fn shown_byte(byte: u8) -> char {
    match char::from(byte) {
        ' ' => ' ',
        character if character.is_ascii_graphic() => character,
        _ => '?',
    }
}

/// `44,871`
pub fn grouped(number: u64) -> String {
    let digits = number.to_string();
    let mut text = String::new();
    for (index, digit) in digits.chars().enumerate() {
        if index > 0 && (digits.len() - index).is_multiple_of(3) {
            text.push(',');
        }
        text.push(digit);
    }
    text
}

/// `1 label`, `12 labels`
pub fn counted(count: u64, thing: &str) -> String {
    let ending = if count == 1 { "" } else { "s" };
    format!("{} {thing}{ending}", grouped(count))
}

/// How many of so many rows a page shows.
pub fn rows(count: usize, all: bool) -> usize {
    if all {
        count
    } else {
        count.min(ROWS)
    }
}

#[cfg(test)]
mod tests {
    use super::*;

    #[test]
    fn numbers_are_grouped_by_three_digits() {
        let shown = [0, 999, 1000, 63_800, 1_234_567].map(grouped);
        assert_eq!(shown, ["0", "999", "1,000", "63,800", "1,234,567"]);
        assert_eq!(
            counted(1, "label") + " " + &counted(2900, "line"),
            "1 label 2,900 lines"
        );
    }

    #[test]
    fn bytes_steer_no_terminal() {
        assert_eq!(shown(b"A \x1b[2J\x00\x7f\x80\xff~"), "A ?[2J????~");
    }
}
