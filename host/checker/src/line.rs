//! The form of a line of the role file, and of the report.

/// "A line is 22 bytes: one letter, four fields of 5 columns, and byte 10."
pub const LINE_LENGTH: usize = 22;
/// "At most 2,900 lines, 63,800 bytes."
pub const MOST_LINES: usize = 2_900;
/// "At most 2,900 lines, 63,800 bytes."
pub const MOST_BYTES: usize = 63_800;

/// The letters, in the order of the document's table.
#[derive(Clone, Copy, Debug, PartialEq, Eq, PartialOrd, Ord)]
pub enum Letter {
    /// The counts.
    H,
    /// Label a dominates label b.
    D,
    /// Role r is senior to role q.
    S,
    /// User u has clearance l.
    U,
    /// Card o has label l.
    O,
    /// Role r may read or write card o.
    P,
    /// User u is assigned to role r.
    A,
}

impl Letter {
    pub fn read(byte: u8) -> Option<Letter> {
        match byte {
            b'H' => Some(Letter::H),
            b'D' => Some(Letter::D),
            b'S' => Some(Letter::S),
            b'U' => Some(Letter::U),
            b'O' => Some(Letter::O),
            b'P' => Some(Letter::P),
            b'A' => Some(Letter::A),
            _ => None,
        }
    }

    /// How many of the four fields the letter uses, by the table.
    pub fn fields_in_use(self) -> usize {
        match self {
            Letter::H => 4,
            Letter::P => 3,
            Letter::D | Letter::S | Letter::U | Letter::O | Letter::A => 2,
        }
    }
}

/// What five columns read as.
#[derive(Clone, Copy, Debug, PartialEq, Eq)]
enum Field {
    /// "A field without use is five blanks."
    Blank,
    Number(usize),
    Malformed,
}

/// How many blanks stand before anything else.
pub fn leading_blanks(columns: &[u8]) -> usize {
    columns.iter().take_while(|&&byte| byte == b' ').count()
}

/// "A number is right-justified with blanks before it, has no leading zeros,
/// and 0 is the single digit." "All numbers in the file are decimal."
fn read_field(columns: &[u8]) -> Field {
    let blanks = leading_blanks(columns);
    let digits = &columns[blanks..];
    if digits.is_empty() {
        return Field::Blank;
    }
    // A blank after a digit, a sign or any other byte is not a digit.
    if !digits.iter().all(|byte| byte.is_ascii_digit()) {
        return Field::Malformed;
    }
    if digits[0] == b'0' && digits.len() > 1 {
        return Field::Malformed;
    }
    let value = digits
        .iter()
        .fold(0, |value, &digit| value * 10 + usize::from(digit - b'0'));
    Field::Number(value)
}

/// A well-formed line: its letter and the numbers of the fields in use.
///
/// Lines compare by the table's order of letters first and then by "their
/// fields read left to right".
#[derive(Clone, Debug, PartialEq, Eq, PartialOrd, Ord)]
pub struct Line {
    pub letter: Letter,
    pub numbers: Vec<usize>,
}

/// Reads one line of 22 bytes; None where it is malformed or its letter is
/// unknown.
pub fn read_line(bytes: &[u8]) -> Option<Line> {
    if bytes.len() != LINE_LENGTH || bytes[LINE_LENGTH - 1] != 10 {
        return None;
    }
    let letter = Letter::read(bytes[0])?;
    let mut numbers = Vec::new();
    for (index, columns) in bytes[1..LINE_LENGTH - 1].chunks(5).enumerate() {
        let in_use = index < letter.fields_in_use();
        match read_field(columns) {
            Field::Number(value) if in_use => numbers.push(value),
            Field::Blank if !in_use => {}
            _ => return None,
        }
    }
    Some(Line { letter, numbers })
}

/// Whether a file that is in order has an A line: these come last.
pub fn has_assignments(file: &[u8]) -> bool {
    file[file.len() - LINE_LENGTH] == b'A'
}

/// Writes a line: the letter, up to four numbers right-justified in their
/// fields, the other fields blank, byte 10.
pub fn print_line(letter: u8, numbers: &[usize]) -> Vec<u8> {
    let mut bytes = vec![letter];
    for index in 0..4 {
        let field = match numbers.get(index) {
            Some(number) => format!("{number:>5}"),
            None => " ".repeat(5),
        };
        bytes.extend(field.bytes());
    }
    bytes.push(10);
    bytes
}
