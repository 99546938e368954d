//! Reading fields and lines.

/// The bytes of a line.
pub const LINE: usize = 22;

/// The value of a digit.
fn digit(byte: u8) -> u64 {
    (byte - b'0') as u64
}

/// What the columns of a field say.
#[derive(Clone, Copy)]
enum Field {
    Blank,
    Number(u64),
    Bad,
}

impl Field {
    /// What the columns so far say, with one column more.
    fn then(self, byte: u8) -> Field {
        match self {
            Field::Blank if byte == b' ' => Field::Blank,
            Field::Blank if byte.is_ascii_digit() => Field::Number(digit(byte)),
            Field::Number(n) if byte.is_ascii_digit() && (1..=9999).contains(&n) => {
                Field::Number(10 * n + digit(byte))
            }
            _ => Field::Bad,
        }
    }

    /// Its number, where it is one.
    fn number(self) -> Option<u64> {
        match self {
            Field::Number(n) => Some(n),
            _ => None,
        }
    }
}

fn field(columns: &[u8]) -> Field {
    columns
        .iter()
        .fold(Field::Blank, |field, &byte| field.then(byte))
}

/// The number of a field; one of up to three digits, as each number of an accepted file has, is
/// read at once.
fn number(columns: &[u8]) -> Option<u64> {
    let &[b' ', b' ', x, y, z @ b'0'..=b'9'] = columns else {
        return field(columns).number();
    };
    match (x, y) {
        (b' ', b' ') => Some(digit(z)),
        (b' ', b'1'..=b'9') => Some(10 * digit(y) + digit(z)),
        (b'1'..=b'9', b'0'..=b'9') => Some(100 * digit(x) + 10 * digit(y) + digit(z)),
        _ => field(columns).number(),
    }
}

/// The number of a field in use, which mostly is one digit; 0 for one without use, which is five
/// blanks.
fn taken(columns: &[u8], used: bool) -> Option<u64> {
    if !used {
        return (columns == b"     ").then_some(0);
    }
    match *columns {
        [b' ', b' ', b' ', b' ', last] => Field::Blank.then(last).number(),
        _ => field(columns).number(),
    }
}

/// A line: its letter's row in the table of letters, 1 to 7, and its numbers, 0 where a field has
/// no use.
#[derive(Clone, Copy)]
pub struct Line {
    pub letter: u64,
    pub a: u64,
    pub b: u64,
    pub c: u64,
    pub d: u64,
}

/// The line in 22 bytes; none where it is malformed.
pub fn line(bytes: &[u8]) -> Option<Line> {
    let letter = match bytes[0] {
        b'H' => 1,
        b'D' => 2,
        b'S' => 3,
        b'U' => 4,
        b'O' => 5,
        b'P' => 6,
        b'A' => 7,
        _ => return None,
    };
    let fields = match letter {
        1 => 4,
        6 => 3,
        _ => 2,
    };
    let a = number(&bytes[1..6])?;
    let b = number(&bytes[6..11])?;
    let c = taken(&bytes[11..16], 3 <= fields)?;
    let d = taken(&bytes[16..21], 4 <= fields)?;
    if bytes[21] != b'\n' {
        return None;
    }
    Some(Line { letter, a, b, c, d })
}

/// The number in five columns that are known to hold one.
fn figure(columns: &[u8]) -> usize {
    columns
        .iter()
        .fold(0, |n, &byte| 10 * n + (byte % 16) as usize)
}

/// The lines of one letter, known to be well formed.
#[derive(Clone, Copy)]
pub struct Part<'f> {
    bytes: &'f [u8],
}

impl<'f> Part<'f> {
    /// The first three fields of each line.
    pub fn numbers(self) -> impl Iterator<Item = (usize, usize, usize)> + 'f {
        self.bytes.chunks_exact(LINE).map(|line| {
            (
                figure(&line[1..6]),
                figure(&line[6..11]),
                figure(&line[11..16]),
            )
        })
    }
}

/// Takes the lines of a letter off the front of the rest of a file.
pub fn split_letter<'f>(rest: &mut &'f [u8], letter: u8) -> Part<'f> {
    let count = rest
        .chunks_exact(LINE)
        .take_while(|line| line[0] == letter)
        .count();
    let (bytes, after) = rest.split_at(LINE * count);
    *rest = after;
    Part { bytes }
}
