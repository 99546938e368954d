//! What the command answers, and what keeps it from answering.

/// Text for standard output, and the exit status.
#[derive(Clone, Debug, PartialEq, Eq)]
pub struct Answer {
    pub text: String,
    pub status: u8,
}

impl Answer {
    /// Status 0: accepted, or the same.
    pub fn yes(text: String) -> Answer {
        Answer { text, status: 0 }
    }

    /// Status 1: refused, or different.
    pub fn no(text: String) -> Answer {
        Answer { text, status: 1 }
    }
}

/// Wrong use, a file that cannot be read, or an output that cannot be written:
/// status 2, and this one line on standard error.
#[derive(Clone, Debug, PartialEq, Eq)]
pub struct Trouble {
    pub line: String,
}

impl Trouble {
    pub const STATUS: u8 = 2;

    pub fn new(line: impl Into<String>) -> Trouble {
        Trouble { line: line.into() }
    }
}
