//! A file as it is read: `-` is standard input.

use crate::answer::Trouble;
use crate::header::FILE_BYTES;
use std::ffi::OsStr;
use std::fs::File;
use std::io::{self, Read};

/// Bytes past those that matter are counted up to this many.
const MOST_COUNTED: u64 = 1 << 26;

/// The bytes of a role file that matter, and how long it is.
#[derive(Clone, Debug, PartialEq, Eq)]
pub struct Input {
    /// The whole file, or the first 63,801 bytes of a longer one.
    pub bytes: Vec<u8>,
    pub length: u64,
    /// The file goes on past `length`.
    pub more: bool,
}

impl Input {
    /// Reads a file, or standard input where the path is `-`.
    pub fn read(path: &OsStr) -> Result<Input, Trouble> {
        let trouble =
            |problem: io::Error| Trouble::new(format!("{}: {problem}", path.to_string_lossy()));
        let mut source = open(path).map_err(trouble)?;
        Input::take(&mut source).map_err(trouble)
    }

    /// A file that is already in memory.
    pub fn of(bytes: &[u8]) -> Input {
        let mut source = bytes;
        Input::take(&mut source).expect("memory can be read")
    }

    fn take(source: &mut dyn Read) -> io::Result<Input> {
        let bytes = first_bytes(source, FILE_BYTES + 1)?;
        let counted = io::copy(&mut source.take(MOST_COUNTED), &mut io::sink())?;
        Ok(Input {
            length: bytes.len() as u64 + counted,
            bytes,
            more: counted == MOST_COUNTED,
        })
    }
}

/// The first bytes of a file, up to so many.
pub fn first_bytes(source: &mut dyn Read, most: u64) -> io::Result<Vec<u8>> {
    let mut bytes = Vec::new();
    source.take(most).read_to_end(&mut bytes)?;
    Ok(bytes)
}

/// A file, or standard input where the path is `-`.
pub fn open(path: &OsStr) -> io::Result<Box<dyn Read>> {
    if path == "-" {
        Ok(Box::new(io::stdin()))
    } else {
        Ok(Box::new(File::open(path)?))
    }
}

#[cfg(test)]
mod tests {
    use super::*;

    #[test]
    fn a_long_file_is_cut_and_its_length_told() {
        let input = Input::of(&vec![b' '; 100_000]);
        assert_eq!(
            (input.bytes.len(), input.length, input.more),
            (63_801, 100_000, false)
        );
        let whole = Input::of(&vec![b' '; 63_800]);
        assert_eq!(
            (whole.bytes.len(), whole.length, whole.more),
            (63_800, 63_800, false)
        );
    }

    #[test]
    fn a_file_without_end_is_not_read_for_ever() {
        let input = Input::take(&mut io::repeat(0)).unwrap();
        assert_eq!((input.bytes.len(), input.more), (63_801, true));
    }
}
