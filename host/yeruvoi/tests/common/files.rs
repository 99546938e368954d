//! Random files, their verdicts, and files with lines left out.

use second_checker::check::check;
use second_checker::generate::{bent, bent_small, loose, write};
use second_checker::line::LINE_LENGTH;
use second_checker::random::Random;
use yeruvoi::monitor::Policy;

/// How many files of a kind a test draws.
pub const FILES: u64 = 150;

/// Number and place of a file, by checker and archive alike.
pub fn verdict(file: &[u8]) -> (usize, [usize; 2]) {
    let outcome = check(file);
    let expected = (outcome.number(), outcome.place());
    let loaded = Policy::load(file).err().map_or((0, [0, 0]), |verdict| {
        let place = [verdict.first, verdict.second].map(|number| number as usize);
        (verdict.number as usize, place)
    });
    assert_eq!(loaded, expected);
    expected
}

/// Many files that get this number, small ones mostly.
pub fn files(number: usize) -> impl Iterator<Item = Vec<u8>> {
    (0..FILES).map(move |index| {
        let random = &mut Random::for_file(number as u64, index);
        match index % 10 {
            0 => bent(random, number),
            1 | 2 => loose_with(random, number),
            _ => bent_small(random, number),
        }
    })
}

/// A file left to chance that gets this number.
fn loose_with(random: &mut Random, number: usize) -> Vec<u8> {
    let mut files = (0..300).map(|_| write(&loose(random)));
    let found = files.find(|file| check(file).number() == number);
    drop(files);
    found.unwrap_or_else(|| bent_small(random, number))
}

/// The lines of a file, line 1 first.
pub fn lines(file: &[u8]) -> Vec<&[u8]> {
    file.chunks(LINE_LENGTH).collect()
}

/// The file without the lines for which `left_out` holds of number and bytes.
pub fn without(file: &[u8], left_out: impl Fn(usize, &[u8]) -> bool) -> Vec<u8> {
    let numbered = (1..).zip(lines(file));
    let kept = numbered.filter(|(number, line)| !left_out(*number, line));
    kept.flat_map(|(_, line)| line.to_vec()).collect()
}
