//! The causes of 1 to 6 in random files: what they name is mended, and the
//! verdict changes.

mod common;

use common::files::{files, lines, verdict, without, FILES};
use common::told::Told;
use second_checker::check::read;
use second_checker::generate::{accepted, bent_small, one_wrong_byte, stacked, torn, write, Size};
use second_checker::line::LINE_LENGTH;
use second_checker::random::Random;
use yeruvoi::arguments::Settings;
use yeruvoi::check::answer;
use yeruvoi::input::Input;

#[test]
fn a_malformed_line_gets_well_formed_from_column_to_column() {
    for index in 0..400 {
        let random = &mut Random::for_file(2, index);
        let mut file = match index % 3 {
            0 => one_wrong_byte(random, index as usize),
            1 => bent_small(random, 2),
            _ => torn(random),
        };
        let (number, [line, _]) = verdict(&file);
        if number != 2 {
            continue;
        }
        let mut reached = 0;
        while verdict(&file) == (2, [line, 0]) {
            let column = Told::of(&file).column();
            assert!(column > reached, "column {column} after {reached}");
            reached = mend(
                &mut file[LINE_LENGTH * (line - 1)..][..LINE_LENGTH],
                line,
                column,
            );
        }
    }
}

/// Writes what a column's letter, field or end must be; answers the last column
/// that was written.
fn mend(line: &mut [u8], number: usize, column: usize) -> usize {
    let used = match (column, line[0]) {
        (1, _) => 0,
        (_, b'H') => 4,
        (_, b'P') => 3,
        _ => 2,
    };
    match column {
        1 => line[0] = if number == 1 { b'H' } else { b'D' },
        22 => line[21] = b'\n',
        _ => {
            let field = (column - 2) / 5;
            let text = if field < used { b"    1" } else { b"     " };
            line[1 + 5 * field..6 + 5 * field].copy_from_slice(text);
            return 6 + 5 * field;
        }
    }
    column
}

#[test]
fn a_line_gets_another_verdict_where_its_fields_or_its_order_are_mended() {
    for number in [3, 4, 5] {
        for index in 0..FILES {
            let random = &mut Random::for_file(number as u64, index);
            let file = match index % 4 {
                0 => stacked(random),
                _ => bent_small(random, number),
            };
            let found = verdict(&file);
            let mended = match found {
                (3 | 4, [line, _]) => with_fields(&file, &Told::of(&file), line),
                (5, [line, _]) => with_order(&file, &Told::of(&file), line),
                _ => continue,
            };
            assert_ne!(verdict(&mended), found);
        }
    }
}

/// Puts 1 into each field that is told, and one thing of a kind that the file
/// is told to have none of.
fn with_fields(file: &[u8], told: &Told, line: usize) -> Vec<u8> {
    assert_eq!(told.numbers(), [line]);
    let mut mended = file.to_vec();
    let mut put = |line: usize, field: usize| {
        let start = LINE_LENGTH * (line - 1) + 5 * field - 4;
        mended[start..start + 5].copy_from_slice(b"    1");
    };
    told.fields().into_iter().for_each(|field| put(line, field));
    let kinds = (2..).zip(["roles", "users", "cards"]);
    for (count, _) in kinds.filter(|(_, kind)| told.text.contains(&format!("has no {kind}\n"))) {
        put(1, count);
    }
    mended
}

/// A line that repeats the one before it is left out, each time; one that is
/// out of order changes places with it.
fn with_order(file: &[u8], told: &Told, line: usize) -> Vec<u8> {
    assert_eq!(told.numbers(), [line - 1, line]);
    let mut lines = lines(file);
    let this = lines[line - 1];
    let words = match lines[..line - 1].iter().rposition(|other| *other == this) {
        Some(index) => format!("repeats line {}\n", index + 1),
        None => format!("out of order after line {}: ", line - 1),
    };
    assert!(told.text.contains(&words));
    if lines[line - 2] == this {
        return without(file, |number, bytes| number >= line && bytes == this);
    }
    lines.swap(line - 2, line - 1);
    lines.concat()
}

#[test]
fn users_and_cards_get_their_label_where_it_is_told() {
    for file in files(6) {
        let told = Told::of(&file);
        let numbers = told.numbers();
        let mut role_file = read(&file).expect("the form is good");
        let once = without(&file, |line, _| numbers.contains(&line));
        let clean = read(&once).expect("the form is good");
        role_file.clearances = clean.clearances;
        role_file.card_labels = clean.card_labels;
        role_file
            .clearances
            .extend(told.things("user").iter().map(|&user| (user, 1)));
        role_file
            .card_labels
            .extend(told.things("card").iter().map(|&card| (card, 1)));
        role_file.clearances.sort_unstable();
        role_file.card_labels.sort_unstable();
        assert_ne!(verdict(&write(&role_file)).0, 6);
    }
}

/// The line that is told first where bytes are taken out of one line or put
/// into it.
#[test]
fn the_first_line_that_ends_elsewhere_is_told() {
    for index in 0..FILES {
        let random = &mut Random::for_file(1, index);
        let size = random.pick(&[Size::Tiny, Size::Small, Size::Full]);
        let mut file = write(&accepted(random, size));
        let line = random.between(1, file.len() / LINE_LENGTH);
        let start = LINE_LENGTH * (line - 1);
        let bytes = random.between(1, LINE_LENGTH - 1);
        let taken = random.percent(50);
        if taken {
            file.drain(start..start + bytes);
        } else {
            file.splice(start..start, vec![b' '; bytes]);
        }
        assert_eq!(verdict(&file).0, 1);
        let length = if taken {
            LINE_LENGTH - bytes
        } else {
            LINE_LENGTH + bytes
        };
        let unit = if length == 1 { "byte" } else { "bytes" };
        let told = answer(&Input::of(&file), &Settings::default()).text;
        let ending = format!("\n  line {line} ends after {length} {unit}: ");
        assert!(told.contains(&ending), "{ending} {told}");
    }
}
