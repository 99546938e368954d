//! Numbers 1 to 6: the text of each, written by hand, from a file that provokes
//! it.

mod common;

use common::{padded, run, DOCUMENT};

/// The file is refused with this text, and nothing else is said.
fn refused(file: &[u8], text: &str) {
    let run = run(&["check", "-"], file);
    assert_eq!(run.output, text);
    assert_eq!((run.status, &run.errors[..]), (1, ""));
}

const ONE: &str = "refused with 1: the length is 0, not a multiple of 22, or above 63,800\n";
const TWENTY_TWO: &str =
    "  every line has 22 bytes: a letter, 20 columns with their blanks, a newline\n";

fn refused_with_1(file: &[u8], cause: &str) {
    let about_lines = if cause.contains("line") {
        TWENTY_TWO
    } else {
        ""
    };
    refused(file, &format!("{ONE}{cause}{about_lines}"));
}

#[test]
fn an_accepted_file_is_told_with_its_sizes() {
    let told = run(&["check", "-"], &padded(DOCUMENT));
    assert_eq!(
        told.output,
        "accepted: 2 labels, 2 roles, 1 user, 2 cards, 9 lines\n"
    );
    assert_eq!((told.status, &told.errors[..]), (0, ""));
    let counts = run(&["check", "-"], &padded("H    1    0    0    0\n"));
    assert_eq!(
        counts.output,
        "accepted: 1 label, 0 roles, 0 users, 0 cards, 1 line\n"
    );
}

#[test]
fn a_wrong_length_is_told() {
    refused_with_1(b"", "  0 bytes: the file is empty\n");
    let line = padded("H    1    0    0    0\n");
    refused_with_1(&line.repeat(2901), "  63,822 bytes: above 63,800\n");
    let mut longer = line.repeat(2901);
    longer.pop();
    refused_with_1(
        &longer,
        "  63,821 bytes: above 63,800, and not a multiple of 22\n",
    );
}

#[test]
fn what_an_editor_did_to_the_ends_of_lines_is_recognised() {
    let file = String::from_utf8(padded(DOCUMENT)).unwrap();
    refused_with_1(
        file.replace('\n', "\r\n").as_bytes(),
        "  207 bytes: not a multiple of 22\n\
        \x20 line 1 ends after 23 bytes: a carriage return stands before the newline\n\
        \x20 line 1       H    2    2    1    2?\n",
    );
    refused_with_1(
        format!("\u{feff}{file}").as_bytes(),
        "  201 bytes: not a multiple of 22\n\
        \x20 line 1 ends after 25 bytes: a byte order mark begins the file and must go\n\
        \x20 line 1       ???H    2    2    1    2\n",
    );
    refused_with_1(
        DOCUMENT.as_bytes(),
        "  128 bytes: not a multiple of 22\n\
        \x20 line 2 ends after 12 bytes: its trailing blanks are missing\n\
        \x20 line 2       D    2    1\n",
    );
    refused_with_1(
        file.trim_end_matches('\n').as_bytes(),
        "  197 bytes: not a multiple of 22\n\
        \x20 line 9 has 21 bytes: the newline at the end of the file is missing\n\
        \x20 line 9       A    1    2\n",
    );
    refused_with_1(
        file.trim_end().as_bytes(),
        "  187 bytes: not a multiple of 22\n\
        \x20 line 9 has 11 bytes: its trailing blanks and the newline are missing\n\
        \x20 line 9       A    1    2\n",
    );
}

#[test]
fn a_line_that_ends_elsewhere_is_told() {
    let file = String::from_utf8(padded(DOCUMENT)).unwrap();
    refused_with_1(
        format!("{file}\n").as_bytes(),
        "  199 bytes: not a multiple of 22\n\
        \x20 line 10 ends after 1 byte: the line is empty\n\
        \x20 line 10\n",
    );
    refused_with_1(
        file.replacen("H    2", "H\t2", 1).as_bytes(),
        "  195 bytes: not a multiple of 22\n\
        \x20 line 1 ends after 19 bytes: tabs stand where blanks must\n\
        \x20 line 1       H?2    2    1    2\n",
    );
    refused_with_1(
        file.replacen("H    2", "H   2", 1).as_bytes(),
        "  197 bytes: not a multiple of 22\n\
        \x20 line 1 ends after 21 bytes: it is too short\n\
        \x20 line 1       H   2    2    1    2\n",
    );
    refused_with_1(
        file.replacen("S    2    1", "S    2    1   ", 1).as_bytes(),
        "  201 bytes: not a multiple of 22\n\
        \x20 line 3 ends after 25 bytes: it is too long\n\
        \x20 line 3       S    2    1\n",
    );
}

#[test]
fn a_line_without_end_is_quoted_in_part() {
    let long = "x".repeat(70);
    refused_with_1(
        long.as_bytes(),
        &format!(
            "  70 bytes: not a multiple of 22\n\
            \x20 line 1 has 70 bytes: it is too long\n\
            \x20 line 1       {}...\n",
            "x".repeat(60)
        ),
    );
    refused_with_1(
        "H    2    2    1    2\rD    2".as_bytes(),
        "  28 bytes: not a multiple of 22\n\
        \x20 line 1 has 28 bytes: a carriage return stands where the newline must\n\
        \x20 line 1       H    2    2    1    2?D    2\n",
    );
}

/// The last line of this file is refused with 2; line 1 is `H    2    2    1    2`.
fn refused_with_2(number: usize, file: &[u8], shown: &str, column: &str) {
    refused(
        file,
        &format!(
            "refused with 2 at line {number}: the line is malformed, its letter is unknown, or H is not on line 1 alone\n\
            \x20 line {number}       {shown}\n\
            \x20 {column}\n"
        ),
    );
}

fn second_line_refused_with_2(line: &str, column: &str) {
    let file = padded(&format!("H    2    2    1    2\n{line}\n"));
    refused_with_2(2, &file, line, column);
}

#[test]
fn the_letter_of_a_malformed_line_is_told() {
    second_line_refused_with_2(
        "x    2    1",
        "column 1     'x': the letter is one of H D S U O P A",
    );
    second_line_refused_with_2(
        "d    2    1",
        "column 1     'd': the letter is one of H D S U O P A",
    );
    second_line_refused_with_2(
        "H    2    2    1    2",
        "column 1     'H': line 1 alone is a line H",
    );
    let headless = padded("D    2    1\n");
    refused_with_2(
        1,
        &headless,
        "D    2    1",
        "column 1     'D': line 1 is the line H with the counts",
    );
    let unknown = padded("?    2    1\n");
    refused_with_2(
        1,
        &unknown,
        "?    2    1",
        "column 1     '?': line 1 is the line H with the counts",
    );
}

#[test]
fn the_column_of_a_malformed_line_is_told() {
    for (line, column) in [
        (
            "D    x    1",
            "column 6     'x': field 1 is a number, blanks before it",
        ),
        (
            "D   -2    1",
            "column 5     '-': field 1 is a number, blanks before it",
        ),
        (
            "D 2       1",
            "column 4     blank: the number of field 1 ends in column 6",
        ),
        (
            "S    2   1",
            "column 11    blank: the number of field 2 ends in column 11",
        ),
        (
            "S    2",
            "column 11    blank: field 2 of a line S is a number",
        ),
        (
            "P    2    1",
            "column 16    blank: field 3 of a line P is a number",
        ),
        (
            "U   01    1",
            "column 5     '0': field 1 has no leading zero",
        ),
        (
            "O    1    1    1",
            "column 16    '1': field 3 of a line O is blank",
        ),
        (
            "P    1    1    1    1",
            "column 21    '1': field 4 of a line P is blank",
        ),
    ] {
        second_line_refused_with_2(line, column);
    }
}

#[test]
fn the_end_of_a_malformed_line_is_told() {
    let mut file = padded("H    2    2    1    2\nD    2    1\n");
    file[43] = b'x';
    refused_with_2(
        2,
        &file,
        "D    2    1",
        "column 22    'x': the newline stands here",
    );
    file[43] = b'\r';
    refused_with_2(
        2,
        &file,
        "D    2    1",
        "column 22    carriage return: the newline stands here",
    );
    file[43] = b'\n';
    file[33] = b'\n';
    let early = "column 12    newline: the line ends too early; blanks at its end count";
    refused_with_2(2, &file, "D    2    1?", early);
    file[33] = 0xe9;
    refused_with_2(
        2,
        &file,
        "D    2    1?",
        "column 12    byte 233: field 3 of a line D is blank",
    );
    let mut marked = "\u{feff}".as_bytes().to_vec();
    marked.extend(padded("H    2    2    1    2\n"));
    marked.extend(b"                  \n");
    let mark = "column 1     byte 239: a byte order mark begins the file and must go";
    refused_with_2(1, &marked, "???H    2    2    1", mark);
}

#[test]
fn the_counts_outside_their_limits_are_told() {
    for (line, fields) in [
        (
            "H   33    0    0    0",
            "  field 1      33 labels: a file has 1 to 32\n",
        ),
        (
            "H    0    0    0    0",
            "  field 1      0 labels: a file has 1 to 32\n",
        ),
        (
            "H    1  129    0    0",
            "  field 2      129 roles: a file has 0 to 128\n",
        ),
        (
            "H   32  128  25799999",
            "  field 3      257 users: a file has 0 to 256\n\
            \x20 field 4      99999 cards: a file has 0 to 512\n",
        ),
    ] {
        let text = format!(
            "refused with 3 at line 1: a count is outside its limits\n  line 1       {line}\n{fields}"
        );
        refused(&padded(&format!("{line}\n")), &text);
    }
}

#[test]
fn the_numbers_out_of_range_are_told() {
    for (counts, line, fields) in [
        ("    2    2    1    2", "D    2    3", "  field 2      label 3: this file has labels 1 to 2\n"),
        ("    2    2    1    2", "S    0    1", "  field 1      role 0: this file has roles 1 to 2\n"),
        (
            "    2    2    1    2",
            "U    2    9",
            "  field 1      user 2: this file has user 1 alone\n\
            \x20 field 2      label 9: this file has labels 1 to 2\n",
        ),
        ("    2    2    1    0", "O    1    1", "  field 1      card 1: this file has no cards\n"),
        ("    2    2    1    2", "P    1    1    3", "  field 3      mode 3: 1 is read, 2 is write\n"),
        ("    2    2    1    2", "P    1    3    0", "  field 2      card 3: this file has cards 1 to 2\n  field 3      mode 0: 1 is read, 2 is write\n"),
        ("    2    0    1    2", "A    1    1", "  field 2      role 1: this file has no roles\n"),
    ] {
        let text = format!(
            "refused with 4 at line 2: a user, role, card, label or mode number is out of its range\n\
            \x20 line 2       {line}\n{fields}"
        );
        refused(&padded(&format!("H{counts}\n{line}\n")), &text);
    }
}

#[test]
fn the_line_before_one_out_of_order_is_told() {
    for (lines, told) in [
        (
            "D    2    1\nD    2    1",
            "  line 2       D    2    1\n\
            \x20 line 3       D    2    1              repeats line 2\n",
        ),
        (
            "P    1    2    2\nP    1    2    1",
            "  line 2       P    1    2    2\n\
            \x20 line 3       P    1    2    1         out of order after line 2: the lines of a letter rise\n",
        ),
        (
            "U    1    1\nS    2    1",
            "  line 2       U    1    1\n\
            \x20 line 3       S    2    1              out of order after line 2: the letters come as H D S U O P A\n",
        ),
    ] {
        let file = padded(&format!("H    2    2    1    2\n{lines}\n"));
        let first = "refused with 5 at line 3: the line is out of order or repeated\n";
        refused(&file, &format!("{first}{told}"));
    }
    let far = padded("H    2    2    1    2\nD    1    2\nU    1    1\nD    1    2\n");
    refused(
        &far,
        "refused with 5 at line 4: the line is out of order or repeated\n\
        \x20 line 3       U    1    1\n\
        \x20 line 4       D    1    2              repeats line 2\n",
    );
}

#[test]
fn users_and_cards_without_one_label_are_told() {
    let file = padded(
        "H    2    0    3    2\nU    1    2\nU    3    1\nU    3    2\nO    2    1\nO    2    2\n",
    );
    refused(
        &file,
        "refused with 6 at user 2: the user or card has no label or more than one\n\
        \x20 user 2: no line U gives it a label\n\
        \x20 user 3: 2 lines U give it a label\n\
        \x20   line 3       U    3    1              label 1\n\
        \x20   line 4       U    3    2              label 2\n\
        \x20 card 1: no line O gives it a label\n\
        \x20 card 2: 2 lines O give it a label\n\
        \x20   line 5       O    2    1              label 1\n\
        \x20   line 6       O    2    2              label 2\n",
    );
    let card = padded("H    2    0    0    2\nO    2    1\n");
    refused(
        &card,
        "refused with 6 at card 1: the user or card has no label or more than one\n\
        \x20 card 1: no line O gives it a label\n",
    );
}

#[test]
fn a_long_list_is_cut_with_a_count_unless_all_is_asked_for() {
    let file = padded("H    1    0    0   24\n");
    let first = "refused with 6 at card 1: the user or card has no label or more than one\n";
    let card = |card: usize| format!("  card {card}: no line O gives it a label\n");
    let twenty: String = (1..=20).map(card).collect();
    refused(
        &file,
        &format!("{first}{twenty}  ... 4 more; yeruvoi check --all shows them\n"),
    );
    let all: String = (1..=24).map(card).collect();
    assert_eq!(
        run(&["check", "--all", "-"], &file).output,
        format!("{first}{all}")
    );
}
