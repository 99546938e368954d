//! The cases of document 01 about files, what document 02 says of number 16, and
//! more on the edges. The expected values are worked out by hand from the
//! documents.

use second_checker::example::{example, role_file, single_blanks};
use second_checker::example::{BESIDE, DOWNWARDS, EXAMPLE, REVIEWER, TWO_MAKERS};
use second_checker::{check, report, Level, Outcome};

fn text(bytes: &[u8]) -> String {
    String::from_utf8_lossy(bytes).into_owned()
}

/// The whole report on a file.
#[track_caller]
fn printed(input: &str, expected: &str) {
    assert_eq!(text(&report(&role_file(input))), text(&role_file(expected)));
}

/// Number and place of a refusal, of bytes as they are.
#[track_caller]
fn refused_bytes(bytes: &[u8], number: usize, place: [usize; 2]) {
    let outcome = check(bytes);
    assert_eq!((outcome.number(), outcome.place()), (number, place));
    let expected = format!("V{number:>5}{:>5}{:>5}     \n", place[0], place[1]);
    assert_eq!(text(&report(bytes)), expected);
}

#[track_caller]
fn refused(input: &str, number: usize, place: [usize; 2]) {
    refused_bytes(&role_file(input), number, place);
}

#[track_caller]
fn accepted(input: &str) {
    let outcome = check(&role_file(input));
    assert_eq!(outcome.number(), 0, "{outcome:?}");
}

/// A role's levels in an accepted file.
#[track_caller]
fn levels(input: &str, role: usize) -> (Level, Level) {
    match check(&role_file(input)) {
        Outcome::Accepted(accepted) => {
            let levels = accepted.roles[role - 1];
            assert_eq!(levels.role, role);
            (levels.read_level, levels.write_level)
        }
        Outcome::Refused(refusal) => panic!("{refusal:?}"),
    }
}

// ---------------------------------------------------------------------------
// The document's list of cases

#[test]
fn the_example_byte_for_byte() {
    let document = "H    2    2    1    2\n\
        D    2    1          \n\
        S    2    1          \n\
        U    1    2          \n\
        O    1    1          \n\
        O    2    2          \n\
        P    1    1    1     \n\
        P    2    2    2     \n\
        A    1    2          \n";
    let expected = "V    0    0    0     \n\
        R    1    1    0     \n\
        R    2    1    2     \n\
        C    0               \n";
    assert_eq!(document.len(), 9 * 22);
    assert_eq!(expected.len(), 4 * 22);
    assert_eq!(EXAMPLE, document);
    assert_eq!(text(&report(document.as_bytes())), expected);
    assert_eq!(text(&role_file(&example())), document);
}

#[test]
fn the_example_without_its_d_line() {
    refused(&example().replace("D 2 1\n", ""), 12, [1, 2]);
}

#[test]
fn user_1_cleared_to_1() {
    let cleared = example().replace("U 1 2", "U 1 1");
    printed(&cleared, "V 0 0 0\nR 1 1 0\nR 2 1 2\nC 0");
    let reading = cleared.replace("P 1 1 1", "P 1 1 1\nP 1 2 1");
    refused(&reading, 15, [1, 2]);
}

#[test]
fn role_2_writing_card_1_too() {
    let writing = single_blanks(REVIEWER);
    let report = "V 0 0 0\nR 1 1 0\nR 2 1 1\nF 2 1\nC 0";
    printed(&writing, report);
    printed(&writing.replace("U 1 2", "U 1 1"), report);
}

#[test]
fn d_1_1_in_front() {
    refused(&example().replace("D 2 1", "D 1 1\nD 2 1"), 11, [1, 0]);
}

const THREE_LABELS: &str = "H 3 1 1 2
    D 3 1
    D 3 2
    U 1 3
    O 1 1
    O 2 2
    P 1 1 1
    P 1 2 1
    A 1 1";

#[test]
fn writing_without_a_lower_bound() {
    let writing = THREE_LABELS
        .replace("P 1 1 1", "P 1 1 2")
        .replace("P 1 2 1", "P 1 2 2");
    refused(&writing, 14, [1, 1]);
    // Not assigned, the role is no trouble and prints 99.
    printed(&writing.replace("A 1 1", ""), "V 0 0 0\nR 1 0 99\nC 0");
}

#[test]
fn reading_at_two_labels_under_a_third() {
    printed(THREE_LABELS, "V 0 0 0\nR 1 3 0\nC 0");
}

/// Labels 2 and 3 above 1 and below 4; cards 1, 2, 3, 4 at labels 1, 2, 3, 4.
const DIAMOND: &str = "H 4 1 1 4
    D 2 1
    D 3 1
    D 4 2
    D 4 3
    U 1 2
    O 1 1
    O 2 2
    O 3 3
    O 4 4
";

#[test]
fn writing_at_two_labels_over_a_fourth() {
    let writing = format!("{DIAMOND}P 1 2 2\nP 1 3 2\nA 1 1");
    let report = "V 0 0 0\nR 1 0 1\nC 0";
    printed(&writing.replace("U 1 2", "U 1 1"), report);
    // A user cleared higher takes the role at label 1.
    printed(&writing, report);
    printed(&writing.replace("U 1 2", "U 1 4"), report);
}

#[test]
fn only_h() {
    printed("H 1 0 0 0", "V 0 0 0\nC 0");
    refused("H 33 0 0 0", 3, [1, 0]);
}

// ---------------------------------------------------------------------------
// Number 1

#[test]
fn lengths() {
    refused_bytes(b"", 1, [0, 0]);
    let only_h = role_file("H 1 0 0 0");
    refused_bytes(&only_h[..21], 1, [0, 0]);
    refused_bytes(&only_h[..1], 1, [0, 0]);
    let mut longer = only_h.clone();
    longer.push(b'\n');
    refused_bytes(&longer, 1, [0, 0]);
    // Length comes before all else.
    refused_bytes(b"no role file", 1, [0, 0]);
}

#[test]
fn the_most_lines() {
    // 1 + 1 + 512 + 2,386 = 2,900 lines: ten roles read and write.
    let mut lines = String::from("H 1 10 1 512\nU 1 1\n");
    for card in 1..=512 {
        lines.push_str(&format!("O {card} 1\n"));
    }
    let mut wanted = 2_386;
    for role in 1..=10 {
        for card in 1..=512 {
            if wanted > 0 {
                lines.push_str(&format!("P {role} {card} 1\n"));
                wanted -= 1;
            }
        }
    }
    let mut bytes = role_file(&lines);
    assert_eq!(bytes.len(), 63_800);
    assert_eq!(check(&bytes).number(), 0);
    bytes.extend(role_file("A 1 10"));
    refused_bytes(&bytes, 1, [0, 0]);
    bytes.truncate(63_801);
    refused_bytes(&bytes, 1, [0, 0]);
}

// ---------------------------------------------------------------------------
// Number 2

/// The example with one line's bytes put in as they are; line from 1.
fn with_line(line: usize, bytes: &[u8]) -> Vec<u8> {
    assert_eq!(bytes.len(), 22);
    let mut example = EXAMPLE.as_bytes().to_vec();
    example[(line - 1) * 22..line * 22].copy_from_slice(bytes);
    example
}

#[test]
fn forms_of_a_number() {
    let malformed: [&[u8]; 15] = [
        b"D    2   01          \n",
        b"D    2  001          \n",
        b"D    200000          \n",
        b"D    2   00          \n",
        b"D    2   1           \n",
        b"D    21              \n",
        b"D    2               \n",
        b"D         1          \n",
        b"D    2  1 1          \n",
        b"D    2   +1          \n",
        b"D    2   -1          \n",
        b"D    2\t\t\t\t1          \n",
        b"D    2    \xb1          \n",
        b"D    2    a          \n",
        b"D    2\x00\x00\x00\x001          \n",
    ];
    for bytes in malformed {
        refused_bytes(&with_line(2, bytes), 2, [2, 0]);
    }
    // A well-formed 0 and a number of five digits are out of range.
    refused_bytes(&with_line(2, b"D    2    0          \n"), 4, [2, 0]);
    refused_bytes(&with_line(2, b"D    299999          \n"), 4, [2, 0]);
    refused_bytes(&with_line(2, b"D    210000          \n"), 4, [2, 0]);
}

#[test]
fn fields_without_use_are_blank() {
    let malformed: [(usize, &[u8]); 6] = [
        (2, b"D    2    1    0     \n"),
        (3, b"S    2    1         0\n"),
        (4, b"U    1    2         \0\n"),
        (5, b"O    1    1\t         \n"),
        (7, b"P    1    1    1    1\n"),
        (9, b"A    1    2    1     \n"),
    ];
    for (line, bytes) in malformed {
        refused_bytes(&with_line(line, bytes), 2, [line, 0]);
    }
    // A field in use may not be blank.
    refused_bytes(&with_line(7, b"P    1    1          \n"), 2, [7, 0]);
    refused_bytes(&with_line(1, b"H    2    2    1     \n"), 2, [1, 0]);
}

#[test]
fn letters_and_line_ends() {
    for letter in *b"hdBVRFC \0\n1\xc4" {
        let mut bytes = EXAMPLE.as_bytes().to_vec();
        bytes[22] = letter;
        refused_bytes(&bytes, 2, [2, 0]);
    }
    for end in *b"\r \0\n" {
        for line in 1..=9 {
            let mut bytes = EXAMPLE.as_bytes().to_vec();
            bytes[line * 22 - 1] = end;
            if end == b'\n' {
                assert_eq!(check(&bytes).number(), 0);
            } else {
                refused_bytes(&bytes, 2, [line, 0]);
            }
        }
    }
}

#[test]
fn h_stands_on_line_1_and_only_there() {
    refused(&example().replace("H 2 2 1 2\n", ""), 2, [1, 0]);
    refused("D 1 1", 2, [1, 0]);
    refused("H 1 0 0 0\nH 1 0 0 0", 2, [2, 0]);
    // Also where its counts are outside their limits.
    refused("H 1 0 0 0\nH 33 0 0 0", 2, [2, 0]);
    refused(&example().replace("A 1 2", "H 2 2 1 2"), 2, [9, 0]);
}

// ---------------------------------------------------------------------------
// Number 3

#[test]
fn counts_and_their_limits() {
    accepted("H 1 128 0 0");
    for heading in [
        "H 0 0 0 0",
        "H 33 0 0 0",
        "H 1 129 0 0",
        "H 1 0 257 0",
        "H 1 0 0 513",
        "H 257 0 0 0",
        "H 65537 0 0 0",
        "H 1 65536 0 0",
        "H 99999 99999 99999 99999",
    ] {
        refused(heading, 3, [1, 0]);
        // Line 1 comes first, whatever follows.
        refused(&format!("{heading}\nX 1 1"), 3, [1, 0]);
    }
    // At the limits the form is good and the users lack their clearance.
    refused("H 1 128 256 512", 6, [1, 1]);
    refused("H 1 128 0 512", 6, [2, 1]);
    refused("H 32 0 0 0", 12, [1, 2]);
    // Form before limits.
    refused_bytes(b"H   33    0    0   00\n", 2, [1, 0]);
}

// ---------------------------------------------------------------------------
// Number 4

#[test]
fn ranges_of_every_field() {
    // 4 labels, 3 roles, 2 users, 5 cards; every field at its highest.
    let base = "H 4 3 2 5
        D 4 4
        S 3 3
        U 2 4
        O 5 4
        P 3 5 2
        A 2 3";
    // All in range: user 1 without clearance is what remains.
    refused(base, 6, [1, 1]);
    let lines: [(usize, &str, &[usize]); 6] = [
        (2, "D 4 4", &[4, 4]),
        (3, "S 3 3", &[3, 3]),
        (4, "U 2 4", &[2, 4]),
        (5, "O 5 4", &[5, 4]),
        (6, "P 3 5 2", &[3, 5, 2]),
        (7, "A 2 3", &[2, 3]),
    ];
    for (place, line, highest) in lines {
        for field in 0..highest.len() {
            for value in [
                0,
                highest[field] + 1,
                highest[field] + 256,
                65_536 + highest[field],
            ] {
                let mut numbers = highest.to_vec();
                numbers[field] = value;
                let words: Vec<String> = numbers.iter().map(usize::to_string).collect();
                let wrong = format!("{} {}", &line[..1], words.join(" "));
                refused(&base.replace(line, &wrong), 4, [place, 0]);
            }
        }
    }
    // Nothing of a kind counted: no number of that kind is in range.
    refused("H 1 0 1 0\nU 1 1\nA 1 1", 4, [3, 0]);
}

// ---------------------------------------------------------------------------
// Number 5, and the order of numbers 2 to 5

#[test]
fn letters_come_in_the_order_of_the_table() {
    let letters = ["D 1 1", "S 1 1", "U 1 1", "O 1 1", "P 1 1 1", "A 1 1"];
    for earlier in 0..6 {
        for later in 0..6 {
            let text = format!("H 1 1 1 1\n{}\n{}", letters[earlier], letters[later]);
            let number = check(&role_file(&text)).number();
            if earlier < later {
                assert!(number == 0 || number >= 6, "{text}");
            } else {
                refused(&text, 5, [3, 0]);
            }
        }
    }
}

#[test]
fn lines_of_a_letter_rise_strictly() {
    // Read as numbers, from left to right.
    accepted("H 11 0 0 0\nD 9 8\nD 10 1\nD 10 2\nD 10 3\nD 10 4\nD 10 5\nD 10 6\nD 10 7\nD 10 9\nD 11 10");
    refused("H 4 0 0 0\nD 2 1\nD 2 1", 5, [3, 0]);
    refused("H 4 0 0 0\nD 3 2\nD 3 1", 5, [3, 0]);
    refused("H 4 0 0 0\nD 3 1\nD 2 4", 5, [3, 0]);
    refused("H 10 0 0 0\nD 10 1\nD 9 1", 5, [3, 0]);
    let permissions = "H 1 2 0 2\nO 1 1\nO 2 1\nP 1 1 1\nP 1 1 2\nP 1 2 1\nP 2 1 1";
    accepted(permissions);
    refused(
        &permissions.replace("P 1 1 1\nP 1 1 2", "P 1 1 2\nP 1 1 1"),
        5,
        [5, 0],
    );
    refused(
        &permissions.replace("P 1 2 1\nP 2 1 1", "P 2 1 1\nP 1 2 1"),
        5,
        [7, 0],
    );
}

#[test]
fn numbers_2_to_5_within_a_line() {
    // 2 before 4 and 5.
    refused("H 2 0 0 0\nD 2 1\nD 9 1 1", 2, [3, 0]);
    // 4 before 5: out of order and out of range.
    refused("H 2 1 0 0\nS 1 1\nD 3 1", 4, [3, 0]);
    refused("H 2 1 0 0\nD 2 1\nD 0 1", 4, [3, 0]);
    // An earlier line comes first, whatever its number.
    refused("H 2 1 0 0\nD 2 1\nD 2 1\nX 1 1", 5, [3, 0]);
    refused("H 2 1 0 0\nD 3 1\nX 1 1", 4, [2, 0]);
    // And all lines come before 6.
    refused("H 2 1 1 1\nD 1 1\nA 1 2", 4, [3, 0]);
}

// ---------------------------------------------------------------------------
// Number 6

#[test]
fn one_clearance_for_each_user_and_one_label_for_each_card() {
    let base = "H 2 0 3 3
        D 2 1
        U 1 1
        U 2 1
        U 3 1
        O 1 1
        O 2 1
        O 3 1";
    accepted(base);
    refused(&base.replace("U 2 1", ""), 6, [1, 2]);
    refused(&base.replace("U 2 1", "U 2 1\nU 2 2"), 6, [1, 2]);
    refused(&base.replace("U 3 1", ""), 6, [1, 3]);
    refused(&base.replace("O 1 1", ""), 6, [2, 1]);
    refused(&base.replace("O 3 1", "O 3 1\nO 3 2"), 6, [2, 3]);
    // The lowest of each kind, and users before cards.
    let several = base.replace("U 2 1\n", "").replace("U 3 1", "U 3 1\nU 3 2");
    refused(&several, 6, [1, 2]);
    let both = base.replace("O 1 1\n", "").replace("U 3 1\n", "");
    refused(&both, 6, [1, 3]);
    let cards = base.replace("O 2 1", "O 2 1\nO 2 2").replace("O 3 1", "");
    refused(&cards, 6, [2, 2]);
    // 6 comes before 11.
    refused(
        &base.replace("D 2 1", "D 1 1").replace("O 3 1", ""),
        6,
        [2, 3],
    );
}

// ---------------------------------------------------------------------------
// Numbers 11 to 13

#[test]
fn the_lowest_label_on_a_circle() {
    refused("H 2 0 0 0\nD 1 2\nD 2 1", 11, [1, 0]);
    // Label 1 leads into the circle and label 4 out of it; neither is on it.
    refused("H 4 0 0 0\nD 1 2\nD 2 3\nD 3 2\nD 3 4", 11, [2, 0]);
    // Two circles: the lowest label on any of them.
    refused("H 5 0 0 0\nD 2 5\nD 3 3\nD 4 4\nD 5 2", 11, [2, 0]);
    refused("H 32 0 0 0\nD 32 32", 11, [32, 0]);
    // 11 before 12: label 1 has no bound with others.
    refused("H 3 0 0 0\nD 3 3", 11, [3, 0]);
    // A pair that follows from others is no circle.
    accepted("H 3 0 0 0\nD 2 1\nD 3 1\nD 3 2");
}

#[test]
fn a_common_upper_bound_is_not_enough() {
    // 1 and 2 stand under 3 and 4, both under 5: no least one.
    refused(
        "H 5 0 0 0\nD 3 1\nD 3 2\nD 4 1\nD 4 2\nD 5 3\nD 5 4",
        12,
        [1, 2],
    );
    // The pair that comes first by its lower label: 2 and 5 here.
    refused(
        "H 5 0 0 0\nD 1 3\nD 1 4\nD 3 2\nD 3 5\nD 4 2\nD 4 5",
        12,
        [2, 5],
    );
    // Two labels at the top. All is well with 1; 2 and 3 have no bound.
    refused("H 3 0 0 0\nD 2 1\nD 3 1", 12, [2, 3]);
    // Then by its higher label: 1 has a bound with 2, none with 3 and 4.
    refused("H 4 0 0 0\nD 2 1\nD 4 3", 12, [1, 3]);
    // 12 before 13.
    refused("H 2 1 0 0\nS 1 1", 12, [1, 2]);
}

#[test]
fn the_lowest_role_on_a_circle() {
    refused("H 1 3 0 0\nS 2 2", 13, [2, 0]);
    refused("H 1 4 0 0\nS 1 2\nS 2 3\nS 3 4\nS 4 2", 13, [2, 0]);
    // Two roles need no bound.
    printed("H 1 2 0 0", "V 0 0 0\nR 1 0 0\nR 2 0 0\nC 0");
    // 13 before the assignments.
    let text = "H 2 1 1 1\nD 2 1\nS 1 1\nU 1 1\nO 1 2\nP 1 1 1\nA 1 1";
    refused(text, 13, [1, 0]);
    refused(&text.replace("S 1 1\n", ""), 15, [1, 1]);
}

// ---------------------------------------------------------------------------
// Numbers 14 to 16

/// Labels 1 and 2 under 3; cards 1, 2, 3 at labels 1, 2, 3; users likewise.
const WORKSHOP: &str = "H 3 3 3 3
    D 3 1
    D 3 2
    U 1 1
    U 2 2
    U 3 3
    O 1 1
    O 2 2
    O 3 3
";

#[test]
fn assignments_in_file_order() {
    // Role 1 reads card 2, role 2 writes card 1, role 3 writes cards 1 and 2.
    let roles = format!("{WORKSHOP}P 1 2 1\nP 2 1 2\nP 3 1 2\nP 3 2 2\n");
    accepted(&format!("{roles}A 1 2\nA 2 1\nA 3 1"));
    refused(&format!("{roles}A 1 1\nA 1 3"), 15, [1, 1]);
    refused(&format!("{roles}A 1 3\nA 2 2"), 14, [1, 3]);
    refused(&format!("{roles}A 1 2\nA 2 1\nA 2 2"), 16, [2, 2]);
    refused(&format!("{roles}A 2 2\nA 3 3"), 16, [2, 2]);
    // At label 1 user 3 writes card 1.
    accepted(&format!("{roles}A 1 2\nA 2 1\nA 3 1\nA 3 2"));
    refused(&format!("{roles}A 1 2\nA 2 1\nA 3 2\nA 3 3"), 14, [3, 3]);
}

#[test]
fn numbers_14_to_16_within_an_assignment() {
    // Role 1 reads card 3 and writes cards 1 and 2: 14 before 15.
    let undefined = format!("{WORKSHOP}P 1 1 2\nP 1 2 2\nP 1 3 1\nA 1 1");
    refused(&undefined, 14, [1, 1]);
    // Role 1 reads card 3 and writes card 1; user 2: 15 before 16.
    let both = format!("{WORKSHOP}P 1 1 2\nP 1 3 1\nA 2 1");
    refused(&both, 15, [2, 1]);
    refused(&both.replace("A 2 1", "A 3 1"), 16, [3, 1]);
    refused(&both.replace("A 2 1", "A 1 1"), 15, [1, 1]);
}

// ---------------------------------------------------------------------------
// Number 16: "no label dominated by the clearance lies at or above the r-level
// and at or below the w-level, free levels passing"

#[test]
fn reading_above_and_writing_below() {
    let both = single_blanks(DOWNWARDS);
    refused(&both, 16, [1, 1]);
    // The read alone serves at label 2, the write alone at label 1.
    printed(&both.replace("P 1 1 2", ""), "V 0 0 0\nR 1 2 0\nC 0");
    printed(&both.replace("P 1 2 1", ""), "V 0 0 0\nR 1 0 1\nC 0");
}

#[test]
fn reading_and_writing_side_by_side() {
    // Role 1 reads card 1 and writes card 2; user 3 is cleared over both.
    refused(&format!("{WORKSHOP}P 1 1 1\nP 1 2 2\nA 3 1"), 16, [3, 1]);
    refused(&format!("{DIAMOND}P 1 2 1\nP 1 3 2\nA 1 1"), 16, [1, 1]);
}

#[test]
fn only_writing_beside_the_clearance() {
    let beside = single_blanks(BESIDE);
    refused(&beside, 16, [1, 1]);
    // Label 2 serves a user cleared to 2 or to 3.
    for cleared in ["U 1 2", "U 1 3"] {
        let report = "V 0 0 0\nR 1 0 2\nC 0";
        printed(&beside.replace("U 1 1", cleared), report);
    }
    // In the diamond label 1 is below both, and serves a read there too.
    printed(&format!("{DIAMOND}P 1 3 2\nA 1 1"), "V 0 0 0\nR 1 0 3\nC 0");
    printed(
        &format!("{DIAMOND}P 1 1 1\nP 1 3 2\nA 1 1"),
        "V 0 0 0\nR 1 1 3\nC 0",
    );
}

#[test]
fn a_label_below_the_clearance_and_above_the_lowest() {
    // 4 over 3 over 2 over 1; the role reads at 2 and writes at 3, and the user
    // is cleared to 4: labels 2 and 3 serve.
    let chain = "H 4 1 1 2
        D 2 1
        D 3 2
        D 4 3
        U 1 4
        O 1 2
        O 2 3
        P 1 1 1
        P 1 2 2
        A 1 1";
    printed(chain, "V 0 0 0\nR 1 2 3\nC 0");
    // Label 2 alone, then none.
    printed(&chain.replace("O 2 3", "O 2 2"), "V 0 0 0\nR 1 2 2\nC 0");
    refused(&chain.replace("O 2 3", "O 2 1"), 16, [1, 1]);
    refused(&chain.replace("U 1 4", "U 1 1"), 15, [1, 1]);
}

#[test]
fn a_juniors_write_bars_a_seniors_read() {
    // Role 1 writes card 1, its senior role 2 reads card 2.
    let layers = "H 2 2 1 2
        D 2 1
        S 2 1
        U 1 2
        O 1 1
        O 2 2
        P 1 1 2
        P 2 2 1
        A 1 2";
    refused(layers, 16, [1, 2]);
    let junior = layers.replace("A 1 2", "A 1 1");
    // They share card 1 to write, and so flow to each other.
    printed(&junior, "V 0 0 0\nR 1 0 1\nR 2 2 1\nF 1 2\nF 2 1\nC 1");
}

#[test]
fn free_levels_pass() {
    accepted(&format!("{WORKSHOP}A 1 1\nA 2 2\nA 3 3"));
    assert_eq!(levels(WORKSHOP, 2), (Level::Free, Level::Free));
}

#[test]
fn levels_through_layers_of_juniors() {
    // Role 3 over 2 over 1; role 1 reads card 1, role 2 reads card 2,
    // role 3 writes card 3.
    let layers = WORKSHOP.replace("D 3 2\n", "D 3 2\nS 2 1\nS 3 2\n");
    let text = format!("{layers}P 1 1 1\nP 2 2 1\nP 3 3 2\n");
    printed(
        &format!("{text}A 3 3"),
        "V 0 0 0\nR 1 1 0\nR 2 3 0\nR 3 3 3\nC 0",
    );
    refused(&format!("{text}A 2 3"), 15, [2, 3]);
    // A junior's write counts for its seniors too.
    let writing = format!("{layers}P 1 1 2\nP 3 2 2\n");
    printed(
        &writing,
        "V 0 0 0\nR 1 0 1\nR 2 0 1\nR 3 0 99\nF 1 2\nF 1 3\nF 2 1\nF 2 3\nF 3 1\nF 3 2\nC 1",
    );
    refused(&format!("{writing}A 1 2\nA 1 3"), 14, [1, 3]);
}

// ---------------------------------------------------------------------------
// Role flow

#[test]
fn role_flow() {
    // Role 1 writes card 1, roles 2 and 3 read it, role 3 writes card 2,
    // which role 1 reads: 1 and 3 are on a circle.
    let text = "H 1 3 0 2
        O 1 1
        O 2 1
        P 1 1 2
        P 1 2 1
        P 2 1 1
        P 3 1 1
        P 3 2 2";
    printed(
        text,
        "V 0 0 0\nR 1 1 1\nR 2 1 0\nR 3 1 1\nF 1 2\nF 1 3\nF 3 1\nC 1",
    );
}

#[test]
fn a_role_never_flows_to_itself() {
    printed(
        "H 1 1 0 1\nO 1 1\nP 1 1 1\nP 1 1 2",
        "V 0 0 0\nR 1 1 1\nC 0",
    );
    // Writing alone is sharing with nobody.
    printed("H 1 1 0 1\nO 1 1\nP 1 1 2", "V 0 0 0\nR 1 0 1\nC 0");
}

#[test]
fn roles_that_write_one_card_are_a_circle() {
    // Roles 2 and 3 write card 1, which nobody reads; role 1 writes card 2
    // alone, and role 4 reads it.
    let text = "H 1 4 0 2
        O 1 1
        O 2 1
        P 1 2 2
        P 2 1 2
        P 3 1 2
        P 4 2 1";
    printed(
        text,
        "V 0 0 0\nR 1 0 1\nR 2 0 1\nR 3 0 1\nR 4 1 0\nF 1 4\nF 2 3\nF 3 2\nC 2",
    );
    // Three roles: each flows to each other.
    printed(
        &text.replace("P 4 2 1", "P 4 1 2"),
        "V 0 0 0\nR 1 0 1\nR 2 0 1\nR 3 0 1\nR 4 0 1\nF 2 3\nF 2 4\nF 3 2\nF 3 4\nF 4 2\nF 4 3\nC 2",
    );
    // One writes it and one reads it: that is flow one way.
    printed(
        &text.replace("P 3 1 2", "P 3 1 1"),
        "V 0 0 0\nR 1 0 1\nR 2 0 1\nR 3 1 0\nR 4 1 0\nF 1 4\nF 2 3\nC 0",
    );
}

#[test]
fn a_role_that_leads_into_a_circle_is_not_on_it() {
    // 1 to 2, 2 to 3, 3 to 4, 4 to 2, by cards 1 to 4.
    let text = "H 1 4 0 4
        O 1 1
        O 2 1
        O 3 1
        O 4 1
        P 1 1 2
        P 2 1 1
        P 2 2 2
        P 2 4 1
        P 3 2 1
        P 3 3 2
        P 4 3 1
        P 4 4 2";
    printed(
        text,
        "V 0 0 0\nR 1 0 1\nR 2 1 1\nR 3 1 1\nR 4 1 1\nF 1 2\nF 2 3\nF 3 4\nF 4 2\nC 2",
    );
    // Without card 4 there is no circle.
    printed(
        &text.replace("P 4 4 2", ""),
        "V 0 0 0\nR 1 0 1\nR 2 1 1\nR 3 1 1\nR 4 1 0\nF 1 2\nF 2 3\nF 3 4\nC 0",
    );
}

#[test]
fn role_flow_by_inheritance() {
    // Role 2 is senior to role 1, which reads and writes card 1: each flows
    // to the other.
    printed(
        "H 1 2 0 1\nS 2 1\nO 1 1\nP 1 1 1\nP 1 1 2",
        "V 0 0 0\nR 1 1 1\nR 2 1 1\nF 1 2\nF 2 1\nC 1",
    );
    // A senior shares what its junior writes, though nobody reads it; two
    // seniors of one junior share it with each other too.
    printed(
        "H 1 3 0 1\nS 2 1\nS 3 1\nO 1 1\nP 1 1 2",
        "V 0 0 0\nR 1 0 1\nR 2 0 1\nR 3 0 1\nF 1 2\nF 1 3\nF 2 1\nF 2 3\nF 3 1\nF 3 2\nC 1",
    );
    // Seniority itself is no flow: role 2 reads what role 1 reads.
    printed(
        "H 1 2 0 1\nS 2 1\nO 1 1\nP 1 1 1",
        "V 0 0 0\nR 1 1 0\nR 2 1 0\nC 0",
    );
    // Role 3 writes the card that role 1 reads, and so flows to 1 and to its
    // senior 2.
    printed(
        "H 1 3 0 1\nS 2 1\nO 1 1\nP 1 1 1\nP 3 1 2",
        "V 0 0 0\nR 1 1 0\nR 2 1 0\nR 3 0 1\nF 3 1\nF 3 2\nC 0",
    );
}

// ---------------------------------------------------------------------------
// The longer example file

#[test]
fn the_two_makers() {
    let outcome = check(TWO_MAKERS.as_bytes());
    assert_eq!(outcome.number(), 0, "{:?}", outcome.place());
}
