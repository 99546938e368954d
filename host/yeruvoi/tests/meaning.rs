//! Numbers 11 to 16: the text of each, written by hand, from a file that
//! provokes it.

mod common;

use common::{kept, padded, run, DOCUMENT};

/// The file is refused with this text, and nothing else is said.
fn refused(file: &str, text: &str) {
    let run = run(&["check", "-"], &padded(file));
    assert_eq!(run.output, text);
    assert_eq!((run.status, &run.errors[..]), (1, ""));
}

#[test]
fn the_lines_of_a_circle_are_told() {
    refused(
        "H    1    0    0    0\nD    1    1\n",
        "refused with 11 at label 1: labels dominate each other in a circle\n\
        \x20 line 2       D    1    1              label 1 dominates label 1\n",
    );
    refused(
        "H    5    0    0    0\nD    1    2\nD    2    3\nD    2    5\nD    3    4\nD    4    2\nD    5    2\n",
        "refused with 11 at label 2: labels dominate each other in a circle\n\
        \x20 line 4       D    2    5              label 2 dominates label 5\n\
        \x20 line 7       D    5    2              label 5 dominates label 2\n",
    );
    refused(
        "H    1    4    0    0\nS    2    4\nS    3    2\nS    4    1\nS    4    3\n",
        "refused with 13 at role 2: roles are senior to each other in a circle\n\
        \x20 line 2       S    2    4              role 2 is senior to role 4\n\
        \x20 line 5       S    4    3              role 4 is senior to role 3\n\
        \x20 line 3       S    3    2              role 3 is senior to role 2\n",
    );
}

#[test]
fn the_rival_bounds_are_told_or_that_there_is_none() {
    refused(
        &DOCUMENT.replace("D    2    1\n", ""),
        "refused with 12 at label 1, label 2: the two labels have no least upper bound\n\
        \x20 no label dominates both\n",
    );
    refused(
        "H    6    0    0    0\nD    3    1\nD    3    2\nD    4    1\nD    4    5\nD    5    2\nD    6    3\nD    6    4\n",
        "refused with 12 at label 1, label 2: the two labels have no least upper bound\n\
        \x20 label 3 is a rival bound: it dominates both, and no other bound\n\
        \x20   line 2       D    3    1              label 3 dominates label 1\n\
        \x20   line 3       D    3    2              label 3 dominates label 2\n\
        \x20 label 4 is a rival bound: it dominates both, and no other bound\n\
        \x20   line 4       D    4    1              label 4 dominates label 1\n\
        \x20   line 5       D    4    5              label 4 dominates label 5\n\
        \x20   line 6       D    5    2              label 5 dominates label 2\n",
    );
}

#[test]
fn three_rival_bounds_are_told() {
    refused(
        "H    6    0    0    0\nD    1    2\nD    1    3\nD    1    4\nD    2    5\nD    2    6\n\
        D    3    5\nD    3    6\nD    4    5\nD    4    6\n",
        "refused with 12 at label 5, label 6: the two labels have no least upper bound\n\
        \x20 label 2 is a rival bound: it dominates both, and no other bound\n\
        \x20   line 5       D    2    5              label 2 dominates label 5\n\
        \x20   line 6       D    2    6              label 2 dominates label 6\n\
        \x20 label 3 is a rival bound: it dominates both, and no other bound\n\
        \x20   line 7       D    3    5              label 3 dominates label 5\n\
        \x20   line 8       D    3    6              label 3 dominates label 6\n\
        \x20 label 4 is a rival bound: it dominates both, and no other bound\n\
        \x20   line 9       D    4    5              label 4 dominates label 5\n\
        \x20   line 10      D    4    6              label 4 dominates label 6\n",
    );
}

#[test]
fn an_undefined_level_is_told_with_the_cards_written() {
    refused(
        "H    3    1    1    2\nD    3    1\nD    3    2\nU    1    1\nO    1    1\nO    2    2\n\
        P    1    1    2\nP    1    2    2\nA    1    1\n",
        "refused with 14 at user 1, role 1: the assigned role has an undefined w-level\n\
        \x20 line 9       A    1    1              user 1 is assigned to role 1\n\
        \x20 clearance    1\n\
        \x20 w-level      undefined: no label is dominated by all of\n\
        \x20   line 7       P    1    1    2         label 1: card 1\n\
        \x20   line 8       P    1    2    2         label 2: card 2\n",
    );
}

#[test]
fn a_clearance_below_the_r_level_is_told_with_the_cards_read() {
    refused(
        "H    2    2    1    2\nD    2    1\nS    2    1\nU    1    1\nO    1    1\nO    2    2\n\
        P    1    1    1\nP    1    2    1\nP    2    2    2\nA    1    2\n",
        "refused with 15 at user 1, role 2: the clearance does not dominate the r-level\n\
        \x20 line 10      A    1    2              user 1 is assigned to role 2\n\
        \x20 clearance    1, does not dominate label 2\n\
        \x20 r-level      2, the least upper bound of\n\
        \x20   line 7       P    1    1    1         label 1: card 1 by junior role 1\n\
        \x20   line 8       P    1    2    1         label 2: card 2 by junior role 1\n\
        \x20   line 3       S    2    1              role 2 is senior to role 1\n",
    );
}

/// The first line of a 16 at this user and role.
fn no_label(user: usize, role: usize) -> String {
    format!(
        "refused with 16 at user {user}, role {role}: no label dominated by the clearance \
        lies at or above the r-level and at or below the w-level\n"
    )
}

#[test]
fn a_w_level_that_does_not_dominate_the_r_level_is_told_with_both() {
    refused(
        "H    2    2    1    2\nD    2    1\nS    2    1\nU    1    2\nO    1    1\nO    2    2\n\
        P    1    1    1\nP    1    2    1\nP    2    1    2\nP    2    2    2\nA    1    2\n",
        &(no_label(1, 2)
            + "\
            \x20 line 11      A    1    2              user 1 is assigned to role 2\n\
            \x20 clearance    2\n\
            \x20 because      the w-level 1 does not dominate the r-level 2, which is not dominated by label 1, where the role writes\n\
            \x20 r-level      2, the least upper bound of\n\
            \x20   line 7       P    1    1    1         label 1: card 1 by junior role 1\n\
            \x20   line 8       P    1    2    1         label 2: card 2 by junior role 1\n\
            \x20   line 3       S    2    1              role 2 is senior to role 1\n\
            \x20 w-level      1, the greatest lower bound of\n\
            \x20   line 9       P    2    1    2         label 1: card 1\n\
            \x20   line 10      P    2    2    2         label 2: card 2\n"),
    );
    refused(
        "H    4    1    1    3\nD    2    1\nD    3    2\nD    4    3\nU    1    4\nO    1    1\nO    2    2\nO    3    3\n\
        P    1    1    2\nP    1    2    2\nP    1    3    1\nP    1    3    2\nA    1    1\n",
        &(no_label(1, 1)
            + "\
            \x20 line 13      A    1    1              user 1 is assigned to role 1\n\
            \x20 clearance    4\n\
            \x20 because      the w-level 1 does not dominate the r-level 3, which is not dominated by label 1, label 2, where the role writes\n\
            \x20 r-level      3, the least upper bound of\n\
            \x20   line 11      P    1    3    1         label 3: card 3\n\
            \x20 w-level      1, the greatest lower bound of\n\
            \x20   line 9       P    1    1    2         label 1: card 1\n\
            \x20   line 10      P    1    2    2         label 2: card 2\n\
            \x20   line 12      P    1    3    2         label 3: card 3\n"),
    );
}

/// Labels 1 and 2 under 3, and none under both.
#[test]
fn a_w_level_with_no_label_under_it_and_the_clearance_is_told() {
    refused(
        "H    3    1    2    1\nD    3    1\nD    3    2\nU    1    1\nU    2    1\nO    1    2\n\
        P    1    1    2\nA    1    1\nA    2    1\n",
        &(no_label(1, 1)
            + "\
            \x20 line 8       A    1    1              user 1 is assigned to role 1\n\
            \x20 clearance    1\n\
            \x20 because      no label is dominated by both the clearance 1 and the w-level 2\n\
            \x20 r-level      free: the role reads no card\n\
            \x20 w-level      2, the greatest lower bound of\n\
            \x20   line 7       P    1    1    2         label 2: card 1\n\
            1 more assignment is refused, each with its number:\n\
            \x20 line 9       A    2    1              16: user 2 is assigned to role 1\n\
            \x20 clearance    1\n\
            \x20 because      no label is dominated by both the clearance 1 and the w-level 2\n\
            \x20 r-level      of role 1, as above\n\
            \x20 w-level      of role 1, as above\n"),
    );
}

/// Three users, of whom two are assigned wrongly, one of them twice.
const SEVERAL: &str = "\
H    3    3    3    3
D    2    1
D    3    2
S    2    1
S    3    2
U    1    1
U    2    3
U    3    1
O    1    1
O    2    2
O    3    3
P    1    2    1
P    3    1    2
A    1    1
A    1    3
A    2    1
A    2    3
A    3    1
";

#[test]
fn every_assignment_at_fault_is_told() {
    refused(
        SEVERAL,
        "refused with 15 at user 1, role 1: the clearance does not dominate the r-level\n\
        \x20 line 14      A    1    1              user 1 is assigned to role 1\n\
        \x20 clearance    1, does not dominate label 2\n\
        \x20 r-level      2, the least upper bound of\n\
        \x20   line 12      P    1    2    1         label 2: card 2\n\
        3 more assignments are refused, each with its number:\n\
        \x20 line 15      A    1    3              15: user 1 is assigned to role 3\n\
        \x20 clearance    1, does not dominate label 2\n\
        \x20 r-level      2, the least upper bound of\n\
        \x20   line 12      P    1    2    1         label 2: card 2 by junior role 1\n\
        \x20   line 4       S    2    1              role 2 is senior to role 1\n\
        \x20   line 5       S    3    2              role 3 is senior to role 2\n\
        \x20 line 17      A    2    3              16: user 2 is assigned to role 3\n\
        \x20 clearance    3\n\
        \x20 because      the w-level 1 does not dominate the r-level 2, which is not dominated by label 1, where the role writes\n\
        \x20 r-level      of role 3, as above\n\
        \x20 w-level      1, the greatest lower bound of\n\
        \x20   line 13      P    3    1    2         label 1: card 1\n\
        \x20 line 18      A    3    1              15: user 3 is assigned to role 1\n\
        \x20 clearance    1, does not dominate label 2\n\
        \x20 r-level      of role 1, as above\n",
    );
}

/// One role reads nine cards at label 2 and one at label 3.
fn many_cards() -> String {
    let mut file = "H    3    1    1   10\nD    2    1\nD    3    2\nU    1    1\n".to_string();
    let label = |card: usize| if card == 10 { 3 } else { 2 };
    file.extend((1..=10).map(|card| format!("O{card:>5}{:>5}\n", label(card))));
    file.extend((1..=10).map(|card| format!("P    1{card:>5}    1\n")));
    file + "A    1    1\n"
}

#[test]
fn a_few_lines_of_a_level_are_told_one_of_each_label_among_them() {
    let first = "\
refused with 15 at user 1, role 1: the clearance does not dominate the r-level
  line 25      A    1    1              user 1 is assigned to role 1
  clearance    1, does not dominate label 2, label 3
  r-level      3, the least upper bound of
    line 15      P    1    1    1         label 2: card 1
    line 16      P    1    2    1         label 2: card 2
    line 17      P    1    3    1         label 2: card 3
    line 18      P    1    4    1         label 2: card 4
    line 19      P    1    5    1         label 2: card 5
";
    let last = "    line 24      P    1   10    1         label 3: card 10\n";
    let cut = "    ... 4 more; yeruvoi check --all shows them\n";
    refused(&many_cards(), &format!("{first}{last}{cut}"));
    let rest: String = (6..=9)
        .map(|card| {
            format!(
                "    line {:<4}    P    1    {card}    1         label 2: card {card}\n",
                card + 14
            )
        })
        .collect();
    let all = run(&["check", "--all", "-"], &padded(&many_cards()));
    assert_eq!(all.output, format!("{first}{rest}{last}"));
}

#[test]
fn many_assignments_at_fault_are_cut_with_a_count() {
    let mut file = "H    2    1   23    1\nD    2    1\n".to_string();
    file.extend((1..=23).map(|user| format!("U{user:>5}    1\n")));
    file += "O    1    2\nP    1    1    1\n";
    file.extend((1..=23).map(|user| format!("A{user:>5}    1\n")));
    let mut text = "\
refused with 15 at user 1, role 1: the clearance does not dominate the r-level
  line 28      A    1    1              user 1 is assigned to role 1
  clearance    1, does not dominate label 2
  r-level      2, the least upper bound of
    line 27      P    1    1    1         label 2: card 1
22 more assignments are refused, each with its number:
"
    .to_string();
    text.extend((2..=20).map(|user| {
        format!(
            "  line {}      A{user:>5}    1              15: user {user} is assigned to role 1\n\
            \x20 clearance    1, does not dominate label 2\n\
            \x20 r-level      of role 1, as above\n",
            user + 27
        )
    }));
    refused(
        &file,
        &(text + "... 3 more; yeruvoi check --all shows them\n"),
    );
}

#[test]
fn names_stand_beside_every_number() {
    let legend = kept(
        "several.legend",
        b"label 1: public\nlabel 2: draft\nrole 1: reader\nrole 3: lead\nuser 1: Ada\ncard 2: pump\n",
    );
    let told = run(&["check", "--names", &legend, "-"], &padded(SEVERAL));
    let text = "\
refused with 15 at user 1 (Ada), role 1 (reader): the clearance does not dominate the r-level
  line 14      A    1    1              user 1 (Ada) is assigned to role 1 (reader)
  clearance    1 (public), does not dominate label 2 (draft)
  r-level      2 (draft), the least upper bound of
    line 12      P    1    2    1         label 2 (draft): card 2 (pump)
3 more assignments are refused, each with its number:
  line 15      A    1    3              15: user 1 (Ada) is assigned to role 3 (lead)
  clearance    1 (public), does not dominate label 2 (draft)
  r-level      2 (draft), the least upper bound of
    line 12      P    1    2    1         label 2 (draft): card 2 (pump) by junior role 1 (reader)
    line 4       S    2    1              role 2 is senior to role 1 (reader)
    line 5       S    3    2              role 3 (lead) is senior to role 2
  line 17      A    2    3              16: user 2 is assigned to role 3 (lead)
  clearance    3
  because      the w-level 1 (public) does not dominate the r-level 2 (draft), which is not dominated by label 1 (public), where the role writes
  r-level      of role 3 (lead), as above
  w-level      1 (public), the greatest lower bound of
    line 13      P    3    1    2         label 1 (public): card 1
  line 18      A    3    1              15: user 3 is assigned to role 1 (reader)
  clearance    1 (public), does not dominate label 2 (draft)
  r-level      of role 1 (reader), as above
";
    assert_eq!(told.output, text);
}
