//! `yeruvoi rights` against the model and against texts written by hand.

mod common;
mod support;

use common::run;
use monitor_model::{Mode, Policy};
use second_checker::check::READ;
use second_checker::example::EXAMPLE;
use second_checker::line::print_line;
use second_checker::random::Random;
use support::json::{list, numbers, object, parsed, text, thing};
use support::legend::Legend;
use support::report::{assigned, by_anyone, given, members, takes, Page};
use support::run::told;
use support::{draw, named, policy, Drawn, CROSSED, EXAMPLES};

const SEED: u64 = 21;
const FILES: u64 = 120;

/// The command's words for this file on standard input.
fn words<'a>(options: &'a [String], users: &'a [String]) -> Vec<&'a str> {
    let fixed = ["rights", "-"].into_iter();
    let rest = options.iter().chain(users).map(String::as_str);
    fixed.chain(rest).collect()
}

/// Some users, each written in one of its ways, or all by no word.
fn some_users(random: &mut Random, users: usize) -> (Vec<usize>, Vec<String>) {
    if users == 0 || random.percent(50) {
        return ((1..=users).collect(), Vec::new());
    }
    let asked: Vec<usize> = (0..random.between(1, 6))
        .map(|_| 1 + random.place(0, users))
        .collect();
    let mut word = |&user: &usize| match random.below(4) {
        0 => format!("{user:05}"),
        _ => user.to_string(),
    };
    let words = asked.iter().map(&mut word).collect();
    (asked, words)
}

#[test]
fn random_files() {
    let mut bytes = 0;
    for index in 0..FILES {
        let Drawn {
            mut random,
            file,
            policy,
            legend,
        } = draw(SEED, index, index % 3 != 0);
        let each = index % 4 == 1;
        let (asked, users) = some_users(&mut random, policy.counts.users);
        let (_kept, mut options) = named(&legend);
        options.extend(each.then(|| "--each".to_string()));
        let page = Page {
            policy: &policy,
            legend: &legend,
            each,
        };
        let expected = page.text(&asked);
        bytes += expected.len();
        let printed = told(&words(&options, &users), &file, 0);
        assert!(printed == expected, "file {index}:\n{printed}\n{expected}");
    }
    assert!(bytes > 100_000, "{bytes}");
}

/// What programs are told, of these users.
fn expected_json(policy: &Policy, legend: &Legend, asked: &[usize]) -> String {
    let counts = policy.counts;
    let things = |kind, count: usize| list(1..=count, |number| thing(legend, kind, number));
    let (taken, read) = by_anyone(policy);
    let roles: Vec<usize> = (1..=counts.roles)
        .filter(|role| !taken.contains(role))
        .collect();
    let cards: Vec<usize> = (1..=counts.cards)
        .filter(|card| !read.contains(card))
        .collect();
    object(&[
        ("accepted", "true".to_string()),
        ("labels", things("label", counts.labels)),
        ("roles", things("role", counts.roles)),
        ("cards", things("card", counts.cards)),
        (
            "users",
            list(asked, |&user| json_of_user(policy, legend, user)),
        ),
        (
            "nobody",
            object(&[("takes", numbers(&roles)), ("reads", numbers(&cards))]),
        ),
    ])
}

fn json_of_user(policy: &Policy, legend: &Legend, user: usize) -> String {
    let assigned = assigned(policy, user);
    let inherited = &members(policy, user) - &assigned;
    let session = |label: usize| {
        let takes = takes(policy, user, label);
        object(&[
            ("label", label.to_string()),
            ("takes", numbers(&takes)),
            ("reads", numbers(&given(policy, &takes, Mode::Read))),
            ("writes", numbers(&given(policy, &takes, Mode::Write))),
        ])
    };
    let mut members = vec![("number", user.to_string())];
    members.extend(legend.name("user", user).map(|name| ("name", text(name))));
    members.extend([
        ("clearance", policy.meaning.clearance[user].to_string()),
        ("assigned", numbers(&assigned)),
        ("inherited", numbers(&inherited)),
        ("sessions", list(policy.labels_to_open(user), session)),
    ]);
    object(&members)
}

#[test]
fn json_of_random_files() {
    let (mut printed, mut expected) = (String::new(), String::new());
    for index in 0..40 {
        let Drawn {
            mut random,
            file,
            policy,
            legend,
        } = draw(SEED + 1, index, index % 2 != 0);
        let (asked, users) = some_users(&mut random, policy.counts.users);
        let (_kept, mut options) = named(&legend);
        options.push("--json".to_string());
        printed += &told(&words(&options, &users), &file, 0);
        expected += &(expected_json(&policy, &legend, &asked) + "\n");
    }
    let parsed = parsed(&printed);
    assert_eq!(parsed.lines().count(), 40);
    for (parsed, expected) in parsed.lines().zip(expected.lines()) {
        assert_eq!(parsed, expected);
    }
}

// ---------------------------------------------------------------------------
// By hand

#[test]
fn the_example() {
    assert_eq!(
        told(&["rights", "-", "1"], EXAMPLE.as_bytes(), 0),
        "\
user     1  clearance  2
            assigned   2
            inherited  1
label    1  takes      1-2
            reads      1
            writes     2
label    2  takes      1-2
            reads      1
            writes     2

no user     takes      none
            reads      2
"
    );
}

#[test]
fn crossed() {
    let user_2 = "\
user     2  clearance  3
            assigned   none
            inherited  none
label    1  takes      none
            reads      none
            writes     none
label    3  takes      none
            reads      none
            writes     none
";
    assert_eq!(
        told(&["rights", "-", "2", "1", "2"], CROSSED.as_bytes(), 0),
        format!(
            "\
{user_2}
user     1  clearance  1
            assigned   3
            inherited  1-2
label    1  takes      1-3
            reads      2
            writes     1

{user_2}
no user     takes      4
            reads      1 3
"
        )
    );
}

/// The lowest counts: one label, and nobody.
#[test]
fn only_counts() {
    assert_eq!(
        told(&["rights", "-"], b"H    1    0    0    0\n", 0),
        "no user     takes      none\n            reads      none\n"
    );
}

/// The example's user 12, as looked up in its lines and its legend.
#[test]
fn two_makers_with_names() {
    let file = format!("{EXAMPLES}/two-makers.role");
    let legend = format!("{EXAMPLES}/two-makers.legend");
    assert_eq!(
        told(&["rights", "--names", &legend, &file, "12"], b"", 0),
        "\
user    12  name       office clerk
            clearance  11 (office papers)
            assigned   66-67
            inherited  65 (office reader)
label   11  name       office papers
            takes      65-67
            reads      40 69 110 139 180 209 250 279
            writes     40 69 110 139 180 209 250 279 391

no user     takes      10 13 70
            reads      none
"
    );
}

/// All users cleared to the highest of 32 labels, each taking every second role
/// at each label, reading every second card there and writing the others.
#[test]
fn the_longest_report() {
    let mut file = print_line(b'H', &[32, 128, 256, 512]);
    let mut line = |letter, numbers: &[usize]| file.extend(print_line(letter, numbers));
    (2..=32).for_each(|label| line(b'D', &[label, label - 1]));
    (1..=127)
        .step_by(2)
        .for_each(|role| line(b'S', &[128, role]));
    (1..=256).for_each(|user| line(b'U', &[user, 32]));
    (1..=512).for_each(|card| line(b'O', &[card, if card % 2 == 1 { 1 } else { 32 }]));
    (1..=512).for_each(|card| line(b'P', &[127, card, READ + (card + 1) % 2]));
    (1..=256).for_each(|user| line(b'A', &[user, 128]));
    let policy = policy(&file);
    let page = Page {
        policy: &policy,
        legend: &Legend::default(),
        each: false,
    };
    let expected = page.text(&(1..=256).collect::<Vec<usize>>());
    assert!(expected.len() > 15_000_000, "{}", expected.len());
    assert!(told(&["rights", "-"], &file, 0) == expected);
}

// ---------------------------------------------------------------------------
// Words

/// One line, and nothing on standard output.
#[test]
fn words_that_are_no_user() {
    for word in [
        "0",
        "00",
        "x",
        "1x",
        "",
        "+1",
        "000001",
        "2",
        "257",
        "65537",
        "4294967297",
        "18446744073709551617",
        " 1",
        "1 ",
        "1.",
        "0x1",
        "1-1",
    ] {
        for words in [vec!["rights", "-", word], vec!["rights", "-", "1", word]] {
            let ran = run(&words, EXAMPLE.as_bytes());
            assert_eq!((ran.output.as_str(), ran.status), ("", 2), "{word}");
            let expected = format!("yeruvoi: no user {word}: the file has 1 user\n");
            assert_eq!(ran.errors, expected);
        }
    }
}

#[test]
fn many_users_asked() {
    let mut words = vec!["rights", "-"];
    words.resize(10_000, "1");
    let printed = told(&words, EXAMPLE.as_bytes(), 0);
    assert_eq!(printed.matches("user     1  clearance  2\n").count(), 9_998);
}

/// A refused file is told as `check` tells it, before other words are looked at.
#[test]
fn a_refused_file_comes_first() {
    let refused = EXAMPLE.replace("U    1    2", "U    1    3").into_bytes();
    let expected = told(&["check", "-"], &refused, 1);
    assert!(expected.starts_with("refused with 4"), "{expected}");
    for words in [
        vec!["rights", "-"],
        vec!["rights", "-", "7"],
        vec!["who", "-", "read", "9"],
        vec!["why", "-", "9", "read", "9"],
        vec!["picture", "-"],
    ] {
        assert_eq!(told(&words, &refused, 1), expected, "{words:?}");
    }
    let expected = told(&["check", "--json", "-"], &refused, 1);
    assert_eq!(told(&["rights", "--json", "-"], &refused, 1), expected);
}
