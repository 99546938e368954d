//! `yeruvoi who` against the model and against texts written by hand.

mod common;
mod support;

use common::run;
use monitor_model::{Mode, Policy};
use second_checker::example::EXAMPLE;
use support::json::{object, parsed, text, thing};
use support::legend::Legend;
use support::run::told;
use support::{draw, named, number, things, Drawn, CROSSED, EXAMPLES};

const SEED: u64 = 22;
const FILES: u64 = 80;

/// A user, a label at which a session can do it, and the roles that give it.
type Holding = (usize, usize, Vec<usize>);

fn holdings(policy: &Policy, mode: Mode, card: usize) -> Vec<Holding> {
    let mut holdings = Vec::new();
    for user in 1..=policy.counts.users {
        for label in policy.labels_to_open(user) {
            let gives = |role: &usize| policy.cards(*role, mode).contains(&card);
            let roles: Vec<usize> = policy.roles_to_take(user, label).filter(gives).collect();
            if !roles.is_empty() {
                holdings.push((user, label, roles));
            }
        }
    }
    holdings
}

/// Labels of a user with the same roles together, by their lowest.
fn together(holdings: Vec<Holding>) -> Vec<(usize, Vec<usize>, Vec<usize>)> {
    let mut lines: Vec<(usize, Vec<usize>, Vec<usize>)> = Vec::new();
    for (user, label, roles) in holdings {
        let same = |line: &&mut (usize, Vec<usize>, Vec<usize>)| line.0 == user && line.2 == roles;
        match lines.iter_mut().find(same) {
            Some(line) => line.1.push(label),
            None => lines.push((user, vec![label], roles)),
        }
    }
    lines
}

/// The page without the blanks between its columns.
fn expected_text(policy: &Policy, legend: &Legend, mode: Mode, card: usize) -> Vec<String> {
    let lines = together(holdings(policy, mode, card));
    if lines.is_empty() {
        let card = number(legend, "card", card);
        return vec![format!("no user may {} card {card}", word(mode))];
    }
    let line = |(user, labels, roles): (usize, Vec<usize>, Vec<usize>)| {
        let user = number(legend, "user", user);
        let (labels, roles) = (
            things(legend, "label", &labels),
            things(legend, "role", &roles),
        );
        format!("user {user} at {labels} by {roles}")
    };
    lines.into_iter().map(line).collect()
}

fn word(mode: Mode) -> &'static str {
    match mode {
        Mode::Read => "read",
        Mode::Write => "write",
    }
}

/// The lines, with one blank in place of the several between columns.
fn squeezed(page: &str) -> Vec<String> {
    let words = |line: &str| line.split_whitespace().collect::<Vec<_>>().join(" ");
    page.lines().map(words).collect()
}

#[test]
fn random_files() {
    let (mut told_of, mut nobody) = (0, 0);
    for index in 0..FILES {
        let Drawn {
            mut random,
            file,
            policy,
            legend,
        } = draw(SEED, index, index % 2 != 0);
        if policy.counts.cards == 0 {
            continue;
        }
        let (_kept, options) = named(&legend);
        for mode in [Mode::Read, Mode::Write] {
            let card = 1 + random.place(0, policy.counts.cards);
            let shown = card.to_string();
            let mut words = vec!["who", "-", word(mode), &shown];
            words.extend(options.iter().map(String::as_str));
            let expected = expected_text(&policy, &legend, mode, card);
            assert_eq!(squeezed(&told(&words, &file, 0)), expected, "file {index}");
            let none = expected[0].starts_with("no user");
            (told_of, nobody) = (told_of + usize::from(!none), nobody + usize::from(none));
        }
    }
    assert!(told_of > 40 && nobody > 10, "{told_of} {nobody}");
}

fn expected_json(policy: &Policy, legend: &Legend, mode: Mode, card: usize) -> String {
    let session = |(user, label, roles): Holding| {
        object(&[
            ("user", thing(legend, "user", user)),
            ("label", thing(legend, "label", label)),
            ("roles", support::json::things(legend, "role", &roles)),
        ])
    };
    let sessions = support::json::list(holdings(policy, mode, card), session);
    object(&[
        ("accepted", "true".to_string()),
        ("mode", text(word(mode))),
        ("card", thing(legend, "card", card)),
        ("sessions", sessions),
    ])
}

#[test]
fn json_of_random_files() {
    let (mut printed, mut expected) = (String::new(), String::new());
    for index in 0..40 {
        let Drawn {
            mut random,
            file,
            policy,
            legend,
        } = draw(SEED + 1, index, true);
        if policy.counts.cards == 0 {
            continue;
        }
        let card = 1 + random.below(policy.counts.cards);
        let mode = random.pick(&[Mode::Read, Mode::Write]);
        let (_kept, options) = named(&legend);
        let shown = card.to_string();
        let mut words = vec!["who", "--json", "-", word(mode), &shown];
        words.extend(options.iter().map(String::as_str));
        printed += &told(&words, &file, 0);
        expected += &(expected_json(&policy, &legend, mode, card) + "\n");
    }
    let parsed = parsed(&printed);
    assert!(parsed.lines().count() > 20 && parsed.contains("\"roles\":[{"));
    for (parsed, expected) in parsed.lines().zip(expected.lines()) {
        assert_eq!(parsed, expected);
    }
    assert_eq!(parsed.lines().count(), expected.lines().count());
}

// ---------------------------------------------------------------------------
// By hand

#[test]
fn small_files() {
    for (file, mode, card, expected) in [
        (
            EXAMPLE,
            "read",
            "1",
            "user 1   at labels 1-2   by roles 1-2\n",
        ),
        (
            EXAMPLE,
            "write",
            "2",
            "user 1   at labels 1-2   by role 2\n",
        ),
        (EXAMPLE, "read", "2", "no user may read card 2\n"),
        (CROSSED, "read", "2", "user 1   at label 1   by roles 2-3\n"),
        (
            CROSSED,
            "write",
            "1",
            "user 1   at label 1   by roles 1-3\n",
        ),
        (CROSSED, "write", "3", "no user may write card 3\n"),
    ] {
        let printed = told(&["who", "-", mode, card], file.as_bytes(), 0);
        assert_eq!(printed, expected, "{mode} {card}");
    }
}

/// Who may read the first office paper, as looked up in the lines. The owners'
/// role and that of their notes are senior to its reader.
#[test]
fn two_makers_with_names() {
    let file = format!("{EXAMPLES}/two-makers.role");
    let legend = format!("{EXAMPLES}/two-makers.legend");
    let printed = told(&["who", "--names", &legend, &file, "read", "40"], b"", 0);
    assert!(
        printed.starts_with(
            "\
user 1 (first owner)     at label 11 (office papers)   by role 65 (office reader)
user 1 (first owner)     at label 12 (owners)          by roles 65 68-69
user 2 (second owner)    at label 11 (office papers)   by role 65 (office reader)
"
        ),
        "{printed}"
    );
    assert!(
        printed.ends_with(
            "\
user 12 (office clerk)   at label 11 (office papers)   by roles 65-66
user 13 (tax adviser)    at label 11 (office papers)   by role 65 (office reader)
"
        ),
        "{printed}"
    );
}

/// Label 2 is over 3 and 3 over 1; role 2 reads at 2 as well, and so cannot be
/// taken below.
const TURNED: &str = "\
H    3    2    1    2
D    2    3          
D    3    1          
U    1    2          
O    1    1          
O    2    2          
P    1    1    1     
P    2    1    1     
P    2    2    1     
A    1    1          
A    1    2          
";

#[test]
fn labels_with_the_same_roles_are_put_together() {
    let words = ["who", "-", "read", "1"];
    assert_eq!(
        told(&words, TURNED.as_bytes(), 0),
        "\
user 1   at labels 1 3   by role 1
user 1   at label 2      by roles 1-2
"
    );
    let printed = told(&[&words[..], &["--json"]].concat(), TURNED.as_bytes(), 0);
    let session = |label: usize, roles: &str| {
        format!(
            "{{\"user\":{{\"number\":1}},\"label\":{{\"number\":{label}}},\"roles\":[{roles}]}}"
        )
    };
    let (one, two) = ("{\"number\":1}", "{\"number\":1},{\"number\":2}");
    let sessions = [session(1, one), session(2, two), session(3, one)].join(",");
    assert!(parsed(&printed).ends_with(&format!("\"sessions\":[{sessions}]}}\n")));
}

#[test]
fn each_by_itself() {
    let printed = told(&["who", "--each", "-", "read", "1"], EXAMPLE.as_bytes(), 0);
    assert_eq!(printed, "user 1   at labels 1, 2   by roles 1, 2\n");
}

#[test]
fn wrong_words() {
    for (words, problem) in [
        (["read", "3"], "no card 3: the file has 2 cards\n"),
        (["read", "0"], "no card 0: the file has 2 cards\n"),
        (["write", "x"], "no card x: the file has 2 cards\n"),
        (
            ["reads", "1"],
            "neither read nor write: reads; usage: yeruvoi who ",
        ),
    ] {
        let ran = run(&["who", "-", words[0], words[1]], EXAMPLE.as_bytes());
        assert_eq!((ran.output.as_str(), ran.status), ("", 2));
        let expected = format!("yeruvoi: {problem}");
        assert!(ran.errors.starts_with(&expected), "{}", ran.errors);
        assert_eq!(ran.errors.lines().count(), 1);
    }
}
