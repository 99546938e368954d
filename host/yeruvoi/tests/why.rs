//! `yeruvoi why`: what it tells is held to the model, and mended to see that it
//! is the cause.

mod common;
mod support;

use common::{padded, run};
use monitor_model::{Mode, Policy};
use second_checker::check::{read, Level, RoleFile};
use second_checker::example::{EXAMPLE, REVIEWER};
use second_checker::generate::write;
use second_checker::line::{LINE_LENGTH, MOST_LINES};
use second_checker::random::Random;
use second_checker::{check, Outcome};
use std::collections::BTreeSet;
use support::files;
use support::json::{list, object, parsed, text, thing};
use support::legend::Legend;
use support::run::told;
use support::why_page::{Barred, Told, Way};
use support::{named, policy, CROSSED, EXAMPLES};

const SEED: u64 = 23;
const FILES: u64 = 100;

#[derive(Clone, Copy)]
struct Question {
    user: usize,
    mode: Mode,
    card: usize,
}

impl Question {
    fn word(self) -> &'static str {
        match self.mode {
            Mode::Read => "read",
            Mode::Write => "write",
        }
    }

    fn gives(self, policy: &Policy, role: usize) -> bool {
        policy.cards(role, self.mode).contains(&self.card)
    }

    /// The labels at which the model grants it.
    fn labels(self, policy: &Policy) -> Vec<usize> {
        let grants = |&label: &usize| {
            let mut roles = policy.roles_to_take(self.user, label);
            roles.any(|role| self.gives(policy, role))
        };
        policy.labels_to_open(self.user).filter(grants).collect()
    }

    fn words(self) -> [String; 3] {
        [
            self.user.to_string(),
            self.word().to_string(),
            self.card.to_string(),
        ]
    }
}

// ---------------------------------------------------------------------------
// What a page says, against the model

/// Asks, and holds all that is told to the model.
fn examined(file: &[u8], question: Question) -> Told {
    let policy = policy(file);
    let [user, mode, card] = question.words();
    let page = told(&["why", "-", &user, &mode, &card], file, 0);
    let told = Told::read(&page, question.user, &mode, question.card);
    let labels = question.labels(&policy);
    assert_eq!(told.may, !labels.is_empty(), "{page}");
    assert_eq!(told.labels, labels, "{page}");
    let mut served: Vec<usize> = told
        .ways
        .iter()
        .flat_map(|way| way.labels.clone())
        .collect();
    served.sort_unstable();
    assert_eq!(served, labels, "{page}");
    for way in &told.ways {
        way_holds(file, &policy, question, way);
    }
    bars_hold(&policy, question, &told);
    givers_hold(&policy, question, &told);
    told
}

/// The lines are the file's, lead from the user to the card past the role that
/// is taken, and the role can be taken at each of the labels.
fn way_holds(file: &[u8], policy: &Policy, question: Question, way: &Way) {
    let mut fields = Vec::new();
    for (number, text) in &way.lines {
        let line = &file[LINE_LENGTH * (number - 1)..LINE_LENGTH * number - 1];
        assert_eq!(text.as_bytes(), line);
        let words = text.split_whitespace();
        let numbers: Vec<String> = words.map(String::from).collect();
        fields.push(numbers);
    }
    let last = fields.len() - 1;
    let [user, _, card] = question.words();
    assert_eq!(fields[0][..2], ["A".to_string(), user]);
    let mut role = fields[0][2].clone();
    let mut roles = vec![role.clone()];
    for line in &fields[1..last] {
        assert_eq!(line[..2], ["S".to_string(), role]);
        role = line[2].clone();
        roles.push(role.clone());
    }
    let mode = (question.mode as usize).to_string();
    assert_eq!(fields[last], ["P".to_string(), role, card, mode]);
    assert!(roles.contains(&way.role.to_string()));
    for &label in &way.labels {
        let mut taken = policy.roles_to_take(question.user, label);
        assert!(taken.any(|role| role == way.role) && question.gives(policy, way.role));
    }
}

/// Every label that the user may open and that does not serve is told, where
/// the user has a role that gives the card; and each level bars what is said.
fn bars_hold(policy: &Policy, question: Question, told: &Told) {
    let has = |&role: &usize| policy.is_member(question.user, role) && question.gives(policy, role);
    let roles: BTreeSet<usize> = (1..=policy.counts.roles).filter(has).collect();
    let opened = policy.labels_to_open(question.user);
    let mut others: Vec<usize> = opened
        .filter(|label| !told.labels.contains(label))
        .collect();
    if roles.is_empty() {
        others.clear();
    }
    assert_eq!(told.not_at, others);
    for barred in &told.barred {
        bar_holds(policy, barred, &others, &roles);
    }
    // Some level is told for each label that is barred.
    for label in others {
        let bars = |barred: &Barred| barred.labels.contains(&label);
        assert!(told.barred.iter().any(bars));
    }
}

fn bar_holds(policy: &Policy, barred: &Barred, others: &[usize], roles: &BTreeSet<usize>) {
    let meaning = &policy.meaning;
    for role in &barred.roles {
        assert!(roles.contains(role));
        let (level, allows): (Level, &dyn Fn(usize) -> bool) = match barred.word.as_str() {
            "r-level" => (meaning.read_level[*role], &|label| {
                meaning.read_level_allows(*role, label)
            }),
            _ => (meaning.write_level[*role], &|label| {
                meaning.write_level_allows(*role, label)
            }),
        };
        assert_eq!(level, Level::Label(barred.level));
        let labels = others.iter().copied().filter(|&label| !allows(label));
        let labels: Vec<usize> = labels.collect();
        assert_eq!(barred.labels, labels);
    }
}

/// Where no role of the user gives it: which roles do.
fn givers_hold(policy: &Policy, question: Question, told: &Told) {
    assert_eq!(told.givers.is_some(), !told.may);
    let Some(givers) = &told.givers else {
        assert!(told.trials.is_empty());
        return;
    };
    let gives = |&role: &usize| question.gives(policy, role);
    let roles: Vec<usize> = (1..=policy.counts.roles).filter(gives).collect();
    assert_eq!(givers, &roles);
    assert!(!roles
        .iter()
        .any(|&role| policy.is_member(question.user, role)));
    let mut tried: Vec<usize> = told
        .trials
        .iter()
        .flat_map(|trial| trial.1.clone())
        .collect();
    tried.sort_unstable();
    assert_eq!(tried, roles);
}

// ---------------------------------------------------------------------------
// Mending

#[derive(Debug, Default)]
struct Seen {
    granted: usize,
    refused: usize,
    inherited: usize,
    barred: usize,
    barred_by_w_level: usize,
    /// A quoted line taken out: no longer, or by another way.
    ended: usize,
    other_way: usize,
    /// What is missing put in.
    assigned: usize,
    assignment_refused: usize,
    permitted: usize,
}

fn without(file: &[u8], number: usize) -> Vec<u8> {
    let start = LINE_LENGTH * (number - 1);
    [&file[..start], &file[start + LINE_LENGTH..]].concat()
}

/// Takes out the A line and the P line of each way: the answer changes, or
/// another way is told.
fn take_out(file: &[u8], question: Question, told: &Told, seen: &mut Seen) {
    for way in &told.ways {
        for (number, text) in [&way.lines[0], &way.lines[way.lines.len() - 1]] {
            let mended = without(file, *number);
            if check(&mended).number() != 0 {
                continue;
            }
            let again = examined(&mended, question);
            let quoted = again.ways.iter().flat_map(|way| &way.lines);
            assert!(quoted.into_iter().all(|(_, other)| other != text));
            match again.labels == told.labels {
                true => seen.other_way += 1,
                false => seen.ended += 1,
            }
        }
    }
}

/// The file with one line more.
fn edited(file: &[u8], edit: impl FnOnce(&mut RoleFile)) -> Vec<u8> {
    let mut role_file = read(file).expect("a well-formed file");
    edit(&mut role_file);
    role_file.permissions.sort_unstable();
    role_file.assignments.sort_unstable();
    write(&role_file)
}

/// Assigns the user to each role that gives the card.
fn assign(file: &[u8], question: Question, told: &Told, seen: &mut Seen) {
    for (number, roles) in &told.trials {
        for &role in roles {
            let mended = edited(file, |file| file.assignments.push((question.user, role)));
            assert_eq!(check(&mended).number(), *number);
            if *number == 0 {
                assert!(examined(&mended, question).may);
                seen.assigned += 1;
            } else {
                seen.assignment_refused += 1;
            }
        }
    }
}

/// Where no role gives it: lets a role that the user is assigned to do so.
fn permit(file: &[u8], question: Question, told: &Told, seen: &mut Seen) {
    let assigned = policy(file).assigned;
    let roles = assigned.iter().filter(|line| line.0 == question.user);
    if told.givers.as_ref().is_some_and(Vec::is_empty) {
        for &(_, role) in roles {
            let line = (role, question.card, question.mode as usize);
            let mended = edited(file, |file| file.permissions.push(line));
            if let Outcome::Accepted(_) = check(&mended) {
                assert!(examined(&mended, question).may);
                seen.permitted += 1;
            }
        }
    }
}

/// Any user and card, or more likely a user with a role and a card that one gives.
fn asked(random: &mut Random, file: &RoleFile, mode: Mode) -> Question {
    let mut question = Question {
        user: 1 + random.place(0, file.counts.users),
        card: 1 + random.place(0, file.counts.cards),
        mode,
    };
    if random.percent(60) && !file.assignments.is_empty() && !file.permissions.is_empty() {
        question.user = random.pick(&file.assignments).0;
        question.card = random.pick(&file.permissions).1;
    }
    question
}

#[test]
fn random_files_mended() {
    let mut seen = Seen::default();
    for index in 0..FILES {
        let (mut random, role_file) = files::random(SEED, index);
        let file = write(&role_file);
        let counts = role_file.counts;
        let full = file.len() >= LINE_LENGTH * MOST_LINES;
        if counts.users == 0 || counts.cards == 0 || full {
            continue;
        }
        for mode in [Mode::Read, Mode::Write] {
            let question = asked(&mut random, &role_file, mode);
            let told = examined(&file, question);
            seen.granted += usize::from(told.may);
            seen.refused += usize::from(!told.may);
            seen.barred += usize::from(!told.barred.is_empty());
            let by_w_level = |barred: &Barred| barred.word == "w-level";
            seen.barred_by_w_level += usize::from(told.barred.iter().any(by_w_level));
            take_out(&file, question, &told, &mut seen);
            assign(&file, question, &told, &mut seen);
            permit(&file, question, &told, &mut seen);
        }
    }
    assert!(seen.granted > 40 && seen.refused > 40, "{seen:?}");
    assert!(seen.barred > 10 && seen.barred_by_w_level > 10, "{seen:?}");
    assert!(seen.ended > 40 && seen.other_way > 20, "{seen:?}");
    assert!(
        seen.assigned > 20 && seen.assignment_refused > 40,
        "{seen:?}"
    );
    assert!(seen.permitted > 20, "{seen:?}");
}

/// Questions about the two makers, whose roles have up to five layers.
#[test]
fn two_makers_mended() {
    let file = std::fs::read(format!("{EXAMPLES}/two-makers.role")).expect("the example");
    let role_file = read(&file).expect("a well-formed file");
    let random = &mut Random::new(SEED);
    let mut seen = Seen::default();
    for _ in 0..24 {
        let question = asked(random, &role_file, Mode::Read);
        let told = examined(&file, question);
        seen.inherited += usize::from(told.ways.iter().any(|way| way.lines.len() > 2));
        take_out(&file, question, &told, &mut seen);
    }
    assert!(
        seen.inherited > 5 && seen.ended > 5 && seen.other_way > 0,
        "{seen:?}"
    );
}

// ---------------------------------------------------------------------------
// By hand

/// A role that reads at label 2 and writes at label 1, assigned to nobody.
const DOWNWARDS: &str = "\
H    2    1    1    2
D    2    1
U    1    2
O    1    1
O    2    2
P    1    1    2
P    1    2    1
";

/// A file, the words of a question, and what is told.
const QUESTIONS: [(&str, [&str; 3], &str); 6] = [
    (
        EXAMPLE,
        ["1", "read", "1"],
        "\
user 1 may read card 1, in a session at labels 1-2
  at labels 1-2, by role 1
    line 9       A    1    2              user 1 is assigned to role 2
    line 3       S    2    1              role 2 is senior to role 1
    line 7       P    1    1    1         role 1 may read card 1
",
    ),
    (
        EXAMPLE,
        ["1", "read", "2"],
        "\
user 1 may not read card 2
  no role gives it: no line P has card 2 and mode 1
",
    ),
    (
        CROSSED,
        ["2", "write", "1"],
        "\
user 2 may not write card 1
  roles 1-3 give it: none is assigned to the user, nor a senior of one
  an assignment to roles 1-3 would be accepted
",
    ),
    (
        DOWNWARDS,
        ["1", "write", "1"],
        "\
user 1 may not write card 1
  role 1 gives it: neither it nor a senior of it is assigned to the user
  an assignment to role 1 would be refused with 16: no label dominated by the clearance lies at or above the r-level and at or below the w-level
",
    ),
    (
        REVIEWER,
        ["1", "write", "1"],
        "\
user 1 may write card 1, in a session at label 1
  at label 1, by role 2
    line 10      A    1    2              user 1 is assigned to role 2
    line 8       P    2    1    2         role 2 may write card 1
  not at label 2
    role 2: the w-level 1 does not dominate label 2
",
    ),
    (
        CROSSED,
        ["1", "read", "1"],
        "\
user 1 may not read card 1
  role 4 gives it: neither it nor a senior of it is assigned to the user
  an assignment to role 4 would be accepted
",
    ),
];

#[test]
fn small_files() {
    for (file, [user, mode, card], expected) in QUESTIONS {
        let printed = told(&["why", "-", user, mode, card], &padded(file), 0);
        assert_eq!(printed, expected);
    }
}

#[test]
fn two_makers_with_names() {
    let file = format!("{EXAMPLES}/two-makers.role");
    let legend = format!("{EXAMPLES}/two-makers.legend");
    let printed = told(
        &["why", "--names", &legend, &file, "33", "read", "1"],
        b"",
        0,
    );
    assert_eq!(
        printed,
        "\
user 33 (maker A unannounced, lead) may read card 1 (maker A, gear pumps, published term 1), in a session at labels 3-5
  at labels 3-5, by role 4 (maker A published reader)
    line 1953    A   33    6              user 33 is assigned to role 6 (maker A unannounced reader)
    line 28      S    6    5              role 6 is senior to role 5 (maker A draft reader)
    line 27      S    5    4              role 5 is senior to role 4 (maker A published reader)
    line 620     P    4    1    1         role 4 may read card 1
  not at labels 1-2
    role 4 (maker A published reader): labels 1-2 do not dominate the r-level 3 (maker A published)
"
    );
}

#[test]
fn wrong_words() {
    for (words, problem) in [
        (["2", "read", "1"], "no user 2: the file has 1 user\n"),
        (["1", "read", "3"], "no card 3: the file has 2 cards\n"),
        (
            ["1", "see", "1"],
            "neither read nor write: see; usage: yeruvoi why ",
        ),
    ] {
        let [user, mode, card] = words;
        let ran = run(&["why", "-", user, mode, card], EXAMPLE.as_bytes());
        assert_eq!((ran.output.as_str(), ran.status), ("", 2));
        let expected = format!("yeruvoi: {problem}");
        assert!(ran.errors.starts_with(&expected), "{}", ran.errors);
    }
}

// ---------------------------------------------------------------------------
// For programs

/// A line that the page quotes.
fn line_json((number, quoted): &(usize, String)) -> String {
    let mut words = quoted.split_whitespace();
    let letter = words.next().expect("a letter");
    object(&[
        ("number", number.to_string()),
        ("text", text(quoted)),
        ("letter", text(letter)),
        ("fields", list(words, str::to_string)),
    ])
}

fn way_json(way: &Way, legend: &Legend) -> String {
    object(&[
        (
            "labels",
            support::json::things(legend, "label", &way.labels),
        ),
        ("role", thing(legend, "role", way.role)),
        ("lines", list(&way.lines, line_json)),
    ])
}

fn barred_json(barred: &Barred, legend: &Legend) -> String {
    object(&[
        ("kind", text(&barred.word)),
        ("level", thing(legend, "label", barred.level)),
        (
            "roles",
            support::json::things(legend, "role", &barred.roles),
        ),
        (
            "labels",
            support::json::things(legend, "label", &barred.labels),
        ),
    ])
}

/// The same facts as the page, which the tests above hold to the model.
fn expected_json(told: &Told, question: Question, givers: &[usize], legend: &Legend) -> String {
    let things = |kind, numbers: &[usize]| support::json::things(legend, kind, numbers);
    object(&[
        ("accepted", "true".to_string()),
        ("user", thing(legend, "user", question.user)),
        ("mode", text(question.word())),
        ("card", thing(legend, "card", question.card)),
        ("may", told.may.to_string()),
        ("served", list(&told.ways, |way| way_json(way, legend))),
        (
            "barred",
            list(&told.barred, |barred| barred_json(barred, legend)),
        ),
        ("givers", things("role", givers)),
        (
            "assignments",
            list(&told.trials, |(number, roles)| {
                object(&[
                    ("number", number.to_string()),
                    ("roles", things("role", roles)),
                ])
            }),
        ),
    ])
}

#[test]
fn json_of_a_role_that_its_w_level_bars() {
    let printed = told(
        &["why", "--json", "-", "1", "write", "1"],
        &padded(REVIEWER),
        0,
    );
    assert_eq!(
        printed,
        concat!(
            r#"{"accepted": true, "user": {"number": 1}, "mode": "write", "card": {"number": 1}, "may": true, "#,
            r#""served": [{"labels": [{"number": 1}], "role": {"number": 2}, "lines": ["#,
            r#"{"number": 10, "text": "A    1    2          ", "letter": "A", "fields": [1, 2]}, "#,
            r#"{"number": 8, "text": "P    2    1    2     ", "letter": "P", "fields": [2, 1, 2]}]}], "#,
            r#""barred": [{"kind": "w-level", "level": {"number": 1}, "roles": [{"number": 2}], "#,
            r#""labels": [{"number": 2}]}], "givers": [{"number": 2}], "assignments": []}"#,
            "\n"
        )
    );
}

#[test]
fn json_of_random_files() {
    let (mut printed, mut expected) = (String::new(), String::new());
    for index in 0..60 {
        let (mut random, role_file) = files::random(SEED + 1, index);
        let file = write(&role_file);
        let counts = role_file.counts;
        if counts.users == 0 || counts.cards == 0 {
            continue;
        }
        let question = Question {
            user: 1 + random.place(0, counts.users),
            card: 1 + random.place(0, counts.cards),
            mode: random.pick(&[Mode::Read, Mode::Write]),
        };
        let legend = Legend::random(&mut random, counts);
        let (_kept, options) = named(&legend);
        let [user, mode, card] = question.words();
        let mut words = vec!["why", "--json", "-", &user, &mode, &card];
        words.extend(options.iter().map(String::as_str));
        printed += &told(&words, &file, 0);
        let policy = policy(&file);
        let gives = |&role: &usize| question.gives(&policy, role);
        let givers: Vec<usize> = (1..=counts.roles).filter(gives).collect();
        expected += &expected_json(&examined(&file, question), question, &givers, &legend);
        expected += "\n";
    }
    let parsed = parsed(&printed);
    assert!(parsed.contains("\"may\":true") && parsed.contains("\"may\":false"));
    for (parsed, expected) in parsed.lines().zip(expected.lines()) {
        assert_eq!(parsed, expected);
    }
    assert_eq!(parsed.lines().count(), expected.lines().count());
}
