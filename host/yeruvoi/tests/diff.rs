//! `yeruvoi diff` against two readings of the model, and against texts written
//! by hand.

mod common;
mod support;

use common::run;
use second_checker::check::RoleFile;
use second_checker::example::EXAMPLE;
use second_checker::generate::write;
use second_checker::random::Random;
use second_checker::{check, Outcome};
use support::difference::{Side, Sides};
use support::json::parsed;
use support::legend::Legend;
use support::run::told;
use support::{files, named, temporary, CROSSED};

const SEED: u64 = 25;
const FILES: u64 = 240;

// ---------------------------------------------------------------------------
// Files with a line changed

/// Puts a line in or takes it out.
fn toggle<Line: Ord>(lines: &mut Vec<Line>, line: Line) {
    match lines.binary_search(&line) {
        Ok(place) => drop(lines.remove(place)),
        Err(place) => lines.insert(place, line),
    }
}

/// The file with one line changed, or a thing more or less.
fn changed(random: &mut Random, file: &RoleFile) -> RoleFile {
    let mut file = file.clone();
    let counts = file.counts;
    let one = |random: &mut Random, count: usize| 1 + random.below(count.max(1));
    let known = |lines: &[(usize, usize)], random: &mut Random| {
        lines.get(random.below(lines.len())).copied()
    };
    let (label, role) = (one(random, counts.labels), one(random, counts.roles));
    match random.below(9) {
        0 => toggle(&mut file.dominance, (one(random, counts.labels), label)),
        1 => toggle(&mut file.seniority, (one(random, counts.roles), role)),
        2 => relabel(&mut file.clearances, random, label),
        3 => relabel(&mut file.card_labels, random, label),
        4 => {
            let line = (role, one(random, counts.cards), one(random, 2));
            toggle(&mut file.permissions, line);
        }
        5 if !file.permissions.is_empty() => {
            let place = random.below(file.permissions.len());
            file.permissions.remove(place);
        }
        6 => toggle(&mut file.assignments, (one(random, counts.users), role)),
        7 => {
            file.counts.users += 1;
            file.clearances.push((counts.users + 1, label));
        }
        _ => {
            let line = known(&file.assignments, random);
            file.assignments.retain(|&other| Some(other) != line);
        }
    }
    file
}

fn relabel(lines: &mut [(usize, usize)], random: &mut Random, label: usize) {
    let place = random.below(lines.len());
    if let Some(line) = lines.get_mut(place) {
        line.1 = label;
    }
}

fn is_accepted(file: &RoleFile) -> bool {
    matches!(check(&write(file)), Outcome::Accepted(_))
}

/// The command's words for the old file on standard input and the new by name.
fn answered(old: &RoleFile, new: &RoleFile, options: &[String], status: i32) -> String {
    let file = temporary(&write(new));
    let mut words = vec!["diff", "-", file.path.to_str().expect("a path of text")];
    words.extend(options.iter().map(String::as_str));
    told(&words, &write(old), status)
}

/// The lines, with one blank in place of the several between columns.
fn squeezed(page: &str) -> Vec<String> {
    let words = |line: &str| line.split_whitespace().collect::<Vec<_>>().join(" ");
    page.lines().map(words).collect()
}

/// Compares page and JSON of two files with what the model says; the page.
fn agrees(old: &RoleFile, new: &RoleFile, legend: &Legend, json: &mut [String; 2]) -> Vec<String> {
    let sides = Sides {
        old: Side::of(old),
        new: Side::of(new),
        legend,
    };
    let (lines, value) = sides.expected();
    let status = i32::from(lines != ["the same"]);
    let (_kept, mut options) = named(legend);
    assert_eq!(squeezed(&answered(old, new, &options, status)), lines);
    options.push("--json".to_string());
    json[0] += &answered(old, new, &options, status);
    json[1] += &(value + "\n");
    lines
}

fn same_json(json: &[String; 2]) {
    let parsed = parsed(&json[0]);
    for (parsed, expected) in parsed.lines().zip(json[1].lines()) {
        assert_eq!(parsed, expected);
    }
    assert_eq!(parsed.lines().count(), json[1].lines().count());
}

/// What the pages of a run must have between them.
const WANTED: [&str; 25] = [
    " gains read card ",
    " loses read card ",
    " gains write card ",
    " loses write card ",
    " keeps ",
    "now dominates",
    "no longer dominates",
    " clearance ",
    " a new user",
    "gone, clearance was ",
    " label ",
    " r-level ",
    " w-level ",
    "is now senior to",
    "is no longer senior to",
    "is now assigned to",
    "is no longer assigned to",
    " line P new: ",
    " line P gone: ",
    "now flows to",
    "no longer flows to",
    "circles lowest",
    "the same",
    "0 of ",
    "1 of ",
];

#[test]
fn one_line_changed() {
    let mut json = [String::new(), String::new()];
    let mut seen = String::new();
    for index in 0..FILES {
        let (mut random, old) = files::random(SEED, index);
        let new = changed(&mut random, &old);
        if !is_accepted(&new) {
            continue;
        }
        let legend = match index % 3 {
            0 => Legend::random(&mut random, new.counts),
            _ => Legend::default(),
        };
        let (old, new) = if random.percent(50) {
            (new, old)
        } else {
            (old, new)
        };
        let lines = agrees(&old, &new, &legend, &mut json);
        seen += &(lines.join("\n") + "\n");
    }
    same_json(&json);
    for wanted in WANTED {
        assert!(seen.contains(wanted), "never seen: {wanted}");
    }
}

#[test]
fn unlike_files() {
    let mut json = [String::new(), String::new()];
    for index in 0..24 {
        let (mut random, old) = files::random(SEED + 1, index);
        let (_, new) = files::random(SEED + 2, index);
        let legend = Legend::random(&mut random, old.counts);
        agrees(&old, &new, &legend, &mut json);
        agrees(&old, &old, &legend, &mut json);
    }
    same_json(&json);
}

// ---------------------------------------------------------------------------
// By hand

fn compared(old: &str, new: &str, options: &[&str], status: i32) -> String {
    let file = temporary(new.as_bytes());
    let mut words = vec!["diff", "-", file.path.to_str().expect("a path of text")];
    words.extend(options);
    told(&words, old.as_bytes(), status)
}

/// A line of the example, what stands in its place, and what is told.
const EDITS: [(&str, &str, &str); 4] = [
    (
        "P    1    1    1     \n",
        "",
        "\
user 1   loses   read   card 1
role 1   r-level free, was 1
role 2   r-level free, was 1
role 1   line P gone: read card 1
1 of 1 users changes
",
    ),
    (
        "U    1    2          \n",
        "U    1    1          \n",
        "\
user 1   keeps   read   card 1 at label 1, was at labels 1-2
user 1   keeps   write  card 2 at label 1, was at labels 1-2
user 1   clearance 1, was 2
1 of 1 users changes
",
    ),
    (
        "P    2    2    2     \n",
        "P    2    1    1     \nP    2    2    2     \n",
        "\
role 2   line P new: read card 1
0 of 1 users change
",
    ),
    (
        "A    1    2          \n",
        "A    1    1          \n",
        "\
user 1   loses   write  card 2
user 1   is no longer assigned to role 2
user 1   is now assigned to role 1
1 of 1 users changes
",
    ),
];

#[test]
fn edits_of_the_example() {
    for (from, to, expected) in EDITS {
        let new = EXAMPLE.replace(from, to);
        assert_eq!(compared(EXAMPLE, &new, &[], 1), expected);
    }
}

/// Nine cards are one line, unless each is asked for.
#[test]
fn many_cards() {
    let cards = |range: std::ops::RangeInclusive<usize>,
                 line: &dyn Fn(usize) -> String|
     -> String { range.map(line).collect() };
    let labels = cards(1..=9, &|card| format!("O{card:>5}    1          \n"));
    let head = format!("H    1    1    1    9\nU    1    1          \n{labels}");
    let reads = cards(1..=9, &|card| format!("P    1{card:>5}    1     \n"));
    let (old, new) = (
        format!("{head}A    1    1          \n"),
        format!("{head}{reads}A    1    1          \n"),
    );
    let level = "role 1   r-level 1, was free\n";
    assert_eq!(
        compared(&old, &new, &[], 1),
        format!(
            "\
user 1   gains   read   cards 1-9
{level}role 1   line P new: read cards 1-9
1 of 1 users changes
"
        )
    );
    let gains = cards(1..=9, &|card| {
        format!("user 1   gains   read   card {card}\n")
    });
    let lines = cards(1..=9, &|card| {
        format!("role 1   line P new: read card {card}\n")
    });
    assert_eq!(
        compared(&old, &new, &["--each"], 1),
        format!("{gains}{level}{lines}1 of 1 users changes\n")
    );
}

/// Lines that only say again what others make change nothing.
#[test]
fn equal_meaning() {
    let less = CROSSED.replace("D    4    1          \n", "");
    let less = less.replace("S    3    1          \n", "");
    assert_eq!(less.len(), CROSSED.len() - 44);
    for (old, new) in [
        (CROSSED, less.as_str()),
        (&less, CROSSED),
        (CROSSED, CROSSED),
    ] {
        assert_eq!(compared(old, new, &[], 0), "the same\n");
        let json = compared(old, new, &["--json"], 0);
        assert_eq!(
            parsed(&json),
            "{\"same\":true,\"users\":2,\"users_changed\":0,\"changes\":[]}\n"
        );
    }
}

/// There is nothing to compare: status 2, and which file it was.
#[test]
fn a_refused_file() {
    let good = temporary(EXAMPLE.as_bytes());
    let bad = temporary(EXAMPLE.replace("A    1    2", "A    1    3").as_bytes());
    let [good, bad] = [&good, &bad].map(|file| file.path.to_str().expect("a path of text"));
    for words in [["diff", bad, good], ["diff", good, bad], ["diff", bad, bad]] {
        let ran = run(&words, b"");
        assert_eq!((ran.output.as_str(), ran.status), ("", 2));
        let expected = format!(
            "yeruvoi: {bad}: refused with 4 at line 9: a user, role, card, label or mode number is out of its range\n"
        );
        assert_eq!(ran.errors, expected);
    }
}
