//! `yeruvoi diff`: what a new file changes.

mod change;
mod json;
mod rights;
mod text;
mod things;

use crate::answer::{Answer, Trouble};
use crate::arguments::{Arguments, Settings, Subcommand};
use crate::check;
use crate::lines::Lines;
use crate::monitor::{Counts, Mode, Policy};
use crate::names::Names;
use crate::relation::Relation;
use crate::sessions::Sessions;
use change::Change;
use std::collections::BTreeSet;

pub const SUBCOMMAND: Subcommand = Subcommand {
    name: "diff",
    usage: "diff [--names LEGEND] [--json] [--each] OLD NEW",
    help: "\
What the file NEW changes: for each user the cards that may be read or written
now and could not before, or no longer, and those that are kept at other labels;
then what else is different in counts, orders, labels, levels, assignments,
permissions and flow. The last line tells how many users can do more, less or
the same elsewhere. D and S lines count by the order that they make.

  --names LEGEND    names beside numbers
  --each            every card, role and label by itself, no ranges
  --json            for programs, every list written out

Exit status: 0 the same, 1 different, 2 where one of the files is refused too.
",
    operands: (2, 2),
    options: &["--each"],
    run,
};

/// One of the two files.
struct Side {
    policy: Policy,
    counts: Counts,
    sessions: Sessions,
    dominance: Relation,
    seniority: Relation,
    assigned: Relation,
    flow: Relation,
    permissions: Permissions,
}

/// The P lines: role, mode, card.
type Permissions = BTreeSet<(u64, Mode, u64)>;

/// Both of them.
struct Sides {
    old: Side,
    new: Side,
}

/// What is told of two files.
struct Difference {
    changes: Vec<Change>,
    /// How many users can do something now that they could not before, or the other way round.
    changed: usize,
    /// The users of the file that has more.
    users: u64,
}

fn run(arguments: &Arguments) -> Result<Answer, Trouble> {
    let settings = arguments.settings()?;
    let sides = Sides {
        old: Side::read(arguments, 0, &settings.names)?,
        new: Side::read(arguments, 1, &settings.names)?,
    };
    let difference = Difference::of(&sides);
    let text = match settings.json {
        true => json::written(&difference, &settings.names).into_text(),
        false => text::written(&difference, &settings),
    };
    Ok(match difference.changes.is_empty() {
        true => Answer::yes(text),
        false => Answer::no(text),
    })
}

impl Side {
    /// Reads and loads a file. A refused one cannot be compared: the first line of what `check` says.
    fn read(arguments: &Arguments, index: usize, names: &Names) -> Result<Side, Trouble> {
        let input = arguments.file(index)?;
        let policy = Policy::load(&input.bytes).map_err(|verdict| {
            let settings = Settings {
                names: names.clone(),
                ..Settings::default()
            };
            let told = check::refused(&input, verdict, &settings).text;
            let first = told.lines().next().unwrap_or_default();
            Trouble::new(format!("{}: {first}", arguments.word(index)))
        })?;
        Ok(Side::of(policy, &Lines::of(&input.bytes)))
    }

    fn of(policy: Policy, lines: &Lines) -> Side {
        let counts = policy.counts();
        Side {
            counts,
            sessions: Sessions::of(&policy),
            dominance: Relation::strictly(counts.labels, |a, b| policy.dominates(a, b)),
            seniority: Relation::strictly(counts.roles, |r, q| policy.senior(r, q)),
            assigned: Relation::between(counts.users, counts.roles, |user, role| {
                policy.assigned(user, role)
            }),
            flow: Relation::of(counts.roles, |from, to| policy.flows(from, to)),
            permissions: permissions(lines),
            policy,
        }
    }
}

fn permissions(lines: &Lines) -> Permissions {
    let mode = |number: u64| match number {
        1 => Mode::Read,
        _ => Mode::Write,
    };
    let lines = lines.with(b'P').map(|line| line.fields);
    lines
        .map(|[role, card, number, _]| (role, mode(number), card))
        .collect()
}

impl Difference {
    fn of(sides: &Sides) -> Difference {
        let rights = rights::changes(sides);
        let users: BTreeSet<u64> = rights.iter().filter_map(Change::user).collect();
        Difference {
            changes: [rights, things::changes(sides)].concat(),
            changed: users.len(),
            users: sides.old.counts.users.max(sides.new.counts.users),
        }
    }

    /// The last line.
    fn summary(&self) -> String {
        let ending = if self.changed == 1 { "s" } else { "" };
        format!("{} of {} users change{ending}", self.changed, self.users)
    }
}
