//! `yeruvoi why`: by which lines a user may read or write a card, or what is missing.

mod barred;
mod json;
mod text;
mod trial;

use crate::answer::{Answer, Trouble};
use crate::arguments::{Arguments, Subcommand};
use crate::asked::{mode, number, of_accepted, Asked};
use crate::lines::Lines;
use crate::monitor::{Mode, Policy, Roles};
use crate::names::Kind;
use crate::way::{Way, Ways};
use crate::who::serving;
use barred::Barred;
use trial::Trials;

pub const SUBCOMMAND: Subcommand = Subcommand {
    name: "why",
    usage: "why [--names LEGEND] [--json] [--each] FILE USER read|write CARD",
    help: "\
Whether a user may read or write a card. Where the user may: the labels at which
a session can do it, the role that is taken there, and the lines of the file by
which it is given: the assignment, the seniority down from it, the permission.
Then the labels that the user may open and where a level of the roles bars them.
Where the user may not: what is missing.

  --names LEGEND    names beside numbers
  --each            every label and role by itself, no ranges
  --json            for programs, every list written out
",
    operands: (4, 4),
    options: &["--each"],
    run,
};

/// What is asked.
#[derive(Clone, Copy)]
struct Question {
    user: u64,
    mode: Mode,
    card: u64,
}

struct Why<'a> {
    question: Question,
    /// At which labels by which way; none where the user may not.
    served: Vec<(Vec<u64>, Way<'a>)>,
    /// What bars the other labels that the user may open.
    barred: Vec<Barred>,
    /// The roles that give the card, whoever has them.
    givers: Roles,
    /// Where the user may not: what would come of an assignment to one of these.
    trials: Trials,
}

fn run(arguments: &Arguments) -> Result<Answer, Trouble> {
    of_accepted(arguments, |asked| {
        let counts = asked.policy.counts();
        let question = Question {
            user: number(&arguments.word(1), Kind::User, counts.users)?,
            mode: mode(&arguments.word(2), &SUBCOMMAND)?,
            card: number(&arguments.word(3), Kind::Card, counts.cards)?,
        };
        Ok(Answer::yes(answered(question, asked)))
    })
}

fn answered(question: Question, asked: &Asked) -> String {
    let lines = Lines::of(&asked.input.bytes);
    let why = Why::of(question, asked, &lines);
    match asked.settings.json {
        true => json::written(&why, &asked.settings.names).into_text(),
        false => text::written(&why, &asked.settings),
    }
}

impl<'a> Why<'a> {
    fn of(question: Question, asked: &Asked, lines: &Lines<'a>) -> Why<'a> {
        let givers = question.givers(&asked.policy);
        let served = served(question, &asked.policy, lines);
        let tried = match served.is_empty() {
            true => givers,
            false => Roles::default(),
        };
        Why {
            question,
            barred: barred::of(&asked.policy, question.user, givers, &labels(&served)),
            trials: trial::of(&asked.input.bytes, question.user, tried),
            served,
            givers,
        }
    }
}

/// The labels of all ways, rising.
fn labels(served: &[(Vec<u64>, Way)]) -> Vec<u64> {
    let labels = served.iter().flat_map(|(labels, _)| labels);
    let mut labels: Vec<u64> = labels.copied().collect();
    labels.sort_unstable();
    labels
}

impl Question {
    /// The roles that give the card to a session at some label.
    fn givers(self, policy: &Policy) -> Roles {
        let counts = policy.counts();
        let gives = |&role: &u64| {
            let mut labels = 1..=counts.labels;
            labels.any(|label| policy.gives(Roles::one(role), label, self.card, self.mode))
        };
        Roles::of((1..=counts.roles).filter(gives))
    }
}

/// The labels at which the user may, each with the first way that takes a role which serves there;
/// those with the same way together.
fn served<'a>(question: Question, policy: &Policy, lines: &Lines<'a>) -> Vec<(Vec<u64>, Way<'a>)> {
    let Question { user, mode, card } = question;
    let serving = |label| Some((label, serving(policy, user, label, card, mode)?));
    let sessions = (1..=policy.counts().labels).filter_map(serving);
    let mut left: Vec<(u64, Roles)> = sessions.filter(|(_, roles)| !roles.is_empty()).collect();
    let roles = left
        .iter()
        .fold(Roles::default(), |all, (_, roles)| all.with(*roles));
    let mut served = Vec::new();
    for way in Ways::of(lines, user, card, mode).past(roles) {
        let (now, later): (Vec<_>, Vec<_>) = left
            .into_iter()
            .partition(|(_, roles)| roles.holds(way.taken));
        left = later;
        let labels: Vec<u64> = now.into_iter().map(|(label, _)| label).collect();
        served.push((labels, way));
    }
    assert!(left.is_empty(), "lines give what the state has");
    served.retain(|(labels, _)| !labels.is_empty());
    served.sort_by_key(|(labels, _)| labels[0]);
    served
}
