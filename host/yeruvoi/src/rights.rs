//! `yeruvoi rights`: what each user ends up with.

mod json;
mod text;

use crate::answer::{Answer, Trouble};
use crate::arguments::{Arguments, Subcommand};
use crate::asked::{number, of_accepted, Asked};
use crate::cards::Cards;
use crate::monitor::{Policy, Roles};
use crate::names::Kind;
use crate::sessions::Sessions;

pub const SUBCOMMAND: Subcommand = Subcommand {
    name: "rights",
    usage: "rights [--names LEGEND] [--json] [--each] FILE [USER...]",
    help: "\
What each user of the file, or each USER named, ends up with: clearance, roles
assigned and inherited, and for each label that a session may be opened at the
roles that it may take there, with the cards that they let be read and written.
At the end the roles that no user can take and the cards that no user can read.

  --names LEGEND    names beside numbers
  --each            every role and card in a line of its own, no ranges
  --json            for programs, every list written out
",
    operands: (1, usize::MAX),
    options: &["--each"],
    run,
};

/// What is told of a file.
pub struct Rights {
    pub users: Vec<User>,
    pub sessions: Sessions,
    /// The roles that no user can take at any label.
    pub untaken: Vec<u64>,
    /// The cards that no user can read at any label.
    pub unread: Vec<u64>,
}

/// A user but for what a session can do.
pub struct User {
    pub number: u64,
    pub clearance: u64,
    pub assigned: Roles,
    /// Juniors of roles assigned that are not assigned themselves.
    pub inherited: Roles,
}

fn run(arguments: &Arguments) -> Result<Answer, Trouble> {
    of_accepted(arguments, |asked| {
        let rights = Rights::of(&asked.policy, &users(arguments, &asked.policy)?);
        Ok(Answer::yes(written(&rights, asked)))
    })
}

fn written(rights: &Rights, asked: &Asked) -> String {
    match asked.settings.json {
        true => json::written(rights, asked),
        false => text::written(rights, &asked.settings),
    }
}

/// The users named, or all.
fn users(arguments: &Arguments, policy: &Policy) -> Result<Vec<u64>, Trouble> {
    let count = policy.counts().users;
    if arguments.operands.len() == 1 {
        return Ok((1..=count).collect());
    }
    let words = 1..arguments.operands.len();
    words
        .map(|index| number(&arguments.word(index), Kind::User, count))
        .collect()
}

impl Rights {
    pub fn of(policy: &Policy, users: &[u64]) -> Rights {
        let counts = policy.counts();
        let sessions = Sessions::of(policy);
        let taken = sessions
            .all
            .iter()
            .fold(Roles::default(), |roles, session| roles.with(session.takes));
        let read = sessions
            .all
            .iter()
            .fold(Cards::default(), |cards, session| {
                cards.joined(&session.reads)
            });
        Rights {
            users: users.iter().map(|&user| User::of(policy, user)).collect(),
            untaken: (1..=counts.roles)
                .filter(|&role| !taken.holds(role))
                .collect(),
            unread: (1..=counts.cards)
                .filter(|&card| !read.holds(card))
                .collect(),
            sessions,
        }
    }
}

impl User {
    fn of(policy: &Policy, user: u64) -> User {
        let roles = policy.counts().roles;
        let assigned = Roles::of((1..=roles).filter(|&role| policy.assigned(user, role)));
        let inherits = |&role: &u64| {
            !assigned.holds(role) && assigned.iter().any(|senior| policy.senior(senior, role))
        };
        User {
            number: user,
            clearance: policy.clearance(user),
            assigned,
            inherited: Roles::of((1..=roles).filter(inherits)),
        }
    }
}
