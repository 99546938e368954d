//! `yeruvoi who`: who may read or write a card, at which labels and by which roles.

use crate::answer::{Answer, Trouble};
use crate::arguments::{Arguments, Settings, Subcommand};
use crate::asked::{mode, number, of_accepted};
use crate::json::Json;
use crate::list::things;
use crate::monitor::{Mode, Policy, Roles};
use crate::names::{Kind, Names};
use crate::page::Page;

pub const SUBCOMMAND: Subcommand = Subcommand {
    name: "who",
    usage: "who [--names LEGEND] [--json] [--each] FILE read|write CARD",
    help: "\
Who may read or write a card. Each line has a user, the labels at which a
session of the user can do it, and the roles that give it there.

  --names LEGEND    names beside numbers
  --each            every label and role by itself, no ranges
  --json            for programs, every list written out
",
    operands: (3, 3),
    options: &["--each"],
    run,
};

/// A session that may, and the roles by which it may.
struct Session {
    user: u64,
    label: u64,
    roles: Roles,
}

struct Who {
    card: u64,
    mode: Mode,
    /// By user, then by label.
    sessions: Vec<Session>,
}

fn run(arguments: &Arguments) -> Result<Answer, Trouble> {
    of_accepted(arguments, |asked| {
        let mode = mode(&arguments.word(1), &SUBCOMMAND)?;
        let count = asked.policy.counts().cards;
        let card = number(&arguments.word(2), Kind::Card, count)?;
        let who = Who::of(&asked.policy, card, mode);
        Ok(Answer::yes(match asked.settings.json {
            true => who.json(&asked.settings).into_text(),
            false => who.text(&asked.settings),
        }))
    })
}

/// The roles that a session of the user at the label may take and that give the card; none where the
/// clearance does not dominate the label.
pub fn serving(policy: &Policy, user: u64, label: u64, card: u64, mode: Mode) -> Option<Roles> {
    let roles = policy.takable(user, label)?.iter();
    let gives = |&role: &u64| policy.gives(Roles::one(role), label, card, mode);
    Some(Roles::of(roles.filter(gives)))
}

impl Who {
    fn of(policy: &Policy, card: u64, mode: Mode) -> Who {
        let counts = policy.counts();
        let users = 1..=counts.users;
        let all = users.flat_map(|user| (1..=counts.labels).map(move |label| (user, label)));
        let sessions = all.filter_map(|(user, label)| {
            let roles = serving(policy, user, label, card, mode)?;
            Some(Session { user, label, roles })
        });
        Who {
            card,
            mode,
            sessions: sessions
                .filter(|session| !session.roles.is_empty())
                .collect(),
        }
    }

    fn text(&self, settings: &Settings) -> String {
        let mut page = Page::new();
        if self.sessions.is_empty() {
            let card = settings.names.thing(Kind::Card, self.card);
            page.line(format!("no user may {} {card}", self.mode.word()));
        }
        let together = together(&self.sessions);
        let rows: Vec<[String; 3]> = together.iter().map(|one| one.row(settings)).collect();
        let width = |column: usize| {
            let widths = rows.iter().map(|row| row[column].chars().count());
            widths.max().unwrap_or(0)
        };
        let (first, second) = (width(0), width(1));
        for [user, labels, roles] in &rows {
            page.line(format!(
                "{user:<first$}   at {labels:<second$}   by {roles}"
            ));
        }
        page.into_text()
    }

    fn json(&self, settings: &Settings) -> Json {
        let names = &settings.names;
        Json::Object(vec![
            ("accepted", Json::Boolean(true)),
            ("mode", Json::text(self.mode.word())),
            ("card", names.json(Kind::Card, self.card)),
            (
                "sessions",
                Json::list(&self.sessions, |session| session.json(names)),
            ),
        ])
    }
}

impl Session {
    fn json(&self, names: &Names) -> Json {
        let roles = Json::list(self.roles.iter(), |role| names.json(Kind::Role, role));
        Json::Object(vec![
            ("user", names.json(Kind::User, self.user)),
            ("label", names.json(Kind::Label, self.label)),
            ("roles", roles),
        ])
    }
}

/// The labels at which a user may by the same roles.
struct Together {
    user: u64,
    labels: Vec<u64>,
    roles: Roles,
}

fn together(sessions: &[Session]) -> Vec<Together> {
    let mut all: Vec<Together> = Vec::new();
    for &Session { user, label, roles } in sessions {
        let mut of_user = all.iter_mut().rev().take_while(|one| one.user == user);
        match of_user.find(|one| one.roles == roles) {
            Some(one) => one.labels.push(label),
            None => all.push(Together {
                user,
                labels: vec![label],
                roles,
            }),
        }
    }
    all
}

impl Together {
    fn row(&self, settings: &Settings) -> [String; 3] {
        let roles: Vec<u64> = self.roles.iter().collect();
        [
            settings.names.thing(Kind::User, self.user),
            things(&self.labels, Kind::Label, settings),
            things(&roles, Kind::Role, settings),
        ]
    }
}
