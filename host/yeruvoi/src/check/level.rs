//! What makes a role's level: the cards, by which lines P, of which juniors, by
//! which lines S.

use super::circle::says;
use crate::arguments::Settings;
use crate::json::Json;
use crate::lines::{Line, Lines};
use crate::monitor::{Mode, Policy, FREE, UNDEFINED};
use crate::names::{Kind, Names};
use crate::page::{quoted, Page};
use crate::paths::{Steps, Walks};
use std::collections::BTreeSet;

/// So many lines P of a level are shown, or one of each label where that is more.
const FEW: usize = 6;

/// The level of a role in one mode.
pub struct Level<'a> {
    pub role: u64,
    pub mode: Mode,
    /// A label, `FREE` or `UNDEFINED`.
    pub level: u64,
    pub permissions: Vec<Permission<'a>>,
    walks: Walks<'a>,
}

/// A line P that counts towards a level.
pub struct Permission<'a> {
    pub label: u64,
    pub card: u64,
    /// The role of the line: the one with the level, or a junior of it.
    pub owner: u64,
    pub line: Line<'a>,
}

impl<'a> Level<'a> {
    pub fn of(policy: &Policy, lines: &Lines<'a>, role: u64, mode: Mode) -> Level<'a> {
        let counts =
            |line: &&Line| line.fields[2] == mode as u64 && policy.senior(role, line.fields[0]);
        let mut permissions: Vec<Permission> = lines
            .with(b'P')
            .filter(counts)
            .map(|line| Permission::of(policy, line))
            .collect();
        permissions.sort_by_key(|permission| (permission.label, permission.line.number));
        Level {
            role,
            mode,
            level: policy.level(role, mode),
            permissions,
            walks: Steps::of(lines, b'S').from(role),
        }
    }

    /// The labels of the cards for which `so` holds, rising.
    pub fn labels_where(&self, so: impl Fn(u64) -> bool) -> Vec<u64> {
        let labels = self.permissions.iter().map(|permission| permission.label);
        let labels: BTreeSet<u64> = labels.filter(|&label| so(label)).collect();
        labels.into_iter().collect()
    }

    /// The lines S by which the role has the owners of these permissions.
    fn seniority(&self, permissions: &[&Permission<'a>]) -> Vec<Line<'a>> {
        let owners: BTreeSet<u64> = permissions
            .iter()
            .map(|permission| permission.owner)
            .collect();
        let juniors = owners.into_iter().filter(|&owner| owner != self.role);
        let mut lines: Vec<Line> = juniors
            .filter_map(|owner| self.walks.to(owner))
            .flatten()
            .collect();
        lines.sort_by_key(|line| line.number);
        lines.dedup();
        lines
    }

    /// The permissions that a page shows: one of each label, and a few more.
    fn shown(&self, all: bool) -> Vec<&Permission<'a>> {
        let mut seen = BTreeSet::new();
        let (mut shown, rest): (Vec<_>, Vec<_>) = self
            .permissions
            .iter()
            .partition(|permission| seen.insert(permission.label));
        let more = if all {
            rest.len()
        } else {
            FEW.saturating_sub(shown.len())
        };
        shown.extend(rest.into_iter().take(more));
        shown.sort_by_key(|permission| (permission.label, permission.line.number));
        shown
    }
}

impl<'a> Permission<'a> {
    fn of(policy: &Policy, line: &Line<'a>) -> Permission<'a> {
        let [owner, card, ..] = line.fields;
        Permission {
            label: policy.card_label(card),
            card,
            owner,
            line: *line,
        }
    }
}

/// Where any two labels have a least upper bound, labels that dominate a common
/// one have a greatest such one.
const NO_BOUND: &str = "undefined: no label is dominated by all of";

fn bound_word(mode: Mode) -> &'static str {
    match mode {
        Mode::Read => "least upper bound",
        Mode::Write => "greatest lower bound",
    }
}

impl Level<'_> {
    /// `r-level      12 (owners), the least upper bound of`
    fn headline(&self, names: &Names) -> String {
        let word = self.mode.level_word();
        let value = match self.level {
            FREE => format!("free: the role {}s no card", self.mode.word()),
            UNDEFINED => NO_BOUND.to_string(),
            label => names.number(Kind::Label, label) + ", the " + bound_word(self.mode) + " of",
        };
        format!("{word}      {value}")
    }

    pub fn write(&self, page: &mut Page, settings: &Settings) {
        let names = &settings.names;
        page.line(format!("  {}", self.headline(names)));
        let shown = self.shown(settings.all);
        for permission in &shown {
            page.line(format!("    {}", permission.words(self.role, names)));
        }
        let left = self.permissions.len() - shown.len();
        page.left_out(4, left);
        for line in self.seniority(&shown) {
            page.quote(4, &line, &says(&line, Kind::Role, names));
        }
    }

    pub fn json(&self, names: &Names) -> Json {
        let all: Vec<&Permission> = self.permissions.iter().collect();
        let level = match self.level {
            FREE | UNDEFINED => Json::Null,
            label => names.json(Kind::Label, label),
        };
        Json::Object(vec![
            ("role", names.json(Kind::Role, self.role)),
            ("mode", Json::text(self.mode.word())),
            ("level", level),
            ("defined", Json::Boolean(self.level != UNDEFINED)),
            (
                "permissions",
                Json::list(&all, |permission| permission.json(names)),
            ),
            ("seniority", Json::list(&self.seniority(&all), Json::line)),
        ])
    }
}

impl Permission<'_> {
    fn words(&self, role: u64, names: &Names) -> String {
        let label = names.thing(Kind::Label, self.label);
        let card = names.thing(Kind::Card, self.card);
        let by = match self.owner {
            owner if owner == role => String::new(),
            owner => format!(" by junior {}", names.thing(Kind::Role, owner)),
        };
        format!("{}    {label}: {card}{by}", quoted(&self.line))
    }

    fn json(&self, names: &Names) -> Json {
        Json::Object(vec![
            ("label", names.json(Kind::Label, self.label)),
            ("card", names.json(Kind::Card, self.card)),
            ("owner", names.json(Kind::Role, self.owner)),
            ("line", Json::line(&self.line)),
        ])
    }
}
