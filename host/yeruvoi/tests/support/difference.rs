//! What is different between two files, by the model's two readings.

use super::json::{self, object, text, thing};
use super::legend::Legend;
use super::{number, policy, things};
use monitor_model::{Mode, Policy};
use second_checker::check::{Counts, Level, RoleFile};
use second_checker::generate::write;
use std::collections::{BTreeMap, BTreeSet};

const MODES: [Mode; 2] = [Mode::Read, Mode::Write];

type Numbers = BTreeSet<usize>;
type Pairs = BTreeSet<(usize, usize)>;

/// A difference as a line without the blanks between columns, and for programs.
struct Fact {
    /// Of a user whose rights change.
    user: Option<usize>,
    lines: Vec<String>,
    json: String,
}

/// A file, its lines and the model's reading of it.
pub struct Side {
    file: RoleFile,
    policy: Policy,
}

impl Side {
    pub fn of(file: &RoleFile) -> Side {
        Side {
            policy: policy(&write(file)),
            file: file.clone(),
        }
    }

    /// The cards that the user can have, by label.
    fn rights(&self, user: usize, mode: Mode) -> BTreeMap<usize, Numbers> {
        let mut rights = BTreeMap::new();
        if user > self.policy.counts.users {
            return rights;
        }
        for label in self.policy.labels_to_open(user) {
            let roles = self.policy.roles_to_take(user, label);
            let cards = roles.flat_map(|role| self.policy.cards(role, mode));
            rights.insert(label, cards.copied().collect());
        }
        rights
    }

    fn level(&self, role: usize, mode: Mode) -> Option<Level> {
        let meaning = &self.policy.meaning;
        let levels = match mode {
            Mode::Read => &meaning.read_level,
            Mode::Write => &meaning.write_level,
        };
        levels.get(role).copied()
    }

    fn dominance(&self) -> Pairs {
        let over = |a, b| self.policy.meaning.dominance.over(a, b);
        pairs(self.policy.counts.labels, over)
    }

    fn seniority(&self) -> Pairs {
        let over = |a, b| self.policy.meaning.seniority.over(a, b);
        pairs(self.policy.counts.roles, over)
    }
}

/// The pairs of different things that are related.
fn pairs(count: usize, related: impl Fn(usize, usize) -> bool) -> Pairs {
    let all = (1..=count).flat_map(|a| (1..=count).map(move |b| (a, b)));
    all.filter(|&(a, b)| a != b && related(a, b)).collect()
}

pub struct Sides<'a> {
    pub old: Side,
    pub new: Side,
    pub legend: &'a Legend,
}

impl Sides<'_> {
    fn facts(&self) -> Vec<Fact> {
        let mut facts = self.rights();
        facts.extend(self.counts());
        facts.extend(self.linked("label", "", "dominates", "label", Side::dominance));
        facts.extend(self.figures("user", "clearance", &|side, user| {
            side.policy
                .meaning
                .clearance
                .get(user)
                .map(|&label| Level::Label(label))
        }));
        facts.extend(self.figures("card", "label", &|side, card| {
            side.policy
                .meaning
                .card_label
                .get(card)
                .map(|&label| Level::Label(label))
        }));
        facts.extend(self.figures("role", "r-level", &|side, role| {
            side.level(role, Mode::Read)
        }));
        facts.extend(self.figures("role", "w-level", &|side, role| {
            side.level(role, Mode::Write)
        }));
        facts.extend(self.linked("role", "is ", "senior to", "role", Side::seniority));
        let assigned = |side: &Side| side.policy.assigned.clone();
        facts.extend(self.linked("user", "is ", "assigned to", "role", assigned));
        facts.extend(self.permitted());
        facts.extend(self.linked("role", "", "flows to", "role", |side| {
            side.policy.flows.clone()
        }));
        facts.extend(self.circle());
        facts
    }

    fn most(&self, count: impl Fn(Counts) -> usize) -> usize {
        count(self.old.policy.counts).max(count(self.new.policy.counts))
    }

    fn rights(&self) -> Vec<Fact> {
        let mut facts = Vec::new();
        for user in 1..=self.most(|counts| counts.users) {
            for mode in MODES {
                let (old, new) = (self.old.rights(user, mode), self.new.rights(user, mode));
                let all = |rights: &BTreeMap<usize, Numbers>| -> Numbers {
                    rights.values().flatten().copied().collect()
                };
                let (had, has) = (all(&old), all(&new));
                facts.extend(self.right(user, "loses", mode, &had - &has));
                facts.extend(self.right(user, "gains", mode, &has - &had));
                facts.extend(self.kept(user, mode, &had & &has, &old, &new));
            }
        }
        facts
    }

    fn right(&self, user: usize, verb: &str, mode: Mode, cards: Numbers) -> Option<Fact> {
        let fact = self.of_cards("user", user, (verb, verb), mode, cards)?;
        Some(Fact {
            user: Some(user),
            ..fact
        })
    }

    /// A line for each of up to eight cards, or one for more.
    fn of_cards(
        &self,
        kind: &'static str,
        one: usize,
        (verb, change): (&str, &str),
        mode: Mode,
        cards: Numbers,
    ) -> Option<Fact> {
        let cards: Vec<usize> = cards.into_iter().collect();
        let subject = number(self.legend, kind, one);
        let shown = |cards: &[usize]| {
            let cards = things(self.legend, "card", cards);
            format!("{kind} {subject} {verb} {} {cards}", word(mode))
        };
        let lines = match cards.len() {
            0 => return None,
            1..=8 => cards.chunks(1).map(shown).collect(),
            _ => vec![shown(&cards)],
        };
        let json = object(&[
            ("change", text(change)),
            (kind, thing(self.legend, kind, one)),
            ("mode", text(word(mode))),
            ("cards", json::things(self.legend, "card", &cards)),
        ]);
        Some(Fact {
            user: None,
            lines,
            json,
        })
    }

    fn kept(
        &self,
        user: usize,
        mode: Mode,
        cards: Numbers,
        old: &BTreeMap<usize, Numbers>,
        new: &BTreeMap<usize, Numbers>,
    ) -> Vec<Fact> {
        let labels = |rights: &BTreeMap<usize, Numbers>, card: usize| -> Vec<usize> {
            let held = rights.iter().filter(|(_, cards)| cards.contains(&card));
            held.map(|(&label, _)| label).collect()
        };
        let mut groups: BTreeMap<(Vec<usize>, Vec<usize>), Vec<usize>> = BTreeMap::new();
        for card in cards {
            let key = (labels(old, card), labels(new, card));
            if key.0 != key.1 {
                groups.entry(key).or_default().push(card);
            }
        }
        let groups = groups.into_iter();
        groups
            .map(|((old, new), cards)| self.kept_fact(user, mode, &cards, &old, &new))
            .collect()
    }

    fn kept_fact(
        &self,
        user: usize,
        mode: Mode,
        cards: &[usize],
        old: &[usize],
        new: &[usize],
    ) -> Fact {
        let legend = self.legend;
        let (at, was) = (things(legend, "label", new), things(legend, "label", old));
        let (who, what) = (number(legend, "user", user), things(legend, "card", cards));
        let line = format!(
            "user {who} keeps {} {what} at {at}, was at {was}",
            word(mode)
        );
        let listed = |kind, numbers: &[usize]| json::things(legend, kind, numbers);
        Fact {
            user: Some(user),
            lines: vec![line],
            json: object(&[
                ("change", text("keeps")),
                ("user", thing(legend, "user", user)),
                ("mode", text(word(mode))),
                ("cards", listed("card", cards)),
                ("old", listed("label", old)),
                ("new", listed("label", new)),
            ]),
        }
    }

    fn counts(&self) -> Vec<Fact> {
        let counts = self.old.policy.counts.in_order().into_iter();
        let both = counts.zip(self.new.policy.counts.in_order());
        let kinds = ["label", "role", "user", "card"].into_iter().zip(both);
        let different = kinds.filter(|(_, (old, new))| old != new);
        different
            .map(|(kind, (old, new))| Fact {
                user: None,
                lines: vec![format!("{kind}s {new}, was {old}")],
                json: object(&[
                    ("change", text("count")),
                    ("of", text(kind)),
                    ("old", old.to_string()),
                    ("new", new.to_string()),
                ]),
            })
            .collect()
    }

    /// What a label or a level is shown as.
    fn shown(&self, level: Level) -> String {
        match level {
            Level::Free => "free".to_string(),
            Level::Undefined => "undefined".to_string(),
            Level::Label(label) => number(self.legend, "label", label),
        }
    }

    fn level_json(&self, level: Option<Level>) -> String {
        match level {
            None => "null".to_string(),
            Some(Level::Label(label)) => thing(self.legend, "label", label),
            Some(level) => text(&self.shown(level)),
        }
    }

    fn figures(
        &self,
        kind: &'static str,
        name: &str,
        figure: &dyn Fn(&Side, usize) -> Option<Level>,
    ) -> Vec<Fact> {
        let mut facts = Vec::new();
        for one in 1..=512 {
            let (old, new) = (figure(&self.old, one), figure(&self.new, one));
            let shown = |level: Option<Level>| level.map(|level| self.shown(level));
            let difference = match (shown(old), shown(new)) {
                (old, new) if old == new => continue,
                (Some(old), Some(new)) => format!("{name} {new}, was {old}"),
                (Some(old), None) => format!("gone, {name} was {old}"),
                (_, new) => format!("{name} {}, a new {kind}", new.unwrap_or_default()),
            };
            let subject = number(self.legend, kind, one);
            facts.push(Fact {
                user: None,
                lines: vec![format!("{kind} {subject} {difference}")],
                json: object(&[
                    ("change", text(name)),
                    (kind, thing(self.legend, kind, one)),
                    ("old", self.level_json(old)),
                    ("new", self.level_json(new)),
                ]),
            });
        }
        facts
    }

    fn linked(
        &self,
        kind: &'static str,
        before: &str,
        verb: &str,
        other: &'static str,
        related: impl Fn(&Side) -> Pairs,
    ) -> Vec<Fact> {
        let (old, new) = (related(&self.old), related(&self.new));
        let mut facts = Vec::new();
        for one in 1..=256 {
            for (pairs, now) in [(&old - &new, false), (&new - &old, true)] {
                let others = pairs.range((one, 0)..(one + 1, 0));
                let others: Vec<usize> = others.map(|pair| pair.1).collect();
                if others.is_empty() {
                    continue;
                }
                let (subject, word) = (
                    number(self.legend, kind, one),
                    if now { "now" } else { "no longer" },
                );
                let shown = things(self.legend, other, &others);
                facts.push(Fact {
                    user: None,
                    lines: vec![format!("{kind} {subject} {before}{word} {verb} {shown}")],
                    json: object(&[
                        ("change", text(verb)),
                        (kind, thing(self.legend, kind, one)),
                        ("now", now.to_string()),
                        ("others", json::things(self.legend, other, &others)),
                    ]),
                });
            }
        }
        facts
    }

    fn permitted(&self) -> Vec<Fact> {
        let lines = |side: &Side| -> BTreeSet<(usize, usize, usize)> {
            side.file.permissions.iter().copied().collect()
        };
        let (old, new) = (lines(&self.old), lines(&self.new));
        let mut facts = Vec::new();
        for (lines, words) in [
            (&old - &new, ("line P gone:", "permission gone")),
            (&new - &old, ("line P new:", "permission new")),
        ] {
            for role in 1..=128 {
                for mode in MODES {
                    let chosen = lines
                        .iter()
                        .filter(|line| line.0 == role && line.2 == mode as usize);
                    let cards = chosen.map(|line| line.1).collect();
                    facts.extend(self.of_cards("role", role, words, mode, cards));
                }
            }
        }
        facts
    }

    fn circle(&self) -> Option<Fact> {
        let (old, new) = (self.old.policy.circle, self.new.policy.circle);
        let shown = |role: usize| match role {
            0 => "none".to_string(),
            _ => format!("role {}", number(self.legend, "role", role)),
        };
        let json = |role: usize| match role {
            0 => "null".to_string(),
            _ => thing(self.legend, "role", role),
        };
        let line = format!(
            "circles lowest role on one {}, was {}",
            shown(new),
            shown(old)
        );
        (old != new).then(|| Fact {
            user: None,
            lines: vec![line],
            json: object(&[
                ("change", text("circle")),
                ("old", json(old)),
                ("new", json(new)),
            ]),
        })
    }

    /// The page without the blanks between columns, and the value for programs.
    pub fn expected(&self) -> (Vec<String>, String) {
        let facts = self.facts();
        let users: Numbers = facts.iter().filter_map(|fact| fact.user).collect();
        let count = self.most(|counts| counts.users);
        let json = object(&[
            ("same", facts.is_empty().to_string()),
            ("users", count.to_string()),
            ("users_changed", users.len().to_string()),
            ("changes", json::list(&facts, |fact| fact.json.clone())),
        ]);
        let mut lines: Vec<String> = facts.into_iter().flat_map(|fact| fact.lines).collect();
        match lines.is_empty() {
            true => lines.push("the same".to_string()),
            false => lines.push(last_line(users.len(), count)),
        }
        (lines, json)
    }
}

fn last_line(changed: usize, users: usize) -> String {
    let ending = if changed == 1 { "s" } else { "" };
    format!("{changed} of {users} users change{ending}")
}

fn word(mode: Mode) -> &'static str {
    match mode {
        Mode::Read => "read",
        Mode::Write => "write",
    }
}
