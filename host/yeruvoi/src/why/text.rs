//! The page of `why`.

use super::barred::Barred;
use super::{labels, Why};
use crate::arguments::Settings;
use crate::header::sentence;
use crate::list::things;
use crate::monitor::Mode;
use crate::names::Kind;
use crate::page::Page;
use crate::way::Way;

pub fn written(why: &Why, settings: &Settings) -> String {
    let mut page = Page::new();
    page.line(first(why, settings));
    for (labels, way) in &why.served {
        let labels = things(labels, Kind::Label, settings);
        let role = settings.names.thing(Kind::Role, way.taken);
        page.line(format!("  at {labels}, by {role}"));
        put_way(&mut page, way, why, settings);
    }
    if why.served.is_empty() && why.barred.is_empty() {
        page.line(missing(why, settings));
    }
    for (number, roles) in &why.trials {
        page.line(trial(*number, roles, settings));
    }
    put_barred(&mut page, &why.barred, settings);
    page.into_text()
}

/// The answer.
fn first(why: &Why, settings: &Settings) -> String {
    let names = &settings.names;
    let user = names.thing(Kind::User, why.question.user);
    let card = names.thing(Kind::Card, why.question.card);
    let mode = why.question.mode.word();
    let labels = labels(&why.served);
    match labels.is_empty() {
        true => format!("{user} may not {mode} {card}"),
        false => {
            let labels = things(&labels, Kind::Label, settings);
            format!("{user} may {mode} {card}, in a session at {labels}")
        }
    }
}

/// The lines from the assignment down to the permission.
fn put_way(page: &mut Page, way: &Way, why: &Why, settings: &Settings) {
    let role = |number: u64| settings.names.thing(Kind::Role, number);
    let question = why.question;
    let assigned = role(way.assignment.fields[1]);
    let note = format!("user {} is assigned to {assigned}", question.user);
    page.quote(4, &way.assignment, &note);
    for line in &way.seniority {
        let [senior, junior, ..] = line.fields;
        page.quote(
            4,
            line,
            &format!("role {senior} is senior to {}", role(junior)),
        );
    }
    let (permitted, mode) = (way.permission.fields[0], question.mode.word());
    let note = format!("role {permitted} may {mode} card {}", question.card);
    page.quote(4, &way.permission, &note);
}

/// What is missing where no role of the user gives the card.
fn missing(why: &Why, settings: &Settings) -> String {
    let givers: Vec<u64> = why.givers.iter().collect();
    let roles = things(&givers, Kind::Role, settings);
    let (mode, card) = (why.question.mode as u64, why.question.card);
    match givers.len() {
        0 => format!("  no role gives it: no line P has card {card} and mode {mode}"),
        1 => format!("  {roles} gives it: neither it nor a senior of it is assigned to the user"),
        _ => format!("  {roles} give it: none is assigned to the user, nor a senior of one"),
    }
}

/// What would come of an assignment.
fn trial(number: u64, roles: &[u64], settings: &Settings) -> String {
    let roles = things(roles, Kind::Role, settings);
    match number {
        0 => format!("  an assignment to {roles} would be accepted"),
        _ => {
            let words = sentence(number);
            format!("  an assignment to {roles} would be refused with {number}: {words}")
        }
    }
}

/// The levels that bar labels.
fn put_barred(page: &mut Page, barred: &[Barred], settings: &Settings) {
    let mut labels: Vec<u64> = barred.iter().flat_map(|one| one.labels.clone()).collect();
    labels.sort_unstable();
    labels.dedup();
    if !labels.is_empty() {
        page.line(format!(
            "  not at {}",
            things(&labels, Kind::Label, settings)
        ));
    }
    for one in barred {
        page.line(format!("    {}", one.text(settings)));
    }
}

impl Barred {
    fn text(&self, settings: &Settings) -> String {
        let word = self.mode.level_word();
        let roles = things(&self.roles, Kind::Role, settings);
        let level = settings.names.number(Kind::Label, self.level);
        let labels = things(&self.labels, Kind::Label, settings);
        let verb = if self.labels.len() == 1 { "does" } else { "do" };
        match self.mode {
            Mode::Read => format!("{roles}: {labels} {verb} not dominate the {word} {level}"),
            Mode::Write => format!("{roles}: the {word} {level} does not dominate {labels}"),
        }
    }
}
