//! The page of `diff`.

use super::change::{Change, Circle, Count, Figure, Kept, Labelled, Linked, Permitted, Right};
use super::Difference;
use crate::arguments::Settings;
use crate::list::things;
use crate::monitor::{Mode, FREE, UNDEFINED};
use crate::names::Kind;
use crate::page::Page;

/// Cards of one user or role up to this many stand each in a line of its own.
const FEW: usize = 8;

/// What a line is about, and what is different.
type Row = (String, String);

pub fn written(difference: &Difference, settings: &Settings) -> String {
    let mut page = Page::new();
    if difference.changes.is_empty() {
        page.line("the same");
        return page.into_text();
    }
    let changes = difference.changes.iter();
    let rows: Vec<Row> = changes.flat_map(|change| rows(change, settings)).collect();
    let widths = rows.iter().map(|(subject, _)| subject.chars().count());
    let width = widths.max().unwrap_or(0);
    for (subject, text) in &rows {
        page.line(format!("{subject:<width$}   {text}"));
    }
    page.line(difference.summary());
    page.into_text()
}

fn rows(change: &Change, settings: &Settings) -> Vec<Row> {
    match change {
        Change::Right(right) => right_rows(right, settings),
        Change::Kept(kept) => vec![kept_row(kept, settings)],
        Change::Count(count) => vec![count_row(count)],
        Change::Labelled(labelled) => vec![labelled_row(labelled, settings)],
        Change::Linked(linked) => vec![linked_row(linked, settings)],
        Change::Permitted(permitted) => permitted_rows(permitted, settings),
        Change::Circle(circle) => vec![circle_row(circle, settings)],
    }
}

fn right_rows(right: &Right, settings: &Settings) -> Vec<Row> {
    let verb = if right.gained { "gains" } else { "loses" };
    let subject = settings.names.thing(Kind::User, right.user);
    card_rows(&subject, &doing(verb, right.mode), &right.cards, settings)
}

fn permitted_rows(permitted: &Permitted, settings: &Settings) -> Vec<Row> {
    let word = if permitted.now { "new" } else { "gone" };
    let subject = settings.names.thing(Kind::Role, permitted.role);
    let doing = format!("line P {word}: {} ", permitted.mode.word());
    card_rows(&subject, &doing, &permitted.cards, settings)
}

fn kept_row(kept: &Kept, settings: &Settings) -> Row {
    let labels = |labels: &[u64]| things(labels, Kind::Label, settings);
    let (old, new) = (labels(&kept.old), labels(&kept.new));
    let cards = things(&kept.cards, Kind::Card, settings);
    let doing = doing("keeps", kept.mode);
    let subject = settings.names.thing(Kind::User, kept.user);
    (subject, format!("{doing}{cards} at {new}, was at {old}"))
}

fn count_row(count: &Count) -> Row {
    let Count { kind, old, new } = count;
    (format!("{}s", kind.word()), format!("{new}, was {old}"))
}

fn linked_row(linked: &Linked, settings: &Settings) -> Row {
    let (kind, other) = linked.link.kinds();
    let [before, after] = linked.link.words();
    let others = things(&linked.others, other, settings);
    let now = if linked.now { "now" } else { "no longer" };
    let subject = settings.names.thing(kind, linked.number);
    (subject, format!("{before}{now} {after} {others}"))
}

fn doing(verb: &str, mode: Mode) -> String {
    format!("{verb:<7} {:<6} ", mode.word())
}

/// A row for each card, or for many one with their ranges.
fn card_rows(subject: &str, doing: &str, cards: &[u64], settings: &Settings) -> Vec<Row> {
    let row = |cards: &[u64]| {
        let cards = things(cards, Kind::Card, settings);
        (subject.to_string(), format!("{doing}{cards}"))
    };
    match settings.each || cards.len() <= FEW {
        true => cards.chunks(1).map(row).collect(),
        false => vec![row(cards)],
    }
}

/// `w-level 11, was 2`
fn labelled_row(labelled: &Labelled, settings: &Settings) -> Row {
    let (kind, word) = labelled.figure.words();
    let shown = |value: u64| match (labelled.figure, value) {
        (Figure::Level(_), FREE) => "free".to_string(),
        (Figure::Level(_), UNDEFINED) => "undefined".to_string(),
        _ => settings.names.number(Kind::Label, value),
    };
    let text = match (labelled.old.map(shown), labelled.new.map(shown)) {
        (Some(old), Some(new)) => format!("{word} {new}, was {old}"),
        (Some(old), None) => format!("gone, {word} was {old}"),
        (None, new) => format!("{word} {}, a new {}", new.unwrap_or_default(), kind.word()),
    };
    (settings.names.thing(kind, labelled.number), text)
}

fn circle_row(circle: &Circle, settings: &Settings) -> Row {
    let shown = |role: u64| match role {
        0 => "none".to_string(),
        _ => settings.names.thing(Kind::Role, role),
    };
    let (old, new) = (shown(circle.old), shown(circle.new));
    let text = format!("lowest role on one {new}, was {old}");
    ("circles".to_string(), text)
}
