//! `diff` for programs.

use super::change::{Change, Circle, Count, Figure, Kept, Labelled, Linked, Permitted, Right};
use super::Difference;
use crate::json::Json;
use crate::monitor::{Mode, FREE, UNDEFINED};
use crate::names::{Kind, Names};

type Members = Vec<(&'static str, Json)>;

pub fn written(difference: &Difference, names: &Names) -> Json {
    Json::Object(vec![
        ("same", Json::Boolean(difference.changes.is_empty())),
        ("users", Json::Number(difference.users)),
        ("users_changed", Json::Number(difference.changed as u64)),
        (
            "changes",
            Json::list(&difference.changes, |change| {
                Json::Object(members(change, names))
            }),
        ),
    ])
}

fn members(change: &Change, names: &Names) -> Members {
    match change {
        Change::Right(right) => of_right(right, names),
        Change::Kept(kept) => of_kept(kept, names),
        Change::Count(count) => of_count(count),
        Change::Labelled(labelled) => of_labelled(labelled, names),
        Change::Linked(linked) => of_linked(linked, names),
        Change::Permitted(permitted) => of_permitted(permitted, names),
        Change::Circle(circle) => of_circle(circle, names),
    }
}

fn of_right(right: &Right, names: &Names) -> Members {
    let word = if right.gained { "gains" } else { "loses" };
    let user = (Kind::User, right.user);
    of_cards(word, user, right.mode, &right.cards, names)
}

fn of_permitted(permitted: &Permitted, names: &Names) -> Members {
    let word = match permitted.now {
        true => "permission new",
        false => "permission gone",
    };
    let role = (Kind::Role, permitted.role);
    of_cards(word, role, permitted.mode, &permitted.cards, names)
}

fn of_kept(kept: &Kept, names: &Names) -> Members {
    let user = (Kind::User, kept.user);
    let mut members = of_cards("keeps", user, kept.mode, &kept.cards, names);
    members.push(("old", list(&kept.old, Kind::Label, names)));
    members.push(("new", list(&kept.new, Kind::Label, names)));
    members
}

fn of_count(count: &Count) -> Members {
    vec![
        ("change", Json::text("count")),
        ("of", Json::text(count.kind.word())),
        ("old", Json::Number(count.old)),
        ("new", Json::Number(count.new)),
    ]
}

fn of_labelled(labelled: &Labelled, names: &Names) -> Members {
    let (kind, word) = labelled.figure.words();
    let value = |value: Option<u64>| match (labelled.figure, value) {
        (_, None) => Json::Null,
        (Figure::Level(_), Some(FREE)) => Json::text("free"),
        (Figure::Level(_), Some(UNDEFINED)) => Json::text("undefined"),
        (_, Some(label)) => names.json(Kind::Label, label),
    };
    vec![
        ("change", Json::text(word)),
        (kind.word(), names.json(kind, labelled.number)),
        ("old", value(labelled.old)),
        ("new", value(labelled.new)),
    ]
}

fn of_linked(linked: &Linked, names: &Names) -> Members {
    let (kind, other) = linked.link.kinds();
    vec![
        ("change", Json::text(linked.link.words()[1])),
        (kind.word(), names.json(kind, linked.number)),
        ("now", Json::Boolean(linked.now)),
        ("others", list(&linked.others, other, names)),
    ]
}

fn of_circle(circle: &Circle, names: &Names) -> Members {
    let value = |role: u64| match role {
        0 => Json::Null,
        _ => names.json(Kind::Role, role),
    };
    vec![
        ("change", Json::text("circle")),
        ("old", value(circle.old)),
        ("new", value(circle.new)),
    ]
}

fn list(numbers: &[u64], kind: Kind, names: &Names) -> Json {
    Json::list(numbers, |&number| names.json(kind, number))
}

fn of_cards(
    word: &str,
    (kind, number): (Kind, u64),
    mode: Mode,
    cards: &[u64],
    names: &Names,
) -> Members {
    vec![
        ("change", Json::text(word)),
        (kind.word(), names.json(kind, number)),
        ("mode", Json::text(mode.word())),
        ("cards", list(cards, Kind::Card, names)),
    ]
}
