//! `why` for programs.

use super::barred::Barred;
use super::Why;
use crate::json::Json;
use crate::names::{Kind, Names};
use crate::way::Way;

pub fn written(why: &Why, names: &Names) -> Json {
    let question = why.question;
    Json::Object(vec![
        ("accepted", Json::Boolean(true)),
        ("user", names.json(Kind::User, question.user)),
        ("mode", Json::text(question.mode.word())),
        ("card", names.json(Kind::Card, question.card)),
        ("may", Json::Boolean(!why.served.is_empty())),
        (
            "served",
            Json::list(&why.served, |(labels, way)| served(labels, way, names)),
        ),
        ("barred", Json::list(&why.barred, |one| barred(one, names))),
        ("givers", list(why.givers.iter(), Kind::Role, names)),
        (
            "assignments",
            Json::list(&why.trials, |(&number, roles)| {
                let roles = roles.iter().copied();
                Json::Object(vec![
                    ("number", Json::Number(number)),
                    ("roles", list(roles, Kind::Role, names)),
                ])
            }),
        ),
    ])
}

fn list(numbers: impl IntoIterator<Item = u64>, kind: Kind, names: &Names) -> Json {
    Json::list(numbers, |number| names.json(kind, number))
}

fn served(labels: &[u64], way: &Way, names: &Names) -> Json {
    Json::Object(vec![
        ("labels", list(labels.iter().copied(), Kind::Label, names)),
        ("role", names.json(Kind::Role, way.taken)),
        ("lines", Json::list(way.lines(), Json::line)),
    ])
}

fn barred(barred: &Barred, names: &Names) -> Json {
    let labels = barred.labels.iter().copied();
    let roles = barred.roles.iter().copied();
    Json::Object(vec![
        ("kind", Json::text(barred.mode.level_word())),
        ("level", names.json(Kind::Label, barred.level)),
        ("roles", list(roles, Kind::Role, names)),
        ("labels", list(labels, Kind::Label, names)),
    ])
}
