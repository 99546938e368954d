//! `rights` for programs.

use super::{Rights, User};
use crate::asked::Asked;
use crate::json::Json;
use crate::names::{Kind, Names};
use crate::sessions::Session;
use crate::threads;
use std::rc::Rc;

/// Names stand once, beside the things of the file; lists have numbers alone.
pub fn written(rights: &Rights, asked: &Asked) -> String {
    let counts = asked.policy.counts();
    let names = &asked.settings.names;
    let things = |kind, count| Json::list(1..=count, |number| names.json(kind, number));
    Json::Object(vec![
        ("accepted", Json::Boolean(true)),
        ("labels", things(Kind::Label, counts.labels)),
        ("roles", things(Kind::Role, counts.roles)),
        ("cards", things(Kind::Card, counts.cards)),
        ("users", users(rights, names)),
        ("nobody", nobody(rights)),
    ])
    .into_text()
}

fn users(rights: &Rights, names: &Names) -> Json {
    let written = threads::map(&rights.sessions.all, |session| {
        of_session(session).to_string()
    });
    let sessions: Vec<Rc<str>> = written.into_iter().map(Rc::from).collect();
    Json::list(&rights.users, |user| {
        let places = rights.sessions.places(user.number).iter();
        let sessions = Json::list(places, |&place| Json::Written(sessions[place].clone()));
        of_user(user, sessions, names)
    })
}

fn of_user(user: &User, sessions: Json, names: &Names) -> Json {
    let name = names.of(Kind::User, user.number);
    let name = name.map(|name| ("name", Json::text(name)));
    let members = [
        ("clearance", Json::Number(user.clearance)),
        ("assigned", Json::numbers(user.assigned.iter())),
        ("inherited", Json::numbers(user.inherited.iter())),
        ("sessions", sessions),
    ];
    let number = [("number", Json::Number(user.number))];
    Json::Object(number.into_iter().chain(name).chain(members).collect())
}

fn of_session(session: &Session) -> Json {
    Json::Object(vec![
        ("label", Json::Number(session.label)),
        ("takes", Json::numbers(session.takes.iter())),
        ("reads", Json::numbers(session.reads.numbers())),
        ("writes", Json::numbers(session.writes.numbers())),
    ])
}

fn nobody(rights: &Rights) -> Json {
    Json::Object(vec![
        ("takes", Json::numbers(rights.untaken.iter().copied())),
        ("reads", Json::numbers(rights.unread.iter().copied())),
    ])
}
