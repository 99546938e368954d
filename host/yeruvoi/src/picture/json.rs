//! The drawing for programs.

use super::flow::Circle;
use super::Drawing;
use crate::json::Json;
use crate::names::{Kind, Names};

pub fn written(drawing: &Drawing, names: &Names) -> Json {
    let things = |kind, count| Json::list(1..=count, |number| names.json(kind, number));
    let flow = &drawing.flow;
    let circle = |role: &u64| flow.circle(*role, *role);
    let on_circle = (1..=drawing.roles).filter(|role| circle(role).is_some());
    let by_reading = on_circle
        .clone()
        .filter(|role| circle(role) == Some(Circle::Reading));
    let [reading, sharing] = drawing.all();
    Json::Object(vec![
        ("accepted", Json::Boolean(true)),
        ("labels", things(Kind::Label, drawing.labels)),
        ("roles", things(Kind::Role, drawing.roles)),
        ("dominance", dominance(drawing)),
        ("seniority", seniority(drawing)),
        (
            "flow",
            Json::list(&drawing.reading, |&flow| reading_of(drawing, flow)),
        ),
        ("circle", Json::numbers(on_circle)),
        ("circle_by_reading", Json::numbers(by_reading)),
        (
            "sharing",
            Json::list(&drawing.sharing, |&(first, second)| {
                Json::Object(vec![("roles", Json::numbers([first, second]))])
            }),
        ),
        ("flows_by_reading", Json::Number(reading as u64)),
        ("pairs_sharing", Json::Number(sharing as u64)),
    ])
}

/// Pairs with the upper thing first, rising.
fn turned(pairs: &[(u64, u64)]) -> Vec<(u64, u64)> {
    let mut pairs: Vec<(u64, u64)> = pairs.iter().map(|&(lower, upper)| (upper, lower)).collect();
    pairs.sort_unstable();
    pairs
}

fn dominance(drawing: &Drawing) -> Json {
    Json::list(turned(&drawing.dominance), |(upper, lower)| {
        Json::Object(vec![
            ("label", Json::Number(upper)),
            ("over", Json::Number(lower)),
        ])
    })
}

fn seniority(drawing: &Drawing) -> Json {
    Json::list(turned(&drawing.seniority), |(upper, lower)| {
        Json::Object(vec![
            ("role", Json::Number(upper)),
            ("over", Json::Number(lower)),
            (
                "circle_by",
                made_by(drawing.flow.circle_of_two(lower, upper)),
            ),
        ])
    })
}

fn reading_of(drawing: &Drawing, (from, to): (u64, u64)) -> Json {
    let circle = drawing.flow.circle(from, to);
    Json::Object(vec![
        ("from", Json::Number(from)),
        ("to", Json::Number(to)),
        ("circle", Json::Boolean(circle.is_some())),
        ("circle_by", made_by(circle)),
    ])
}

/// What makes the circle, or null.
fn made_by(circle: Option<Circle>) -> Json {
    circle.map_or(Json::Null, |circle| Json::text(circle.words()))
}
