//! Number 6: every user and card with no label, or with the lines that give it
//! several.

use super::cause::Cause;
use crate::arguments::Settings;
use crate::json::Json;
use crate::lines::{Line, Lines};
use crate::names::{Kind, Names};
use crate::page::{rows, Page};

pub struct Labellings<'a> {
    faults: Vec<Labelling<'a>>,
}

/// A user or card, and its lines U or O: none, or several.
struct Labelling<'a> {
    kind: Kind,
    thing: u64,
    lines: Vec<Line<'a>>,
}

impl<'a> Labellings<'a> {
    pub fn of(lines: &Lines<'a>) -> Labellings<'a> {
        let [_, _, users, cards] = lines.all()[0].fields;
        let mut faults = faults(lines, Kind::User, users);
        faults.extend(self::faults(lines, Kind::Card, cards));
        Labellings { faults }
    }
}

fn faults<'a>(lines: &Lines<'a>, kind: Kind, count: u64) -> Vec<Labelling<'a>> {
    let mut things: Vec<Labelling> = (1..=count)
        .map(|thing| Labelling {
            kind,
            thing,
            lines: Vec::new(),
        })
        .collect();
    for line in lines.with(letter(kind)) {
        things[line.fields[0] as usize - 1].lines.push(*line);
    }
    things.retain(|thing| thing.lines.len() != 1);
    things
}

/// The letter of the lines that label a user or card.
fn letter(kind: Kind) -> u8 {
    match kind {
        Kind::User => b'U',
        _ => b'O',
    }
}

impl Labelling<'_> {
    fn write(&self, page: &mut Page, names: &Names) {
        let thing = names.thing(self.kind, self.thing);
        let letter = char::from(letter(self.kind));
        match self.lines.len() {
            0 => page.line(format!("  {thing}: no line {letter} gives it a label")),
            several => page.line(format!(
                "  {thing}: {several} lines {letter} give it a label"
            )),
        }
        for line in &self.lines {
            let label = names.thing(Kind::Label, line.fields[1]);
            page.quote(4, line, &label);
        }
    }

    fn json(&self, names: &Names) -> Json {
        Json::Object(vec![
            ("kind", Json::text(self.kind.word())),
            ("thing", names.json(self.kind, self.thing)),
            ("lines", Json::list(&self.lines, Json::line)),
        ])
    }
}

impl Cause for Labellings<'_> {
    fn write(&self, page: &mut Page, settings: &Settings) {
        let shown = rows(self.faults.len(), settings.all);
        for fault in &self.faults[..shown] {
            fault.write(page, &settings.names);
        }
        page.left_out(2, self.faults.len() - shown);
    }

    fn json(&self, names: &Names) -> Json {
        let things = Json::list(&self.faults, |fault| fault.json(names));
        Json::Object(vec![("things", things)])
    }
}
