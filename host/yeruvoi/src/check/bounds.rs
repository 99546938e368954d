//! Number 12: the rival bounds of two labels, or that there is none.

use super::cause::Cause;
use super::circle::says;
use crate::arguments::Settings;
use crate::json::Json;
use crate::lines::{Line, Lines};
use crate::names::{Kind, Names};
use crate::page::Page;
use crate::paths::{Steps, Walks};

pub struct Bounds<'a> {
    rivals: Vec<Bound<'a>>,
}

/// A label that dominates both, and no other such label below it; with lines D
/// by which it dominates each.
struct Bound<'a> {
    label: u64,
    lines: Vec<Line<'a>>,
}

impl<'a> Bounds<'a> {
    pub fn of(lines: &Lines<'a>, lower: u64, higher: u64) -> Option<Bounds<'a>> {
        let labels = lines.all().first()?.fields[0];
        let steps = Steps::of(lines, b'D');
        let mut bounds: Vec<(u64, Walks)> = (1..=labels)
            .map(|label| (label, steps.from(label)))
            .collect();
        bounds.retain(|(_, walks)| walks.reach(lower) && walks.reach(higher));
        let nearest = |walks: &Walks| !bounds.iter().any(|&(other, _)| walks.reach(other));
        let rivals = bounds.iter().filter(|(_, walks)| nearest(walks));
        let rivals = rivals.map(|(label, walks)| Bound::of(*label, walks, [lower, higher]));
        Some(Bounds {
            rivals: rivals.collect(),
        })
    }
}

impl<'a> Bound<'a> {
    fn of(label: u64, walks: &Walks<'a>, below: [u64; 2]) -> Bound<'a> {
        let both = below.into_iter().filter_map(|thing| walks.to(thing));
        let mut lines: Vec<Line> = both.flatten().collect();
        lines.sort_by_key(|line| line.number);
        lines.dedup();
        Bound { label, lines }
    }
}

impl Cause for Bounds<'_> {
    fn write(&self, page: &mut Page, settings: &Settings) {
        let names = &settings.names;
        if self.rivals.is_empty() {
            page.line("  no label dominates both");
        }
        for bound in &self.rivals {
            let label = names.thing(Kind::Label, bound.label);
            page.line(format!(
                "  {label} is a rival bound: it dominates both, and no other bound"
            ));
            for line in &bound.lines {
                page.quote(4, line, &says(line, Kind::Label, names));
            }
        }
    }

    fn json(&self, names: &Names) -> Json {
        let rivals = Json::list(&self.rivals, |bound| {
            Json::Object(vec![
                ("label", names.json(Kind::Label, bound.label)),
                ("lines", Json::list(&bound.lines, Json::line)),
            ])
        });
        Json::Object(vec![("rivals", rivals)])
    }
}
