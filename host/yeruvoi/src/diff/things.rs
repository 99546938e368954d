//! What else is different: counts, labels, orders, levels, assignments, permissions, flow.

use super::change::{Change, Circle, Count, Figure, Labelled, Link, Linked, Permitted};
use super::{Permissions, Side, Sides};
use crate::monitor::{Counts, Mode};
use crate::names::Kind;
use crate::relation::Relation;
use std::collections::BTreeMap;

pub fn changes(sides: &Sides) -> Vec<Change> {
    let levels = Mode::BOTH.map(Figure::Level);
    [
        counts(sides),
        links(sides, Link::Dominates),
        figures(sides, Figure::Clearance),
        figures(sides, Figure::CardLabel),
        levels.map(|level| figures(sides, level)).concat(),
        links(sides, Link::Senior),
        links(sides, Link::Assigned),
        permitted(&sides.old.permissions, &sides.new.permissions, false),
        permitted(&sides.new.permissions, &sides.old.permissions, true),
        links(sides, Link::Flows),
        circle(sides),
    ]
    .concat()
}

fn count(counts: Counts, kind: Kind) -> u64 {
    match kind {
        Kind::Label => counts.labels,
        Kind::Role => counts.roles,
        Kind::User => counts.users,
        Kind::Card => counts.cards,
    }
}

fn counts(sides: &Sides) -> Vec<Change> {
    let both = |kind| {
        (
            kind,
            count(sides.old.counts, kind),
            count(sides.new.counts, kind),
        )
    };
    let counts = Kind::ALL.into_iter().map(both);
    let different = counts.filter(|(_, old, new)| old != new);
    different
        .map(|(kind, old, new)| Change::Count(Count { kind, old, new }))
        .collect()
}

impl Side {
    /// None where the file has no such thing.
    fn figure(&self, figure: Figure, number: u64) -> Option<u64> {
        let (kind, _) = figure.words();
        let known = (1..=count(self.counts, kind)).contains(&number);
        known.then(|| match figure {
            Figure::Clearance => self.policy.clearance(number),
            Figure::CardLabel => self.policy.card_label(number),
            Figure::Level(mode) => self.policy.level(number, mode),
        })
    }

    fn relation(&self, link: Link) -> &Relation {
        match link {
            Link::Dominates => &self.dominance,
            Link::Senior => &self.seniority,
            Link::Assigned => &self.assigned,
            Link::Flows => &self.flow,
        }
    }
}

/// How many there are on the side that has more.
fn most(sides: &Sides, kind: Kind) -> u64 {
    count(sides.old.counts, kind).max(count(sides.new.counts, kind))
}

fn figures(sides: &Sides, figure: Figure) -> Vec<Change> {
    let numbers = 1..=most(sides, figure.words().0);
    let both = numbers.map(|number| {
        let (old, new) = (
            sides.old.figure(figure, number),
            sides.new.figure(figure, number),
        );
        (number, old, new)
    });
    both.filter(|(_, old, new)| old != new)
        .map(|(number, old, new)| {
            Change::Labelled(Labelled {
                figure,
                number,
                old,
                new,
            })
        })
        .collect()
}

fn links(sides: &Sides, link: Link) -> Vec<Change> {
    let (old, new) = (sides.old.relation(link), sides.new.relation(link));
    let (ended, begun) = (old.without(new), new.without(old));
    let numbers = 1..=most(sides, link.kinds().0);
    let links = numbers.flat_map(|number| {
        [(&ended, false), (&begun, true)].map(|(pairs, now)| Linked {
            link,
            number,
            others: pairs.others(number),
            now,
        })
    });
    let some = links.filter(|linked| !linked.others.is_empty());
    some.map(Change::Linked).collect()
}

/// The permissions that one side has and the other has not, by role and mode.
fn permitted(having: &Permissions, lacking: &Permissions, now: bool) -> Vec<Change> {
    let mut groups: BTreeMap<(u64, Mode), Vec<u64>> = BTreeMap::new();
    for &(role, mode, card) in having.difference(lacking) {
        groups.entry((role, mode)).or_default().push(card);
    }
    let groups = groups.into_iter();
    groups
        .map(|((role, mode), cards)| {
            Change::Permitted(Permitted {
                role,
                mode,
                cards,
                now,
            })
        })
        .collect()
}

fn circle(sides: &Sides) -> Vec<Change> {
    let (old, new) = (sides.old.policy.circle(), sides.new.policy.circle());
    match old == new {
        true => Vec::new(),
        false => vec![Change::Circle(Circle { old, new })],
    }
}
