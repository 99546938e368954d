//! What users can do, compared.

use super::change::{Change, Kept, Right};
use super::Sides;
use crate::cards::Cards;
use crate::monitor::Mode;
use crate::sessions::Sessions;
use std::collections::BTreeMap;

/// By user what is gained and lost, and what is kept at other labels.
pub fn changes(sides: &Sides) -> Vec<Change> {
    let users = 1..=sides.old.counts.users.max(sides.new.counts.users);
    let asked = users.flat_map(|user| Mode::BOTH.map(|mode| (user, mode)));
    asked
        .flat_map(|(user, mode)| of_user(sides, user, mode))
        .collect()
}

fn of_user(sides: &Sides, user: u64, mode: Mode) -> Vec<Change> {
    let old = sides.old.sessions.cards(user, mode);
    let new = sides.new.sessions.cards(user, mode);
    let right = |gained: bool, cards: Cards| {
        Change::Right(Right {
            user,
            gained,
            mode,
            cards: cards.numbers(),
        })
    };
    let rights = [(false, old.without(&new)), (true, new.without(&old))];
    let told = rights.into_iter().filter(|(_, cards)| !cards.is_empty());
    let rights = told.map(|(gained, cards)| right(gained, cards));
    let both = old.without(&old.without(&new));
    rights.chain(kept(sides, user, mode, both)).collect()
}

/// Those of the cards that are held at other labels, by the labels.
fn kept(sides: &Sides, user: u64, mode: Mode, cards: Cards) -> impl Iterator<Item = Change> {
    let (old, new) = (
        by_label(&sides.old.sessions, user, mode),
        by_label(&sides.new.sessions, user, mode),
    );
    let moved = moved(&old, &new);
    let mut groups: BTreeMap<[Vec<u64>; 2], Vec<u64>> = BTreeMap::new();
    for card in cards.filtered(|card| moved.holds(card)).numbers() {
        let labels = [labels(&old, card), labels(&new, card)];
        groups.entry(labels).or_default().push(card);
    }
    groups.into_iter().map(move |([old, new], cards)| {
        Change::Kept(Kept {
            user,
            mode,
            cards,
            old,
            new,
        })
    })
}

type ByLabel = BTreeMap<u64, Cards>;

fn by_label(sessions: &Sessions, user: u64, mode: Mode) -> ByLabel {
    let sessions = sessions.of_user(user);
    sessions
        .map(|session| (session.label, *session.cards(mode)))
        .collect()
}

/// The cards that are held at a label on one side alone.
fn moved(old: &ByLabel, new: &ByLabel) -> Cards {
    let labels = old.keys().chain(new.keys());
    labels.fold(Cards::default(), |moved, label| {
        let held = |side: &ByLabel| side.get(label).copied().unwrap_or_default();
        let (old, new) = (held(old), held(new));
        moved.joined(&old.without(&new)).joined(&new.without(&old))
    })
}

/// The labels at which the card is held.
fn labels(side: &ByLabel, card: u64) -> Vec<u64> {
    let holding = side.iter().filter(|(_, cards)| cards.holds(card));
    holding.map(|(&label, _)| label).collect()
}
