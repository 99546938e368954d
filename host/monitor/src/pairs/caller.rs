//! A hopeful caller: it makes calls that the rules grant, and at each place
//! also tries to use what it once asked for there, granted or refused, and
//! after a closing as well.

use super::tracker::{Opened, Tracker};
use crate::call::{Call, Kind};
use crate::generate::{bad_span, good_span, number, place_among, reading, writing};
use monitor_model::{Mode, Policy};
use second_checker::random::Random;
use std::collections::{BTreeMap, BTreeSet};

pub struct Caller<'a> {
    /// Tells only which calls are worth making.
    policy: &'a Policy,
    /// Most calls are at these places, so that places are used again.
    places: Vec<u64>,
    /// At each place the roles asked for.
    asked: BTreeMap<u64, BTreeSet<usize>>,
}

impl Caller<'_> {
    pub fn new<'a>(policy: &'a Policy, places: &[u64]) -> Caller<'a> {
        Caller {
            policy,
            places: places.to_vec(),
            asked: BTreeMap::new(),
        }
    }

    /// Remembers a call that stands in the run.
    pub fn note(&mut self, call: &Call) {
        if let Call::Take { place, role } = *call {
            if (1..=self.policy.counts.roles as u64).contains(&role) {
                self.asked.entry(place).or_default().insert(role as usize);
            }
        }
    }

    /// Any call.
    pub fn any(&self, random: &mut Random, tracker: &Tracker) -> Call {
        let open = tracker.open_places();
        let kind = match random.below(100) {
            _ if open.len() < 2 && random.percent(60) => Kind::Open,
            0..=10 => Kind::Open,
            11..=17 => Kind::Close,
            _ => session_kind(random),
        };
        let place = if kind != Kind::Open && !open.is_empty() && random.percent(85) {
            random.pick(&open)
        } else {
            place_among(random, &self.places)
        };
        self.call(random, tracker, kind, place)
    }

    /// A call that isn't shared: at a place that is open with a label L
    /// doesn't dominate, or at one that isn't open.
    pub fn other(&self, random: &mut Random, tracker: &Tracker, label: usize) -> Call {
        let mut above = tracker.open_places();
        above.retain(|&place| !tracker.is_under(label, place));
        let mut place = place_among(random, &self.places);
        while tracker.is_under(label, place) {
            place = place_among(random, &self.places);
        }
        if !above.is_empty() && random.percent(85) {
            place = random.pick(&above);
        }
        let kind = session_kind(random);
        self.call(random, tracker, kind, place)
    }

    fn call(&self, random: &mut Random, tracker: &Tracker, kind: Kind, place: u64) -> Call {
        match kind {
            Kind::Open => self.opening(random, place),
            Kind::Close => Call::Close { place },
            Kind::Take => Call::Take {
                place,
                role: self.role(random, tracker.at(place)),
            },
            Kind::Drop => Call::Drop {
                place,
                role: self.role(random, tracker.at(place)),
            },
            Kind::Read => {
                let card = self.card(random, tracker, place, Mode::Read);
                reading(place, card, span(random))
            }
            Kind::Write => {
                let card = self.card(random, tracker, place, Mode::Write);
                let span = span(random);
                writing(random, place, card, span)
            }
            _ => unreachable!("a {} stands in no run", kind.name()),
        }
    }

    /// Mostly for a user with a role, at a label that the clearance dominates.
    fn opening(&self, random: &mut Random, place: u64) -> Call {
        let users: Vec<usize> = self.policy.assigned.iter().map(|line| line.0).collect();
        let user = if users.is_empty() || random.percent(15) {
            number(random, self.policy.counts.users)
        } else {
            random.pick(&users) as u64
        };
        let clearances = &self.policy.meaning.clearance;
        let clearance = clearances.get(user as usize).copied().unwrap_or(0);
        let mut label = number(random, self.policy.counts.labels);
        if clearance > 0 && random.percent(90) {
            let dominated: Vec<usize> = self.policy.labels_to_open(user as usize).collect();
            label = match random.below(3) {
                0 => clearance as u64,
                _ => random.pick(&dominated) as u64,
            };
        }
        Call::Open { place, user, label }
    }

    /// A role to take or drop: mostly one that the rules grant, also one of the user
    /// that its levels forbid, also any.
    fn role(&self, random: &mut Random, opened: Option<Opened>) -> u64 {
        let roles = self.policy.counts.roles;
        let levels_count = random.percent(75);
        let mut fitting: Vec<usize> = (1..=roles).collect();
        fitting.retain(|&role| self.fits(opened, role, levels_count));
        if fitting.is_empty() || random.percent(5) {
            number(random, roles)
        } else {
            random.pick(&fitting) as u64
        }
    }

    /// Whether the role is the user's, and where levels count also whether
    /// they allow it.
    fn fits(&self, opened: Option<Opened>, role: usize, levels_count: bool) -> bool {
        opened.is_some_and(|Opened { user, label }| {
            self.policy.is_member(user, role)
                && (!levels_count || self.policy.levels_allow(role, label))
        })
    }

    /// A card of a role that was asked for at the place, mostly of one that
    /// the session there can have got; now and then at another place.
    fn card(&self, random: &mut Random, tracker: &Tracker, place: u64, mode: Mode) -> u64 {
        let elsewhere = random.percent(10);
        let from = if elsewhere {
            random.pick(&self.places)
        } else {
            place
        };
        let any = elsewhere || random.percent(25);
        let asked = self.asked.get(&from).into_iter().flatten();
        let cards: Vec<usize> = asked
            .filter(|&&role| any || self.fits(tracker.at(place), role, true))
            .flat_map(|&role| self.policy.cards(role, mode).iter().copied())
            .collect();
        if cards.is_empty() || random.percent(5) {
            number(random, self.policy.counts.cards)
        } else {
            random.pick(&cards) as u64
        }
    }
}

/// Taking, dropping, reading or writing.
fn session_kind(random: &mut Random) -> Kind {
    match random.below(20) {
        0..=5 => Kind::Take,
        6 => Kind::Drop,
        7..=12 => Kind::Read,
        _ => Kind::Write,
    }
}

/// Offset and length, mostly within a card.
fn span(random: &mut Random) -> (u64, u64) {
    if random.percent(88) {
        good_span(random)
    } else {
        bad_span(random)
    }
}
