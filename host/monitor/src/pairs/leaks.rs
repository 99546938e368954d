//! Deliberately leaky copies of the model, which the pairs must tell from it,
//! and the lists too.
//!
//! One that might be expected here leaks nothing, so no pair can show it: taking
//! without membership, as the levels alone keep labels apart.

use super::compare::compare;
use super::monitor::Monitor;
use super::tally::Tally;
use super::Pair;
use crate::call::Call;
use monitor_model::{Model, Part, Policy, Session, CARD_BYTES, STATE_BYTES};
use std::collections::{BTreeMap, BTreeSet};

#[derive(Clone, Copy, Debug, PartialEq, Eq)]
pub enum Leak {
    /// Taking leaves the w-level untested.
    WriteLevel,
    /// Taking compares the clearance where the session's label is meant.
    Clearance,
    /// Opening keeps the roles of the last session there.
    RolesKept,
    /// A role taken at a place that isn't open waits for the opening.
    RolesWait,
    /// A read may use the roles held at all places.
    AllPlaces,
    /// Closing answers 0 and does nothing.
    StaysOpen,
    /// A write may go on in the next card.
    PastTheCard,
    /// All places together hold four roles at most.
    FourRoles,
}

impl Leak {
    pub const ALL: [Leak; 8] = [
        Leak::WriteLevel,
        Leak::Clearance,
        Leak::RolesKept,
        Leak::RolesWait,
        Leak::AllPlaces,
        Leak::StaysOpen,
        Leak::PastTheCard,
        Leak::FourRoles,
    ];
}

/// A copy of the model with one leak.
pub struct Leaky {
    leak: Leak,
    model: Model,
    /// Roles that the next session at a place begins with.
    waiting: BTreeMap<usize, BTreeSet<usize>>,
}

impl Monitor for Leaky {
    fn number(&mut self, call: &Call, store: &mut [u8]) -> u64 {
        let number = call.number_on_model(&self.model, STATE_BYTES, store.len());
        match (self.leak, call, number) {
            (Leak::WriteLevel, &Call::Take { place, role }, 28) => {
                self.take(place, role, |policy, role, session| {
                    policy.meaning.read_level_allows(role, session.label)
                })
            }
            (Leak::Clearance, &Call::Take { place, role }, 28) => {
                self.take(place, role, |policy, role, session| {
                    policy.levels_allow(role, policy.meaning.clearance[session.user])
                })
            }
            (Leak::RolesKept, &Call::Close { place }, 0) => self.close_with_roles(place),
            (Leak::RolesKept | Leak::RolesWait, &Call::Open { place, user, label }, 0) => {
                self.open_with_roles(place, user, label)
            }
            (Leak::RolesWait, &Call::Take { place, role }, 24) => self.take_early(place, role),
            (Leak::AllPlaces, &Call::Read(part), 29) => self.read_by_any_place(store, part),
            (Leak::StaysOpen, Call::Close { .. }, 0) => 0,
            (Leak::PastTheCard, Call::Write { bytes, .. }, 30) => {
                self.write_on(store, call.part(), bytes)
            }
            (Leak::FourRoles, Call::Take { .. }, 0) if self.roles_held() >= 4 => 28,
            _ => self.model.number(call, store),
        }
    }
}

impl Leaky {
    pub fn new(leak: Leak) -> Leaky {
        Leaky {
            leak,
            model: Model::default(),
            waiting: BTreeMap::new(),
        }
    }

    /// Taking a role that its levels forbid, where another test lets it pass.
    fn take(
        &mut self,
        place: u64,
        role: u64,
        passes: impl Fn(&Policy, usize, &Session) -> bool,
    ) -> u64 {
        let (place, role) = (place as usize, role as usize);
        let passes = match (self.model.policy(), self.model.session(place)) {
            (Some(policy), Some(session)) => passes(policy, role, session),
            _ => false,
        };
        if !passes {
            return 28;
        }
        self.model.hold(place, role);
        0
    }

    fn close_with_roles(&mut self, place: u64) -> u64 {
        if let Some(session) = self.model.session(place as usize) {
            self.waiting.insert(place as usize, session.roles.clone());
        }
        self.model.close(STATE_BYTES, place)
    }

    fn open_with_roles(&mut self, place: u64, user: u64, label: u64) -> u64 {
        let number = self.model.open(STATE_BYTES, place, user, label);
        let place = place as usize;
        for role in self.waiting.remove(&place).unwrap_or_default() {
            self.model.hold(place, role);
        }
        number
    }

    fn take_early(&mut self, place: u64, role: u64) -> u64 {
        let roles = self.model.policy().map_or(0, |policy| policy.counts.roles);
        if (1..=roles as u64).contains(&role) {
            let waiting = self.waiting.entry(place as usize).or_default();
            waiting.insert(role as usize);
        }
        24
    }

    fn read_by_any_place(&self, store: &[u8], part: Part) -> u64 {
        self.model
            .open_places()
            .into_iter()
            .map(|place| {
                let place = place as u64;
                self.model
                    .read(STATE_BYTES, store, Part { place, ..part })
                    .0
            })
            .find(|&number| number != 29)
            .unwrap_or(29)
    }

    /// A write past its card's end, as far as the store has the bytes.
    fn write_on(&self, store: &mut [u8], part: Option<Part>, bytes: &[u8]) -> u64 {
        let start = part.and_then(|part| {
            let card = CARD_BYTES * (part.card as usize - 1);
            card.checked_add(usize::try_from(part.offset).ok()?)
        });
        let range = start.and_then(|start| Some(start..start.checked_add(bytes.len())?));
        match range.and_then(|range| store.get_mut(range)) {
            Some(reached) => {
                reached.copy_from_slice(bytes);
                0
            }
            None => 30,
        }
    }

    fn roles_held(&self) -> usize {
        let open = self.model.open_places();
        let sessions = open.iter().filter_map(|&place| self.model.session(place));
        sessions.map(|session| session.roles.len()).sum()
    }
}

/// How many pairs of this seed it takes until a leak is seen, and what is
/// seen of it.
pub fn caught(leak: Leak, count: u64, seed: u64) -> Option<(u64, String)> {
    (0..count).find_map(|index| {
        let copies = [leak, leak].map(Leaky::new);
        let seen = compare(&Pair::new(seed, index), copies, &mut Tally::default());
        Some((index + 1, seen.err()?))
    })
}
