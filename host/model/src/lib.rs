//! An independent model of the monitor, written from document 01 alone. The
//! policy of an accepted file comes from the second checker.
//!
//! "Other calls check in order of number, each as far as it applies to that
//! call." So each call below is a row of checks, left at the first that fails.
//! The review calls, in `review`, are written from the request for them.

pub mod answer;
pub mod review;

use answer::{Figure, Verdict};
use second_checker::check::{read, Counts, Meaning, RoleFile, READ, WRITE};
use second_checker::{check, Outcome};
use std::collections::BTreeSet;
use std::ops::Range;
use std::rc::Rc;

/// "State is 65,536 lent bytes, the first ones where more are lent".
pub const STATE_BYTES: usize = 65_536;
/// "There are 64 places, numbered from 1".
pub const PLACES: usize = 64;
/// "A card is 64 bytes."
pub const CARD_BYTES: usize = 64;

/// What an accepted file says. "Labels, clearances and permissions stay fixed
/// after a load."
pub struct Policy {
    pub counts: Counts,
    pub meaning: Meaning,
    /// A lines: user, role.
    pub assigned: BTreeSet<(usize, usize)>,
    /// Role flow: (from, to).
    pub flows: BTreeSet<(usize, usize)>,
    /// "the lowest role on a circle of two or more roles, or 0"
    pub circle: usize,
}

impl Policy {
    /// The policy of an accepted file, or the refusal's number and place.
    pub fn of(file: &[u8]) -> Result<Policy, Verdict> {
        let accepted = match check(file) {
            Outcome::Accepted(accepted) => accepted,
            refused => return Err(Verdict::of(&refused)),
        };
        let role_file = read(file).expect("an accepted file has its form");
        Ok(Policy {
            flows: accepted.flows,
            circle: accepted.circle.unwrap_or(0),
            ..Policy::unchecked(&role_file)
        })
    }

    /// What the lines say, whether or not the file is accepted; without role
    /// flow.
    pub fn unchecked(role_file: &RoleFile) -> Policy {
        Policy {
            counts: role_file.counts,
            meaning: Meaning::of(role_file),
            assigned: role_file.assignments.iter().copied().collect(),
            flows: BTreeSet::new(),
            circle: 0,
        }
    }

    /// "a label that the clearance dominates"
    fn is_cleared(&self, user: usize, label: usize) -> bool {
        let clearance = self.meaning.clearance[user];
        self.meaning.dominance.over(clearance, label)
    }

    /// The labels that the user's clearance dominates.
    pub fn labels_to_open(&self, user: usize) -> impl Iterator<Item = usize> + '_ {
        (1..=self.counts.labels).filter(move |&label| self.is_cleared(user, label))
    }

    /// "the user is assigned to it or to a senior of it"
    pub fn is_member(&self, user: usize, role: usize) -> bool {
        self.assigned
            .range((user, 0)..=(user, usize::MAX))
            .any(|&(_, assigned)| self.meaning.seniority.over(assigned, role))
    }

    /// "the session's label dominates its r-level, and its w-level dominates
    /// the session's label. A free level always passes; an undefined one
    /// never."
    pub fn levels_allow(&self, role: usize, label: usize) -> bool {
        self.meaning.read_level_allows(role, label) && self.meaning.write_level_allows(role, label)
    }

    /// The cards a role may read or write, "inherited ones included".
    pub fn cards(&self, role: usize, mode: Mode) -> &BTreeSet<usize> {
        match mode {
            Mode::Read => &self.meaning.may_read[role],
            Mode::Write => &self.meaning.may_write[role],
        }
    }

    /// The roles that a session of the user at the label may take.
    pub fn roles_to_take(&self, user: usize, label: usize) -> impl Iterator<Item = usize> + '_ {
        (1..=self.counts.roles)
            .filter(move |&role| self.is_member(user, role) && self.levels_allow(role, label))
    }
}

/// "role r may read (m = 1) or write (m = 2) card o"
#[derive(Clone, Copy, Debug, PartialEq, Eq)]
pub enum Mode {
    Read = READ as isize,
    Write = WRITE as isize,
}

/// "Opening gives it a user and a label that the clearance dominates, and no
/// roles."
#[derive(Clone, Debug, PartialEq, Eq)]
pub struct Session {
    pub user: usize,
    pub label: usize,
    pub roles: BTreeSet<usize>,
}

/// The place, card, offset and length that a read or a write names.
#[derive(Clone, Copy, Debug, PartialEq, Eq)]
pub struct Part {
    pub place: u64,
    pub card: u64,
    pub offset: u64,
    pub length: u64,
}

impl Part {
    /// "Card o fills bytes 64 × (o − 1) to 64 × o − 1 of the store": the bytes
    /// of a part that is within its card.
    pub fn bytes(self) -> Range<usize> {
        let start = CARD_BYTES * (self.card as usize - 1) + self.offset as usize;
        start..start + self.length as usize
    }
}

/// What a state holds; `default` is a zeroed one.
#[derive(Clone, Default)]
pub struct Model {
    policy: Option<Rc<Policy>>,
    /// Empty until a load, then 64 places.
    places: Vec<Option<Session>>,
}

impl Model {
    /// The policy of the last load, where there was one.
    pub fn policy(&self) -> Option<&Rc<Policy>> {
        self.policy.as_ref()
    }

    /// The session at a place from 1 to 64.
    pub fn session(&self, place: usize) -> Option<&Session> {
        self.places.get(place - 1)?.as_ref()
    }

    /// The places with a session.
    pub fn open_places(&self) -> Vec<usize> {
        (1..=self.places.len())
            .filter(|&place| self.session(place).is_some())
            .collect()
    }

    // -----------------------------------------------------------------------
    // The checks that several calls begin with

    /// "21: another call with such a state, or one holding a number outside
    /// the limits above (a zeroed state has 0 labels ...)"
    fn usable(&self, state_length: usize) -> Result<&Policy, u64> {
        match &self.policy {
            Some(policy) if state_length >= STATE_BYTES => Ok(policy),
            _ => Err(21),
        }
    }

    /// 21, 22, then "24: no session at the place": the policy, the place and its
    /// session.
    fn in_session(
        &self,
        state_length: usize,
        place: u64,
    ) -> Result<(&Policy, usize, &Session), u64> {
        let policy = self.usable(state_length)?;
        let place = place_in_range(place)?;
        let session = self.session(place);
        session.map(|session| (policy, place, session)).ok_or(24)
    }

    // -----------------------------------------------------------------------
    // What each call comes to, without doing it

    /// 21, 22, 23, 25, 26
    pub fn opening(
        &self,
        state_length: usize,
        place: u64,
        user: u64,
        label: u64,
    ) -> Result<(usize, Session), u64> {
        let policy = self.usable(state_length)?;
        let place = place_in_range(place)?;
        // "23: opening a place in use"
        if self.session(place).is_some() {
            return Err(23);
        }
        let user = in_range(user, policy.counts.users)?;
        let label = in_range(label, policy.counts.labels)?;
        // "26: clearance doesn't dominate the label asked"
        if !policy.is_cleared(user, label) {
            return Err(26);
        }
        let session = Session {
            user,
            label,
            roles: BTreeSet::new(),
        };
        Ok((place, session))
    }

    /// 21, 22, 24
    pub fn closing(&self, state_length: usize, place: u64) -> Result<usize, u64> {
        let (_, place, _) = self.in_session(state_length, place)?;
        Ok(place)
    }

    /// 21, 22, 24, 25, 27, 28. "Taking makes its checks first even then", that
    /// is where the role is held already.
    pub fn taking(
        &self,
        state_length: usize,
        place: u64,
        role: u64,
    ) -> Result<(usize, usize), u64> {
        let (policy, place, session) = self.in_session(state_length, place)?;
        let role = in_range(role, policy.counts.roles)?;
        // "27: neither the role nor a senior of it is assigned to the user"
        if !policy.is_member(session.user, role) {
            return Err(27);
        }
        // "28: a level of the role forbids it at this label"
        if !policy.levels_allow(role, session.label) {
            return Err(28);
        }
        Ok((place, role))
    }

    /// 21, 22, 24, 25; "27 and 28 are for taking only".
    pub fn dropping(
        &self,
        state_length: usize,
        place: u64,
        role: u64,
    ) -> Result<(usize, usize), u64> {
        let (policy, place, _) = self.in_session(state_length, place)?;
        let role = in_range(role, policy.counts.roles)?;
        Ok((place, role))
    }

    /// 21, 22, 24, 25, 29, 30, 31: a read or a write, with the bytes of the
    /// store it is about.
    pub fn reaching(
        &self,
        state_length: usize,
        store_length: usize,
        part: Part,
        mode: Mode,
    ) -> Result<Range<usize>, u64> {
        let (policy, _, session) = self.in_session(state_length, part.place)?;
        let card = in_range(part.card, policy.counts.cards)?;
        // "29: no role held gives this read or write": "A session may use the
        // permissions of all roles it holds, inherited ones included."
        let given = session
            .roles
            .iter()
            .any(|&role| policy.cards(role, mode).contains(&card));
        if !given {
            return Err(29);
        }
        // "30: offset plus length above 64", of any two numbers.
        if u128::from(part.offset) + u128::from(part.length) > CARD_BYTES as u128 {
            return Err(30);
        }
        // "31: store shorter than 64 × cards"
        if store_length < CARD_BYTES * policy.counts.cards {
            return Err(31);
        }
        Ok(part.bytes())
    }

    /// 21, 25
    pub fn flowing(&self, state_length: usize, from: u64, to: u64) -> Result<bool, u64> {
        let policy = self.usable(state_length)?;
        let from = in_range(from, policy.counts.roles)?;
        let to = in_range(to, policy.counts.roles)?;
        // "whether the first flows to the second (never to itself)"
        Ok(policy.flows.contains(&(from, to)))
    }

    /// 21
    pub fn circling(&self, state_length: usize) -> Result<usize, u64> {
        Ok(self.usable(state_length)?.circle)
    }

    /// 21, 25, 26: whether a session of the user at the label could be granted
    /// a read or a write of the card.
    pub fn granting(
        &self,
        state_length: usize,
        user: u64,
        label: u64,
        card: u64,
        mode: u64,
    ) -> Result<bool, u64> {
        let policy = self.usable(state_length)?;
        let user = in_range(user, policy.counts.users)?;
        let label = in_range(label, policy.counts.labels)?;
        let card = in_range(card, policy.counts.cards)?;
        let mode = mode_in_range(mode)?;
        // "26 where the clearance doesn't dominate the label"
        if !policy.is_cleared(user, label) {
            return Err(26);
        }
        // "some role that the user may take at that label gives it, directly
        // or by inheritance"
        let granted = policy
            .roles_to_take(user, label)
            .any(|role| policy.cards(role, mode).contains(&card));
        Ok(granted)
    }

    // -----------------------------------------------------------------------
    // The calls

    /// "Load checks 7, 1, then line by line 2 to 5 ...": 7, then the verdict.
    /// "A successful load replaces it and closes all sessions."
    pub fn load(&mut self, file: &[u8], state_length: usize) -> Verdict {
        // "7: load with a state shorter than 65,536 bytes"; "[0, 0] where no
        // brackets stand"
        if state_length < STATE_BYTES {
            return Verdict::refused(7);
        }
        match Policy::of(file) {
            Err(refusal) => refusal,
            Ok(policy) => {
                self.policy = Some(Rc::new(policy));
                self.places = vec![None; PLACES];
                Verdict::default()
            }
        }
    }

    pub fn open(&mut self, state_length: usize, place: u64, user: u64, label: u64) -> u64 {
        match self.opening(state_length, place, user, label) {
            Err(number) => number,
            Ok((place, session)) => {
                self.places[place - 1] = Some(session);
                0
            }
        }
    }

    /// "Closing empties the place, and it can be opened again."
    pub fn close(&mut self, state_length: usize, place: u64) -> u64 {
        match self.closing(state_length, place) {
            Err(number) => number,
            Ok(place) => {
                self.places[place - 1] = None;
                0
            }
        }
    }

    /// "Taking a role already held, or dropping one not held, is done and
    /// changes nothing."
    pub fn take(&mut self, state_length: usize, place: u64, role: u64) -> u64 {
        match self.taking(state_length, place, role) {
            Err(number) => number,
            Ok((place, role)) => {
                self.hold(place, role);
                0
            }
        }
    }

    /// Puts a role among those held at a place from 1 to 64.
    pub fn hold(&mut self, place: usize, role: usize) {
        if let Some(session) = &mut self.places[place - 1] {
            session.roles.insert(role);
        }
    }

    pub fn drop(&mut self, state_length: usize, place: u64, role: u64) -> u64 {
        match self.dropping(state_length, place, role) {
            Err(number) => number,
            Ok((place, role)) => {
                if let Some(session) = &mut self.places[place - 1] {
                    session.roles.remove(&role);
                }
                0
            }
        }
    }

    /// The number and the part. "It hands back that part of the lent store
    /// itself. On a refusal it is the empty part at the store's start".
    pub fn read(&self, state_length: usize, store: &[u8], part: Part) -> (u64, Range<usize>) {
        match self.reaching(state_length, store.len(), part, Mode::Read) {
            Err(number) => (number, 0..0),
            Ok(range) => (0, range),
        }
    }

    /// "A write puts the given bytes at the offset and changes no other byte."
    pub fn write(
        &self,
        state_length: usize,
        store: &mut [u8],
        place: u64,
        card: u64,
        offset: u64,
        bytes: &[u8],
    ) -> u64 {
        let part = Part {
            place,
            card,
            offset,
            length: bytes.len() as u64,
        };
        match self.reaching(state_length, store.len(), part, Mode::Write) {
            Err(number) => number,
            Ok(range) => {
                store[range].copy_from_slice(bytes);
                0
            }
        }
    }

    pub fn flows(&self, state_length: usize, from: u64, to: u64) -> Figure {
        figure(self.flowing(state_length, from, to).map(u64::from))
    }

    pub fn circle(&self, state_length: usize) -> Figure {
        figure(self.circling(state_length).map(|role| role as u64))
    }

    pub fn can(&self, state_length: usize, user: u64, label: u64, card: u64, mode: u64) -> Figure {
        let granting = self.granting(state_length, user, label, card, mode);
        figure(granting.map(u64::from))
    }
}

/// "22: place not 1 to 64"
fn place_in_range(place: u64) -> Result<usize, u64> {
    in_range(place, PLACES).map_err(|_| 22)
}

/// "25: user, label, role or card number out of range"
fn in_range(number: u64, count: usize) -> Result<usize, u64> {
    if (1..=count as u64).contains(&number) {
        Ok(number as usize)
    } else {
        Err(25)
    }
}

/// "25 for a user, label, card or mode out of range"
fn mode_in_range(mode: u64) -> Result<Mode, u64> {
    match mode {
        1 => Ok(Mode::Read),
        2 => Ok(Mode::Write),
        _ => Err(25),
    }
}

/// A refusal's figure is 0.
fn figure(result: Result<u64, u64>) -> Figure {
    match result {
        Ok(figure) => Figure { number: 0, figure },
        Err(number) => Figure::refused(number),
    }
}
