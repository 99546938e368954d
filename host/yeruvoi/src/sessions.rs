//! What a session of each user can do at each label.

use crate::cards::Cards;
use crate::monitor::{Mode, Policy, Roles};
use crate::threads;
use std::collections::HashMap;

/// A session at a label that holds every role which its user may take there.
#[derive(Clone, Copy, Debug, PartialEq, Eq)]
pub struct Session {
    pub label: u64,
    pub takes: Roles,
    pub reads: Cards,
    pub writes: Cards,
}

impl Session {
    pub fn cards(&self, mode: Mode) -> &Cards {
        match mode {
            Mode::Read => &self.reads,
            Mode::Write => &self.writes,
        }
    }
}

/// The sessions of all users. Users with the same roles at a label have the same session there.
pub struct Sessions {
    /// Each session once.
    pub all: Vec<Session>,
    /// By user from 1, for each label that a session may be opened at: where it is among all.
    by_user: Vec<Vec<usize>>,
}

impl Sessions {
    pub fn of(policy: &Policy) -> Sessions {
        let users: Vec<u64> = (1..=policy.counts().users).collect();
        let takable = threads::map(&users, |&user| takable(policy, user));
        let mut known = Known::default();
        let by_user = takable
            .into_iter()
            .map(|labels| labels.into_iter().map(|at| known.place(at)).collect())
            .collect();
        let possible = Possible::of(policy, &known.listed);
        let all = threads::map(&known.listed, |&at| possible.session(policy, at));
        Sessions { all, by_user }
    }

    /// Where the sessions of the user are among all, by rising label; of a number that is no user's none.
    pub fn places(&self, user: u64) -> &[usize] {
        let index = (user as usize).checked_sub(1);
        index
            .and_then(|index| self.by_user.get(index))
            .map_or(&[], Vec::as_slice)
    }

    /// The sessions of the user, by rising label.
    pub fn of_user(&self, user: u64) -> impl Iterator<Item = &Session> {
        self.places(user).iter().map(|&place| &self.all[place])
    }

    /// The cards that the user can read, or write, at some label.
    pub fn cards(&self, user: u64, mode: Mode) -> Cards {
        let sessions = self.of_user(user);
        sessions.fold(Cards::default(), |cards, session| {
            cards.joined(session.cards(mode))
        })
    }
}

type At = (u64, Roles);

/// Labels and roles that sessions have, each pair once.
#[derive(Default)]
struct Known {
    places: HashMap<At, usize>,
    listed: Vec<At>,
}

impl Known {
    fn place(&mut self, at: At) -> usize {
        let listed = &mut self.listed;
        *self.places.entry(at).or_insert_with(|| {
            listed.push(at);
            listed.len() - 1
        })
    }
}

/// The labels that the user may open a session at, with the roles that it may take there.
fn takable(policy: &Policy, user: u64) -> Vec<At> {
    let labels = 1..=policy.counts().labels;
    labels
        .filter_map(|label| Some((label, policy.takable(user, label)?)))
        .collect()
}

/// By label from 1, the cards that all roles which anyone takes there give together. The roles of one
/// session give no other card, so that of others they need not be asked.
struct Possible {
    reads: Vec<Cards>,
    writes: Vec<Cards>,
}

impl Possible {
    fn of(policy: &Policy, sessions: &[At]) -> Possible {
        let mut taken = vec![Roles::default(); policy.counts().labels as usize];
        for &(label, roles) in sessions {
            let all = &mut taken[label as usize - 1];
            *all = all.with(roles);
        }
        let cards = Cards::first(policy.counts().cards);
        let given = |mode| {
            let labels = (1..).zip(&taken);
            let by_label =
                labels.map(|(label, &roles)| given(policy, (label, roles), mode, &cards));
            by_label.collect()
        };
        Possible {
            reads: given(Mode::Read),
            writes: given(Mode::Write),
        }
    }

    fn session(&self, policy: &Policy, at: At) -> Session {
        let (label, takes) = at;
        let place = label as usize - 1;
        Session {
            label,
            takes,
            reads: given(policy, at, Mode::Read, &self.reads[place]),
            writes: given(policy, at, Mode::Write, &self.writes[place]),
        }
    }
}

/// Which of the cards the roles give to a session at the label.
fn given(policy: &Policy, (label, roles): At, mode: Mode, cards: &Cards) -> Cards {
    cards.filtered(|card| policy.gives(roles, label, card, mode))
}
