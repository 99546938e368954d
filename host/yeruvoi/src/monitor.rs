//! The archive's calls. Every fact that the command prints of an accepted file
//! comes from here.

use crate::bits;
use crate::c;
use crate::header::STATE_BYTES;

/// A load's number and place; all three are 0 where the file is accepted.
#[derive(Clone, Copy, Debug, PartialEq, Eq)]
pub struct Verdict {
    pub number: u64,
    pub first: u64,
    pub second: u64,
}

/// How many there are of each thing.
#[derive(Clone, Copy, Debug, PartialEq, Eq)]
pub struct Counts {
    pub labels: u64,
    pub roles: u64,
    pub users: u64,
    pub cards: u64,
}

/// What may be done with a card.
#[derive(Clone, Copy, Debug, PartialEq, Eq, Hash, PartialOrd, Ord)]
pub enum Mode {
    Read = 1,
    Write = 2,
}

impl Mode {
    pub const BOTH: [Mode; 2] = [Mode::Read, Mode::Write];

    /// As the command line and the text have it.
    pub fn word(self) -> &'static str {
        match self {
            Mode::Read => "read",
            Mode::Write => "write",
        }
    }

    /// The level that this mode makes.
    pub fn level_word(self) -> &'static str {
        match self {
            Mode::Read => "r-level",
            Mode::Write => "w-level",
        }
    }
}

/// A level that limits nothing, as `Policy::level` answers it.
pub const FREE: u64 = 0;
/// A level that does not exist, as `Policy::level` answers it.
pub const UNDEFINED: u64 = 99;

/// A set of roles: role r is bit r - 1 of low, or from 65 on bit r - 65 of
/// high.
#[derive(Clone, Copy, Debug, Default, PartialEq, Eq, Hash)]
pub struct Roles {
    pub low: u64,
    pub high: u64,
}

impl Roles {
    /// One role from 1 to 128 alone.
    pub fn one(role: u64) -> Roles {
        let bit = 1u128 << (role - 1);
        Roles {
            low: bit as u64,
            high: (bit >> 64) as u64,
        }
    }

    /// These roles.
    pub fn of(roles: impl IntoIterator<Item = u64>) -> Roles {
        let roles = roles.into_iter().map(Roles::one);
        roles.fold(Roles::default(), Roles::with)
    }

    pub fn holds(self, role: u64) -> bool {
        let one = Roles::one(role);
        self.low & one.low != 0 || self.high & one.high != 0
    }

    pub fn with(self, other: Roles) -> Roles {
        Roles {
            low: self.low | other.low,
            high: self.high | other.high,
        }
    }

    pub fn is_empty(self) -> bool {
        self.low == 0 && self.high == 0
    }

    /// The roles, rising.
    pub fn iter(self) -> impl Iterator<Item = u64> {
        bits::numbers(u128::from(self.high) << 64 | u128::from(self.low))
    }
}

/// A loaded state. A number out of the file's counts is no question to ask of
/// it: the calls below panic there.
pub struct Policy {
    state: Vec<u8>,
}

impl Policy {
    /// The state that a load of the file leaves, or why the file is refused.
    pub fn load(file: &[u8]) -> Result<Policy, Verdict> {
        let mut state = vec![0; STATE_BYTES as usize];
        let verdict =
            unsafe { c::monitor_load(file.as_ptr(), file.len(), state.as_mut_ptr(), state.len()) };
        if verdict.number == 0 {
            return Ok(Policy { state });
        }
        Err(Verdict {
            number: verdict.number,
            first: verdict.first,
            second: verdict.second,
        })
    }

    fn pointer(&self) -> *const u8 {
        self.state.as_ptr()
    }

    fn length(&self) -> usize {
        self.state.len()
    }

    pub fn counts(&self) -> Counts {
        let counts = unsafe { c::monitor_counts_of(self.pointer(), self.length()) };
        done(counts.number);
        Counts {
            labels: counts.labels,
            roles: counts.roles,
            users: counts.users,
            cards: counts.cards,
        }
    }

    pub fn clearance(&self, user: u64) -> u64 {
        figure(unsafe { c::monitor_clearance(self.pointer(), self.length(), user) })
    }

    pub fn card_label(&self, card: u64) -> u64 {
        figure(unsafe { c::monitor_card_label(self.pointer(), self.length(), card) })
    }

    /// The role's r-level or w-level: a label, `FREE` or `UNDEFINED`.
    pub fn level(&self, role: u64, mode: Mode) -> u64 {
        figure(unsafe { c::monitor_level(self.pointer(), self.length(), role, mode as u64) })
    }

    /// Whether label a dominates label b or is the same.
    pub fn dominates(&self, a: u64, b: u64) -> bool {
        figure(unsafe { c::monitor_dominates(self.pointer(), self.length(), a, b) }) == 1
    }

    /// Whether role r is senior to role q or is the same.
    pub fn senior(&self, r: u64, q: u64) -> bool {
        figure(unsafe { c::monitor_senior(self.pointer(), self.length(), r, q) }) == 1
    }

    pub fn assigned(&self, user: u64, role: u64) -> bool {
        figure(unsafe { c::monitor_assigned(self.pointer(), self.length(), user, role) }) == 1
    }

    /// The roles that a session of the user at the label may take; none where
    /// the clearance does not dominate the label.
    pub fn takable(&self, user: u64, label: u64) -> Option<Roles> {
        let set = unsafe { c::monitor_takable(self.pointer(), self.length(), user, label) };
        if set.number == 26 {
            return None;
        }
        done(set.number);
        Some(Roles {
            low: set.low,
            high: set.high,
        })
    }

    /// Whether one of these roles gives the card in this mode to a session at
    /// the label.
    pub fn gives(&self, roles: Roles, label: u64, card: u64, mode: Mode) -> bool {
        figure(unsafe {
            c::monitor_gives(
                self.pointer(),
                self.length(),
                roles.low,
                roles.high,
                label,
                card,
                mode as u64,
            )
        }) == 1
    }

    pub fn flows(&self, from: u64, to: u64) -> bool {
        figure(unsafe { c::monitor_flows(self.pointer(), self.length(), from, to) }) == 1
    }

    /// The lowest role on a circle of role flow, or 0.
    pub fn circle(&self) -> u64 {
        figure(unsafe { c::monitor_circle(self.pointer(), self.length()) })
    }

    /// Whether a session of the user at the label could be granted the card in
    /// this mode; false where the clearance does not dominate the label.
    pub fn can(&self, user: u64, label: u64, card: u64, mode: Mode) -> bool {
        let answer = unsafe {
            c::monitor_can(
                self.pointer(),
                self.length(),
                user,
                label,
                card,
                mode as u64,
            )
        };
        answer.number != 26 && figure(answer) == 1
    }
}

fn done(number: u64) {
    assert_eq!(number, 0, "a loaded state was asked what it cannot answer");
}

fn figure(answer: c::Figure) -> u64 {
    done(answer.number);
    answer.figure
}

#[cfg(test)]
mod tests {
    use super::*;

    #[test]
    fn a_set_of_roles_has_role_65_as_the_first_bit_of_high() {
        let roles = Roles {
            low: 1 | 1 << 63,
            high: 1 | 1 << 63,
        };
        assert_eq!(roles.iter().collect::<Vec<u64>>(), [1, 64, 65, 128]);
        assert!(Roles::one(65).holds(65) && !Roles::one(65).holds(1));
        assert!(Roles::default().is_empty() && !Roles::one(128).is_empty());
    }
}
