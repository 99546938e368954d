//! The sessions that a batch of calls finds.

use crate::monitor::Monitor;

/// The same at all 64 places.
#[derive(Clone, Copy)]
pub enum Seats {
    /// No session.
    Empty,
    /// A session at label 11, with no roles.
    Low,
    /// A session at label 29 with so many roles.
    Holding(u16),
    /// A session at label 29 with all roles that its user may take, by these counts.
    Entitled { users: u16, roles: u16 },
}

/// Users that may take every role: they are assigned to role 128, the senior of all.
const OF_ALL_ROLES: [u16; 4] = [21, 85, 149, 213];

/// The roles held at a place: all, or so many among 1 to 65, which every user may take.
pub fn roles_held(held: u16, place: u16) -> Vec<u16> {
    match held {
        128 => (1..=128).collect(),
        16 => (0..16).map(|i| 1 + (place + 4 * i) % 64).collect(),
        _ => vec![1 + place],
    }
}

impl Seats {
    /// How many roles each place holds.
    pub fn held(self) -> u16 {
        match self {
            Seats::Holding(held) => held,
            _ => 0,
        }
    }

    /// The user at a place, the label and the roles to take; none without a session.
    fn at(self, place: u16) -> Option<(u16, u64, Vec<u16>)> {
        match self {
            Seats::Empty => None,
            Seats::Low => Some((place, 11, vec![])),
            Seats::Holding(held) => {
                let all = held == 128;
                let user = if all {
                    OF_ALL_ROLES[place as usize % 4]
                } else {
                    place
                };
                Some((user, 29, roles_held(held, place)))
            }
            Seats::Entitled { users, roles } => {
                Some((1 + place % users, 29, (1..=roles).collect()))
            }
        }
    }

    /// Opens the sessions and takes their roles.
    pub fn take(self, monitor: &mut impl Monitor) {
        for place in 1..=64u16 {
            let Some((user, label, roles)) = self.at(place) else {
                continue;
            };
            assert_eq!(monitor.open(place.into(), user.into(), label), 0);
            for role in roles {
                let answer = monitor.take(place.into(), role.into());
                let refusable = matches!(self, Seats::Entitled { .. });
                assert!(answer == 0 || refusable && answer == 27);
            }
        }
    }
}
