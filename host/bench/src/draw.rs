//! Arguments drawn for the calls of a batch.

use crate::calls::Arguments;
use crate::seats::roles_held;
use second_checker::check::Counts;
use second_checker::random::Random;

pub struct Draw {
    random: Random,
    turn: u16,
    roles: u16,
    users: u16,
    cards: u16,
    /// How many roles each place holds.
    held: u16,
}

impl Draw {
    /// Draws within the counts of a file.
    pub fn new(counts: Counts, held: u16) -> Draw {
        Draw {
            random: Random::new(1),
            turn: 0,
            roles: counts.roles as u16,
            users: counts.users as u16,
            cards: counts.cards as u16,
            held,
        }
    }

    fn between(&mut self, first: u16, last: u16) -> u16 {
        self.random.between(first.into(), last.into()) as u16
    }

    /// The 64 places in turn, out of order.
    fn place(&mut self) -> u16 {
        self.turn = (self.turn + 37) % 64;
        1 + self.turn
    }

    pub fn place_only(&mut self) -> Arguments {
        [self.place(), 0, 0, 0]
    }

    /// A user and a label that every clearance dominates.
    pub fn opening(&mut self) -> Arguments {
        self.opening_at(1, 29)
    }

    /// A user and a label that no clearance dominates.
    pub fn high_opening(&mut self) -> Arguments {
        self.opening_at(30, 32)
    }

    /// A user and a label among these.
    fn opening_at(&mut self, first: u16, last: u16) -> Arguments {
        [
            self.place(),
            self.between(1, self.users),
            self.between(first, last),
            0,
        ]
    }

    pub fn role(&mut self) -> Arguments {
        [self.place(), self.between(1, self.roles), 0, 0]
    }

    pub fn role_held(&mut self) -> Arguments {
        let place = self.place();
        let roles = roles_held(self.held, place);
        [place, roles[self.between(0, self.held - 1) as usize], 0, 0]
    }

    pub fn role_not_held(&mut self) -> Arguments {
        let place = self.place();
        let held = roles_held(self.held, place);
        let free: Vec<u16> = (1..=self.roles)
            .filter(|role| !held.contains(role))
            .collect();
        [
            place,
            free[self.between(1, free.len() as u16) as usize - 1],
            0,
            0,
        ]
    }

    /// A number that is no role's.
    pub fn no_role(&mut self) -> Arguments {
        [self.place(), self.between(self.roles + 1, 999), 0, 0]
    }

    /// Eight bytes of a card.
    pub fn part(&mut self) -> Arguments {
        [
            self.place(),
            self.between(1, self.cards),
            self.between(0, 56),
            8,
        ]
    }

    pub fn user(&mut self) -> Arguments {
        [self.between(1, self.users), 0, 0, 0]
    }

    pub fn card(&mut self) -> Arguments {
        [self.between(1, self.cards), 0, 0, 0]
    }

    /// A role and a mode.
    pub fn level(&mut self) -> Arguments {
        [self.between(1, self.roles), self.between(1, 2), 0, 0]
    }

    pub fn two_labels(&mut self) -> Arguments {
        [self.between(1, 32), self.between(1, 32), 0, 0]
    }

    pub fn user_and_role(&mut self) -> Arguments {
        [
            self.between(1, self.users),
            self.between(1, self.roles),
            0,
            0,
        ]
    }

    /// A user and the clearance of all.
    pub fn user_at_29(&mut self) -> Arguments {
        [self.between(1, self.users), 29, 0, 0]
    }

    /// A user and a label that no clearance dominates.
    pub fn user_above(&mut self) -> Arguments {
        [self.between(1, self.users), self.between(30, 32), 0, 0]
    }

    /// Bits of a set, a label, a card and a mode.
    pub fn giving(&mut self) -> Arguments {
        let bit = 1 << self.between(0, 15);
        [
            bit,
            self.between(1, 32),
            self.between(1, self.cards),
            self.between(1, 2),
        ]
    }

    /// Two different roles.
    pub fn two_roles(&mut self) -> Arguments {
        let from = self.between(1, self.roles);
        let step = self.between(1, self.roles - 1);
        [from, 1 + (from - 1 + step) % self.roles, 0, 0]
    }
}
