//! Relations among the labels, among the roles, or between users and roles of a file.

use crate::bits::numbers;

/// Which of the things 1 to 128 each thing is related to.
#[derive(Clone, Debug, Default, PartialEq, Eq)]
pub struct Relation {
    /// By the first thing from 1: bit b - 1 stands for the second thing b.
    rows: Vec<u128>,
}

impl Relation {
    /// The pairs of a thing 1 to `firsts` and one 1 to `seconds` of which the question is answered with
    /// yes.
    pub fn between(firsts: u64, seconds: u64, related: impl Fn(u64, u64) -> bool) -> Relation {
        let bit = |a: u64, b: u64| u128::from(related(a, b)) << (b - 1);
        let row = |a: u64| (1..=seconds).fold(0, |row, b| row | bit(a, b));
        Relation {
            rows: (1..=firsts).map(row).collect(),
        }
    }

    /// The same of things of one kind.
    pub fn of(count: u64, related: impl Fn(u64, u64) -> bool) -> Relation {
        Relation::between(count, count, related)
    }

    /// The same, but no thing is related to itself.
    pub fn strictly(count: u64, related: impl Fn(u64, u64) -> bool) -> Relation {
        Relation::of(count, |a, b| a != b && related(a, b))
    }

    /// The pairs of two different things.
    pub fn strict(&self) -> Relation {
        Relation::strictly(self.rows.len() as u64, |a, b| self.holds(a, b))
    }

    fn row(&self, a: u64) -> u128 {
        self.rows.get(a as usize - 1).copied().unwrap_or(0)
    }

    pub fn holds(&self, a: u64, b: u64) -> bool {
        self.row(a) >> (b - 1) & 1 == 1
    }

    /// The things that a is related to, rising.
    pub fn others(&self, a: u64) -> Vec<u64> {
        numbers(self.row(a)).collect()
    }

    /// All pairs, rising.
    pub fn pairs(&self) -> Vec<(u64, u64)> {
        let firsts = 1..=self.rows.len() as u64;
        firsts
            .flat_map(|a| numbers(self.row(a)).map(move |b| (a, b)))
            .collect()
    }

    /// The pairs turned round.
    pub fn turned(&self) -> Relation {
        Relation::of(self.rows.len() as u64, |a, b| self.holds(b, a))
    }

    /// The pairs that the other relation has not.
    pub fn without(&self, other: &Relation) -> Relation {
        let firsts = 1..=self.rows.len() as u64;
        Relation {
            rows: firsts.map(|a| self.row(a) & !other.row(a)).collect(),
        }
    }

    /// A step of this relation and then one of the other.
    pub fn then(&self, other: &Relation) -> Relation {
        let reached = |&row: &u128| numbers(row).fold(0, |reached, b| reached | other.row(b));
        Relation {
            rows: self.rows.iter().map(reached).collect(),
        }
    }

    /// One step or more.
    pub fn paths(&self) -> Relation {
        let mut rows = self.rows.clone();
        for past in 0..rows.len() {
            let further = rows[past];
            let join = |row: &mut u128| *row |= (*row >> past & 1) * further;
            rows.iter_mut().for_each(join);
        }
        Relation { rows }
    }

    /// The steps with nothing between: no other step leads from the one to a third thing and on to
    /// the other.
    pub fn direct(&self) -> Relation {
        self.without(&self.then(self))
    }
}
