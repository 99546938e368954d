//! What `rights` must print of an accepted file, from the model.

use super::legend::Legend;
use super::{list, number};
use monitor_model::{Mode, Policy};
use std::collections::BTreeSet;

type Numbers = BTreeSet<usize>;

/// How the page is to be written.
pub struct Page<'a> {
    pub policy: &'a Policy,
    pub legend: &'a Legend,
    /// Every role and card in a line of its own.
    pub each: bool,
}

impl Page<'_> {
    /// The report on these users, then on nobody.
    pub fn text(&self, asked: &[usize]) -> String {
        let of_users: String = asked.iter().map(|&user| self.of_user(user)).collect();
        let counts = self.policy.counts;
        let (taken, read) = by_anyone(self.policy);
        let left = |count: usize, had: &Numbers| &(1..=count).collect() - had;
        let rows = [
            self.rows("takes", "role", &left(counts.roles, &taken)),
            self.rows("reads", "card", &left(counts.cards, &read)),
        ];
        of_users + &block("no user", rows.concat())
    }

    /// The lines of one user and the empty line after them.
    fn of_user(&self, user: usize) -> String {
        let policy = self.policy;
        let clearance = policy.meaning.clearance[user];
        let assigned = assigned(policy, user);
        let inherited = &members(policy, user) - &assigned;
        let rows = [
            self.name("user", user),
            vec![("clearance", number(self.legend, "label", clearance))],
            self.rows("assigned", "role", &assigned),
            self.rows("inherited", "role", &inherited),
        ];
        let mut text = block(&format!("user {user:>5}"), rows.concat());
        for label in policy.labels_to_open(user) {
            let takes = takes(policy, user, label);
            let rows = [
                self.name("label", label),
                self.rows("takes", "role", &takes),
                self.rows("reads", "card", &given(policy, &takes, Mode::Read)),
                self.rows("writes", "card", &given(policy, &takes, Mode::Write)),
            ];
            text += &block(&format!("label{label:>5}"), rows.concat());
        }
        text + "\n"
    }

    /// The row with the name of what a block is about, where it has one.
    fn name(&self, kind: &'static str, number: usize) -> Vec<(&'static str, String)> {
        let name = self.legend.name(kind, number);
        name.map(|name| ("name", name.to_string()))
            .into_iter()
            .collect()
    }

    fn rows(
        &self,
        word: &'static str,
        kind: &'static str,
        numbers: &Numbers,
    ) -> Vec<(&'static str, String)> {
        if !numbers.is_empty() && (self.each || numbers.len() == 1) {
            let row = |&one: &usize| (word, number(self.legend, kind, one));
            return numbers.iter().map(row).collect();
        }
        vec![(word, list::text(numbers).trim_start().to_string())]
    }
}

/// Rows under a head, which stands before the first.
fn block(head: &str, rows: Vec<(&str, String)>) -> String {
    let mut heads = std::iter::once(head).chain(std::iter::repeat(""));
    let mut row = |(word, list): (&str, String)| {
        let head = heads.next().unwrap_or_default();
        format!("{head:<12}{word:<11}{list}\n")
    };
    rows.into_iter().map(&mut row).collect()
}

/// The roles of the user's A lines.
pub fn assigned(policy: &Policy, user: usize) -> Numbers {
    let lines = policy.assigned.iter();
    lines
        .filter(|line| line.0 == user)
        .map(|line| line.1)
        .collect()
}

/// The roles assigned to the user and their juniors.
pub fn members(policy: &Policy, user: usize) -> Numbers {
    (1..=policy.counts.roles)
        .filter(|&role| policy.is_member(user, role))
        .collect()
}

/// The roles that a session of the user at the label may take.
pub fn takes(policy: &Policy, user: usize, label: usize) -> Numbers {
    policy.roles_to_take(user, label).collect()
}

/// The cards that one of the roles gives, inherited ones included.
pub fn given(policy: &Policy, roles: &Numbers, mode: Mode) -> Numbers {
    let mut cards = Numbers::new();
    for &role in roles {
        cards.extend(policy.cards(role, mode));
    }
    cards
}

/// The roles that some user can take at a label that the clearance dominates,
/// and the cards that some user can read there.
pub fn by_anyone(policy: &Policy) -> (Numbers, Numbers) {
    let mut taken = Numbers::new();
    for user in 1..=policy.counts.users {
        for label in policy.labels_to_open(user) {
            taken.extend(takes(policy, user, label));
        }
    }
    let read = given(policy, &taken, Mode::Read);
    (taken, read)
}
