//! The check itself, in the order of document 01: "Load checks 7, 1, then line
//! by line 2 to 5 in that order within the line, then 6 (users before cards),
//! 11, 12, 13, then assignments in file order, 14 to 16 within each."
//! Number 7 is about a lent state and cannot arise here. What 16 means is from
//! document 02, Change 1, and shared writing as flow from its Change 9.

use crate::line::{read_line, Letter, Line, LINE_LENGTH, MOST_BYTES};
use crate::order::{lowest_on_circle, Order};
use std::collections::BTreeSet;

/// One number and one place from document 01's list.
#[derive(Clone, Copy, Debug, PartialEq, Eq)]
pub struct Refusal {
    pub number: usize,
    pub place: [usize; 2],
}

/// A role's r-level or w-level.
#[derive(Clone, Copy, Debug, PartialEq, Eq)]
pub enum Level {
    /// No limit.
    Free,
    Label(usize),
    /// No such bound exists.
    Undefined,
}

impl Level {
    /// "0 free, 99 undefined"
    pub fn printed(self) -> usize {
        match self {
            Level::Free => 0,
            Level::Label(label) => label,
            Level::Undefined => 99,
        }
    }

    /// Whether the level passes where a label must: "A free level always
    /// passes; an undefined one never."
    fn passes(self, label_passes: impl Fn(usize) -> bool) -> bool {
        match self {
            Level::Free => true,
            Level::Label(label) => label_passes(label),
            Level::Undefined => false,
        }
    }
}

/// The two levels of a role.
#[derive(Clone, Copy, Debug, PartialEq, Eq)]
pub struct RoleLevels {
    pub role: usize,
    pub read_level: Level,
    pub write_level: Level,
}

/// What an accepted file comes to.
#[derive(Clone, Debug, PartialEq, Eq)]
pub struct Accepted {
    /// Levels of role 1, 2 and so on.
    pub roles: Vec<RoleLevels>,
    /// Role flow: (from, to).
    pub flows: BTreeSet<(usize, usize)>,
    /// The lowest role on a circle of role flow.
    pub circle: Option<usize>,
    /// The same of the flows by reading alone.
    pub circle_by_reading: Option<usize>,
    /// Assignments of roles for low sessions alone: user, role.
    pub low: Vec<(usize, usize)>,
}

/// The check's outcome.
#[derive(Clone, Debug, PartialEq, Eq)]
pub enum Outcome {
    Accepted(Accepted),
    Refused(Refusal),
}

impl Outcome {
    /// The number on the V line; "0 is done".
    pub fn number(&self) -> usize {
        match self {
            Outcome::Accepted(_) => 0,
            Outcome::Refused(refusal) => refusal.number,
        }
    }

    /// The place on the V line.
    pub fn place(&self) -> [usize; 2] {
        match self {
            Outcome::Accepted(_) => [0, 0],
            Outcome::Refused(refusal) => refusal.place,
        }
    }
}

/// The numbers of the H line.
#[derive(Clone, Copy, Debug, Default, PartialEq, Eq)]
pub struct Counts {
    pub labels: usize,
    pub roles: usize,
    pub users: usize,
    pub cards: usize,
}

impl Counts {
    /// As the H line has them.
    pub fn in_order(self) -> [usize; 4] {
        [self.labels, self.roles, self.users, self.cards]
    }
}

/// The numbers of a role file, each letter's lines in file order.
#[derive(Clone, Debug, Default, PartialEq, Eq)]
pub struct RoleFile {
    pub counts: Counts,
    /// D: label, label it dominates.
    pub dominance: Vec<(usize, usize)>,
    /// S: role, role it is senior to.
    pub seniority: Vec<(usize, usize)>,
    /// U: user, clearance.
    pub clearances: Vec<(usize, usize)>,
    /// O: card, label.
    pub card_labels: Vec<(usize, usize)>,
    /// P: role, card, mode.
    pub permissions: Vec<(usize, usize, usize)>,
    /// A: user, role.
    pub assignments: Vec<(usize, usize)>,
}

/// The numbers that a refused file can get.
pub const REFUSALS: [usize; 12] = [1, 2, 3, 4, 5, 6, 11, 12, 13, 14, 15, 16];

/// "role r may read (m = 1) or write (m = 2) card o"
pub const READ: usize = 1;
/// "role r may read (m = 1) or write (m = 2) card o"
pub const WRITE: usize = 2;

/// Checks a whole role file.
pub fn check(file: &[u8]) -> Outcome {
    match read(file).and_then(|role_file| judge(&role_file)) {
        Ok(accepted) => Outcome::Accepted(accepted),
        Err(refusal) => Outcome::Refused(refusal),
    }
}

/// Numbers 1 to 5: the file's form.
pub fn read(file: &[u8]) -> Result<RoleFile, Refusal> {
    // "1: length 0, not a multiple of 22, or above 63,800 [0, 0]"
    if file.is_empty() || !file.len().is_multiple_of(LINE_LENGTH) || file.len() > MOST_BYTES {
        return Err(Refusal {
            number: 1,
            place: [0, 0],
        });
    }
    let mut role_file = RoleFile::default();
    let mut previous: Option<Line> = None;
    for (index, bytes) in file.chunks(LINE_LENGTH).enumerate() {
        let line =
            next_line(bytes, previous.as_ref(), &role_file.counts).map_err(|number| Refusal {
                number,
                place: [index + 1, 0],
            })?;
        keep(&line, &mut role_file);
        previous = Some(line);
    }
    Ok(role_file)
}

/// The line that comes after another, or its number, 2 to 5.
fn next_line(bytes: &[u8], previous: Option<&Line>, counts: &Counts) -> Result<Line, usize> {
    // "2: malformed line, unknown letter, H missing on line 1 or found later
    // [line, 0]"
    let Some(line) = read_line(bytes) else {
        return Err(2);
    };
    if (line.letter == Letter::H) != previous.is_none() {
        return Err(2);
    }
    // "3: count outside its limits [line, 0]"
    if line.letter == Letter::H && !counts_within_limits(&line.numbers) {
        return Err(3);
    }
    // "4: a user, role, card, label or mode number out of its range [line, 0]"
    if !numbers_in_range(&line, counts) {
        return Err(4);
    }
    // "5: line out of order or repeated [line, 0]": "After H the letters come
    // in the table's order, and lines of a letter rise strictly by their
    // fields read left to right."
    if previous.is_some_and(|previous| *previous >= line) {
        return Err(5);
    }
    Ok(line)
}

/// "Counts: labels 1 to 32, roles 0 to 128, users 0 to 256, cards 0 to 512."
fn counts_within_limits(numbers: &[usize]) -> bool {
    (1..=32).contains(&numbers[0])
        && (0..=128).contains(&numbers[1])
        && (0..=256).contains(&numbers[2])
        && (0..=512).contains(&numbers[3])
}

/// "Things are numbered from 1", and the H line counts them.
fn numbers_in_range(line: &Line, counts: &Counts) -> bool {
    let label = counts.labels;
    let role = counts.roles;
    let user = counts.users;
    let card = counts.cards;
    let highest = match line.letter {
        Letter::H => return true,
        Letter::D => vec![label, label],
        Letter::S => vec![role, role],
        Letter::U => vec![user, label],
        Letter::O => vec![card, label],
        Letter::P => vec![role, card, WRITE],
        Letter::A => vec![user, role],
    };
    line.numbers
        .iter()
        .zip(highest)
        .all(|(&number, highest)| (1..=highest).contains(&number))
}

/// Puts a good line's numbers where they belong.
fn keep(line: &Line, role_file: &mut RoleFile) {
    let numbers = &line.numbers;
    match line.letter {
        Letter::H => {
            role_file.counts = Counts {
                labels: numbers[0],
                roles: numbers[1],
                users: numbers[2],
                cards: numbers[3],
            }
        }
        Letter::D => role_file.dominance.push((numbers[0], numbers[1])),
        Letter::S => role_file.seniority.push((numbers[0], numbers[1])),
        Letter::U => role_file.clearances.push((numbers[0], numbers[1])),
        Letter::O => role_file.card_labels.push((numbers[0], numbers[1])),
        Letter::P => role_file
            .permissions
            .push((numbers[0], numbers[1], numbers[2])),
        Letter::A => role_file.assignments.push((numbers[0], numbers[1])),
    }
}

/// Numbers 6 and 11 to 16, then the report's numbers.
fn judge(role_file: &RoleFile) -> Result<Accepted, Refusal> {
    let counts = &role_file.counts;
    judge_labels_and_orders(role_file)?;
    // "then assignments in file order, 14 to 16 within each"
    let meaning = Meaning::of(role_file);
    for &(user, role) in &role_file.assignments {
        let number = meaning.assignment_number(user, role);
        if number != 0 {
            let place = [user, role];
            return Err(Refusal { number, place });
        }
    }
    let assignments = role_file.assignments.iter().copied();
    // "the lowest role on a circle of two or more roles, or 0"; no role flows
    // to itself, so that every circle has two roles or more.
    let circle_of = |flows: &BTreeSet<(usize, usize)>| {
        let pairs: Vec<(usize, usize)> = flows.iter().copied().collect();
        lowest_on_circle(counts.roles, &pairs)
    };
    let mut flows = meaning.flows_by_reading();
    let circle_by_reading = circle_of(&flows);
    flows.extend(meaning.flows_by_shared_writing());
    Ok(Accepted {
        roles: (1..=counts.roles)
            .map(|role| meaning.levels(role))
            .collect(),
        circle: circle_of(&flows),
        circle_by_reading,
        flows,
        low: assignments
            .filter(|&(user, role)| meaning.is_low(user, role))
            .collect(),
    })
}

/// Numbers 6 and 11 to 13.
fn judge_labels_and_orders(role_file: &RoleFile) -> Result<(), Refusal> {
    let counts = &role_file.counts;
    let refuse = |number, place| Err(Refusal { number, place });

    // "6: user or card with no label or more than one [1 and lowest such user,
    // or 2 and lowest such card]", "users before cards"
    if let Some(user) = lowest_without_one_line(counts.users, &role_file.clearances) {
        return refuse(6, [1, user]);
    }
    if let Some(card) = lowest_without_one_line(counts.cards, &role_file.card_labels) {
        return refuse(6, [2, card]);
    }

    // "11: labels dominate in a circle, a line D a a included [lowest label
    // on one, 0]"
    if let Some(label) = lowest_on_circle(counts.labels, &role_file.dominance) {
        return refuse(11, [label, 0]);
    }
    // "12: two labels without least upper bound [lower and higher label of
    // the pair that comes first by its lower, then by its higher label]"
    let dominance = Order::closure(counts.labels, &role_file.dominance);
    if let Some((lower, higher)) = dominance.first_pair_without_bound() {
        return refuse(12, [lower, higher]);
    }
    // "13: the same as 11 for roles [lowest role, 0]"
    if let Some(role) = lowest_on_circle(counts.roles, &role_file.seniority) {
        return refuse(13, [role, 0]);
    }
    Ok(())
}

/// "Each user has one U line and each card one O line."
fn lowest_without_one_line(count: usize, lines: &[(usize, usize)]) -> Option<usize> {
    (1..=count).find(|&thing| lines.iter().filter(|line| line.0 == thing).count() != 1)
}

/// What a file with good orders, clearances and card labels says.
/// All vectors are used from index 1.
pub struct Meaning {
    pub dominance: Order,
    pub seniority: Order,
    pub clearance: Vec<usize>,
    pub card_label: Vec<usize>,
    /// Cards each role may read, inherited ones included.
    pub may_read: Vec<BTreeSet<usize>>,
    /// Cards each role may write, inherited ones included.
    pub may_write: Vec<BTreeSet<usize>>,
    pub read_level: Vec<Level>,
    pub write_level: Vec<Level>,
}

impl Meaning {
    pub fn of(role_file: &RoleFile) -> Meaning {
        let counts = &role_file.counts;
        let dominance = Order::closure(counts.labels, &role_file.dominance);
        let seniority = Order::closure(counts.roles, &role_file.seniority);
        let clearance = label_of_each(counts.users, &role_file.clearances);
        let card_label = label_of_each(counts.cards, &role_file.card_labels);
        let may_read = cards_of_each(role_file, &seniority, READ);
        let may_write = cards_of_each(role_file, &seniority, WRITE);
        let labels_of = |cards: &BTreeSet<usize>| -> BTreeSet<usize> {
            cards.iter().map(|&card| card_label[card]).collect()
        };
        // "Its r-level is the least upper bound of the labels it may read;
        // with no read it is free, no limit."
        let read_level = may_read
            .iter()
            .map(|cards| level(cards, dominance.least_upper_bound(&labels_of(cards))))
            .collect();
        // "Its w-level is the greatest lower bound of the labels it may
        // write; with no write it is free; where no such bound exists it is
        // undefined"
        let write_level = may_write
            .iter()
            .map(|cards| level(cards, dominance.greatest_lower_bound(&labels_of(cards))))
            .collect();

        Meaning {
            dominance,
            seniority,
            clearance,
            card_label,
            may_read,
            may_write,
            read_level,
            write_level,
        }
    }

    pub fn levels(&self, role: usize) -> RoleLevels {
        RoleLevels {
            role,
            read_level: self.read_level[role],
            write_level: self.write_level[role],
        }
    }

    /// Whether the label dominates the role's r-level.
    pub fn read_level_allows(&self, role: usize, label: usize) -> bool {
        self.read_level[role].passes(|level| self.dominance.over(label, level))
    }

    /// Whether the role's w-level dominates the label.
    pub fn write_level_allows(&self, role: usize, label: usize) -> bool {
        self.write_level[role].passes(|level| self.dominance.over(level, label))
    }

    /// The number an A line gets, 0 where it is good.
    pub fn assignment_number(&self, user: usize, role: usize) -> usize {
        let clearance = self.clearance[user];
        // "14: assigned role with undefined w-level [user, role]"
        if self.write_level[role] == Level::Undefined {
            return 14;
        }
        // "15: clearance doesn't dominate the r-level [user, role]"
        if !self.read_level_allows(role, clearance) {
            return 15;
        }
        // Document 02: "16 means that no label dominated by the clearance lies
        // at or above the r-level and at or below the w-level, free levels
        // passing."
        let serves = |label: usize| {
            self.dominance.over(clearance, label)
                && self.read_level_allows(role, label)
                && self.write_level_allows(role, label)
        };
        if !self.dominance.things().any(serves) {
            return 16;
        }
        0
    }

    /// Whether a role that the user may hold is for low sessions alone: its
    /// w-level doesn't dominate the clearance, so that only labels below that
    /// serve.
    pub fn is_low(&self, user: usize, role: usize) -> bool {
        !self.write_level_allows(role, self.clearance[user])
    }

    /// "Role r flows to another role q where a card that r may write is a
    /// card that q may read."
    pub fn flows_by_reading(&self) -> BTreeSet<(usize, usize)> {
        self.pairs(|from, to| !self.may_write[from].is_disjoint(&self.may_read[to]))
    }

    /// Document 02: "information passes between two roles also where both
    /// update the same card".
    pub fn flows_by_shared_writing(&self) -> BTreeSet<(usize, usize)> {
        self.pairs(|from, to| !self.may_write[from].is_disjoint(&self.may_write[to]))
    }

    /// The pairs of two different roles of which this holds.
    fn pairs(&self, holds: impl Fn(usize, usize) -> bool) -> BTreeSet<(usize, usize)> {
        let roles = 1..self.may_read.len();
        let all = roles
            .clone()
            .flat_map(|from| roles.clone().map(move |to| (from, to)));
        all.filter(|&(from, to)| from != to && holds(from, to))
            .collect()
    }
}

/// The label of each user or card by its lines.
fn label_of_each(count: usize, lines: &[(usize, usize)]) -> Vec<usize> {
    let mut labels = vec![0; count + 1];
    for &(thing, label) in lines {
        labels[thing] = label;
    }
    labels
}

/// The cards each role may use in a mode: "A role has the permissions of its
/// own P lines and of all its juniors."
fn cards_of_each(role_file: &RoleFile, seniority: &Order, mode: usize) -> Vec<BTreeSet<usize>> {
    let roles = role_file.counts.roles;
    let mut cards = vec![BTreeSet::new(); roles + 1];
    let of_the_mode = |line: &&(usize, usize, usize)| line.2 == mode;
    for &(owner, card, _) in role_file.permissions.iter().filter(of_the_mode) {
        for role in (1..=roles).filter(|&role| seniority.over(role, owner)) {
            cards[role].insert(card);
        }
    }
    cards
}

/// Free with no card, undefined without a bound.
fn level(cards: &BTreeSet<usize>, bound: Option<usize>) -> Level {
    match bound {
        _ if cards.is_empty() => Level::Free,
        Some(label) => Level::Label(label),
        None => Level::Undefined,
    }
}
