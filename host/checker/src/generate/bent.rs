//! Files with one rule broken or several, on purpose.

use super::form::{bend_lines, split};
use super::{accepted, any_size, arrange, lines_of, small_size, write, Size, LIMITS};
use crate::check::{check, Meaning, RoleFile, READ, WRITE};
use crate::line::{LINE_LENGTH, MOST_BYTES, MOST_LINES};
use crate::order::Order;
use crate::random::Random;

/// An accepted file with one rule broken, so that it gets this number.
pub fn bent(random: &mut Random, number: usize) -> Vec<u8> {
    bent_of_size(random, number, any_size)
}

/// The same with a small file only, which takes less time.
pub fn bent_small(random: &mut Random, number: usize) -> Vec<u8> {
    bent_of_size(random, number, small_size)
}

fn bent_of_size(random: &mut Random, number: usize, size: fn(&mut Random) -> Size) -> Vec<u8> {
    loop {
        let size = size(random);
        if let Some(bytes) = bent_once(random, number, size) {
            return bytes;
        }
    }
}

/// One try at a file of this size that gets this number.
fn bent_once(random: &mut Random, number: usize, size: Size) -> Option<Vec<u8>> {
    let mut file = accepted(random, size);
    let bytes = match number {
        1 => bend_length(random, write(&file)),
        2..=5 => {
            let mut lines = split(&write(&file));
            bend_lines(random, &mut lines, number);
            lines.concat()
        }
        _ => {
            bend_file(random, &mut file, number);
            write(&file)
        }
    };
    (check(&bytes).number() == number).then_some(bytes)
}

/// A length of 0, not a multiple of 22, or above 63,800.
fn bend_length(random: &mut Random, mut bytes: Vec<u8>) -> Vec<u8> {
    let some = random.between(1, LINE_LENGTH - 1);
    match random.below(4) {
        0 => bytes.clear(),
        1 => bytes.truncate(bytes.len() - some),
        2 => bytes.extend(random.bytes(some)),
        _ => bytes.resize(MOST_BYTES + LINE_LENGTH * some, b' '),
    }
    bytes
}

/// Several rules broken in one file; the first by the document's order counts.
pub fn stacked(random: &mut Random) -> Vec<u8> {
    let size = any_size(random);
    let mut file = accepted(random, size);
    for _ in 0..random.between(1, 3) {
        let number = random.between(6, 16);
        bend_file(random, &mut file, number);
    }
    if random.percent(60) {
        // A count raised by a bend may have left its limits; then 3 stands.
        return write(&file);
    }
    let mut lines = split(&write(&file));
    for _ in 0..random.between(1, 3) {
        let number = random.pick(&[2, 3, 4, 4, 5, 5]);
        bend_lines(random, &mut lines, number);
    }
    lines.concat()
}

/// Breaks a rule of what the file says: number 6 or 11 to 16. The file's lines
/// stay in order.
fn bend_file(random: &mut Random, file: &mut RoleFile, number: usize) {
    match number {
        6 => bend_labelling(random, file),
        11 => add_circle(random, &mut file.dominance, file.counts.labels),
        12 => bend_bounds(random, file),
        13 => add_circle(random, &mut file.seniority, file.counts.roles),
        _ => bend_assignments(random, file, number),
    }
    arrange(file);
    // Stay within the lines a file may have.
    while lines_of(file) > MOST_LINES {
        if file.permissions.pop().is_none() && file.assignments.pop().is_none() {
            break;
        }
    }
}

/// A user or card with no label or two.
fn bend_labelling(random: &mut Random, file: &mut RoleFile) {
    for _ in 0..random.pick(&[1, 1, 2, 4]) {
        let of_users = random.percent(50);
        let labels = file.counts.labels;
        let (count, lines) = if of_users {
            (&mut file.counts.users, &mut file.clearances)
        } else {
            (&mut file.counts.cards, &mut file.card_labels)
        };
        match random.below(5) {
            0 => *count += random.between(1, 2),
            1 | 2 if !lines.is_empty() => {
                lines.remove(random.place(0, lines.len()));
            }
            _ if !lines.is_empty() => {
                let thing = lines[random.place(0, lines.len())].0;
                lines.push((thing, random.between(1, labels)));
            }
            _ => {}
        }
    }
}

/// One or more circles: a pair (a, a), the way back of a path, or a ring.
fn add_circle(random: &mut Random, pairs: &mut Vec<(usize, usize)>, size: usize) {
    if size == 0 {
        return;
    }
    for _ in 0..random.pick(&[1, 1, 1, 2, 3]) {
        match random.below(3) {
            0 => {
                let thing = 1 + random.place(0, size);
                pairs.push((thing, thing));
            }
            1 if !pairs.is_empty() => {
                let (start, mut end) = random.pick(pairs);
                for _ in 0..random.below(6) {
                    let next: Vec<usize> = pairs
                        .iter()
                        .filter(|pair| pair.0 == end)
                        .map(|pair| pair.1)
                        .collect();
                    if next.is_empty() {
                        break;
                    }
                    end = random.pick(&next);
                }
                pairs.push((end, start));
            }
            _ => {
                let mut ring = random.shuffled(size);
                ring.truncate(random.between(1, 6));
                for index in 0..ring.len() {
                    pairs.push((ring[index], ring[(index + 1) % ring.len()]));
                }
            }
        }
    }
}

/// Two labels without a least upper bound.
fn bend_bounds(random: &mut Random, file: &mut RoleFile) {
    let labels = file.counts.labels;
    let names = random.shuffled(labels);
    match random.below(4) {
        // One more label that nothing is said of.
        0 if labels < LIMITS[0] => file.counts.labels += 1,
        // Fewer D lines.
        0 | 1 => {
            for _ in 0..random.between(1, 3) {
                if !file.dominance.is_empty() {
                    let index = random.place(0, file.dominance.len());
                    file.dominance.remove(index);
                }
            }
        }
        2 if labels >= 5 => file.dominance = two_upper_bounds(random, &names),
        _ => file.dominance = order_without_plan(random, &names),
    }
}

/// D lines: two labels with two upper bounds of which none is least, under one
/// top; the others between, below or beside.
fn two_upper_bounds(random: &mut Random, names: &[usize]) -> Vec<(usize, usize)> {
    let (top, one, other) = (names[0], names[1], names[2]);
    let (left, right) = (names[3], names[4]);
    let mut pairs = vec![(top, one), (top, other)];
    for lower in [left, right] {
        pairs.extend([(one, lower), (other, lower)]);
    }
    for index in 5..names.len() {
        let upper = random.below(index);
        pairs.push((names[upper], names[index]));
    }
    pairs
}

/// D lines of any order, with a top or not.
fn order_without_plan(random: &mut Random, names: &[usize]) -> Vec<(usize, usize)> {
    let chance = random.between(5, 50);
    let top = random.percent(70);
    let mut pairs = Vec::new();
    for lower in 0..names.len() {
        for upper in 0..lower {
            if random.percent(chance) || (top && upper == 0) {
                pairs.push((names[upper], names[lower]));
            }
        }
    }
    pairs
}

/// An assignment that gets 14, 15 or 16.
fn bend_assignments(random: &mut Random, file: &mut RoleFile, number: usize) {
    let counts = file.counts;
    if counts.users == 0 || counts.roles == 0 || counts.cards == 0 {
        return;
    }
    // Only a file that is still good can be judged further.
    if check(&write(file)).number() != 0 {
        return;
    }
    bend_levels(random, file, number);
    let meaning = Meaning::of(file);
    let assigned_with = |wanted: usize| {
        file.assignments
            .iter()
            .any(|&(user, role)| meaning.assignment_number(user, role) == wanted)
    };
    if assigned_with(number) {
        // Keep what passes and what gets the number wanted.
        file.assignments.retain(|&(user, role)| {
            let found = meaning.assignment_number(user, role);
            found == 0 || found == number
        });
        return;
    }
    file.assignments
        .retain(|&(user, role)| meaning.assignment_number(user, role) == 0);
    let wrong = assignments_with(file, number);
    if wrong.is_empty() {
        return;
    }
    let place = random.place(0, wrong.len());
    file.assignments.push(wrong[place]);
    // Sometimes anything may follow: the first wrong one counts.
    if random.percent(20) {
        for _ in 0..3 {
            let role = random.between(1, counts.roles);
            file.assignments.push((counts.users, role));
        }
    }
}

/// Changes what an assignment is judged by, so that one may get this number.
fn bend_levels(random: &mut Random, file: &mut RoleFile, number: usize) {
    let counts = file.counts;
    if number == 16 && random.percent(90) {
        return part_levels(random, file);
    }
    match random.below(4) {
        // Another clearance for a user.
        0 => {
            let index = random.place(0, file.clearances.len());
            file.clearances[index].1 = random.between(1, counts.labels);
        }
        // Another label for a card.
        1 => {
            let index = random.place(0, file.card_labels.len());
            file.card_labels[index].1 = random.between(1, counts.labels);
        }
        // More permissions for a role, and with it for its seniors.
        2 => {
            let role = random.between(1, counts.roles);
            let mode = if number == 15 { READ } else { WRITE };
            for _ in 0..random.between(1, 3) {
                let card = random.between(1, counts.cards);
                file.permissions.push((role, card, mode));
            }
            arrange(file);
        }
        _ => {}
    }
}

/// Gives a role, by lines of its own or of its juniors, levels that no label
/// lies between, or lets it write one card and read none: then perhaps no label
/// lies below the w-level and a clearance.
fn part_levels(random: &mut Random, file: &mut RoleFile) {
    let dominance = Order::closure(file.counts.labels, &file.dominance);
    let seniority = Order::closure(file.counts.roles, &file.seniority);
    let role = random.between(1, file.counts.roles);
    let mut owners: Vec<usize> = seniority.things().collect();
    owners.retain(|&owner| seniority.over(role, owner));
    let (written, at) = random.pick(&file.card_labels);
    let mut read = file.card_labels.clone();
    // The rarer a way succeeds, the more turns it has.
    let way = random.below(10);
    match way {
        // Above what is written.
        0 => read.retain(|&(_, label)| label != at && dominance.over(label, at)),
        // Neither above nor below it.
        1..=3 => {
            read.retain(|&(_, label)| !dominance.over(label, at) && !dominance.over(at, label))
        }
        _ => read.clear(),
    }
    if way > 0 {
        file.permissions.retain(|line| !owners.contains(&line.0));
    }
    if !read.is_empty() {
        let card = random.pick(&read).0;
        file.permissions.push((random.pick(&owners), card, READ));
    }
    file.permissions
        .push((random.pick(&owners), written, WRITE));
    arrange(file);
}

/// The assignments that would get this number; 0 are the good ones.
pub fn assignments_with(file: &RoleFile, number: usize) -> Vec<(usize, usize)> {
    let meaning = Meaning::of(file);
    (1..=file.counts.users)
        .flat_map(|user| (1..=file.counts.roles).map(move |role| (user, role)))
        .filter(|&(user, role)| meaning.assignment_number(user, role) == number)
        .collect()
}
