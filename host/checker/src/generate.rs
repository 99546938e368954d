//! Random role files, the same ones for the same source of numbers:
//! accepted ones, bent ones (one rule broken), loose and stacked ones (any
//! number of rules broken), and torn ones (bytes and lines damaged).

mod accepted;
mod bent;
mod flow;
mod form;
mod loose;
mod orders;
mod torn;

pub use accepted::accepted;
pub use bent::{assignments_with, bent, bent_small, stacked};
pub use flow::{flow_permissions, flow_ring, sparse_flow};
pub use form::one_wrong_byte;
pub use loose::loose;
pub use torn::torn;

use crate::check::RoleFile;
use crate::line::{print_line, MOST_LINES};
use crate::random::Random;

/// The largest counts: labels, roles, users, cards.
pub const LIMITS: [usize; 4] = [32, 128, 256, 512];

/// How large a file is made.
#[derive(Clone, Copy, Debug, PartialEq, Eq)]
pub enum Size {
    Tiny,
    Small,
    Middle,
    /// Counts anywhere up to the limits.
    Large,
    /// The largest counts, 2,900 lines.
    Full,
}

impl Size {
    fn most_lines(self) -> usize {
        match self {
            Size::Tiny => 40,
            Size::Small => 150,
            Size::Middle => 700,
            Size::Large | Size::Full => MOST_LINES,
        }
    }
}

/// The bent files of a round; the numbers that can go wrong in most ways have
/// more turns.
const BENT_TURNS: [usize; 14] = [2, 2, 3, 4, 4, 5, 5, 6, 11, 12, 13, 14, 15, 16];

/// File number `index` of the run with this seed. Fifty files make a round in
/// which each generator has its turn.
pub fn mixed(seed: u64, index: u64) -> Vec<u8> {
    let random = &mut Random::for_file(seed, index);
    let (round, turn) = ((index / 50) as usize, (index % 50) as usize);
    match turn {
        0 => write(&accepted(random, Size::Full)),
        1 => write(&accepted(random, Size::Large)),
        2..=3 => write(&accepted(random, Size::Middle)),
        4..=6 => write(&accepted(random, Size::Small)),
        7..=9 => write(&accepted(random, Size::Tiny)),
        10..=11 => write(&sparse_flow(random)),
        12..=13 => one_wrong_byte(random, 2 * round + turn - 12),
        14..=27 => bent(random, BENT_TURNS[turn - 14]),
        28..=34 => write(&loose(random)),
        35..=38 => stacked(random),
        _ => torn(random),
    }
}

/// The bytes of a role file, each letter's lines as they stand.
pub fn write(file: &RoleFile) -> Vec<u8> {
    let mut bytes = print_line(b'H', &file.counts.in_order());
    let letters_of_two = [
        (b'D', &file.dominance),
        (b'S', &file.seniority),
        (b'U', &file.clearances),
        (b'O', &file.card_labels),
    ];
    for (letter, lines) in letters_of_two {
        for &(first, second) in lines {
            bytes.extend(print_line(letter, &[first, second]));
        }
    }
    for &(role, card, mode) in &file.permissions {
        bytes.extend(print_line(b'P', &[role, card, mode]));
    }
    for &(user, role) in &file.assignments {
        bytes.extend(print_line(b'A', &[user, role]));
    }
    bytes
}

/// How many lines the file has.
pub fn lines_of(file: &RoleFile) -> usize {
    1 + file.dominance.len()
        + file.seniority.len()
        + file.clearances.len()
        + file.card_labels.len()
        + file.permissions.len()
        + file.assignments.len()
}

/// Puts each letter's lines in strictly rising order.
fn arrange(file: &mut RoleFile) {
    for lines in [
        &mut file.dominance,
        &mut file.seniority,
        &mut file.clearances,
        &mut file.card_labels,
        &mut file.assignments,
    ] {
        lines.sort_unstable();
        lines.dedup();
    }
    file.permissions.sort_unstable();
    file.permissions.dedup();
}

/// A size for a file that is to be damaged: mostly small.
fn any_size(random: &mut Random) -> Size {
    match random.below(100) {
        0..=34 => Size::Tiny,
        35..=79 => Size::Small,
        80..=94 => Size::Middle,
        95..=98 => Size::Large,
        _ => Size::Full,
    }
}

fn small_size(random: &mut Random) -> Size {
    random.pick(&[Size::Tiny, Size::Small])
}

#[cfg(test)]
mod tests {
    use super::orders::label_order;
    use super::*;
    use crate::check::{check, read, Level, Meaning, Outcome, REFUSALS, WRITE};
    use crate::line::{has_assignments, MOST_BYTES};
    use crate::order::{lowest_on_circle, Order};

    /// The assignments of an accepted file whose role is for low sessions alone.
    fn low_assignments(bytes: &[u8]) -> Vec<(usize, usize)> {
        match check(bytes) {
            Outcome::Accepted(accepted) => accepted.low,
            Outcome::Refused(_) => Vec::new(),
        }
    }

    #[test]
    fn accepted_files_are_accepted() {
        for seed in 0..60 {
            for size in [Size::Tiny, Size::Small, Size::Middle, Size::Large] {
                let file = accepted(&mut Random::new(seed), size);
                let outcome = check(&write(&file));
                assert_eq!(outcome.number(), 0, "seed {seed} {size:?}: {outcome:?}");
            }
        }
    }

    #[test]
    fn sparse_flow_files_are_accepted() {
        for seed in 0..200 {
            let outcome = check(&write(&sparse_flow(&mut Random::new(seed))));
            assert_eq!(outcome.number(), 0, "seed {seed}: {outcome:?}");
        }
    }

    #[test]
    fn full_files_are_full() {
        for seed in 0..8 {
            let file = accepted(&mut Random::new(seed), Size::Full);
            let bytes = write(&file);
            assert_eq!(bytes.len(), MOST_BYTES);
            assert_eq!(check(&bytes).number(), 0);
        }
    }

    /// Of each size a tenth of the files with assignments, some by the writes of
    /// juniors alone.
    #[test]
    fn roles_for_low_sessions_in_every_size() {
        for size in [Size::Tiny, Size::Small, Size::Middle, Size::Large] {
            let (mut assigning, mut low, mut by_juniors) = (0, 0, 0);
            for seed in 0..200 {
                let file = accepted(&mut Random::new(seed), size);
                let found = low_assignments(&write(&file));
                let writes = |role| {
                    file.permissions
                        .iter()
                        .any(|line| (line.0, line.2) == (role, WRITE))
                };
                assigning += usize::from(!file.assignments.is_empty());
                low += usize::from(!found.is_empty());
                by_juniors += usize::from(found.iter().any(|&(_, role)| !writes(role)));
            }
            let seen = format!("{size:?}: {low} of {assigning}, {by_juniors} by juniors");
            assert!(low * 10 > assigning && by_juniors > 2, "{seen}");
        }
    }

    #[test]
    fn roles_for_low_sessions_in_a_run() {
        let (mut assigning, mut low) = (0, 0);
        for index in 0..500 {
            let bytes = mixed(3, index);
            let accepted = check(&bytes).number() == 0;
            assigning += usize::from(accepted && has_assignments(&bytes));
            low += usize::from(!low_assignments(&bytes).is_empty());
        }
        assert!(low * 10 > assigning, "{low} of {assigning}");
    }

    /// The r-level above the w-level, neither above the other, and a free
    /// r-level.
    #[test]
    fn number_16_in_every_way() {
        let mut ways = [0; 3];
        for seed in 0..90 {
            let bytes = bent_small(&mut Random::new(seed), 16);
            let meaning = Meaning::of(&read(&bytes).expect("the form is good"));
            let [_, role] = check(&bytes).place();
            let way = match (meaning.read_level[role], meaning.write_level[role]) {
                (Level::Label(r), Level::Label(w)) => usize::from(!meaning.dominance.over(r, w)),
                (Level::Free, Level::Label(_)) => 2,
                levels => panic!("seed {seed}: {levels:?}"),
            };
            ways[way] += 1;
        }
        assert!(ways.iter().all(|&files| files >= 9), "{ways:?}");
    }

    #[test]
    fn label_orders_have_bounds() {
        for seed in 0..600 {
            let random = &mut Random::new(seed);
            let labels = random.between(1, 32);
            let pairs = label_order(random, labels);
            assert_eq!(lowest_on_circle(labels, &pairs), None);
            let order = Order::closure(labels, &pairs);
            assert_eq!(order.first_pair_without_bound(), None, "seed {seed}");
        }
    }

    #[test]
    fn bent_files_get_their_number() {
        for seed in 0..10 {
            for number in REFUSALS {
                let bytes = bent(&mut Random::new(seed), number);
                assert_eq!(check(&bytes).number(), number);
                let bytes = bent_small(&mut Random::new(seed), number);
                assert_eq!(check(&bytes).number(), number);
            }
        }
    }

    #[test]
    fn one_wrong_byte_is_number_2() {
        for step in 0..70 {
            let bytes = one_wrong_byte(&mut Random::new(5), step);
            assert_eq!(check(&bytes).number(), 2, "step {step}");
        }
    }

    #[test]
    fn the_same_seed_gives_the_same_file() {
        for index in 0..80 {
            assert_eq!(mixed(7, index), mixed(7, index));
        }
        assert_ne!(mixed(7, 1), mixed(8, 1));
    }
}
