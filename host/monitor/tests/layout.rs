//! Every byte of a state, held to docs/LAYOUT.md: the tables by what the second
//! checker makes of the file, the places by the model's sessions.

use monitor_model::{Model, Policy, STATE_BYTES};
use monitor_tests::generate::{accepted_file, Caller};
use monitor_tests::layout::{
    named, tables, Table, ASSIGNED, CARD_LABELS, CLEARANCES, COUNTS, DOMINANCE, FILLED, PLACES,
    READERS, READ_LEVELS, SENIORS, WRITERS, WRITE_LEVELS,
};
use monitor_tests::library::{self, Verdict};
use monitor_tests::lists::{first_difference, List, Tally};
use second_checker::check::Level;
use second_checker::example::{EXAMPLE, TWO_MAKERS};
use second_checker::generate::{accepted, write, Size};
use second_checker::random::Random;

const DOCUMENT: &str = include_str!("../../../docs/LAYOUT.md");

// ---------------------------------------------------------------------------
// The bytes that the document says

/// The bytes of a state.
struct Expected(Vec<u8>);

impl Expected {
    /// Of a state that holds what the model holds.
    fn of(model: &Model) -> Expected {
        let policy = model.policy().expect("a loaded file");
        let mut expected = Expected(vec![0; STATE_BYTES]);
        expected.put_counts_and_labels(policy);
        expected.put_roles(policy);
        expected.put_places(model);
        expected
    }

    fn entry(&mut self, table: &Table, number: usize) -> &mut [u8] {
        &mut self.0[table.entry(number)]
    }

    fn put_counts_and_labels(&mut self, policy: &Policy) {
        for (count, entry) in policy.counts.in_order().into_iter().zip(1..) {
            let bytes = (count as u16).to_le_bytes();
            self.entry(&COUNTS, entry).copy_from_slice(&bytes);
        }
        for a in 1..=policy.counts.labels {
            for b in 1..=policy.counts.labels {
                self.entry(&DOMINANCE, a)[b - 1] = policy.meaning.dominance.over(a, b).into();
            }
        }
        for user in 1..=policy.counts.users {
            self.entry(&CLEARANCES, user)[0] = policy.meaning.clearance[user] as u8;
        }
        for card in 1..=policy.counts.cards {
            self.entry(&CARD_LABELS, card)[0] = policy.meaning.card_label[card] as u8;
        }
    }

    fn put_roles(&mut self, policy: &Policy) {
        let meaning = &policy.meaning;
        let roles = 1..=policy.counts.roles;
        for role in roles.clone() {
            self.entry(&READ_LEVELS, role)[0] = level_byte(meaning.read_level[role]);
            self.entry(&WRITE_LEVELS, role)[0] = level_byte(meaning.write_level[role]);
            for senior in roles.clone() {
                if meaning.seniority.over(senior, role) {
                    add_role(self.entry(&SENIORS, role), senior);
                }
            }
            for &card in &meaning.may_read[role] {
                add_role(self.entry(&READERS, card), role);
            }
            for &card in &meaning.may_write[role] {
                add_role(self.entry(&WRITERS, card), role);
            }
        }
        for &(user, role) in &policy.assigned {
            add_role(self.entry(&ASSIGNED, user), role);
        }
    }

    /// A place without a session is 0.
    fn put_places(&mut self, model: &Model) {
        for place in model.open_places() {
            let session = model.session(place).expect("an open place");
            let entry = self.entry(&PLACES, place);
            entry[..3].copy_from_slice(&[1, (session.user - 1) as u8, session.label as u8]);
            for &role in &session.roles {
                add_role(&mut entry[4..], role);
            }
        }
    }

    /// The first byte that differs, by its table and entry.
    fn compare(&self, state: &[u8]) -> Result<(), String> {
        assert_eq!(state.len(), STATE_BYTES);
        match first_difference(&self.0, state) {
            None => Ok(()),
            Some(at) => {
                let (expected, found) = (self.0[at], state[at]);
                Err(format!("{}: {found} and not {expected}", named(at)))
            }
        }
    }
}

/// "a label, 0 free, 99 undefined"
fn level_byte(level: Level) -> u8 {
    match level {
        Level::Free => 0,
        Level::Label(label) => label as u8,
        Level::Undefined => 99,
    }
}

/// "role r is bit (r − 1) mod 8 of byte (r − 1) / 8"
fn add_role(row: &mut [u8], role: usize) {
    row[(role - 1) / 8] |= 1 << ((role - 1) % 8);
}

// ---------------------------------------------------------------------------
// Loads

/// What the bytes were before, and those past the state still are.
const BEFORE: u8 = 0xa5;
const PAST: usize = 100;

/// Loads an accepted file; what the state then must hold, and holds.
fn loaded(file: &[u8]) -> Expected {
    let mut model = Model::default();
    assert_eq!(model.load(file, STATE_BYTES), Verdict::default());
    let mut lent = vec![BEFORE; STATE_BYTES + PAST];
    let verdict = library::load(&mut file.to_vec(), &mut lent);
    assert_eq!(verdict, Verdict::default());
    let (state, past) = lent.split_at(STATE_BYTES);
    let expected = Expected::of(&model);
    if let Err(difference) = expected.compare(state) {
        let text = String::from_utf8_lossy(&file[..file.len().min(2_200)]);
        panic!("{difference}, after a load of\n{text}");
    }
    assert!(past == [BEFORE; PAST], "bytes past 65,536 were changed");
    expected
}

#[test]
fn the_example_files() {
    loaded(EXAMPLE.as_bytes());
    loaded(TWO_MAKERS.as_bytes());
}

/// Each table that a load fills must have been seen with something in its last
/// entry, and some w-level undefined.
#[test]
fn random_files() {
    let mut unseen: Vec<&Table> = FILLED.to_vec();
    let mut undefined = 0;
    for index in 0..120 {
        let random = &mut Random::for_file(17, index);
        let mut expected = loaded(&match index {
            0..20 => write(&accepted(random, Size::Full)),
            _ => accepted_file(random),
        });
        unseen.retain(|table| !expected.entry(table, table.entries).iter().any(|&b| b > 0));
        undefined += usize::from(expected.0[WRITE_LEVELS.range()].contains(&99));
    }
    let unseen: Vec<&str> = unseen.iter().map(|table| table.holds).collect();
    assert!(unseen.is_empty(), "the last entry always 0: {unseen:?}");
    assert!(undefined > 5, "{undefined}");
}

// ---------------------------------------------------------------------------
// Sessions

/// The state after each call of random lists.
#[test]
fn places_after_calls() {
    let mut tally = Tally::default();
    let (mut holding, mut last) = (0, 0);
    for index in 0..60 {
        let random = &mut Random::for_file(18, index);
        let mut list = List::new(random, &mut |_| (), &mut tally).unwrap();
        let caller = Caller::new(random);
        for _ in 0..60 {
            list.step(random, &caller, &mut tally, &mut |_| ()).unwrap();
            let state = &list.state.bytes()[..STATE_BYTES];
            let mut expected = Expected::of(&list.model);
            expected.compare(state).unwrap();
            let open = list.model.open_places();
            let sessions = open.iter().filter_map(|&place| list.model.session(place));
            holding += sessions.filter(|session| session.roles.len() > 1).count();
            last += usize::from(expected.entry(&PLACES, PLACES.entries)[0]);
        }
    }
    assert!(holding > 500 && last > 100, "{holding} {last}");
}

// ---------------------------------------------------------------------------
// The document

/// The offsets above are the document's, row by row.
#[test]
fn the_documents_table() {
    let rows = DOCUMENT.lines().filter_map(|line| {
        let cells: Vec<&str> = line.split('|').map(str::trim).collect();
        let &["", from, bytes, holds, ""] = &cells[..] else {
            return None;
        };
        let number = |text: &str| text.trim().replace(',', "").parse::<usize>().ok();
        let factors = bytes.split('×').map(number).collect::<Option<Vec<_>>>()?;
        Some((number(from)?, factors.iter().product::<usize>(), holds))
    });
    let rows: Vec<(usize, usize, &str)> = rows.collect();
    assert_eq!(rows.len(), tables().len());
    for (table, (from, bytes, holds)) in tables().into_iter().zip(rows) {
        assert_eq!(table.range(), from..from + bytes, "{holds}");
        assert!(holds.starts_with(table.holds), "{holds}");
    }
}
