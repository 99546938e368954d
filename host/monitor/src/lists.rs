//! Random lists of calls, each call made on the model and on the library.

use crate::call::{Answer, Call, Kind};
use crate::generate::{accepted_file, reading, Caller, Lending, LentState};
use crate::lent::Lent;
use crate::library;
use crate::outcome::Seen;
use crate::pairs::monitor::Monitor;
use monitor_model::{Model, CARD_BYTES, PLACES, STATE_BYTES};
use second_checker::check::Counts;
use second_checker::differential::Totals;
use second_checker::generate::LIMITS;
use second_checker::random::Random;

/// How many calls a list has, its first load included.
pub const CALLS: usize = 200;

/// The numbers that a run must see: done, and all that calls with a good file
/// can get.
const WANTED: [u64; 13] = [0, 7, 21, 22, 23, 24, 25, 26, 27, 28, 29, 30, 31];

/// How often each number was seen.
#[derive(Default)]
pub struct Tally {
    seen: Seen,
    lists: u64,
    /// Takings of roles for low sessions alone, done.
    pub low_taken: u64,
    /// Takings that a w-level alone forbids.
    pub write_level_forbids: u64,
    /// Calls made to look at a state from outside, not counted above.
    surveyed: u64,
}

impl Tally {
    /// Counts a call that got this number on what the model holds.
    fn count(&mut self, call: &Call, answer: Answer, model: &Model) {
        self.seen.count(call.kind(), answer);
        let (&Call::Take { place, role }, 0 | 28) = (call, answer.number()) else {
            return;
        };
        let policy = model.policy().expect("a loaded file");
        let session = model.session(place as usize).expect("an open place");
        let role = role as usize;
        if answer.number() == 28 {
            let reads = policy.meaning.read_level_allows(role, session.label);
            self.write_level_forbids += u64::from(reads);
        } else {
            self.low_taken += u64::from(policy.meaning.is_low(session.user, role));
        }
    }
}

impl Totals for Tally {
    fn add(&mut self, other: Tally) {
        self.seen.add(other.seen);
        self.lists += other.lists;
        self.low_taken += other.low_taken;
        self.write_level_forbids += other.write_level_forbids;
        self.surveyed += other.surveyed;
    }

    /// Of each number that must be seen, of each number of each call but a load's
    /// numbers about the file, of all that reports and review calls tell, and of
    /// what a w-level does to takings.
    fn unseen(&self) -> Vec<String> {
        let mut unseen: Vec<String> = WANTED
            .into_iter()
            .filter(|&number| self.seen.number(&Kind::ALL, number) == 0)
            .map(|number| format!("number {number}"))
            .collect();
        for kind in Kind::ALL {
            for &number in kind.numbers() {
                if WANTED.contains(&number) && self.seen.number(&[kind], number) == 0 {
                    unseen.push(format!("{} {number}", kind.name()));
                }
            }
        }
        unseen.extend(self.seen.rarely_told(&Kind::ALL, 1));
        if self.low_taken == 0 {
            unseen.push("a role for low sessions alone taken".to_string());
        }
        if self.write_level_forbids == 0 {
            unseen.push("a taking that a w-level alone forbids".to_string());
        }
        unseen
    }

    /// The counts, a row for each number and a column for each call.
    fn table(&self) -> String {
        format!(
            "library: {}\n{} lists, {} calls, {} more to survey states\n\
             {} roles for low sessions alone taken, {} takings that a w-level alone forbids\n{}\n{}{}",
            library::UNDER_TEST,
            self.lists,
            self.seen.numbers.values().sum::<u64>(),
            self.surveyed,
            self.low_taken,
            self.write_level_forbids,
            self.seen.columns(&Kind::ALL[..10]),
            self.seen.columns(Kind::reviews()),
            self.seen.lines(),
        )
    }
}

/// A list while it is run.
pub struct List {
    pub model: Model,
    /// What the model's store holds.
    pub cards: Vec<u8>,
    pub state: Lent,
    pub store: Lent,
}

/// Runs list `index` of the run with this seed; what went wrong, if anything.
/// `trace` gets a line for each call.
pub fn run(
    seed: u64,
    index: u64,
    tally: &mut Tally,
    trace: &mut dyn FnMut(&str),
) -> Result<(), String> {
    let random = &mut Random::for_file(seed, index);
    let mut list = List::new(random, trace, tally)
        .map_err(|problem| format!("seed {seed} list {index} call 1: {problem}"))?;
    let caller = Caller::new(random);
    let survey_at = random.below(CALLS);
    for call_number in 2..=CALLS {
        let step = list.step(random, &caller, tally, trace).and_then(|()| {
            if call_number == survey_at || call_number == CALLS {
                list.survey(random, tally)
            } else {
                Ok(())
            }
        });
        if let Err(problem) = step {
            return Err(format!(
                "seed {seed} list {index} call {call_number}: {problem}"
            ));
        }
    }
    tally.lists += 1;
    Ok(())
}

/// The first call of list `index`, later loads left out, to which a monitor in
/// the library's place gives another number than the model.
pub fn told_apart(seed: u64, index: u64, monitor: &mut impl Monitor) -> Option<Call> {
    let random = &mut Random::for_file(seed, index);
    let mut model = Model::default();
    let file = accepted_file(random);
    let load = Call::Load { file };
    if monitor.number(&load, &mut []) != load.on_model(&mut model, STATE_BYTES, &mut []).number() {
        return Some(load);
    }
    let caller = Caller::new(random);
    let length = CARD_BYTES * LIMITS[3];
    let (mut store, mut copy) = (vec![0; length], vec![0; length]);
    for _ in 2..=CALLS {
        let (call, lending) = caller.next(random, &model, length);
        if lending.state != LentState::Whole || call.kind() == Kind::Load {
            continue;
        }
        let expected = call.on_model(&mut model, STATE_BYTES, &mut store[..lending.store]);
        if monitor.number(&call, &mut copy[..lending.store]) != expected.number() {
            return Some(call);
        }
    }
    None
}

impl List {
    /// Begins with the load of an accepted file into a state of any bytes.
    pub fn new(
        random: &mut Random,
        trace: &mut dyn FnMut(&str),
        tally: &mut Tally,
    ) -> Result<List, String> {
        let file = accepted_file(random);
        trace(&String::from_utf8_lossy(&file));
        let mut model = Model::default();
        let surplus = random.pick(&[0, 0, 0, 1, 7, 64, 1_000, STATE_BYTES]);
        let mut state = Lent::new(&random.bytes(STATE_BYTES + surplus), random);
        let load = Call::Load { file };
        let expected = load.on_model(&mut model, STATE_BYTES, &mut []);
        let answer = load.on_library(state.bytes_mut(), &mut [], random)?;
        if answer != expected {
            return Err(format!("load: expected {expected:?}, got {answer:?}"));
        }
        tally.seen.count(Kind::Load, answer);
        let counts = match model.policy() {
            Some(policy) => policy.counts,
            None => return Err("the generator's file was refused".to_string()),
        };
        let surplus = random.pick(&[0, 0, 1, 63, 64, 300]);
        let cards = random.bytes(CARD_BYTES * counts.cards + surplus);
        let store = Lent::new(&cards, random);
        Ok(List {
            model,
            cards,
            state,
            store,
        })
    }

    /// Makes one call on both sides and compares all there is to see.
    pub fn step(
        &mut self,
        random: &mut Random,
        caller: &Caller,
        tally: &mut Tally,
        trace: &mut dyn FnMut(&str),
    ) -> Result<(), String> {
        if random.percent(3) {
            // A state is its bytes alone: it may be moved.
            self.state = Lent::new(self.state.bytes(), random);
        }
        let (call, lending) = caller.next(random, &self.model, self.cards.len());
        let state_before = self.state.bytes().to_vec();
        let expected = self.expect(&call, lending);
        let answer = self.ask(&call, lending, random)?;
        trace(&format!("{call}, lent {lending:?}: {answer:?}"));
        if answer != expected {
            return Err(format!(
                "{call}, lent {lending:?}: expected {expected:?}, got {answer:?}"
            ));
        }
        tally.count(&call, answer, &self.model);
        self.compare_buffers(&call, answer.number(), &state_before)
            .map_err(|what| format!("{call}, lent {lending:?}: {answer:?}: {what}"))?;
        self.apply(&call, lending);
        if call.kind() == Kind::Load && random.percent(75) {
            self.lengthen_store(random);
        }
        Ok(())
    }

    /// What is wrong with state and store after a call, if anything.
    fn compare_buffers(&self, call: &Call, number: u64, before: &[u8]) -> Result<(), String> {
        if !self.state.canaries_unchanged() || !self.store.canaries_unchanged() {
            return Err("bytes around a buffer were changed".to_string());
        }
        if self.store.bytes() != self.cards {
            let at = first_difference(self.store.bytes(), &self.cards);
            return Err(format!("the store differs, first at byte {at:?}"));
        }
        let after = self.state.bytes();
        if self.changes_nothing(call, number) && before != after {
            return Err("the state was changed".to_string());
        }
        if before[STATE_BYTES..] != after[STATE_BYTES..] {
            return Err("bytes past 65,536 were changed".to_string());
        }
        Ok(())
    }

    /// Makes the store long enough for the cards, as a server would that
    /// loads another file.
    fn lengthen_store(&mut self, random: &mut Random) {
        let cards = self.model.policy().map_or(0, |policy| policy.counts.cards);
        let short = (CARD_BYTES * cards).saturating_sub(self.cards.len());
        if short > 0 {
            self.cards.extend(random.bytes(short));
            self.store = Lent::new(&self.cards, random);
        }
    }

    /// What the model answers. Its store takes a write; its sessions are left
    /// as they are for a comparison with the state before.
    fn expect(&mut self, call: &Call, lending: Lending) -> Answer {
        let store = &mut self.cards[..lending.store];
        match lending.state {
            LentState::Whole => call.on_model(&mut self.model.clone(), STATE_BYTES, store),
            LentState::First(length) => call.on_model(&mut self.model.clone(), length, store),
            LentState::Zeroed => call.on_model(&mut Model::default(), STATE_BYTES, store),
        }
    }

    /// The call's effect on the model's policy and sessions.
    fn apply(&mut self, call: &Call, lending: Lending) {
        if lending.state == LentState::Whole && call.kind().changes_state() {
            call.on_model(&mut self.model, STATE_BYTES, &mut []);
        }
    }

    fn ask(
        &mut self,
        call: &Call,
        lending: Lending,
        random: &mut Random,
    ) -> Result<Answer, String> {
        let store = &mut self.store.bytes_mut()[..lending.store];
        match lending.state {
            LentState::Whole => call.on_library(self.state.bytes_mut(), store, random),
            LentState::First(length) => {
                call.on_library(&mut self.state.bytes_mut()[..length], store, random)
            }
            LentState::Zeroed => {
                let mut zeroed = Lent::new(&[0; STATE_BYTES], random);
                let answer = call.on_library(zeroed.bytes_mut(), store, random)?;
                if zeroed.bytes() != [0; STATE_BYTES] || !zeroed.canaries_unchanged() {
                    return Err(format!("{call}: a zeroed state was changed"));
                }
                Ok(answer)
            }
        }
    }

    /// Whether the call must leave every byte of the state as it was: a
    /// refusal, a call that only reads the state, and "Taking a role already
    /// held, or dropping one not held, is done and changes nothing."
    fn changes_nothing(&self, call: &Call, number: u64) -> bool {
        let holds = |place: u64, role: u64| {
            self.model
                .session(place as usize)
                .is_some_and(|session| session.roles.contains(&(role as usize)))
        };
        number != 0
            || match *call {
                Call::Take { place, role } => holds(place, role),
                Call::Drop { place, role } => !holds(place, role),
                _ => !call.kind().changes_state(),
            }
    }

    /// Looks at the whole state from outside, on a copy of it: what each
    /// session may read, write and take, and which places are open.
    pub fn survey(&self, random: &mut Random, tally: &mut Tally) -> Result<(), String> {
        let Some(policy) = self.model.policy() else {
            return Ok(());
        };
        let mut model = self.model.clone();
        let mut state = Lent::new(self.state.bytes(), random);
        let mut store = Lent::new(&vec![0; CARD_BYTES * policy.counts.cards], random);
        for call in self.survey_calls(policy.counts) {
            tally.surveyed += 1;
            let expected = call.on_model(&mut model, STATE_BYTES, store.bytes_mut());
            let answer = call.on_library(state.bytes_mut(), store.bytes_mut(), random)?;
            if answer != expected {
                return Err(format!(
                    "survey: {call}: expected {expected:?}, got {answer:?}"
                ));
            }
        }
        Ok(())
    }

    /// Calls at each place: reads, writes, takings of each role, and a closing.
    fn survey_calls(&self, counts: Counts) -> Vec<Call> {
        let mut calls = Vec::new();
        for place in 1..=PLACES as u64 {
            let open = self.model.session(place as usize).is_some();
            // A place without a session answers 24 whatever the card or role.
            let some = |count: usize| if open { count } else { count.min(1) };
            for card in 1..=some(counts.cards) as u64 {
                calls.push(reading(place, card, (0, CARD_BYTES as u64)));
                calls.push(Call::Write {
                    place,
                    card,
                    offset: CARD_BYTES as u64,
                    bytes: Vec::new(),
                });
            }
            let roles = 1..=some(counts.roles) as u64;
            calls.extend(roles.map(|role| Call::Take { place, role }));
            calls.push(Call::Close { place });
        }
        calls
    }
}

/// The first byte in which two buffers differ.
pub fn first_difference(one: &[u8], other: &[u8]) -> Option<usize> {
    one.iter().zip(other).position(|(one, other)| one != other)
}
