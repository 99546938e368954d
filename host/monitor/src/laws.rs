//! What document 01 says of every call on every state, whatever the state
//! holds.

use crate::bytes;
use crate::call::{Answer, Call, Kind};
use monitor_model::{Part, CARD_BYTES, PLACES, STATE_BYTES};
use second_checker::generate::LIMITS;

/// A lent buffer before and after a call.
#[derive(Clone, Copy)]
pub struct Change<'a> {
    pub before: &'a [u8],
    pub after: &'a [u8],
}

impl Change<'_> {
    pub fn none(&self) -> bool {
        self.before == self.after
    }
}

/// The largest counts.
const MOST_LABELS: u64 = LIMITS[0] as u64;
const MOST_ROLES: u64 = LIMITS[1] as u64;
const MOST_USERS: u64 = LIMITS[2] as u64;
const MOST_CARDS: u64 = LIMITS[3] as u64;
/// Modes are 1 and 2.
const MODES: u64 = 2;

/// Whether each number is one from 1 to its limit.
fn within(numbers: &[u64], limits: &[u64]) -> bool {
    let mut pairs = numbers.iter().zip(limits);
    pairs.all(|(number, &limit)| (1..=limit).contains(number))
}

/// The law a call broke, if it broke one.
pub fn check(call: &Call, answer: Answer, state: Change, store: Change) -> Result<(), String> {
    let made = Made {
        call,
        answer,
        state,
        store,
    };
    made.number()?;
    made.refusal()?;
    made.buffers()?;
    if let Some(part) = call.part() {
        made.part(part)?;
    }
    if let Answer::Figure(figure) = answer {
        made.figure(figure.figure)?;
    }
    if let Call::Review(review) = *call {
        let expected = bytes::answer(review, state.before);
        made.holds(answer == expected, &format!("{expected:?} by the bytes"))?;
    }
    Ok(())
}

/// A call that was made.
struct Made<'a> {
    call: &'a Call,
    answer: Answer,
    state: Change<'a>,
    store: Change<'a>,
}

impl Made<'_> {
    fn holds(&self, holds: bool, law: &str) -> Result<(), String> {
        if holds {
            return Ok(());
        }
        Err(format!("{}: {:?}: {law}", self.call, self.answer))
    }

    fn state_is_short(&self) -> bool {
        self.state.before.len() < STATE_BYTES
    }

    /// The number is one that the call can get.
    fn number(&self) -> Result<(), String> {
        let kind = self.call.kind();
        let number = self.answer.number();
        let short = self.state_is_short();
        self.holds(kind.numbers().contains(&number), "a number of its list")?;
        match kind {
            Kind::Load => self.holds((number == 7) == short, "7 where the state is short")?,
            _ => self.holds(number == 21 || !short, "21 where the state is short")?,
        }
        match self.call.place() {
            Some(place) if number != 21 => {
                let in_range = (1..=PLACES as u64).contains(&place);
                let law = "22 where the place isn't 1 to 64";
                self.holds((number == 22) != in_range, law)
            }
            _ => Ok(()),
        }
    }

    /// A refusal tells nothing but its number; a load's has a place.
    fn refusal(&self) -> Result<(), String> {
        let (kind, number) = (self.call.kind(), self.answer.number());
        let told = self.answer != Answer::refused(kind, number);
        let may_tell = number == 0 || kind == Kind::Load;
        self.holds(may_tell || !told, "a refusal tells nothing else")
    }

    /// "Every refusal leaves state, store and any other lent buffer unchanged,
    /// and a call that is done changes nothing past what it fills."
    fn buffers(&self) -> Result<(), String> {
        let kind = self.call.kind();
        let number = self.answer.number();
        if number != 0 || !kind.changes_state() {
            self.holds(self.state.none(), "the state unchanged")?;
        }
        if !self.state_is_short() {
            let same = self.state.before[STATE_BYTES..] == self.state.after[STATE_BYTES..];
            self.holds(same, "bytes past 65,536 unchanged")?;
        }
        if number != 0 || kind != Kind::Write {
            self.holds(self.store.none(), "the store unchanged")?;
        }
        Ok(())
    }

    /// A read or a write keeps to its card.
    fn part(&self, part: Part) -> Result<(), String> {
        let number = self.answer.number();
        let end = u128::from(part.offset) + u128::from(part.length);
        let past_the_card = end > CARD_BYTES as u128;
        self.holds(number != 30 || past_the_card, "30 past the card only")?;
        if past_the_card {
            self.holds(number != 0 && number != 31, "30 comes first")?;
        }
        let store = self.store.before;
        let short = store.len() < CARD_BYTES * MOST_CARDS as usize;
        self.holds(number != 31 || short, "31 with a short store only")?;
        if number != 0 {
            return Ok(());
        }
        self.holds((1..=MOST_CARDS).contains(&part.card), "a card in range")?;
        let whole = CARD_BYTES * part.card as usize;
        self.holds(store.len() >= whole, "a store with the card")?;
        if let Call::Write { bytes, .. } = self.call {
            let mut expected = store.to_vec();
            expected[part.bytes()].copy_from_slice(bytes);
            self.holds(expected == self.store.after, "the named bytes only")?;
        }
        Ok(())
    }

    /// A report's figure is one that it can have.
    fn figure(&self, figure: u64) -> Result<(), String> {
        let number = self.answer.number();
        match *self.call {
            Call::Flows { from, to } => {
                self.holds(figure <= 1, "a flow's figure is 0 or 1")?;
                self.holds(from != to || figure == 0, "never to itself")?;
                let roles = within(&[from, to], &[MOST_ROLES, MOST_ROLES]);
                self.holds(number != 0 || roles, "roles in range")
            }
            Call::Can {
                user,
                label,
                card,
                mode,
            } => {
                self.holds(figure <= 1, "what a user can is 0 or 1")?;
                let most = [MOST_USERS, MOST_LABELS, MOST_CARDS, MODES];
                let in_range = within(&[user, label, card, mode], &most);
                self.holds(![0, 26].contains(&number) || in_range, "25 comes first")
            }
            Call::Circle => self.holds(figure <= MOST_ROLES, "a role on the circle"),
            _ => Ok(()),
        }
    }
}
