//! The calls of the interface as values, to be made on the model and on the
//! library.

use crate::lent::Lent;
use crate::library::{self, CountsAnswer, Figure, SessionAnswer, SetAnswer, Verdict};
use crate::review::Review;
use monitor_model::{Mode, Model, Part, STATE_BYTES};
use second_checker::random::Random;
use std::fmt;

/// One call with the numbers and bytes handed in.
#[derive(Clone, Debug, PartialEq, Eq)]
pub enum Call {
    Load {
        file: Vec<u8>,
    },
    Open {
        place: u64,
        user: u64,
        label: u64,
    },
    Close {
        place: u64,
    },
    Take {
        place: u64,
        role: u64,
    },
    Drop {
        place: u64,
        role: u64,
    },
    Read(Part),
    Write {
        place: u64,
        card: u64,
        offset: u64,
        bytes: Vec<u8>,
    },
    Flows {
        from: u64,
        to: u64,
    },
    Circle,
    Can {
        user: u64,
        label: u64,
        card: u64,
        mode: u64,
    },
    Review(Review),
}

/// What a call hands back.
#[derive(Clone, Copy, Debug, PartialEq, Eq)]
pub enum Answer {
    Verdict(Verdict),
    Number(u64),
    Figure(Figure),
    Counts(CountsAnswer),
    Session(SessionAnswer),
    Set(SetAnswer),
}

impl Answer {
    pub fn number(self) -> u64 {
        match self {
            Answer::Verdict(verdict) => verdict.number,
            Answer::Number(number) => number,
            Answer::Figure(figure) => figure.number,
            Answer::Counts(counts) => counts.number,
            Answer::Session(session) => session.number,
            Answer::Set(set) => set.number,
        }
    }

    /// A refusal of a call of this kind: beside the number all is 0.
    pub fn refused(kind: Kind, number: u64) -> Answer {
        match kind {
            Kind::Load => Answer::Verdict(Verdict::refused(number)),
            Kind::Open | Kind::Close | Kind::Take | Kind::Drop | Kind::Read | Kind::Write => {
                Answer::Number(number)
            }
            Kind::Counts => Answer::Counts(CountsAnswer {
                number,
                ..CountsAnswer::default()
            }),
            Kind::Session => Answer::Session(SessionAnswer {
                number,
                ..SessionAnswer::default()
            }),
            Kind::Takable => Answer::Set(SetAnswer {
                number,
                ..SetAnswer::default()
            }),
            _ => Answer::Figure(Figure::refused(number)),
        }
    }
}

/// Which function a call is about.
#[derive(Clone, Copy, Debug, PartialEq, Eq, PartialOrd, Ord)]
pub enum Kind {
    Load,
    Open,
    Close,
    Take,
    Drop,
    Read,
    Write,
    Flows,
    Circle,
    Can,
    Counts,
    Session,
    Clearance,
    CardLabel,
    Level,
    Dominates,
    Senior,
    Assigned,
    Takable,
    Gives,
}

impl Kind {
    pub const ALL: [Kind; 20] = [
        Kind::Load,
        Kind::Open,
        Kind::Close,
        Kind::Take,
        Kind::Drop,
        Kind::Read,
        Kind::Write,
        Kind::Flows,
        Kind::Circle,
        Kind::Can,
        Kind::Counts,
        Kind::Session,
        Kind::Clearance,
        Kind::CardLabel,
        Kind::Level,
        Kind::Dominates,
        Kind::Senior,
        Kind::Assigned,
        Kind::Takable,
        Kind::Gives,
    ];

    /// The review calls.
    pub fn reviews() -> &'static [Kind] {
        &Kind::ALL[10..]
    }

    /// The numbers it can answer: 0, then in the order of its checks.
    pub fn numbers(self) -> &'static [u64] {
        match self {
            Kind::Load => &[0, 7, 1, 2, 3, 4, 5, 6, 11, 12, 13, 14, 15, 16],
            Kind::Open => &[0, 21, 22, 23, 25, 26],
            Kind::Close => &[0, 21, 22, 24],
            Kind::Take => &[0, 21, 22, 24, 25, 27, 28],
            Kind::Drop => &[0, 21, 22, 24, 25],
            Kind::Read | Kind::Write => &[0, 21, 22, 24, 25, 29, 30, 31],
            Kind::Circle | Kind::Counts => &[0, 21],
            Kind::Can | Kind::Takable => &[0, 21, 25, 26],
            Kind::Session => &[0, 21, 22, 24],
            Kind::Flows
            | Kind::Clearance
            | Kind::CardLabel
            | Kind::Level
            | Kind::Dominates
            | Kind::Senior
            | Kind::Assigned
            | Kind::Gives => &[0, 21, 25],
        }
    }

    pub fn name(self) -> &'static str {
        match self {
            Kind::Load => "load",
            Kind::Open => "open",
            Kind::Close => "close",
            Kind::Take => "take",
            Kind::Drop => "drop",
            Kind::Read => "read",
            Kind::Write => "write",
            Kind::Flows => "flows",
            Kind::Circle => "circle",
            Kind::Can => "can",
            Kind::Counts => "counts",
            Kind::Session => "session",
            Kind::Clearance => "clearance",
            Kind::CardLabel => "card label",
            Kind::Level => "level",
            Kind::Dominates => "dominates",
            Kind::Senior => "senior",
            Kind::Assigned => "assigned",
            Kind::Takable => "takable",
            Kind::Gives => "gives",
        }
    }

    /// Whether a call that is done may change the state.
    pub fn changes_state(self) -> bool {
        matches!(
            self,
            Kind::Load | Kind::Open | Kind::Close | Kind::Take | Kind::Drop
        )
    }
}

impl Call {
    pub fn kind(&self) -> Kind {
        match self {
            Call::Load { .. } => Kind::Load,
            Call::Open { .. } => Kind::Open,
            Call::Close { .. } => Kind::Close,
            Call::Take { .. } => Kind::Take,
            Call::Drop { .. } => Kind::Drop,
            Call::Read(_) => Kind::Read,
            Call::Write { .. } => Kind::Write,
            Call::Flows { .. } => Kind::Flows,
            Call::Circle => Kind::Circle,
            Call::Can { .. } => Kind::Can,
            Call::Review(review) => review.kind(),
        }
    }

    /// The place it names.
    pub fn place(&self) -> Option<u64> {
        match *self {
            Call::Open { place, .. }
            | Call::Close { place }
            | Call::Take { place, .. }
            | Call::Drop { place, .. }
            | Call::Write { place, .. } => Some(place),
            Call::Read(part) => Some(part.place),
            Call::Review(review) => review.place(),
            Call::Load { .. } | Call::Flows { .. } | Call::Circle | Call::Can { .. } => None,
        }
    }

    /// The part of a card that a read or a write names.
    pub fn part(&self) -> Option<Part> {
        match self {
            Call::Read(part) => Some(*part),
            Call::Write {
                place,
                card,
                offset,
                bytes,
            } => Some(Part {
                place: *place,
                card: *card,
                offset: *offset,
                length: bytes.len() as u64,
            }),
            _ => None,
        }
    }

    /// The number the model answers, without making the call. A load's number
    /// is told only as far as the state's length settles it.
    pub fn number_on_model(&self, model: &Model, state: usize, store: usize) -> u64 {
        let refusal = match self {
            Call::Load { .. } => {
                return if state < STATE_BYTES { 7 } else { 0 };
            }
            Call::Open { place, user, label } => model.opening(state, *place, *user, *label).err(),
            Call::Close { place } => model.closing(state, *place).err(),
            Call::Take { place, role } => model.taking(state, *place, *role).err(),
            Call::Drop { place, role } => model.dropping(state, *place, *role).err(),
            Call::Read(part) => model.reaching(state, store, *part, Mode::Read).err(),
            Call::Write { .. } => {
                let part = self.part().expect("a write names a part");
                model.reaching(state, store, part, Mode::Write).err()
            }
            Call::Flows { from, to } => model.flowing(state, *from, *to).err(),
            Call::Circle => model.circling(state).err(),
            &Call::Can {
                user,
                label,
                card,
                mode,
            } => model.granting(state, user, label, card, mode).err(),
            Call::Review(review) => return review.on_model(model, state).number(),
        };
        refusal.unwrap_or(0)
    }

    /// Makes the call on the model.
    pub fn on_model(&self, model: &mut Model, state: usize, store: &mut [u8]) -> Answer {
        match self {
            Call::Load { file } => Answer::Verdict(model.load(file, state)),
            Call::Open { place, user, label } => {
                Answer::Number(model.open(state, *place, *user, *label))
            }
            Call::Close { place } => Answer::Number(model.close(state, *place)),
            Call::Take { place, role } => Answer::Number(model.take(state, *place, *role)),
            Call::Drop { place, role } => Answer::Number(model.drop(state, *place, *role)),
            Call::Read(part) => Answer::Number(model.read(state, store, *part).0),
            Call::Write {
                place,
                card,
                offset,
                bytes,
            } => Answer::Number(model.write(state, store, *place, *card, *offset, bytes)),
            Call::Flows { from, to } => Answer::Figure(model.flows(state, *from, *to)),
            Call::Circle => Answer::Figure(model.circle(state)),
            &Call::Can {
                user,
                label,
                card,
                mode,
            } => Answer::Figure(model.can(state, user, label, card, mode)),
            Call::Review(review) => review.on_model(model, state),
        }
    }

    /// Makes the call on the library. A file or bytes to write are lent as a
    /// copy between canaries, which the call must leave as they are.
    pub fn on_library(
        &self,
        state: &mut [u8],
        store: &mut [u8],
        random: &mut Random,
    ) -> Result<Answer, String> {
        let given: &[u8] = match self {
            Call::Load { file } => file,
            Call::Write { bytes, .. } => bytes,
            _ => &[],
        };
        let mut lent = Lent::new(given, random);
        let answer = match *self {
            Call::Load { .. } => Answer::Verdict(library::load(lent.bytes_mut(), state)),
            Call::Open { place, user, label } => {
                Answer::Number(library::open(state, place, user, label))
            }
            Call::Close { place } => Answer::Number(library::close(state, place)),
            Call::Take { place, role } => Answer::Number(library::take(state, place, role)),
            Call::Drop { place, role } => Answer::Number(library::drop(state, place, role)),
            Call::Read(part) => Answer::Number(library::read_number(
                state,
                store,
                part.place,
                part.card,
                part.offset,
                part.length,
            )),
            Call::Write {
                place,
                card,
                offset,
                ..
            } => Answer::Number(library::write(
                state,
                store,
                place,
                card,
                offset,
                lent.bytes_mut(),
            )),
            Call::Flows { from, to } => Answer::Figure(library::flows(state, from, to)),
            Call::Circle => Answer::Figure(library::circle(state)),
            Call::Can {
                user,
                label,
                card,
                mode,
            } => Answer::Figure(library::can(state, user, label, card, mode)),
            Call::Review(review) => review.on_library(state),
        };
        if lent.bytes() != given || !lent.canaries_unchanged() {
            return Err(format!("{self}: the bytes handed in were changed"));
        }
        Ok(answer)
    }
}

impl fmt::Display for Call {
    fn fmt(&self, out: &mut fmt::Formatter<'_>) -> fmt::Result {
        match self {
            Call::Load { file } => write!(out, "load of {} bytes", file.len()),
            Call::Open { place, user, label } => {
                write!(out, "open place {place} user {user} label {label}")
            }
            Call::Close { place } => write!(out, "close place {place}"),
            Call::Take { place, role } => write!(out, "take place {place} role {role}"),
            Call::Drop { place, role } => write!(out, "drop place {place} role {role}"),
            Call::Read(part) => write!(
                out,
                "read place {} card {} offset {} length {}",
                part.place, part.card, part.offset, part.length
            ),
            Call::Write {
                place,
                card,
                offset,
                bytes,
            } => write!(
                out,
                "write place {place} card {card} offset {offset} length {}",
                bytes.len()
            ),
            Call::Flows { from, to } => write!(out, "flows from {from} to {to}"),
            Call::Circle => write!(out, "circle"),
            Call::Can {
                user,
                label,
                card,
                mode,
            } => write!(out, "can user {user} label {label} card {card} mode {mode}"),
            Call::Review(review) => write!(out, "{review:?}"),
        }
    }
}
