//! Copies of the model that answer one review call wrongly, which the questions
//! must tell from it.

use crate::call::{Answer, Kind};
use crate::library::{Figure, SetAnswer};
use crate::review::Review;
use monitor_model::review::halves;
use monitor_model::{Model, Policy, STATE_BYTES};

/// A copy with one fault.
pub struct Wrong {
    pub kind: Kind,
    pub fault: &'static str,
    /// What it answers where the model answers this.
    answer: fn(&Asked, Answer) -> Answer,
}

/// A question to a state.
struct Asked<'a> {
    review: Review,
    model: &'a Model,
    policy: &'a Policy,
}

impl Asked<'_> {
    /// The model's answer to another question.
    fn instead(&self, review: Review) -> Answer {
        review.on_model(self.model, STATE_BYTES)
    }
}

impl Wrong {
    /// What the copy answers on a state that holds what the model holds.
    pub fn answer(&self, review: Review, model: &Model) -> Answer {
        let answer = review.on_model(model, STATE_BYTES);
        match model.policy() {
            Some(policy) if review.kind() == self.kind => {
                let asked = Asked {
                    review,
                    model,
                    policy,
                };
                (self.answer)(&asked, answer)
            }
            _ => answer,
        }
    }
}

const fn wrong(kind: Kind, fault: &'static str, answer: fn(&Asked, Answer) -> Answer) -> Wrong {
    Wrong {
        kind,
        fault,
        answer,
    }
}

fn done(figure: u64) -> Answer {
    Answer::Figure(Figure { number: 0, figure })
}

/// At least two for each review call.
pub const ALL: &[Wrong] = &[
    wrong(Kind::Counts, "users and cards exchanged", users_and_cards),
    wrong(
        Kind::Counts,
        "roles up to the highest assigned",
        roles_assigned,
    ),
    wrong(Kind::Session, "roles above 64 lost", session_high_lost),
    wrong(
        Kind::Session,
        "the clearance for the label",
        session_clearance,
    ),
    wrong(Kind::Session, "24 for 22", session_number),
    wrong(Kind::Clearance, "user cut to 32 bits", clearance_cut),
    wrong(Kind::Clearance, "one past the users", clearance_past),
    wrong(Kind::CardLabel, "card cut to 16 bits", card_cut),
    wrong(Kind::CardLabel, "the next card's label", card_next),
    wrong(Kind::Level, "modes exchanged", level_modes),
    wrong(Kind::Level, "undefined as free", level_undefined),
    wrong(Kind::Dominates, "the other way round", dominates_turned),
    wrong(Kind::Dominates, "never itself", dominates_itself),
    wrong(Kind::Senior, "the other way round", senior_turned),
    wrong(Kind::Senior, "never itself", senior_itself),
    wrong(Kind::Assigned, "inherited roles too", assigned_inherited),
    wrong(Kind::Assigned, "roles above 64 lost", assigned_high_lost),
    wrong(
        Kind::Takable,
        "the clearance for the label",
        takable_clearance,
    ),
    wrong(Kind::Takable, "assigned roles alone", takable_assigned),
    wrong(Kind::Takable, "levels not asked", takable_levels),
    wrong(Kind::Takable, "w-level not asked", takable_write_level),
    wrong(Kind::Gives, "roles above 64 lost", gives_high_lost),
    wrong(Kind::Gives, "modes exchanged", gives_modes),
    wrong(Kind::Gives, "bits past the roles count", gives_past),
];

fn users_and_cards(_: &Asked, answer: Answer) -> Answer {
    match answer {
        Answer::Counts(mut counts) => {
            (counts.users, counts.cards) = (counts.cards, counts.users);
            Answer::Counts(counts)
        }
        answer => answer,
    }
}

fn roles_assigned(asked: &Asked, answer: Answer) -> Answer {
    let highest = asked.policy.assigned.iter().map(|line| line.1).max();
    match answer {
        Answer::Counts(mut counts) => {
            counts.roles = highest.unwrap_or(0) as u64;
            Answer::Counts(counts)
        }
        answer => answer,
    }
}

fn session_high_lost(_: &Asked, answer: Answer) -> Answer {
    match answer {
        Answer::Session(mut session) => {
            session.high = 0;
            Answer::Session(session)
        }
        answer => answer,
    }
}

fn session_clearance(asked: &Asked, answer: Answer) -> Answer {
    match answer {
        Answer::Session(mut session) if session.number == 0 => {
            session.label = asked.policy.meaning.clearance[session.user as usize] as u64;
            Answer::Session(session)
        }
        answer => answer,
    }
}

fn session_number(asked: &Asked, answer: Answer) -> Answer {
    match answer.number() {
        22 => Answer::refused(asked.review.kind(), 24),
        _ => answer,
    }
}

fn clearance_cut(asked: &Asked, answer: Answer) -> Answer {
    match asked.review {
        Review::Clearance { user } => asked.instead(Review::Clearance {
            user: user as u32 as u64,
        }),
        _ => answer,
    }
}

fn clearance_past(asked: &Asked, answer: Answer) -> Answer {
    match asked.review {
        Review::Clearance { user } if user == asked.policy.counts.users as u64 + 1 => done(0),
        _ => answer,
    }
}

fn card_cut(asked: &Asked, answer: Answer) -> Answer {
    match asked.review {
        Review::CardLabel { card } => asked.instead(Review::CardLabel {
            card: card as u16 as u64,
        }),
        _ => answer,
    }
}

fn card_next(asked: &Asked, answer: Answer) -> Answer {
    match asked.review {
        Review::CardLabel { card } if answer.number() == 0 => {
            let card = 1 + card % asked.policy.counts.cards as u64;
            asked.instead(Review::CardLabel { card })
        }
        _ => answer,
    }
}

fn level_modes(asked: &Asked, answer: Answer) -> Answer {
    match asked.review {
        Review::Level { role, mode } if answer.number() == 0 => asked.instead(Review::Level {
            role,
            mode: 3 - mode,
        }),
        _ => answer,
    }
}

fn level_undefined(_: &Asked, answer: Answer) -> Answer {
    match answer {
        Answer::Figure(Figure { figure: 99, .. }) => done(0),
        answer => answer,
    }
}

fn dominates_turned(asked: &Asked, answer: Answer) -> Answer {
    match asked.review {
        Review::Dominates { a, b } => asked.instead(Review::Dominates { a: b, b: a }),
        _ => answer,
    }
}

fn dominates_itself(asked: &Asked, answer: Answer) -> Answer {
    match asked.review {
        Review::Dominates { a, b } if a == b && answer.number() == 0 => done(0),
        _ => answer,
    }
}

fn senior_turned(asked: &Asked, answer: Answer) -> Answer {
    match asked.review {
        Review::Senior { r, q } => asked.instead(Review::Senior { r: q, q: r }),
        _ => answer,
    }
}

fn senior_itself(asked: &Asked, answer: Answer) -> Answer {
    match asked.review {
        Review::Senior { r, q } if r == q && answer.number() == 0 => done(0),
        _ => answer,
    }
}

fn assigned_inherited(asked: &Asked, answer: Answer) -> Answer {
    match asked.review {
        Review::Assigned { user, role } if answer.number() == 0 => {
            done(asked.policy.is_member(user as usize, role as usize).into())
        }
        _ => answer,
    }
}

fn assigned_high_lost(asked: &Asked, answer: Answer) -> Answer {
    match asked.review {
        Review::Assigned { role, .. } if role > 64 && answer.number() == 0 => done(0),
        _ => answer,
    }
}

/// The set of roles that another rule lets be taken, where the call is done.
fn takable_by(
    asked: &Asked,
    answer: Answer,
    allowed: impl Fn(&Policy, usize, usize, usize) -> bool,
) -> Answer {
    match asked.review {
        Review::Takable { user, label } if answer.number() == 0 => {
            let allowed =
                |&role: &usize| allowed(asked.policy, user as usize, label as usize, role);
            let roles = (1..=asked.policy.counts.roles).filter(allowed).collect();
            let (low, high) = halves(&roles);
            Answer::Set(SetAnswer {
                number: 0,
                low,
                high,
            })
        }
        _ => answer,
    }
}

fn takable_clearance(asked: &Asked, answer: Answer) -> Answer {
    takable_by(asked, answer, |policy, user, _, role| {
        let clearance = policy.meaning.clearance[user];
        policy.is_member(user, role) && policy.levels_allow(role, clearance)
    })
}

fn takable_assigned(asked: &Asked, answer: Answer) -> Answer {
    takable_by(asked, answer, |policy, user, label, role| {
        policy.assigned.contains(&(user, role)) && policy.levels_allow(role, label)
    })
}

fn takable_levels(asked: &Asked, answer: Answer) -> Answer {
    takable_by(asked, answer, |policy, user, _, role| {
        policy.is_member(user, role)
    })
}

fn takable_write_level(asked: &Asked, answer: Answer) -> Answer {
    takable_by(asked, answer, |policy, user, label, role| {
        policy.is_member(user, role) && policy.meaning.read_level_allows(role, label)
    })
}

fn gives_high_lost(asked: &Asked, answer: Answer) -> Answer {
    match asked.review {
        Review::Gives {
            set: (low, _),
            label,
            card,
            mode,
        } => asked.instead(Review::Gives {
            set: (low, 0),
            label,
            card,
            mode,
        }),
        _ => answer,
    }
}

fn gives_modes(asked: &Asked, answer: Answer) -> Answer {
    match asked.review {
        Review::Gives {
            set,
            label,
            card,
            mode,
        } if answer.number() == 0 => asked.instead(Review::Gives {
            set,
            label,
            card,
            mode: 3 - mode,
        }),
        _ => answer,
    }
}

fn gives_past(asked: &Asked, answer: Answer) -> Answer {
    match asked.review {
        Review::Gives { set, .. } if answer.number() == 0 => {
            let (low, high) = halves(&(asked.policy.counts.roles + 1..=128).collect());
            if set.0 & low != 0 || set.1 & high != 0 {
                return done(1);
            }
            answer
        }
        _ => answer,
    }
}
