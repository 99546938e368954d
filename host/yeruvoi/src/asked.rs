//! What a subcommand is asked of an accepted file.

use crate::answer::{Answer, Trouble};
use crate::arguments::{wrong, Arguments, Settings, Subcommand};
use crate::check;
use crate::input::Input;
use crate::monitor::{Mode, Policy};
use crate::names::Kind;
use crate::page::counted;

/// An accepted file, and how the answer is to be written.
pub struct Asked {
    pub input: Input,
    pub policy: Policy,
    pub settings: Settings,
}

/// Answers by the first operand's file; of a refused one, what `check` says, whatever the other
/// operands are.
pub fn of_accepted(
    arguments: &Arguments,
    answer: impl FnOnce(&Asked) -> Result<Answer, Trouble>,
) -> Result<Answer, Trouble> {
    let settings = arguments.settings()?;
    let input = arguments.file(0)?;
    match Policy::load(&input.bytes) {
        Err(verdict) => Ok(check::refused(&input, verdict, &settings)),
        Ok(policy) => answer(&Asked {
            input,
            policy,
            settings,
        }),
    }
}

/// The user or card that an operand names: one to five digits, and one of the file.
pub fn number(word: &str, kind: Kind, count: u64) -> Result<u64, Trouble> {
    let digits = (1..=5).contains(&word.len()) && word.bytes().all(|byte| byte.is_ascii_digit());
    let number = word.parse().ok().filter(|_| digits);
    let known = number.filter(|number| (1..=count).contains(number));
    known.ok_or_else(|| {
        let kind = kind.word();
        let count = counted(count, kind);
        Trouble::new(format!("no {kind} {}: the file has {count}", start(word)))
    })
}

/// An operand as it is told: a long one is cut.
fn start(word: &str) -> String {
    word.chars().take(40).collect()
}

/// `read` or `write`.
pub fn mode(word: &str, subcommand: &Subcommand) -> Result<Mode, Trouble> {
    let found = Mode::BOTH.into_iter().find(|mode| mode.word() == word);
    found.ok_or_else(|| {
        let problem = format!("neither read nor write: {}", start(word));
        wrong(subcommand, &problem)
    })
}
