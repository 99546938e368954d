//! `yeruvoi check`: accepted with its sizes, or what is wrong and where. Number
//! and place are those of the proved load; the causes only explain them.

pub mod assignments;
pub mod bounds;
pub mod cause;
pub mod circle;
pub mod form;
pub mod labelling;
pub mod length;
pub mod level;
pub mod order;
pub mod place;
pub mod range;

use crate::answer::{Answer, Trouble};
use crate::arguments::{Arguments, Settings, Subcommand};
use crate::header::sentence;
use crate::input::Input;
use crate::json::Json;
use crate::lines::LINE_BYTES;
use crate::monitor::{Policy, Verdict};
use crate::page::{counted, Page};

pub const SUBCOMMAND: Subcommand = Subcommand {
    name: "check",
    usage: "check [--names LEGEND] [--json] [--all] FILE",
    help: "\
Whether the role file is accepted: then its sizes. Otherwise the number it is
refused with, the place, what the number means, and the cause with the lines
that make it:

   1  the length, and the first line that does not end where it should
   2  the column, what stands there and what must
   3  the count and its limits
   4  the number and its range
   5  the line before, and whether the line is repeated or out of order
   6  users and cards without a label, or the lines that give them several
  11  the lines D of a circle
  12  the rival bounds of the two labels and their lines D, or that there is none
  13  the lines S of a circle
  14 to 16  every assignment at fault: the clearance, the level, for 16 both, and
      the cards, lines P and lines S that make them

  --names LEGEND    names beside numbers
  --json            the same facts for programs, every list written out
  --all             long lists are not cut

Exit status: 0 accepted, 1 refused, 2 wrong use, a file that cannot be read or
an output that cannot be written.
",
    operands: (1, 1),
    options: &["--all"],
    run,
};

fn run(arguments: &Arguments) -> Result<Answer, Trouble> {
    let settings = arguments.settings()?;
    Ok(answer(&arguments.file(0)?, &settings))
}

/// What is said of a file.
pub fn answer(input: &Input, settings: &Settings) -> Answer {
    match Policy::load(&input.bytes) {
        Ok(policy) => accepted(&policy, input, settings),
        Err(verdict) => refused(input, verdict, settings),
    }
}

fn accepted(policy: &Policy, input: &Input, settings: &Settings) -> Answer {
    let counts = policy.counts();
    let sizes = [
        ("label", counts.labels),
        ("role", counts.roles),
        ("user", counts.users),
        ("card", counts.cards),
        ("line", (input.bytes.len() / LINE_BYTES) as u64),
    ];
    if settings.json {
        return Answer::yes(accepted_json(&sizes).into_text());
    }
    let words = sizes.map(|(thing, count)| counted(count, thing));
    Answer::yes(format!("accepted: {}\n", words.join(", ")))
}

fn accepted_json(sizes: &[(&str, u64); 5]) -> Json {
    let [labels, roles, users, cards, lines] = sizes.map(|(_, count)| Json::Number(count));
    Json::Object(vec![
        ("accepted", Json::Boolean(true)),
        ("labels", labels),
        ("roles", roles),
        ("users", users),
        ("cards", cards),
        ("lines", lines),
    ])
}

/// What every subcommand answers for a file that the load refused so.
pub fn refused(input: &Input, verdict: Verdict, settings: &Settings) -> Answer {
    let cause = cause::of(input, verdict);
    if settings.json {
        let members = vec![
            ("accepted", Json::Boolean(false)),
            ("number", Json::Number(verdict.number)),
            ("place", Json::numbers([verdict.first, verdict.second])),
            ("sentence", Json::text(sentence(verdict.number))),
            ("cause", cause.json(&settings.names)),
        ];
        return Answer::no(Json::Object(members).into_text());
    }
    let mut page = Page::new();
    page.line(place::first_line(verdict, &settings.names));
    cause.write(&mut page, settings);
    Answer::no(page.into_text())
}
