//! The whole command: from its words to its answer.

use crate::answer::{Answer, Trouble};
use crate::arguments::{Arguments, Request, Subcommand};
use crate::{check, diff, header, picture, rights, who, why};
use std::ffi::{OsStr, OsString};

const SUBCOMMANDS: [&Subcommand; 6] = [
    &check::SUBCOMMAND,
    &rights::SUBCOMMAND,
    &who::SUBCOMMAND,
    &why::SUBCOMMAND,
    &diff::SUBCOMMAND,
    &picture::SUBCOMMAND,
];

const HELP: &str = "\
usage: yeruvoi SUBCOMMAND [OPTION...] FILE...

What a role file comes to.

  check FILE                       whether it is accepted, or what is wrong with it
  rights FILE [USER...]            what each user ends up with
  who FILE read|write CARD         who may read or write a card, where and by which roles
  why FILE USER read|write CARD    by which lines a user may, or what is missing
  diff OLD NEW                     what a new file changes
  picture FILE                     labels, roles and flow as Graphviz text
  help SUBCOMMAND                  more about one of them

FILE - is standard input. Options of every subcommand:

  --names LEGEND    names beside numbers; a line of a legend is `label 1: public`
  --json            the same facts for programs; docs/JSON.md has the shape
  -h, --help        help for the subcommand
  --                ends the options

Exit status: 0 accepted (diff: the same), 1 refused (diff: different), 2 wrong
use, a file that cannot be read (diff: or is refused) or an output that cannot be
written (a closed pipe too), with one line on standard error. `yeruvoi --version`
prints the versions.
";

/// What the command answers to its words, its own name left out.
pub fn answer(words: impl IntoIterator<Item = OsString>) -> Result<Answer, Trouble> {
    let mut words = words.into_iter();
    let first = words.next().ok_or_else(|| missing("no subcommand"))?;
    match first.to_str() {
        Some("--version") => alone(words).map(|()| Answer::yes(version())),
        Some("--help" | "-h") => Ok(Answer::yes(HELP.to_string())),
        Some("help") => help(words),
        _ => run(find(&first)?, words),
    }
}

fn run(
    subcommand: &Subcommand,
    words: impl IntoIterator<Item = OsString>,
) -> Result<Answer, Trouble> {
    match Arguments::parse(subcommand, words)? {
        Request::Help => Ok(Answer::yes(help_of(subcommand))),
        Request::Run(arguments) => (subcommand.run)(&arguments),
    }
}

fn help(mut words: impl Iterator<Item = OsString>) -> Result<Answer, Trouble> {
    let text = match words.next() {
        None => HELP.to_string(),
        Some(name) => help_of(find(&name)?),
    };
    alone(words).map(|()| Answer::yes(text))
}

fn help_of(subcommand: &Subcommand) -> String {
    format!("usage: yeruvoi {}\n\n{}", subcommand.usage, subcommand.help)
}

fn find(name: &OsStr) -> Result<&'static Subcommand, Trouble> {
    let found = SUBCOMMANDS.into_iter().find(|known| known.name == name);
    found.ok_or_else(|| missing(&format!("no subcommand {}", name.to_string_lossy())))
}

/// Nothing more may stand on the command line.
fn alone(mut words: impl Iterator<Item = OsString>) -> Result<(), Trouble> {
    match words.next() {
        None => Ok(()),
        Some(word) => Err(missing(&format!(
            "one word too many: {}",
            word.to_string_lossy()
        ))),
    }
}

fn missing(problem: &str) -> Trouble {
    Trouble::new(format!("{problem}; yeruvoi --help lists what there is"))
}

fn version() -> String {
    let (version, kit) = (header::VERSION, header::KIT);
    format!("yeruvoi {version}\nmonitor {version}, the archive\nkit {kit}, which proved it\n")
}
