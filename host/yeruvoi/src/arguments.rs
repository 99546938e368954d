//! The command line: a subcommand, its options and its operands.

use crate::answer::{Answer, Trouble};
use crate::input::{first_bytes, open, Input};
use crate::names::Names;
use std::ffi::{OsStr, OsString};
use std::os::unix::ffi::OsStrExt;

/// A legend longer than this is none.
const LEGEND_BYTES: u64 = 1 << 20;

/// What the command knows of a subcommand.
pub struct Subcommand {
    pub name: &'static str,
    /// As the first line of its help has it, after `yeruvoi`.
    pub usage: &'static str,
    pub help: &'static str,
    /// The least and the greatest number of operands.
    pub operands: (usize, usize),
    /// The options it takes beside `--names`, `--json` and `--help`.
    pub options: &'static [&'static str],
    pub run: fn(&Arguments) -> Result<Answer, Trouble>,
}

/// What stood behind a subcommand.
#[derive(Clone, Debug, Default, PartialEq, Eq)]
pub struct Arguments {
    pub operands: Vec<OsString>,
    pub names: Option<OsString>,
    pub json: bool,
    pub all: bool,
    pub each: bool,
}

/// How an answer is to be written.
#[derive(Clone, Debug, Default)]
pub struct Settings {
    pub names: Names,
    pub json: bool,
    /// Long lists are not cut.
    pub all: bool,
    /// No ranges.
    pub each: bool,
}

/// What the command line asks for of a subcommand.
#[derive(Debug, PartialEq, Eq)]
pub enum Request {
    Help,
    Run(Arguments),
}

impl Arguments {
    /// Reads what stands behind the subcommand's name.
    pub fn parse(
        subcommand: &Subcommand,
        words: impl IntoIterator<Item = OsString>,
    ) -> Result<Request, Trouble> {
        let mut arguments = Arguments::default();
        let mut words = words.into_iter();
        while let Some(word) = words.next() {
            match word.to_str() {
                Some("--") => {
                    arguments.operands.extend(words);
                    break;
                }
                Some("--help" | "-h") => return Ok(Request::Help),
                Some("--names") => arguments.name(subcommand, words.next())?,
                _ if legend_in(&word).is_some() => arguments.name(subcommand, legend_in(&word))?,
                _ if is_option(&word) => arguments.option(subcommand, &word)?,
                _ => arguments.operands.push(word),
            }
        }
        arguments.checked(subcommand).map(Request::Run)
    }

    fn name(&mut self, subcommand: &Subcommand, legend: Option<OsString>) -> Result<(), Trouble> {
        match legend {
            None => Err(wrong(subcommand, "--names wants a legend")),
            Some(_) if self.names.is_some() => Err(wrong(subcommand, "--names stands twice")),
            Some(legend) => {
                self.names = Some(legend);
                Ok(())
            }
        }
    }

    fn option(&mut self, subcommand: &Subcommand, word: &OsStr) -> Result<(), Trouble> {
        let option = word.to_string_lossy();
        let known = option == "--json" || subcommand.options.contains(&&*option);
        match &*option {
            "--json" => self.json = true,
            "--all" if known => self.all = true,
            "--each" if known => self.each = true,
            _ => return Err(wrong(subcommand, &format!("no option {option}"))),
        }
        Ok(())
    }

    /// The right number of operands, and standard input named once at most.
    fn checked(self, subcommand: &Subcommand) -> Result<Arguments, Trouble> {
        let (least, most) = subcommand.operands;
        if self.operands.len() < least {
            return Err(wrong(subcommand, "an operand is missing"));
        }
        if let Some(word) = self.operands.get(most) {
            let problem = format!("one operand too many: {}", word.to_string_lossy());
            return Err(wrong(subcommand, &problem));
        }
        let files = self.operands.iter().chain(&self.names);
        if files.filter(|&word| word == "-").count() > 1 {
            return Err(wrong(subcommand, "standard input can be read once only"));
        }
        Ok(self)
    }

    /// Reads the file that this operand names.
    pub fn file(&self, index: usize) -> Result<Input, Trouble> {
        Input::read(&self.operands[index])
    }

    /// An operand as text.
    pub fn word(&self, index: usize) -> String {
        self.operands[index].to_string_lossy().into_owned()
    }

    /// Reads the legend, where there is one.
    pub fn settings(&self) -> Result<Settings, Trouble> {
        Ok(Settings {
            names: self.legend()?,
            json: self.json,
            all: self.all,
            each: self.each,
        })
    }

    fn legend(&self) -> Result<Names, Trouble> {
        let Some(path) = &self.names else {
            return Ok(Names::none());
        };
        let trouble =
            |problem: String| Trouble::new(format!("{}: {problem}", path.to_string_lossy()));
        let text = open(path)
            .and_then(|mut source| first_bytes(&mut source, LEGEND_BYTES + 1))
            .map_err(|problem| trouble(problem.to_string()))?;
        if text.len() as u64 > LEGEND_BYTES {
            return Err(trouble("too long for a legend".to_string()));
        }
        Names::read(&text).map_err(trouble)
    }
}

/// `-` alone is no option.
fn is_option(word: &OsStr) -> bool {
    word.len() > 1 && word.as_bytes()[0] == b'-'
}

/// The legend of `--names=LEGEND`.
fn legend_in(word: &OsStr) -> Option<OsString> {
    let legend = word.as_bytes().strip_prefix(b"--names=")?;
    Some(OsStr::from_bytes(legend).to_os_string())
}

/// Wrong use of a subcommand.
pub fn wrong(subcommand: &Subcommand, problem: &str) -> Trouble {
    Trouble::new(format!("{problem}; usage: yeruvoi {}", subcommand.usage))
}
