//! `yeruvoi`: see `yeruvoi --help`.

use std::env;
use std::io::{self, Write};
use std::process::ExitCode;
use yeruvoi::answer::{Answer, Trouble};
use yeruvoi::command;
use yeruvoi::page::shown;

fn main() -> ExitCode {
    match command::answer(env::args_os().skip(1)).and_then(print) {
        Ok(status) => ExitCode::from(status),
        Err(trouble) => {
            tell(&trouble);
            ExitCode::from(Trouble::STATUS)
        }
    }
}

/// Writes the answer out; its status counts once it is written.
fn print(answer: Answer) -> Result<u8, Trouble> {
    let mut output = io::stdout().lock();
    let written = output.write_all(answer.text.as_bytes());
    match written.and_then(|()| output.flush()) {
        Ok(()) => Ok(answer.status),
        Err(problem) => Err(Trouble::new(format!("standard output: {problem}"))),
    }
}

/// One line on standard error; nothing can be told where that is closed.
fn tell(trouble: &Trouble) {
    let line = format!("yeruvoi: {}\n", shown(trouble.line.as_bytes()));
    let _ = io::stderr().write_all(line.as_bytes());
}
