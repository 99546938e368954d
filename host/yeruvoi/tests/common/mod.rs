//! What the tests share: the built command, and files written by hand.
#![allow(dead_code)]

pub mod files;
pub mod told;

use std::fs;
use std::io::Write;
use std::path::PathBuf;
use std::process::{Command, Output, Stdio};

/// What a run of the command left.
#[derive(Debug, PartialEq, Eq)]
pub struct Run {
    pub status: i32,
    pub output: String,
    pub errors: String,
}

/// Runs the command with these bytes on standard input.
pub fn run(words: &[&str], input: &[u8]) -> Run {
    let mut child = command(words)
        .stdin(Stdio::piped())
        .stdout(Stdio::piped())
        .stderr(Stdio::piped())
        .spawn()
        .expect("the command starts");
    let mut pipe = child.stdin.take().expect("standard input is a pipe");
    // A command that does not read its input closes it.
    let _ = pipe.write_all(input);
    drop(pipe);
    told(child.wait_with_output().expect("the command ends"))
}

pub fn command(words: &[&str]) -> Command {
    let mut command = Command::new(env!("CARGO_BIN_EXE_yeruvoi"));
    command.args(words);
    command
}

pub fn told(output: Output) -> Run {
    Run {
        status: output.status.code().expect("the command ends by itself"),
        output: String::from_utf8(output.stdout).expect("the text is UTF-8"),
        errors: String::from_utf8(output.stderr).expect("the errors are UTF-8"),
    }
}

/// A file from lines whose blanks at the end are left out here.
pub fn padded(text: &str) -> Vec<u8> {
    let lines = text.lines().map(|line| format!("{line:<21}\n"));
    lines.collect::<String>().into_bytes()
}

/// A file in the tests' own folder.
pub fn kept(name: &str, bytes: &[u8]) -> String {
    let path = PathBuf::from(env!("CARGO_TARGET_TMPDIR")).join(name);
    fs::write(&path, bytes).expect("the tests' folder can be written");
    path.into_os_string()
        .into_string()
        .expect("the folder is UTF-8")
}

/// Document 01's example file.
pub const DOCUMENT: &str = "\
H    2    2    1    2
D    2    1
S    2    1
U    1    2
O    1    1
O    2    2
P    1    1    1
P    2    2    2
A    1    2
";
