//! A program run on an input, and where what it prints differs.

use std::ffi::OsString;
use std::io::{self, Read, Write};
use std::path::Path;
use std::process::{Command, Stdio};
use std::sync::mpsc::{self, Receiver};
use std::thread;
use std::time::Duration;

/// A run that takes longer than this is ended and counts as a difference.
const PATIENCE: Duration = Duration::from_secs(60);

/// What a program came to.
pub struct Ended {
    pub output: Vec<u8>,
    /// On standard error.
    pub problems: Vec<u8>,
    /// The exit status.
    pub code: i32,
}

/// Runs the program with these arguments and this standard input.
pub fn run(program: &Path, arguments: &[OsString], input: &[u8]) -> Result<Ended, String> {
    let mut child = Command::new(program)
        .args(arguments)
        .stdin(Stdio::piped())
        .stdout(Stdio::piped())
        .stderr(Stdio::piped())
        .spawn()
        .map_err(|problem| format!("cannot run {}: {problem}", program.display()))?;
    let mut standard_input = child.stdin.take().expect("standard input is piped");
    let output = all_of(child.stdout.take().expect("standard output is piped"));
    let problems = all_of(child.stderr.take().expect("standard error is piped"));
    thread::scope(|scope| {
        scope.spawn(move || {
            // The program may stop reading early; what it prints decides.
            let _ = standard_input.write_all(input);
        });
        let printed = in_time(&output).and_then(|output| Ok((output, in_time(&problems)?)));
        if printed.is_err() {
            let _ = child.kill();
        }
        let status = child
            .wait()
            .map_err(|problem| format!("cannot wait: {problem}"))?;
        let (output, problems) = printed?;
        let code = status.code().ok_or_else(|| {
            let problems = String::from_utf8_lossy(&problems);
            format!("ended by {status} {problems}")
        })?;
        Ok(Ended {
            output,
            problems,
            code,
        })
    })
}

/// Reads to the end meanwhile.
fn all_of(mut from: impl Read + Send + 'static) -> Receiver<io::Result<Vec<u8>>> {
    let (sender, receiver) = mpsc::channel();
    thread::spawn(move || {
        let mut bytes = Vec::new();
        let read = from.read_to_end(&mut bytes).map(|_| bytes);
        let _ = sender.send(read);
    });
    receiver
}

fn in_time(receiver: &Receiver<io::Result<Vec<u8>>>) -> Result<Vec<u8>, String> {
    match receiver.recv_timeout(PATIENCE) {
        Ok(printed) => printed.map_err(|problem| format!("cannot read output: {problem}")),
        Err(_) => Err(format!("no end after {PATIENCE:?}")),
    }
}

/// The first line in which two texts differ.
pub fn first_difference(expected: &[u8], printed: &[u8]) -> String {
    let lines = |text: &[u8]| -> Vec<String> {
        let lines = text.split_inclusive(|&byte| byte == b'\n');
        lines
            .map(|line| String::from_utf8_lossy(line).into_owned())
            .collect()
    };
    let (expected, printed) = (lines(expected), lines(printed));
    let same = expected
        .iter()
        .zip(&printed)
        .take_while(|(one, other)| one == other);
    let at = same.count();
    format!(
        "line {}: expected {:?}, printed {:?}",
        at + 1,
        expected.get(at),
        printed.get(at)
    )
}
