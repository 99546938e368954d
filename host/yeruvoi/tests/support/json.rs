//! JSON as the tests expect it, and what python3's parser makes of what was
//! printed.

use super::legend::Legend;
use std::io::Write;
use std::process::{Command, Stdio};

const PROGRAM: &str = "
import json, sys
for line in sys.stdin:
    print(json.dumps(json.loads(line), separators=(',', ':'), ensure_ascii=False))
";

/// Each line's value, read by python3 and written again without blanks.
pub fn parsed(lines: &str) -> String {
    let mut child = Command::new("python3")
        .args(["-c", PROGRAM])
        .env("PYTHONIOENCODING", "utf-8")
        .stdin(Stdio::piped())
        .stdout(Stdio::piped())
        .spawn()
        .expect("python3");
    let mut pipe = child.stdin.take().expect("a pipe");
    let lines = lines.to_string();
    let writer = std::thread::spawn(move || pipe.write_all(lines.as_bytes()));
    let ended = child.wait_with_output().expect("an end");
    writer.join().expect("a writer").expect("a reader");
    assert!(ended.status.success(), "python3 reads no JSON");
    String::from_utf8(ended.stdout).expect("text")
}

pub fn object(members: &[(&str, String)]) -> String {
    let members: Vec<String> = members
        .iter()
        .map(|(key, value)| format!("\"{key}\":{value}"))
        .collect();
    format!("{{{}}}", members.join(","))
}

pub fn list<T>(things: impl IntoIterator<Item = T>, one: impl Fn(T) -> String) -> String {
    let things: Vec<String> = things.into_iter().map(one).collect();
    format!("[{}]", things.join(","))
}

pub fn numbers<'a>(numbers: impl IntoIterator<Item = &'a usize>) -> String {
    list(numbers, |number| number.to_string())
}

pub fn text(text: &str) -> String {
    format!("\"{}\"", text.replace('\\', "\\\\").replace('"', "\\\""))
}

/// A number with its name, where it has one.
pub fn thing(legend: &Legend, kind: &'static str, number: usize) -> String {
    let mut members = vec![("number", number.to_string())];
    if let Some(name) = legend.name(kind, number) {
        members.push(("name", text(name)));
    }
    object(&members)
}

/// Several of them.
pub fn things<'a>(
    legend: &Legend,
    kind: &'static str,
    numbers: impl IntoIterator<Item = &'a usize>,
) -> String {
    list(numbers, |&number| thing(legend, kind, number))
}
