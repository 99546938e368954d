//! Links the archive that MONITOR_LIB names; without it, the one that `make
//! lib` built. Takes version, sizes and the sentence for each number from the
//! header, and the kit's version from `kit.txt`. A relative path starts at this
//! package's folder.

use std::env;
use std::fs;
use std::path::Path;

const BUILT: &str = "../../target/staticlib/libmonitor.a";
const HEADER: &str = "../../include/monitor.h";
const KIT: &str = "../../kit.txt";

fn main() {
    println!("cargo:rerun-if-env-changed=MONITOR_LIB");
    let folder = env::var("OUT_DIR").expect("cargo gives OUT_DIR");
    match env::var("MONITOR_LIB") {
        Ok(archive) if !archive.is_empty() => link(&archive, &folder),
        _ => link(BUILT, &folder),
    }
    let header = read(HEADER);
    println!("cargo:rustc-env=MONITOR_VERSION={}", version(&header));
    println!("cargo:rustc-env=KIT_VERSION={}", read(KIT).trim());
    let generated = sizes(&header) + &sentences(&header);
    fs::write(Path::new(&folder).join("header.rs"), generated).expect("OUT_DIR can be written");
}

/// Copies the archive under a name of its own, whatever it was called, and
/// links the copy.
fn link(archive: &str, folder: &str) {
    println!("cargo:rerun-if-changed={archive}");
    let copy = Path::new(folder).join("libmonitor_of_command.a");
    if let Err(problem) = fs::copy(archive, &copy) {
        panic!("{archive}: {problem}. `make lib` builds the archive, or MONITOR_LIB names it.");
    }
    println!("cargo:rustc-link-search=native={folder}");
    println!("cargo:rustc-link-lib=static=monitor_of_command");
}

fn read(path: &str) -> String {
    println!("cargo:rerun-if-changed={path}");
    fs::read_to_string(path).unwrap_or_else(|problem| panic!("{path}: {problem}"))
}

/// The macro MONITOR_VERSION.
fn version(header: &str) -> &str {
    let (_, after) = header
        .split_once("#define MONITOR_VERSION \"")
        .expect("the header has MONITOR_VERSION");
    after.split('"').next().expect("MONITOR_VERSION ends")
}

/// The header's `MONITOR_NAME = number,` as constants.
fn sizes(header: &str) -> String {
    header
        .lines()
        .filter_map(|line| line.trim().trim_end_matches(',').split_once(" = "))
        .filter(|(name, value)| name.starts_with("MONITOR_") && value.parse::<u64>().is_ok())
        .map(|(name, value)| format!("pub const {}: u64 = {value};\n", &name[8..]))
        .collect()
}

/// The sentences of `monitor_words` as a function.
fn sentences(header: &str) -> String {
    let (_, function) = header
        .split_once("*monitor_words(")
        .expect("the header has monitor_words");
    let end = function.find("\n}").expect("monitor_words ends");
    let mut arms = String::new();
    let mut cases: Vec<&str> = Vec::new();
    for statement in statements(&function[..end]) {
        let (labels, value) = statement.split_once("return").unwrap_or((statement, ""));
        cases.extend(numbers(labels));
        if !value.is_empty() {
            arms += &arm(&cases, &literal(value));
            cases.clear();
        }
    }
    format!("pub fn sentence(number: u64) -> &'static str {{ match number {{ {arms} }} }}\n")
}

/// The parts between semicolons that stand in no string.
fn statements(text: &str) -> Vec<&str> {
    let mut inside = false;
    text.split(|character| {
        inside ^= character == '"';
        character == ';' && !inside
    })
    .collect()
}

/// The numbers after `case`.
fn numbers(labels: &str) -> impl Iterator<Item = &str> {
    labels
        .split("case ")
        .skip(1)
        .filter_map(|rest| rest.split(':').next())
}

/// One arm of the function; without a case it is the one for any other number.
fn arm(cases: &[&str], sentence: &str) -> String {
    match cases {
        [] => format!("_ => {sentence:?},\n"),
        _ => format!("{} => {sentence:?},\n", cases.join(" | ")),
    }
}

/// Adjacent string literals, put together; none of them has an escape.
fn literal(value: &str) -> String {
    assert!(!value.contains('\\'), "an escape in monitor_words: {value}");
    value.split('"').skip(1).step_by(2).collect()
}
