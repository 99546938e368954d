//! `--json`, read by Python's parser and held to docs/JSON.md: files of every
//! number, with and without names.

mod common;

use common::run;
use second_checker::check::{check, REFUSALS};
use second_checker::generate::{accepted, bent, bent_small, write, Size};
use second_checker::random::Random;
use std::fs;
use std::path::{Path, PathBuf};
use std::process::Command;

const FILES: u64 = 12;

/// Names that JSON must escape.
fn legend() -> String {
    let kinds = ["label", "role", "user", "card"];
    let things = kinds
        .iter()
        .flat_map(|kind| (1..=512).step_by(2).map(move |number| (kind, number)));
    let lines =
        things.map(|(kind, number)| format!("{kind} {number}: \"{kind}\\ é– 字 𝒳 {number}\n"));
    lines.collect()
}

/// A folder of this name, empty.
fn folder(name: &str) -> PathBuf {
    let folder = Path::new(env!("CARGO_TARGET_TMPDIR")).join(name);
    let _ = fs::remove_dir_all(&folder);
    fs::create_dir(&folder).expect("the tests' folder can be written");
    folder
}

/// Puts down a file, what the command printed of it, and its verdict.
fn put(folder: &Path, name: &str, file: &[u8], named: bool) {
    let path = |ending: &str| folder.join(format!("{name}.{ending}"));
    let (role, names) = (path("role"), path("legend"));
    fs::write(&role, file).unwrap();
    let outcome = check(file);
    let [first, second] = outcome.place();
    fs::write(
        path("verdict"),
        format!("{} {first} {second}", outcome.number()),
    )
    .unwrap();
    let mut words = vec!["check", role.to_str().unwrap()];
    if named {
        fs::write(&names, legend()).unwrap();
        words.extend(["--names", names.to_str().unwrap()]);
    }
    let status = i32::from(outcome.number() != 0);
    for (option, ending) in [("--json", "json"), ("--all", "text")] {
        let told = run(&[&words[..], &[option]].concat(), b"");
        assert_eq!((told.status, &told.errors[..]), (status, ""));
        fs::write(path(ending), told.output).unwrap();
    }
}

#[test]
fn json_of_every_number_is_as_documented() {
    let folder = folder("check-json");
    for number in [0].into_iter().chain(REFUSALS) {
        for index in 0..FILES {
            let random = &mut Random::for_file(number as u64, index);
            let file = match (number, index) {
                (0, _) => write(&accepted(random, Size::Small)),
                (_, 0) => bent(random, number),
                _ => bent_small(random, number),
            };
            put(&folder, &format!("{number}-{index}"), &file, index % 2 == 1);
        }
    }
    let output = Command::new("python3")
        .args([
            "tests/check_json.py",
            folder.to_str().unwrap(),
            "../../include/monitor.h",
        ])
        .output()
        .expect("python3 starts");
    let errors = String::from_utf8_lossy(&output.stderr);
    assert!(output.status.success(), "{errors}");
    let seen = String::from_utf8_lossy(&output.stdout);
    assert_eq!(
        seen.trim(),
        "0:12 1:12 2:12 3:12 4:12 5:12 6:12 11:12 12:12 13:12 14:12 15:12 16:12"
    );
}
