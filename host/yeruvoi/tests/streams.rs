//! Exit status, standard output and standard error of the built command.

mod common;

use common::{command, kept, padded, run, told, Run, DOCUMENT};
use std::ffi::{OsStr, OsString};
use std::fs::{self, File};
use std::os::unix::ffi::OsStrExt;
use std::path::Path;
use std::process::Stdio;

const USAGE: &str = "usage: yeruvoi check [--names LEGEND] [--json] [--all] FILE";

/// Status 2, nothing on standard output, this one line on standard error.
fn in_trouble(words: &[&str], line: &str) {
    let expected = Run {
        status: 2,
        output: String::new(),
        errors: format!("yeruvoi: {line}\n"),
    };
    assert_eq!(run(words, b""), expected, "{words:?}");
}

#[test]
fn wrong_use_is_told_in_one_line() {
    let lists = "; yeruvoi --help lists what there is";
    in_trouble(&[], &format!("no subcommand{lists}"));
    in_trouble(&["chek"], &format!("no subcommand chek{lists}"));
    in_trouble(&["--no"], &format!("no subcommand --no{lists}"));
    in_trouble(&["--version", "x"], &format!("one word too many: x{lists}"));
    in_trouble(&["help", "x"], &format!("no subcommand x{lists}"));
    in_trouble(
        &["help", "check", "x"],
        &format!("one word too many: x{lists}"),
    );
    in_trouble(&["check"], &format!("an operand is missing; {USAGE}"));
    in_trouble(
        &["check", "a", "b"],
        &format!("one operand too many: b; {USAGE}"),
    );
    in_trouble(
        &["check", "--each", "a"],
        &format!("no option --each; {USAGE}"),
    );
    in_trouble(&["check", "-x", "a"], &format!("no option -x; {USAGE}"));
    in_trouble(
        &["check", "a", "--names"],
        &format!("--names wants a legend; {USAGE}"),
    );
    in_trouble(
        &["check", "--names", "l", "--names=m", "a"],
        &format!("--names stands twice; {USAGE}"),
    );
    in_trouble(
        &["check", "--names", "-", "-"],
        &format!("standard input can be read once only; {USAGE}"),
    );
}

#[test]
fn words_of_the_command_line_steer_no_terminal() {
    let lists = "; yeruvoi --help lists what there is";
    in_trouble(&["a\n\u{1b}[2J"], &format!("no subcommand a??[2J{lists}"));
}

#[test]
fn a_file_that_cannot_be_read_is_told_in_one_line() {
    in_trouble(
        &["check", "/no/such/file"],
        "/no/such/file: No such file or directory (os error 2)",
    );
    in_trouble(
        &["check", "--names", "/no/such", "-"],
        "/no/such: No such file or directory (os error 2)",
    );
    in_trouble(&["check", "/"], "/: Is a directory (os error 21)");
    in_trouble(
        &["check", "--", "-x"],
        "-x: No such file or directory (os error 2)",
    );
}

#[test]
fn a_malformed_legend_is_told_by_its_line() {
    let legend = kept("malformed.legend", b"label 1: public\nlabel 2 secret\n");
    let problem = "line 2: not of the form `label 1: name`";
    in_trouble(
        &["check", "--names", &legend, "-"],
        &format!("{legend}: {problem}"),
    );
    let twice = kept("twice.legend", b"label 1: public\nlabel 1: secret\n");
    let problem = "line 2: label 1 has a name already";
    in_trouble(
        &["check", "--names", &twice, "-"],
        &format!("{twice}: {problem}"),
    );
    let long = kept("long.legend", &b"label 1: public\n".repeat(65_537));
    in_trouble(
        &["check", "--names", &long, "-"],
        &format!("{long}: too long for a legend"),
    );
}

#[test]
fn a_full_disk_is_told_in_one_line() {
    let file = kept("full.role", &padded(DOCUMENT));
    for words in [
        &["check", &file[..]][..],
        &["check", "--json", &file],
        &["--help"],
        &["--version"],
    ] {
        let full = File::options().write(true).open("/dev/full").unwrap();
        unwritten(words, full.into(), "No space left on device (os error 28)");
    }
}

/// An output that cannot be written is told in one line, with the system's words.
fn unwritten(words: &[&str], output: Stdio, problem: &str) {
    let mut command = command(words);
    command.stdout(output).stderr(Stdio::piped());
    let run = told(command.output().unwrap());
    assert_eq!(run.errors, format!("yeruvoi: standard output: {problem}\n"));
    assert_eq!(run.status, 2);
}

#[test]
fn a_closed_pipe_is_told_in_one_line() {
    let file = kept("pipe.role", &padded(DOCUMENT));
    let (reader, writer) = std::io::pipe().unwrap();
    drop(reader);
    unwritten(
        &["check", &file],
        writer.into(),
        "Broken pipe (os error 32)",
    );
}

#[test]
fn a_file_is_read_by_its_name_or_from_standard_input() {
    let file = kept("named.role", &padded(DOCUMENT));
    let accepted = "accepted: 2 labels, 2 roles, 1 user, 2 cards, 9 lines\n";
    for words in [
        &["check", &file[..]][..],
        &["check", "-"],
        &["check", "--", "-"],
        &["check", "--all", "--", &file],
    ] {
        let run = run(words, &padded(DOCUMENT));
        assert_eq!(
            (run.status, &run.output[..], &run.errors[..]),
            (0, accepted, "")
        );
    }
    let legend = "label 1: public\n".as_bytes();
    let run = run(&["check", "--names=-", &file], legend);
    assert_eq!((run.status, &run.output[..]), (0, accepted));
}

#[test]
fn a_name_of_a_file_need_not_be_text() {
    let folder = Path::new(env!("CARGO_TARGET_TMPDIR"));
    let [file, legend] =
        [b"\xff.role", b"\xff.lgnd"].map(|name| folder.join(OsStr::from_bytes(name)));
    fs::write(&file, padded(DOCUMENT)).unwrap();
    fs::write(&legend, "label 1: public\n").unwrap();
    let mut option = OsString::from("--names=");
    option.push(&legend);
    let output = command(&["check"]).arg(option).arg(&file).output().unwrap();
    assert_eq!(told(output).status, 0);
    fs::remove_file(&legend).unwrap();
    let output = command(&["check", "--names"])
        .arg(&legend)
        .arg(&file)
        .output()
        .unwrap();
    let run = told(output);
    assert!(run
        .errors
        .ends_with("/???.lgnd: No such file or directory (os error 2)\n"));
    assert_eq!(run.status, 2);
}

#[test]
fn bytes_of_a_file_steer_no_terminal() {
    let mut file = padded(DOCUMENT);
    file[22..32].copy_from_slice(b"\x1b[2J\x07\x7f\x80\xff\x00\x9b");
    let run = run(&["check", "-"], &file);
    assert_eq!(
        run.output,
        "refused with 2 at line 2: the line is malformed, its letter is unknown, or H is not on line 1 alone\n\
        \x20 line 2       ?[2J??????1\n\
        \x20 column 1     byte 27: the letter is one of H D S U O P A\n"
    );
    let json = self::run(&["check", "--json", "-"], &file).output;
    assert!(json
        .bytes()
        .all(|byte| (b' '..=b'~').contains(&byte) || byte == b'\n'));
    assert!(json.contains(r#""text": "\u001b[2J\u0007\u007f\u0080\u00ff\u0000\u009b1"#));
}

#[test]
fn the_length_of_a_longer_file_is_told() {
    let run = run(&["check", "-"], &[b'x'; 1_000_000]);
    assert_eq!(
        run.output,
        "refused with 1: the length is 0, not a multiple of 22, or above 63,800\n\
        \x20 1,000,000 bytes: above 63,800, and not a multiple of 22\n"
    );
    assert_eq!(run.status, 1);
}

#[test]
fn help_is_there_for_the_command_and_for_each_subcommand() {
    let whole = run(&["--help"], b"");
    assert!(whole
        .output
        .starts_with("usage: yeruvoi SUBCOMMAND [OPTION...] FILE...\n"));
    assert_eq!((whole.status, &whole.errors[..]), (0, ""));
    assert_eq!(run(&["-h"], b""), whole);
    assert_eq!(run(&["help"], b""), whole);
    for name in ["check", "rights", "who", "why", "diff", "picture"] {
        assert!(whole.output.contains(&format!("\n  {name} ")), "{name}");
        let help = run(&[name, "--help"], b"");
        assert!(
            help.output.starts_with(&format!("usage: yeruvoi {name} ")),
            "{name}"
        );
        assert_eq!((help.status, &help.errors[..]), (0, ""));
        assert_eq!(run(&["help", name], b""), help);
        assert_eq!(run(&[name, "x", "-h"], b""), help);
        assert!(help.output.lines().all(|line| line.len() <= 90), "{name}");
    }
}

/// The versions stand in the header and in kit.txt.
#[test]
fn the_versions_are_those_of_header_and_kit() {
    let header = fs::read_to_string("../../include/monitor.h").unwrap();
    let kit = fs::read_to_string("../../kit.txt").unwrap();
    let part = |name: &str| {
        let line = header
            .lines()
            .find(|line| line.starts_with(&format!("#define {name} ")));
        line.unwrap().rsplit(' ').next().unwrap().to_string()
    };
    let [major, minor, patch] =
        ["MAJOR", "MINOR", "PATCH"].map(|name| part(&format!("MONITOR_VERSION_{name}")));
    let version = format!("{major}.{minor}.{patch}");
    let told = run(&["--version"], b"");
    let kit = kit.trim();
    assert_eq!(
        told.output,
        format!("yeruvoi {version}\nmonitor {version}, the archive\nkit {kit}, which proved it\n")
    );
    assert_eq!(told.status, 0);
}
