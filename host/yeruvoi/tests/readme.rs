//! README's pages are what its commands print.

use std::env;
use std::path::Path;
use std::process::Command;

const ROOT: &str = concat!(env!("CARGO_MANIFEST_DIR"), "/../..");

/// A command of README, and what stands under it.
struct Page {
    command: String,
    printed: Vec<String>,
}

/// The pages whose command runs yeruvoi: blocks indented by four blanks that begin with `$`.
fn pages(text: &str) -> Vec<Page> {
    let mut pages: Vec<Page> = Vec::new();
    let mut inside = false;
    for line in text.lines() {
        if let Some(command) = line.strip_prefix("    $ ") {
            inside = command.contains("yeruvoi");
            if inside {
                let (command, printed) = (command.to_string(), Vec::new());
                pages.push(Page { command, printed });
            }
        } else if inside && (line.is_empty() || line.starts_with("    ")) {
            let shown = line.strip_prefix("    ").unwrap_or_default();
            let page = pages.last_mut().expect("a page has begun");
            page.printed.push(shown.to_string());
        } else {
            inside = false;
        }
    }
    pages
}

/// What a command prints, run at the repository's top with the built command on the path.
fn printed(command: &str) -> Vec<String> {
    let folder = Path::new(env!("CARGO_BIN_EXE_yeruvoi")).parent();
    let folder = folder.expect("a folder").to_str().expect("a path of text");
    let path = format!("{folder}:{}", env::var("PATH").unwrap_or_default());
    let mut shell = Command::new("sh");
    shell
        .args(["-c", command])
        .current_dir(ROOT)
        .env("PATH", path);
    let output = shell.output().expect("sh runs");
    assert!(output.stderr.is_empty(), "{command}");
    let text = String::from_utf8(output.stdout).expect("text");
    text.lines()
        .map(|line| line.trim_end().to_string())
        .collect()
}

#[test]
fn readme_shows_what_is_printed() {
    let text = std::fs::read_to_string(format!("{ROOT}/README.md")).expect("README.md");
    let pages = pages(&text);
    for subcommand in ["check", "rights", "who", "why", "diff"] {
        let begins = format!("yeruvoi {subcommand} ");
        assert!(
            pages.iter().any(|page| page.command.contains(&begins)),
            "{subcommand}"
        );
    }
    for mut page in pages {
        while page.printed.last().is_some_and(String::is_empty) {
            page.printed.pop();
        }
        assert_eq!(printed(&page.command), page.printed, "{}", page.command);
    }
}
