//! Runs the product's checking program on many random files and compares what
//! it prints, byte for byte, with the second checker's report.

use second_checker::differential::{compare_all, number, program, write_out};
use second_checker::program::{first_difference, run};
use second_checker::tally::Tally;
use second_checker::{check, generate, print_outcome};
use std::io;
use std::path::{Path, PathBuf};
use std::process::ExitCode;

const USAGE: &str = "usage: differential PRODUCT_BINARY COUNT SEED [KEEP_DIR]
       differential --selftest COUNT SEED [KEEP_DIR]
       differential --print SEED INDEX";

fn main() -> ExitCode {
    program(USAGE, start)
}

fn start(words: &[&str]) -> Option<ExitCode> {
    match *words {
        ["--print", seed, index] => {
            Some(write_out(&generate::mixed(number(seed)?, number(index)?)))
        }
        [product, count, seed, ref kept @ ..] if kept.len() < 2 => {
            let product = match product {
                "--selftest" => beside_this_program("second-checker")?,
                _ => PathBuf::from(product),
            };
            let kept = kept.first().map(Path::new);
            Some(compare_all(
                number(count)?,
                number(seed)?,
                |seed, index, tally| compare(&product, kept, seed, index, tally),
            ))
        }
        _ => None,
    }
}

fn beside_this_program(name: &str) -> Option<PathBuf> {
    let this = std::env::current_exe().ok()?;
    let beside = this.with_file_name(format!("{name}{}", std::env::consts::EXE_SUFFIX));
    if !beside.exists() {
        eprintln!("{name} has not been built beside this program");
        return None;
    }
    Some(beside)
}

/// Whether the product prints what the second checker prints on this file. The
/// folder gets the file and both outputs where it does not.
fn compare(
    product: &Path,
    kept: Option<&Path>,
    seed: u64,
    index: u64,
    tally: &mut Tally,
) -> Result<(), String> {
    let file = generate::mixed(seed, index);
    let outcome = check(&file);
    tally.count(&file, &outcome);
    let expected = print_outcome(&outcome);
    let answer = run(product, &[], &file).map(|ended| ended.output);
    let complaint = match &answer {
        Ok(printed) if *printed == expected => return Ok(()),
        Ok(printed) => first_difference(&expected, printed),
        Err(problem) => problem.clone(),
    };
    let mut complaint = format!("seed {seed} index {index}: {complaint}");
    if let Some(folder) = kept {
        let name = format!("difference-{seed}-{index}");
        let printed = answer.unwrap_or_default();
        if let Err(problem) = keep(&folder.join(name), &file, &expected, &printed) {
            complaint += &format!("; cannot keep the file: {problem}");
        }
    }
    Err(complaint)
}

fn keep(path: &Path, file: &[u8], expected: &[u8], printed: &[u8]) -> io::Result<()> {
    std::fs::create_dir_all(path.parent().expect("a folder"))?;
    std::fs::write(path.with_extension("role"), file)?;
    std::fs::write(path.with_extension("expected"), expected)?;
    std::fs::write(path.with_extension("printed"), printed)
}
