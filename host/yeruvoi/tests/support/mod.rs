//! What the tests of several subcommands use.
#![allow(dead_code)]

pub mod difference;
pub mod dot;
pub mod files;
pub mod json;
pub mod legend;
pub mod list;
pub mod report;
pub mod run;
pub mod temporary;
pub mod why_page;

use legend::Legend;
use monitor_model::Policy;
use second_checker::generate::write;
use second_checker::random::Random;
use temporary::Temporary;

/// Document 01's example, and the file of the two makers with its legend.
pub const EXAMPLES: &str = concat!(env!("CARGO_MANIFEST_DIR"), "/../../examples");

/// Labels 2 and 3 between 1 and 4; role 3 over 2 over 1, with a line for each
/// pair; roles 2 and 3 on a circle of flow by reading with 4, and role 1, whose
/// writing they share, on one with them.
pub const CROSSED: &str = "\
H    4    4    2    3
D    2    1          
D    3    1          
D    4    1          
D    4    2          
D    4    3          
S    2    1          
S    3    1          
S    3    2          
U    1    1          
U    2    3          
O    1    1          
O    2    1          
O    3    1          
P    1    1    2     
P    2    2    1     
P    4    1    1     
P    4    2    2     
A    1    3          
";

/// The model's reading of an accepted file.
pub fn policy(file: &[u8]) -> Policy {
    match Policy::of(file) {
        Ok(policy) => policy,
        Err(verdict) => panic!("refused: {verdict:?}"),
    }
}

/// A random accepted file, the model's reading of it, its names, and the source that goes on.
pub struct Drawn {
    pub random: Random,
    pub file: Vec<u8>,
    pub policy: Policy,
    pub legend: Legend,
}

/// File `index` of the run with this seed, with names or without.
pub fn draw(seed: u64, index: u64, with_names: bool) -> Drawn {
    let (mut random, role_file) = files::random(seed, index);
    let file = write(&role_file);
    let policy = policy(&file);
    let legend = match with_names {
        true => Legend::random(&mut random, policy.counts),
        false => Legend::default(),
    };
    Drawn {
        random,
        file,
        policy,
        legend,
    }
}

/// A file with these bytes.
pub fn temporary(bytes: &[u8]) -> Temporary {
    Temporary::file(bytes).expect("a temporary file")
}

/// The legend as a file, where it has names, and the arguments that name it.
pub fn named(legend: &Legend) -> (Option<Temporary>, Vec<String>) {
    if legend.is_empty() {
        return (None, Vec::new());
    }
    let file = temporary(legend.text().as_bytes());
    let name = file.path.to_str().expect("a path of text").to_string();
    (Some(file), vec!["--names".to_string(), name])
}

/// `12`, or with a name `12 (office clerk)`
pub fn number(legend: &Legend, kind: &'static str, number: usize) -> String {
    match legend.name(kind, number) {
        Some(name) => format!("{number} ({name})"),
        None => number.to_string(),
    }
}

/// `role 65 (office reader)`, `roles 65-67`
pub fn things(legend: &Legend, kind: &'static str, numbers: &[usize]) -> String {
    match numbers {
        [one] => format!("{kind} {}", number(legend, kind, *one)),
        _ => format!("{kind}s{}", list::text(&numbers.iter().copied().collect())),
    }
}
