//! Names for the things of a file.

use second_checker::check::Counts;
use second_checker::random::Random;
use std::collections::BTreeMap;

/// Names by kind and number.
#[derive(Default)]
pub struct Legend {
    names: BTreeMap<(&'static str, usize), String>,
}

impl Legend {
    /// Names for most of the things.
    pub fn random(random: &mut Random, counts: Counts) -> Legend {
        let kinds = ["label", "role", "user", "card"];
        let mut names = BTreeMap::new();
        for (kind, count) in kinds.into_iter().zip(counts.in_order()) {
            for number in (1..=count).filter(|number| number % 4 != 3) {
                let ending = random.pick(&["", " \"q\"", ", b\\n", " &amp;", ": x y", " é"]);
                names.insert((kind, number), format!("{kind}-{number}{ending}"));
            }
        }
        Legend { names }
    }

    /// In the form of examples/two-makers.legend.
    pub fn text(&self) -> String {
        let line = |((kind, number), name): (&(&str, usize), &String)| {
            format!("{kind} {number}: {name}\n")
        };
        self.names.iter().map(line).collect()
    }

    pub fn name(&self, kind: &'static str, number: usize) -> Option<&str> {
        self.names.get(&(kind, number)).map(String::as_str)
    }

    pub fn is_empty(&self) -> bool {
        self.names.is_empty()
    }
}
