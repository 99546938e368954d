//! A page of `why` without names, read back.

/// What a page says.
#[derive(Debug, Default)]
pub struct Told {
    pub may: bool,
    /// Of the first line.
    pub labels: Vec<usize>,
    pub ways: Vec<Way>,
    /// The labels of the line "not at".
    pub not_at: Vec<usize>,
    pub barred: Vec<Barred>,
    /// The roles that give the card, where none is the user's.
    pub givers: Option<Vec<usize>>,
    /// The number that an assignment would get, and the roles.
    pub trials: Vec<(usize, Vec<usize>)>,
}

#[derive(Debug, Default)]
pub struct Way {
    pub labels: Vec<usize>,
    pub role: usize,
    /// Number and text of each line quoted.
    pub lines: Vec<(usize, String)>,
}

#[derive(Debug)]
pub struct Barred {
    pub roles: Vec<usize>,
    /// `r-level` or `w-level`.
    pub word: String,
    pub level: usize,
    pub labels: Vec<usize>,
}

/// `label 3`, `roles 1-4 7`: the numbers after the first word.
fn numbers(text: &str) -> Vec<usize> {
    let (_, list) = text.split_once(' ').expect("a list after a word");
    let number = |word: &str| word.parse::<usize>().expect("a number");
    list.split(' ')
        .flat_map(|range| match range.split_once('-') {
            Some((first, last)) => number(first)..=number(last),
            None => number(range)..=number(range),
        })
        .collect()
}

/// Between two pieces of text.
fn between<'a>(line: &'a str, before: &str, after: &str) -> &'a str {
    let (_, rest) = line.split_once(before).unwrap_or_else(|| panic!("{line}"));
    let end = if after.is_empty() {
        rest.len()
    } else {
        rest.find(after).unwrap_or_else(|| panic!("{line}"))
    };
    &rest[..end]
}

impl Told {
    /// Reads a page about this user, mode and card.
    pub fn read(page: &str, user: usize, mode: &str, card: usize) -> Told {
        let mut lines = page.lines();
        let first = lines.next().expect("a first line");
        let mut told = Told::default();
        if first != format!("user {user} may not {mode} card {card}") {
            let start = format!("user {user} may {mode} card {card}, in a session at ");
            told.may = true;
            told.labels = numbers(between(first, &start, ""));
        }
        lines.for_each(|line| told.line(line));
        told
    }

    fn line(&mut self, line: &str) {
        if line.starts_with("  at label") {
            self.ways.push(Way {
                labels: numbers(between(line, "  at ", ", by")),
                role: numbers(between(line, "by ", ""))[0],
                lines: Vec::new(),
            });
        } else if let Some(quoted) = line.strip_prefix("    line ") {
            let number = quoted[..4].trim_end().parse().expect("a number");
            let way = self.ways.last_mut().expect("a way");
            way.lines.push((number, quoted[8..29].to_string()));
        } else if line.starts_with("  not at label") {
            self.not_at = numbers(between(line, "  not at ", ""));
        } else if line.starts_with("    role") {
            self.barred.push(barred(line.trim_start()));
        } else if line.starts_with("  role") {
            let roles = line.split(" give").next().expect("roles").trim_start();
            assert!(line.contains("assigned to the user"), "{line}");
            self.givers = Some(numbers(roles));
        } else if line.starts_with("  no role gives it: no line P has card ") {
            self.givers = Some(Vec::new());
        } else if line.ends_with(" would be accepted") {
            self.trials
                .push((0, numbers(between(line, "to ", " would"))));
        } else {
            let number = between(line, "would be refused with ", ":");
            let roles = numbers(between(line, "an assignment to ", " would"));
            self.trials.push((number.parse().expect("a number"), roles));
        }
    }
}

fn barred(line: &str) -> Barred {
    let (roles, claim) = line.split_once(": ").expect("a claim");
    let at = claim.find("-level").expect("a level") - 1;
    let (before, level) = claim.split_at(at);
    let (word, rest) = level.split_once(' ').expect("a level's word");
    let number = rest.split(' ').next().expect("a level");
    let labels = match before.split_once(" do") {
        Some((labels, "es not dominate the " | " not dominate the ")) => numbers(labels),
        _ => numbers(between(claim, " does not dominate ", "")),
    };
    Barred {
        roles: numbers(roles),
        word: word.to_string(),
        level: number.parse().expect("a label"),
        labels,
    }
}
