//! `yeruvoi picture`: label order, role hierarchy and role flow as Graphviz text.

mod dot;
mod flow;
mod json;

use crate::answer::{Answer, Trouble};
use crate::arguments::{Arguments, Subcommand};
use crate::asked::of_accepted;
use crate::monitor::Policy;
use crate::relation::Relation;
use flow::Flow;

pub const SUBCOMMAND: Subcommand = Subcommand {
    name: "picture",
    usage: "picture [--names LEGEND] [--json] FILE",
    help: "\
The label order, the role hierarchy and the role flow as text for Graphviz, as in
`yeruvoi picture FILE | dot -Tsvg > picture.svg`. Lines lead up to what dominates
or is senior. A dashed arrow leads from a role to one that may read what the first
may write; a line with two heads joins roles that may write one card. Left out are
a label or a role over another with a third between, and a flow that follows from
what a junior of either role may do: the last line of the picture counts these
flows. A line to a senior is bold where the junior may write, for the two share
that: red where they flow to each other by reading too, else orange.
A circle of flow is red, with double boxes, where each role may read what the one
before it may write, and orange, with dashed boxes, where it takes shared writing.

  --names LEGEND    names under the numbers
  --json            for programs
",
    operands: (1, 1),
    options: &[],
    run,
};

/// What is drawn; of each pair the first thing leads to the second.
struct Drawing {
    labels: u64,
    /// Lower and upper label, with nothing between.
    dominance: Vec<(u64, u64)>,
    roles: u64,
    /// Junior and senior role, with nothing between.
    seniority: Vec<(u64, u64)>,
    /// From a role to one that may read what it may write, where that follows from no junior of either.
    reading: Vec<(u64, u64)>,
    /// Two roles that may write one card, the lower number first, where that follows from no junior.
    sharing: Vec<(u64, u64)>,
    /// All of it, with the circles.
    flow: Flow,
}

fn run(arguments: &Arguments) -> Result<Answer, Trouble> {
    of_accepted(arguments, |asked| {
        let drawing = Drawing::of(&asked.policy);
        let names = &asked.settings.names;
        Ok(Answer::yes(match asked.settings.json {
            true => json::written(&drawing, names).into_text(),
            false => dot::written(&drawing, names),
        }))
    })
}

impl Drawing {
    fn of(policy: &Policy) -> Drawing {
        let counts = policy.counts();
        let over = Relation::strictly(counts.labels, |lower, upper| policy.dominates(upper, lower));
        let seniors =
            Relation::strictly(counts.roles, |junior, senior| policy.senior(senior, junior));
        let flow = Flow::of(policy);
        Drawing {
            labels: counts.labels,
            dominance: over.direct().pairs(),
            roles: counts.roles,
            seniority: seniors.direct().pairs(),
            reading: own(&flow.reading, &seniors).pairs(),
            sharing: rising(own(&flow.sharing, &seniors)),
            flow,
        }
    }

    /// How many flows by reading there are, and how many pairs of roles that share writing.
    fn all(&self) -> [usize; 2] {
        let sharing = rising(self.flow.sharing.strict());
        [self.flow.reading.strict().pairs().len(), sharing.len()]
    }
}

/// The pairs of two roles that follow from no junior of either, with itself or another.
fn own(flow: &Relation, seniors: &Relation) -> Relation {
    let by_first = seniors.turned().then(flow);
    let by_second = flow.then(seniors);
    flow.without(&by_first).without(&by_second).strict()
}

/// The pairs of a relation that goes both ways, each once.
fn rising(relation: Relation) -> Vec<(u64, u64)> {
    let pairs = relation.pairs().into_iter();
    pairs.filter(|(first, second)| first < second).collect()
}
