//! `yeruvoi picture`, read back and held to the model, and against texts written
//! by hand.

mod common;
mod support;

use monitor_model::Policy;
use second_checker::example::EXAMPLE;
use second_checker::line::{print_line, MOST_LINES};
use second_checker::order::{reached, steps, Order};
use std::collections::BTreeSet;
use support::dot::{self, Graph};
use support::json::{list, numbers, object, parsed, thing};
use support::legend::Legend;
use support::run::told;
use support::{draw, named, policy, Drawn, CROSSED, EXAMPLES};

const SEED: u64 = 24;
const FILES: u64 = 120;

type Pairs = BTreeSet<(usize, usize)>;

/// What must be drawn.
struct Expected {
    labels: usize,
    roles: usize,
    dominance: Pairs,
    seniority: Pairs,
    /// Lines to a senior where the two flow to each other by reading, and where
    /// they only share what the junior may write.
    both_ways: Pairs,
    only_shared: Pairs,
    /// Direct flows by reading, and direct pairs that share writing.
    flow: Pairs,
    sharing: Pairs,
    /// Roles on a circle of flow, and those that are on one by reading alone.
    circle: BTreeSet<usize>,
    circle_by_reading: BTreeSet<usize>,
    /// The same of the direct flows by reading.
    returning: Pairs,
    returning_by_reading: Pairs,
    /// How many flows by reading there are, and how many pairs that share writing.
    all: [usize; 2],
}

impl Expected {
    fn of(policy: &Policy) -> Expected {
        let counts = policy.counts;
        let meaning = &policy.meaning;
        let by_reading = meaning.flows_by_reading();
        let mut pairs = meaning.flows_by_shared_writing();
        pairs.retain(|(first, second)| first < second);
        let all = [by_reading.len(), pairs.len()];
        let [leads, leads_by_reading] =
            [&policy.flows, &by_reading].map(|flows| led_to(counts.roles, flows));
        let on = |leads: &Pairs| -> BTreeSet<usize> {
            let roles = 1..=counts.roles;
            roles
                .filter(|&role| leads.contains(&(role, role)))
                .collect()
        };
        let meets = |a: &BTreeSet<usize>, b: &BTreeSet<usize>| !a.is_disjoint(b);
        let writes_for =
            |from: usize, to: usize| meets(&meaning.may_write[from], &meaning.may_read[to]);
        let shares =
            |from: usize, to: usize| meets(&meaning.may_write[from], &meaning.may_write[to]);
        let direct = |flows: Pairs, holds: &dyn Fn(usize, usize) -> bool| -> Pairs {
            let direct = flows
                .into_iter()
                .filter(|&flow| is_direct(policy, flow, holds));
            direct.collect()
        };
        let flow = direct(by_reading, &writes_for);
        let back = |leads: &Pairs| -> Pairs {
            let flows = flow.iter().copied();
            flows
                .filter(|&(from, to)| leads.contains(&(to, from)))
                .collect()
        };
        let seniority = lines(counts.roles, &meaning.seniority);
        let mutual = |&&(junior, senior): &&(usize, usize)| {
            writes_for(junior, senior) && writes_for(senior, junior)
        };
        let (both_ways, others): (Pairs, Pairs) = seniority.iter().partition(mutual);
        Expected {
            labels: counts.labels,
            roles: counts.roles,
            dominance: lines(counts.labels, &meaning.dominance),
            both_ways,
            only_shared: others
                .into_iter()
                .filter(|&(junior, _)| !meaning.may_write[junior].is_empty())
                .collect(),
            seniority,
            sharing: direct(pairs, &shares),
            circle: on(&leads),
            circle_by_reading: on(&leads_by_reading),
            returning: back(&leads),
            returning_by_reading: back(&leads_by_reading),
            flow,
            all,
        }
    }
}

/// Where the flows lead, in one step or more.
fn led_to(roles: usize, flows: &Pairs) -> Pairs {
    let flows: Vec<(usize, usize)> = flows.iter().copied().collect();
    let steps = steps(roles, &flows);
    let from = |role: usize| reached(&steps, role).into_iter().map(move |to| (role, to));
    (1..=roles).flat_map(from).collect()
}

/// From each thing up to each that stands directly over it.
fn lines(count: usize, order: &Order) -> Pairs {
    let strictly = |upper: usize, lower: usize| upper != lower && order.over(upper, lower);
    let mut pairs = Pairs::new();
    for lower in 1..=count {
        let above: Vec<usize> = (1..=count)
            .filter(|&upper| strictly(upper, lower))
            .collect();
        let between = |upper: usize| above.iter().any(|&third| strictly(upper, third));
        let direct = above.iter().filter(|&&upper| !between(upper));
        pairs.extend(direct.map(|&upper| (lower, upper)));
    }
    pairs
}

/// Whether the flow follows from no junior of either role, with itself or another.
fn is_direct(
    policy: &Policy,
    (from, to): (usize, usize),
    holds: &dyn Fn(usize, usize) -> bool,
) -> bool {
    let juniors = |role: usize| {
        let roles = 1..=policy.counts.roles;
        roles.filter(move |&junior| junior != role && policy.meaning.seniority.over(role, junior))
    };
    let from_a_junior = juniors(from).any(|junior| holds(junior, to));
    let to_a_junior = juniors(to).any(|junior| holds(from, junior));
    !from_a_junior && !to_a_junior
}

// ---------------------------------------------------------------------------
// Read back

/// `r12` is 12.
fn number(name: &str, letter: char) -> usize {
    let number = name.strip_prefix(letter).expect("the letter");
    number.parse().expect("a number")
}

/// The edges of a part that have these attributes: style, color, dir.
fn edges(graph: &Graph, part: &str, letter: char, wanted: [&str; 3]) -> Pairs {
    let has = |edge: &&dot::Drawn<(String, String)>| {
        let attribute = |name: &str| edge.attributes.get(name).map_or("", String::as_str);
        edge.part == part && ["style", "color", "dir"].map(attribute) == wanted
    };
    let edges = graph.edges.iter().filter(has);
    edges
        .map(|edge| (number(&edge.name.0, letter), number(&edge.name.1, letter)))
        .collect()
}

/// The number has a line of its own, and a line of the name is short or one word.
fn lines_are_short(shown: &str) {
    for line in shown.split('\n') {
        assert!(line.chars().count() <= 16 || !line.contains(' '), "{line}");
    }
    let number = shown.split('\n').next().expect("a line");
    assert!(number.bytes().all(|byte| byte.is_ascii_digit()), "{shown}");
}

/// The nodes of a part are these, with number and name, and an outline where
/// they lie on a circle: those that do, and of these those that do by reading.
fn nodes_hold(
    graph: &Graph,
    part: &str,
    (kind, count): (&'static str, usize),
    legend: &Legend,
    [circle, by_reading]: [&BTreeSet<usize>; 2],
) {
    let nodes = graph.nodes.iter().filter(|node| node.part == part);
    let nodes: Vec<_> = nodes.collect();
    assert_eq!(nodes.len(), count);
    for (node, one) in nodes.into_iter().zip(1..) {
        let letter = kind.chars().next().expect("a letter");
        assert_eq!(number(&node.name, letter), one);
        let name = legend.name(kind, one).map(|name| format!(" {name}"));
        let caption = format!("{one}{}", name.unwrap_or_default());
        let shown = dot::shown(&node.attributes["label"]);
        assert_eq!(shown.replace('\n', " "), caption);
        lines_are_short(&shown);
        let outline = ["color", "peripheries", "style"].map(|name| node.attributes.get(name));
        let outline = outline.map(|value| value.map_or("", String::as_str));
        let expected = match (circle.contains(&one), by_reading.contains(&one)) {
            (false, _) => ["", "", ""],
            (true, true) => ["red", "2", ""],
            (true, false) => ["darkorange", "", "dashed"],
        };
        assert_eq!(outline, expected);
    }
}

fn graph_holds(graph: &Graph, expected: &Expected, legend: &Legend) {
    let none = BTreeSet::new();
    let labels = ("label", expected.labels);
    nodes_hold(graph, "cluster_labels", labels, legend, [&none, &none]);
    let roles = ("role", expected.roles);
    let circles = [&expected.circle, &expected.circle_by_reading];
    nodes_hold(graph, "cluster_roles", roles, legend, circles);

    let without = |all: &Pairs, some: [&Pairs; 2]| -> Pairs {
        let left = |pair: &&(usize, usize)| !some.iter().any(|some| some.contains(pair));
        all.iter().filter(left).copied().collect()
    };
    let unmarked = without(
        &expected.seniority,
        [&expected.both_ways, &expected.only_shared],
    );
    let one_way = without(&expected.flow, [&expected.returning, &Pairs::new()]);
    let shared_returning = without(
        &expected.returning,
        [&expected.returning_by_reading, &Pairs::new()],
    );
    let dominance = edges(graph, "cluster_labels", 'l', ["", "", ""]);
    assert_eq!(dominance, expected.dominance);
    for (wanted, pairs) in [
        (["", "", ""], &unmarked),
        (["bold", "red", ""], &expected.both_ways),
        (["bold", "darkorange", ""], &expected.only_shared),
        (["dashed", "blue", ""], &one_way),
        (["dashed", "red", ""], &expected.returning_by_reading),
        (["dashed", "darkorange", ""], &shared_returning),
        (["solid", "darkorange", "both"], &expected.sharing),
    ] {
        assert_eq!(
            &edges(graph, "cluster_roles", 'r', wanted),
            pairs,
            "{wanted:?}"
        );
    }
    let order = expected.dominance.len() + expected.seniority.len();
    let drawn = order + expected.flow.len() + expected.sharing.len();
    assert_eq!(graph.edges.len(), drawn);
    for edge in &graph.edges {
        let style = edge.attributes.get("style").map_or("", String::as_str);
        let flow = ["dashed", "solid"].contains(&style);
        let arrow = if flow { "normal" } else { "none" };
        assert_eq!(edge.attributes["arrowhead"], arrow);
    }
    key_holds(graph, expected);
}

/// Every flow follows from an arrow, a line with two heads or a bold line
/// between roles that are the two or juniors of theirs, and nothing else does.
fn flows_follow(graph: &Graph, policy: &Policy) {
    let seniority = &policy.meaning.seniority;
    let style = |edge: &dot::Drawn<(String, String)>| {
        let style = edge.attributes.get("style").map_or("", String::as_str);
        style.to_string()
    };
    let mut made = Pairs::new();
    for edge in graph
        .edges
        .iter()
        .filter(|edge| edge.part == "cluster_roles")
    {
        let (first, second) = (number(&edge.name.0, 'r'), number(&edge.name.1, 'r'));
        match style(edge).as_str() {
            "dashed" => made.extend([(first, second)]),
            "solid" => made.extend([(first, second), (second, first)]),
            "bold" => made.extend([(first, first)]),
            _ => {}
        }
    }
    let roles = 1..=policy.counts.roles;
    let pairs = roles
        .clone()
        .flat_map(|r| roles.clone().map(move |q| (r, q)));
    let follows = |&(r, q): &(usize, usize)| {
        let from = |&(a, b): &(usize, usize)| seniority.over(r, a) && seniority.over(q, b);
        r != q && made.iter().any(from)
    };
    assert_eq!(pairs.filter(follows).collect::<Pairs>(), policy.flows);
}

/// The last line below the picture counts what is left out.
fn key_holds(graph: &Graph, expected: &Expected) {
    let key = &graph.settings[&(String::new(), "label".to_string())];
    let lines: Vec<&str> = key.split("\\l").collect();
    let [.., last, ""] = lines[..] else {
        panic!("{key}");
    };
    let [reading, sharing] = expected.all;
    let words = format!(
        "{} of {reading} by reading, {} of {sharing} pairs of roles that may write one card",
        reading - expected.flow.len(),
        sharing - expected.sharing.len()
    );
    assert_eq!(last.replace(',', ""), words.replace(',', ""));
}

#[test]
fn random_files() {
    let mut seen = [0; 8];
    for index in 0..FILES {
        let Drawn {
            file,
            policy,
            legend,
            ..
        } = draw(SEED, index, index % 2 != 0);
        let (_kept, options) = named(&legend);
        let mut words = vec!["picture", "-"];
        words.extend(options.iter().map(String::as_str));
        let expected = Expected::of(&policy);
        let graph = dot::read(&told(&words, &file, 0));
        graph_holds(&graph, &expected, &legend);
        flows_follow(&graph, &policy);
        let counts = [
            expected.flow.len() - expected.returning.len(),
            expected.returning_by_reading.len(),
            expected.returning.len() - expected.returning_by_reading.len(),
            expected.all[0] - expected.flow.len(),
            expected.sharing.len(),
            expected.all[1] - expected.sharing.len(),
            expected.both_ways.len(),
            expected.only_shared.len(),
        ];
        for (seen, count) in seen.iter_mut().zip(counts) {
            *seen += count;
        }
    }
    assert!(seen.iter().all(|&count| count > 100), "{seen:?}");
}

#[test]
fn two_makers() {
    let file = std::fs::read(format!("{EXAMPLES}/two-makers.role")).expect("the example");
    let expected = Expected::of(&policy(&file));
    let graph = dot::read(&told(&["picture", "-"], &file, 0));
    graph_holds(&graph, &expected, &Legend::default());
    flows_follow(&graph, &policy(&file));
    // Few arrows, one pair of roles that share writing though neither is senior
    // to the other, and no arrow on a circle: lines to a senior, and that pair,
    // make them all.
    let arrows = (expected.flow.len(), expected.returning.len());
    assert_eq!((arrows, expected.sharing.len()), ((37, 0), 1));
    let lines = (expected.both_ways.len(), expected.only_shared.len());
    assert_eq!(lines, (38, 5));
    assert_eq!(expected.all, [1164, 68]);
}

/// Every role flows to every other.
#[test]
fn the_most_flows() {
    let mut file = print_line(b'H', &[1, 128, 0, 1]);
    file.extend(print_line(b'O', &[1, 1]));
    for role in 1..=128 {
        file.extend(print_line(b'P', &[role, 1, 1]));
        file.extend(print_line(b'P', &[role, 1, 2]));
    }
    let graph = dot::read(&told(&["picture", "-"], &file, 0));
    assert_eq!(graph.edges.len(), 128 * 127 + 128 * 127 / 2);
    graph_holds(&graph, &Expected::of(&policy(&file)), &Legend::default());
}

/// Half of the roles senior to each of as many others as the file has room for.
#[test]
fn the_most_seniors() {
    let mut file = print_line(b'H', &[1, 128, 0, 0]);
    let pairs = (1..=64).flat_map(|senior| (65..=128).map(move |junior| [senior, junior]));
    for pair in pairs.take(MOST_LINES - 1) {
        file.extend(print_line(b'S', &pair));
    }
    let graph = dot::read(&told(&["picture", "-"], &file, 0));
    assert_eq!(graph.edges.len(), MOST_LINES - 1);
    graph_holds(&graph, &Expected::of(&policy(&file)), &Legend::default());
}

// ---------------------------------------------------------------------------
// For programs

fn expected_json(expected: &Expected, legend: &Legend) -> String {
    let things = |kind, count: usize| list(1..=count, |number| thing(legend, kind, number));
    let turned = |pairs: &Pairs| -> Pairs {
        let turned = pairs.iter().map(|&(lower, upper)| (upper, lower));
        turned.collect()
    };
    let made_by = |reading: bool, shared: bool| match (reading, shared) {
        (true, _) => "\"reading\"".to_string(),
        (false, true) => "\"shared writing\"".to_string(),
        (false, false) => "null".to_string(),
    };
    let dominance = list(turned(&expected.dominance), |(upper, lower)| {
        object(&[("label", upper.to_string()), ("over", lower.to_string())])
    });
    let seniority = list(turned(&expected.seniority), |(upper, lower)| {
        let has = |pairs: &Pairs| pairs.contains(&(lower, upper));
        let made_by = made_by(has(&expected.both_ways), has(&expected.only_shared));
        object(&[
            ("role", upper.to_string()),
            ("over", lower.to_string()),
            ("circle_by", made_by),
        ])
    });
    let flow = list(&expected.flow, |flow| {
        let returns = expected.returning.contains(flow);
        let by_reading = expected.returning_by_reading.contains(flow);
        object(&[
            ("from", flow.0.to_string()),
            ("to", flow.1.to_string()),
            ("circle", returns.to_string()),
            ("circle_by", made_by(by_reading, returns)),
        ])
    });
    let sharing = list(&expected.sharing, |&(first, second)| {
        object(&[("roles", numbers(&[first, second]))])
    });
    object(&[
        ("accepted", "true".to_string()),
        ("labels", things("label", expected.labels)),
        ("roles", things("role", expected.roles)),
        ("dominance", dominance),
        ("seniority", seniority),
        ("flow", flow),
        ("circle", numbers(&expected.circle)),
        ("circle_by_reading", numbers(&expected.circle_by_reading)),
        ("sharing", sharing),
        ("flows_by_reading", expected.all[0].to_string()),
        ("pairs_sharing", expected.all[1].to_string()),
    ])
}

#[test]
fn json_of_random_files() {
    let (mut printed, mut expected) = (String::new(), String::new());
    for index in 0..40 {
        let Drawn {
            file,
            policy,
            legend,
            ..
        } = draw(SEED + 1, index, true);
        let (_kept, options) = named(&legend);
        let mut words = vec!["picture", "--json", "-"];
        words.extend(options.iter().map(String::as_str));
        printed += &told(&words, &file, 0);
        expected += &(expected_json(&Expected::of(&policy), &legend) + "\n");
    }
    let parsed = parsed(&printed);
    assert_eq!(parsed.lines().count(), 40);
    for (parsed, expected) in parsed.lines().zip(expected.lines()) {
        assert_eq!(parsed, expected);
    }
}

// ---------------------------------------------------------------------------
// By hand

/// The text of a graph: what labels, roles and flows it has, and its last line.
fn drawn(labels: &[&str], roles: &[&str], flows: &[&str], left_out: &str) -> String {
    let lines = |lines: &[&str]| -> String {
        let lines = lines.iter().map(|line| format!("    {line};\n"));
        lines.collect()
    };
    let (labels, roles, flows) = (lines(labels), lines(roles), lines(flows));
    format!(
        "\
digraph policy {{
  rankdir=BT; ranksep=0.8; nodesep=0.15;
  node [shape=box, fontname=\"sans-serif\", fontsize=10, width=0.35, height=0.25, margin=0.05];
  edge [arrowsize=0.6];
  subgraph cluster_labels {{ label=\"labels\"; edge [arrowhead=none];
{labels}  }}
  subgraph cluster_roles {{ label=\"roles\"; edge [arrowhead=none];
{roles}    edge [arrowhead=normal, style=dashed, color=blue, constraint=false];
{flows}  }}
  label=\"\
dashed arrow: the second role may read what the first may write; line with two heads: both may write one card\\l\
bold line: the junior may write, and shares that with its senior; red where the two flow to each other by reading\\l\
red, double box: on a circle of flow by reading; orange, dashed box: on one that takes shared writing\\l\
left out: a label or a role over another with a third between; flows that follow from what a junior of either role may do:\\l\
{left_out}\\l\"; labelloc=b; labeljust=l; fontname=\"sans-serif\"; fontsize=10;
}}
"
    )
}

/// What the picture of a file without flow says.
const NO_FLOW: &str = "0 of 0 by reading, 0 of 0 pairs of roles that may write one card";

#[test]
fn small_files() {
    assert_eq!(
        told(&["picture", "-"], EXAMPLE.as_bytes(), 0),
        drawn(
            &["l1 [label=\"1\"]", "l2 [label=\"2\"]", "l1 -> l2"],
            &["r1 [label=\"1\"]", "r2 [label=\"2\"]", "r1 -> r2"],
            &[],
            NO_FLOW,
        )
    );
    assert_eq!(
        told(&["picture", "-"], b"H    1    0    0    0\n", 0),
        drawn(&["l1 [label=\"1\"]"], &[], &[], NO_FLOW)
    );
}

/// Flows by reading: 1, 2 and 3 to 4, 4 to 2 and 3; those of 2 and 3 are role
/// 1's, and that to 3 is one to role 2. Roles 2 and 3 share what role 1 writes,
/// which puts role 1 on a circle.
#[test]
fn crossed() {
    assert_eq!(
        told(&["picture", "-"], CROSSED.as_bytes(), 0),
        drawn(
            &[
                "l1 [label=\"1\"]",
                "l2 [label=\"2\"]",
                "l3 [label=\"3\"]",
                "l4 [label=\"4\"]",
                "l1 -> l2",
                "l1 -> l3",
                "l2 -> l4",
                "l3 -> l4"
            ],
            &[
                "r1 [label=\"1\", color=darkorange, style=dashed]",
                "r2 [label=\"2\", color=red, peripheries=2]",
                "r3 [label=\"3\", color=red, peripheries=2]",
                "r4 [label=\"4\", color=red, peripheries=2]",
                "r1 -> r2 [color=darkorange, style=bold]",
                "r2 -> r3 [color=darkorange, style=bold]"
            ],
            &["r1 -> r4 [color=darkorange]", "r4 -> r2 [color=red]"],
            "3 of 5 by reading, 3 of 3 pairs of roles that may write one card",
        )
    );
}

/// The text of a graph of one label and two roles with this outline.
fn two_roles(outline: &str, line: Option<&str>, flows: &[&str], left_out: &str) -> String {
    let boxes = [1, 2].map(|role| format!("r{role} [label=\"{role}\", {outline}]"));
    let roles: Vec<&str> = boxes.iter().map(String::as_str).chain(line).collect();
    drawn(&["l1 [label=\"1\"]"], &roles, flows, left_out)
}

const RED: &str = "color=red, peripheries=2";
const ORANGE: &str = "color=darkorange, style=dashed";

#[test]
fn two_roles_write_one_card() {
    let file = b"\
H    1    2    0    1
O    1    1          
P    1    1    2     
P    2    1    2     
";
    let line = "r1 -> r2 [color=darkorange, dir=both, style=solid]";
    let left_out = "0 of 0 by reading, 0 of 1 pairs of roles that may write one card";
    assert_eq!(
        told(&["picture", "-"], file, 0),
        two_roles(ORANGE, None, &[line], left_out)
    );
}

#[test]
fn a_junior_reads_and_writes_one_card() {
    let file = b"\
H    1    2    0    1
S    2    1          
O    1    1          
P    1    1    1     
P    1    1    2     
";
    let line = "r1 -> r2 [color=red, style=bold]";
    let left_out = "2 of 2 by reading, 1 of 1 pairs of roles that may write one card";
    assert_eq!(
        told(&["picture", "-"], file, 0),
        two_roles(RED, Some(line), &[], left_out)
    );
}

/// They flow to each other by reading, though the junior reads nothing that it
/// writes.
#[test]
fn a_junior_and_its_senior_write_for_each_other() {
    let file = b"\
H    1    2    0    2
S    2    1          
O    1    1          
O    2    1          
P    1    1    2     
P    1    2    1     
P    2    1    1     
P    2    2    2     
";
    let line = "r1 -> r2 [color=red, style=bold]";
    let flows = ["r1 -> r2 [color=red]", "r2 -> r1 [color=red]"];
    let left_out = "0 of 2 by reading, 1 of 1 pairs of roles that may write one card";
    assert_eq!(
        told(&["picture", "-"], file, 0),
        two_roles(RED, Some(line), &flows, left_out)
    );
}

/// Flow one way by reading, and both ways by shared writing.
#[test]
fn a_senior_reads_what_its_junior_writes() {
    let file = b"\
H    1    2    0    1
S    2    1          
O    1    1          
P    1    1    2     
P    2    1    1     
";
    let line = "r1 -> r2 [color=darkorange, style=bold]";
    let flows = ["r1 -> r2 [color=darkorange]"];
    let left_out = "0 of 1 by reading, 1 of 1 pairs of roles that may write one card";
    assert_eq!(
        told(&["picture", "-"], file, 0),
        two_roles(ORANGE, Some(line), &flows, left_out)
    );
}

/// A long name is broken at its blanks.
#[test]
fn names_are_broken() {
    let legend = support::temporary(b"label 1: maker A unannounced drafts of it\n");
    let name = legend.path.to_str().expect("a path of text");
    let text = told(&["picture", "--names", name, "-"], EXAMPLE.as_bytes(), 0);
    let node = "l1 [label=\"1\\nmaker A\\nunannounced\\ndrafts of it\"];";
    assert!(text.contains(node), "{text}");
}

/// Quotes, backslashes and ampersands of a name stay what they are.
#[test]
fn names_are_escaped() {
    let legend = support::temporary(b"label 1: a \"b\" \\N \\\nrole 2: x &lt; y\n");
    let name = legend.path.to_str().expect("a path of text");
    assert_eq!(
        told(&["picture", "--names", name, "-"], EXAMPLE.as_bytes(), 0),
        drawn(
            &[
                "l1 [label=\"1\\na \\\"b\\\" \\\\N \\\\\"]",
                "l2 [label=\"2\"]",
                "l1 -> l2"
            ],
            &[
                "r1 [label=\"1\"]",
                "r2 [label=\"2\\nx &amp;lt; y\"]",
                "r1 -> r2"
            ],
            &[],
            NO_FLOW,
        )
    );
}
