//! The drawing in Graphviz' language.

use super::flow::Circle;
use super::Drawing;
use crate::names::{Kind, Names};
use crate::page::grouped;

const HEAD: &str = "\
digraph policy {
  rankdir=BT; ranksep=0.8; nodesep=0.15;
  node [shape=box, fontname=\"sans-serif\", fontsize=10, width=0.35, height=0.25, margin=0.05];
  edge [arrowsize=0.6];
";

const FLOW: &str = "    edge [arrowhead=normal, style=dashed, color=blue, constraint=false];\n";

pub fn written(drawing: &Drawing, names: &Names) -> String {
    let mut text = HEAD.to_string();
    text += "  subgraph cluster_labels { label=\"labels\"; edge [arrowhead=none];\n";
    for label in 1..=drawing.labels {
        text += &node("l", label, &caption(Kind::Label, label, names), "");
    }
    for &pair in &drawing.dominance {
        text += &edge("l", pair, "");
    }
    text += "  }\n";
    text += "  subgraph cluster_roles { label=\"roles\"; edge [arrowhead=none];\n";
    let flow = &drawing.flow;
    for role in 1..=drawing.roles {
        let outline = outline(flow.circle(role, role));
        text += &node("r", role, &caption(Kind::Role, role, names), outline);
    }
    for &(junior, senior) in &drawing.seniority {
        let color = color(flow.circle_of_two(junior, senior));
        let bold = color.map_or(String::new(), |color| {
            format!(" [color={color}, style=bold]")
        });
        text += &edge("r", (junior, senior), &bold);
    }
    text += FLOW;
    for &pair in &drawing.sharing {
        text += &edge("r", pair, " [color=darkorange, dir=both, style=solid]");
    }
    for &(from, to) in &drawing.reading {
        let color = color(flow.circle(from, to));
        let colored = color.map_or(String::new(), |color| format!(" [color={color}]"));
        text += &edge("r", (from, to), &colored);
    }
    text + "  }\n" + &key(drawing) + "}\n"
}

fn node(letter: &str, number: u64, caption: &str, outline: &str) -> String {
    format!("    {letter}{number} [label=\"{caption}\"{outline}];\n")
}

fn edge(letter: &str, (from, to): (u64, u64), attributes: &str) -> String {
    format!("    {letter}{from} -> {letter}{to}{attributes};\n")
}

/// The color of what lies on a circle.
fn color(circle: Option<Circle>) -> Option<&'static str> {
    Some(match circle? {
        Circle::Reading => "red",
        Circle::SharedWriting => "darkorange",
    })
}

/// The attributes of a role's box.
fn outline(circle: Option<Circle>) -> &'static str {
    match circle {
        None => "",
        Some(Circle::Reading) => ", color=red, peripheries=2",
        Some(Circle::SharedWriting) => ", color=darkorange, style=dashed",
    }
}

/// The lines below the picture: what its marks mean, and what it leaves out.
fn key(drawing: &Drawing) -> String {
    let [reading, sharing] = drawing.all();
    let left_out = |all: usize, drawn: usize| {
        let [out, all] = [all - drawn, all].map(|count| grouped(count as u64));
        format!("{out} of {all}")
    };
    let lines = [
        "dashed arrow: the second role may read what the first may write; line with two heads: both may write one card".to_string(),
        "bold line: the junior may write, and shares that with its senior; red where the two flow to each other by reading".to_string(),
        "red, double box: on a circle of flow by reading; orange, dashed box: on one that takes shared writing".to_string(),
        "left out: a label or a role over another with a third between; flows that follow from what a junior of either role may do:".to_string(),
        format!(
            "{} by reading, {} pairs of roles that may write one card",
            left_out(reading, drawing.reading.len()),
            left_out(sharing, drawing.sharing.len())
        ),
    ];
    let text: String = lines.iter().map(|line| format!("{line}\\l")).collect();
    format!("  label=\"{text}\"; labelloc=b; labeljust=l; fontname=\"sans-serif\"; fontsize=10;\n")
}

/// How long a line of a name may be, so that names do not draw the picture apart.
const WIDTH: usize = 16;

/// The number, and the name under it.
fn caption(kind: Kind, number: u64, names: &Names) -> String {
    let mut caption = number.to_string();
    for line in names.of(kind, number).map(wrapped).unwrap_or_default() {
        caption += "\\n";
        caption += &escaped(&line);
    }
    caption
}

/// The lines of a name, broken at blanks; a word that is longer than a line has one of its own.
fn wrapped(name: &str) -> Vec<String> {
    let mut lines: Vec<String> = Vec::new();
    for word in name.split(' ') {
        match lines.last_mut() {
            Some(line) if line.chars().count() + 1 + word.chars().count() <= WIDTH => {
                *line += " ";
                *line += word;
            }
            _ => lines.push(word.to_string()),
        }
    }
    lines
}

/// A name within double quotes: Graphviz reads there escapes and HTML's character names.
fn escaped(name: &str) -> String {
    let ampersands = name.replace('&', "&amp;");
    ampersands.replace('\\', "\\\\").replace('"', "\\\"")
}
