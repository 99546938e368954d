//! Curves: a line through marks.

/// How the curve of a version is drawn.
#[derive(Clone, Copy)]
pub struct Style {
    pub name: &'static str,
    colour: &'static str,
    width: f64,
    radius: f64,
    fill: &'static str,
}

/// Proved, plain, simple. Plain's is wide and pale, so that proved's shows on it.
pub const STYLES: [Style; 3] = [
    Style {
        name: "proved",
        colour: "#0b4f9e",
        width: 1.6,
        radius: 2.4,
        fill: "#0b4f9e",
    },
    Style {
        name: "plain",
        colour: "#f0a030",
        width: 4.5,
        radius: 4.2,
        fill: "#ffffff",
    },
    Style {
        name: "simple",
        colour: "#8a2f2f",
        width: 1.6,
        radius: 3.0,
        fill: "#ffffff",
    },
];

/// For the legend of dashes.
pub const NEUTRAL: Style = Style {
    name: "",
    colour: "#444444",
    width: 1.6,
    radius: 0.0,
    fill: "none",
};

/// Of a line without dashes, and of one with.
pub const SOLID: &str = "none";
pub const DASHES: &str = "5 3";

/// A curve through points in pixels.
pub fn curve(style: Style, dashes: &str, points: &[(f64, f64)]) -> String {
    let Style {
        colour,
        width,
        radius,
        fill,
        ..
    } = style;
    let places: Vec<_> = points
        .iter()
        .map(|(x, y)| format!("{x:.1},{y:.1}"))
        .collect();
    let mut svg = format!(
        "<polyline points=\"{}\" fill=\"none\" stroke=\"{colour}\" stroke-width=\"{width}\" \
         stroke-dasharray=\"{dashes}\"/>\n",
        places.join(" "),
    );
    for (x, y) in points {
        svg += &format!(
            "<circle cx=\"{x:.1}\" cy=\"{y:.1}\" r=\"{radius}\" fill=\"{fill}\" \
             stroke=\"{colour}\" stroke-width=\"1.4\"/>\n"
        );
    }
    svg
}
