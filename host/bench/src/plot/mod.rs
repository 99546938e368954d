//! The plot of growth: a column for each way to grow, loads above calls.

mod curve;
mod panel;
mod scale;
mod text;

use crate::growth::{Point, Way};
use crate::timing::{Three, Times};
use curve::{curve, DASHES, NEUTRAL, SOLID, STYLES};
use panel::{Curve, Panel};
use scale::{decades, Scale};
use text::{text, Anchor};

const WIDTH: f64 = 1010.0;
const HEIGHT: f64 = 590.0;
const PANEL_WIDTH: f64 = 265.0;
const PANEL_HEIGHT: f64 = 185.0;

/// What a row of panels shows.
struct Row {
    title: &'static str,
    /// Nanoseconds in the unit of its axis.
    unit: f64,
    top: f64,
    kinds: &'static [Kind],
}

/// What is timed, and the dashes of its curves.
type Kind = (fn(&Point) -> Three<Times>, &'static str);

const ROWS: [Row; 2] = [
    Row {
        title: "load, microseconds",
        unit: 1000.0,
        top: 75.0,
        kinds: &[(|point| point.load, SOLID)],
    },
    Row {
        title: "read number and take, nanoseconds",
        unit: 1.0,
        top: 350.0,
        kinds: &[
            (|point| point.read_number, SOLID),
            (|point| point.take, DASHES),
        ],
    },
];

impl Row {
    /// The curves of the three versions; proved's last, on top.
    fn curves(&self, (way, points): &(Way, Vec<Point>)) -> Vec<Curve> {
        let mut curves = Vec::new();
        for version in [1, 2, 0] {
            for (times, dashes) in self.kinds {
                let least = |point: &Point| times(point)[version].least / self.unit;
                let place = |point: &Point| ((way.count)(point.size) as f64, least(point));
                let places = points.iter().map(place).collect();
                curves.push((STYLES[version], *dashes, places));
            }
        }
        curves
    }

    fn panel(&self, column: usize, grown: &(Way, Vec<Point>), y_ticks: &[f64]) -> Panel {
        let (way, points) = grown;
        let left = 75.0 + column as f64 * (PANEL_WIDTH + 62.0);
        let counts = points.iter().map(|point| (way.count)(point.size) as f64);
        let x_ticks: Vec<f64> = counts.collect();
        Panel {
            x: Scale {
                low: x_ticks[0] / 1.25,
                high: x_ticks[x_ticks.len() - 1] * 1.25,
                start: left,
                end: left + PANEL_WIDTH,
            },
            y: Scale {
                low: y_ticks[0],
                high: y_ticks[y_ticks.len() - 1],
                start: self.top + PANEL_HEIGHT,
                end: self.top,
            },
            x_ticks,
            y_ticks: y_ticks.to_vec(),
            x_title: way.title,
            y_title: self.title,
            curves: self.curves(grown),
        }
    }

    /// The panels, with one scale of times for all.
    fn svg(&self, ways: &[(Way, Vec<Point>)]) -> String {
        let curves = ways.iter().flat_map(|grown| self.curves(grown));
        let times: Vec<f64> = curves
            .flat_map(|(_, _, places)| places)
            .map(|place| place.1)
            .collect();
        let y_ticks = decades(&times);
        let columns = ways.iter().enumerate();
        columns
            .map(|(column, grown)| self.panel(column, grown, &y_ticks).svg())
            .collect()
    }
}

fn legend() -> String {
    let mut svg = String::new();
    let mut entry = |x: f64, style, dashes, words| {
        svg += &curve(style, dashes, &[(x, 28.0), (x + 36.0, 28.0)]);
        svg += &text(x + 46.0, 32.0, Anchor::Start, words);
    };
    for (turn, style) in STYLES.into_iter().enumerate() {
        entry(75.0 + 120.0 * turn as f64, style, SOLID, style.name);
    }
    entry(475.0, NEUTRAL, SOLID, "load and read number");
    entry(695.0, NEUTRAL, DASHES, "take");
    svg
}

/// The whole plot.
pub fn svg(ways: &[(Way, Vec<Point>)]) -> String {
    let rows: String = ROWS.iter().map(|row| row.svg(ways)).collect();
    format!(
        "<svg xmlns=\"http://www.w3.org/2000/svg\" viewBox=\"0 0 {WIDTH} {HEIGHT}\" \
         width=\"{WIDTH}\" height=\"{HEIGHT}\" font-family=\"sans-serif\" font-size=\"12\" \
         fill=\"#222222\">\n\
         <title>How the time of loads and calls grows with lines, roles and cards</title>\n\
         <rect width=\"{WIDTH}\" height=\"{HEIGHT}\" fill=\"#ffffff\"/>\n{}{rows}</svg>\n",
        legend()
    )
}
