//! A panel: a frame, two axes and curves.

use super::curve::{curve, Style};
use super::scale::Scale;
use super::text::{text, Anchor};
use crate::table::grouped;

/// A curve's style, its dashes and its points.
pub type Curve = (Style, &'static str, Vec<(f64, f64)>);

pub struct Panel {
    pub x: Scale,
    pub y: Scale,
    pub x_ticks: Vec<f64>,
    pub y_ticks: Vec<f64>,
    pub x_title: &'static str,
    pub y_title: &'static str,
    pub curves: Vec<Curve>,
}

fn stroke(from: (f64, f64), to: (f64, f64), colour: &str) -> String {
    format!(
        "<line x1=\"{:.1}\" y1=\"{:.1}\" x2=\"{:.1}\" y2=\"{:.1}\" stroke=\"{colour}\"/>\n",
        from.0, from.1, to.0, to.1
    )
}

impl Panel {
    fn x_axis(&self) -> String {
        let bottom = self.y.start;
        let mut svg = String::new();
        for &value in &self.x_ticks {
            let x = self.x.pixel(value);
            svg += &stroke((x, bottom), (x, bottom + 4.0), "#333333");
            svg += &text(x, bottom + 17.0, Anchor::Middle, &grouped(value as u64));
        }
        let middle = (self.x.start + self.x.end) / 2.0;
        svg + &text(middle, bottom + 34.0, Anchor::Middle, self.x_title)
    }

    fn y_axis(&self) -> String {
        let mut svg = String::new();
        for &value in &self.y_ticks {
            let y = self.y.pixel(value);
            svg += &stroke((self.x.start, y), (self.x.end, y), "#dddddd");
            let label = grouped(value as u64);
            svg += &text(self.x.start - 6.0, y + 4.0, Anchor::End, &label);
        }
        svg + &text(self.x.start, self.y.end - 9.0, Anchor::Start, self.y_title)
    }

    fn frame(&self) -> String {
        format!(
            "<rect x=\"{:.1}\" y=\"{:.1}\" width=\"{:.1}\" height=\"{:.1}\" fill=\"none\" \
             stroke=\"#333333\"/>\n",
            self.x.start,
            self.y.end,
            self.x.end - self.x.start,
            self.y.start - self.y.end,
        )
    }

    pub fn svg(&self) -> String {
        let mut svg = self.y_axis() + &self.x_axis() + &self.frame();
        for (style, dashes, points) in &self.curves {
            let at = |&(x, y): &(f64, f64)| (self.x.pixel(x), self.y.pixel(y));
            let places: Vec<_> = points.iter().map(at).collect();
            svg += &curve(*style, dashes, &places);
        }
        svg
    }
}
