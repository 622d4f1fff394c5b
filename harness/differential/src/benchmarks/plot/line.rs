//! The lines of the plot: a handful of the operations.

use super::axis::Axis;
use crate::benchmarks::SIZES;
use crate::benchmarks::rows::Row;

const SNAPSHOT: (&str, &str) = ("Snapshot", "#009e73");
const RESTORE: (&str, &str) = ("Restore", "#b0529b");
/// The operations whose proved times are drawn, and their colours.
const PROVED: [(&str, &str); 8] = [
    ("exact test", "#222222"),
    ("Validate, partition", "#0072b2"),
    ("Apply, partition", "#d55e00"),
    SNAPSHOT,
    RESTORE,
    ("Restore, records reversed", "#e69f00"),
    ("freeze", "#56b4e9"),
    ("downgrade to level 16", "#8c6d31"),
];
/// Those whose Rust times are drawn beside them.
const RUST: [(&str, &str); 2] = [SNAPSHOT, RESTORE];

pub struct Line {
    pub label: String,
    pub times: [f64; SIZES.len()],
    colour: &'static str,
    dashed: bool,
}

pub fn lines(rows: &[Row]) -> Vec<Line> {
    let row = |name: &str| {
        let row = rows.iter().find(|row| row.name == name);
        row.expect("an operation that was measured")
    };
    let proved = PROVED.map(|(name, colour)| Line {
        label: name.to_owned(),
        times: row(name).times.map(|times| times.proved),
        colour,
        dashed: false,
    });
    let rust = RUST.map(|(name, colour)| Line {
        label: format!("{name}, the Rust"),
        times: row(name).times.map(|times| times.rust),
        colour,
        dashed: true,
    });
    proved.into_iter().chain(rust).collect()
}

impl Line {
    /// The time on the largest image.
    pub fn end(&self) -> f64 {
        self.times[SIZES.len() - 1]
    }

    pub fn drawn(&self, x: &Axis, y: &Axis) -> String {
        let places = SIZES.map(|bytes| x.at(bytes as f64));
        let heights = self.times.map(|time| y.at(time));
        let points: Vec<_> = places.into_iter().zip(heights).collect();
        let marks: String = points.iter().map(|point| self.mark(*point)).collect();
        self.stroke(&points) + &marks
    }

    /// A line through some points.
    pub fn stroke(&self, points: &[(f64, f64)]) -> String {
        let points = points.iter().map(|(x, y)| format!("{x:.1},{y:.1}"));
        let points: Vec<String> = points.collect();
        let (points, colour) = (points.join(" "), self.colour);
        let dashes = match self.dashed {
            true => " stroke-dasharray=\"7 4\"",
            false => "",
        };
        format!(
            "<polyline points=\"{points}\" fill=\"none\" stroke=\"{colour}\" stroke-width=\"2\"{dashes}/>\n"
        )
    }

    /// A measured point: a dot, and a ring where it is the Rust's.
    pub fn mark(&self, (x, y): (f64, f64)) -> String {
        let colour = self.colour;
        let fill = if self.dashed { "#ffffff" } else { colour };
        format!(
            "<circle cx=\"{x:.1}\" cy=\"{y:.1}\" r=\"3.5\" fill=\"{fill}\" stroke=\"{colour}\" stroke-width=\"1.5\"/>\n"
        )
    }

    /// A thin line from the end to the label.
    pub fn thread(&self, (x, y): (f64, f64), (to, height): (f64, f64)) -> String {
        let colour = self.colour;
        format!(
            "<path d=\"M{x:.1} {y:.1}L{to:.1} {height:.1}\" stroke=\"{colour}\" stroke-width=\"0.8\" opacity=\"0.6\"/>\n"
        )
    }
}
