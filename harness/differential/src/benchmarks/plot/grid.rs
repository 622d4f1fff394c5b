//! The two axes, with a line and a name at each step.

use super::axis::Axis;
use super::line::Line;
use super::{BOTTOM, LEFT, RIGHT, TOP};
use crate::benchmarks::SIZES;
use crate::benchmarks::numbers::size;

/// Between the sides of the field and the lines in it.
const INSET: f64 = 24.0;

/// The axis of sizes.
pub fn sizes() -> Axis {
    let [low, .., high] = SIZES.map(|bytes| bytes as f64);
    Axis {
        low,
        high,
        start: LEFT + INSET,
        end: RIGHT - INSET,
    }
}

/// The axis of times, from a power of ten below all lines to a step above them.
pub fn times(lines: &[Line]) -> Axis {
    let all = || lines.iter().flat_map(|line| line.times);
    let below = |step: &f64| all().all(|time| *step <= time);
    let above = |step: &f64| all().all(|time| time <= *step);
    Axis {
        low: powers().take_while(below).last().expect("1 ns or more"),
        high: steps().find(above).expect("5 s or less"),
        start: BOTTOM,
        end: TOP,
    }
}

/// The powers of ten, in nanoseconds.
fn powers() -> impl Iterator<Item = f64> {
    (0..10).map(|power| 10f64.powi(power))
}

/// 1, 2 and 5 times each of them.
fn steps() -> impl Iterator<Item = f64> {
    powers().flat_map(|power| [1.0, 2.0, 5.0].map(|step| step * power))
}

pub fn drawn(x: &Axis, y: &Axis) -> String {
    let columns = SIZES.iter().map(|bytes| column(x, *bytes));
    let shown = steps().filter(|step| (y.low..=y.high).contains(step));
    let rows = shown.map(|step| row(y, step));
    let last = [guide(x, y), names()];
    rows.chain(columns).chain(last).collect()
}

/// A line below the others that grows as the size does.
fn guide(x: &Axis, y: &Axis) -> String {
    let [_, start, .., end] = SIZES.map(|bytes| bytes as f64);
    let (left, right) = (x.at(start), x.at(end));
    let (low, high) = (y.at(y.low), y.at(y.low * end / start));
    let (beside, base) = (right + 8.0, high + 4.5);
    format!(
        r##"<path d="M{left:.1} {low:.1}L{right:.1} {high:.1}" stroke="#999999" stroke-dasharray="2 3"/>
<text x="{beside:.1}" y="{base:.1}" fill="#777777">linear</text>
"##
    )
}

/// What the axes show.
fn names() -> String {
    let (across, down, below) = ((LEFT + RIGHT) / 2.0, (TOP + BOTTOM) / 2.0, BOTTOM + 46.0);
    format!(
        r#"<text x="{across}" y="{below}" text-anchor="middle">size of the image</text>
<text transform="translate(20 {down}) rotate(-90)" text-anchor="middle">time of one call</text>
"#
    )
}

fn column(x: &Axis, bytes: usize) -> String {
    let (at, below, name) = (x.at(bytes as f64), BOTTOM + 21.0, size(bytes));
    format!(
        r##"<path d="M{at:.1} {TOP}V{BOTTOM}" stroke="#dddddd"/>
<text x="{at:.1}" y="{below}" text-anchor="middle">{name}</text>
"##
    )
}

/// The powers of ten stand out.
fn row(y: &Axis, step: f64) -> String {
    let (line, ink) = match step.log10().fract() == 0.0 {
        true => ("#bbbbbb", "#222222"),
        false => ("#eeeeee", "#777777"),
    };
    let (at, beside, name) = (y.at(step), LEFT - 8.0, named(step));
    let base = at + 4.5;
    format!(
        r#"<path d="M{LEFT} {at:.1}H{RIGHT}" stroke="{line}"/>
<text x="{beside}" y="{base:.1}" text-anchor="end" fill="{ink}">{name}</text>
"#
    )
}

/// A step in the largest unit that it fills.
fn named(step: f64) -> String {
    let units = [(1e9, "s"), (1e6, "ms"), (1e3, "µs"), (1.0, "ns")];
    let unit = units.into_iter().find(|(unit, _)| *unit <= step);
    let (unit, name) = unit.expect("1 ns or more");
    format!("{} {name}", step / unit)
}
