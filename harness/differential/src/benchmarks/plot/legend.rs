//! The legend: a sample and a name for each line, beside its end, in the order
//! of the ends.

use std::iter::repeat_n;

use super::RIGHT;
use super::axis::Axis;
use super::line::Line;

/// From one name to the next.
const GAP: f64 = 22.0;
/// Where a sample begins and ends, and where its name begins.
const SAMPLE: (f64, f64) = (RIGHT + 26.0, RIGHT + 58.0);
const NAME: f64 = RIGHT + 66.0;

pub fn drawn(lines: &[Line], x: &Axis, y: &Axis) -> String {
    let mut lines: Vec<&Line> = lines.iter().collect();
    lines.sort_by(|one, other| other.end().total_cmp(&one.end()));
    let ends: Vec<f64> = lines.iter().map(|line| y.at(line.end())).collect();
    let entries = lines.into_iter().zip(&ends).zip(spread(&ends));
    entries
        .map(|((line, end), height)| entry(line, (x.end, *end), height))
        .collect()
}

/// A thread from the line's end, the sample, the name.
fn entry(line: &Line, end: (f64, f64), height: f64) -> String {
    let (start, stop) = SAMPLE;
    let (base, label) = (height + 4.5, &line.label);
    let name = format!("<text x=\"{NAME}\" y=\"{base:.1}\">{label}</text>\n");
    [
        line.thread(end, (start - 4.0, height)),
        line.stroke(&[(start, height), (stop, height)]),
        line.mark(((start + stop) / 2.0, height)),
        name,
    ]
    .concat()
}

/// Heights for names at some ends, from above to below: a gap apart, and as
/// near to the ends as that lets them be. Names that would be nearer than the gap
/// become a pool, which stands around the middle of its ends.
fn spread(ends: &[f64]) -> Vec<f64> {
    let mut pools: Vec<Pool> = Vec::new();
    for (place, end) in ends.iter().enumerate() {
        let mut pool = Pool {
            sum: end - place as f64 * GAP,
            names: 1,
        };
        while let Some(above) = pools.pop_if(|above| above.height() > pool.height()) {
            pool.sum += above.sum;
            pool.names += above.names;
        }
        pools.push(pool);
    }
    let heights = pools
        .iter()
        .flat_map(|pool| repeat_n(pool.height(), pool.names));
    heights
        .enumerate()
        .map(|(place, height)| height + place as f64 * GAP)
        .collect()
}

/// Names that stand one gap apart, and the sum of where the first would stand
/// for each of them.
struct Pool {
    sum: f64,
    names: usize,
}

impl Pool {
    fn height(&self) -> f64 {
        self.sum / self.names as f64
    }
}
