//! The plot of the figures, in SVG: the time of a call over the image's size,
//! both logarithmic. The legend stands at the ends of the lines.

mod axis;
mod grid;
mod legend;
mod line;

use super::rows::Row;

const WIDTH: f64 = 930.0;
const HEIGHT: f64 = 580.0;
/// The field that the lines are drawn in.
const LEFT: f64 = 80.0;
const RIGHT: f64 = 640.0;
const TOP: f64 = 84.0;
const BOTTOM: f64 = 516.0;

const TITLE: &str = "Time of one call on a full image";

pub fn plot(rows: &[Row]) -> String {
    let lines = line::lines(rows);
    let (x, y) = (grid::sizes(), grid::times(&lines));
    let drawn: String = lines.iter().map(|line| line.drawn(&x, &y)).collect();
    let (head, grid, legend) = (head(), grid::drawn(&x, &y), legend::drawn(&lines, &x, &y));
    format!("{head}{grid}{legend}{drawn}</svg>\n")
}

/// The title, on a white ground, which a dark page needs.
fn head() -> String {
    format!(
        r##"<svg xmlns="http://www.w3.org/2000/svg" width="{WIDTH}" height="{HEIGHT}" viewBox="0 0 {WIDTH} {HEIGHT}" role="img" font-family="Helvetica, Arial, sans-serif" font-size="13" fill="#222222">
<title>{TITLE}</title>
<rect width="{WIDTH}" height="{HEIGHT}" fill="#ffffff"/>
<text x="{LEFT}" y="36" font-size="19" font-weight="bold">{TITLE}</text>
<text x="{LEFT}" y="60">Solid: the proved library. Dashed: the Rust. Both axes are logarithmic.</text>
"##
    )
}
