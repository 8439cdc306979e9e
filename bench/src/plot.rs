//! The growth of every family as an SVG: one panel each, both axes logarithmic.

use crate::page::{Counts, Row};
use boundary::tally::with_commas;
use std::fmt::Write;

const COLUMNS: usize = 4;
const WIDTH: f64 = 250.0;
const HEIGHT: f64 = 210.0;
/// Room around the lines of a panel.
const LEFT: f64 = 46.0;
const RIGHT: f64 = 14.0;
const TOP: f64 = 46.0;
const BOTTOM: f64 = 34.0;
const OURS: &str = "#0b57d0";
const SECONDS: &str = "#8a5a00";

/// The plot of all families that grow.
pub fn plot(rows: &[Row]) -> String {
    let growing: Vec<&Row> = rows.iter().filter(|row| row.counts.len() > 1).collect();
    let lines = growing.len().div_ceil(COLUMNS);
    let (width, height) = (WIDTH * COLUMNS as f64, HEIGHT * lines as f64 + 30.0);
    let mut svg = format!(
        "<svg xmlns=\"http://www.w3.org/2000/svg\" viewBox=\"0 0 {width} {height}\" font-family=\"sans-serif\" font-size=\"10\">\n\
         <rect width=\"{width}\" height=\"{height}\" fill=\"white\"/>\n\
         <text x=\"14\" y=\"18\" font-size=\"12\">Instructions of one call against its size: \
         <tspan fill=\"{OURS}\">Hitac</tspan> and the <tspan fill=\"{SECONDS}\">second engine (dashed)</tspan></text>\n"
    );
    for (number, row) in growing.iter().enumerate() {
        let x = WIDTH * (number % COLUMNS) as f64;
        let y = 30.0 + HEIGHT * (number / COLUMNS) as f64;
        let _ = writeln!(svg, "<g transform=\"translate({x} {y})\">\n{}</g>", panel(row));
    }
    svg + "</svg>\n"
}

/// Where counts fall in a panel.
struct Scale {
    sizes: (f64, f64),
    counts: (f64, f64),
}

impl Scale {
    /// Whole powers of ten around all the counts.
    fn of(counts: &[Counts]) -> Scale {
        let logarithms = || counts.iter().flat_map(|c| [c.ours, c.seconds]).map(|count| (count as f64).log10());
        let (least, most) = (logarithms().fold(f64::MAX, f64::min), logarithms().fold(0.0, f64::max));
        let size = |counts: &Counts| (counts.size as f64).log2();
        Scale {
            sizes: (size(&counts[0]), size(&counts[counts.len() - 1])),
            counts: (least.floor(), most.ceil().max(least.floor() + 1.0)),
        }
    }

    fn x(&self, size: usize) -> f64 {
        let part = ((size as f64).log2() - self.sizes.0) / (self.sizes.1 - self.sizes.0);
        LEFT + part * (WIDTH - LEFT - RIGHT)
    }

    fn y(&self, logarithm: f64) -> f64 {
        let part = (logarithm - self.counts.0) / (self.counts.1 - self.counts.0);
        HEIGHT - BOTTOM - part * (HEIGHT - TOP - BOTTOM)
    }
}

fn panel(row: &Row) -> String {
    let scale = Scale::of(&row.counts);
    let mut svg = String::new();
    let entry = row.family.called.name();
    let _ = writeln!(svg, "<text x=\"14\" y=\"20\" font-weight=\"bold\">{entry}, ratio {:.2}</text>", row.ratio());
    let _ = writeln!(svg, "<text x=\"14\" y=\"34\">{}</text>", row.family.title);
    axes(&mut svg, row, &scale);
    line(&mut svg, &row.counts, &scale, |counts| counts.ours, OURS, "none");
    line(&mut svg, &row.counts, &scale, |counts| counts.seconds, SECONDS, "4 3");
    svg
}

fn axes(svg: &mut String, row: &Row, scale: &Scale) {
    let right = WIDTH - RIGHT;
    let mut power = scale.counts.0;
    while power <= scale.counts.1 {
        let y = scale.y(power);
        let _ = writeln!(svg, "<line x1=\"{LEFT}\" y1=\"{y:.1}\" x2=\"{right}\" y2=\"{y:.1}\" stroke=\"#ddd\"/>");
        let _ = writeln!(svg, "<text x=\"{}\" y=\"{:.1}\" text-anchor=\"end\">10^{power}</text>", LEFT - 4.0, y + 3.0);
        power += 1.0;
    }
    for counts in &row.counts {
        let x = scale.x(counts.size);
        let y = HEIGHT - BOTTOM + 12.0;
        let size = with_commas(counts.size as u64);
        let _ = writeln!(svg, "<text x=\"{x:.1}\" y=\"{y}\" text-anchor=\"middle\">{size}</text>");
    }
    let (middle, below) = ((LEFT + right) / 2.0, HEIGHT - BOTTOM + 25.0);
    let _ = writeln!(svg, "<text x=\"{middle}\" y=\"{below}\" text-anchor=\"middle\">{}</text>", row.family.unit);
}

fn line(svg: &mut String, counts: &[Counts], scale: &Scale, of: fn(&Counts) -> u64, colour: &str, dashes: &str) {
    let mut points = String::new();
    for one in counts {
        let (x, y) = (scale.x(one.size), scale.y((of(one) as f64).log10()));
        let _ = write!(points, "{x:.1},{y:.1} ");
        let _ = writeln!(svg, "<circle cx=\"{x:.1}\" cy=\"{y:.1}\" r=\"2.5\" fill=\"{colour}\"/>");
    }
    let _ = writeln!(
        svg,
        "<polyline points=\"{}\" fill=\"none\" stroke=\"{colour}\" stroke-width=\"1.6\" stroke-dasharray=\"{dashes}\"/>",
        points.trim_end()
    );
}

#[cfg(test)]
mod tests {
    use super::*;
    use crate::families;
    use crate::measure::Times;

    #[test]
    fn every_family_that_grows_has_a_panel() {
        let families = families::all();
        let row = |family| {
            let counts = |size: usize| Counts { size, ours: 1_000 * size as u64, seconds: 2_000 * size as u64 };
            Row {
                family,
                counts: family.sizes().into_iter().map(counts).collect(),
                times: Times { ours: 1.0, ratio: 1.0 },
            }
        };
        let rows: Vec<Row> = families.iter().map(row).collect();
        let growing = families.iter().filter(|family| family.most > 1).count();
        assert_eq!(plot(&rows).matches("<polyline").count(), 2 * growing);
    }
}
