//! The measurements as tables in Markdown, put between two marks of a page.

use crate::families::Family;
use crate::measure::Times;
use boundary::tally::with_commas;
use std::fmt::Write;

const BEGIN: &str = "<!-- measured: begin -->";
const END: &str = "<!-- measured: end -->";

/// Instruction counts of one size.
#[derive(Clone, Copy)]
pub struct Counts {
    pub size: usize,
    pub ours: u64,
    pub seconds: u64,
}

/// All that was measured of a family.
pub struct Row<'a> {
    pub family: &'a Family,
    pub counts: Vec<Counts>,
    pub times: Times,
}

impl Row<'_> {
    fn largest(&self) -> Counts {
        self.counts[self.counts.len() - 1]
    }

    /// Our instructions to the second engine's, at the largest size.
    pub fn ratio(&self) -> f64 {
        self.largest().ours as f64 / self.largest().seconds as f64
    }

    /// How our counts and the second engine's grow when the largest but one size
    /// doubles; nothing for a call that cannot grow.
    fn growth(&self) -> Option<(f64, f64)> {
        match self.counts[..] {
            [.., half, whole] => {
                let of = |count: fn(Counts) -> u64| count(whole) as f64 / count(half) as f64;
                Some((of(|counts| counts.ours), of(|counts| counts.seconds)))
            }
            _ => None,
        }
    }

    /// What is over a limit: instructions and time beside the second engine's, and growth.
    fn over(&self) -> Vec<String> {
        let ours = self.growth().map_or(0.0, |growth| growth.0);
        let limits = [("instructions", self.ratio(), 1.0), ("time", self.times.ratio, 1.0), ("growth", ours, 2.2)];
        let over = limits.into_iter().filter(|(_, value, most)| value > most);
        over.map(|(what, value, most)| format!("{} {what} {value:.2}, over {most}", self.family.key)).collect()
    }
}

/// What is over a limit, a line each.
pub fn over(rows: &[Row]) -> Vec<String> {
    rows.iter().flat_map(Row::over).collect()
}

pub fn table(rows: &[Row]) -> String {
    let mut text = String::from(
        "| entry | call | size | our instructions | the second's | ratio | our growth | the second's | time ratio | our time |\n\
         |---|---|---:|---:|---:|---:|---:|---:|---:|---:|\n",
    );
    for row in rows {
        let largest = row.largest();
        let size = match largest.size {
            1 => String::new(),
            size => format!("{} {}", with_commas(size as u64), row.family.unit),
        };
        let growth = row.growth().map_or(" | ".to_string(), |(ours, seconds)| format!("{ours:.2} | {seconds:.2}"));
        let _ = writeln!(
            text,
            "| {} | {} | {size} | {} | {} | {:.2} | {} | {:.2} | {} |",
            row.family.called.name(),
            row.family.title,
            with_commas(largest.ours),
            with_commas(largest.seconds),
            row.ratio(),
            growth,
            row.times.ratio,
            time_text(row.times.ours),
        );
    }
    text
}

fn time_text(nanoseconds: f64) -> String {
    if nanoseconds < 1_000_000.0 {
        return format!("{:.0} µs", nanoseconds / 1_000.0);
    }
    format!("{:.1} ms", nanoseconds / 1_000_000.0)
}

/// The page with the measured part replaced; an error if it has no marks.
pub fn with_measured_part(page: &str, measured: &str) -> Result<String, String> {
    let (front, rest) = page.split_once(BEGIN).ok_or(format!("the page has no line {BEGIN}"))?;
    let (_, back) = rest.split_once(END).ok_or(format!("the page has no line {END}"))?;
    Ok(format!("{front}{BEGIN}\n\n{measured}\n{END}{back}"))
}

#[cfg(test)]
mod tests {
    use super::*;
    use crate::families;

    #[test]
    fn only_the_measured_part_is_replaced() {
        let page = format!("front\n{BEGIN}\nold\n{END}\nback\n");
        let new = with_measured_part(&page, "new\n").unwrap();
        assert_eq!(new, format!("front\n{BEGIN}\n\nnew\n\n{END}\nback\n"));
        assert!(with_measured_part("no marks", "new").is_err());
    }

    #[test]
    fn what_is_over_a_limit_is_said() {
        let families = families::all();
        let rising = families.iter().find(|family| family.key == "check-rising").unwrap();
        let counts = |size, ours| Counts { size, ours, seconds: 100 };
        let row =
            Row { family: rising, counts: vec![counts(1, 50), counts(2, 120)], times: Times { ours: 1.0, ratio: 0.9 } };
        assert_eq!(over(&[row]), ["check-rising instructions 1.20, over 1", "check-rising growth 2.40, over 2.2"]);
    }
}
