//! The aims, and which lines keep them.

use super::rounds::{columns_of, line};

/// A figure that should not be above a limit: on every line, or on most.
#[derive(Clone, Copy, PartialEq)]
pub struct Aim {
    pub text: &'static str,
    pub limit: f64,
    pub on_most: bool,
}

/// The lines that are held to an aim, and their figures.
struct Held {
    aim: Aim,
    lines: Vec<(String, f64)>,
}

/// All that was held, in the order in which it came.
#[derive(Default)]
pub struct Aims(Vec<Held>);

/// A figure as it is printed.
fn rounded(figure: f64) -> f64 {
    (100.0 * figure).round() / 100.0
}

impl Held {
    fn print(&self) {
        let Aim { text, limit, on_most } = self.aim;
        let keep = self.lines.iter().filter(|line| rounded(line.1) <= limit).count();
        let is_met = if on_most { 2 * keep > self.lines.len() } else { keep == self.lines.len() };
        let greatest = self.lines.iter().max_by(|a, b| a.1.total_cmp(&b.1)).expect("an aim has a line");
        let (met, kept) = (if is_met { "yes" } else { "**no**" }, format!("{keep} of {}", self.lines.len()));
        line([text.into(), limit.to_string(), kept, format!("{:.2}: {}", greatest.1, greatest.0), met.into()]);
    }
}

impl Aims {
    /// Holds a line's figure to an aim.
    pub fn hold(&mut self, aim: Aim, line: &str, figure: f64) {
        let found = self.0.iter().position(|held| held.aim == aim);
        let at = found.unwrap_or_else(|| {
            self.0.push(Held { aim, lines: Vec::new() });
            self.0.len() - 1
        });
        self.0[at].lines.push((line.into(), figure));
    }

    pub fn print(&self) {
        println!(
            "\n## Aims\n\nEach is a figure that should not be above a limit; how many of the lines above keep it, by the figures as printed."
        );
        columns_of("aim | at most | lines that keep it | greatest | met");
        self.0.iter().for_each(Held::print);
    }
}
