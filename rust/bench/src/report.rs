//! The table of times and ratios.

use std::fmt;

/// The ratio that every question aims to stay below.
const AIM: f64 = 3.0;

/// Both sides' times on one question and one graph.
#[derive(Debug)]
pub struct Comparison {
    /// The question.
    pub question: &'static str,
    /// The number of operations.
    pub operations: usize,
    /// The graph.
    pub graph: String,
    /// The proved side's nanoseconds.
    pub proved: f64,
    /// The plain side's nanoseconds.
    pub plain: f64,
}

impl Comparison {
    /// How many times the plain side's time the proved side takes.
    fn ratio(&self) -> f64 {
        self.proved / self.plain
    }
}

/// All comparisons.
#[derive(Debug, Default)]
pub struct Report {
    /// Those that have an aim.
    aimed: Vec<Comparison>,
    /// Those for the record.
    recorded: Vec<Comparison>,
}

impl Report {
    /// Adds a comparison of the same work on both sides.
    pub fn push(&mut self, comparison: Comparison) {
        self.aimed.push(comparison);
    }

    /// Adds a comparison for the record.
    pub fn record(&mut self, comparison: Comparison) {
        self.recorded.push(comparison);
    }

    /// How many comparisons there are.
    pub fn len(&self) -> usize {
        self.aimed.len() + self.recorded.len()
    }

    /// The questions, each once and in order.
    fn questions(&self) -> Vec<&'static str> {
        let mut names: Vec<&str> = Vec::new();
        for comparison in &self.aimed {
            if !names.contains(&comparison.question) {
                names.push(comparison.question);
            }
        }
        names
    }

    /// The least and the greatest ratio of a question.
    fn range(&self, question: &str) -> (f64, f64) {
        let of_question = self.aimed.iter().filter(|c| c.question == question);
        let ratios = of_question.map(Comparison::ratio);
        ratios.fold((f64::INFINITY, 0.0), |(low, high), ratio| {
            (low.min(ratio), high.max(ratio))
        })
    }

    /// The ranges of the ratios, and whether each keeps to the aim.
    fn write_ranges(&self, f: &mut fmt::Formatter<'_>) -> fmt::Result {
        writeln!(
            f,
            "| question | least ratio | greatest ratio | within {AIM} |"
        )?;
        writeln!(f, "|---|---:|---:|---|")?;
        for question in self.questions() {
            let (low, high) = self.range(question);
            let kept = if high <= AIM { "yes" } else { "no" };
            writeln!(f, "| {question} | {low:.2} | {high:.2} | {kept} |")?;
        }
        Ok(())
    }
}

/// A time with its unit, three digits of it.
fn shown(nanoseconds: f64) -> String {
    let (number, unit) = match nanoseconds {
        n if n < 1e3 => (n, "ns"),
        n if n < 1e6 => (n / 1e3, "µs"),
        n => (n / 1e6, "ms"),
    };
    let digits = match number {
        n if n < 10.0 => 2,
        n if n < 100.0 => 1,
        _ => 0,
    };
    format!("{number:.digits$} {unit}")
}

impl fmt::Display for Comparison {
    /// A row of the table.
    fn fmt(&self, f: &mut fmt::Formatter<'_>) -> fmt::Result {
        write!(
            f,
            "| {} | {} | {} | {} | {} | {:.2} |",
            self.question,
            self.operations,
            self.graph,
            shown(self.proved),
            shown(self.plain),
            self.ratio()
        )
    }
}

impl fmt::Display for Report {
    /// The tables in Markdown.
    fn fmt(&self, f: &mut fmt::Formatter<'_>) -> fmt::Result {
        writeln!(f, "| question | n | graph | proved | plain | ratio |")?;
        writeln!(f, "|---|---:|---|---:|---:|---:|")?;
        for comparison in self.aimed.iter().chain(&self.recorded) {
            writeln!(f, "{comparison}")?;
        }
        writeln!(f)?;
        self.write_ranges(f)
    }
}
