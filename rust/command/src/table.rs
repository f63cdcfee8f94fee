//! Tables, aligned for people or separated by commas for machines.

/// A table with a heading.
#[derive(Debug)]
pub struct Table {
    /// The heading and the side of each column.
    columns: Vec<(String, Side)>,
    /// The rows, each with an entry for every column.
    rows: Vec<Vec<String>>,
}

/// The side of a column to which its entries keep.
#[derive(Clone, Copy, Debug, PartialEq, Eq)]
pub enum Side {
    /// Names keep to the left.
    Left,
    /// Numbers keep to the right.
    Right,
}

impl Table {
    /// A table without rows.
    pub fn new(columns: &[(&str, Side)]) -> Table {
        let columns = columns.iter();
        Table {
            columns: columns
                .map(|(name, side)| (name.to_string(), *side))
                .collect(),
            rows: Vec::new(),
        }
    }

    /// Adds a row.
    pub fn push(&mut self, row: Vec<String>) {
        self.rows.push(row);
    }

    /// The table as text, a line to a row.
    pub fn text(&self, csv: bool) -> String {
        let head: Vec<&str> = self.columns.iter().map(|(name, _)| name.as_str()).collect();
        let rows = self.rows.iter();
        let rows = rows.map(|row| row.iter().map(String::as_str).collect::<Vec<&str>>());
        let lines = std::iter::once(head).chain(rows);
        if csv {
            return lines.map(|line| csv_line(&line)).collect();
        }
        let places = self.places();
        lines.map(|line| aligned_line(&line, &places)).collect()
    }

    /// The width and the side of each column.
    fn places(&self) -> Vec<(usize, Side)> {
        let width = |column: usize| {
            let entries = self.rows.iter().filter_map(|row| row.get(column));
            let widest = entries.map(|entry| width(entry)).max().unwrap_or(0);
            widest.max(width(&self.columns[column].0))
        };
        let columns = self.columns.iter().enumerate();
        columns
            .map(|(place, (_, side))| (width(place), *side))
            .collect()
    }
}

/// The width of a text on a terminal, about.
pub fn width(text: &str) -> usize {
    text.chars().count()
}

/// A line of entries, each filled up to its width, with two spaces between.
pub fn aligned_line(entries: &[&str], places: &[(usize, Side)]) -> String {
    let pairs = entries.iter().zip(places);
    let filled = pairs.map(|(entry, (width, side))| match side {
        Side::Left => format!("{entry:<width$}"),
        Side::Right => format!("{entry:>width$}"),
    });
    let line = filled.collect::<Vec<String>>().join("  ");
    format!("{}\n", line.trim_end())
}

/// A line of entries with commas between.
pub fn csv_line(entries: &[&str]) -> String {
    let entries: Vec<String> = entries.iter().map(|entry| quoted(entry)).collect();
    format!("{}\n", entries.join(","))
}

/// An entry in quotes, if it would be misread without.
fn quoted(entry: &str) -> String {
    if entry.contains([',', '"']) {
        return format!("\"{}\"", entry.replace('"', "\"\""));
    }
    entry.to_string()
}
