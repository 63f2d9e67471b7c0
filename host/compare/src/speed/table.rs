//! Tables and plots as text and as markdown.

use super::Best;

/// How a report is written.
#[derive(Clone, Copy, PartialEq, Eq)]
pub enum Style {
    Text,
    Markdown,
}

/// Rows with a name and cells of three figures each. In text the figures stand side by side, in markdown a cell is one column.
pub struct Table {
    pub title: &'static str,
    pub caption: &'static str,
    pub corner: &'static str,
    /// The heads of the cells.
    pub heads: Vec<&'static str>,
    /// The names of the figures.
    pub figures: [&'static str; 3],
    /// What stands between the figures of a cell in markdown.
    pub joints: [&'static str; 2],
    pub rows: Vec<(String, Vec<[String; 3]>)>,
}

/// A cell of times: the unit's, the independent implementation's, the ratio.
pub fn cell(best: &Best, format: impl Fn(f64) -> String) -> [String; 3] {
    [format(best.unit), format(best.independent), format!("{:.2}", best.ratio())]
}

impl Table {
    fn text(&self) -> String {
        let first = self.rows.iter().map(|(name, _)| name.len()).max().unwrap_or(0).max(self.corner.len());
        let cells = || self.rows.iter().flat_map(|(_, cells)| cells);
        let longest = |place: usize| cells().map(|cell| cell[place].len()).max().unwrap_or(0);
        let widths: [usize; 3] = std::array::from_fn(|place| longest(place).max(self.figures[place].len()));
        let cell = |[a, b, c]: [&str; 3]| format!("  {a:>x$} {b:>y$} {c:>z$}", x = widths[0], y = widths[1], z = widths[2]);
        let width = widths.iter().sum::<usize>() + 2;
        let mut lines = vec![format!("{}: {}", self.title, self.caption)];
        lines.push(" ".repeat(first) + &self.heads.iter().map(|head| format!("  {head:<width$}")).collect::<String>());
        lines.push(format!("{:<first$}", self.corner) + &cell(self.figures).repeat(self.heads.len()));
        for (name, cells) in &self.rows {
            let cells: String = cells.iter().map(|[a, b, c]| cell([a, b, c])).collect();
            lines.push(format!("{name:<first$}{cells}"));
        }
        lines.iter().map(|line| line.trim_end().to_string() + "\n").collect()
    }

    fn markdown(&self) -> String {
        let [x, y] = self.joints;
        let join = |[a, b, c]: [&str; 3]| format!("{a}{x}{b}{y}{c}");
        let line = |first: &str, cells: Vec<String>| format!("| {first} | {} |\n", cells.join(" | "));
        let mut out = format!("**{}** ({}): {}.\n\n", self.title, join(self.figures), self.caption);
        out += &line(self.corner, self.heads.iter().map(|head| head.to_string()).collect());
        out += &format!("|---|{}\n", "---:|".repeat(self.heads.len()));
        for (name, cells) in &self.rows {
            out += &line(name, cells.iter().map(|[a, b, c]| join([a, b, c])).collect());
        }
        out
    }
}

impl Style {
    pub fn table(self, table: &Table) -> String {
        match self {
            Style::Text => table.text(),
            Style::Markdown => table.markdown(),
        }
    }

    pub fn plot(self, caption: &str, plot: &str) -> String {
        match self {
            Style::Text => format!("{caption}\n\n{plot}"),
            Style::Markdown => format!("{caption}\n\n```\n{plot}```\n"),
        }
    }
}
