//! Tables, as plain text or in Markdown.

pub struct Table {
    rows: Vec<Vec<String>>,
}

impl Table {
    pub fn new(heads: &[&str]) -> Table {
        let mut table = Table { rows: Vec::new() };
        table.row(heads.iter().map(|head| head.to_string()).collect());
        table
    }

    pub fn row(&mut self, cells: Vec<String>) {
        self.rows.push(cells);
    }

    /// The lines of the table, the first cell of each to the left and the others to the right.
    pub fn lines(&self, markdown: bool) -> Vec<String> {
        if markdown {
            return self.markdown();
        }
        let columns = self.rows[0].len();
        let width = |column: usize| -> usize {
            let cells = self.rows.iter().map(|row| row[column].chars().count());
            cells.max().unwrap_or(0)
        };
        let widths: Vec<usize> = (0..columns).map(width).collect();
        let line = |row: &Vec<String>| -> String {
            let cells = row.iter().zip(&widths).enumerate();
            let cells = cells.map(|(column, (cell, &width))| match column {
                0 => format!("{cell:<width$}"),
                _ => format!("  {cell:>width$}"),
            });
            cells.collect()
        };
        self.rows.iter().map(line).collect()
    }

    fn markdown(&self) -> Vec<String> {
        let line = |row: &Vec<String>| format!("| {} |", row.join(" | "));
        let mut lines: Vec<String> = self.rows.iter().map(line).collect();
        let rule = format!("|---|{}", "---:|".repeat(self.rows[0].len() - 1));
        lines.insert(1, rule);
        lines
    }

    pub fn print(&self, markdown: bool) {
        println!();
        self.lines(markdown)
            .iter()
            .for_each(|line| println!("{}", line.trim_end()));
        println!();
    }
}

#[cfg(test)]
mod tests {
    use super::*;

    fn table() -> Table {
        let mut table = Table::new(&["set", "ns"]);
        table.row(vec!["small".to_string(), "1,000".to_string()]);
        table
    }

    #[test]
    fn text() {
        assert_eq!(table().lines(false), ["set       ns", "small  1,000"]);
    }

    #[test]
    fn markdown() {
        let lines = ["| set | ns |", "|---|---:|", "| small | 1,000 |"];
        assert_eq!(table().lines(true), lines);
    }
}
