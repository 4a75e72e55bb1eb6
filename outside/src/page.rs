//! A Markdown page of aligned tables.

#[derive(Default)]
pub struct Table {
    rows: Vec<Vec<String>>,
}

impl Table {
    pub fn new(head: &[&str]) -> Table {
        Table { rows: vec![head.iter().map(|cell| cell.to_string()).collect()] }
    }

    pub fn row(&mut self, cells: Vec<String>) {
        self.rows.push(cells);
    }

    /// The first column is set to the left, the others to the right.
    pub fn text(&self) -> String {
        let columns = self.rows[0].len();
        let width = |c: usize| self.rows.iter().map(|r| r[c].chars().count()).max().unwrap_or(0);
        let widths: Vec<usize> = (0..columns).map(width).collect();
        let mut text = String::new();
        for (i, row) in self.rows.iter().enumerate() {
            for (c, cell) in row.iter().enumerate() {
                let space = " ".repeat(widths[c] - cell.chars().count());
                match c {
                    0 => text += &format!("| {cell}{space} "),
                    _ => text += &format!("| {space}{cell} "),
                }
            }
            text += "|\n";
            if i == 0 {
                for (c, width) in widths.iter().enumerate() {
                    let line = "-".repeat(width + 1);
                    text += &if c == 0 { format!("|{line}-") } else { format!("|{line}:") };
                }
                text += "|\n";
            }
        }
        text
    }
}

/// A number with commas between thousands.
pub fn count(n: u64) -> String {
    let digits = n.to_string();
    let mut text = String::new();
    for (i, digit) in digits.chars().enumerate() {
        if i > 0 && (digits.len() - i) % 3 == 0 {
            text.push(',');
        }
        text.push(digit);
    }
    text
}

/// Seconds in a fitting unit.
pub fn time(seconds: f64) -> String {
    match seconds {
        s if s < 1e-6 => format!("{:.0} ns", s * 1e9),
        s if s < 1e-4 => format!("{:.1} µs", s * 1e6),
        s if s < 1e-3 => format!("{:.0} µs", s * 1e6),
        s if s < 1e-1 => format!("{:.1} ms", s * 1e3),
        s => format!("{:.0} ms", s * 1e3),
    }
}

pub fn ratio(ours: Option<f64>, other: f64) -> String {
    ours.map_or("–".to_string(), |ours| format!("{:.2}", ours / other))
}

pub fn maybe_time(seconds: Option<f64>) -> String {
    seconds.map_or("–".to_string(), time)
}
