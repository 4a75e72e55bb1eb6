//! The page as it grows, and what is to be said first: the ratios at a glance, and the targets.

use outside::page::Table;

/// A number to stay within.
pub struct Target {
    pub words: &'static str,
    pub most: f64,
}

struct Ratio {
    job: &'static str,
    beside: &'static str,
    row: String,
    ratio: f64,
}

struct Held {
    target: &'static Target,
    row: String,
    value: f64,
}

/// So many rows that miss a target are named.
const SHOWN: usize = 12;

#[derive(Default)]
pub struct Page {
    pub text: String,
    ratios: Vec<Ratio>,
    held: Vec<Held>,
}

impl Page {
    pub fn say(&mut self, text: &str) {
        self.text += text;
        self.text += "\n";
    }

    /// Holds a row's value against a target.
    pub fn hold(&mut self, target: &'static Target, row: &str, value: f64) {
        self.held.push(Held { target, row: row.to_string(), value });
    }

    /// Notes the product's time of a row divided by another version's.
    pub fn compare(&mut self, job: &'static str, beside: &'static str, row: &str, ratio: f64) {
        self.ratios.push(Ratio { job, beside, row: row.to_string(), ratio });
    }

    /// For each job and version: in how many rows the product is slower, and the ratios' spread.
    pub fn ratios_at_a_glance(&self) -> String {
        let head = [
            "job",
            "beside",
            "product slower in",
            "least",
            "median",
            "most",
            "the row with the most",
        ];
        let mut table = Table::new(&head);
        let mut seen: Vec<(&str, &str)> = vec![];
        for Ratio { job, beside, .. } in &self.ratios {
            if seen.contains(&(job, beside)) {
                continue;
            }
            seen.push((job, beside));
            let same = self.ratios.iter().filter(|r| r.job == *job && r.beside == *beside);
            let mut rows: Vec<&Ratio> = same.collect();
            rows.sort_by(|a, b| a.ratio.total_cmp(&b.ratio));
            let slower = rows.iter().filter(|r| r.ratio > 1.0).count();
            let last = rows[rows.len() - 1];
            table.row(vec![
                job.to_string(),
                beside.to_string(),
                format!("{slower} of {}", rows.len()),
                format!("{:.2}", rows[0].ratio),
                format!("{:.2}", rows[rows.len() / 2].ratio),
                format!("{:.2}", last.ratio),
                last.row.clone(),
            ]);
        }
        table.text()
    }

    /// For each target: how many rows miss it, and the row with the greatest value.
    pub fn targets(&self) -> String {
        let mut table = Table::new(&["to reach", "rows", "missed in", "worst", "the worst row"]);
        let mut misses = String::new();
        let mut seen: Vec<&str> = vec![];
        for Held { target, .. } in &self.held {
            if seen.contains(&target.words) {
                continue;
            }
            seen.push(target.words);
            let same = self.held.iter().filter(|h| h.target.words == target.words);
            let mut rows: Vec<&Held> = same.collect();
            rows.sort_by(|a, b| b.value.total_cmp(&a.value));
            let missed: Vec<&&Held> = rows.iter().filter(|h| h.value > target.most).collect();
            table.row(vec![
                target.words.to_string(),
                rows.len().to_string(),
                missed.len().to_string(),
                number(rows[0].value),
                rows[0].row.clone(),
            ]);
            if !missed.is_empty() {
                let shown = missed.iter().take(SHOWN);
                let mut rows: Vec<String> =
                    shown.map(|h| format!("{} ({})", h.row, number(h.value))).collect();
                if missed.len() > SHOWN {
                    rows.push(format!("and {} more", missed.len() - SHOWN));
                }
                misses += &format!("- {}: {}.\n", target.words, rows.join("; "));
            }
        }
        match misses.is_empty() {
            true => format!("{}\nNone is missed.\n", table.text()),
            false => format!("{}\nMissed, the worst first:\n\n{misses}", table.text()),
        }
    }
}

fn number(value: f64) -> String {
    match value {
        v if v >= 100.0 => outside::page::count(v as u64),
        v if v >= 10.0 => format!("{v:.1}"),
        v if v >= 0.01 => format!("{v:.2}"),
        v => format!("{v:.5}"),
    }
}
