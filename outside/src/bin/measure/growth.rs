//! How times grow with the size of the input.

use outside::page::{time, Table};

use crate::times::{each, Job};

/// The times of a job at rising sizes.
pub struct Growth {
    table: Table,
}

/// The slope of the line through the logarithms that fits best.
fn exponent(sizes: &[usize], times: &[f64]) -> f64 {
    let points: Vec<(f64, f64)> =
        sizes.iter().zip(times).map(|(n, t)| ((*n as f64).ln(), t.ln())).collect();
    let mean =
        |of: &dyn Fn(&(f64, f64)) -> f64| points.iter().map(of).sum::<f64>() / points.len() as f64;
    let (x, y) = (mean(&|p| p.0), mean(&|p| p.1));
    let above: f64 = points.iter().map(|p| (p.0 - x) * (p.1 - y)).sum();
    let below: f64 = points.iter().map(|p| (p.0 - x) * (p.0 - x)).sum();
    above / below
}

fn joined(parts: impl Iterator<Item = String>) -> String {
    parts.collect::<Vec<String>>().join(", ")
}

impl Growth {
    pub fn new() -> Growth {
        let head = ["job", "n", "product's times", "grows as", "Rust, bytes grows as"];
        Growth { table: Table::new(&head) }
    }

    /// A row: for each size the product's job, if it is linked, and the Rust version's.
    pub fn row(&mut self, name: &str, jobs: &mut [(usize, Option<Job>, Job)]) {
        let sizes: Vec<usize> = jobs.iter().map(|(n, ..)| *n).collect();
        let (mut ours, mut rust) = (vec![], vec![]);
        for (_, product, packed) in jobs {
            let product = product.as_mut().map(|job| &mut **job as Job);
            let times = each(vec![product, Some(&mut **packed)]);
            ours.extend(times[0]);
            rust.extend(times[1]);
        }
        let grows = |times: &[f64]| match times.is_empty() {
            true => "–".to_string(),
            false => format!("n^{:.1}", exponent(&sizes, times)),
        };
        self.table.row(vec![
            name.to_string(),
            joined(sizes.iter().map(|n| n.to_string())),
            joined(ours.iter().map(|t| time(*t))),
            grows(&ours),
            grows(&rust),
        ]);
    }

    pub fn text(&self) -> String {
        format!(
            "## Growth with n\n\nThe exponent is the slope of the line that fits the logarithms \
             of sizes and times best.\n\n{}",
            self.table.text()
        )
    }
}
