//! What one job takes: by the product, by its algorithm in Rust over the same bytes and over decoded
//! structs, and by another method.

use outside::clock::seconds;
use outside::page::{maybe_time, ratio, time};

use crate::findings::Page;

/// The other method gives up after so many states of a field.
pub const STATES: usize = 100_000;

pub const BYTES: &str = "Rust, bytes";
pub const DECODED: &str = "Rust, decoded";
pub const CELLS: &str = "cells";

pub struct Times {
    pub product: Option<f64>,
    pub packed: f64,
    decoded: f64,
    /// None where it gave up.
    cells: Option<f64>,
}

const COLUMNS: [&str; 6] = ["product", BYTES, "ratio", DECODED, "ratio", CELLS];

/// A table's head: its first columns, and then those of the times.
pub fn head<'a>(first: &[&'a str]) -> Vec<&'a str> {
    [first, &COLUMNS].concat()
}

pub type Job<'a> = &'a mut dyn FnMut() -> u64;

/// Seconds of each job that there is, all timed in turn.
pub fn each(jobs: Vec<Option<Job>>) -> Vec<Option<f64>> {
    let there: Vec<bool> = jobs.iter().map(|job| job.is_some()).collect();
    let mut jobs: Vec<Job> = jobs.into_iter().flatten().collect();
    let mut times = seconds(&mut jobs).into_iter();
    there.into_iter().map(|there| if there { times.next() } else { None }).collect()
}

impl Times {
    /// Times the versions of a job; `cells` answers whether it came to an end.
    pub fn of(
        product: Option<Job>,
        packed: Job,
        decoded: Job,
        cells: &mut dyn FnMut() -> bool,
    ) -> Times {
        Times::beside(None, product, packed, decoded, cells).1
    }

    /// The same, and the seconds of another job of the product, all timed in turn. The product's two do
    /// not come after each other: the second would find its branches well predicted.
    pub fn beside(
        another: Option<Job>,
        product: Option<Job>,
        packed: Job,
        decoded: Job,
        cells: &mut dyn FnMut() -> bool,
    ) -> (Option<f64>, Times) {
        let ended = cells();
        let mut by_cells = || cells() as u64;
        let other = ended.then_some(&mut by_cells as Job);
        let [ours, another] = [product.map(|job| job as Job), another.map(|job| job as Job)];
        let times = each(vec![ours, Some(packed as Job), another, Some(decoded as Job), other]);
        let versions = Times {
            product: times[0],
            packed: times[1].expect("timed"),
            decoded: times[3].expect("timed"),
            cells: times[4],
        };
        (times[2], versions)
    }

    pub fn columns(&self) -> Vec<String> {
        vec![
            maybe_time(self.product),
            time(self.packed),
            ratio(self.product, self.packed),
            time(self.decoded),
            ratio(self.product, self.decoded),
            self.cells.map_or("gave up".to_string(), time),
        ]
    }

    /// The product's, or while it is not linked, that of the same algorithm in Rust.
    pub fn ours(&self) -> f64 {
        self.product.unwrap_or(self.packed)
    }

    /// Notes the ratios of a row.
    pub fn note(&self, page: &mut Page, job: &'static str, row: &str) {
        if let Some(ours) = self.product {
            page.compare(job, BYTES, row, ours / self.packed);
            page.compare(job, DECODED, row, ours / self.decoded);
            if let Some(cells) = self.cells {
                page.compare(job, CELLS, row, ours / cells);
            }
        }
    }
}
