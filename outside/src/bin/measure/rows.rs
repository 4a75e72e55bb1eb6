//! The page's rows of the product alone, timed one at a time as they are asked for, so that two archives
//! can be timed in turn (outside/compare_archives).

use outside::clock::{batch, calls_for};
use outside::product::Product;
use std::io::Write;

/// A call of the product, and whether its answer is the Rust version's. An earlier archive may answer
/// otherwise, and can be timed all the same.
pub struct Tried<C> {
    call: C,
    is_right: bool,
}

impl<C> Tried<C> {
    pub fn new(is_right: bool, call: C) -> Tried<C> {
        Tried { call, is_right }
    }

    /// The call, whose answer is right.
    pub fn right(self) -> C {
        assert!(self.is_right, "the product answers otherwise than the Rust version");
        self.call
    }
}

/// A job of the product.
pub struct Row {
    job: &'static str,
    name: String,
    /// How many of the things that are timed one call does.
    each: usize,
    call: Box<dyn FnMut() -> u64>,
    is_right: bool,
}

impl Row {
    pub fn new(
        job: &'static str,
        name: String,
        each: usize,
        tried: Tried<impl FnMut() -> u64 + 'static>,
    ) -> Row {
        Row { job, name, each, call: Box::new(tried.call), is_right: tried.is_right }
    }
}

/// An input that is kept as long as the program runs.
pub fn kept<T>(input: Vec<T>) -> &'static [T] {
    input.leak()
}

/// Prints a line for each row, with whether its answer is right, then an empty one; then for each line of input, which holds a row's
/// number, the nanoseconds that one call takes.
pub fn answer(product: &Product) {
    let mut rows = crate::search::rows(product);
    rows.extend(crate::comparison::rows(product));
    rows.extend(crate::lookup::rows(product));
    rows.extend(crate::merging::rows(product));
    rows.extend(crate::installing::rows(product));
    rows.extend(crate::trying::rows(product));
    for row in &rows {
        println!("{}\t{}\t{}", row.job, row.name, if row.is_right { "right" } else { "other" });
    }
    println!();
    let mut calls: Vec<usize> = vec![0; rows.len()];
    for line in std::io::stdin().lines() {
        let i: usize = line.expect("a line").parse().expect("a row's number");
        let call = &mut *rows[i].call;
        if calls[i] == 0 {
            calls[i] = calls_for(batch(call, 1));
        }
        println!("{:.2}", batch(call, calls[i]) * 1e9 / rows[i].each as f64);
        std::io::stdout().flush().expect("a reader");
    }
}
