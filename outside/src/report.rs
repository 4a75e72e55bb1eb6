//! How every test program ends: a count on success, the first difference and status 1 otherwise.

use std::time::{Duration, Instant};

/// Counts the cases of a test and keeps its time bound.
pub struct Cases {
    name: &'static str,
    start: Instant,
    bound: Duration,
    pub count: usize,
}

impl Cases {
    pub fn new(name: &'static str, bound_seconds: u64) -> Cases {
        Cases { name, start: Instant::now(), bound: Duration::from_secs(bound_seconds), count: 0 }
    }

    /// Counts a case; ends the program where the two sides differ or the time is over.
    pub fn same<T: PartialEq + std::fmt::Debug>(
        &mut self,
        ours: T,
        expected: T,
        case: impl Fn() -> String,
    ) {
        if ours != expected {
            eprintln!("{}: difference at case {}", self.name, self.count);
            eprintln!("  got      {ours:?}");
            eprintln!("  expected {expected:?}");
            eprintln!("  {}", case());
            std::process::exit(1);
        }
        self.count += 1;
        if self.start.elapsed() > self.bound {
            eprintln!("{}: not done within {:?}", self.name, self.bound);
            std::process::exit(1);
        }
    }

    /// A wanted number of cases, from the program's first argument if there is one.
    pub fn wanted(default: usize) -> usize {
        std::env::args().filter_map(|a| a.parse().ok()).next().unwrap_or(default)
    }

    pub fn done(&self, words: &str) {
        let seconds = self.start.elapsed().as_secs_f64();
        println!("{}: {} cases, no difference, {words} ({seconds:.1} s)", self.name, self.count);
    }
}

/// Bytes for a message.
pub fn hexadecimal(bytes: &[u8]) -> String {
    bytes.iter().map(|b| format!("{b:02x}")).collect()
}
