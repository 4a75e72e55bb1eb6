//! Tests and measurements of the policy list merger from outside.

pub mod baseline;
pub mod calls;
pub mod cells;
pub mod clock;
pub mod daemon_cases;
pub mod deep;
pub mod entry;
#[cfg(feature = "gateway")]
pub mod gateway;
pub mod generate;
pub mod merge;
pub mod model;
pub mod naming;
pub mod page;
pub mod points;
pub mod process;
pub mod product;
pub mod random;
pub mod replay;
pub mod report;
pub mod search;
pub mod stack;
