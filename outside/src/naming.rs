//! Which mistakes in naming the entries of a conflict, or the one that a search finds, would show.

use crate::entry::{Entry, Header};
use crate::model::{catching, catching_entries, holds, Filed};

/// Kinds of conflicts, each with another answer if entries were counted in the working list, if the last
/// match were named, if the lists in force were numbered in turn, if only two parties were named, or if a
/// number had one digit.
pub const KINDS: [&str; 5] =
    ["past idle entries", "matched again", "parties apart", "of three", "past entry 9"];

/// Whether an entry matches a header behind the one that catches it.
pub fn is_matched_again(list: &[Entry], h: &Header) -> bool {
    list.iter().filter(|e| holds(&e.selector, h)).count() > 1
}

/// Whether an entry that catches nothing stands before the one that catches a header.
fn is_past_idle(list: &[Entry], h: &Header) -> bool {
    let busy = catching_entries(list);
    catching(list, h).is_some_and(|entry| (0..entry).any(|i| !busy.contains(&i)))
}

/// The kinds of a conflict at a header.
pub fn kinds(filed: &[Filed], h: &Header) -> Vec<&'static str> {
    let is_of_kind = [
        filed.iter().any(|(_, list)| is_past_idle(list, h)),
        filed.iter().any(|(_, list)| is_matched_again(list, h)),
        (1..).zip(filed).any(|(place, (party, _))| *party != place),
        filed.len() > 2,
        filed.iter().any(|(_, list)| catching(list, h) > Some(9)),
    ];
    KINDS.into_iter().zip(is_of_kind).filter(|(_, is)| *is).map(|(kind, _)| kind).collect()
}
