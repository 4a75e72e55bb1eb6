//! The product's merging and installing in Rust, for measuring: pairs in lexicographic order, each kept
//! exactly if it catches a header that the kept ones leave uncaught; then conflict; then striking from
//! last to first. Installing goes on with one action of each set, and strikes again. The search works on
//! packed records, or on decoded ones.

use crate::entry::{record, Box6, Entry, Header, List, ALL, BOX, RECORD};
use crate::search::{common_part, is_proper, Decoded, Lists, Packed};

#[derive(Clone, PartialEq, Eq, Debug)]
pub enum Merged {
    Crowded,
    Conflict(Header),
    List(List),
}

/// Over which form of the working list the search runs.
#[derive(Clone, Copy, PartialEq, Eq, Debug)]
pub enum Form {
    Packed,
    Decoded,
}

const LIMIT: usize = 256;

struct Working {
    entries: List,
    bytes: Vec<u8>,
    form: Form,
}

impl Working {
    /// The least header of `x` in no entry of two parts of the list.
    fn least_open(
        &self,
        a: std::ops::Range<usize>,
        b: std::ops::Range<usize>,
        x: &Box6,
        boxes: &mut u64,
    ) -> Option<Header> {
        match self.form {
            Form::Packed => {
                Packed { lists: [&self.bytes, &[]] }.least_open((0, a), (0, b), x, None, boxes)
            }
            Form::Decoded => {
                Decoded { lists: [&self.entries, &[]] }.least_open((0, a), (0, b), x, None, boxes)
            }
        }
    }

    fn push(&mut self, entry: Entry) {
        self.bytes.extend(record(&entry));
        self.entries.push(entry);
    }

    fn remove(&mut self, k: usize) {
        self.entries.remove(k);
        self.bytes.drain(RECORD * k..RECORD * (k + 1));
    }

    /// Leaves each entry the best-ranked action of its set.
    fn keep_best(&mut self, ranking: &[u8]) {
        for (entry, record) in self.entries.iter_mut().zip(self.bytes.chunks_mut(RECORD)) {
            entry.actions = best_of(entry.actions, ranking);
            record[BOX..].copy_from_slice(&entry.actions.to_be_bytes());
        }
    }
}

/// The best-ranked action of a set, alone.
pub fn best_of(set: u16, ranking: &[u8]) -> u16 {
    ranking.iter().map(|action| 1 << action).find(|one| set & one != 0).unwrap_or(0)
}

/// The pairs of two lists that catch a header, or none if they are too many.
fn cross(p: &[Entry], q: &[Entry], form: Form, boxes: &mut u64) -> Option<Working> {
    let mut kept = Working { entries: vec![], bytes: vec![], form };
    for d in p {
        for e in q {
            let selector = common_part(&d.selector, &e.selector);
            let n = kept.entries.len();
            if is_proper(&selector) && kept.least_open(0..n, 0..0, &selector, boxes).is_some() {
                if n == LIMIT {
                    return None;
                }
                kept.push(Entry { selector, actions: d.actions & e.actions });
            }
        }
    }
    Some(kept)
}

/// Whether some header is allowed another set without entry `k`, or is then uncaught.
fn is_needed(list: &Working, k: usize, boxes: &mut u64) -> bool {
    let entry = list.entries[k];
    let n = list.entries.len();
    for j in k + 1..n {
        if list.entries[j].actions != entry.actions {
            let within = common_part(&entry.selector, &list.entries[j].selector);
            if is_proper(&within) && list.least_open(0..k, k + 1..j, &within, boxes).is_some() {
                return true;
            }
        }
    }
    list.least_open(0..k, k + 1..n, &entry.selector, boxes).is_some()
}

/// The working list of covering lists, or none if it is too long.
fn working_list(lists: &[List], form: Form, boxes: &mut u64) -> Option<Working> {
    let everything = Entry { selector: ALL, actions: 0xffff };
    let mut working = Working { entries: vec![everything], bytes: record(&everything), form };
    for next in lists {
        working = cross(&working.entries, next, form, boxes)?;
    }
    Some(working)
}

/// The least header that an entry without actions catches.
fn least_conflict(working: &Working, boxes: &mut u64) -> Option<Header> {
    let mut conflict = None;
    for (k, entry) in working.entries.iter().enumerate() {
        if entry.actions == 0 {
            let first = working.least_open(0..k, 0..0, &entry.selector, boxes);
            conflict = [conflict, first].into_iter().flatten().min();
        }
    }
    conflict
}

fn strike(list: &mut Working, boxes: &mut u64) {
    for k in (0..list.entries.len()).rev() {
        if !is_needed(list, k, boxes) {
            list.remove(k);
        }
    }
}

/// Merging, or where there is a ranking installing.
fn reconcile(lists: &[List], ranking: Option<&[u8]>, form: Form, boxes: &mut u64) -> Merged {
    let Some(mut list) = working_list(lists, form, boxes) else {
        return Merged::Crowded;
    };
    if let Some(header) = least_conflict(&list, boxes) {
        return Merged::Conflict(header);
    }
    strike(&mut list, boxes);
    if let Some(ranking) = ranking {
        list.keep_best(ranking);
        strike(&mut list, boxes);
    }
    Merged::List(list.entries)
}

/// Merging of covering lists.
pub fn merge(lists: &[List], form: Form, boxes: &mut u64) -> Merged {
    reconcile(lists, None, form, boxes)
}

/// Installing of covering lists, by a ranking of all actions.
pub fn install(lists: &[List], ranking: &[u8], form: Form, boxes: &mut u64) -> Merged {
    reconcile(lists, Some(ranking), form, boxes)
}
