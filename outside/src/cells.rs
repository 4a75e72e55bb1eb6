//! Another method for the same jobs, for measuring: coordinate compression. Each field is cut at all
//! ends of ranges, each cell notes which entries hold it, as bits, and the cells are walked in the
//! order of headers, remembering the sets of entries that were walked from before. Ports and protocols
//! are cut also where headers are told from other combinations.

use crate::entry::{Box6, Entry, Header, List, FIELDS, TOP};
use crate::entry::{LOCAL_PORT, PROTOCOL, REMOTE_PORT, WITH_PORTS};
use crate::merge::{best_of, Merged};
use crate::model::header_cuts;
use crate::search::common_part;
use std::collections::{BTreeSet, HashSet};

/// Up to 512 entries: 256 of each of two lists.
const WORDS: usize = 8;
type Bits = [u64; WORDS];

/// Where the second of two lists starts.
const SECOND: usize = 256;

fn bit(i: usize) -> Bits {
    let mut bits = [0; WORDS];
    bits[i / 64] = 1 << (i % 64);
    bits
}

fn and(a: &Bits, b: &Bits) -> Bits {
    std::array::from_fn(|w| a[w] & b[w])
}

fn or(a: &Bits, b: &Bits) -> Bits {
    std::array::from_fn(|w| a[w] | b[w])
}

/// The first set bit from word `from` to before word `to`, counted from word `from`.
fn first(bits: &Bits, from: usize, to: usize) -> Option<usize> {
    (from..to).find(|w| bits[*w] != 0).map(|w| (w - from) * 64 + bits[w].trailing_zeros() as usize)
}

/// Clears the bits after bit `i` of the words from `from` to before `to`.
fn cut_after(bits: &mut Bits, from: usize, to: usize, i: usize) {
    let at = from + i / 64;
    if i % 64 < 63 {
        bits[at] &= (1 << (i % 64 + 1)) - 1;
    }
    bits[at + 1..to].fill(0);
}

/// The entries that match in all fields so far, and whether a port other than 0 was chosen.
type Walked = (Bits, bool);

/// Two lists with their fields cut into cells.
pub struct Cells {
    starts: [Vec<u32>; FIELDS],
    /// For each field and cell, the entries that hold it.
    holding: [Vec<Bits>; FIELDS],
    /// The entries that hold all cells from a field on.
    whole: [Bits; FIELDS],
    everything: Bits,
    /// How many sets of entries may be walked from before the walk gives up.
    limit: usize,
}

/// The walk was given up.
#[derive(Clone, Copy, PartialEq, Eq, Debug)]
pub struct TooMany;

impl Cells {
    /// The lists' cells within a box.
    pub fn new(lists: [&[Entry]; 2], within: &Box6, limit: usize) -> Cells {
        let numbered = || {
            let second = lists[1].iter().enumerate().map(|(i, e)| (SECOND + i, e));
            lists[0].iter().enumerate().chain(second)
        };
        let mut cells = Cells {
            starts: Default::default(),
            holding: Default::default(),
            whole: [[0; WORDS]; FIELDS],
            everything: [0; WORDS],
            limit,
        };
        for (i, _) in numbered() {
            cells.everything = or(&cells.everything, &bit(i));
        }
        for f in 0..FIELDS {
            let mut starts = BTreeSet::from([within.low[f]]);
            starts.extend(header_cuts(f));
            for (_, e) in numbered() {
                starts.insert(e.selector.low[f]);
                if e.selector.high[f] < TOP[f] {
                    starts.insert(e.selector.high[f] + 1);
                }
            }
            starts.retain(|x| within.low[f] <= *x && *x <= within.high[f]);
            cells.starts[f] = starts.into_iter().collect();
            cells.holding[f] = vec![[0; WORDS]; cells.starts[f].len()];
            for (i, e) in numbered() {
                for (c, x) in cells.starts[f].iter().enumerate() {
                    if e.selector.low[f] <= *x && *x <= e.selector.high[f] {
                        cells.holding[f][c] = or(&cells.holding[f][c], &bit(i));
                    }
                }
            }
        }
        let mut whole = cells.everything;
        for f in (0..FIELDS).rev() {
            for holding in &cells.holding[f] {
                whole = and(&whole, holding);
            }
            cells.whole[f] = whole;
        }
        cells
    }

    /// Calls `visit` with headers in rising order and their first matches in the two lists, until it
    /// answers true. Every combination is visited first at its least header.
    pub fn walk(
        &self,
        visit: &mut dyn FnMut(&Header, Option<usize>, Option<usize>) -> bool,
    ) -> Result<(), TooMany> {
        let mut seen: [HashSet<Walked>; FIELDS] = Default::default();
        let start = (self.everything, false);
        self.walk_from(0, start, &mut [0; FIELDS], &mut seen, visit).map(|_| ())
    }

    fn walk_from(
        &self,
        f: usize,
        (mut alive, has_port): Walked,
        header: &mut Header,
        seen: &mut [HashSet<Walked>; FIELDS],
        visit: &mut dyn FnMut(&Header, Option<usize>, Option<usize>) -> bool,
    ) -> Result<bool, TooMany> {
        if f == FIELDS {
            return Ok(visit(header, first(&alive, 0, WORDS / 2), first(&alive, WORDS / 2, WORDS)));
        }
        let whole = and(&alive, &self.whole[f]);
        for (from, to) in [(0, WORDS / 2), (WORDS / 2, WORDS)] {
            if let Some(i) = first(&whole, from, to) {
                cut_after(&mut alive, from, to, i);
            }
        }
        if !seen[f].insert((alive, has_port)) {
            return Ok(false);
        }
        if seen[f].len() > self.limit {
            return Err(TooMany);
        }
        let mut before = None;
        for (start, holding) in self.starts[f].iter().zip(&self.holding[f]) {
            let is_port = f == LOCAL_PORT || f == REMOTE_PORT;
            if f == PROTOCOL && has_port && !WITH_PORTS.contains(start) {
                continue;
            }
            let next = (and(&alive, holding), has_port || (is_port && *start > 0));
            // Neighbouring cells that nothing left tells apart.
            if before == Some(next) {
                continue;
            }
            before = Some(next);
            header[f] = *start;
            if self.walk_from(f + 1, next, header, seen, visit)? {
                return Ok(true);
            }
        }
        Ok(false)
    }
}

/// The least header that the list leaves uncaught.
pub fn gap(list: &[Entry], limit: usize) -> Result<Option<Header>, TooMany> {
    let mut found = None;
    Cells::new([list, &[]], &crate::entry::ALL, limit).walk(&mut |header, i, _| {
        if i.is_none() {
            found = Some(*header);
        }
        found.is_some()
    })?;
    Ok(found)
}

/// The least header that the first list allows an action that the second doesn't.
pub fn unrefined(
    first: &[Entry],
    second: &[Entry],
    limit: usize,
) -> Result<Option<Header>, TooMany> {
    let mut found = None;
    Cells::new([first, second], &crate::entry::ALL, limit).walk(&mut |header, i, j| {
        let set = |list: &[Entry], i: Option<usize>| i.map_or(0, |i| list[i].actions);
        if set(first, i) & !set(second, j) != 0 {
            found = Some(*header);
        }
        found.is_some()
    })?;
    Ok(found)
}

/// What is left of a list when, from last to first, each entry is struck without which every header is
/// allowed the same.
fn struck(mut list: List, limit: usize) -> Result<List, TooMany> {
    for k in (0..list.len()).rev() {
        let mut without = list.clone();
        without.remove(k);
        let mut needed = false;
        let selector = list[k].selector;
        Cells::new([&list, &without], &selector, limit).walk(&mut |_, i, j| {
            needed = i.map(|i| list[i].actions) != j.map(|j| without[j].actions);
            needed
        })?;
        if !needed {
            list = without;
        }
    }
    Ok(list)
}

/// Merging of covering lists: the first matches that occur together are the pairs that are kept.
pub fn merge(lists: &[List], limit: usize) -> Result<Merged, TooMany> {
    let everything = Entry { selector: crate::entry::ALL, actions: 0xffff };
    let mut working = vec![(everything, [0; FIELDS])];
    for next in lists {
        let list: List = working.iter().map(|(e, _)| *e).collect();
        let mut pairs = std::collections::BTreeMap::new();
        Cells::new([&list, next], &crate::entry::ALL, limit).walk(&mut |header, i, j| {
            if let (Some(i), Some(j)) = (i, j) {
                pairs.entry((i, j)).or_insert(*header);
            }
            pairs.len() > 256
        })?;
        if pairs.len() > 256 {
            return Ok(Merged::Crowded);
        }
        working = pairs
            .into_iter()
            .map(|((i, j), header)| {
                let entry = Entry {
                    selector: common_part(&list[i].selector, &next[j].selector),
                    actions: list[i].actions & next[j].actions,
                };
                (entry, header)
            })
            .collect();
    }
    if let Some(header) = working.iter().filter(|(e, _)| e.actions == 0).map(|(_, h)| *h).min() {
        return Ok(Merged::Conflict(header));
    }
    let list = working.into_iter().map(|(e, _)| e).collect();
    Ok(Merged::List(struck(list, limit)?))
}

/// Installing of covering lists, by a ranking of all actions.
pub fn install(lists: &[List], ranking: &[u8], limit: usize) -> Result<Merged, TooMany> {
    let mut list = match merge(lists, limit)? {
        Merged::List(list) => list,
        refused => return Ok(refused),
    };
    list.iter_mut().for_each(|e| e.actions = best_of(e.actions, ranking));
    Ok(Merged::List(struck(list, limit)?))
}
