//! The product's search in Rust, for measuring: the least header of a box that no record holds, by
//! cutting at the low corner. Each box is trimmed first, so that its low corner is a header. `Packed`
//! works on the file's bytes as the product does; `Decoded` is the fastest version we know of, over
//! decoded selectors, which keeps for each box only the records that meet it.

use crate::entry::{Box6, Entry, Header, List, ALL, FIELDS, IN, OUT, RECORD};
use crate::entry::{DIRECTION, LOCAL_PORT, PROTOCOL, REMOTE_PORT, WITH_PORTS};
use std::ops::Range;

/// How much more a record counts in the pick for each field in which it reaches the box's end: such
/// a field leaves no piece.
const REACHES: f64 = 16.0;

/// Part of a list: which of the two lists, and which of its entries.
pub type Part = (usize, Range<usize>);

/// Two lists that can be searched.
pub trait Lists {
    fn count(&self, list: usize) -> usize;
    fn selector(&self, list: usize, i: usize) -> Box6;
    fn actions(&self, list: usize, i: usize) -> u16;

    /// Whether one of the first `n` entries of the first list matches `h`.
    fn matches(&self, n: usize, h: &Header) -> bool;

    /// The lesser of `best` and the least header of `x` that no entry of the parts `a` and `b`
    /// matches. `boxes` counts the boxes visited.
    fn least_open(
        &self,
        a: Part,
        b: Part,
        x: &Box6,
        best: Option<Header>,
        boxes: &mut u64,
    ) -> Option<Header>;
}

pub fn is_proper(x: &Box6) -> bool {
    (0..FIELDS).all(|f| x.low[f] <= x.high[f]) && x.high[DIRECTION] <= OUT
}

pub fn common_part(a: &Box6, b: &Box6) -> Box6 {
    let mut r = *a;
    for f in 0..FIELDS {
        r.low[f] = a.low[f].max(b.low[f]);
        r.high[f] = a.high[f].min(b.high[f]);
    }
    r
}

/// The least protocol with ports from `p` on.
fn next_with_ports(p: u32) -> Option<u32> {
    WITH_PORTS.into_iter().find(|q| p <= *q)
}

/// The greatest protocol with ports up to `p`.
fn last_with_ports(p: u32) -> Option<u32> {
    WITH_PORTS.into_iter().rfind(|q| *q <= p)
}

/// A proper box with the same headers, whose low corner is one of them; none if there is no header.
pub fn trimmed(x: &Box6) -> Option<Box6> {
    let mut r = *x;
    let has_port = x.low[LOCAL_PORT] > 0 || x.low[REMOTE_PORT] > 0;
    let end = x.high[PROTOCOL];
    match next_with_ports(x.low[PROTOCOL]).filter(|first| *first <= end) {
        Some(first) if has_port => {
            r.low[PROTOCOL] = first;
            r.high[PROTOCOL] = last_with_ports(end)?;
        }
        Some(_) => {}
        None if has_port => return None,
        None => (r.high[LOCAL_PORT], r.high[REMOTE_PORT]) = (0, 0),
    }
    Some(r)
}

/// The fields in which a record ends inside the box, those first whose cut the fewest records cross.
fn cut_order(x: &Box6, high: &Header, crossing: &[u32; FIELDS]) -> ([usize; FIELDS], usize) {
    let mut order = [0; FIELDS];
    let mut n = 0;
    for f in (0..FIELDS).rev() {
        if high[f] < x.high[f] {
            let mut at = n;
            while at > 0 && crossing[order[at - 1]] > crossing[f] {
                order[at] = order[at - 1];
                at -= 1;
            }
            order[at] = f;
            n += 1;
        }
    }
    (order, n)
}

// ---------------------------------------------------------------- over the file's bytes

/// Bytes of a record in a file of version 1.
pub const SHORT: usize = RECORD - 2;

/// Two slices of 30-byte records.
pub struct Packed<'a> {
    pub lists: [&'a [u8]; 2],
}

type Record = [u8; RECORD];

/// The records of a slice.
fn records<const N: usize>(bytes: &[u8]) -> &[[u8; N]] {
    bytes.as_chunks().0
}

#[inline(always)]
fn number4<const N: usize>(r: &[u8; N], at: usize) -> u32 {
    u32::from_be_bytes([r[at], r[at + 1], r[at + 2], r[at + 3]])
}

#[inline(always)]
fn number2<const N: usize>(r: &[u8; N], at: usize) -> u32 {
    u16::from_be_bytes([r[at], r[at + 1]]) as u32
}

/// A field's range, in a record of either version. With a constant field, no more than two loads are
/// left of it.
#[inline(always)]
fn range<const N: usize>(r: &[u8; N], f: usize) -> (u32, u32) {
    match f {
        0 => (number4(r, 0), number4(r, 4)),
        1 => (number4(r, 8), number4(r, 12)),
        2 => (number2(r, 16), number2(r, 18)),
        3 => (number2(r, 20), number2(r, 22)),
        4 => (r[24] as u32, r[25] as u32),
        _ if N == SHORT => (IN, OUT),
        _ => (r[26] as u32, r[27] as u32),
    }
}

fn actions<const N: usize>(r: &[u8; N]) -> u16 {
    number2(r, N - 2) as u16
}

#[inline(always)]
fn holds<const N: usize>(r: &[u8; N], f: usize, x: u32) -> bool {
    let (low, high) = range(r, f);
    low <= x && x <= high
}

/// Whether a record holds all six numbers, reading no more of it than needed.
#[inline(always)]
fn holds_all<const N: usize>(r: &[u8; N], x: &Header) -> bool {
    holds(r, 0, x[0])
        && holds(r, 1, x[1])
        && holds(r, 2, x[2])
        && holds(r, 3, x[3])
        && holds(r, 4, x[4])
        && holds(r, 5, x[5])
}

#[inline(always)]
fn is_ordered<const N: usize>(r: &[u8; N], f: usize) -> bool {
    let (low, high) = range(r, f);
    low <= high
}

/// Whether no record has a crossed range, or a direction above 1.
pub fn are_proper<const N: usize>(bytes: &[u8]) -> bool {
    records::<N>(bytes).iter().all(|r| {
        is_ordered(r, 0)
            && is_ordered(r, 1)
            && is_ordered(r, 2)
            && is_ordered(r, 3)
            && is_ordered(r, 4)
            && is_ordered(r, 5)
            && range(r, DIRECTION).1 <= OUT
    })
}

/// Records of version 1 as version 2 has them.
pub fn lengthened(bytes: &[u8]) -> Vec<u8> {
    let with_directions = |r: &[u8; SHORT]| {
        let mut long = [0; RECORD];
        long[..SHORT - 2].copy_from_slice(&r[..SHORT - 2]);
        long[SHORT - 2..SHORT].copy_from_slice(&[IN as u8, OUT as u8]);
        long[SHORT..].copy_from_slice(&r[SHORT - 2..]);
        long
    };
    records(bytes).iter().flat_map(with_directions).collect()
}

/// How much a field counts in the pick.
#[inline(always)]
fn width(r: &Record, f: usize, x: &Box6) -> f64 {
    let end = range(r, f).1;
    if end < x.high[f] {
        (end - x.low[f]) as f64 + 1.0
    } else {
        ((x.high[f] - x.low[f]) as f64 + 1.0) * REACHES
    }
}

/// The size for the pick of a record that holds the low corner.
#[inline(always)]
fn size(r: &Record, x: &Box6) -> f64 {
    let addresses = width(r, 0, x) * width(r, 1, x);
    addresses * width(r, 2, x) * width(r, 3, x) * width(r, 4, x) * width(r, 5, x)
}

/// The size of a record that covers half of `x` in one field and all of it in the others: a heavier
/// one need not be looked for.
fn enough(x: &Box6) -> f64 {
    let full = (0..FIELDS).map(|f| ((x.high[f] - x.low[f]) as f64 + 1.0) * REACHES);
    full.product::<f64>() / (REACHES * 2.0)
}

/// Whether a record that holds the low corner of `x` holds all of it.
#[inline(always)]
fn reaches(r: &Record, x: &Box6) -> bool {
    (0..FIELDS).all(|f| x.high[f] <= range(r, f).1)
}

/// How many records there are up to the last that holds the low corner.
fn up_to_last(list: &[Record], x: &Box6) -> usize {
    list.iter().rposition(|r| holds_all(r, &x.low)).map_or(0, |i| i + 1)
}

/// Where the largest record that holds the low corner of `x` ends in it. Most boxes are covered by
/// the last such record of a list, or held by it alone: no size is reckoned before that is known.
fn pick(lists: [&[Record]; 2], x: &Box6) -> Option<Header> {
    let firsts = lists.map(|list| &list[..up_to_last(list, x)]);
    for list in firsts {
        if list.last().is_some_and(|r| reaches(r, x)) {
            return Some(x.high);
        }
    }
    let alone = firsts.iter().any(|list| list.is_empty());
    let mut best = None;
    let mut largest = 0.0;
    'lists: for list in firsts {
        let Some((last, others)) = list.split_last() else { continue };
        let others = &others[..up_to_last(others, x)];
        if alone && others.is_empty() {
            best = Some(last);
            break;
        }
        let enough = enough(x);
        let size_of_last = size(last, x);
        if size_of_last > largest {
            largest = size_of_last;
            best = Some(last);
        }
        if largest >= enough {
            break;
        }
        for r in others.iter().rev() {
            if holds_all(r, &x.low) {
                let size = size(r, x);
                if size > largest {
                    largest = size;
                    best = Some(r);
                }
                if size >= enough {
                    break 'lists;
                }
            }
        }
    }
    best.map(|r| std::array::from_fn(|f| range(r, f).1.min(x.high[f])))
}

#[inline(always)]
fn overlaps(r: &Record, f: usize, x: &Box6) -> bool {
    let (low, high) = range(r, f);
    low <= x.high[f] && x.low[f] <= high
}

#[inline(always)]
fn crosses(r: &Record, f: usize, end: &Header) -> u32 {
    let (low, high) = range(r, f);
    (low <= end[f] && end[f] < high) as u32
}

/// For each field, how many records that meet `x` cross the cut.
fn crossing(lists: [&[Record]; 2], x: &Box6, end: &Header) -> [u32; FIELDS] {
    let mut counts = [0; FIELDS];
    for list in lists {
        for r in list {
            let meets = overlaps(r, 0, x)
                && overlaps(r, 1, x)
                && overlaps(r, 2, x)
                && overlaps(r, 3, x)
                && overlaps(r, 4, x)
                && overlaps(r, 5, x);
            if meets {
                counts[0] += crosses(r, 0, end);
                counts[1] += crosses(r, 1, end);
                counts[2] += crosses(r, 2, end);
                counts[3] += crosses(r, 3, end);
                counts[4] += crosses(r, 4, end);
                counts[5] += crosses(r, 5, end);
            }
        }
    }
    counts
}

fn least_packed(
    records: [&[Record]; 2],
    x: &Box6,
    best: Option<Header>,
    boxes: &mut u64,
) -> Option<Header> {
    *boxes += 1;
    let Some(x) = &trimmed(x) else {
        return best;
    };
    if best.is_some_and(|h| h <= x.low) {
        return best;
    }
    let Some(end) = pick(records, x) else {
        return Some(x.low);
    };
    let cuts = (0..FIELDS).filter(|f| end[*f] < x.high[*f]).count();
    let counts = if cuts < 2 { [0; FIELDS] } else { crossing(records, x, &end) };
    let (order, n) = cut_order(x, &end, &counts);
    let mut found = best;
    let mut rest = *x;
    for &f in &order[..n] {
        let mut piece = rest;
        piece.low[f] = end[f] + 1;
        rest.high[f] = end[f];
        found = least_packed(records, &piece, found, boxes);
    }
    found
}

impl<'a> Packed<'a> {
    fn record(&self, list: usize, i: usize) -> &'a Record {
        &records(self.lists[list])[i]
    }

    fn part(&self, part: Part) -> &'a [Record] {
        &records(self.lists[part.0])[part.1]
    }
}

impl Lists for Packed<'_> {
    fn count(&self, list: usize) -> usize {
        self.lists[list].len() / RECORD
    }

    fn selector(&self, list: usize, i: usize) -> Box6 {
        selector_of(self.record(list, i))
    }

    fn actions(&self, list: usize, i: usize) -> u16 {
        actions(self.record(list, i))
    }

    fn matches(&self, n: usize, h: &Header) -> bool {
        self.part((0, 0..n)).iter().any(|r| holds_all(r, h))
    }

    fn least_open(
        &self,
        a: Part,
        b: Part,
        x: &Box6,
        best: Option<Header>,
        boxes: &mut u64,
    ) -> Option<Header> {
        if !is_proper(x) {
            return best;
        }
        least_packed([self.part(a), self.part(b)], x, best, boxes)
    }
}

/// The selector of a record.
/// Each field by itself: the compiler makes a loop of six, and asks in it which field it is at.
#[inline(always)]
fn selector_of(r: &Record) -> Box6 {
    let ranges: [(u32, u32); FIELDS] =
        [range(r, 0), range(r, 1), range(r, 2), range(r, 3), range(r, 4), range(r, 5)];
    Box6 { low: ranges.map(|(low, _)| low), high: ranges.map(|(_, high)| high) }
}

// ---------------------------------------------------------------- over decoded selectors

/// Two lists of entries.
pub struct Decoded<'a> {
    pub lists: [&'a [Entry]; 2],
}

/// The entries of records.
pub fn decode(bytes: &[u8]) -> List {
    let entry = |r: &Record| Entry { selector: selector_of(r), actions: actions(r) };
    records(bytes).iter().map(entry).collect()
}

/// What the records say about the low corner of a box.
#[derive(Clone, Copy)]
enum Corner {
    /// One covers the box.
    Covered,
    /// None holds the corner.
    Open,
    /// The largest that holds the corner, of this size, ends here in the box.
    Held(Header, f64),
}

/// What more records say.
#[inline(always)]
fn corner<'r>(before: Corner, records: impl Iterator<Item = &'r Box6>, x: &Box6) -> Corner {
    let mut best = before;
    for r in records {
        if contains(r, &x.low) {
            let mut end = x.high;
            let mut size = 1.0;
            for f in 0..FIELDS {
                if r.high[f] < x.high[f] {
                    end[f] = r.high[f];
                    size *= (end[f] - x.low[f]) as f64 + 1.0;
                } else {
                    size *= ((end[f] - x.low[f]) as f64 + 1.0) * REACHES;
                }
            }
            match best {
                _ if end == x.high => return Corner::Covered,
                Corner::Held(_, largest) if size <= largest => {}
                _ => best = Corner::Held(end, size),
            }
        }
    }
    best
}

fn contains(r: &Box6, h: &Header) -> bool {
    (0..FIELDS).all(|f| r.low[f] <= h[f] && h[f] <= r.high[f])
}

fn meets(r: &Box6, x: &Box6) -> bool {
    (0..FIELDS).all(|f| r.low[f] <= x.high[f] && x.low[f] <= r.high[f])
}

/// Searches the pieces that a record which ends at `end` leaves of `x`. The records from `from` on
/// are those that meet `x`.
fn least_in_pieces(
    records: &mut Vec<Box6>,
    from: usize,
    x: &Box6,
    end: &Header,
    best: Option<Header>,
    boxes: &mut u64,
) -> Option<Header> {
    let mut counts = [0; FIELDS];
    for r in &records[from..] {
        for f in 0..FIELDS {
            counts[f] += (r.low[f] <= end[f] && end[f] < r.high[f]) as u32;
        }
    }
    let (order, n) = cut_order(x, end, &counts);
    let to = records.len();
    let mut found = best;
    let mut rest = *x;
    for &f in &order[..n] {
        let mut piece = rest;
        piece.low[f] = end[f] + 1;
        rest.high[f] = end[f];
        *boxes += 1;
        let Some(piece) = trimmed(&piece) else { continue };
        if found.is_some_and(|h| h <= piece.low) {
            continue;
        }
        match corner(Corner::Open, records[from..to].iter(), &piece) {
            Corner::Covered => {}
            Corner::Open => found = Some(piece.low),
            Corner::Held(end, _) => {
                for i in from..to {
                    if meets(&records[i], &piece) {
                        records.push(records[i]);
                    }
                }
                found = least_in_pieces(records, to, &piece, &end, found, boxes);
                records.truncate(to);
            }
        }
    }
    found
}

impl Lists for Decoded<'_> {
    fn count(&self, list: usize) -> usize {
        self.lists[list].len()
    }

    fn selector(&self, list: usize, i: usize) -> Box6 {
        self.lists[list][i].selector
    }

    fn actions(&self, list: usize, i: usize) -> u16 {
        self.lists[list][i].actions
    }

    fn matches(&self, n: usize, h: &Header) -> bool {
        self.lists[0][..n].iter().any(|e| contains(&e.selector, h))
    }

    fn least_open(
        &self,
        a: Part,
        b: Part,
        x: &Box6,
        best: Option<Header>,
        boxes: &mut u64,
    ) -> Option<Header> {
        if !is_proper(x) {
            return best;
        }
        let Some(x) = &trimmed(x) else { return best };
        if best.is_some_and(|h| h <= x.low) {
            return best;
        }
        *boxes += 1;
        let (a, b) = (&self.lists[a.0][a.1], &self.lists[b.0][b.1]);
        let mut at = corner(Corner::Open, a.iter().map(|e| &e.selector), x);
        if !matches!(at, Corner::Covered) {
            at = corner(at, b.iter().map(|e| &e.selector), x);
        }
        match at {
            Corner::Covered => best,
            Corner::Open => Some(x.low),
            Corner::Held(end, _) => {
                let meeting = a.iter().chain(b).map(|e| e.selector).filter(|r| meets(r, x));
                let mut records: Vec<Box6> = meeting.collect();
                least_in_pieces(&mut records, 0, x, &end, best, boxes)
            }
        }
    }
}

// ---------------------------------------------------------------- what is asked of lists

const NONE: Part = (0, 0..0);

/// As many entries at a list's end are searched by themselves first, where it has more.
pub const LAST: usize = 32;

/// The least header of `x` that none of the first `n` entries of the first list matches. If the last
/// few of them leave nothing, or a header that no entry matches, the others need no search.
pub fn missed_by_first(
    lists: &impl Lists,
    n: usize,
    x: &Box6,
    last: usize,
    boxes: &mut u64,
) -> Option<Header> {
    if n > LAST {
        match lists.least_open((0, n - last..n), NONE, x, None, boxes) {
            Some(h) if lists.matches(n, &h) => {}
            settled => return settled,
        }
    }
    lists.least_open((0, 0..n), NONE, x, None, boxes)
}

/// The least header that the first list leaves uncaught.
pub fn gap(lists: &impl Lists, boxes: &mut u64) -> Option<Header> {
    lists.least_open((0, 0..lists.count(0)), NONE, &ALL, None, boxes)
}

/// The least header of `x` that entry `i` of the first list catches, or `best`.
pub fn caught_by(
    lists: &impl Lists,
    i: usize,
    x: &Box6,
    best: Option<Header>,
    boxes: &mut u64,
) -> Option<Header> {
    if i >= lists.count(0) {
        return best;
    }
    let within = common_part(x, &lists.selector(0, i));
    lists.least_open((0, 0..i), NONE, &within, best, boxes)
}

/// The least header of `x` that the first list allows another set than `set`.
pub fn differing(lists: &impl Lists, x: &Box6, set: u16, boxes: &mut u64) -> Option<Header> {
    let n = lists.count(0);
    let mut best = lists.least_open((0, 0..n), NONE, x, None, boxes);
    for i in 0..n {
        if lists.actions(0, i) != set {
            best = caught_by(lists, i, x, best, boxes);
        }
    }
    best
}

/// The lesser of `best` and the least header that entry `i` of the first list catches and that the
/// second list allows a set without some action of the entry's. Both lists cover.
/// After 4, 8, 16, .. searches that found nothing it is asked whether anything is left to be found.
fn unrefined_by(
    lists: &impl Lists,
    i: usize,
    best: Option<Header>,
    boxes: &mut u64,
) -> Option<Header> {
    let (selector, set) = (lists.selector(0, i), lists.actions(0, i));
    if lists.least_open((0, 0..i), NONE, &selector, best, boxes) == best {
        return best;
    }
    let mut found = best;
    let mut futile = 0u32;
    for j in 0..lists.count(1) {
        let within = common_part(&selector, &lists.selector(1, j));
        if set & !lists.actions(1, j) == 0 || !is_proper(&within) {
            continue;
        }
        let next = lists.least_open((0, 0..i), (1, 0..j), &within, found, boxes);
        if next != found {
            found = next;
            continue;
        }
        futile += 1;
        if futile >= 4
            && futile.is_power_of_two()
            && lists.least_open((0, 0..i), (1, 0..j + 1), &selector, found, boxes) == found
        {
            return found;
        }
    }
    found
}

/// The least header that the first list allows an action that the second doesn't. Both cover.
pub fn unrefined(lists: &impl Lists, boxes: &mut u64) -> Option<Header> {
    (0..lists.count(0)).fold(None, |best, i| unrefined_by(lists, i, best, boxes))
}

/// The number of the first record that matches, of records of N bytes.
pub fn lookup_packed<const N: usize>(bytes: &[u8], h: &Header) -> Option<usize> {
    records::<N>(bytes).iter().position(|r| holds_all(r, h))
}
