//! Rules 1 to 4 of Merging, installing, and whose entries clash, taken word by word, by walking a small
//! header space point by point.
//! A small list's ranges are made of four parts of each field, and of the two directions. So one number of
//! each part tells all headers apart that such lists can tell apart; of protocols, one with ports and one
//! without.

use crate::entry::{is_header, Box6, Entry, Header, List, FIELDS, TOP};
use crate::model::{allowed, catching, is_crossed, Filed, Named, Refusal};

/// Where the parts of each field start. The first protocols have no ports, 6 has, and the last two
/// parts have protocols of both kinds.
pub const STARTS: [&[u32]; FIELDS] =
    [&[0, 1, 2, 3], &[0, 1, 2, 3], &[0, 1, 2, 3], &[0, 1, 2, 3], &[0, 6, 7, 132], &[0, 1]];

/// The least number of each part; of protocols, the least of each kind.
const NUMBERS: [&[u32]; FIELDS] =
    [&[0, 1, 2, 3], &[0, 1, 2, 3], &[0, 1, 2, 3], &[0, 1, 2, 3], &[0, 6, 7, 17, 132, 133], &[0, 1]];

/// The last number of a part.
pub fn end(f: usize, part: usize) -> u32 {
    STARTS[f].get(part + 1).map_or(TOP[f], |next| next - 1)
}

fn part_of(f: usize, x: u32) -> usize {
    STARTS[f].iter().rposition(|start| *start <= x).expect("the first part starts at 0")
}

/// The box with the whole of each part in which a range starts or ends.
pub fn small_box(b: &Box6) -> Box6 {
    Box6 {
        low: std::array::from_fn(|f| STARTS[f][part_of(f, b.low[f])]),
        high: std::array::from_fn(|f| end(f, part_of(f, b.high[f]))),
    }
}

pub fn is_small(list: &[Entry]) -> bool {
    list.iter().all(|e| e.selector == small_box(&e.selector))
}

/// All combinations of the small space, rising.
pub fn combinations() -> Vec<Header> {
    let mut all = vec![[0; FIELDS]];
    for f in 0..FIELDS {
        let with = |h: Header, x: u32| {
            let mut longer = h;
            longer[f] = x;
            longer
        };
        all = all.iter().flat_map(|h| NUMBERS[f].iter().map(move |x| with(*h, *x))).collect();
    }
    all
}

/// All headers of the small space, rising.
pub fn points() -> Vec<Header> {
    combinations().into_iter().filter(is_header).collect()
}

pub fn least_uncaught(list: &[Entry], points: &[Header]) -> Option<Header> {
    points.iter().copied().find(|h| catching(list, h).is_none())
}

fn drop_idle(list: List, points: &[Header]) -> List {
    let list: List = list.into_iter().filter(|e| !is_crossed(&e.selector)).collect();
    let mut catches = vec![false; list.len()];
    for h in points {
        if let Some(k) = catching(&list, h) {
            catches[k] = true;
        }
    }
    (0..list.len()).filter(|k| catches[*k]).map(|k| list[k]).collect()
}

fn cross(p: &[Entry], q: &[Entry]) -> List {
    let mut pairs = vec![];
    for d in p {
        for e in q {
            let mut pair = *d;
            for f in 0..FIELDS {
                pair.selector.low[f] = d.selector.low[f].max(e.selector.low[f]);
                pair.selector.high[f] = d.selector.high[f].min(e.selector.high[f]);
            }
            pair.actions = d.actions & e.actions;
            pairs.push(pair);
        }
    }
    pairs
}

/// The actions that all lists allow a header; they are covering.
pub fn common_actions(filed: &[Filed], h: &Header) -> u16 {
    let sets = filed.iter().map(|(_, list)| allowed(list, h).unwrap());
    sets.fold(0xffff, |common, set| common & set)
}

/// The number of the entry that matches a point while none before it does. The model's first match is
/// not asked.
pub fn catcher(list: &[Entry], h: &Header) -> Option<usize> {
    let is_in = |s: &Box6| (0..FIELDS).all(|f| (s.low[f]..=s.high[f]).contains(&h[f]));
    let mut number = None;
    for (i, e) in list.iter().enumerate().rev() {
        if is_in(&e.selector) {
            number = Some(i);
        }
    }
    number
}

/// The entry that catches a point in the list of each party that has one, party by party.
fn catchers(filed: &[Filed], h: &Header) -> Vec<Named> {
    let of_party = |party: u8| filed.iter().find(|(filing, _)| *filing == party);
    (1..=8).filter_map(|party| Some((party, catcher(of_party(party)?.1, h)?))).collect()
}

/// Whether a list without its entry `k` allows every header the same.
pub fn is_needless(list: &[Entry], k: usize, points: &[Header]) -> bool {
    let mut without = list.to_vec();
    without.remove(k);
    points.iter().all(|h| allowed(list, h) == allowed(&without, h))
}

/// What is left of a list by rule 4.
pub fn struck(mut list: List, points: &[Header]) -> List {
    for k in (0..list.len()).rev() {
        if is_needless(&list, k, points) {
            list.remove(k);
        }
    }
    list
}

/// What merging the lists gives; they are covering.
pub fn merged(filed: &[Filed], points: &[Header]) -> Result<List, Refusal> {
    let ((_, first), others) = filed.split_first().ok_or(Refusal::Bare)?;
    let mut working = drop_idle(first.to_vec(), points);
    for (_, next) in others {
        working = drop_idle(cross(&working, next), points);
        if working.len() > 256 {
            return Err(Refusal::Crowded);
        }
    }
    if working.iter().any(|e| e.actions == 0) {
        let header = points.iter().copied().find(|h| common_actions(filed, h) == 0);
        let header = header.expect("an entry without actions catches a header");
        return Err(Refusal::Conflict(header, catchers(filed, &header)));
    }
    Ok(struck(working, points))
}

// ---------------------------------------------------------------- installing

/// Whether the bytes are the actions' numbers, 0 to 15, once each.
fn is_ranking(bytes: &[u8]) -> bool {
    let times = |number: u8| bytes.iter().filter(|b| **b == number).count();
    bytes.len() == 16 && (0..16).all(|number| times(number) == 1)
}

/// The action of a set that has the foremost place in a ranking, alone.
pub fn foremost(set: u16, ranking: &[u8]) -> u16 {
    let place = |action: &u8| ranking.iter().position(|ranked| ranked == action);
    let actions = (0..16).filter(|action| set >> action & 1 == 1);
    1 << actions.min_by_key(place).expect("an action")
}

/// A list that keeps the foremost action of each entry.
pub fn keeping_foremost(list: &[Entry], ranking: &[u8]) -> List {
    list.iter().map(|e| Entry { actions: foremost(e.actions, ranking), ..*e }).collect()
}

/// What installing gives, where merging the same lists gives `merged`.
pub fn installed(
    merged: Result<List, Refusal>,
    ranking: &[u8],
    points: &[Header],
) -> Result<List, Refusal> {
    if !is_ranking(ranking) {
        return Err(Refusal::Ranking);
    }
    Ok(struck(keeping_foremost(&merged?, ranking), points))
}
