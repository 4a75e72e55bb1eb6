//! Looks for mergings that take many boxes, by hill climbing from families of lists, and writes each
//! as an input of the program: climb FOLDER SECONDS. The seconds are for each family.

use outside::baseline::merge_input;
use outside::entry::{file, Entry, List, FIELDS, TOP};
use outside::generate::{family, Closing, Shape};
use outside::merge::Form;
use outside::model::LONGEST_FILE;
use outside::random::Random;
use outside::search::{gap, Packed};
use std::time::{Duration, Instant};

/// Name, parties, shape and closing of the lists that the climb starts from.
const FROM: [(&str, u8, Shape, Closing); 5] = [
    ("staircases", 8, Shape::Staircase, Closing::All),
    ("staircases-halves", 8, Shape::Staircase, Closing::Halves),
    ("nested", 8, Shape::Nested, Closing::All),
    ("planes", 2, Shape::Plane, Closing::All),
    ("partitions-halves", 2, Shape::Partition, Closing::Halves),
];

fn input(lists: &[List]) -> Vec<u8> {
    let filing = |(party, list): (usize, &List)| [vec![party as u8 + 1], file(list)].concat();
    lists.iter().enumerate().flat_map(filing).collect()
}

fn boxes(lists: &[List]) -> u64 {
    let mut boxes = 0;
    merge_input(&input(lists), &mut [0; LONGEST_FILE], Form::Packed, &mut boxes);
    boxes
}

fn covers(list: &[Entry]) -> bool {
    gap(&Packed { lists: [&file(list)[5..], &[]] }, &mut 0).is_none()
}

/// An end of some range of the lists in a field, or a number beside it.
fn some_end(lists: &[List], f: usize, random: &mut Random) -> u32 {
    let list: &List = random.pick(lists);
    let entry = random.pick(list);
    let (low, high) = (entry.selector.low[f], entry.selector.high[f]);
    match random.below(6) {
        0 => low,
        1 => low.saturating_sub(1),
        2 => high,
        3 => high.saturating_add(1).min(TOP[f]),
        4 => 0,
        _ => TOP[f],
    }
}

/// One list changed in one place; none if it no longer covers.
fn changed(lists: &[List], random: &mut Random) -> Option<Vec<List>> {
    let mut next = lists.to_vec();
    let party = random.below(lists.len() as u64) as usize;
    let list = &mut next[party];
    let (i, j) =
        (random.below(list.len() as u64) as usize, random.below(list.len() as u64) as usize);
    match random.below(4) {
        0 => list.swap(i, j),
        1 => {
            let other: &List = random.pick(lists);
            list[i].selector = random.pick(other).selector;
        }
        _ => {
            let f = random.below(FIELDS as u64) as usize;
            let (a, b) = (some_end(lists, f, random), some_end(lists, f, random));
            list[i].selector.low[f] = a.min(b);
            list[i].selector.high[f] = a.max(b);
        }
    }
    covers(list).then_some(next)
}

fn start(parties: u8, shape: Shape, closing: Closing, random: &mut Random) -> Vec<List> {
    let mut list = || -> List {
        let mut list = family(shape, closing, 32, random);
        list.iter_mut().for_each(|e| e.actions |= 0x8000);
        list
    };
    (0..parties).map(|_| list()).collect()
}

fn main() {
    let words: Vec<String> = std::env::args().collect();
    let [_, folder, seconds] = &words[..] else { panic!("climb FOLDER SECONDS") };
    let limit = Duration::from_secs(seconds.parse().expect("seconds"));
    for (name, parties, shape, closing) in FROM {
        let mut random = Random::new(500);
        let mut best = start(parties, shape, closing, &mut random);
        let mut most = boxes(&best);
        let (first, begin, mut tried) = (most, Instant::now(), 0u64);
        while begin.elapsed() < limit {
            tried += 1;
            if let Some(next) = changed(&best, &mut random) {
                let count = boxes(&next);
                if count >= most {
                    (best, most) = (next, count);
                }
            }
        }
        let path = format!("{folder}/{name}.bytes");
        std::fs::write(&path, input(&best)).unwrap_or_else(|e| panic!("{path}: {e}"));
        println!("{name}: {first} boxes at first, {most} after {tried} changes");
    }
}
