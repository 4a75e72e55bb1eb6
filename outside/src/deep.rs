//! Lists built against the depth of the search, and the calls in which the tests look for the most
//! stack.

use crate::baseline::filed;
use crate::entry::{file, Box6, Entry, ALL, DIRECTION, FIELDS, PROTOCOL, TOP};
use crate::generate::{family, Closing, Shape, CLOSINGS, SHAPES};
use crate::model::LONGEST_FILE;
use crate::product::last_record;
use crate::random::Random;
use crate::search::trimmed;
use crate::stack::Painted;

const LIMIT: usize = 256;

/// More levels than there are.
const MANY: usize = 1000;

// ---------------------------------------------------------------- boxes

/// `n` slabs across field `f`, side by side, that cover all headers. There are too few directions for it.
fn slabs(f: usize, n: usize) -> Vec<Box6> {
    let end = |i: usize| ((TOP[f] as u64 + 1) * i as u64 / n as u64) as u32;
    let slab = |i: usize| {
        let mut b = ALL;
        (b.low[f], b.high[f]) = (end(i), if i + 1 < n { end(i + 1) - 1 } else { TOP[f] });
        b
    };
    (0..n).map(slab).collect()
}

/// Slabs across field `f` that come up to more, or to less, of field `g` from one to the next.
fn ladder(f: usize, g: usize, n: usize, grows: bool) -> Vec<Box6> {
    let mut boxes = slabs(f, n);
    for (i, b) in boxes.iter_mut().enumerate() {
        let step = if grows { i } else { n - 1 - i };
        b.high[g] = (TOP[g] as u64 * (step as u64 + 1) / (n as u64 + 1)) as u32;
    }
    boxes
}

fn length(b: &Box6, f: usize) -> u128 {
    b.high[f] as u128 - b.low[f] as u128 + 1
}

fn volume(b: &Box6) -> u128 {
    (0..FIELDS).map(|f| length(b, f)).product()
}

/// A box in three parts: a row at its low corner, what lies above the row in field `f`, and what lies
/// above it in another field and not in `f`, which is the smaller one, trimmed as the search does it.
struct Cut {
    f: usize,
    row: Box6,
    larger: Box6,
    smaller: Box6,
}

/// Where a cut leaves the most in the smaller part.
#[derive(Clone, Copy)]
enum Leaving {
    /// About half of the box: `f` is cut in the middle and `g` after its first number.
    Half,
    /// About a quarter: both are cut in the middle, and the row has no larger share of `f`. This is
    /// all that can be left where fields are cut in the order of their shares.
    Quarter,
}

/// How many numbers the row has of two fields that have n and m. Of equal shares the field with the
/// greater number is cut first.
fn row_lengths(leaving: Leaving, n: u128, m: u128, is_first: bool) -> (u128, u128) {
    match leaving {
        Leaving::Half => ((n * m / (2 * m - 1)).min(n - 1), 1),
        Leaving::Quarter => {
            let half = m.div_ceil(2);
            ((n * half - !is_first as u128) / m, half)
        }
    }
}

/// All cuts of a box, in its directions only where no others are left: this gives the most levels.
fn cuts(x: &Box6, leaving: Leaving) -> Vec<Cut> {
    let others = cuts_in(DIRECTION, x, leaving);
    if others.is_empty() {
        return cuts_in(FIELDS, x, leaving);
    }
    others
}

/// The cuts in the first so many fields.
fn cuts_in(fields: usize, x: &Box6, leaving: Leaving) -> Vec<Cut> {
    let mut cuts = vec![];
    for f in 0..fields {
        for g in (0..fields).filter(|g| *g != f) {
            let (n, m) = (length(x, f), length(x, g));
            let (in_f, in_g) = row_lengths(leaving, n, m, f > g);
            if in_f == 0 || in_f == n || in_g == m {
                continue;
            }
            let (end_f, end_g) = (x.low[f] + in_f as u32 - 1, x.low[g] + in_g as u32 - 1);
            let (mut row, mut larger, mut smaller) = (*x, *x, *x);
            (row.high[f], row.high[g]) = (end_f, end_g);
            larger.low[f] = end_f + 1;
            (smaller.high[f], smaller.low[g]) = (end_f, end_g + 1);
            if let Some(smaller) = trimmed(&smaller) {
                cuts.push(Cut { f, row, larger, smaller });
            }
        }
    }
    cuts
}

/// All headers in parts, against a search that goes on with the largest part of a box and calls itself
/// for the others: again and again a row and the larger part, and the smaller one is cut on. So many
/// cuts leave half, the others a quarter. Each goes by what the next one leaves; halving alone comes to
/// 102 levels, of at most 105.
fn halver(halving: usize, levels: usize) -> Vec<Box6> {
    let mut x = ALL;
    let mut boxes = vec![];
    for level in 0..levels {
        let leaving = |level| if level < halving { Leaving::Half } else { Leaving::Quarter };
        let next = |cut: &Cut| {
            cuts(&cut.smaller, leaving(level + 1)).iter().map(|c| volume(&c.smaller)).max()
        };
        let best = cuts(&x, leaving(level))
            .into_iter()
            .max_by_key(|cut| (next(cut), volume(&cut.smaller), length(&x, cut.f)));
        let Some(cut) = best else { break };
        boxes.extend([cut.row, cut.larger]);
        x = cut.smaller;
    }
    boxes.push(x);
    boxes
}

/// Boxes against a search that goes on with the part that meets the most rows, after `halved` levels
/// in which it goes on with the largest one. The rows that hold a corner, each longer than the one
/// before in fields 1 and 0 and cut in one of the others, meet both parts of every box before their
/// own; beside each stands one that meets the part in field 0 alone.
fn crowder(halved: u32, levels: usize) -> Vec<Box6> {
    let mut x = ALL;
    let mut boxes = vec![];
    for _ in 0..halved {
        let mut row = x;
        x.high[1] /= 2;
        (row.high[0], row.high[1]) = (x.low[0], x.high[1]);
        boxes.push(row);
        x.low[0] += 1;
    }
    let step = x.high[1] / (levels as u32 + 1);
    let (whole, mut ends) = (x, x.high);
    for i in 0..levels as u32 {
        let (mut row, mut beside) = (whole, whole);
        ends[2 + i as usize % 3] -= 1;
        row.high = ends;
        (row.high[0], row.high[1]) = (TOP[0] / 2 + i, step * (i + 1));
        (beside.low[0], beside.high[1]) = (whole.low[0] + 1, row.high[1]);
        (beside.high[2], beside.high[3], beside.high[4]) = (0, 0, 0);
        boxes.extend([row, beside]);
    }
    for f in 2..DIRECTION {
        let mut b = whole;
        b.low[f] = ends[f] + 1;
        boxes.push(b);
    }
    boxes
}

// ---------------------------------------------------------------- comparisons

/// Two files.
pub type Pair = (Vec<u8>, Vec<u8>);

/// Comparisons that are alike.
pub struct Family {
    pub name: &'static str,
    pub pairs: Vec<Pair>,
}

/// The boxes as a list's file: the set of all entries but the last, and the set of the last.
fn with_sets(boxes: &[Box6], others: u16, last: u16) -> Vec<u8> {
    let entry = |(i, b): (usize, &Box6)| {
        let actions = if i + 1 < boxes.len() { others } else { last };
        Entry { selector: *b, actions }
    };
    file(&boxes.iter().enumerate().map(entry).collect::<Vec<Entry>>())
}

/// Two lists of which only the last entries differ in what they allow: all the others stand before
/// what is searched.
fn last_apart(first: &[Box6], second: &[Box6]) -> Pair {
    (with_sets(first, 0, 1), with_sets(second, 1, 0))
}

/// The same boxes, agreeing; the last entry of the second apart from all of the first; only the last
/// ones apart.
fn three_ways(first: &[Box6], second: &[Box6]) -> [Pair; 3] {
    let (agreeing, apart) = (with_sets(second, 1, 1), with_sets(second, 1, 0));
    let all = with_sets(first, 1, 1);
    [(all.clone(), agreeing), (all, apart), last_apart(first, second)]
}

fn closed(boxes: impl Iterator<Item = Box6>) -> Vec<Box6> {
    boxes.take(LIMIT - 1).chain([ALL]).collect()
}

/// Every second box, closed by ALL.
fn dealt(boxes: &[Box6]) -> [Vec<Box6>; 2] {
    [0, 1].map(|k| closed(boxes.iter().copied().skip(k).step_by(2)))
}

/// The boxes closed by ALL, against themselves and against ALL; and dealt to two lists.
fn one_and_two(boxes: &[Box6]) -> Vec<Pair> {
    let (all, [even, odd]) = (closed(boxes.iter().copied()), dealt(boxes));
    let pairs = [(&all[..], &all[..]), (&all, &[ALL]), (&[ALL], &all), (&even, &odd)];
    pairs.into_iter().flat_map(|(first, second)| three_ways(first, second)).collect()
}

fn slab_pairs() -> Vec<Pair> {
    let mut pairs = vec![];
    for f in 0..DIRECTION {
        for g in 0..DIRECTION {
            pairs.extend(three_ways(&slabs(f, LIMIT), &slabs(g, LIMIT)));
        }
    }
    pairs
}

/// Slabs of one list between those of the other. The protocol has too few numbers.
fn interleaved_pairs() -> Vec<Pair> {
    (0..PROTOCOL).flat_map(|f| one_and_two(&slabs(f, 2 * LIMIT - 2))).collect()
}

fn ladder_pairs() -> Vec<Pair> {
    let mut pairs = vec![];
    for f in 0..DIRECTION {
        for g in (0..FIELDS).filter(|g| *g != f) {
            for grows in [true, false] {
                pairs.extend(one_and_two(&ladder(f, g, LIMIT - 1, grows)));
            }
        }
    }
    pairs
}

fn halver_pairs() -> Vec<Pair> {
    let mut pairs = vec![];
    for (halving, levels) in [(72, 72), (MANY, MANY), (0, MANY), (16, MANY)] {
        let parts = halver(halving, levels);
        let rows: Vec<Box6> = parts.iter().copied().step_by(2).collect();
        pairs.extend(three_ways(&parts, &parts));
        pairs.extend(three_ways(&parts, &[ALL]));
        pairs.extend(three_ways(&[ALL], &parts));
        pairs.extend(one_and_two(&parts));
        pairs.extend(one_and_two(&rows));
    }
    pairs
}

fn crowder_pairs() -> Vec<Pair> {
    let mut pairs = vec![];
    for halved in [0, 16] {
        for levels in [118, 245] {
            pairs.extend(one_and_two(&crowder(halved, levels)));
        }
    }
    pairs
}

fn shaped(shape: Shape, closing: Closing, n: usize) -> Vec<Box6> {
    family(shape, closing, n, &mut Random::new(600)).iter().map(|e| e.selector).collect()
}

/// A list of each shape and closing, against itself and against one of the next shape, both ways.
fn shape_pairs(wanted: impl Fn(Shape) -> bool) -> Vec<Pair> {
    let mut pairs = vec![];
    for (i, shape) in SHAPES.into_iter().enumerate().filter(|(_, shape)| wanted(*shape)) {
        let next = SHAPES[(i + 1) % SHAPES.len()];
        for closing in CLOSINGS {
            let (one, other) = (shaped(shape, closing, LIMIT), shaped(next, closing, LIMIT));
            for (first, second) in [(&one, &one), (&one, &other), (&other, &one)] {
                pairs.extend(three_ways(first, second));
            }
        }
    }
    pairs
}

/// The inputs of a folder of outside/, with their names.
fn stored(folder: &str) -> Vec<(String, Vec<u8>)> {
    let folder = format!("{}/{folder}", env!("CARGO_MANIFEST_DIR"));
    let read = || -> std::io::Result<Vec<(String, Vec<u8>)>> {
        let mut inputs = vec![];
        for file in std::fs::read_dir(&folder)? {
            let path = file?.path();
            let name = path.file_stem().unwrap_or_default().to_string_lossy().into_owned();
            inputs.push((name, std::fs::read(path)?));
        }
        inputs.sort();
        Ok(inputs)
    };
    let inputs = read().unwrap_or_else(|e| panic!("{folder}: {e}"));
    assert!(!inputs.is_empty(), "{folder} is empty");
    inputs
}

/// The lists of each climbed merging, pairwise, and all of them as one list against each.
fn filed_pairs() -> Vec<Pair> {
    let mut pairs = vec![];
    for (_, input) in stored("inputs") {
        let lists = filed(&input);
        let whole = file(&lists.concat());
        let files: Vec<Vec<u8>> = lists.iter().map(|list| file(list)).collect();
        for one in &files {
            pairs.extend(files.iter().map(|other| (one.clone(), other.clone())));
            pairs.extend([(whole.clone(), one.clone()), (one.clone(), whole.clone())]);
        }
        pairs.push((whole.clone(), whole));
    }
    pairs
}

/// The pairs that `stack_test climb` wrote: one file after the other.
fn climbed_pairs() -> Vec<Pair> {
    let split = |(_, bytes): (String, Vec<u8>)| {
        let end = 2 + u16::from_be_bytes([bytes[0], bytes[1]]) as usize;
        (bytes[..end].to_vec(), bytes[end..].to_vec())
    };
    stored("inputs-stack").into_iter().map(split).collect()
}

pub fn families() -> Vec<Family> {
    let named = |name, pairs| Family { name, pairs };
    let thin = |shape| matches!(shape, Shape::Slabs(_));
    vec![
        named("slabs side by side", slab_pairs()),
        named("interleaved slabs", interleaved_pairs()),
        named("ladders", ladder_pairs()),
        named("halvers", halver_pairs()),
        named("crowders", crowder_pairs()),
        named("realistic", shape_pairs(|shape| shape == Shape::Realistic)),
        named("thin slabs", shape_pairs(thin)),
        named("other shapes", shape_pairs(|shape| shape != Shape::Realistic && !thin(shape))),
        named("lists of the climbed mergings", filed_pairs()),
        named("climbed", climbed_pairs()),
    ]
}

/// What `stack_test climb` starts from, with names.
pub fn starts() -> Vec<(&'static str, Pair)> {
    let apart = |boxes: &[Box6]| {
        let [first, second] = dealt(boxes);
        last_apart(&first, &second)
    };
    let parts = halver(16, MANY);
    vec![
        ("halver", last_apart(&closed(parts.iter().copied()), &[ALL])),
        ("halver-dealt", apart(&parts)),
        ("random", apart(&shaped(Shape::Random, Closing::Bare, 48))),
        ("staircase", apart(&shaped(Shape::Staircase, Closing::Bare, 48))),
        ("plane", apart(&shaped(Shape::Plane, Closing::Bare, 48))),
        ("partition", apart(&shaped(Shape::Exact, Closing::Bare, 48))),
    ]
}

// ---------------------------------------------------------------- mergings

/// Boxes that have nothing in common, dealt to parties whose lists are closed by ALL: the working list
/// has all of them.
fn dealt_filings(boxes: &[Box6]) -> Vec<u8> {
    let filing = |(party, boxes): (u8, &[Box6])| {
        let boxes: Vec<Box6> = boxes.iter().copied().chain([ALL]).collect();
        [vec![party], with_sets(&boxes, 1, 1)].concat()
    };
    (1..=8).zip(boxes.chunks(31)).flat_map(filing).collect()
}

/// Inputs of the program, with names: the climbed ones and the deepest.
fn mergings() -> Vec<(String, Vec<u8>)> {
    let mut inputs = vec![
        ("nothing filed".to_string(), vec![]),
        ("one list".to_string(), dealt_filings(&[ALL])),
        ("slabs, filed by 8".to_string(), dealt_filings(&slabs(0, 248))),
        ("a halver, filed by 8".to_string(), dealt_filings(&halver(MANY, MANY))),
        ("a halver of 16 levels, filed by 8".to_string(), dealt_filings(&halver(16, MANY))),
    ];
    inputs.extend(stored("inputs").into_iter().map(|(name, b)| (format!("climbed: {name}"), b)));
    inputs
}

/// An input's name, what a call answers to it, and the bytes of stack that it takes.
pub type Stack = (String, u32, usize);

/// What filing each of them and merging or installing takes.
pub fn merging_stacks(call: &dyn Fn(&[u8], &mut [u8]) -> u32) -> Vec<Stack> {
    stacks_of(mergings(), call)
}

/// What filing all records of each but the last and trying that one takes, where there is one.
pub fn trial_stacks(trial: &dyn Fn(&[u8], u8, &[u8], &mut [u8]) -> u32) -> Vec<Stack> {
    let inputs = mergings().into_iter().filter(|(_, input)| last_record(input).is_some());
    stacks_of(inputs.collect(), &|input, file| {
        let (others, party, last) = last_record(input).expect("a record");
        trial(others, party, last, file)
    })
}

fn stacks_of(inputs: Vec<(String, Vec<u8>)>, call: &dyn Fn(&[u8], &mut [u8]) -> u32) -> Vec<Stack> {
    let (mut stack, mut buffer) = (Painted::new(), vec![0; LONGEST_FILE]);
    let mut measured = |(name, input): (String, Vec<u8>)| {
        let mut answer = 0;
        let used = stack.used(&mut || answer = call(&input, &mut buffer));
        (name, answer, used)
    };
    inputs.into_iter().map(&mut measured).collect()
}
