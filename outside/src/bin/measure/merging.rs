//! Whole mergings: filings on an empty bench, then one merging.

use outside::baseline;
use outside::cells;
use outside::entry::{file, Entry, ALL};
use outside::generate::{family, realistic_filings, related_filings, Closing, Shape};
use outside::merge::Form;
use outside::model::LONGEST_FILE;
use outside::page::{count, Table};
use outside::product::Product;
use outside::random::Random;

use crate::findings::{Page, Target};
use crate::growth::Growth;
use crate::rows::{kept, Row, Tried};
use crate::search::name_of;
use crate::times::{head, Job, Times, STATES};

pub const JOB: &str = "merging";

static RATIO: Target =
    Target { words: "merging: at most 1.5 times Rust over the bytes", most: 1.5 };
static REALISTIC: Target =
    Target { words: "merging of 4 parties of 10 to 20 realistic entries: under 1 ms", most: 1.0 };
static RELATED: Target = Target {
    words: "merging of 8 parties of 32 entries within the limit: under 50 ms",
    most: 50.0,
};
static WORST: Target =
    Target { words: "merging of the worst inputs of filed size: under 500 ms", most: 500.0 };

/// The Rust version over the bytes: its answer and what it writes.
pub fn merge(input: &[u8]) -> (u32, Vec<u8>) {
    let mut buffer = vec![0; LONGEST_FILE];
    let answer = baseline::merge_input(input, &mut buffer, Form::Packed, &mut 0);
    (answer, buffer)
}

/// The product's merging; its answer and what it writes are held against the expected ones.
pub fn product_merge<'a>(
    product: &Product,
    input: &'a [u8],
) -> Option<Tried<impl FnMut() -> u64 + 'a>> {
    let (answer, expected) = merge(input);
    let mut buffer = vec![0; LONGEST_FILE];
    product.merge.map(|merge| {
        let is_right = merge(input, &mut buffer) == answer && buffer == expected;
        Tried::new(is_right, move || merge(input, &mut buffer) as u64)
    })
}

fn merge_times(product: &Product, input: &[u8]) -> (u32, u64, Times) {
    let (answer, boxes) = merge_boxes(input);
    let mut ours = product_merge(product, input).map(Tried::right);
    let (mut one, mut other) = (vec![0; LONGEST_FILE], vec![0; LONGEST_FILE]);
    let times = Times::of(
        ours.as_mut().map(|job| job as Job),
        &mut || baseline::merge_input(input, &mut one, Form::Packed, &mut 0) as u64,
        &mut || baseline::merge_input(input, &mut other, Form::Decoded, &mut 0) as u64,
        &mut || cells::merge(&baseline::filed(input), STATES).is_ok(),
    );
    (answer, boxes, times)
}

pub fn answer_word(answer: u32) -> String {
    match answer {
        264 => "bare".to_string(),
        265 => "crowded".to_string(),
        266 => "conflict".to_string(),
        1 => "1 entry".to_string(),
        n => format!("{n} entries"),
    }
}

/// The Rust version's answer, and its boxes.
pub fn merge_boxes(input: &[u8]) -> (u32, u64) {
    let mut boxes = 0;
    let answer = baseline::merge_input(input, &mut [0; LONGEST_FILE], Form::Packed, &mut boxes);
    (answer, boxes)
}

/// Of 40 inputs that merge to a list the one with the most boxes.
fn hardest_merging(make: impl Fn(&mut Random) -> Vec<u8>) -> Vec<u8> {
    let mut random = Random::new(400);
    let merged = std::iter::repeat_with(|| make(&mut random)).filter(|i| merge_boxes(i).0 <= 256);
    merged.take(40).max_by_key(|input| merge_boxes(input).1).expect("40 inputs")
}

fn filings(parties: u8, n: usize, shape: Shape, closing: Closing, random: &mut Random) -> Vec<u8> {
    let mut input = vec![];
    for party in 1..=parties {
        let mut list = family(shape, closing, n, random);
        list.iter_mut().for_each(|e: &mut Entry| e.actions |= 0x8000);
        input.push(party);
        input.extend(file(&list));
    }
    input
}

/// Lists of 32 entries of which the first matches everything.
fn shadowed(parties: u8) -> Vec<u8> {
    let entry = Entry { selector: ALL, actions: 4 };
    (1..=parties).flat_map(|party| [vec![party], file(&[entry; 32])].concat()).collect()
}

/// Inputs with their names, and what their times are to reach.
fn merging_inputs() -> Vec<(String, Vec<u8>, &'static Target)> {
    let mut random = Random::new(401);
    let realistic = hardest_merging(|random| realistic_filings(4, 10, 20, random));
    let related = hardest_merging(|random| related_filings(8, 32, 1, random));
    let mut rows = vec![
        ("4 parties of 10 to 20 realistic entries".to_string(), realistic, &REALISTIC),
        ("8 parties of 32 entries, within the limit".to_string(), related, &RELATED),
    ];
    for (shape, closing) in [
        (Shape::Nested, Closing::All),
        (Shape::Slabs(5), Closing::All),
        (Shape::Partition, Closing::Halves),
        (Shape::Staircase, Closing::Halves),
        (Shape::Plane, Closing::All),
    ] {
        let input = filings(8, 32, shape, closing, &mut random);
        rows.push((format!("8 parties of 32, {}", name_of(shape, closing)), input, &WORST));
    }
    rows.push(("8 parties of 32 times ALL".to_string(), shadowed(8), &WORST));
    for name in ["staircases", "staircases-halves", "nested", "planes", "partitions-halves"] {
        let path = format!("{}/inputs/{name}.bytes", env!("CARGO_MANIFEST_DIR"));
        let input = std::fs::read(&path).unwrap_or_else(|e| panic!("{path}: {e}"));
        rows.push((format!("climbed: {name}"), input, &WORST));
    }
    rows
}

/// The inputs of the mergings that are accepted, with their names.
pub fn accepted_inputs() -> Vec<(String, Vec<u8>)> {
    let accepted = merging_inputs().into_iter().filter(|(_, input, _)| merge_boxes(input).0 <= 256);
    accepted.map(|(name, input, _)| (name, input)).collect()
}

pub fn mergings(page: &mut Page, product: &Product) {
    page.say("## Merging\n");
    page.say(
        "Filing of every list on an empty bench, then one merging into a buffer. The first two \
         rows show, of 40 inputs that merge, the one with the most boxes. The last rows are the \
         worst inputs of filed size that hill climbing found, from the family named \
         (outside/inputs).\n",
    );
    let mut table = Table::new(&head(&["filed", "answer", "boxes"]));
    for (name, input, target) in merging_inputs() {
        let (answer, boxes, times) = merge_times(product, &input);
        times.note(page, JOB, &name);
        page.hold(target, &name, times.ours() * 1e3);
        page.hold(&RATIO, &name, times.ours() / times.packed);
        let mut row = vec![name, answer_word(answer), count(boxes)];
        row.extend(times.columns());
        table.row(row);
    }
    page.say(&table.text());
}

/// The rows above, of the product alone.
pub fn rows(product: &Product) -> Vec<Row> {
    let row = |(name, input, _): (String, Vec<u8>, _)| {
        product_merge(product, kept(input)).map(|job| Row::new(JOB, name, 1, job))
    };
    merging_inputs().into_iter().filter_map(row).collect()
}

pub fn growth(growth: &mut Growth, product: &Product) {
    let sizes = [4, 8, 16, 32];
    let inputs = sizes.map(|n| hardest_merging(|random| related_filings(8, n, 1, random)));
    let mut jobs = vec![];
    for input in &inputs {
        let ours = product_merge(product, input).map(Tried::right);
        let mut buffer = vec![0; LONGEST_FILE];
        jobs.push((ours, move || {
            baseline::merge_input(input, &mut buffer, Form::Packed, &mut 0) as u64
        }));
    }
    let mut rows: Vec<(usize, Option<Job>, Job)> = vec![];
    for (n, (ours, rust)) in sizes.iter().zip(&mut jobs) {
        rows.push((*n, ours.as_mut().map(|job| job as Job), rust));
    }
    growth.row("merging: 8 parties of n entries, within the limit", &mut rows);
}
