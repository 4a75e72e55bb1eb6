//! Whole installs: filings on an empty bench, then one install, beside the merging of the same lists.

use outside::baseline;
use outside::cells;
use outside::generate::RISING;
use outside::merge::Form;
use outside::model::LONGEST_FILE;
use outside::page::{count, maybe_time, ratio, Table};
use outside::product::Product;

use crate::findings::{Page, Target};
use crate::merging::{self, accepted_inputs, answer_word, merge_boxes, product_merge};
use crate::rows::{kept, Row, Tried};
use crate::times::{head, Job, Times, STATES};

const JOB: &str = "installing";

static RATIO: Target =
    Target { words: "installing: at most 1.5 times Rust over the bytes", most: 1.5 };

static BESIDE: Target =
    Target { words: "installing: at most 1.3 times the merging of the same lists", most: 1.3 };

/// The columns before the times.
const FIRST: [&str; 4] = ["filed", "merged", "installed", "boxes"];

/// A row's cells, with those of merging behind the product's time.
fn with_merging<T>(mut cells: Vec<T>, merging: [T; 2]) -> Vec<T> {
    let behind = FIRST.len() + 1;
    cells.splice(behind..behind, merging);
    cells
}

/// The Rust version over the bytes: its answer, what it writes and its boxes.
fn install(input: &[u8]) -> (u32, Vec<u8>, u64) {
    let (mut buffer, mut boxes) = (vec![0; LONGEST_FILE], 0);
    let answer = baseline::install_input(input, &RISING, &mut buffer, Form::Packed, &mut boxes);
    (answer, buffer, boxes)
}

/// The product's install; its answer and what it writes are held against the expected ones.
fn product_install<'a>(
    product: &Product,
    input: &'a [u8],
) -> Option<Tried<impl FnMut() -> u64 + 'a>> {
    let (answer, expected, _) = install(input);
    let mut buffer = vec![0; LONGEST_FILE];
    product.install.map(|install| {
        let is_right = install(input, &RISING, &mut buffer) == answer && buffer == expected;
        Tried::new(is_right, move || install(input, &RISING, &mut buffer) as u64)
    })
}

/// Seconds of the product's merging, and the times of installing.
fn install_times(product: &Product, input: &[u8]) -> (Option<f64>, Times) {
    let mut ours = product_install(product, input).map(Tried::right);
    // Of no use beside an install that is not there.
    let mut merging = ours.as_ref().and(product_merge(product, input)).map(Tried::right);
    let (mut one, mut other) = (vec![0; LONGEST_FILE], vec![0; LONGEST_FILE]);
    let rust = |form, buffer: &mut [u8]| {
        baseline::install_input(input, &RISING, buffer, form, &mut 0) as u64
    };
    Times::beside(
        merging.as_mut().map(|job| job as Job),
        ours.as_mut().map(|job| job as Job),
        &mut || rust(Form::Packed, &mut one),
        &mut || rust(Form::Decoded, &mut other),
        &mut || cells::install(&baseline::filed(input), &RISING, STATES).is_ok(),
    )
}

pub fn installs(page: &mut Page, product: &Product) {
    page.say("## Installing\n");
    page.say(
        "The same lists where they merge: filing on an empty bench, then one install into a buffer, \
         with the actions ranked by their numbers, 0 first, so that many sets come to the same \
         action. \"Merging\" is the product's merging of the same lists, filings counted, timed in \
         turn with the others.\n",
    );
    let mut table = Table::new(&with_merging(head(&FIRST), [merging::JOB, "ratio"]));
    for (name, input) in accepted_inputs() {
        let (answer, _, boxes) = install(&input);
        let (merging, times) = install_times(product, &input);
        if let (Some(ours), Some(merging)) = (times.product, merging) {
            page.compare(JOB, merging::JOB, &name, ours / merging);
            page.hold(&BESIDE, &name, ours / merging);
        }
        times.note(page, JOB, &name);
        page.hold(&RATIO, &name, times.ours() / times.packed);
        let merged = answer_word(merge_boxes(&input).0);
        let mut row = vec![name, merged, answer_word(answer), count(boxes)];
        row.extend(times.columns());
        let beside = merging.map_or("–".to_string(), |merging| ratio(times.product, merging));
        table.row(with_merging(row, [maybe_time(merging), beside]));
    }
    page.say(&table.text());
}

/// The rows above, of the product alone.
pub fn rows(product: &Product) -> Vec<Row> {
    let row = |(name, input): (String, Vec<u8>)| {
        product_install(product, kept(input)).map(|job| Row::new(JOB, name, 1, job))
    };
    accepted_inputs().into_iter().filter_map(row).collect()
}
