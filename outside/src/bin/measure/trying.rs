//! Trials: all lists but the last are filed on an empty bench, then the last is tried, beside filing it and
//! merging.

use outside::clock::seconds;
use outside::model::LONGEST_FILE;
use outside::page::{ratio, time, Table};
use outside::product::{last_record, Product};

use crate::findings::{Page, Target};
use crate::merging::{accepted_inputs, answer_word, merge, merge_boxes, product_merge};
use crate::rows::{kept, Row, Tried};

const JOB: &str = "trying";

const BESIDE: &str = "filing and merging";

static RATIO: Target =
    Target { words: "trying: at most 1.1 times a filing and a merging", most: 1.1 };

/// The product's trial of an input's last record; its answer and what it writes are held against those of
/// merging all records.
fn product_trial<'a>(
    product: &Product,
    input: &'a [u8],
) -> Option<Tried<impl FnMut() -> u64 + 'a>> {
    let (others, party, last) = last_record(input)?;
    let (answer, expected) = merge(input);
    let mut buffer = vec![0; LONGEST_FILE];
    product.trial.map(|trial| {
        let is_right = trial(others, party, last, &mut buffer) == answer && buffer == expected;
        Tried::new(is_right, move || trial(others, party, last, &mut buffer) as u64)
    })
}

/// The filings of an input alone: without a ranking, an install is refused right after them.
fn product_filings<'a>(
    product: &Product,
    input: &'a [u8],
) -> Option<Tried<impl FnMut() -> u64 + 'a>> {
    product.install.map(|install| {
        let is_right = install(input, &[], &mut []) == 256 + 12;
        Tried::new(is_right, move || install(input, &[], &mut []) as u64)
    })
}

/// Seconds of the product's trial, and of filing the same list and merging: of the whole jobs, without
/// filing the other lists. Before each of the two these are filed, so that both find the branches
/// predicted alike.
fn trial_times(product: &Product, input: &[u8]) -> Option<(f64, f64)> {
    let (others, ..) = last_record(input)?;
    let mut trial = product_trial(product, input)?.right();
    let mut merging = product_merge(product, input)?.right();
    let mut before_merging = product_filings(product, others)?.right();
    let mut before_trial = product_filings(product, others)?.right();
    let times = seconds(&mut [&mut trial, &mut before_merging, &mut merging, &mut before_trial]);
    let filings = times[1].min(times[3]);
    Some((times[0] - filings, times[2] - filings))
}

/// Nothing without the product: it is timed beside itself.
pub fn trials(page: &mut Page, product: &Product) {
    if product.trial.is_none() {
        return;
    }
    page.say("## Trying\n");
    page.say(
        "The same lists where they merge: all but the last are filed on an empty bench, then the last \
         is tried, or filed and all are merged, into a buffer. Filing the others takes the same time in \
         both and is left out: it is timed by itself, in turn with the two, and taken from each.\n",
    );
    let mut table = Table::new(&["filed", "answer", "trial", BESIDE, "ratio"]);
    for (name, input) in accepted_inputs() {
        let Some((trial, beside)) = trial_times(product, &input) else {
            continue;
        };
        page.compare(JOB, BESIDE, &name, trial / beside);
        page.hold(&RATIO, &name, trial / beside);
        let answer = answer_word(merge_boxes(&input).0);
        table.row(vec![name, answer, time(trial), time(beside), ratio(Some(trial), beside)]);
    }
    page.say(&table.text());
}

/// The product's whole jobs above: the filings, and the trial.
pub fn rows(product: &Product) -> Vec<Row> {
    let row = |(name, input): (String, Vec<u8>)| {
        product_trial(product, kept(input)).map(|job| Row::new(JOB, name, 1, job))
    };
    accepted_inputs().into_iter().filter_map(row).collect()
}
