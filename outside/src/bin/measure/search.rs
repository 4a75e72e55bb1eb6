//! The search: the least header of a box that a list treats in a wanted way.

use outside::baseline;
use outside::cells;
use outside::entry::{file, header_bytes, Header, List, ALL, HEADER};
use outside::generate::{family, Closing, Shape, CLOSINGS, SHAPES};
use outside::model::Want;
use outside::page::{count, time, Table};
use outside::product::{search_of, Product};
use outside::random::Random;
use outside::search::{decode, gap, Decoded, Lists, Packed};
use std::borrow::Cow;

use crate::findings::{Page, Target};
use crate::growth::Growth;
use crate::rows::{kept, Row, Tried};
use crate::times::{head, Job, Times, STATES};

const JOB: &str = "search";

static RATIO: Target = Target { words: "search: at most 1.3 times Rust over the bytes", most: 1.3 };
static BOXES: Target =
    Target { words: "search at 256 entries: at most 10,000 boxes", most: 10_000.0 };
static TIME: Target = Target { words: "search at 256 entries: at most 25 ms", most: 25.0 };
static GROWTH: Target = Target { words: "search: boxes grow below n^2", most: 2.0 };
static REALISTIC: Target = Target { words: "search of realistic lists: under 1 ms", most: 1.0 };

pub fn good_records(bytes: &[u8]) -> Cow<'_, [u8]> {
    baseline::records(bytes, 256).expect("a good file")
}

/// A number that depends on a finding, so that no search is left out.
fn token(found: Option<Header>) -> u64 {
    found.map_or(0, |h| 1 + h[0] as u64)
}

/// The product's search of everything, held against the expected answer.
fn product_search<'a>(
    product: &Product,
    bytes: &'a [u8],
    want: Want,
    expected: Option<Header>,
) -> Option<Tried<impl FnMut() -> u64 + 'a>> {
    let arguments = search_of(&ALL, want);
    let mut header = [0u8; HEADER];
    product.search.map(|search| {
        let answer = search(bytes, &arguments, &mut header);
        let is_right = answer == expected.is_some() as u32
            && expected.is_none_or(|h| header_bytes(&h) == header);
        Tried::new(is_right, move || search(bytes, &arguments, &mut header) as u64)
    })
}

/// The product's search for a gap.
fn product_gap<'a>(product: &Product, bytes: &'a [u8]) -> Option<Tried<impl FnMut() -> u64 + 'a>> {
    let expected = rust_gap(&Packed { lists: [&good_records(bytes), &[]] });
    product_search(product, bytes, Want::Uncaught, expected)
}

/// The same search in Rust.
fn rust_gap(lists: &impl Lists) -> Option<Header> {
    baseline::search(lists, &ALL, Want::Uncaught, &mut 0)
}

fn packed_gap(bytes: &[u8]) -> u64 {
    token(rust_gap(&Packed { lists: [&good_records(bytes), &[]] }))
}

fn gap_times(product: &Product, list: &List) -> Times {
    let bytes = file(list);
    let mut ours = product_gap(product, &bytes).map(Tried::right);
    Times::of(
        ours.as_mut().map(|job| job as Job),
        &mut || packed_gap(&bytes),
        &mut || {
            let list = decode(&good_records(&bytes));
            token(rust_gap(&Decoded { lists: [&list, &[]] }))
        },
        &mut || cells::gap(&decode(&good_records(&bytes)), STATES).is_ok(),
    )
}

const SEEDS: u64 = 20;

/// Of a family's lists of one length: the one that takes the most boxes where all entries are
/// searched at once, how many, and their mean.
pub fn hardest(shape: Shape, closing: Closing, n: usize) -> (List, u64, f64) {
    let mut hardest = (vec![], 0);
    let mut all = 0;
    for seed in 0..SEEDS {
        let list = family(shape, closing, n, &mut Random::new(100 + seed));
        let bytes = file(&list);
        let mut boxes = 0;
        gap(&Packed { lists: [&bytes[5..], &[]] }, &mut boxes);
        all += boxes;
        if boxes > hardest.1 {
            hardest = (list, boxes);
        }
    }
    (hardest.0, hardest.1, all as f64 / SEEDS as f64)
}

pub fn name_of(shape: Shape, closing: Closing) -> String {
    let shape = match shape {
        Shape::Realistic => "realistic".to_string(),
        Shape::Slabs(1) => "slabs in 1 field".to_string(),
        Shape::Slabs(d) => format!("slabs in {d} fields"),
        Shape::Nested => "nested".to_string(),
        Shape::Random => "random".to_string(),
        Shape::Scattered => "scattered".to_string(),
        Shape::Staircase => "staircase".to_string(),
        Shape::Plane => "plane".to_string(),
        Shape::HighPlane => "high plane".to_string(),
        Shape::Diagonal => "diagonal".to_string(),
        Shape::Partition => "partition, grown".to_string(),
        Shape::Exact => "partition, exact".to_string(),
    };
    let closing = match closing {
        Closing::Bare => "alone",
        Closing::All => "+ ALL",
        Closing::Halves => "+ 2 halves",
        Closing::Orthants => "+ 32 orthants",
        Closing::Hole => "but the last header",
        Closing::Headers => "+ headers alone",
        Closing::Parts => "+ partition",
    };
    format!("{shape} {closing}")
}

/// The families that cover, or lack the last header alone.
fn families() -> Vec<(Shape, Closing)> {
    let all = SHAPES.into_iter().flat_map(|shape| CLOSINGS.map(|closing| (shape, closing)));
    let covers = |shape| matches!(shape, Shape::Partition | Shape::Exact);
    all.filter(|(shape, closing)| *closing != Closing::Bare || covers(*shape)).collect()
}

pub fn searches(page: &mut Page, product: &Product) {
    page.say("## Search: the least header that a list leaves uncaught\n");
    page.say(
        "Lists of 32, 64, 128 and 256 entries, of each family the hardest of twenty. Boxes are those \
         of a search of all entries at once, as counted in the Rust version; growth is the exponent \
         of n from 128 to 256 entries, for the mean of the twenty. Times are of the call at 256 \
         entries, checks 1 to 4 counted: it searches the last 32 entries first, and where these \
         leave nothing, no others. Families under 100 boxes stand together below the table.\n",
    );
    let mut table = Table::new(&head(&["family", "boxes 32", "64", "128", "256", "growth"]));
    let (mut others, mut most, mut longest) = (0, 0, 0f64);
    for (shape, closing) in families() {
        let sizes = [32, 64, 128, 256].map(|n| hardest(shape, closing, n));
        let boxes = sizes.each_ref().map(|(_, boxes, _)| *boxes);
        let times = gap_times(product, &sizes[3].0);
        let name = name_of(shape, closing);
        times.note(page, JOB, &name);
        page.hold(&BOXES, &name, boxes[3] as f64);
        page.hold(&TIME, &name, times.ours() * 1e3);
        page.hold(&RATIO, &name, times.ours() / times.packed);
        if shape == Shape::Realistic && closing != Closing::Parts {
            page.hold(&REALISTIC, &name, times.ours() * 1e3);
        }
        if boxes[3] < 100 {
            others += 1;
            most = most.max(boxes[3]);
            longest = longest.max(times.ours());
            continue;
        }
        let growth = (sizes[3].2 / sizes[2].2).log2();
        page.hold(&GROWTH, &name, growth);
        let mut row = vec![name];
        row.extend(boxes.map(count));
        row.push(format!("{growth:.1}"));
        row.extend(times.columns());
        table.row(row);
    }
    page.say(&table.text());
    page.say(&format!(
        "The other {others} families: at most {most} boxes, at most {}.\n",
        time(longest)
    ));
}

fn realistic_sizes() -> Vec<(Closing, usize)> {
    let sizes = |closing| [10, 32, 64, 128, 256].map(|n| (closing, n));
    [Closing::All, Closing::Parts].into_iter().flat_map(sizes).collect()
}

pub fn realistic(page: &mut Page, product: &Product) {
    page.say("## Search: realistic lists\n");
    page.say(
        "The same question for prefixes, ports and protocols closed by ALL, and for half as many \
         closed by a partition.\n",
    );
    let mut table = Table::new(&head(&["list", "entries", "boxes"]));
    for (closing, n) in realistic_sizes() {
        let (list, boxes, _) = hardest(Shape::Realistic, closing, n);
        let times = gap_times(product, &list);
        if closing == Closing::All {
            page.hold(&REALISTIC, &format!("{n} entries"), times.ours() * 1e3);
        }
        let name = name_of(Shape::Realistic, closing);
        times.note(page, JOB, &format!("{name}, {n} entries"));
        page.hold(&RATIO, &format!("{name}, {n} entries"), times.ours() / times.packed);
        let mut row = vec![name, n.to_string(), count(boxes)];
        row.extend(times.columns());
        table.row(row);
    }
    page.say(&table.text());
}

/// Lists with one action set and what is wanted of them, with names.
fn wanted() -> Vec<(String, List, Want)> {
    let mut rows = vec![];
    for (shape, closing) in [
        (Shape::Realistic, Closing::All),
        (Shape::Partition, Closing::Bare),
        (Shape::Staircase, Closing::Parts),
    ] {
        let (mut list, ..) = hardest(shape, closing, 256);
        list.iter_mut().for_each(|e| e.actions = 4);
        for (word, want) in [
            ("uncaught", Want::Uncaught),
            ("caught by the last", Want::CaughtBy(list.len() - 1)),
            ("other than that set", Want::Differing(4)),
        ] {
            rows.push((format!("{}: {word}", name_of(shape, closing)), list.clone(), want));
        }
    }
    rows
}

pub fn wants(page: &mut Page, product: &Product) {
    page.say("## Search: the three wants\n");
    page.say("In everything, over 256 entries with one action set.\n");
    let mut table = Table::new(&head(&["list and want", "boxes"])[..7]);
    for (name, list, want) in wanted() {
        let bytes = &file(&list);
        let mut boxes = 0;
        let packed = Packed { lists: [&bytes[5..], &[]] };
        let found = baseline::search(&packed, &ALL, want, &mut boxes);
        let mut ours = product_search(product, bytes, want, found).map(Tried::right);
        let times = Times::of(
            ours.as_mut().map(|job| job as Job),
            &mut || {
                let packed = Packed { lists: [&good_records(bytes), &[]] };
                token(baseline::search(&packed, &ALL, want, &mut 0))
            },
            &mut || {
                let list = decode(&good_records(bytes));
                token(baseline::search(&Decoded { lists: [&list, &[]] }, &ALL, want, &mut 0))
            },
            &mut || false,
        );
        times.note(page, JOB, &name);
        page.hold(&RATIO, &name, times.ours() / times.packed);
        let mut row = vec![name, count(boxes)];
        row.extend(times.columns());
        row.truncate(7);
        table.row(row);
    }
    page.say(&table.text());
}

/// The rows above, of the product alone.
pub fn rows(product: &Product) -> Vec<Row> {
    let mut rows = vec![];
    let mut gap_row = |name: String, list: &List| {
        rows.extend(product_gap(product, kept(file(list))).map(|job| Row::new(JOB, name, 1, job)));
    };
    for (shape, closing) in families() {
        gap_row(name_of(shape, closing), &hardest(shape, closing, 256).0);
    }
    for (closing, n) in realistic_sizes() {
        let name = format!("{}, {n} entries", name_of(Shape::Realistic, closing));
        gap_row(name, &hardest(Shape::Realistic, closing, n).0);
    }
    for (name, list, want) in wanted() {
        let bytes = kept(file(&list));
        let packed = Packed { lists: [&bytes[5..], &[]] };
        let found = baseline::search(&packed, &ALL, want, &mut 0);
        let job = product_search(product, bytes, want, found);
        rows.extend(job.map(|job| Row::new(JOB, name, 1, job)));
    }
    rows
}

/// The lists of a family of one length, searched one after the other.
fn all_lists(shape: Shape, closing: Closing, n: usize) -> Vec<Vec<u8>> {
    let list = |seed| file(&family(shape, closing, n, &mut Random::new(100 + seed)));
    (0..SEEDS).map(list).collect()
}

pub fn growth(growth: &mut Growth, product: &Product) {
    for (shape, closing) in [
        (Shape::Realistic, Closing::All),
        (Shape::Realistic, Closing::Parts),
        (Shape::Partition, Closing::Bare),
        (Shape::Staircase, Closing::Parts),
        (Shape::Plane, Closing::Parts),
    ] {
        let sizes = [32, 64, 128, 256];
        let lists = sizes.map(|n| all_lists(shape, closing, n));
        let mut jobs = vec![];
        for files in &lists {
            let ours: Option<Vec<_>> =
                files.iter().map(|file| product_gap(product, file).map(Tried::right)).collect();
            let ours = ours.map(|mut ours| move || ours.iter_mut().map(|job| job()).sum::<u64>());
            jobs.push((ours, || files.iter().map(|file| packed_gap(file)).sum::<u64>()));
        }
        let mut rows: Vec<(usize, Option<Job>, Job)> = vec![];
        for (n, (ours, rust)) in sizes.iter().zip(&mut jobs) {
            rows.push((*n, ours.as_mut().map(|job| job as Job), rust));
        }
        growth.row(&format!("search, twenty lists: {}", name_of(shape, closing)), &mut rows);
    }
}
