//! Comparison of two files.

use outside::baseline;
use outside::cells;
use outside::entry::{both_ways, file, file_in, List, HEADER};
use outside::generate::{family, realistic_list, related_list, Closing, Sets, Shape};
use outside::page::{count, Table};
use outside::product::Product;
use outside::random::Random;
use outside::search::{decode, gap, unrefined, Packed};

use crate::findings::{Page, Target};
use crate::growth::Growth;
use crate::rows::{kept, Row, Tried};
use crate::search::{good_records, hardest, name_of};
use crate::times::{head, Job, Times, STATES};

const JOB: &str = "comparison";

static RATIO: Target =
    Target { words: "comparison: at most 1.3 times Rust over the bytes", most: 1.3 };

/// Two files, with a name.
fn pairs(random: &mut Random) -> Vec<(String, Vec<u8>, Vec<u8>)> {
    let mut pairs = vec![];
    for n in [32, 64, 128, 256] {
        let list = realistic_list(n, Sets::With(4), random);
        let mut wider = list.clone();
        wider.iter_mut().for_each(|e| e.actions |= 0x100);
        pairs.push((format!("realistic {n}, the second wider"), file(&list), file(&wider)));
        let other = related_list(&list, random);
        pairs.push((format!("realistic {n}, the second changed"), file(&list), file(&other)));
    }
    // As version 1 has them, which older archives read too.
    let list = both_ways(&realistic_list(256, Sets::With(4), random));
    let mut wider = list.clone();
    wider.iter_mut().for_each(|e| e.actions |= 0x100);
    let short = file_in(1, &list);
    let name = "realistic 256 of version 1, the second wider";
    pairs.push((name.to_string(), short.clone(), file_in(1, &wider)));
    pairs.push((format!("{name} and of version 2"), short, file(&wider)));
    for (shape, closing) in [
        (Shape::Partition, Closing::Halves),
        (Shape::Staircase, Closing::Halves),
        (Shape::Plane, Closing::Halves),
        (Shape::Slabs(3), Closing::All),
    ] {
        let name = name_of(shape, closing);
        let (first, ..) = hardest(shape, closing, 256);
        let mut wider = first.clone();
        for e in &mut wider {
            if random.one_in(2) {
                e.actions |= 0x10;
            }
        }
        pairs.push((format!("{name}, the second wider"), file(&first), file(&wider)));
        let (all, second) = (file(&all_actions(first)), file(&dead_list(random)));
        pairs.push((format!("{name}, the second mostly dead"), all, second));
    }
    pairs
}

fn all_actions(mut list: List) -> List {
    list.iter_mut().for_each(|e| e.actions = 0xffff);
    list
}

/// 128 entries that cover and allow everything, then 128 that catch nothing and allow nothing.
fn dead_list(random: &mut Random) -> List {
    let mut list = all_actions(family(Shape::Exact, Closing::Bare, 128, random));
    let mut dead = family(Shape::Slabs(5), Closing::Bare, 128, random);
    dead.iter_mut().for_each(|e| e.actions = 0);
    list.extend(dead);
    list
}

/// The product's comparison, held against the expected answer.
fn product_compare<'a>(
    product: &Product,
    a: &'a [u8],
    b: &'a [u8],
) -> Option<Tried<impl FnMut() -> u64 + 'a>> {
    let (mut lent, mut header) = ([0u8; HEADER], [0u8; HEADER]);
    let answer = baseline::compare(a, b, &mut header);
    product.compare.map(|compare| {
        let is_right = compare(a, b, &mut lent) == answer && lent == header;
        Tried::new(is_right, move || compare(a, b, &mut lent) as u64)
    })
}

pub fn comparisons(page: &mut Page, product: &Product) {
    page.say("## Comparison of two files\n");
    page.say(
        "Checks 1 to 5 on both files, then refinement. Where the second is \"mostly dead\", half of \
         its entries cover and allow everything, and the others catch nothing.\n",
    );
    let mut table = Table::new(&head(&["files", "answer", "boxes"]));
    for (name, first, second) in pairs(&mut Random::new(200)) {
        let (a, b) = (&first[..], &second[..]);
        let answer = baseline::compare(a, b, &mut [0; HEADER]);
        let mut boxes = 0;
        let (p, q) = (&good_records(a)[..], &good_records(b)[..]);
        gap(&Packed { lists: [p, &[]] }, &mut boxes);
        gap(&Packed { lists: [q, &[]] }, &mut boxes);
        unrefined(&Packed { lists: [p, q] }, &mut boxes);
        let mut ours = product_compare(product, a, b).map(Tried::right);
        let times = Times::of(
            ours.as_mut().map(|job| job as Job),
            &mut || baseline::compare(a, b, &mut [0; HEADER]) as u64,
            &mut || baseline::compare_decoded(a, b, &mut [0; HEADER]) as u64,
            &mut || {
                let (p, q) = (decode(&good_records(a)), decode(&good_records(b)));
                let covering = cells::gap(&p, STATES).is_ok() && cells::gap(&q, STATES).is_ok();
                covering && cells::unrefined(&p, &q, STATES).is_ok()
            },
        );
        times.note(page, JOB, &name);
        page.hold(&RATIO, &name, times.ours() / times.packed);
        let answer = if answer == 0 { "yes" } else { "no" };
        let mut row = vec![name, answer.to_string(), count(boxes)];
        row.extend(times.columns());
        table.row(row);
    }
    page.say(&table.text());
}

/// The rows above, of the product alone.
pub fn rows(product: &Product) -> Vec<Row> {
    let row = |(name, first, second): (String, Vec<u8>, Vec<u8>)| {
        let job = product_compare(product, kept(first), kept(second));
        job.map(|job| Row::new(JOB, name, 1, job))
    };
    pairs(&mut Random::new(200)).into_iter().filter_map(row).collect()
}

pub fn growth(growth: &mut Growth, product: &Product) {
    let sizes = [32, 64, 128, 256];
    let files = sizes.map(|n| {
        let list = realistic_list(n, Sets::With(4), &mut Random::new(200));
        let mut wider = list.clone();
        wider.iter_mut().for_each(|e| e.actions |= 0x100);
        (file(&list), file(&wider))
    });
    let mut jobs = vec![];
    for (a, b) in &files {
        let ours = product.compare.map(|compare| move || compare(a, b, &mut [0; HEADER]) as u64);
        jobs.push((ours, move || baseline::compare(a, b, &mut [0; HEADER]) as u64));
    }
    let mut rows: Vec<(usize, Option<Job>, Job)> = vec![];
    for (n, (ours, rust)) in sizes.iter().zip(&mut jobs) {
        rows.push((*n, ours.as_mut().map(|job| job as Job), rust));
    }
    growth.row("comparison: realistic, the second wider", &mut rows);
}
