//! Lookup: the entry's number and the record's part in a file, and in a table of decoded entries.

use outside::baseline::{lookup, lookup_unpacked, unpack, Unpacked};
use outside::entry::{both_ways, file, file_in, is_header, Header, List};
use outside::generate::{header_near, realistic_list, Sets};
use outside::model::catching;
use outside::page::{maybe_time, ratio, Table};
use outside::product::Product;
use outside::random::Random;

use crate::findings::{Page, Target};
use crate::growth::Growth;
use crate::rows::{kept, Row, Tried};
use crate::times::{each, Job, BYTES};

static RATIO: Target = Target { words: "lookup: at most 1.2 times Rust over the bytes", most: 1.2 };
static TABLE: Target =
    Target { words: "lookup in a table: at most 1.2 times Rust over structs", most: 1.2 };

const STRUCTS: &str = "Rust, structs";

const SIZES: [usize; 5] = [10, 32, 64, 128, 256];

/// Headers at and beside the ends of the list's ranges: 64 of any, or of 2,000 those caught last.
fn headers_for(list: &List, last: bool, random: &mut Random) -> Vec<Header> {
    let tried = if last { 2_000 } else { 64 };
    let near = std::iter::repeat_with(|| header_near(list, random));
    let mut headers: Vec<Header> = near.filter(is_header).take(tried).collect();
    headers.sort_by_key(|h| if last { list.len() - catching(list, h).unwrap_or(0) } else { 0 });
    headers.truncate(64);
    headers
}

/// The mean number of the entries that catch the headers.
fn depth(list: &List, headers: &[Header]) -> f64 {
    let numbers = headers.iter().map(|h| catching(list, h).unwrap_or(0) as f64);
    numbers.sum::<f64>() / headers.len() as f64
}

/// Of twenty realistic lists the one whose last entries catch the most.
fn list_of(n: usize) -> (List, Random) {
    let tries = (0..20).map(|seed| {
        let mut random = Random::new(300 + seed);
        let list = realistic_list(n, Sets::With(4), &mut random);
        let found = depth(&list, &headers_for(&list, true, &mut random.clone()));
        (found, list, random)
    });
    let (_, list, random) = tries.max_by(|a, b| a.0.total_cmp(&b.0)).expect("twenty lists");
    (list, random)
}

/// Seconds of one lookup.
struct Lookups {
    number: Option<f64>,
    part: Option<f64>,
    rust: f64,
    table: Option<f64>,
    structs: f64,
}

fn sum(headers: &[Header], lookup: &dyn Fn(&Header) -> u32) -> u64 {
    headers.iter().map(|h| lookup(h) as u64).sum()
}

/// A list's two forms, and headers to be looked up in it.
#[derive(Clone, Copy)]
struct Inputs<'a> {
    bytes: &'a [u8],
    entries: &'a [Unpacked],
    headers: &'a [Header],
}

type Lookup<'a> = Tried<Box<dyn FnMut() -> u64 + 'a>>;

/// The product's lookups of all headers: the number, the part and in the table. Their answers are held
/// against the expected ones.
fn product_lookups<'a>(product: &Product, inputs: Inputs<'a>) -> [Option<Lookup<'a>>; 3] {
    let Inputs { bytes, entries, headers } = inputs;
    let is_same =
        |ours: &dyn Fn(&Header) -> u32| headers.iter().all(|h| ours(h) == lookup(bytes, h));
    // Every header is caught.
    let size = (bytes.len() - 5) / entries.len();
    let number = product.lookup.map(|number| -> Lookup {
        let is_right = is_same(&|h| number(bytes, h));
        Tried::new(is_right, Box::new(move || sum(headers, &|h| number(bytes, h))))
    });
    let part = product.part.map(|part| -> Lookup {
        let is_right = headers.iter().all(|h| part(bytes, h) as usize == size);
        Tried::new(is_right, Box::new(move || sum(headers, &|h| part(bytes, h))))
    });
    let table = product.table.map(|table| -> Lookup {
        let is_right = is_same(&|h| table(entries, h));
        Tried::new(is_right, Box::new(move || sum(headers, &|h| table(entries, h))))
    });
    [number, part, table]
}

fn lookup_times(product: &Product, bytes: &[u8], list: &List, headers: &[Header]) -> Lookups {
    let entries = &unpack(list)[..];
    let [mut number, mut part, mut table] =
        product_lookups(product, Inputs { bytes, entries, headers })
            .map(|job| job.map(Tried::right));
    for h in headers {
        assert_eq!(lookup_unpacked(entries, h), lookup(bytes, h));
    }
    let mut rust = || sum(headers, &|h| lookup(bytes, h));
    let mut structs = || sum(headers, &|h| lookup_unpacked(entries, h));
    let times = each(vec![
        number.as_mut().map(|job| job as Job),
        part.as_mut().map(|job| job as Job),
        Some(&mut rust),
        table.as_mut().map(|job| job as Job),
        Some(&mut structs),
    ]);
    let one = |time: Option<f64>| time.map(|t| t / headers.len() as f64);
    Lookups {
        number: one(times[0]),
        part: one(times[1]),
        rust: one(times[2]).expect("timed"),
        table: one(times[3]),
        structs: one(times[4]).expect("timed"),
    }
}

/// One lookup of the product, and the two that stand beside it.
struct Beside {
    title: &'static str,
    job: &'static str,
    ours: fn(&Lookups) -> Option<f64>,
    others: [(&'static str, fn(&Lookups) -> Option<f64>); 2],
    /// Of the ratio to one of the two.
    target: (usize, &'static Target),
}

static KINDS: [Beside; 3] = [
    Beside {
        title: "The entry's number, in a file",
        job: "lookup of the number",
        ours: |t| t.number,
        others: [(BYTES, |t| Some(t.rust)), (STRUCTS, |t| Some(t.structs))],
        target: (0, &RATIO),
    },
    Beside {
        title: "The record's part, in a file",
        job: "lookup of the part",
        ours: |t| t.part,
        others: [(BYTES, |t| Some(t.rust)), (STRUCTS, |t| Some(t.structs))],
        target: (0, &RATIO),
    },
    Beside {
        title: "In a table",
        job: "lookup in a table",
        ours: |t| t.table,
        others: [("number, in a file", |t| t.number), (STRUCTS, |t| Some(t.structs))],
        target: (1, &TABLE),
    },
];

/// The table of one lookup; its ratios are noted.
fn one_kind(page: &mut Page, kind: &Beside, rows: &[(String, String, Lookups)]) {
    let [(first, _), (second, _)] = kind.others;
    let columns = ["list and headers", "entry", "product", first, "ratio", second, "ratio"];
    let mut table = Table::new(&columns);
    for (name, entry, times) in rows {
        let ours = (kind.ours)(times);
        let mut cells = vec![name.clone(), entry.clone(), maybe_time(ours)];
        for (which, (beside, other)) in kind.others.iter().enumerate() {
            let other = other(times);
            cells.push(maybe_time(other));
            cells.push(other.map_or("–".to_string(), |other| ratio(ours, other)));
            if let (Some(ours), Some(other)) = (ours, other) {
                page.compare(kind.job, beside, name, ours / other);
                if kind.target.0 == which {
                    page.hold(kind.target.1, name, ours / other);
                }
            }
        }
        table.row(cells);
    }
    page.say(&format!("### {}\n", kind.title));
    page.say(&table.text());
}

/// A list, its file, and headers to be looked up in it, with a name.
type Looked = (String, List, Vec<u8>, Vec<Header>);

/// Files of version 2; and the longest ones as version 1 has them, which older archives read too.
fn lists() -> Vec<Looked> {
    let mut rows = vec![];
    for n in SIZES {
        for (last, word) in [(false, "mixed"), (true, "caught last")] {
            let (list, mut random) = list_of(n);
            let headers = headers_for(&list, last, &mut random);
            rows.push((format!("{n} entries, {word}"), list.clone(), file(&list), headers));
        }
    }
    for (last, word) in [(false, "mixed"), (true, "caught last")] {
        let (list, mut random) = list_of(256);
        let list = both_ways(&list);
        let headers = headers_for(&list, last, &mut random);
        let bytes = file_in(1, &list);
        rows.push((format!("256 entries of version 1, {word}"), list, bytes, headers));
    }
    rows
}

pub fn lookups(page: &mut Page, product: &Product) {
    page.say("## Lookup\n");
    page.say(
        "Of twenty realistic lists the one whose last entries catch the most; the mean over 64 \
         headers at and beside the ends of its ranges, and over the 64 of 2,000 that are caught \
         last. \"Entry\" is the mean number of the entry that catches them. Number and part check \
         the file first, as 01 says, and so does the Rust version over the bytes; the Rust \
         version over structs checks nothing. The table is of structs with the fields' own \
         widths, and is lent to both. From 128 entries on, a lookup in a table hangs on how well \
         its branches are predicted, which changes with where the linker puts the loop: the same \
         machine code took three times as long in one program as in another.\n",
    );
    let mut rows = vec![];
    for (name, list, bytes, headers) in lists() {
        let entry = format!("{:.0}", depth(&list, &headers));
        rows.push((name, entry, lookup_times(product, &bytes, &list, &headers)));
    }
    for kind in &KINDS {
        one_kind(page, kind, &rows);
    }
}

/// The rows above, of the product alone.
pub fn rows(product: &Product) -> Vec<Row> {
    let mut rows = vec![];
    for (name, list, bytes, headers) in lists() {
        let (bytes, entries) = (kept(bytes), kept(unpack(&list)));
        let inputs = Inputs { bytes, entries, headers: kept(headers) };
        for (kind, job) in KINDS.iter().zip(product_lookups(product, inputs)) {
            let each = inputs.headers.len();
            rows.extend(job.map(|job| Row::new(kind.job, name.clone(), each, job)));
        }
    }
    rows
}

pub fn growth(growth: &mut Growth, product: &Product) {
    let inputs = SIZES.map(|n| {
        let (list, mut random) = list_of(n);
        let headers = headers_for(&list, true, &mut random);
        (file(&list), headers)
    });
    let mut jobs = vec![];
    for (bytes, headers) in &inputs {
        let sum = |one: fn(&[u8], &Header) -> u32| {
            move || headers.iter().map(|h| one(bytes, h) as u64).sum::<u64>()
        };
        jobs.push((product.lookup.map(sum), sum(lookup)));
    }
    let mut rows: Vec<(usize, Option<Job>, Job)> = vec![];
    for (n, (ours, rust)) in SIZES.iter().zip(&mut jobs) {
        rows.push((*n, ours.as_mut().map(|job| job as Job), rust));
    }
    growth.row("lookup, 64 numbers: realistic, caught last", &mut rows);
}
