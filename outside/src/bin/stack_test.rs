//! Stack of libgateway.a's calls: every call stays within 64 KB.
//!
//! stack_test: measures the families of deep.rs on a painted stack, then runs the worst pair of each on
//! a thread of 64 KB.
//! stack_test climb SECONDS FOLDER: looks for pairs of files whose comparison takes more, by hill
//! climbing, and writes those it ends at. The seconds are for each start.
//! stack_test merging: stack of filing and merging, of filing and installing, and of filing and a trial,
//! where libmeasured.a is linked.

use outside::deep::{self, families, Family, Pair, Stack};
use outside::entry::{file, Entry, List, FIELDS, HEADER, LAST_HEADER, TOP};
use outside::gateway;
use outside::generate::RISING;
use outside::page::count;
use outside::product::product;
use outside::random::Random;
use outside::search::decode;
use outside::stack::{within, Painted};
use std::hint::black_box;
use std::time::{Duration, Instant};

/// What a C thread may have.
const LIMIT: usize = 64 << 10;

fn compare(pair: &Pair) -> u32 {
    gateway::compare(&pair.0, &pair.1, &mut [0; HEADER])
}

/// Bytes that a comparison uses.
fn bytes_of(stack: &mut Painted, pair: &Pair) -> usize {
    stack.used(&mut || {
        black_box(compare(pair));
    })
}

/// The measure itself: a call that writes so many bytes of its frame uses no less, and little more.
fn try_measure(stack: &mut Painted) {
    const FRAME: usize = 40_000;
    let nothing = stack.used(&mut || {});
    let used = stack.used(&mut || {
        black_box([1u8; FRAME]);
    });
    let range = FRAME..FRAME + nothing + 1_000;
    assert!(range.contains(&used), "a frame of {FRAME} bytes: {used} in place of {range:?}");
    println!("  a thread that does nothing: {} bytes", count(nothing as u64));
}

/// Measures a family's comparisons: the most bytes, and the pair that takes them.
fn measure<'a>(stack: &mut Painted, family: &'a Family) -> (usize, &'a Pair) {
    let mut worst = (0, &family.pairs[0]);
    for pair in &family.pairs {
        let mut answer = 0;
        let used = stack.used(&mut || answer = compare(pair));
        // Searched, and not refused before that: it has a gap at most.
        assert!(matches!(answer, 0 | 1 | 261 | 517), "{}: {answer}", family.name);
        if used > worst.0 {
            worst = (used, pair);
        }
    }
    println!(
        "  {}: {} comparisons, at most {} bytes",
        family.name,
        family.pairs.len(),
        count(worst.0 as u64)
    );
    worst
}

/// Lookups in the families' files, of the last header.
fn measure_lookups(stack: &mut Painted, families: &[Family]) -> usize {
    let files = families.iter().flat_map(|family| &family.pairs).map(|pair| &pair.0);
    let used = files.map(|file| {
        stack.used(&mut || {
            black_box(gateway::lookup(file, &LAST_HEADER));
        })
    });
    let most = used.max().expect("some files");
    println!("  lookups: at most {} bytes", count(most as u64));
    most
}

fn test() {
    let begin = Instant::now();
    let mut stack = Painted::new();
    try_measure(&mut stack);
    let families = families();
    let worst: Vec<(usize, &Pair)> = families.iter().map(|f| measure(&mut stack, f)).collect();
    let comparisons = worst.iter().map(|(used, _)| *used).max().expect("some families");
    let most = comparisons.max(measure_lookups(&mut stack, &families));
    if most > LIMIT {
        eprintln!("stack_test: a call takes {most} bytes of stack, more than {LIMIT}");
        std::process::exit(1);
    }
    // Once more where the memory ends: one byte more, and the program ends by a signal.
    for (_, pair) in &worst {
        within(LIMIT, &mut || {
            black_box(compare(pair));
        });
    }
    println!(
        "stack_test: at most {} bytes of stack, and done on threads of {} ({:.1} s)",
        count(most as u64),
        count(LIMIT as u64),
        begin.elapsed().as_secs_f64()
    );
}

// ---------------------------------------------------------------- hill climbing

/// Two lists to be compared.
type Lists = [List; 2];

/// A comparison that takes longer is passed over.
const LONG: Duration = Duration::from_millis(20);

fn files(lists: &Lists) -> Pair {
    (file(&lists[0]), file(&lists[1]))
}

fn some_entry(lists: &Lists, random: &mut Random) -> Entry {
    let list: &List = random.pick(lists);
    *random.pick(list)
}

/// An end of some range of the lists in a field, a number beside it, or one between two of them.
fn some_end(lists: &Lists, f: usize, random: &mut Random) -> u32 {
    let mut one = || {
        let s = some_entry(lists, random).selector;
        *random.pick(&[s.low[f], s.high[f]])
    };
    let (a, b) = (one(), one());
    match random.below(7) {
        0 => 0,
        1 => TOP[f],
        2 => a.saturating_sub(1),
        3 => a.saturating_add(1).min(TOP[f]),
        4 => a / 2 + b / 2,
        _ => a,
    }
}

/// One of the lists changed in one place, never in its last one.
fn changed(lists: &Lists, random: &mut Random) -> Lists {
    let mut next = lists.clone();
    let k = random.below(2) as usize;
    let (last, list) = (lists[k].len() as u64 - 1, &mut next[k]);
    let other = some_entry(lists, random);
    let i = random.below(last + 1) as usize;
    if random.one_in(8) && list.len() < 256 {
        list.insert(i, other);
    }
    if last == 0 {
        return next;
    }
    let i = random.below(last) as usize;
    match random.below(8) {
        0 => list.swap(i, random.below(last) as usize),
        1 => list[i].selector = other.selector,
        2 if random.one_in(4) => drop(list.remove(i)),
        3 if random.one_in(4) => list[i].actions ^= 1,
        _ => {
            let f = random.below(FIELDS as u64) as usize;
            let (a, b) = (some_end(lists, f, random), some_end(lists, f, random));
            (list[i].selector.low[f], list[i].selector.high[f]) = (a.min(b), a.max(b));
        }
    }
    next
}

/// Without the entries that the bytes do not hang on.
fn shortened(stack: &mut Painted, mut lists: Lists, most: usize) -> Lists {
    for k in 0..2 {
        for i in (0..lists[k].len() - 1).rev() {
            let entry = lists[k].remove(i);
            if bytes_of(stack, &files(&lists)) < most {
                lists[k].insert(i, entry);
            }
        }
    }
    lists
}

fn climb(seconds: u64, folder: &str) {
    let mut stack = Painted::new();
    for (name, start) in deep::starts() {
        let mut random = Random::new(700);
        let mut best = [&start.0, &start.1].map(|file| decode(&file[5..]));
        let mut most = bytes_of(&mut stack, &files(&best));
        let (first, begin, mut tried) = (most, Instant::now(), 0u64);
        while begin.elapsed() < Duration::from_secs(seconds) {
            tried += 1;
            let mut next = changed(&best, &mut random);
            while random.one_in(2) {
                next = changed(&next, &mut random);
            }
            let (pair, before) = (files(&next), Instant::now());
            let used = bytes_of(&mut stack, &pair);
            if used >= most && before.elapsed() < LONG {
                (best, most) = (next, used);
            }
        }
        let path = format!("{folder}/{name}.bytes");
        let pair = files(&shortened(&mut stack, best, most));
        std::fs::write(&path, [pair.0, pair.1].concat()).unwrap_or_else(|e| panic!("{path}: {e}"));
        println!("{name}: {first} bytes at first, {most} after {tried} changes");
    }
}

// ---------------------------------------------------------------- filing, merging, installing and trying

fn print_stacks(word: &str, stacks: Vec<Stack>) {
    for (name, answer, used) in stacks {
        println!("  {word}, {name}: {} bytes (answer {answer})", count(used as u64));
    }
}

fn merging() {
    let product = product();
    let merge = product.merge.expect("the feature measured");
    print_stacks("merging", deep::merging_stacks(&merge));
    if let Some(install) = product.install {
        let install = |input: &[u8], file: &mut [u8]| install(input, &RISING, file);
        print_stacks("installing", deep::merging_stacks(&install));
    }
    if let Some(trial) = product.trial {
        print_stacks("trying", deep::trial_stacks(&trial));
    }
}

fn main() {
    let words: Vec<String> = std::env::args().skip(1).collect();
    let words: Vec<&str> = words.iter().map(|word| &word[..]).collect();
    match &words[..] {
        [] => test(),
        ["climb", seconds, folder] => climb(seconds.parse().expect("seconds"), folder),
        ["merging"] => merging(),
        _ => panic!("stack_test [climb SECONDS FOLDER | merging]"),
    }
}
