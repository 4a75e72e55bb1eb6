//! The built program `replay` against the model: replay_test PROGRAM [COUNT [FIRST]]. COUNT lists of
//! calls are replayed, and every kind of answer has to be met. With FIRST, the first list's number,
//! a list can be looked at again by itself, and nothing has to be met.

use outside::calls::call_list;
use outside::entry::{file, file_in, is_both_ways, is_header, Box6, Entry, Header, ALL};
use outside::entry::{DIRECTION, FIELDS, HEADER, OUT, RECORD, VERSIONS};
use outside::generate::{longest_conflict, RISING};
use outside::model::{catching, holds, is_crossed, least_header, read, Bench, Refusal};
use outside::model::{FILED_LIMIT, LIST_LIMIT};
use outside::naming;
use outside::process::{run, Run};
use outside::random::Random;
use outside::replay::{
    answer, replayed, Buffer, Bytes, Call, Wanted, LONGEST_BUFFER, LONGEST_INPUT, LONGEST_TABLE,
};
use std::cmp::Ordering;
use std::collections::BTreeMap;
use std::path::PathBuf;
use std::time::{Duration, Instant};

const LIMIT: Duration = Duration::from_secs(60);

// ---------------------------------------------------------------- kinds of answers

/// Each call's number and name, and the kinds of answers that every run has to meet.
const CALLS: [(u8, &str, &str); 15] = [
    (0, "open", "ok"),
    (1, "file", "ok, of version 1, of version 2, no 1, no 2, no 3, no 4, no 5, no 5 out, no 6"),
    (2, "withdraw", "ok, no 6, no 7, not as tried"),
    (
        3,
        "merge",
        "ok exact, ok longer, ok 256 entries, of version 1, of version 2, of both versions, no 8, \
         no 9, no 10, no 10 out, no 10 past idle entries, no 10 matched again, no 10 parties apart, \
         no 10 of three, no 10 past entry 9, no 11 one short, no 11 short, not as tried",
    ),
    (
        4,
        "rewrite",
        "ok exact, ok longer, of version 1, of version 2, no 1, no 2, no 3, no 4, \
         no 11 one short, no 11 short",
    ),
    (
        5,
        "write",
        "ok exact, ok longer, of version 1, of version 2, no 2, no 2 before 3, no 2 before 4, no 3, \
         no 4, no 4 for its directions, no 4 above 1, no 11 one short, no 11 short",
    ),
    (
        6,
        "lookup",
        "ok entry, ok uncaught, ok no header, ok no direction, of version 1, of version 2, no 1, \
         no 2, no 3, no 4",
    ),
    (7, "lookup of the part", "ok 0, ok 28, ok 30, ok no header, ok no direction"),
    (
        8,
        "lookup in a table",
        "ok entry, ok entry past 255, ok uncaught, ok no header, ok no direction, ok past one above 1",
    ),
    (
        9,
        "compare",
        "ok refines, ok header, ok header out, of version 1, of version 2, of both versions, \
         no 1 1, no 1 2, no 1 3, no 1 4, no 1 5, no 1 5 out, no 2 1, no 2 2, no 2 3, no 2 4, no 2 5",
    ),
    (
        10,
        "search",
        "ok none, ok header, ok header out, ok uncaught, ok wanted entry, \
         ok wanted entry matched again, ok other set, ok other set matched again, \
         ok other set uncaught, ok no header, ok none above 1, of version 1, of version 2, no 1, \
         no 2, no 3, no 4",
    ),
    (
        11,
        "install",
        "ok exact, ok longer, ok 256 entries, ok too short for merging, of version 1, of version 2, \
         of both versions, no 8, no 9, no 10, no 10 out, no 10 past idle entries, no 10 matched again, \
         no 10 parties apart, no 10 of three, no 10 past entry 9, \
         no 11 one short, no 11 short, no 12 empty, no 12 too few, no 12 too many, no 12 above 15, \
         no 12 twice, no 12 alone, no 12 before 8, no 12 before 9, no 12 before 10, no 12 before 11, \
         not as tried",
    ),
    (
        12,
        "trial",
        "ok exact, ok longer, ok 256 entries, ok adding, ok replacing, ok on an empty bench, \
         ok of 32 entries, ok unlike merging, of version 1, of version 2, of both versions, \
         no 1, no 2, no 3, no 3 past 32, no 4, no 5, no 5 out, no 6, no 6 before another, \
         unfiled alone, unfiled before 8, unfiled before 9, unfiled before 10, unfiled before 11, \
         no 9, no 9 unlike merging, no 10, no 10 out, no 10 past idle entries, no 10 matched again, \
         no 10 parties apart, no 10 of three, no 10 past entry 9, no 10 adding, no 10 replacing, \
         no 10 unlike merging, no 11 one short, no 11 short, no 11 unlike merging, not as tried",
    ),
    (
        19,
        "lookup in C",
        "ok entry, ok 256, ok no header, ok no direction, of version 1, of version 2, ok 257, \
         ok 258, ok 259, ok 260",
    ),
    (
        20,
        "compare in C",
        "ok 0, ok 1 short, ok 1 one short, ok 1 exact, ok 1 longer, of version 1, of version 2, \
         of both versions, ok 257, ok 258, ok 259, ok 260, ok 261, ok 513, ok 514, ok 515, ok 516, \
         ok 517",
    ),
];

/// How a lent buffer fits what is to be written.
fn fit(lent: usize, needed: usize) -> &'static str {
    match lent.cmp(&needed) {
        Ordering::Equal => "exact",
        Ordering::Greater => "longer",
        Ordering::Less if lent + 1 == needed => "one short",
        Ordering::Less => "short",
    }
}

/// A header with direction 0 or 1 in place of its own.
fn turned(h: &Header) -> Header {
    let mut h = *h;
    h[DIRECTION] = h[DIRECTION].min(OUT);
    h
}

/// Whether a box is crossed only because an end of its directions is above 1.
fn is_above_1(b: &Box6) -> bool {
    (0..b.low.len()).all(|f| b.low[f] <= b.high[f]) && b.high[DIRECTION] > OUT
}

/// Why what is looked up in some entries is no header, though an entry's other ranges hold it.
fn no_header(list: &[Entry], h: &Header) -> Option<&'static str> {
    let is_held = |h: &Header| list.iter().any(|e| holds(&e.selector, h));
    match h[DIRECTION] > OUT {
        true => is_held(&turned(h)).then_some("ok no direction"),
        false => (!is_header(h) && is_held(h)).then_some("ok no header"),
    }
}

/// Why a good file's lookup is of no header, or why a search's box holds none.
fn beside_headers(call: &Call) -> Option<&'static str> {
    match call {
        Call::Lookup { file, header }
        | Call::LookupPart { file, header }
        | Call::LookupInC { file, header } => {
            no_header(&read(&file.0, LIST_LIMIT).ok()?.entries, header)
        }
        Call::LookupInTable { table, header } => no_header(table, header),
        Call::Search { file, within, .. } => {
            read(&file.0, LIST_LIMIT).ok()?;
            let is_empty = !is_crossed(within) && least_header(within).is_none();
            let above = is_above_1(within).then_some("ok none above 1");
            above.or(is_empty.then_some("ok no header"))
        }
        _ => None,
    }
}

/// The kind of answer that a call's line is.
fn kind(call: u8, line: &str) -> String {
    let (said, buffer) = line.trim_end_matches('\n').split_once(" = ").unwrap_or((line, ""));
    let lent = buffer.len() / 2;
    let mut words = said.split_whitespace();
    let word = words.next().expect("ok or no");
    let values: Vec<usize> = words.map(|value| value.parse().expect("a number")).collect();
    let more = match (call, word, &values[..]) {
        (9, "no", [file, refusal, ..]) => format!("{file} {refusal}"),
        (_, "no", [11, needed]) => format!("11 {}", fit(lent, *needed)),
        (_, "no", [refusal, ..]) => refusal.to_string(),
        (3 | 11 | 12, _, [256, _]) => "256 entries".to_string(),
        (3..=5 | 11 | 12, _, [.., length]) => fit(lent, *length).to_string(),
        (6 | 8, _, []) => "uncaught".to_string(),
        (6 | 8 | 19, _, [0..=255]) => "entry".to_string(),
        (8, _, _) => "entry past 255".to_string(),
        (9, _, []) => "refines".to_string(),
        (10, _, []) => "none".to_string(),
        (9 | 10, _, _) => "header".to_string(),
        (20, _, [1]) => format!("1 {}", fit(lent, HEADER)),
        (7 | 19 | 20, _, [number]) => number.to_string(),
        _ => String::new(),
    };
    format!("{word} {more}").trim_end().to_string()
}

/// What is wrong with the bytes of a refused ranking.
fn fault(ranking: &[u8]) -> &'static str {
    match ranking.len() {
        0 => "empty",
        1..=15 => "too few",
        16 if ranking.iter().any(|number| *number > 15) => "above 15",
        16 => "twice",
        _ => "too many",
    }
}

/// Which refusal would come without one that goes before all of merging.
fn next_refusal(merging: Result<(usize, usize), Refusal>) -> String {
    match merging {
        Ok(_) => "alone".to_string(),
        Err(refusal) => format!("before {}", refusal.number()),
    }
}

/// The kinds of answer that an install's line is, beside what merging into as long a buffer answers. A
/// refused ranking has two: what is wrong with it, and which refusal would come without that.
fn install_kinds(ranking: &[u8], buffer: &Buffer, line: &str, bench: &Bench) -> Vec<String> {
    let merging = bench.merge(&mut vec![0; buffer.length]);
    match (kind(11, line).as_str(), merging) {
        ("no 12", merging) => {
            vec![format!("no 12 {}", fault(ranking)), format!("no 12 {}", next_refusal(merging))]
        }
        ("ok exact" | "ok longer", Err(Refusal::Narrow(_))) => {
            vec!["ok too short for merging".to_string()]
        }
        (kind, _) => vec![kind.to_string()],
    }
}

/// The bench whose lists a call merges: for a trial, a copy on which its list is filed.
fn merged_bench(call: &Call, bench: &Bench) -> Bench {
    let mut copy = bench.clone();
    if let Call::Trial { party, file, .. } = call {
        // Refused, it leaves the copy as it is.
        copy.file(*party, &file.0).ok();
    }
    copy
}

/// The kinds of a trial whose filing is refused: which refusal a merging of the bench would have, and
/// whether the order of the checks or the limit of a filed list decides.
fn unfiled_kinds(refusal: &Refusal, file: &[u8], buffer: &Buffer, bench: &Bench) -> Vec<String> {
    let merging = bench.merge(&mut vec![0; buffer.length]);
    let decided = match refusal {
        Refusal::Party => Bench::default().file(1, file).err().map(|_| "no 6 before another"),
        Refusal::Count => read(file, LIST_LIMIT).ok().map(|_| "no 3 past 32"),
        _ => None,
    };
    let mut kinds = vec![format!("unfiled {}", next_refusal(merging))];
    kinds.extend(decided.map(str::to_string));
    kinds
}

fn list_of(party: u8, bench: &Bench) -> Option<&[Entry]> {
    bench.in_force().into_iter().find(|(filing, _)| *filing == party).map(|(_, list)| list)
}

/// Whether a trial adds a list, or replaces one that would show in its answer, as `is_unlike` says or in
/// the entry that a conflict names.
fn place_kind(
    party: u8,
    header: Option<Header>,
    is_unlike: bool,
    (bench, copy): (&Bench, &Bench),
) -> Option<&'static str> {
    let Some(replaced) = list_of(party, bench) else {
        return Some("adding");
    };
    let tried = list_of(party, copy).expect("filed");
    let shows = header.map_or(is_unlike, |h| catching(replaced, &h) != catching(tried, &h));
    shows.then_some("replacing")
}

/// `ok`, or `no` and the refusal's number.
fn outcome(kind: &str) -> String {
    let words = if kind.starts_with("ok") { 1 } else { 2 };
    kind.split(' ').take(words).collect::<Vec<&str>>().join(" ")
}

/// Which mistakes a trial's line would show: merging the bench as it is, or finding it bare; a limit below
/// 32 entries; the party's own list left in its place.
fn trial_kinds(call: &Call, kind: &str, line: &str, bench: &Bench) -> Vec<String> {
    let Call::Trial { party, file, buffer } = call else {
        return vec![];
    };
    let count = match Bench::default().file(*party, &file.0) {
        Ok(count) => count,
        Err(refusal) => return unfiled_kinds(&refusal, &file.0, buffer, bench),
    };
    let merging = answer(&mut bench.clone(), &Call::Merge { buffer: *buffer });
    let is_unlike = merging != line.trim_end_matches('\n');
    let copy = merged_bench(call, bench);
    let kinds = [
        is_unlike.then_some("unlike merging"),
        bench.in_force().is_empty().then_some("on an empty bench"),
        (count == FILED_LIMIT).then_some("of 32 entries"),
        place_kind(*party, header_in(kind, line), is_unlike, (bench, &copy)),
    ];
    let outcome = outcome(kind);
    kinds.into_iter().flatten().map(|more| format!("{outcome} {more}")).collect()
}

/// Whether some lists are of one version, or of both.
fn of_versions(versions: &[u8]) -> String {
    match VERSIONS.map(|version| versions.contains(&version)) {
        [true, true] => "of both versions".to_string(),
        [one, _] => format!("of version {}", if one { 1 } else { 2 }),
    }
}

/// The versions of the lists that an accepted call is about.
fn version_kind(call: &Call, kind: &str, bench: &Bench) -> Option<String> {
    if !kind.starts_with("ok") {
        return None;
    }
    let read = |file: &Bytes| read(&file.0, LIST_LIMIT).ok().map(|list| list.version);
    let versions = match call {
        Call::File { file, .. }
        | Call::Rewrite { file, .. }
        | Call::Lookup { file, .. }
        | Call::LookupInC { file, .. }
        | Call::Search { file, .. } => vec![read(file)?],
        Call::Compare { first, second } | Call::CompareInC { first, second, .. } => {
            vec![read(first)?, read(second)?]
        }
        Call::Write { version, .. } => vec![*version],
        Call::Merge { .. } | Call::Install { .. } | Call::Trial { .. } => {
            merged_bench(call, bench).versions()
        }
        _ => return None,
    };
    Some(of_versions(&versions))
}

/// The header in a line of some kind, behind `ok` or the refusal's number.
fn header_in(kind: &str, line: &str) -> Option<Header> {
    let before = match kind {
        "no 5" | "no 10" => 2,
        "no 1 5" | "no 2 5" => 3,
        "ok header" => 1,
        _ => return None,
    };
    let words = line.split(' ').skip(before).take(FIELDS);
    let numbers: Vec<u32> = words.map(|word| word.trim_end().parse().expect("a number")).collect();
    Some(std::array::from_fn(|f| numbers[f]))
}

/// Which mistakes in the entries that an answer carries would show, and what was wanted of a search.
fn naming_kinds(call: &Call, kind: &str, line: &str, bench: &Bench) -> Vec<String> {
    let Some(header) = header_in(kind, line) else {
        return vec![];
    };
    match (call, kind) {
        (Call::Merge { .. } | Call::Install { .. } | Call::Trial { .. }, "no 10") => {
            let kinds = naming::kinds(&merged_bench(call, bench).in_force(), &header);
            kinds.into_iter().map(|more| format!("{kind} {more}")).collect()
        }
        (Call::Search { file, wanted, .. }, _) => {
            let list = read(&file.0, LIST_LIMIT).expect("a good file").entries;
            let found = match (wanted.way, catching(&list, &header)) {
                (0, _) => "uncaught",
                (1, _) => "wanted entry",
                (_, None) => "other set uncaught",
                (_, Some(_)) => "other set",
            };
            let again =
                if naming::is_matched_again(&list, &header) { " matched again" } else { "" };
            vec![format!("ok {found}{again}")]
        }
        _ => vec![],
    }
}

/// What an answer has to do with directions: a header that is out, a written list that is refused for
/// its directions, a table's entry that would catch but for a direction above 1.
fn direction_kind(call: &Call, kind: &str, line: &str) -> Option<String> {
    if let Some(header) = header_in(kind, line) {
        return (header[DIRECTION] == OUT).then(|| format!("{kind} out"));
    }
    let said = line.split(" = ").next().unwrap_or_default().trim_end();
    match (call, kind) {
        (Call::Write { count, list, .. }, "no 2") => {
            let is_counted = (1..=LIST_LIMIT).contains(count);
            let crossed = list.iter().any(|e| is_crossed(&e.selector));
            match (is_counted, crossed) {
                (false, _) => Some("no 2 before 3".to_string()),
                (true, true) => Some("no 2 before 4".to_string()),
                _ => None,
            }
        }
        (Call::Write { version, list, .. }, "no 4") => {
            let entry: usize = said.rsplit(' ').next()?.parse().ok()?;
            let e = &list[entry];
            let lost = *version == 1 && !is_both_ways(e) && !is_crossed(&e.selector);
            let above = is_above_1(&e.selector).then(|| "no 4 above 1".to_string());
            above.or(lost.then(|| "no 4 for its directions".to_string()))
        }
        (Call::LookupInTable { table, header }, "ok entry") => {
            let entry: usize = said.rsplit(' ').next()?.parse().ok()?;
            let held = |b: &Box6| {
                (0..b.low.len()).all(|f| b.low[f] <= header[f] && header[f] <= b.high[f])
            };
            let past = table[..entry].iter().any(|e| is_above_1(&e.selector) && held(&e.selector));
            past.then(|| "ok past one above 1".to_string())
        }
        _ => None,
    }
}

/// The kinds of answer that a call's line is, on a bench.
fn kinds(call: &Call, line: &str, bench: &Bench) -> Vec<String> {
    if let Some(kind) = beside_headers(call) {
        return vec![kind.to_string()];
    }
    let mut kinds = match call {
        Call::Install { ranking, buffer } => install_kinds(&ranking.0, buffer, line, bench),
        _ => vec![kind(call.number(), line)],
    };
    let more = [direction_kind(call, &kinds[0], line), version_kind(call, &kinds[0], bench)];
    let naming = naming_kinds(call, &kinds[0], line, bench);
    let trial = trial_kinds(call, &kinds[0], line, bench);
    kinds.extend(more.into_iter().flatten().chain(naming).chain(trial));
    kinds
}

/// Whether a call on the bench would be answered otherwise if the trial before it had stayed there.
fn is_not_as_tried(call: &Call, line: &str, tried: &Bench) -> bool {
    let is_on_bench = matches!(call.number(), 2 | 3 | 11 | 12);
    is_on_bench && answer(&mut tried.clone(), call) != line.trim_end_matches('\n')
}

// ---------------------------------------------------------------- holding program against model

struct Test {
    program: PathBuf,
    account: Account,
}

/// What was replayed without a difference.
#[derive(Default)]
struct Account {
    inputs: usize,
    bytes: usize,
    calls: usize,
    bad: usize,
    /// How often each kind of answer was met, for each call.
    met: BTreeMap<u8, BTreeMap<String, usize>>,
    /// The copy that the last trial merged, if it is not as the bench, until a call comes that may change
    /// the bench.
    tried: Option<Bench>,
    longest: Duration,
}

impl Account {
    /// Counts a line; the bench is that after the call.
    fn count(&mut self, call: Option<Call>, line: &str, bench: &Bench) {
        let Some(call) = call else {
            self.bad += 1;
            return;
        };
        self.calls += 1;
        let mut kinds = kinds(&call, line, bench);
        if self.tried.as_ref().is_some_and(|tried| is_not_as_tried(&call, line, tried)) {
            kinds.push("not as tried".to_string());
        }
        match call {
            Call::Trial { .. } => {
                self.tried = Some(merged_bench(&call, bench)).filter(|copy| copy != bench)
            }
            Call::Open | Call::File { .. } | Call::Withdraw { .. } => self.tried = None,
            _ => {}
        }
        let met = self.met.entry(call.number()).or_default();
        for kind in kinds {
            *met.entry(kind).or_default() += 1;
        }
    }

    /// Prints what was met; answers what never was.
    fn print(&self) -> Vec<String> {
        let mut missing = vec![];
        for (number, name, wanted) in CALLS {
            let met = self.met.get(&number).cloned().unwrap_or_default();
            let counts: Vec<String> = met.iter().map(|(kind, n)| format!("{kind}: {n}")).collect();
            println!("  {number} {name}: {}", counts.join(", "));
            for kind in wanted.split(", ").filter(|kind| !met.contains_key(*kind)) {
                missing.push(format!("{number} {name}: {kind}"));
            }
        }
        println!("  bad: {}", self.bad);
        if self.bad == 0 {
            missing.push("bad".to_string());
        }
        missing
    }
}

fn fail(words: &str) -> ! {
    eprintln!("replay_test: {words}");
    std::process::exit(1);
}

impl Test {
    /// Where the program's lines for an input differ from the model's.
    fn difference(&mut self, input: &[u8]) -> Option<String> {
        let (run, time) = run(&self.program, input, LIMIT);
        self.account.longest = self.account.longest.max(time);
        let Run::Ended(written) = run else {
            return Some(format!("{run:?}"));
        };
        let mut lines = written.split_inclusive('\n');
        let mut calls = replayed(input);
        let mut number = 0;
        while let Some((call, expected)) = calls.next() {
            let got = lines.next().unwrap_or_default();
            if got != expected {
                return Some(format!(
                    "call {number}\n  got      {got:?}\n  expected {expected:?}\n  {}",
                    call.map_or("no call".to_string(), |call| format!("{call:?}"))
                ));
            }
            self.account.count(call, got, calls.bench());
            number += 1;
        }
        self.account.inputs += 1;
        self.account.bytes += input.len();
        lines.next().map(|line| format!("a line too many: {line:?}"))
    }

    fn check(&mut self, name: &str, input: &[u8]) {
        if let Some(difference) = self.difference(input) {
            fail(&format!("{name}: {difference}"));
        }
    }

    /// Lists with their numbers, in one input. Where they differ it is looked for in each by itself.
    fn check_joined(&mut self, lists: &[(u64, Vec<u8>)]) {
        let input: Vec<u8> = lists.iter().flat_map(|(_, bytes)| bytes.clone()).collect();
        if let Some(difference) = self.difference(&input) {
            for (number, bytes) in lists {
                self.check(&format!("list {number}"), bytes);
            }
            let numbers: Vec<u64> = lists.iter().map(|(number, _)| *number).collect();
            fail(&format!("lists {numbers:?} one after the other: {difference}"));
        }
    }
}

// ---------------------------------------------------------------- the limits

/// A list with one call of each kind, on small arguments.
fn one_of_each() -> Vec<Call> {
    let list = vec![Entry { selector: ALL, actions: 3 }];
    let bytes = Bytes(file(&list));
    let buffer = Buffer { length: 5 + RECORD + 2, fill: 0xa5 };
    let header = [1, 2, 3, 4, 6, OUT];
    vec![
        Call::Open,
        Call::File { party: 1, file: bytes.clone() },
        Call::Merge { buffer },
        Call::Install { ranking: Bytes(RISING.to_vec()), buffer },
        Call::Trial { party: 2, file: bytes.clone(), buffer },
        Call::Withdraw { party: 1 },
        Call::Rewrite { file: bytes.clone(), buffer },
        Call::Rewrite { file: Bytes(file_in(1, &list)), buffer },
        Call::Write { version: 2, count: 1, list: list.clone(), buffer },
        Call::Lookup { file: bytes.clone(), header },
        Call::LookupPart { file: bytes.clone(), header },
        Call::LookupInTable { table: list, header },
        Call::Compare { first: bytes.clone(), second: bytes.clone() },
        search(0),
        Call::LookupInC { file: bytes.clone(), header },
        Call::CompareInC { first: bytes.clone(), second: bytes, buffer },
    ]
}

fn search(way: u8) -> Call {
    let list = [Entry { selector: ALL, actions: 3 }];
    Call::Search { file: Bytes(file(&list)), within: ALL, wanted: Wanted { way, number: 0 } }
}

fn opened(calls: &[Call]) -> Vec<u8> {
    let mut bytes = Call::Open.bytes();
    bytes.extend(calls.iter().flat_map(Call::bytes));
    bytes
}

/// Calls with an argument at its limit and past it; each is followed by an opening.
fn calls_at_limits() -> Vec<Call> {
    let list = [Entry { selector: ALL, actions: 3 }];
    let bytes = Bytes(file(&list));
    let mut calls: Vec<Call> = (0..=255).map(search).collect();
    let buffer = Buffer { length: 5 + RECORD, fill: 7 };
    let write = |version| Call::Write { version, count: 1, list: list.to_vec(), buffer };
    calls.extend((0..=255).map(write));
    let looked_up =
        |direction| Call::Lookup { file: bytes.clone(), header: [0, 0, 0, 0, 0, direction] };
    calls.extend((0..=255).map(looked_up));
    let tried = |party| Call::Trial { party, file: bytes.clone(), buffer };
    calls.extend((0..=255).map(tried));
    for n in [LONGEST_TABLE, LONGEST_TABLE + 1] {
        calls.push(Call::LookupInTable { table: list.repeat(n), header: [0; 6] });
    }
    for length in [LONGEST_BUFFER, LONGEST_BUFFER + 1, 0xffff_ffff] {
        let buffer = Buffer { length, fill: 7 };
        calls.push(Call::Merge { buffer });
        calls.push(Call::Install { ranking: Bytes(RISING.to_vec()), buffer });
        calls.push(Call::Trial { party: 1, file: bytes.clone(), buffer });
        calls.push(Call::Rewrite { file: bytes.clone(), buffer });
        calls.push(Call::Write { version: 1, count: 1, list: list.to_vec(), buffer });
        calls.push(Call::CompareInC { first: bytes.clone(), second: bytes.clone(), buffer });
    }
    calls
}

fn limits(test: &mut Test) {
    test.check("empty input", &[]);
    for number in 0..=255 {
        test.check("a number alone", &[number]);
        test.check("a number after an opening", &[0, number]);
        // Arguments of length 0, and of greater lengths than the input has.
        test.check("a number before zeros", &[[0, number].as_slice(), &[0; 64]].concat());
        test.check("a number before ones", &[[0, number].as_slice(), &[0xff; 64]].concat());
    }
    for call in one_of_each() {
        test.check("no opening", &[call.bytes(), Call::Open.bytes()].concat());
    }
    for call in calls_at_limits() {
        test.check("a call at its limits", &opened(&[call, Call::Open]));
    }
    let each: Vec<u8> = one_of_each().iter().flat_map(Call::bytes).collect();
    for length in 0..=each.len() {
        test.check("a list of each call, cut short", &each[..length]);
    }
    for length in [LONGEST_INPUT - 1, LONGEST_INPUT, LONGEST_INPUT + 1, 3 * LONGEST_INPUT] {
        test.check("openings", &vec![0; length]);
    }
    // The last call ends with the longest input, one byte before, one after.
    for length in [LONGEST_INPUT - 1, LONGEST_INPUT, LONGEST_INPUT + 1] {
        let looked_up = |n| opened(&[Call::Lookup { file: Bytes(vec![1; n]), header: [0; 6] }]);
        test.check("a long file", &looked_up(length - looked_up(0).len()));
    }
    // A file's length is right but for 65,536 bytes more.
    let mut longer = file(&[Entry { selector: ALL, actions: 1 }]);
    longer.resize(longer.len() + 65_536, 0);
    test.check(
        "a file and 64 KB",
        &opened(&[Call::Lookup { file: Bytes(longer), header: [0; 6] }]),
    );
    // So is a ranking's.
    let ranking = Bytes([&RISING[..], &[0; 65_536]].concat());
    let buffer = Buffer { length: 1, fill: 9 };
    test.check("a ranking and 64 KB", &opened(&[Call::Install { ranking, buffer }]));
    let mut cut = vec![0; LONGEST_INPUT];
    cut[LONGEST_INPUT - 1] = 2;
    test.check("a long list, cut short", &cut);
    // The most that a conflict can carry.
    let files: Vec<Bytes> = longest_conflict().iter().map(|list| Bytes(file(list))).collect();
    let tried = Call::Trial { party: 8, file: files[7].clone(), buffer };
    let file_all = (1..=8).zip(files);
    let mut clash: Vec<Call> = file_all.map(|(party, file)| Call::File { party, file }).collect();
    clash.insert(7, tried);
    clash.push(Call::Merge { buffer });
    clash.push(Call::Install { ranking: Bytes(RISING.to_vec()), buffer });
    test.check("a conflict of eight parties", &opened(&clash));
    // More output than a pipe or a buffer holds.
    let merging = Call::Merge { buffer: Buffer { length: LONGEST_BUFFER, fill: 0x5a } };
    test.check("many long lines", &opened(&vec![merging; 300]));
}

// ---------------------------------------------------------------- generated lists

fn generated(test: &mut Test, first: u64, count: u64) {
    let mut joined = vec![];
    let mut length = 0;
    for number in first..first + count {
        let mut random = Random::new(number);
        let calls = random.between(8, 40) as usize;
        let list = call_list(calls, &mut random);
        let bytes = list.bytes();
        if !list.can_be_joined() {
            test.check(&format!("list {number}"), &bytes);
            continue;
        }
        if length + bytes.len() > LONGEST_INPUT {
            test.check_joined(&joined);
            joined.clear();
            length = 0;
        }
        length += bytes.len();
        joined.push((number, bytes));
    }
    test.check_joined(&joined);
}

fn main() {
    let mut arguments = std::env::args().skip(1);
    let program = PathBuf::from(arguments.next().expect("the program's path"));
    let count = arguments.next().map_or(4_000, |a| a.parse().expect("a count"));
    let first = arguments.next().map(|a| a.parse().expect("a list's number"));
    let start = Instant::now();
    let mut test = Test { program, account: Account::default() };
    limits(&mut test);
    // What has to be met is asked of the generated lists alone.
    let limits = std::mem::take(&mut test.account);
    generated(&mut test, first.unwrap_or(1), count);
    let account = test.account;
    let missing = account.print();
    if first.is_none() && !missing.is_empty() {
        fail(&format!("no difference, but these were never met: {missing:?}"));
    }
    println!(
        "replay_test: {} inputs at the limits, {count} lists of {} calls and {} bytes in {} inputs, \
         each answered as the model does; longest run {:.1} ms ({:.1} s)",
        limits.inputs,
        account.calls,
        account.bytes,
        account.inputs,
        limits.longest.max(account.longest).as_secs_f64() * 1e3,
        start.elapsed().as_secs_f64()
    );
}
