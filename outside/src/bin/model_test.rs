//! The model against the examples of 01 and of Wishes 1, 2, 4, 5 and 6, against the point-by-point walk of
//! small header spaces, and its bench against the history of calls.

use outside::calls::{bench_calls, call_list};
use outside::entry::{both_ways, file, file_in, header_bytes, is_header, VERSIONS};
use outside::entry::{Box6, Entry, Header, List, ALL, DIRECTION, IN, LAST_HEADER, OUT};
use outside::generate::{box_near, only, shaped_list, single_ports, small_list, Sets, CROWDS};
use outside::generate::{leave_directions, longest_conflict, some_parties, some_ranking, RISING};
use outside::model::{self, allowed, holds, numbered, Bench, Filed, Refusal, Versioned, Want};
use outside::naming;
use outside::points::{catcher, combinations, is_small, least_uncaught, merged, points, small_box};
use outside::points::{common_actions, foremost, installed, is_needless, keeping_foremost, struck};
use outside::random::Random;
use outside::replay::{answer, replayed, Buffer, Bytes, Call};
use outside::report::{hexadecimal, Cases};
use std::collections::BTreeMap;

const DISCARD: u16 = 1;
const BYPASS: u16 = 2;
const ESP: u16 = 4;

fn entry(selector: Box6, actions: u16) -> Entry {
    Entry { selector, actions }
}

fn slices(lists: &[List]) -> Vec<&[Entry]> {
    lists.iter().map(|list| &list[..]).collect()
}

fn merge_of(lists: &[List]) -> Result<List, Refusal> {
    model::merged_list(&numbered(lists))
}

fn install_of(lists: &[List], ranking: &[u8]) -> Result<List, Refusal> {
    model::installed_list(&numbered(lists), ranking)
}

fn conflict(header: Header, named: &[(u8, usize)]) -> Result<List, Refusal> {
    Err(Refusal::Conflict(header, named.to_vec()))
}

/// Local port 80 with TCP.
fn web() -> Box6 {
    let mut web = only(2, 80, 80);
    (web.low[4], web.high[4]) = (6, 6);
    web
}

/// The subnet of 004's appendix, and its part of the above.
const SUBNET: (u32, u32) = (0x0a01_0000, 0x0a01_ffff);

fn subnet_web() -> Box6 {
    let mut subnet_web = web();
    (subnet_web.low[1], subnet_web.high[1]) = SUBNET;
    subnet_web
}

/// Policies A, with a set for ICMP, and B of 004's appendix.
fn appendix(icmp_actions: u16) -> [List; 2] {
    let a = vec![
        entry(only(1, SUBNET.0, SUBNET.1), BYPASS | ESP | DISCARD),
        entry(only(4, 6, 6), ESP | DISCARD),
        entry(only(4, 1, 1), icmp_actions),
        entry(ALL, DISCARD),
    ];
    [a, vec![entry(web(), BYPASS | ESP), entry(ALL, DISCARD)]]
}

fn examples(cases: &mut Cases) {
    let none = || "an example of 01".to_string();
    let looked_up = |list: &List, h| model::lookup(&file(list), &h);

    let p1 = vec![entry(ALL, DISCARD | BYPASS)];
    cases.same(looked_up(&p1, [0; 6]), Ok(Some(0)), none);

    let p2 = vec![entry(web(), BYPASS), entry(ALL, DISCARD)];
    cases.same(looked_up(&p2, [0, 0, 80, 0, 6, 0]), Ok(Some(0)), none);
    cases.same(looked_up(&p2, [0, 0, 79, 0, 6, 0]), Ok(Some(1)), none);
    cases.same(looked_up(&p2, [0, 0, 81, 0, 6, 0]), Ok(Some(1)), none);

    let p3 = vec![entry(only(4, 0, 254), DISCARD)];
    cases.same(model::gap(&p3), Err(Refusal::Gap([0, 0, 0, 0, 255, 0])), none);
    let p4 = vec![
        entry(only(0, 0, 2147483647), DISCARD),
        entry(only(0, 2147483648, 4294967295), DISCARD),
    ];
    cases.same(model::gap(&p4), Ok(()), none);

    let p5 = vec![entry(only(4, 5, 4), DISCARD)];
    let good = vec![entry(only(4, 5, 5), DISCARD)];
    for version in VERSIONS {
        let bytes = file_in(version, &p5);
        cases.same(model::read(&bytes, 256), Err(Refusal::Crossed(0)), none);
        let read = Versioned { version, entries: good.clone() };
        cases.same(model::read(&file_in(version, &good), 256), Ok(read), none);
    }

    let p6 = [vec![entry(ALL, BYPASS)], vec![entry(ALL, DISCARD)]];
    cases.same(merge_of(&p6), conflict([0; 6], &[(1, 0), (2, 0)]), none);

    let p7 = conflict([0, 0, 0, 0, 1, 0], &[(1, 2), (2, 1)]);
    cases.same(merge_of(&appendix(BYPASS)), p7, none);
    let three = vec![entry(subnet_web(), BYPASS | ESP), entry(web(), ESP), entry(ALL, DISCARD)];
    cases.same(merge_of(&appendix(BYPASS | DISCARD)), Ok(three), none);

    let p9 = [vec![entry(ALL, DISCARD), entry(ALL, BYPASS)]];
    cases.same(merge_of(&p9), Ok(vec![entry(ALL, DISCARD)]), none);

    let icmp = only(4, 1, 1);
    let before = [vec![entry(icmp, 0), entry(ALL, DISCARD)]];
    cases.same(merge_of(&before), conflict([0, 0, 0, 0, 1, 0], &[(1, 0)]), none);
    let after = [vec![entry(ALL, DISCARD), entry(icmp, 0)]];
    cases.same(merge_of(&after), Ok(vec![entry(ALL, DISCARD)]), none);

    let p11 = [vec![entry(only(2, 0, 99), DISCARD), entry(ALL, DISCARD)]];
    cases.same(merge_of(&p11), Ok(vec![entry(ALL, DISCARD)]), none);

    let (remote, fifteen, sixteen) =
        (single_ports(3, 15), single_ports(2, 15), single_ports(2, 16));
    let working = |p: &List| model::working_list(&[p, &remote]).map(|list| list.len());
    cases.same(working(&fifteen), Ok(256), none);
    cases.same(working(&sixteen), Err(Refusal::Crowded), none);

    let shown =
        "filed 1 1\nmerged 1\n00000000ffffffff00000000ffffffff0000ffff0000ffff00ff00010003\n";
    for version in VERSIONS {
        let input = [vec![1], file_in(version, &p1)].concat();
        cases.same(model::program(&input), shown.to_string(), none);
    }
    cases.same(model::program(&[]), "refused 0 8\n".to_string(), none);
}

/// What a header is, and the clinic's case: Wish 1 of 02.
fn ports_where_there_are_ports(cases: &mut Cases) {
    let none = || "an example of Wish 1".to_string();
    let looked_up = |list: &List, h| model::lookup(&file(list), &h);

    for p in 0..=255 {
        let has_ports = matches!(p, 6 | 17 | 33 | 132 | 136);
        let protocol = || format!("protocol {p}");
        for d in [IN, OUT] {
            cases.same(is_header(&[1, 2, 0, 0, p, d]), true, protocol);
            for ports in [(80, 0), (0, 80), (1, 65535)] {
                cases.same(is_header(&[1, 2, ports.0, ports.1, p, d]), has_ports, protocol);
            }
        }
    }

    // One party speaks of local port 80, the other of GRE, and no header is both.
    let (port, gre) = (only(2, 80, 80), only(4, 47, 47));
    let clinic = [
        vec![entry(port, BYPASS), entry(ALL, BYPASS | DISCARD)],
        vec![entry(gre, DISCARD), entry(ALL, BYPASS | DISCARD)],
    ];
    let three = vec![entry(port, BYPASS), entry(gre, DISCARD), entry(ALL, BYPASS | DISCARD)];
    cases.same(merge_of(&clinic), Ok(three), none);
    let mut tcp = clinic.clone();
    tcp[1][0].selector = only(4, 6, 6);
    cases.same(merge_of(&tcp), conflict([0, 0, 80, 0, 6, 0], &[(1, 0), (2, 0)]), none);

    // Protocols 0 to 5 are matched with port 0 alone, and they have no other.
    let mut zero = only(2, 0, 0);
    zero.high[3] = 0;
    let covering = vec![entry(zero, DISCARD), entry(only(4, 6, 255), DISCARD)];
    cases.same(model::gap(&covering), Ok(()), none);
    let gap = vec![entry(zero, DISCARD), entry(only(4, 7, 255), DISCARD)];
    cases.same(model::gap(&gap), Err(Refusal::Gap([0, 0, 0, 1, 6, 0])), none);

    // Lookup: uncaught, but the file is checked first.
    cases.same(looked_up(&clinic[0], [0, 0, 80, 0, 47, 0]), Ok(None), none);
    cases.same(looked_up(&clinic[0], [0, 0, 80, 0, 17, 0]), Ok(Some(0)), none);
    cases.same(looked_up(&clinic[0], [0, 0, 0, 0, 47, 0]), Ok(Some(1)), none);
    let crossed = vec![entry(ALL, DISCARD), entry(only(4, 5, 4), DISCARD)];
    cases.same(looked_up(&crossed, [0, 0, 80, 0, 47, 0]), Err(Refusal::Crossed(1)), none);

    // Pairs that match no header are dropped before the working list is counted.
    for crowd in &CROWDS[CROWDS.len() - 2..] {
        let lists: Vec<List> = crowd.iter().map(|(f, n)| single_ports(*f, *n)).collect();
        let working = model::working_list(&slices(&lists));
        cases.same(working.map(|list| list.len()), Ok(256), none);
    }
}

// ---------------------------------------------------------------- one action to install: Wish 2 of 02

/// An entry for a range of local addresses, all else being whole.
fn addresses(low: u32, high: u32, actions: u16) -> Entry {
    entry(only(0, low, high), actions)
}

fn turned(ranking: &[u8]) -> Vec<u8> {
    ranking.iter().rev().copied().collect()
}

/// Entry 0 catches 0 to 9, which entry 1 matches too, and entry 1 catches 10 to 14, which entry 2
/// matches too. Where all three have one set, entry 0 or entry 1 can be struck, but not both.
fn overlapping() -> List {
    vec![
        addresses(0, 9, DISCARD | BYPASS),
        addresses(0, 14, DISCARD | ESP),
        addresses(10, u32::MAX, DISCARD),
    ]
}

fn one_action_to_install(cases: &mut Cases) {
    let none = || "an example of Wish 2".to_string();

    // P8 again. With ESP as the best action, entry 1 says of the subnet what entry 0 says.
    let p8 = appendix(BYPASS | DISCARD);
    let esp_first = [2, 1, 0, 3, 4, 5, 6, 7, 8, 9, 10, 11, 12, 13, 14, 15];
    let two = vec![entry(web(), ESP), entry(ALL, DISCARD)];
    cases.same(install_of(&p8, &esp_first), Ok(two), none);
    let three = vec![entry(subnet_web(), BYPASS), entry(web(), ESP), entry(ALL, DISCARD)];
    cases.same(install_of(&p8, &turned(&esp_first)), Ok(three), none);

    // The last that can be struck is; from first to last it would be entry 0.
    let lists = [overlapping()];
    cases.same(merge_of(&lists), Ok(overlapping()), none);
    let two = vec![addresses(0, 9, DISCARD), addresses(10, u32::MAX, DISCARD)];
    cases.same(install_of(&lists, &RISING), Ok(two), none);
    let three =
        vec![addresses(0, 9, BYPASS), addresses(0, 14, ESP), addresses(10, u32::MAX, DISCARD)];
    cases.same(install_of(&lists, &turned(&RISING)), Ok(three), none);

    // Merging strikes entry 0, as entry 1 has its set. Had one action been taken before that, entry 1
    // could be struck, beside entries 0 and 2, and entry 0 would stay.
    let twice = [vec![
        addresses(0, 9, DISCARD | BYPASS),
        addresses(0, 19, DISCARD | BYPASS),
        addresses(10, 24, DISCARD),
        entry(ALL, ESP),
    ]];
    let three = vec![addresses(0, 19, DISCARD), addresses(10, 24, DISCARD), entry(ALL, ESP)];
    cases.same(install_of(&twice, &RISING), Ok(three), none);

    // Of all actions, the first of the ranking.
    for first in 0..16 {
        let mut ranking = RISING;
        ranking.rotate_left(first);
        let installed = install_of(&[vec![entry(ALL, 0xffff)]], &ranking);
        cases.same(installed, Ok(vec![entry(ALL, 1 << first)]), none);
    }
}

/// Bytes that are no ranking: too few, too many, a number twice, a number above 15. The last two would
/// be one if only the last four bits of a number counted.
fn not_rankings() -> Vec<Vec<u8>> {
    let mut bad = vec![vec![], RISING[..15].to_vec(), vec![0; 16]];
    for more in [&[0][..], &[16], &RISING, &[0; 256]] {
        bad.push([&RISING, more].concat());
    }
    for (i, number) in [(0, 1), (15, 14), (0, 16), (15, 255)] {
        let mut ranking = RISING.to_vec();
        ranking[i] = number;
        bad.push(ranking);
    }
    bad
}

fn refusals_of_installing(cases: &mut Cases) {
    let none = || "the order of the refusals".to_string();
    let clash = [vec![entry(ALL, BYPASS)], vec![entry(ALL, DISCARD)]];
    let crowd = [single_ports(2, 16), single_ports(3, 15)];
    for ranking in not_rankings() {
        for lists in [&[][..], &clash, &crowd, &[overlapping()]] {
            cases.same(install_of(lists, &ranking), Err(Refusal::Ranking), none);
        }
        let empty = Bench::default().install(&ranking, &mut []);
        cases.same(empty, Err(Refusal::Ranking), none);
    }
    cases.same(install_of(&[], &RISING), Err(Refusal::Bare), none);
    cases.same(Bench::default().install(&RISING, &mut []), Err(Refusal::Bare), none);
    cases.same(install_of(&crowd, &RISING), Err(Refusal::Crowded), none);
    cases.same(install_of(&clash, &RISING), conflict([0; 6], &[(1, 0), (2, 0)]), none);
}

/// How long the buffer has to be: three entries have a file of 95 bytes, two one of 65.
fn room_to_install(cases: &mut Cases) {
    let mut bench = Bench::default();
    cases.same(bench.file(1, &file_in(1, &overlapping())), Ok(3), || "filing".into());
    let falling = turned(&RISING);
    for (ranking, length, expected) in [
        (&RISING[..], 0, Err(Refusal::Narrow(65))),
        (&RISING, 64, Err(Refusal::Narrow(65))),
        (&RISING, 65, Ok((2, 65))),
        (&RISING, 94, Ok((2, 65))),
        (&RISING, 100, Ok((2, 65))),
        (&falling, 94, Err(Refusal::Narrow(95))),
        (&falling, 95, Ok((3, 95))),
    ] {
        let case = || format!("{length} bytes for installing by {ranking:?}");
        let mut buffer = vec![0x77; length];
        let written = expected.as_ref().map_or(0, |(_, length)| *length);
        cases.same(bench.install(ranking, &mut buffer), expected, case);
        cases.same(buffer[written..].iter().all(|b| *b == 0x77), true, case);
    }
    cases.same(bench.merge(&mut [0; 94]), Err(Refusal::Narrow(95)), || "merging".into());
    cases.same(bench.merge(&mut [0; 95]), Ok((3, 95)), || "merging".into());
}

// ---------------------------------------------------------------- inbound and outbound: Wish 4 of 02

/// ALL for a range of directions.
fn ways(low: u32, high: u32, actions: u16) -> Entry {
    entry(only(DIRECTION, low, high), actions)
}

fn bytes_of(hexadecimal: &str) -> Vec<u8> {
    let digits: Vec<u8> = hexadecimal.bytes().filter(|digit| *digit != b' ').collect();
    let byte = |pair: &[u8]| u8::from_str_radix(std::str::from_utf8(pair).unwrap(), 16).unwrap();
    digits.chunks(2).map(byte).collect()
}

/// One entry for all headers, or in version 2 for those in direction 1.
const ONE: &str = "001f 01 0001  00000000ffffffff 00000000ffffffff 0000ffff 0000ffff 00ff 0003";
const TWO: &str =
    "0021 02 0001  00000000ffffffff 00000000ffffffff 0000ffff 0000ffff 00ff 0101 0003";

fn files_of_both_versions(cases: &mut Cases) {
    let none = || "files of Wish 4".to_string();
    let (one, two) = (bytes_of(ONE), bytes_of(TWO));
    let read = |version, low, high| Versioned { version, entries: vec![ways(low, high, 3)] };
    cases.same(model::read(&one, 256), Ok(read(1, IN, OUT)), none);
    cases.same(model::read(&two, 256), Ok(read(2, OUT, OUT)), none);
    for file in [&one, &two] {
        let mut buffer = vec![9; file.len()];
        cases.same(model::rewrite(file, &mut buffer), Ok(file.len()), none);
        cases.same(&buffer, file, none);
        let one_short = model::rewrite(file, &mut buffer[1..]);
        cases.same(one_short, Err(Refusal::Narrow(file.len())), none);
    }
    // The other version's record is too short or too long, and other bytes are no version.
    for (file, version, refusal) in [
        (&one, 2, Refusal::Count),
        (&two, 1, Refusal::Count),
        (&one, 0, Refusal::Version),
        (&two, 3, Refusal::Version),
        (&two, 255, Refusal::Version),
    ] {
        let mut file = file.clone();
        file[2] = version;
        cases.same(model::read(&file, 256), Err(refusal), none);
    }
    // 15 records of version 1 have as many bytes as 14 of version 2.
    for (version, count, expected) in [
        (1, 15, Ok(15)),
        (1, 14, Err(Refusal::Count)),
        (2, 14, Ok(14)),
        (2, 15, Err(Refusal::Count)),
    ] {
        // Every range is one of equal numbers, wherever a record starts.
        let file = [vec![0x01, 0xa7, version, 0, count], vec![0; 420]].concat();
        cases.same(model::read(&file, 256).map(|list| list.entries.len()), expected, none);
    }
    cases.same(model::LONGEST_FILE, 7685, none);
    cases.same(file(&vec![ways(0, 1, 1); 32]).len(), 965, none);
    cases.same(file_in(1, &vec![ways(0, 1, 1); 32]).len(), 901, none);
}

/// Directions in a file, in a box and in a table: what counts as crossed.
fn directions_above_1(cases: &mut Cases) {
    let h = |direction| [7, 8, 0, 0, 9, direction];
    for low in [0, 1, 2, 3, 128, 255] {
        for high in [0, 1, 2, 3, 128, 255] {
            let case = || format!("directions {low} to {high}");
            let is_good = matches!((low, high), (0, 0) | (0, 1) | (1, 1));
            let list = [entry(ALL, DISCARD), ways(low, high, BYPASS)];
            let read = model::read(&file(&list), 256);
            cases.same(read.err(), (!is_good).then_some(Refusal::Crossed(1)), case);
            let first =
                (0..2).find(|d| is_good && low <= *d && *d <= high).map(|d| [0, 0, 0, 0, 0, d]);
            let within = only(DIRECTION, low, high);
            let (all, found) = (bytes_of(ONE), first.map(|h| (h, Some(0))));
            cases.same(model::search(&all, &within, Want::CaughtBy(0)), Ok(found), case);
            cases.same(model::search(&all, &within, Want::Differing(9)), Ok(found), case);
            for d in [0, 1, 2, 255] {
                let found = model::lookup_in_table(&list[1..], &h(d));
                let matches = is_good && d <= 1 && low <= d && d <= high;
                cases.same(found, matches.then_some(0), case);
            }
        }
    }
    // A header has direction 0 or 1, in either version, and a file is checked first.
    for (d, caught, part) in [(0, 0, 28), (1, 0, 28), (2, 256, 0), (3, 256, 0), (255, 256, 0)] {
        let case = || format!("direction {d}");
        let (one, two) = (bytes_of(ONE), bytes_of(TWO));
        cases.same(is_header(&h(d)), d <= 1, case);
        cases.same(model::lookup_number(&one, &h(d)), caught, case);
        cases.same(model::lookup_part(&one, &h(d)).1, part, case);
        cases.same(model::lookup_number(&two, &h(d)), if d == 1 { 0 } else { 256 }, case);
        cases.same(model::lookup_part(&two, &h(d)).1, if d == 1 { 30 } else { 0 }, case);
        cases.same(model::lookup_number(&one[1..], &h(d)), 257, case);
    }
}

/// Writing makes checks 2, 3, 4 and 11, and in version 1 has no directions but both.
fn writing_in_a_version(cases: &mut Cases) {
    let (both, out, crossed) = (ways(0, 1, 3), ways(1, 1, 3), entry(only(4, 5, 4), 3));
    let (odd, many) = (ways(0, 2, 3), vec![both; 256]);
    for (version, count, list, expected) in [
        (1, 1, vec![both], Err(Refusal::Narrow(33))),
        (2, 1, vec![both], Err(Refusal::Narrow(35))),
        (2, 2, vec![both, out], Err(Refusal::Narrow(65))),
        (1, 2, vec![both, out], Err(Refusal::Crossed(1))),
        (1, 2, vec![ways(0, 0, 3), both], Err(Refusal::Crossed(0))),
        (1, 3, vec![both, out, crossed], Err(Refusal::Crossed(1))),
        (1, 3, vec![both, crossed, out], Err(Refusal::Crossed(1))),
        (2, 3, vec![both, out, crossed], Err(Refusal::Crossed(2))),
        (2, 2, vec![out, odd], Err(Refusal::Crossed(1))),
        (1, 2, vec![both, odd], Err(Refusal::Crossed(1))),
        (0, 0, vec![], Err(Refusal::Version)),
        (3, 0, vec![], Err(Refusal::Version)),
        (3, 257, many.clone(), Err(Refusal::Version)),
        (255, 1, vec![odd], Err(Refusal::Version)),
        (1, 0, vec![], Err(Refusal::Count)),
        (2, 0, vec![], Err(Refusal::Count)),
        (1, 257, many.clone(), Err(Refusal::Count)),
        (2, 1000, vec![odd; 256], Err(Refusal::Count)),
        (1, 256, many.clone(), Err(Refusal::Narrow(7173))),
        (2, 256, many, Err(Refusal::Narrow(7685))),
    ] {
        let case = || format!("writing {count} in version {version}: {list:?}");
        cases.same(model::write(version, count, &list, &mut [0; 2]), expected.clone(), case);
        if let Err(Refusal::Narrow(needed)) = expected {
            let mut buffer = vec![0; needed];
            cases.same(model::write(version, count, &list, &mut buffer), Ok(needed), case);
            let read = Versioned { version, entries: list.clone() };
            cases.same(model::read(&buffer, 256), Ok(read), case);
        }
    }
}

/// The order of headers, gaps, conflicts and comparisons that are in one direction alone.
fn one_direction_alone(cases: &mut Cases) {
    let none = || "an example of Wish 4".to_string();
    let either = DISCARD | BYPASS;
    for (list, gap) in [
        (vec![ways(0, 0, 1)], [0, 0, 0, 0, 0, 1]),
        (vec![ways(1, 1, 1)], [0, 0, 0, 0, 0, 0]),
        (vec![ways(0, 0, 1), entry(only(4, 0, 254), 1)], [0, 0, 0, 0, 255, 1]),
    ] {
        cases.same(model::gap(&list), Err(Refusal::Gap(gap)), none);
    }
    cases.same(model::gap(&[ways(1, 1, 1), ways(0, 0, 1)]), Ok(()), none);
    // Out with protocol 0 comes before in with protocol 1: the direction is compared last.
    let (mut zero_in, mut one_out) = (only(4, 0, 0), only(4, 1, 1));
    (zero_in.high[DIRECTION], one_out.low[DIRECTION]) = (IN, OUT);
    let list = vec![entry(zero_in, 1), entry(one_out, 1), entry(only(4, 2, 255), 1)];
    cases.same(model::gap(&list), Err(Refusal::Gap([0, 0, 0, 0, 0, 1])), none);

    // In conflict for one direction; the second list speaks of both.
    let (first, second) = (vec![ways(1, 1, BYPASS), entry(ALL, either)], vec![entry(ALL, DISCARD)]);
    let lists = [first.clone(), second.clone()];
    cases.same(merge_of(&lists), conflict([0, 0, 0, 0, 0, 1], &[(1, 0), (2, 0)]), none);
    // Apart, and so not in conflict; the pair of the last entries catches nothing.
    let apart = [first.clone(), vec![ways(0, 0, DISCARD), entry(ALL, either)]];
    let merged = vec![ways(1, 1, BYPASS), ways(0, 0, DISCARD)];
    cases.same(merge_of(&apart), Ok(merged), none);
    let alike = [first.clone(), vec![entry(ALL, either)]];
    cases.same(merge_of(&alike), Ok(first.clone()), none);

    // A file of version 1 beside one of version 2.
    let (one, two) = (file_in(1, &second), file(&first));
    for (length, written) in [(13, 0), (14, 14), (15, 14)] {
        let mut buffer = vec![0xee; length];
        cases.same(model::compare_number(&one, &two, &mut buffer), 1, none);
        let header = header_bytes(&[0, 0, 0, 0, 0, 1]);
        let expected = [&header[..written], &vec![0xee; length - written]].concat();
        cases.same(buffer, expected, none);
    }
    cases.same(model::compare_number(&one, &file_in(1, &first), &mut []), 1, none);
    cases.same(model::compare_number(&one, &one, &mut []), 0, none);
    cases.same(model::compare(&two, &one), Ok(Some([0, 0, 0, 0, 0, 0])), none);
    cases.same(model::compare(&two, &file(&[entry(ALL, either)])), Ok(None), none);
}

/// What is merged and installed is of version 2, whatever was filed.
fn merged_in_version_2(cases: &mut Cases) {
    let expected =
        bytes_of(&ONE.replace("001f 01", "0021 02").replace("00ff 0003", "00ff 0001 0003"));
    let list = vec![ways(0, 1, 3)];
    for versions in [[1, 1], [1, 2], [2, 1], [2, 2]] {
        let mut bench = Bench::default();
        for (party, version) in [4, 7].into_iter().zip(versions) {
            let case = || format!("filing of version {version}");
            cases.same(bench.file(party, &file_in(version, &list)), Ok(1), case);
        }
        let case = || format!("merging of versions {versions:?}");
        let mut buffer = vec![0x77; 36];
        cases.same(bench.merge(&mut buffer[..34]), Err(Refusal::Narrow(35)), case);
        cases.same(bench.merge(&mut buffer), Ok((1, 35)), case);
        cases.same(&buffer, &[&expected[..], &[0x77]].concat(), case);
        cases.same(bench.install(&RISING, &mut buffer), Ok((1, 35)), case);
        cases.same((buffer[2], &buffer[31..35]), (2, &[0, 1, 0, 1][..]), case);
    }
}

fn inbound_and_outbound(cases: &mut Cases) {
    files_of_both_versions(cases);
    directions_above_1(cases);
    writing_in_a_version(cases);
    one_direction_alone(cases);
    merged_in_version_2(cases);
}

// ---------------------------------------------------------------- whose entries clash: Wish 5 of 02

/// Lists of parties 2, 5 and 8 that clash at local port 80 with TCP. Of party 2, entry 0 matches no header
/// and entry 2 catches none: ports 0 to 79 are entry 1's.
fn three_parties() -> [(u8, List); 3] {
    let mut gre = only(2, 80, 80);
    (gre.low[4], gre.high[4]) = (47, 47);
    let either = entry(ALL, DISCARD | BYPASS);
    let second = vec![
        entry(gre, DISCARD),
        entry(only(2, 0, 79), DISCARD),
        entry(only(2, 10, 70), 0),
        entry(web(), BYPASS),
        either,
    ];
    let icmp = entry(only(4, 1, 1), DISCARD);
    let eighth = vec![icmp, entry(only(4, 6, 6), DISCARD), either];
    [(2, second), (5, vec![icmp, either]), (8, eighth)]
}

/// Party 5 is named too, which allows both actions; party 1, which withdraws, is not.
fn whose_entries_clash(cases: &mut Cases) {
    let none = || "an example of Wish 5".to_string();
    let lists = three_parties();
    let filed: Vec<Filed> = lists.iter().map(|(party, list)| (*party, &list[..])).collect();
    let expected = conflict([0, 0, 80, 0, 6, 0], &[(2, 3), (5, 1), (8, 1)]);
    cases.same(model::merged_list(&filed), expected.clone(), none);
    cases.same(model::installed_list(&filed, &RISING), expected, none);

    // The order of the filings does not matter.
    for order in [[0, 1, 2], [2, 0, 1], [2, 1, 0]] {
        let records = order.map(|i| [vec![lists[i].0], file(&lists[i].1)].concat());
        let shown = model::program(&records.concat());
        let last = "refused 0 10 0000000000000000005000000600 2:3 5:1 8:1";
        cases.same(shown.lines().last(), Some(last), none);

        let mut bench = Bench::default();
        cases.same(bench.file(1, &file(&[entry(ALL, DISCARD)])), Ok(1), none);
        for i in order {
            let (party, list) = &lists[i];
            cases.same(bench.file(*party, &file(list)), Ok(list.len()), none);
        }
        cases.same(bench.withdraw(1), Ok(()), none);
        let buffer = Buffer { length: 1, fill: 0xaa };
        let ranking = Bytes(RISING.to_vec());
        for call in [Call::Merge { buffer }, Call::Install { ranking, buffer }] {
            let line = answer(&mut bench, &call);
            cases.same(line.as_str(), "no 10 0 0 80 0 6 0 2 3 5 1 8 1 = aa", none);
        }
    }
}

/// Eight parties, and numbers of two digits.
fn longest_of_conflicts(cases: &mut Cases) {
    let lists = longest_conflict();
    let named: Vec<(u8, usize)> = (1..=8).map(|party| (party, 31)).collect();
    let case = || "the longest conflict".to_string();
    cases.same(merge_of(&lists), conflict(LAST_HEADER, &named), case);
    let records = (1..=8).zip(&lists).map(|(party, list)| [vec![party], file(list)].concat());
    let shown = model::program(&records.collect::<Vec<_>>().concat());
    let last = "refused 0 10 ffffffffffffffffffffffff8801 1:31 2:31 3:31 4:31 5:31 6:31 7:31 8:31";
    cases.same(shown.lines().last(), Some(last), case);
}

/// What a search finds, and what catches it: entry 1 matches no more than entry 0 does.
fn what_a_search_finds(cases: &mut Cases) {
    let list = [entry(only(4, 0, 9), 1), entry(only(4, 5, 9), 2), entry(only(4, 5, 20), 2)];
    let protocol = |p, entry| Some(([0, 0, 0, 0, p, 0], entry));
    for (first, want, found) in [
        (0, Want::Uncaught, protocol(21, None)),
        (0, Want::CaughtBy(0), protocol(0, Some(0))),
        (5, Want::CaughtBy(0), protocol(5, Some(0))),
        (0, Want::CaughtBy(1), None),
        (0, Want::CaughtBy(2), protocol(10, Some(2))),
        (0, Want::CaughtBy(3), None),
        (5, Want::Differing(2), protocol(5, Some(0))),
        (0, Want::Differing(1), protocol(10, Some(2))),
        (10, Want::Differing(2), protocol(21, None)),
    ] {
        let case = || format!("{want:?} from protocol {first} on, an example of Wish 5");
        let within = only(4, first, 255);
        cases.same(model::search(&file(&list), &within, want), Ok(found), case);
    }
}

// ---------------------------------------------------------------- trying a filing first: Wish 6 of 02

fn bench_of(filed: &[(u8, List)]) -> Bench {
    let mut bench = Bench::default();
    for (party, list) in filed {
        bench.file(*party, &file(list)).expect("a good list");
    }
    bench
}

/// The line of a trial into so many bytes of aa.
fn tried_line(bench: &mut Bench, party: u8, file: &[u8], length: usize) -> String {
    let buffer = Buffer { length, fill: 0xaa };
    answer(bench, &Call::Trial { party, file: Bytes(file.to_vec()), buffer })
}

/// The line of a merging into as many.
fn merged_line(bench: &mut Bench, length: usize) -> String {
    answer(bench, &Call::Merge { buffer: Buffer { length, fill: 0xaa } })
}

/// What such a line is where this list is written.
fn written_line(list: &[Entry], length: usize) -> String {
    let mut bytes = file(list);
    let needed = bytes.len();
    bytes.resize(length, 0xaa);
    format!("ok {} {needed} = {}", list.len(), hexadecimal(&bytes))
}

/// The tried list is merged in its party's place, in that of the party's own list where it has one, and
/// the bench merges afterwards as it did before.
fn tried_in_its_place(cases: &mut Cases) {
    let none = || "an example of Wish 6".to_string();
    let all = |actions| vec![entry(ALL, actions)];

    // P9's list alone, on a bench that stays bare.
    let mut bench = Bench::default();
    let p9 = file(&[entry(ALL, DISCARD), entry(ALL, BYPASS)]);
    cases.same(tried_line(&mut bench, 8, &p9, 36), written_line(&all(DISCARD), 36), none);
    cases.same(merged_line(&mut bench, 1), "no 8 = aa".to_string(), none);

    // Party 2's own list and the tried one have nothing in common.
    let mut bench = bench_of(&[(1, all(DISCARD | BYPASS)), (2, all(DISCARD))]);
    for version in VERSIONS {
        let tried = file_in(version, &all(BYPASS));
        let line = tried_line(&mut bench, 2, &tried, 36);
        cases.same(line, written_line(&all(BYPASS), 36), none);
        cases.same(merged_line(&mut bench, 36), written_line(&all(DISCARD), 36), none);
    }

    // Pairs come in the order of the parties. That of both first entries is struck: it has the set of the
    // pair behind it that matches all of its headers.
    let (few, tcp) = (addresses(0, 9, DISCARD), entry(only(4, 6, 6), DISCARD));
    let either = entry(ALL, DISCARD | BYPASS);
    let mut bench = bench_of(&[(5, vec![tcp, either])]);
    let tried = file(&[few, either]);
    for (party, merged) in
        [(3, vec![few, tcp, either]), (5, vec![few, either]), (7, vec![tcp, few, either])]
    {
        let line = tried_line(&mut bench, party, &tried, 100);
        cases.same(line, written_line(&merged, 100), none);
        cases.same(merged_line(&mut bench, 100), written_line(&[tcp, either], 100), none);
    }
}

/// A conflict names the tried file's entry, whether its party has a list on the bench or not.
fn tried_in_conflict(cases: &mut Cases) {
    let none = || "a conflict of Wish 6".to_string();
    // P6, but for an entry before: header 0,0,0,0,0,0 is entry 1's.
    let tried = file(&[entry(only(4, 1, 1), BYPASS), entry(ALL, DISCARD)]);
    let bypass = vec![entry(ALL, BYPASS)];
    for filed in [vec![(1, bypass.clone())], vec![(1, bypass.clone()), (2, bypass.clone())]] {
        let mut bench = bench_of(&filed);
        let line = tried_line(&mut bench, 2, &tried, 1);
        cases.same(line.as_str(), "no 10 0 0 0 0 0 0 1 0 2 1 = aa", none);
        cases.same(merged_line(&mut bench, 36), written_line(&bypass, 36), none);
    }
    // P10 by a party that is alone, and P7 by the first and by the second party.
    let p10 = file(&[entry(only(4, 1, 1), 0), entry(ALL, DISCARD)]);
    let line = tried_line(&mut Bench::default(), 8, &p10, 0);
    cases.same(line.as_str(), "no 10 0 0 0 0 1 0 8 0 = ", none);
    let [a, b] = appendix(BYPASS);
    for (filed, party, tried) in [((2, b.clone()), 1, &a), ((1, a.clone()), 2, &b)] {
        let line = tried_line(&mut bench_of(&[filed]), party, &file(tried), 0);
        cases.same(line.as_str(), "no 10 0 0 0 0 1 0 1 2 2 1 = ", none);
    }
}

/// Files for each of refusals 1 to 5, most of them wrong also in what is asked later, and what filing
/// answers.
fn unfiled() -> Vec<(Vec<u8>, &'static str)> {
    let (crossed, few) = (entry(only(4, 5, 4), DISCARD), entry(only(4, 0, 254), DISCARD));
    let with_version = |list: &[Entry]| {
        let mut bytes = file(list);
        bytes[2] = 3;
        bytes
    };
    let mut longer = with_version(&[crossed; 33]);
    longer.push(0);
    vec![
        (vec![], "no 1"),
        (longer, "no 1"),
        (with_version(&[crossed; 33]), "no 2"),
        (file(&[]), "no 3"),
        (file(&[crossed; 33]), "no 3"),
        (file_in(1, &[entry(ALL, DISCARD); 33]), "no 3"),
        (file(&[few, crossed, crossed]), "no 4 1"),
        (file_in(1, &[crossed]), "no 4 0"),
        (file(&[few, few]), "no 5 0 0 0 0 255 0"),
        (file(&[few, entry(only(5, 0, 0), DISCARD)]), "no 5 0 0 0 0 255 1"),
    ]
}

/// Filing's refusals come first, 6 before 1 to 5, and nothing is merged then, whatever the bench would
/// merge to.
fn unfiled_trials(cases: &mut Cases) {
    let clash = [(1, vec![entry(ALL, BYPASS)]), (2, vec![entry(ALL, DISCARD)])];
    let crowd = [(1, single_ports(2, 16)), (2, single_ports(3, 15))];
    let good = [(4, vec![entry(ALL, DISCARD | BYPASS)])];
    let merged = written_line(&good[0].1, 36);
    for (filed, merging) in [
        (&[][..], format!("no 8 = {}", "aa".repeat(36))),
        (&crowd, format!("no 9 = {}", "aa".repeat(36))),
        (&clash, format!("no 10 0 0 0 0 0 0 1 0 2 0 = {}", "aa".repeat(36))),
        (&good, merged),
    ] {
        let mut bench = bench_of(filed);
        for (bytes, refusal) in unfiled() {
            let case = || format!("a trial of {bytes:?}");
            for (party, refusal) in
                [(0, "no 6"), (9, "no 6"), (255, "no 6"), (1, refusal), (4, refusal), (8, refusal)]
            {
                let line = tried_line(&mut bench, party, &bytes, 36);
                cases.same(line, format!("{refusal} = {}", "aa".repeat(36)), case);
            }
            cases.same(merged_line(&mut bench, 36), merging.clone(), case);
        }
    }
    // What is wrong is the party alone, and 32 entries are not too many.
    let most = file(&[entry(ALL, DISCARD); 32]);
    let mut bench = bench_of(&good);
    for party in [0, 9, 255] {
        let line = tried_line(&mut bench, party, &most, 1);
        cases.same(line.as_str(), "no 6 = aa", || format!("a trial for party {party}"));
    }
    let line = tried_line(&mut bench, 8, &most, 36);
    cases.same(line, written_line(&[entry(ALL, DISCARD)], 36), || "32 entries".into());
}

/// 9 and 11 are about the copy. Of 15 single local ports and 15 single remote ones each is needed, with
/// ALL; a pair of two single ports is not, since it has the set of the local port.
fn room_for_trials(cases: &mut Cases) {
    let none = || "a trial's room".to_string();
    let (fifteen, sixteen) = (single_ports(2, 15), single_ports(2, 16));
    let remote = single_ports(3, 15);
    let merged = [&fifteen[..15], &remote].concat();
    let line = written_line(&merged, 935);

    // As many as fit, one too many, and too many on the bench, but not in the copy.
    let mut bench = bench_of(&[(1, fifteen.clone())]);
    cases.same(tried_line(&mut bench, 2, &file(&remote), 935), line.clone(), none);
    cases.same(merged_line(&mut bench, 485), written_line(&fifteen, 485), none);
    let mut bench = bench_of(&[(1, fifteen.clone()), (2, remote.clone())]);
    cases.same(tried_line(&mut bench, 1, &file(&sixteen), 1).as_str(), "no 9 = aa", none);
    cases.same(merged_line(&mut bench, 935), line.clone(), none);
    let mut bench = bench_of(&[(1, sixteen), (2, remote)]);
    cases.same(tried_line(&mut bench, 1, &file(&fifteen), 935), line, none);
    cases.same(merged_line(&mut bench, 1).as_str(), "no 9 = aa", none);

    // Three entries have 95 bytes; the bench alone needs 35.
    let mut bench = bench_of(&[(1, vec![entry(ALL, DISCARD | BYPASS | ESP)])]);
    let tried = file_in(1, &overlapping());
    for length in [0, 35, 94] {
        let line = tried_line(&mut bench, 2, &tried, length);
        cases.same(line, format!("no 11 95 = {}", "aa".repeat(length)), none);
    }
    for length in [95, 96, 200] {
        let line = tried_line(&mut bench, 2, &tried, length);
        cases.same(line, written_line(&overlapping(), length), none);
    }
    cases.same(bench.merge(&mut [0; 35]), Ok((1, 35)), none);
}

fn trying_a_filing_first(cases: &mut Cases) {
    tried_in_its_place(cases);
    tried_in_conflict(cases);
    unfiled_trials(cases);
    room_for_trials(cases);
}

// ---------------------------------------------------------------- small header spaces

/// How often it mattered what a header is.
#[derive(Default, Debug)]
struct Apart {
    /// Lists that match all headers and not all combinations.
    covering: usize,
    /// Entries that match no header.
    headerless: usize,
    /// Searches that would find an earlier combination.
    searches: usize,
    /// Lookups of no header that some entry matches.
    lookups: usize,
    /// Lists that merge, though some combination has no action in common.
    merged: usize,
    /// Conflicts at another header than the least such combination.
    conflicts: usize,
}

/// How often the direction mattered.
#[derive(Default, Debug)]
struct Ways {
    /// Lists read from version 1, and from version 2.
    short: usize,
    long: usize,
    /// Gaps, findings and conflicts that are out.
    gaps: usize,
    findings: usize,
    conflicts: usize,
    /// Boxes with a direction above 1 that would have been found in with its other ranges.
    searches: usize,
    /// Lookups with a direction above 1 that another direction would have caught.
    lookups: usize,
    /// Merged lists that would be others, were all entries for both directions.
    merged: usize,
}

impl Ways {
    fn counts(&self) -> [usize; 8] {
        let Ways { short, long, gaps, findings, conflicts, searches, lookups, merged } = *self;
        [short, long, gaps, findings, conflicts, searches, lookups, merged]
    }
}

fn is_out(h: &Header) -> bool {
    h[DIRECTION] == OUT
}

/// What the first entry that matches allows, header or not.
fn matched(list: &[Entry], h: &Header) -> Option<u16> {
    list.iter().find(|e| holds(&e.selector, h)).map(|e| e.actions)
}

/// The least combination without an action in common.
fn least_clash(lists: &[List], all: &[Header]) -> Option<Header> {
    let common = |h: &Header| {
        let sets = lists.iter().map(|list| matched(list, h).unwrap_or(0));
        sets.fold(0xffff, |common, set| common & set)
    };
    all.iter().copied().find(|h| common(h) == 0)
}

/// How often installing came to what.
#[derive(Default, Debug)]
struct Installs {
    /// Lists as long as the merged ones.
    as_long: usize,
    /// Lists shorter than the merged ones.
    shorter: usize,
    /// Lists that the ranking's reverse makes otherwise.
    turned: usize,
    /// Lists that would be others if one action were taken before merging strikes.
    struck_twice: usize,
    conflicts: usize,
    bare: usize,
    /// Bytes that are no ranking where lists merge, are in conflict, and are none.
    no_ranking: [usize; 3],
}

impl Installs {
    fn counts(&self) -> Vec<usize> {
        let Installs { as_long, shorter, turned, struck_twice, conflicts, bare, no_ranking } = self;
        let others = [as_long, shorter, turned, struck_twice, conflicts, bare];
        others.into_iter().chain(no_ranking).copied().collect()
    }
}

/// The cells against the points: gaps, searches, lookups, whole mergings and installs.
fn small_spaces(cases: &mut Cases, wanted: usize) {
    let (points, all) = (points(), combinations());
    let mut random = Random::new(1);
    let mut answers = [0usize; 4];
    let (mut apart, mut ways) = (Apart::default(), Ways::default());
    let (mut installs, mut conflicts) = (Installs::default(), BTreeMap::<&str, usize>::new());
    while cases.count < wanted {
        let sets = *random.pick(&[Sets::Any, Sets::With(4), Sets::OneOf(6, 12), Sets::OneOf(5, 6)]);
        let mut lists = vec![];
        for _ in 0..random.between(1, 4) {
            let n = random.between(1, 7) as usize;
            let (version, list) = match small_list(n, sets, &mut random) {
                list if random.one_in(3) => (1, both_ways(&list)),
                list => (2, list),
            };
            assert!(is_small(&list));
            *if version == 1 { &mut ways.short } else { &mut ways.long } += 1;
            let bytes = file_in(version, &list);
            let read = Versioned { version, entries: list.clone() };
            cases.same(model::read(&bytes, 256), Ok(read), || format!("reading of {list:?}"));
            let gap = match least_uncaught(&list, &points) {
                Some(header) => Err(Refusal::Gap(header)),
                None => Ok(()),
            };
            cases.same(model::gap(&list), gap.clone(), || format!("gap of {list:?}"));
            ways.gaps += matches!(gap, Err(Refusal::Gap(h)) if is_out(&h)) as usize;
            search(cases, (&bytes, &list), (&points, &all), (&mut apart, &mut ways), &mut random);
            let mut header = *random.pick(&all);
            if random.one_in(8) {
                header[DIRECTION] = *random.pick(&[2, 3, 255]);
            }
            lookup(cases, (&bytes, &list), header, &points, (&mut apart, &mut ways));
            let matches_none = |e: &&Entry| !points.iter().any(|h| holds(&e.selector, h));
            apart.headerless += list.iter().filter(matches_none).count();
            if gap.is_ok() {
                apart.covering += all.iter().any(|h| matched(&list, h).is_none()) as usize;
                lists.push(list);
            }
        }
        let parties = some_parties(lists.len(), &mut random);
        let filed: Vec<Filed> = parties.into_iter().zip(slices(&lists)).collect();
        let expected = merged(&filed, &points);
        let clash = least_clash(&lists, &all);
        match &expected {
            Ok(list) => {
                apart.merged += clash.is_some() as usize;
                if random.one_in(8) {
                    let both: Vec<List> = lists.iter().map(|list| both_ways(list)).collect();
                    ways.merged += (merge_of(&both).as_ref() != Ok(list)) as usize;
                }
            }
            Err(Refusal::Conflict(h, _)) => {
                apart.conflicts += (clash != Some(*h)) as usize;
                ways.conflicts += is_out(h) as usize;
                for kind in naming::kinds(&filed, h) {
                    *conflicts.entry(kind).or_default() += 1;
                }
            }
            Err(_) => {}
        }
        answers[match &expected {
            Ok(_) => 0,
            Err(Refusal::Conflict(..)) => 1,
            Err(Refusal::Crowded) => 2,
            Err(_) => 3,
        }] += 1;
        let case = || format!("merging of {filed:?}");
        cases.same(model::merged_list(&filed), expected.clone(), case);
        for _ in 0..3 {
            let ranking = some_ranking(&mut random);
            install(cases, &filed, &expected, &ranking, &points, &mut installs);
        }
    }
    println!(
        "  small mergings: {} merged, {} conflicts, {} crowded, {} bare",
        answers[0], answers[1], answers[2], answers[3]
    );
    println!("  conflicts whose entries could be named wrongly: {conflicts:?}");
    // These lists are shorter than ten entries.
    assert_eq!(conflicts.len(), naming::KINDS.len() - 1, "some conflict was never met");
    println!("  where it mattered what a header is: {apart:?}");
    let Apart { covering, headerless, searches, lookups, merged, conflicts } = apart;
    let counts = [covering, headerless, searches, lookups, merged, conflicts];
    assert!(counts.iter().all(|count| *count > 0), "some case was never met");
    println!("  where the direction mattered: {ways:?}");
    assert!(ways.counts().iter().all(|count| *count > 0), "some direction was never met");
    println!("  installs: {installs:?}");
    assert!(installs.counts().iter().all(|count| *count > 0), "some install was never met");
}

/// Installing lists whose merging is known.
fn install(
    cases: &mut Cases,
    filed: &[Filed],
    merged: &Result<List, Refusal>,
    ranking: &[u8],
    points: &[Header],
    installs: &mut Installs,
) {
    let expected = installed(merged.clone(), ranking, points);
    let case = || format!("installing of {filed:?} by {ranking:?}");
    cases.same(model::installed_list(filed, ranking), expected.clone(), case);
    match (&expected, merged) {
        (Ok(list), Ok(merged)) => {
            promises(cases, filed, ranking, list, points);
            installs.as_long += (list.len() == merged.len()) as usize;
            installs.shorter += (list.len() < merged.len()) as usize;
            let turned = installed(Ok(merged.clone()), &turned(ranking), points);
            installs.turned += (turned.as_ref() != Ok(list)) as usize;
            let lists: Vec<&[Entry]> = filed.iter().map(|(_, list)| *list).collect();
            let working = model::working_list(&lists).expect("not crowded");
            let once = struck(keeping_foremost(&working, ranking), points);
            installs.struck_twice += (once != *list) as usize;
        }
        (Err(Refusal::Ranking), Ok(_)) => installs.no_ranking[0] += 1,
        (Err(Refusal::Ranking), Err(Refusal::Conflict(..))) => installs.no_ranking[1] += 1,
        (Err(Refusal::Ranking), Err(Refusal::Bare)) => installs.no_ranking[2] += 1,
        (Err(Refusal::Conflict(..)), _) => installs.conflicts += 1,
        (Err(Refusal::Bare), _) => installs.bare += 1,
        _ => {}
    }
}

/// What is promised of an installed list, point by point: a header gets the best-ranked of the actions
/// that the lists in force allow it, every header is caught, and no entry can be struck.
fn promises(
    cases: &mut Cases,
    filed: &[Filed],
    ranking: &[u8],
    installed: &List,
    points: &[Header],
) {
    let best = |h: &Header| foremost(common_actions(filed, h), ranking);
    let wrong = points.iter().find(|h| allowed(installed, h) != Some(best(h)));
    let case = || format!("{installed:?}, installed of {filed:?} by {ranking:?}");
    cases.same(wrong, None, case);
    cases.same(least_uncaught(installed, points), None, case);
    let needless = (0..installed.len()).find(|k| is_needless(installed, *k, points));
    cases.same(needless, None, case);
}

/// A search in a file of a list, over the points; and over all combinations, to see where it matters.
fn search(
    cases: &mut Cases,
    (file, list): (&[u8], &List),
    (points, all): (&[Header], &[Header]),
    (apart, ways): (&mut Apart, &mut Ways),
    random: &mut Random,
) {
    // The box's own ends have to lie between the points' cells as well.
    let mut within = small_box(&box_near(&small_list(4, Sets::Any, random), random));
    let want = match random.below(3) {
        0 => Want::Uncaught,
        1 => Want::CaughtBy(random.below(8) as usize),
        _ => Want::Differing(*random.pick(&[0, 1, 4, 5, 6, 12])),
    };
    let wanted = |h: &&Header| match want {
        Want::Uncaught => catcher(list, h).is_none(),
        Want::CaughtBy(i) => catcher(list, h) == Some(i),
        Want::Differing(set) => matched(list, h) != Some(set),
    };
    let find = |among: &[Header], within: &Box6| {
        among.iter().filter(wanted).find(|h| holds(within, h)).copied()
    };
    let mut expected = find(points, &within);
    apart.searches += (find(all, &within) != expected) as usize;
    ways.findings += expected.is_some_and(|h| is_out(&h)) as usize;
    if random.one_in(8) {
        ways.searches += expected.take().is_some() as usize;
        leave_directions(&mut within, random);
    }
    let expected = expected.map(|h| (h, catcher(list, &h)));
    cases.same(model::search(file, &within, want), Ok(expected), || {
        format!("{want:?} in {within:?} of {list:?}")
    });
}

/// Lookup of a combination in a file, as a part of it and in a table.
fn lookup(
    cases: &mut Cases,
    (file, list): (&[u8], &List),
    h: Header,
    points: &[Header],
    (apart, ways): (&mut Apart, &mut Ways),
) {
    let first = list.iter().position(|e| holds(&e.selector, &h));
    let expected = first.filter(|_| points.contains(&h));
    apart.lookups += (first != expected) as usize;
    let mut turned = h;
    turned[DIRECTION] = h[DIRECTION].min(OUT);
    ways.lookups += (turned != h && allowed(list, &turned).is_some()) as usize;
    let case = || format!("lookup of {h:?} in {list:?}");
    cases.same(model::lookup(file, &h), Ok(expected), case);
    cases.same(model::lookup_in_table(list, &h), expected, case);
    cases.same(model::lookup_number(file, &h) as usize, expected.unwrap_or(256), case);
    let size = if file[2] == 1 { 28 } else { 30 };
    let part = expected.map_or((0, 0), |i| (5 + size * i, size));
    cases.same(model::lookup_part(file, &h), part, case);
}

/// A list that is to be written, if a lent buffer has room for it.
fn fitting(list: Result<List, Refusal>, lent: &Buffer) -> Result<List, Refusal> {
    let list = list?;
    match file(&list).len() {
        length if length > lent.length => Err(Refusal::Narrow(length)),
        _ => Ok(list),
    }
}

/// What a call answers and leaves in the lent buffer, held against the list that is to be written.
fn written(
    cases: &mut Cases,
    answer: Result<(usize, usize), Refusal>,
    buffer: &[u8],
    lent: &Buffer,
    expected: Result<List, Refusal>,
    script: &[Call],
) {
    let case = || format!("{script:?}");
    let expected = fitting(expected, lent);
    let counted = expected.as_ref().map(|list| (list.len(), file(list).len()));
    let length = answer.as_ref().map_or(0, |(_, length)| *length);
    cases.same(answer, counted.map_err(Refusal::clone), case);
    if let Ok(entries) = expected {
        let list = Versioned { version: 2, entries };
        cases.same(model::read(&buffer[..length], 256), Ok(list), case);
    }
    cases.same(buffer[length..].iter().all(|b| *b == lent.fill), true, case);
}

/// How often a trial came to what.
#[derive(Default, Debug)]
struct Trials {
    /// Lists that a merging of the bench would not come to: the tried one alone, one more than the bench
    /// has, or one in the place of the party's own.
    alone: usize,
    added: usize,
    replaced: usize,
    conflicts: usize,
    narrow: usize,
    /// Filings that are refused, for 1 to 6, and on benches that merge and that do not.
    unfiled: [usize; 6],
    unfiled_on: [usize; 2],
    /// Mergings that would come to something else if the trial before them had stayed on the bench.
    shown: usize,
}

impl Trials {
    fn counts(&self) -> Vec<usize> {
        let Trials { alone, added, replaced, conflicts, narrow, unfiled, unfiled_on, shown } = self;
        let others = [alone, added, replaced, conflicts, narrow, shown];
        others.into_iter().chain(unfiled).chain(unfiled_on).copied().collect()
    }

    /// Counts what a trial came to, where a merging of the bench into its buffer would come to `merging`,
    /// and the party has a list of its `own` or not.
    fn count(&mut self, trial: &Result<List, Refusal>, merging: &Result<List, Refusal>, own: bool) {
        match (trial, merging) {
            (Ok(_), Err(Refusal::Bare)) => self.alone += 1,
            (Ok(_), _) if trial == merging => {}
            (Ok(_), _) if own => self.replaced += 1,
            (Ok(_), _) => self.added += 1,
            (Err(Refusal::Crowded), _) => {}
            (Err(Refusal::Conflict(..)), _) => self.conflicts += 1,
            (Err(Refusal::Narrow(_)), _) => self.narrow += 1,
            (Err(refusal), _) => {
                self.unfiled[refusal.number() as usize - 1] += 1;
                self.unfiled_on[merging.is_err() as usize] += 1;
            }
        }
    }
}

/// A party's list in force, told from the accepted calls: that of its last filing, if it was not
/// withdrawn since.
fn in_force(accepted: &[&Call], party: u8) -> Option<List> {
    let mut last = None;
    for call in accepted {
        match call {
            Call::File { party: p, file } if *p == party => {
                last = model::read(&file.0, 32).ok().map(|list| list.entries)
            }
            Call::Withdraw { party: p } if *p == party => last = None,
            _ => {}
        }
    }
    last
}

/// What a trial comes to: filing's checks, then the merging of the lists in force with the tried one in
/// its party's place, point by point where the points tell all headers apart.
fn tried_list(
    in_force: &[Filed],
    party: u8,
    file: &[u8],
    points: &[Header],
) -> Result<List, Refusal> {
    if !(1..=8).contains(&party) {
        return Err(Refusal::Party);
    }
    let tried = model::read(file, 32)?.entries;
    let others = in_force.iter().copied().filter(|(other, _)| *other != party);
    let mut filed: Vec<Filed> = others.chain([(party, &tried[..])]).collect();
    filed.sort_by_key(|(party, _)| *party);
    if !filed.iter().all(|(_, list)| is_small(list)) {
        model::gap(&tried)?;
        return model::merged_list(&filed);
    }
    match least_uncaught(&tried, points) {
        Some(header) => Err(Refusal::Gap(header)),
        None => merged(&filed, points),
    }
}

/// Whether a trial's filing is refused.
fn is_unfiled(trial: &Result<List, Refusal>) -> bool {
    matches!(trial, Err(refusal) if refusal.number() <= 6)
}

/// What is in force, told from the history of the calls: each party's last accepted filing that
/// was not withdrawn since.
fn histories(cases: &mut Cases, wanted: usize) {
    let (mut random, points) = (Random::new(2), points());
    let end = cases.count + wanted;
    let mut trials = Trials::default();
    // Merged of lists of version 1 alone, of version 2 alone, and of both.
    let mut merged = [0usize; 3];
    while cases.count < end {
        let script = bench_calls(&mut random);
        let mut bench = Bench::default();
        let mut accepted: Vec<&Call> = vec![];
        // What the last trial came to, until a call comes that may change the bench.
        let mut tried: Option<Result<List, Refusal>> = None;
        for call in &script {
            let in_force = |party: u8| in_force(&accepted, party);
            let lists: Vec<(u8, List)> =
                (1..=8).filter_map(|party| Some((party, in_force(party)?))).collect();
            let filed: Vec<Filed> = lists.iter().map(|(party, list)| (*party, &list[..])).collect();
            if let Call::File { .. } | Call::Withdraw { .. } = call {
                tried = None;
            }
            match call {
                Call::File { party, file } => {
                    if bench.file(*party, &file.0).is_ok() {
                        accepted.push(call);
                    }
                }
                Call::Withdraw { party } => {
                    let held = in_force(*party).is_some();
                    let answer = bench.withdraw(*party);
                    cases.same(answer.is_ok(), held, || format!("{script:?}"));
                    if held {
                        accepted.push(call);
                    }
                }
                Call::Merge { buffer: lent } => {
                    let mut buffer = vec![lent.fill; lent.length];
                    let answer = bench.merge(&mut buffer);
                    if answer.is_ok() {
                        let has = |version| bench.versions().contains(&version) as usize;
                        merged[has(1) + 2 * has(2) - 1] += 1;
                    }
                    let expected = model::merged_list(&filed);
                    let stayed = tried.clone().unwrap_or(expected.clone());
                    let is_shown = fitting(stayed, lent) != fitting(expected.clone(), lent);
                    trials.shown += is_shown as usize;
                    written(cases, answer, &buffer, lent, expected, &script);
                }
                Call::Install { ranking, buffer: lent } => {
                    let mut buffer = vec![lent.fill; lent.length];
                    let answer = bench.install(&ranking.0, &mut buffer);
                    let expected = model::installed_list(&filed, &ranking.0);
                    written(cases, answer, &buffer, lent, expected, &script);
                }
                Call::Trial { party, file, buffer: lent } => {
                    let mut buffer = vec![lent.fill; lent.length];
                    let answer = bench.trial(*party, &file.0, &mut buffer);
                    let expected = tried_list(&filed, *party, &file.0, &points);
                    let trial = fitting(expected.clone(), lent);
                    let merging = fitting(model::merged_list(&filed), lent);
                    trials.count(&trial, &merging, in_force(*party).is_some());
                    tried = (!is_unfiled(&expected)).then(|| expected.clone());
                    written(cases, answer, &buffer, lent, expected, &script);
                }
                _ => unreachable!("only calls on the bench"),
            }
        }
    }
    println!("  merged of version 1, of version 2, of both: {merged:?}");
    assert!(merged.iter().all(|count| *count > 0), "some versions were never merged");
    println!("  trials: {trials:?}");
    assert!(trials.counts().iter().all(|count| *count > 0), "some trial was never met");
}

/// Writing, then reading, and writing what was read. Version 1 takes a list for both directions alone.
fn round_trips(cases: &mut Cases, wanted: usize) {
    let mut random = Random::new(3);
    let mut refused = 0;
    for _ in 0..wanted {
        let n = random.between(1, 40) as usize;
        let list = shaped_list(n, Sets::Any, &mut random);
        let case = || format!("writing of {list:?}");
        let both = both_ways(&list);
        for (version, entries) in [(1, &both), (2, &both), (2, &list)] {
            let mut buffer = vec![0x55; 1400];
            let count = entries.len();
            let length = model::write(version, count, entries, &mut buffer).expect("room");
            cases.same(buffer[..length].to_vec(), file_in(version, entries), case);
            let read = Versioned { version, entries: entries.clone() };
            cases.same(model::read(&buffer[..length], 256), Ok(read), case);
            let mut again = vec![0x55; 1400];
            cases.same(model::rewrite(&buffer[..length], &mut again), Ok(length), case);
            cases.same(again, buffer, case);
        }
        if let Some(i) = list.iter().zip(&both).position(|(one, other)| one != other) {
            refused += 1;
            let answer = model::write(1, list.len(), &list, &mut []);
            cases.same(answer, Err(Refusal::Crossed(i)), case);
        }
    }
    println!("  lists that version 1 has no room for: {refused}");
    assert!(refused > 0, "every list was for both directions");
}

/// Calls written in the form of the replay are read as they were, and what ends them is bad.
fn replays(cases: &mut Cases, wanted: usize) {
    let mut random = Random::new(4);
    for _ in 0..wanted {
        let list = call_list(12, &mut random);
        let mut expected: Vec<Option<Call>> = list.calls.iter().cloned().map(Some).collect();
        if list.calls[0] != Call::Open {
            expected = vec![None];
        } else if !list.ending.is_empty() {
            expected.push(None);
        }
        let read: Vec<Option<Call>> = replayed(&list.bytes()).map(|(call, _)| call).collect();
        cases.same(read, expected, || "the form of calls".into());
    }
}

fn main() {
    let mut cases = Cases::new("model_test", 600);
    let wanted = Cases::wanted(90_000);
    examples(&mut cases);
    ports_where_there_are_ports(&mut cases);
    one_action_to_install(&mut cases);
    refusals_of_installing(&mut cases);
    room_to_install(&mut cases);
    inbound_and_outbound(&mut cases);
    whose_entries_clash(&mut cases);
    longest_of_conflicts(&mut cases);
    what_a_search_finds(&mut cases);
    trying_a_filing_first(&mut cases);
    small_spaces(&mut cases, wanted);
    histories(&mut cases, wanted / 12);
    round_trips(&mut cases, wanted / 90);
    replays(&mut cases, wanted / 450);
    cases.done("cells, points, histories and the documents' examples agree");
}
