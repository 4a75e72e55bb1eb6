//! The Rust versions that the measurements are held against answer as the model does.

use outside::baseline;
use outside::cells;
use outside::daemon_cases::{comparisons, lookups};
use outside::entry::{header_bytes, is_header, Header, List, ALL, HEADER, RECORD};
use outside::generate::{any_list, box_near, header_near, long_list, program_input, Sets};
use outside::generate::{cross_one, file_in_some_version, good_ranking, some_ranking};
use outside::merge::{install, merge, Form, Merged};
use outside::model::{self, numbered, Bench, Refusal, Want, LONGEST_FILE};
use outside::random::Random;
use outside::report::Cases;
use outside::search::{common_part, decode, trimmed, Decoded, Packed};

/// A trimmed box has the box's headers, and its low corner is the least.
fn trimmings(cases: &mut Cases, wanted: usize, random: &mut Random) {
    let mut without = 0;
    for _ in 0..wanted {
        let list = any_list(6, Sets::Any, random);
        let x = box_near(&list, random);
        if model::is_crossed(&x) {
            continue;
        }
        let (least, trimmed) = (model::least_header(&x), trimmed(&x));
        without += least.is_none() as usize;
        let case = || format!("{x:?}, trimmed");
        cases.same(trimmed.map(|y| y.low), least, case);
        cases.same(trimmed.map(|y| common_part(&x, &y)), trimmed, case);
        let near = header_near(&list, random);
        let h = std::array::from_fn(|f| near[f].clamp(x.low[f], x.high[f]));
        if is_header(&h) {
            let held = trimmed.is_some_and(|y| model::holds(&y, &h));
            cases.same(held, true, || format!("{h:?} in {x:?}, trimmed"));
        }
    }
    println!("  trimmed boxes: {without} without a header");
}

fn searches(cases: &mut Cases, wanted: usize, random: &mut Random) {
    for _ in 0..wanted {
        let list = match random.below(4) {
            0 => long_list(random),
            _ => any_list(20, Sets::OneOf(6, 12), random),
        };
        let file = file_in_some_version(&list, random);
        let bytes = baseline::records(&file, 256).expect("a good file");
        let list = decode(&bytes);
        let within = box_near(&list, random);
        let want = match random.below(3) {
            0 => Want::Uncaught,
            1 => Want::CaughtBy(random.below(list.len() as u64 + 1) as usize),
            _ => Want::Differing(*random.pick(&[6, 12, list[0].actions])),
        };
        let expected = model::search(&file, &within, want).unwrap();
        let case = || format!("{want:?} in {within:?} of {list:?}");
        let packed = Packed { lists: [&bytes, &[]] };
        let expected = expected.map(|(header, _)| header);
        cases.same(baseline::search(&packed, &within, want, &mut 0), expected, case);
        let decoded = Decoded { lists: [&list, &[]] };
        cases.same(baseline::search(&decoded, &within, want, &mut 0), expected, case);
        let uncaught = model::search(&file, &ALL, Want::Uncaught).unwrap();
        let uncaught = uncaught.map(|(header, _)| header);
        cases.same(cells::gap(&list, 1_000_000), Ok(uncaught), case);
    }
}

/// The model's answer in the form of the Rust versions; none where no list is in force.
fn expected(answer: Result<List, Refusal>) -> Option<Merged> {
    match answer {
        Ok(list) => Some(Merged::List(list)),
        Err(Refusal::Conflict(header, _)) => Some(Merged::Conflict(header)),
        Err(Refusal::Crowded) => Some(Merged::Crowded),
        Err(_) => None,
    }
}

/// Mergings of the program's inputs, and installs by some ranking.
fn mergings(cases: &mut Cases, wanted: usize, random: &mut Random) {
    let (mut answers, mut shorter) = ([0usize; 4], 0);
    for _ in 0..wanted {
        let input = program_input(random);
        let lists: Vec<List> = baseline::filed(&input);
        let filed = numbered(&lists);
        let ranking = good_ranking(random);
        let Some(merged) = expected(model::merged_list(&filed)) else {
            answers[3] += 1;
            continue;
        };
        let installed = expected(model::installed_list(&filed, &ranking)).expect("lists in force");
        answers[match &merged {
            Merged::List(_) => 0,
            Merged::Conflict(_) => 1,
            Merged::Crowded => 2,
        }] += 1;
        if let (Merged::List(merged), Merged::List(installed)) = (&merged, &installed) {
            shorter += (installed.len() < merged.len()) as usize;
        }
        for form in [Form::Packed, Form::Decoded] {
            let case = || format!("{form:?} merging of {lists:?}");
            cases.same(merge(&lists, form, &mut 0), merged.clone(), case);
            let case = || format!("{form:?} installing of {lists:?} by {ranking:?}");
            cases.same(install(&lists, &ranking, form, &mut 0), installed.clone(), case);
        }
        let case = || format!("merging of {lists:?} by cells");
        cases.same(cells::merge(&lists, 1_000_000), Ok(merged), case);
        let case = || format!("installing of {lists:?} by {ranking:?} by cells");
        cases.same(cells::install(&lists, &ranking, 1_000_000), Ok(installed), case);
    }
    println!(
        "  mergings: {} merged, {} conflicts, {} crowded, {} bare; {shorter} installed shorter",
        answers[0], answers[1], answers[2], answers[3]
    );
    assert!(shorter > 0, "no install was shorter than its merging");
}

/// What the calls of libmeasured.a answer.
fn number(answer: Result<(usize, usize), Refusal>) -> u32 {
    answer.map_or_else(|refusal| 256 + refusal.number(), |(count, _)| count as u32)
}

/// A buffer's length: for the longest file, or about that of a short one.
fn some_length(random: &mut Random) -> usize {
    let about = 5 + RECORD * random.below(12) as usize;
    *random.pick(&[LONGEST_FILE, LONGEST_FILE, about, about - 1, about + 1])
}

/// Filing an input and merging or installing: the answers, and the buffer after them.
fn inputs(cases: &mut Cases, wanted: usize, random: &mut Random) {
    let mut refused = [0usize; 13];
    for _ in 0..wanted {
        let input = program_input(random);
        let mut bench = Bench::default();
        for (party, file) in model::framed(&input) {
            let _ = bench.file(party, file);
        }
        let ranking = some_ranking(random);
        let before = vec![0x5a; some_length(random)];
        let (mut ours, mut expected) = (before.clone(), before.clone());
        let merged = baseline::merge_input(&input, &mut ours, Form::Packed, &mut 0);
        let answer = number(bench.merge(&mut expected));
        cases.same((merged, ours), (answer, expected), || format!("merging {input:?}"));
        let (mut ours, mut expected) = (before.clone(), before);
        let installed = baseline::install_input(&input, &ranking, &mut ours, Form::Packed, &mut 0);
        let answer = number(bench.install(&ranking, &mut expected));
        let case = || format!("installing {input:?} by {ranking:?}");
        cases.same((installed, ours), (answer, expected), case);
        refused[answer.saturating_sub(256) as usize] += 1;
    }
    println!("  installs of inputs: {} accepted, refused 8 to 12: {:?}", refused[0], &refused[8..]);
    assert!(refused[8..].iter().all(|count| *count > 0), "some refusal was never met");
}

/// Lookup in a table, answered as the daemon's call is.
fn lookup_in_table(file: &[u8], h: &Header) -> u32 {
    match baseline::records(file, 256) {
        Ok(records) => baseline::lookup_unpacked(&baseline::unpack(&decode(&records)), h),
        Err(refusal) => 256 + refusal,
    }
}

/// Lookups in tables with crossed entries.
fn tables(cases: &mut Cases, wanted: usize, random: &mut Random) {
    for _ in 0..wanted {
        let mut table = any_list(6, Sets::Any, random);
        let header = header_near(&table, random);
        (0..random.between(1, 3)).for_each(|_| cross_one(&mut table, random));
        let expected = model::lookup_in_table(&table, &header).unwrap_or(256) as u32;
        let found = baseline::lookup_unpacked(&baseline::unpack(&table), &header);
        cases.same(found, expected, || format!("lookup of {header:?} in {table:?}"));
    }
}

/// Comparison by cells, answered as the daemon's call is.
fn compare_by_cells(first: &[u8], second: &[u8], header: &mut [u8]) -> u32 {
    let answer = baseline::compare(first, second, header);
    if answer <= 1 {
        let [p, q] = [first, second].map(|file| decode(&baseline::records(file, 256).unwrap()));
        let found = cells::unrefined(&p, &q, 1_000_000).expect("within the limit");
        assert_eq!(found.is_some(), answer == 1);
        if let (Some(h), true) = (found, header.len() >= HEADER) {
            header[..HEADER].copy_from_slice(&header_bytes(&h));
        }
    }
    answer
}

fn main() {
    let mut cases = Cases::new("baseline_test", 600);
    let wanted = Cases::wanted(20_000);
    let mut random = Random::new(30);
    lookups(&mut cases, wanted / 5, &mut random, &baseline::lookup);
    lookups(&mut cases, wanted / 5, &mut random, &lookup_in_table);
    tables(&mut cases, wanted / 10, &mut random);
    comparisons(&mut cases, wanted / 4, &mut random, &baseline::compare);
    comparisons(&mut cases, wanted / 4, &mut random, &baseline::compare_decoded);
    comparisons(&mut cases, wanted / 10, &mut random, &compare_by_cells);
    trimmings(&mut cases, wanted / 4, &mut random);
    searches(&mut cases, wanted / 8, &mut random);
    mergings(&mut cases, wanted / 20, &mut random);
    inputs(&mut cases, wanted / 40, &mut random);
    cases.done("the Rust versions answer as the model does");
}
