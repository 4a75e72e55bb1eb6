//! The built program against the model: program_test PROGRAM [COUNT].

use outside::entry::file;
use outside::generate::{
    any_list, filings_at_limit, long_input, longest_conflict, program_input, single_ports, Sets,
};
use outside::model::{self, Bench, Refusal, LONGEST_FILE};
use outside::naming;
use outside::process::{run, Run};
use outside::random::Random;
use outside::report::{hexadecimal, Cases};
use std::collections::BTreeMap;
use std::path::PathBuf;
use std::time::Duration;

const LIMIT: Duration = Duration::from_secs(10);
const LONGEST: usize = 65_536;

/// Inputs that chance would hardly make.
fn chosen_inputs(random: &mut Random) -> Vec<Vec<u8>> {
    let mut inputs = vec![vec![], vec![0], vec![1], vec![9], vec![1, 0], vec![1, 0, 3]];
    // A record that ends with its length, one byte less, one byte more.
    for length in [0u8, 1, 2, 3, 30, 31, 32] {
        let mut input = vec![1, 0, length];
        input.extend_from_slice(&[1, 0, 1, 0, 0, 0, 0]);
        inputs.push(input);
    }
    // All parties, and every party number beside them.
    let list = file(&any_list(3, Sets::With(4), random));
    let everyone = (0..=255).flat_map(|p: u8| [vec![p], list.clone()].concat());
    inputs.push(everyone.take(LONGEST).collect());
    // 01's example of 256 and 272 working entries, either way round.
    for (first, second) in [(15, 15), (16, 15), (15, 16), (16, 16)] {
        let local = [vec![1], file(&single_ports(2, first))].concat();
        let remote = [vec![2], file(&single_ports(3, second))].concat();
        inputs.push([local.clone(), remote.clone()].concat());
        inputs.push([remote, local].concat());
    }
    inputs.extend((0..4).map(filings_at_limit));
    let clash = (1..=8).zip(longest_conflict()).map(|(p, list)| [vec![p], file(&list)].concat());
    inputs.push(clash.collect::<Vec<_>>().concat());
    for length in [LONGEST - 1, LONGEST, LONGEST + 1, LONGEST + 2, 3 * LONGEST] {
        inputs.push(long_input(length, random));
        inputs.push(vec![0; length]);
    }
    inputs
}

/// The first two words of each line, or `merged`, for the account at the end.
fn tally(output: &str, lines: &mut BTreeMap<String, usize>) {
    for line in output.lines() {
        let words: Vec<&str> = line.split(' ').collect();
        let kind = match words[0] {
            "refused" => format!("refused {}", words[2]),
            "filed" | "merged" => words[0].to_string(),
            "input" => line.to_string(),
            _ => continue,
        };
        *lines.entry(kind).or_insert(0) += 1;
    }
}

/// The kinds of the conflict that an input ends with, if it does.
fn tally_conflict(input: &[u8], lines: &mut BTreeMap<String, usize>) {
    let mut bench = Bench::default();
    for (party, file) in model::framed(input) {
        let _ = bench.file(party, file);
    }
    if let Err(Refusal::Conflict(header, _)) = bench.merge(&mut [0; LONGEST_FILE]) {
        for kind in naming::kinds(&bench.in_force(), &header) {
            *lines.entry(format!("refused 10 {kind}")).or_insert(0) += 1;
        }
    }
}

fn main() {
    let program = PathBuf::from(std::env::args().nth(1).expect("the program's path"));
    let mut cases = Cases::new("program_test", 900);
    let wanted = Cases::wanted(6_000);
    let mut random = Random::new(40);
    let mut inputs = chosen_inputs(&mut random);
    let mut lines = BTreeMap::new();
    let mut longest = Duration::ZERO;
    while cases.count < wanted {
        let input = inputs.pop().unwrap_or_else(|| program_input(&mut random));
        let expected = model::program(&input);
        tally(&expected, &mut lines);
        if expected.contains("refused 0 10 ") {
            tally_conflict(&input, &mut lines);
        }
        let (answer, time) = run(&program, &input, LIMIT);
        longest = longest.max(time);
        cases.same(answer, Run::Ended(expected), || hexadecimal(&input));
    }
    println!("  lines: {lines:?}");
    println!("  longest run: {:.1} ms", longest.as_secs_f64() * 1e3);
    cases.done("the program prints what the model prints");
}
