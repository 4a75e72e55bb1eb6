//! Random and mutated bytes for a built program: fuzz merger|replay PROGRAM [COUNT] [SEED]. It must
//! end with status 0 within the time limit on each, and print what the model prints.

use outside::calls::call_list;
use outside::generate::program_input;
use outside::model;
use outside::process::{run, Run};
use outside::random::Random;
use outside::replay::{replay, Call};
use outside::report::hexadecimal;
use std::path::PathBuf;
use std::time::{Duration, Instant};

const LIMIT: Duration = Duration::from_secs(10);

/// What a program is fed at first, and what it has to print.
struct Target {
    fresh: fn(&mut Random) -> Vec<u8>,
    expected: fn(&[u8]) -> String,
}

const MERGER: Target = Target { fresh: fresh_filings, expected: model::program };
const REPLAY: Target = Target { fresh: fresh_calls, expected: replay };

fn random_bytes(random: &mut Random) -> Vec<u8> {
    (0..random.below(400)).map(|_| random.next() as u8).collect()
}

fn fresh_filings(random: &mut Random) -> Vec<u8> {
    match random.below(10) {
        0 => random_bytes(random),
        _ => program_input(random),
    }
}

/// Few calls, so that a change of one byte often meets another argument than a file.
fn fresh_calls(random: &mut Random) -> Vec<u8> {
    match random.below(10) {
        0 => [Call::Open.bytes(), random_bytes(random)].concat(),
        _ => call_list(random.between(1, 8) as usize, random).bytes(),
    }
}

/// One change: a bit, a byte, bytes added, dropped, repeated, or taken from another input.
fn mutated(input: &[u8], other: &[u8], random: &mut Random) -> Vec<u8> {
    let mut bytes = input.to_vec();
    if bytes.is_empty() {
        return vec![random.next() as u8];
    }
    let at = random.below(bytes.len() as u64) as usize;
    let length = (random.below(40) as usize).min(bytes.len() - at);
    match random.below(9) {
        0 => bytes[at] ^= 1 << random.below(8),
        1 => bytes[at] = *random.pick(&[0, 1, 2, 31, 32, 33, 127, 128, 255]),
        2 => bytes[at] = random.next() as u8,
        3 => bytes.insert(at, random.next() as u8),
        4 => drop(bytes.drain(at..at + length)),
        5 => {
            let again = bytes[at..at + length].to_vec();
            bytes.splice(at..at, again);
        }
        6 => bytes.truncate(at),
        7 => bytes.extend_from_slice(other),
        _ => {
            let from = random.below(other.len() as u64 + 1) as usize;
            bytes.splice(at.., other[from..].iter().copied());
        }
    }
    bytes
}

fn main() {
    let mut arguments = std::env::args().skip(1);
    let name = arguments.next().expect("merger or replay");
    let target = match name.as_str() {
        "merger" => MERGER,
        "replay" => REPLAY,
        _ => panic!("merger or replay, not {name}"),
    };
    let program = PathBuf::from(arguments.next().expect("the program's path"));
    let count = arguments.next().map_or(10_000, |a| a.parse().expect("a count"));
    let seed = arguments.next().map_or(1, |a| a.parse().expect("a seed"));
    let mut random = Random::new(seed);
    let mut pool: Vec<Vec<u8>> = (0..64).map(|_| (target.fresh)(&mut random)).collect();
    let start = Instant::now();
    let (mut longest, mut bytes) = (Duration::ZERO, 0);
    for i in 0..count {
        let slot = random.below(pool.len() as u64) as usize;
        let mut input = pool[slot].clone();
        for _ in 0..random.between(1, 4) {
            let other = random.pick(&pool).clone();
            input = mutated(&input, &other, &mut random);
        }
        let (answer, time) = run(&program, &input, LIMIT);
        longest = longest.max(time);
        bytes += input.len();
        let expected = (target.expected)(&input);
        if answer != Run::Ended(expected.clone()) {
            eprintln!("fuzz {name}: input {i} of seed {seed}: {answer:?}");
            eprintln!("  expected {expected:?}");
            eprintln!("  input {}", hexadecimal(&input));
            std::process::exit(1);
        }
        // Changed inputs are changed further; now and then a slot starts afresh. What stands behind
        // a bad call is not read, so such a change is not kept.
        if input.len() > 20_000 || random.one_in(6) {
            pool[slot] = (target.fresh)(&mut random);
        } else if !expected.ends_with("bad\n") {
            pool[slot] = input;
        }
    }
    println!(
        "fuzz {name}: {count} inputs of {bytes} bytes in all (seed {seed}), none crashed, none hung, \
         each answered as the model does; longest {:.1} ms ({:.1} s)",
        longest.as_secs_f64() * 1e3,
        start.elapsed().as_secs_f64()
    );
}
