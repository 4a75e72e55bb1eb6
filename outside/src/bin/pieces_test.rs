//! The built program against the model on inputs that come in pieces, so that its reads come short:
//! pieces_test PROGRAM. That the program hands on all that it has read is not proved.

use outside::generate::input_to_the_last_byte;
use outside::model;
use outside::process::{run_in_pieces, Run};
use outside::random::Random;
use outside::report::{hexadecimal, Cases};
use std::collections::BTreeSet;
use std::path::PathBuf;
use std::time::Duration;

const LIMIT: Duration = Duration::from_secs(10);
/// The program reads one byte past the longest input.
const READ: usize = 65_536 + 1;

/// All short lengths, both sides of every power of two and of every four thousand, and some others.
fn lengths(random: &mut Random) -> BTreeSet<usize> {
    let mut lengths: BTreeSet<usize> = (0..300).collect();
    for power in (0..18).map(|k| 1usize << k) {
        lengths.extend(power.saturating_sub(3)..=power + 3);
    }
    for length in (4000..=64_000).step_by(4000) {
        lengths.extend(length - 1..=length + 1);
    }
    lengths.extend((0..60).map(|_| random.below(READ as u64 + 1) as usize));
    lengths
}

/// Where an input of some length is cut; nothing is read past READ.
fn cuts(length: usize, random: &mut Random) -> BTreeSet<usize> {
    let end = length.min(READ);
    let mut cuts: BTreeSet<usize> = match random.below(4) {
        0 => [1].into(),
        1 => [length / 2].into(),
        2 => (0..random.between(2, 9)).map(|_| random.below(end as u64 + 1) as usize).collect(),
        _ => (4096..end).step_by(4096).collect(),
    };
    // The last byte alone, or all but the last two or three, or the end where it happens to come.
    cuts.insert(end.saturating_sub(random.below(4) as usize));
    cuts.retain(|cut| (1..end).contains(cut));
    cuts
}

fn main() {
    let program = PathBuf::from(std::env::args().nth(1).expect("the program's path"));
    let mut cases = Cases::new("pieces_test", 300);
    let mut random = Random::new(60);
    let mut pieces_fed = 0;
    for length in lengths(&mut random) {
        let input = input_to_the_last_byte(length, &mut random);
        assert_eq!(input.len(), length);
        let expected = model::program(&input);
        // The answer shows whether the last byte was there; no input of 2 or 3 bytes can, nor one too long.
        if length == 1 || (4..=READ).contains(&length) {
            assert_ne!(expected, model::program(&input[..length - 1]), "length {length}");
        }
        for _ in 0..2 {
            let cuts = cuts(length, &mut random);
            let ends = cuts.iter().copied().chain([length]);
            let starts = [0].into_iter().chain(cuts.iter().copied());
            let pieces: Vec<&[u8]> = starts.zip(ends).map(|(a, b)| &input[a..b]).collect();
            pieces_fed += pieces.len();
            let (answer, _) = run_in_pieces(&program, &pieces, LIMIT);
            let case = || format!("{length} bytes cut at {cuts:?}: {}", hexadecimal(&input));
            cases.same(answer, Run::Ended(expected.clone()), case);
        }
    }
    cases.done(&format!("in {pieces_fed} pieces the program reads what it was sent"));
}
