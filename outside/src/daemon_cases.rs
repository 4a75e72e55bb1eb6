//! The daemon's two calls on generated files, valid and damaged, short and long, against the model.

use crate::entry::{is_header, Header, DIRECTION, HEADER, OUT};
use crate::generate::{header_near, related_list, some_file, some_list};
use crate::model;
use crate::random::Random;
use crate::report::{hexadecimal, Cases};

const CANARY: u8 = 0xc5;
const CANARIES: usize = 64;

/// Lookups against the model's.
pub fn lookups(
    cases: &mut Cases,
    wanted: usize,
    random: &mut Random,
    lookup: &dyn Fn(&[u8], &Header) -> u32,
) {
    let (mut answers, mut no_headers, mut no_directions) = ([0usize; 3], 0, 0);
    let mut versions = [0usize; 2];
    let end = cases.count + wanted;
    while cases.count < end {
        let list = some_list(random);
        let bytes = some_file(&list, random).into_boxed_slice();
        for _ in 0..4 {
            let header = header_near(&list, random);
            let expected = model::lookup_number(&bytes, &header);
            no_headers += (expected == 256 && !is_header(&header)) as usize;
            no_directions += (expected == 256 && header[DIRECTION] > OUT) as usize;
            if expected <= 256 {
                versions[bytes[2] as usize - 1] += 1;
            }
            answers[(expected.clamp(255, 257) - 255) as usize] += 1;
            let case = || format!("lookup of {header:?} in {}", hexadecimal(&bytes));
            cases.same(lookup(&bytes, &header), expected, case);
        }
    }
    println!(
        "  lookups: {} caught, {} uncaught ({no_headers} of no header, {no_directions} of these of no \
         direction), {} refused; {} in files of version 1, {} of version 2",
        answers[0], answers[1], answers[2], versions[0], versions[1]
    );
}

/// Comparisons against the model's, with canary bytes around the lent buffer.
pub fn comparisons(
    cases: &mut Cases,
    wanted: usize,
    random: &mut Random,
    compare: &dyn Fn(&[u8], &[u8], &mut [u8]) -> u32,
) {
    let (mut answers, mut out) = ([0usize; 3], 0);
    let end = cases.count + wanted;
    while cases.count < end {
        let list = some_list(random);
        let other = match random.below(3) {
            0 => some_list(random),
            _ => related_list(&list, random),
        };
        let first = some_file(&list, random).into_boxed_slice();
        let second = some_file(&other, random).into_boxed_slice();

        let length = *random.pick(&[0, 1, 13, 14, 14, 15, 28, 64]);
        let mut lent = vec![CANARY; CANARIES + length + CANARIES];
        let middle = CANARIES..CANARIES + length;
        lent[middle.clone()].iter_mut().for_each(|b| *b = random.next() as u8);
        let mut expected_bytes = lent.clone();
        let expected = model::compare_number(&first, &second, &mut expected_bytes[middle.clone()]);
        answers[expected.min(2) as usize] += 1;
        let last = expected_bytes[middle.clone()].get(HEADER - 1);
        out += (expected == 1 && last == Some(&(OUT as u8))) as usize;

        let (first_copy, second_copy) = (first.clone(), second.clone());
        let answer = compare(&first, &second, &mut lent[middle]);
        let case =
            || format!("comparison of {} with {}", hexadecimal(&first), hexadecimal(&second));
        cases.same(answer, expected, case);
        cases.same(
            (lent, first_copy, second_copy),
            (expected_bytes, first.clone(), second.clone()),
            case,
        );
    }
    println!(
        "  comparisons: {} refine, {} don't ({out} out), {} refused",
        answers[0], answers[1], answers[2]
    );
}
