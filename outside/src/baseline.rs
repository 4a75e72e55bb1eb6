//! The daemon's calls, the program's merging and installing in Rust, by the product's algorithm, for
//! measuring.

use crate::entry::{file, header_bytes, is_header, Box6, Entry, Header, List, HEADER, OUT, RECORD};
use crate::merge::{install, merge, Form, Merged};
use crate::model::Want;
use crate::search::{are_proper, common_part, decode, differing, gap, is_proper, lengthened};
use crate::search::{
    lookup_packed, missed_by_first, unrefined, Decoded, Lists, Packed, LAST, SHORT,
};
use std::borrow::Cow;

/// A file that passes checks 1 to 4: how many bytes a record has, and the records. Else the refusal's
/// number.
#[inline(always)]
fn checked(file: &[u8], limit: usize) -> Result<(usize, &[u8]), u32> {
    if file.len() < 5 || file.len() != u16::from_be_bytes([file[0], file[1]]) as usize + 2 {
        return Err(1);
    }
    let size = match file[2] {
        1 => SHORT,
        2 => RECORD,
        _ => return Err(2),
    };
    let n = u16::from_be_bytes([file[3], file[4]]) as usize;
    if n < 1 || n > limit || file.len() - 5 != size * n {
        return Err(3);
    }
    let records = &file[5..];
    let proper =
        if size == SHORT { are_proper::<SHORT>(records) } else { are_proper::<RECORD>(records) };
    if !proper {
        return Err(4);
    }
    Ok((size, records))
}

/// The records of a file that passes checks 1 to 4, as version 2 has them; those of version 1 are
/// copied for it. Else the refusal's number.
pub fn records(file: &[u8], limit: usize) -> Result<Cow<'_, [u8]>, u32> {
    Ok(match checked(file, limit)? {
        (SHORT, records) => lengthened(records).into(),
        (_, records) => records.into(),
    })
}

#[inline(never)]
pub fn lookup(file: &[u8], h: &Header) -> u32 {
    let found = match checked(file, 256) {
        Err(refusal) => return 256 + refusal,
        Ok(_) if !is_header(h) => None,
        Ok((SHORT, records)) => lookup_packed::<SHORT>(records, h),
        Ok((_, records)) => lookup_packed::<RECORD>(records, h),
    };
    found.unwrap_or(256) as u32
}

fn covering(file: &[u8]) -> Result<Cow<'_, [u8]>, u32> {
    let records = records(file, 256)?;
    match gap(&Packed { lists: [&records, &[]] }, &mut 0) {
        Some(_) => Err(5),
        None => Ok(records),
    }
}

fn answer(lists: &impl Lists, header: &mut [u8], boxes: &mut u64) -> u32 {
    match unrefined(lists, boxes) {
        None => 0,
        Some(h) => {
            if header.len() >= HEADER {
                header[..HEADER].copy_from_slice(&header_bytes(&h));
            }
            1
        }
    }
}

/// Comparison over the files' bytes.
pub fn compare(first: &[u8], second: &[u8], header: &mut [u8]) -> u32 {
    match (covering(first), covering(second)) {
        (Err(refusal), _) => 256 + refusal,
        (_, Err(refusal)) => 512 + refusal,
        (Ok(first), Ok(second)) => answer(&Packed { lists: [&first, &second] }, header, &mut 0),
    }
}

/// Comparison over decoded entries, decoding counted.
pub fn compare_decoded(first: &[u8], second: &[u8], header: &mut [u8]) -> u32 {
    let covering = |file| {
        let list = decode(&records(file, 256)?);
        match gap(&Decoded { lists: [&list, &[]] }, &mut 0) {
            Some(_) => Err(5),
            None => Ok(list),
        }
    };
    match (covering(first), covering(second)) {
        (Err(refusal), _) => 256 + refusal,
        (_, Err(refusal)) => 512 + refusal,
        (Ok(first), Ok(second)) => answer(&Decoded { lists: [&first, &second] }, header, &mut 0),
    }
}

/// An entry with the fields' own widths, laid out as the product's.
#[repr(C)]
#[derive(Clone, Copy)]
pub struct Unpacked {
    addresses: [[u32; 2]; 2],
    ports: [[u16; 2]; 2],
    protocols: [u8; 2],
    directions: [u8; 2],
    actions: u16,
}

pub fn unpack(list: &[Entry]) -> Vec<Unpacked> {
    list.iter()
        .map(|e| {
            let range = |f: usize| [e.selector.low[f], e.selector.high[f]];
            Unpacked {
                addresses: [range(0), range(1)],
                ports: [range(2).map(|x| x as u16), range(3).map(|x| x as u16)],
                protocols: range(4).map(|x| x as u8),
                directions: range(5).map(|x| x as u8),
                actions: e.actions,
            }
        })
        .collect()
}

/// Lookup in a table of unpacked entries. `&` leaves the order of the four comparisons of addresses
/// to the compiler.
#[inline(never)]
pub fn lookup_unpacked(table: &[Unpacked], h: &Header) -> u32 {
    fn within<T: Copy + Into<u32>>(range: [T; 2], x: u32) -> bool {
        (range[0].into() <= x) & (x <= range[1].into())
    }
    let h = *h;
    if !is_header(&h) {
        return 256;
    }
    for (i, e) in table.iter().enumerate() {
        if (within(e.addresses[0], h[0]) & within(e.addresses[1], h[1]))
            && within(e.ports[0], h[2])
            && within(e.ports[1], h[3])
            && within(e.protocols, h[4])
            && within(e.directions, h[5])
            && e.directions[1] <= OUT as u8
        {
            return i as u32;
        }
    }
    256
}

/// The lists that an input of the program files, the last filing of each party counting.
pub fn filed(input: &[u8]) -> Vec<List> {
    let mut slots: [Option<List>; 8] = Default::default();
    let mut at = 0;
    while at < input.len() {
        let rest = &input[at + 1..];
        let length = match rest {
            [a, b, ..] => (u16::from_be_bytes([*a, *b]) as usize + 2).min(rest.len()),
            _ => rest.len(),
        };
        let party = input[at];
        if let (1..=8, Ok(records)) = (party, records(&rest[..length], 32)) {
            if gap(&Packed { lists: [&records, &[]] }, &mut 0).is_none() {
                slots[party as usize - 1] = Some(decode(&records));
            }
        }
        at += 1 + length;
    }
    slots.into_iter().flatten().collect()
}

/// The least header of a box that a list treats in a wanted way. What a box has in common with an entry
/// may be proper though the box is not: its directions may end above 1.
pub fn search(lists: &impl Lists, within: &Box6, want: Want, boxes: &mut u64) -> Option<Header> {
    if !is_proper(within) {
        return None;
    }
    let n = lists.count(0);
    match want {
        Want::Uncaught => missed_by_first(lists, n, within, LAST, boxes),
        Want::CaughtBy(i) if i < n => {
            missed_by_first(lists, i, &common_part(within, &lists.selector(0, i)), 0, boxes)
        }
        Want::CaughtBy(_) => None,
        Want::Differing(set) if (0..n).all(|i| lists.actions(0, i) == set) => {
            missed_by_first(lists, n, within, LAST, boxes)
        }
        Want::Differing(set) => differing(lists, within, set, boxes),
    }
}

/// Writes a merged or installed list into a buffer: the entry count, or 256 plus the refusal's number.
fn put(merged: Merged, buffer: &mut [u8]) -> u32 {
    match merged {
        Merged::Crowded => 256 + 9,
        Merged::Conflict(_) => 256 + 10,
        Merged::List(list) => {
            let bytes = file(&list);
            if buffer.len() < bytes.len() {
                return 256 + 11;
            }
            buffer[..bytes.len()].copy_from_slice(&bytes);
            list.len() as u32
        }
    }
}

/// Files an input of the program and merges into a buffer: the entry count, or 256 plus the
/// refusal's number.
pub fn merge_input(input: &[u8], buffer: &mut [u8], form: Form, boxes: &mut u64) -> u32 {
    let lists = filed(input);
    if lists.is_empty() {
        return 256 + 8;
    }
    put(merge(&lists, form, boxes), buffer)
}

/// Whether the bytes are the numbers 0 to 15 once each: sixteen, and none is missing.
fn is_ranking(bytes: &[u8]) -> bool {
    let numbers = bytes.iter().filter(|number| **number < 16);
    bytes.len() == 16 && numbers.fold(0u16, |seen, number| seen | 1 << number) == 0xffff
}

/// The same with installing by a ranking.
pub fn install_input(
    input: &[u8],
    ranking: &[u8],
    buffer: &mut [u8],
    form: Form,
    boxes: &mut u64,
) -> u32 {
    let lists = filed(input);
    if !is_ranking(ranking) {
        return 256 + 12;
    }
    if lists.is_empty() {
        return 256 + 8;
    }
    put(install(&lists, ranking, form, boxes), buffer)
}
