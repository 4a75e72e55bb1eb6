//! One generator of inputs, from fixed seeds, for the tests and the measurements alike.

use crate::entry::{
    file, file_in, is_both_ways, is_header, Box6, Entry, Header, List, ALL, FIELDS,
};
use crate::entry::{DIRECTION, IN, LAST_HEADER, LOCAL_PORT, OUT, PROTOCOL, REMOTE_PORT, TOP};
use crate::entry::{VERSIONS, WITH_PORTS};
use crate::points;
use crate::random::Random;

// ---------------------------------------------------------------- families of lists

/// The entries before the closing ones.
#[derive(Clone, Copy, PartialEq, Eq, Debug)]
pub enum Shape {
    /// Prefixes, services and protocols as a gateway's list has them.
    Realistic,
    /// Thin slabs, in turn across the first so many fields, the other fields whole.
    Slabs(usize),
    /// Boxes inside each other, the innermost first.
    Nested,
    /// Boxes between two random corners.
    Random,
    /// Boxes with sides of every order of magnitude.
    Scattered,
    /// Boxes from the low corner, longer in one field and shorter in the next.
    Staircase,
    /// Boxes from the low corner to points of one plane across the first five fields.
    Plane,
    /// The same from the high corner, of protocols up to the last that has ports.
    HighPlane,
    /// Overlapping boxes along the diagonal, their protocols from 0 on.
    Diagonal,
    /// A partition of all headers by random cuts, each part grown by a tenth.
    Partition,
    /// The same, not grown.
    Exact,
}

/// What closes a list.
#[derive(Clone, Copy, PartialEq, Eq, Debug)]
pub enum Closing {
    /// Nothing: partitions cover by themselves.
    Bare,
    All,
    /// The lower and the upper half of the local addresses.
    Halves,
    /// The 32 parts of all headers by the highest bit of each of the first five fields.
    Orthants,
    /// Everything but the last header.
    Hole,
    /// All headers and few other combinations: both ports 0, and each protocol with ports.
    Headers,
    /// A partition of all headers by random cuts, as many parts as the list has other entries.
    /// No large record hides the rest, so this is the hardest closing.
    Parts,
}

pub const SHAPES: [Shape; 15] = [
    Shape::Realistic,
    Shape::Slabs(1),
    Shape::Slabs(2),
    Shape::Slabs(3),
    Shape::Slabs(4),
    Shape::Slabs(5),
    Shape::Nested,
    Shape::Random,
    Shape::Scattered,
    Shape::Staircase,
    Shape::Plane,
    Shape::HighPlane,
    Shape::Diagonal,
    Shape::Partition,
    Shape::Exact,
];

pub const CLOSINGS: [Closing; 7] = [
    Closing::Bare,
    Closing::All,
    Closing::Halves,
    Closing::Orthants,
    Closing::Hole,
    Closing::Headers,
    Closing::Parts,
];

/// ALL but for one field's range.
pub fn only(f: usize, low: u32, high: u32) -> Box6 {
    let mut b = ALL;
    (b.low[f], b.high[f]) = (low, high);
    b
}

/// Both ports 0: every header of a protocol without ports.
fn no_ports() -> Box6 {
    let mut b = only(LOCAL_PORT, 0, 0);
    b.high[REMOTE_PORT] = 0;
    b
}

/// `part` of `whole` parts of field `f`'s numbers, from below.
fn share(f: usize, part: u64, whole: u64) -> u32 {
    (TOP[f] as u128 * part as u128 / whole as u128) as u32
}

fn grown(b: Box6) -> Box6 {
    let mut r = b;
    for f in 0..FIELDS {
        let by = (b.high[f] - b.low[f]) / 10;
        r.low[f] = b.low[f].saturating_sub(by);
        r.high[f] = b.high[f].saturating_add(by).min(TOP[f]);
    }
    r
}

/// All headers in `n` parts, by cutting a random part in a random field again and again.
pub fn partition(n: usize, random: &mut Random) -> Vec<Box6> {
    let mut parts = vec![ALL];
    while parts.len() < n {
        let i = random.below(parts.len() as u64) as usize;
        let f = random.below(FIELDS as u64) as usize;
        let (low, high) = (parts[i].low[f], parts[i].high[f]);
        if low == high {
            continue;
        }
        let at = random.between(low, high - 1);
        let mut upper = parts[i];
        parts[i].high[f] = at;
        upper.low[f] = at + 1;
        parts.push(upper);
    }
    random.shuffle(&mut parts);
    parts
}

fn slab(i: usize, n: usize, d: usize, random: &mut Random) -> Box6 {
    let f = i % d;
    let thick = TOP[f] / (2 * n.div_ceil(d) as u32) + 1;
    let low = random.between(0, TOP[f] - thick);
    let mut b = ALL;
    b.low[f] = low;
    b.high[f] = low + random.between(thick / 2, thick);
    b
}

fn scattered_range(f: usize, random: &mut Random) -> (u32, u32) {
    let bits = random.below(TOP[f].count_ones() as u64 + 1);
    let size = ((1u64 << bits) - 1) as u32;
    let low = random.between(0, TOP[f] - size);
    (low, low + size)
}

/// A point of the plane on which the shares of the first five fields add up to two and a half wholes,
/// with one of the directions.
fn plane_point(random: &mut Random) -> Header {
    loop {
        let mut parts = [0u64; DIRECTION];
        let mut sum = 0;
        for part in parts.iter_mut().take(DIRECTION - 1) {
            *part = random.below(1001);
            sum += *part;
        }
        if (1500..=2500).contains(&sum) {
            parts[DIRECTION - 1] = 2500 - sum;
            let mut point = [random.between(IN, OUT); FIELDS];
            for f in 0..DIRECTION {
                point[f] = share(f, parts[f], 1000);
            }
            return point;
        }
    }
}

/// Whether a box of a shape gets its ports from 0 on. Else hardly one would match a protocol without
/// ports.
fn starts_at_port_0(shape: Shape, i: usize, n: usize, random: &mut Random) -> bool {
    match shape {
        // The outer half, so that they stay inside each other.
        Shape::Nested => 2 * i > n,
        Shape::Random | Shape::Scattered | Shape::HighPlane | Shape::Diagonal => random.one_in(3),
        _ => false,
    }
}

fn body_box(shape: Shape, i: usize, n: usize, random: &mut Random) -> Box6 {
    let mut b = shape_box(shape, i, n, random);
    if starts_at_port_0(shape, i, n, random) {
        (b.low[LOCAL_PORT], b.low[REMOTE_PORT]) = (0, 0);
    }
    b
}

fn shape_box(shape: Shape, i: usize, n: usize, random: &mut Random) -> Box6 {
    let mut b = ALL;
    let (here, whole) = (i as u64 + 1, n as u64 + 1);
    match shape {
        Shape::Slabs(d) => return slab(i, n, d, random),
        Shape::Nested => {
            for f in 0..FIELDS {
                b.low[f] = share(f, whole - here, 2 * whole);
                b.high[f] = TOP[f] - b.low[f];
            }
        }
        Shape::Random => {
            for f in 0..FIELDS {
                let (x, y) = (random.between(0, TOP[f]), random.between(0, TOP[f]));
                b.low[f] = x.min(y);
                b.high[f] = x.max(y);
            }
        }
        Shape::Scattered => {
            for f in 0..FIELDS {
                (b.low[f], b.high[f]) = scattered_range(f, random);
            }
        }
        Shape::Staircase => {
            b.high[0] = share(0, here, whole);
            b.high[1] = share(1, whole - here, whole);
        }
        Shape::Plane => b.high = plane_point(random),
        Shape::HighPlane => {
            // A box past the last protocol with ports would match no header.
            b.low = plane_point(random);
            b.low[PROTOCOL] = b.low[PROTOCOL] * LAST_HEADER[PROTOCOL] / TOP[PROTOCOL];
        }
        Shape::Diagonal => {
            for f in 0..FIELDS {
                b.low[f] = share(f, here - 1, whole);
                b.high[f] = share(f, (here + 1).min(whole), whole);
            }
            // Most thin ranges of protocols have none with ports, and none but the last would be out.
            b.low[PROTOCOL] = 0;
            b.high[DIRECTION] = OUT;
        }
        Shape::Realistic => return realistic_box(random),
        Shape::Partition | Shape::Exact => unreachable!("made whole"),
    }
    b
}

fn prefix(base: u32, length: u32) -> (u32, u32) {
    let mask = if length == 0 { 0 } else { u32::MAX << (32 - length) };
    (base & mask, (base & mask) | !mask)
}

const SITES: [u32; 6] =
    [0x0a00_0000, 0x0a01_0000, 0x0a02_0300, 0xac10_0000, 0xc0a8_0000, 0xc0a8_0100];
const PEERS: [u32; 6] =
    [0xc633_6400, 0xcb00_7100, 0xc000_0200, 0x0a08_0000, 0x0a09_0000, 0xc612_0000];
const SERVICES: [u32; 12] = [22, 25, 53, 80, 104, 123, 161, 443, 500, 2575, 4500, 8443];

fn addresses(bases: &[u32], random: &mut Random) -> (u32, u32) {
    match random.below(8) {
        0 => (0, u32::MAX),
        1 => {
            // A range of hosts that is no prefix.
            let low = random.pick(bases) + random.between(1, 100);
            (low, low + random.between(1, 60))
        }
        2 | 3 => {
            let host = random.pick(bases) + random.between(1, 254);
            (host, host)
        }
        _ => {
            let length = *random.pick(&[8u32, 12, 16, 20, 24, 24, 24, 28]);
            let base = random.pick(bases) | (random.between(0, 255) << 8);
            prefix(base, length)
        }
    }
}

fn ports(random: &mut Random) -> (u32, u32) {
    match random.below(6) {
        0 | 1 => {
            let port = *random.pick(&SERVICES);
            (port, port)
        }
        2 => *random.pick(&[(0, 1023), (1024, 65535), (49152, 65535), (8000, 8099)]),
        _ => (0, 65535),
    }
}

/// Some of the protocols with ports, some without, and all.
const PROTOCOLS: [(u32, u32); 13] = [
    (6, 6),
    (6, 6),
    (6, 6),
    (6, 6),
    (17, 17),
    (17, 17),
    (132, 132),
    (1, 1),
    (47, 47),
    (50, 51),
    (0, 255),
    (0, 255),
    (0, 255),
];

/// Mostly both directions.
const DIRECTIONS: [(u32, u32); 6] =
    [(IN, OUT), (IN, OUT), (IN, OUT), (IN, OUT), (IN, IN), (OUT, OUT)];

/// A selector as a gateway's administrator writes it. Some name ports for all protocols, few for one
/// that has none.
fn realistic_box(random: &mut Random) -> Box6 {
    let (local, remote) = (addresses(&SITES, random), addresses(&PEERS, random));
    let protocols = *random.pick(&PROTOCOLS);
    let (mut local_port, mut remote_port) = ((0, 65535), (0, 65535));
    let names_ports = match protocols {
        (0, 255) => random.one_in(2),
        (p, _) => WITH_PORTS.contains(&p) || random.one_in(8),
    };
    if names_ports {
        local_port = ports(random);
        remote_port = ports(random);
    }
    let ranges = [local, remote, local_port, remote_port, protocols, *random.pick(&DIRECTIONS)];
    Box6 { low: ranges.map(|r| r.0), high: ranges.map(|r| r.1) }
}

fn body(shape: Shape, n: usize, random: &mut Random) -> Vec<Box6> {
    match shape {
        Shape::Partition => partition(n, random).into_iter().map(grown).collect(),
        Shape::Exact => partition(n, random),
        _ => (0..n).map(|i| body_box(shape, i, n, random)).collect(),
    }
}

/// Everything but the last header.
fn all_but_last() -> Vec<Box6> {
    (0..FIELDS).map(|f| only(f, 0, LAST_HEADER[f] - 1)).collect()
}

fn closing_boxes(closing: Closing, n: usize, random: &mut Random) -> Vec<Box6> {
    match closing {
        Closing::Bare => vec![],
        Closing::All => vec![ALL],
        Closing::Halves => {
            let (mut lower, mut upper) = (ALL, ALL);
            lower.high[0] = u32::MAX / 2;
            upper.low[0] = u32::MAX / 2 + 1;
            vec![lower, upper]
        }
        Closing::Orthants => (0..32u32)
            .map(|bits| {
                let mut b = ALL;
                for f in 0..DIRECTION {
                    if bits >> f & 1 == 0 {
                        b.high[f] = TOP[f] / 2;
                    } else {
                        b.low[f] = TOP[f] / 2 + 1;
                    }
                }
                b
            })
            .collect(),
        Closing::Hole => all_but_last(),
        Closing::Headers => {
            let with_ports = WITH_PORTS.map(|p| only(PROTOCOL, p, p));
            [no_ports()].into_iter().chain(with_ports).collect()
        }
        Closing::Parts => partition(n / 2, random),
    }
}

/// A list of `n` entries of one shape, closed in one way. Where the closing boxes alone are more
/// than half of `n`, the list is longer.
pub fn family(shape: Shape, closing: Closing, n: usize, random: &mut Random) -> List {
    let last = closing_boxes(closing, n, random);
    let first = n.saturating_sub(last.len()).max(n / 2).max(1);
    let mut boxes = body(shape, first, random);
    boxes.extend(last);
    with_sets(boxes, Sets::Any, random)
}

// ---------------------------------------------------------------- action sets

/// Which action sets a list's entries get.
#[derive(Clone, Copy, PartialEq, Eq, Debug)]
pub enum Sets {
    Any,
    /// Every set has this action, so that lists agree.
    With(u16),
    /// One of two sets, so that entries can often be struck.
    OneOf(u16, u16),
}

const USUAL_SETS: [u16; 12] = [1, 2, 3, 4, 5, 6, 7, 12, 0x14, 0x3c, 0xfffc, 0xffff];

fn action_set(sets: Sets, random: &mut Random) -> u16 {
    match sets {
        Sets::Any if random.one_in(40) => 0,
        Sets::Any => *random.pick(&USUAL_SETS),
        Sets::With(action) => action | *random.pick(&USUAL_SETS),
        Sets::OneOf(a, b) => {
            if random.one_in(2) {
                a
            } else {
                b
            }
        }
    }
}

fn with_sets(boxes: Vec<Box6>, sets: Sets, random: &mut Random) -> List {
    boxes
        .into_iter()
        .map(|selector| Entry { selector, actions: action_set(sets, random) })
        .collect()
}

pub fn some_sets(random: &mut Random) -> Sets {
    match random.below(4) {
        0 => Sets::Any,
        1 => Sets::OneOf(6, 12),
        _ => Sets::With(4),
    }
}

// ---------------------------------------------------------------- lists for the tests

/// The ranges of protocols between those with ports.
fn without_ports() -> Vec<(u32, u32)> {
    let lows = [0].into_iter().chain(WITH_PORTS.map(|p| p + 1));
    let highs = WITH_PORTS.map(|p| p - 1).into_iter().chain([TOP[PROTOCOL]]);
    lows.zip(highs).collect()
}

/// Changes a box so that it holds no header: protocols without ports, and one port is not 0.
fn leave_headers(b: &mut Box6, protocols: (u32, u32), random: &mut Random) {
    (b.low[PROTOCOL], b.high[PROTOCOL]) = protocols;
    let f = *random.pick(&[LOCAL_PORT, REMOTE_PORT]);
    b.low[f] = b.low[f].max(1);
    b.high[f] = b.high[f].max(1);
}

/// An entry that matches no header. What it allows must not matter.
fn headerless_entry(mut selector: Box6, random: &mut Random) -> Entry {
    let protocols = *random.pick(&without_ports());
    leave_headers(&mut selector, protocols, random);
    Entry { selector, actions: action_set(Sets::Any, random) }
}

fn small_range(f: usize, random: &mut Random) -> (u32, u32) {
    if random.one_in(2) {
        return (0, TOP[f]);
    }
    let parts = points::STARTS[f].len() as u64;
    let (i, j) = (random.below(parts) as usize, random.below(parts) as usize);
    (points::STARTS[f][i.min(j)], points::end(f, i.max(j)))
}

fn small_entry(sets: Sets, random: &mut Random) -> Entry {
    let mut selector = ALL;
    for f in 0..FIELDS {
        (selector.low[f], selector.high[f]) = small_range(f, random);
    }
    if random.one_in(10) {
        leave_headers(&mut selector, (0, WITH_PORTS[0] - 1), random);
        return Entry { selector, actions: action_set(Sets::Any, random) };
    }
    Entry { selector, actions: action_set(sets, random) }
}

/// All headers of one direction.
fn one_way(direction: u32) -> Box6 {
    only(DIRECTION, direction, direction)
}

/// A list over a space so small that it can be walked point by point (see points.rs): mostly closed by
/// ALL, or by two entries that match all headers and not all combinations, or by one for each direction;
/// sometimes with a gap.
pub fn small_list(n: usize, sets: Sets, random: &mut Random) -> List {
    let closing = match random.below(14) {
        0 => vec![],
        1 => vec![one_way(random.between(IN, OUT))],
        2..=4 if n > 1 => vec![no_ports(), only(PROTOCOL, WITH_PORTS[0], TOP[PROTOCOL])],
        5 if n > 1 => vec![one_way(OUT), one_way(IN)],
        _ => vec![ALL],
    };
    let mut list: List = (closing.len()..n).map(|_| small_entry(sets, random)).collect();
    list.extend(with_sets(closing, sets, random));
    list
}

/// A list of `n` entries of a shape of the families, mostly covering.
pub fn shaped_list(n: usize, sets: Sets, random: &mut Random) -> List {
    let shape = *random.pick(&SHAPES);
    let closing = match random.below(12) {
        0 => Closing::Bare,
        1 if n > 8 => Closing::Hole,
        2 if n > 2 => Closing::Halves,
        3 if n > 4 => Closing::Parts,
        4 | 5 if n > 8 => Closing::Headers,
        _ => Closing::All,
    };
    let last = closing_boxes(closing, n, random);
    let mut boxes = match n.saturating_sub(last.len()) {
        0 => vec![],
        first => body(shape, first, random),
    };
    boxes.extend(last);
    with_sets(boxes, sets, random)
}

/// A list as an administrator files it.
pub fn realistic_list(n: usize, sets: Sets, random: &mut Random) -> List {
    let mut boxes = body(Shape::Realistic, n, random);
    boxes[n - 1] = ALL;
    with_sets(boxes, sets, random)
}

/// Such lists clash at no header: one has a port for a single action and the next a protocol without
/// ports for another, and all else has both.
pub fn clashing_list(n: usize, random: &mut Random) -> List {
    let mut list = realistic_list(n - 1, Sets::With(7), random);
    let first = if random.one_in(2) {
        let (f, port) = (*random.pick(&[LOCAL_PORT, REMOTE_PORT]), *random.pick(&SERVICES));
        Entry { selector: only(f, port, port), actions: 1 }
    } else {
        let (low, high) = *random.pick(&without_ports());
        Entry { selector: only(PROTOCOL, low, high), actions: 2 }
    };
    list.insert(random.below(2) as usize, first);
    list
}

/// A list of 1 to `most` entries of any kind.
pub fn any_list(most: usize, sets: Sets, random: &mut Random) -> List {
    let n = random.between(1, most as u32) as usize;
    match random.below(5) {
        0 | 1 => realistic_list(n, sets, random),
        2 => shaped_list(n, sets, random),
        3 => small_list(n, sets, random),
        _ => small_list(n.min(6), sets, random),
    }
}

/// A list for the calls that take a file: mostly short ones, some long ones, a few of the greatest
/// length.
pub fn some_list(random: &mut Random) -> List {
    match random.below(24) {
        0 => realistic_list(256, Sets::Any, random),
        1 => realistic_list(random.between(33, 256) as usize, Sets::Any, random),
        2 => shaped_list(random.between(10, 24) as usize, Sets::Any, random),
        3..=6 => any_list(24, Sets::Any, random),
        _ => any_list(10, Sets::Any, random),
    }
}

/// A list of more than 32 entries over a small space: a short one, and behind it a few of its
/// entries over and over. So what the last ones leave is often caught by others, or by none.
pub fn long_list(random: &mut Random) -> List {
    let mut list = small_list(random.between(2, 16) as usize, Sets::Any, random);
    if random.one_in(2) {
        list.pop();
    }
    if random.one_in(3) {
        let actions = list[0].actions;
        list.iter_mut().for_each(|e| e.actions = actions);
    }
    let few = [0; 3].map(|_| *random.pick(&list));
    let n = random.between(33, 80) as usize;
    list.resize_with(n, || *random.pick(&few));
    list
}

/// A list that often refines the given one, or is refined by it.
pub fn related_list(list: &[Entry], random: &mut Random) -> List {
    let mut other = list.to_vec();
    for _ in 0..random.below(4) {
        let i = random.below(other.len() as u64) as usize;
        let j = random.below(other.len() as u64) as usize;
        match random.below(12) {
            0 | 1 => other[i].actions |= 1 << random.below(16),
            2 => other[i].actions &= !(1 << random.below(16)),
            3 => other.swap(i, j),
            4 if other.len() < 256 => {
                let entry = other[j];
                other.insert(i, entry);
            }
            5 if other.len() > 1 => {
                other.remove(i);
            }
            6 => {
                let f = random.below(FIELDS as u64) as usize;
                other[i].selector.low[f] = 0;
                other[i].selector.high[f] = TOP[f];
            }
            7 | 8 if other.len() < 256 => {
                let entry = headerless_entry(other[j].selector, random);
                other.insert(i, entry);
            }
            9 | 10 if other.len() < 256 => {
                // An entry that has another set for one direction.
                let (mut entry, direction) = (other[i], random.between(IN, OUT));
                let s = &mut entry.selector;
                (s.low[DIRECTION], s.high[DIRECTION]) = (direction, direction);
                entry.actions ^= 1 << random.below(16);
                other.insert(i, entry);
            }
            _ => {
                let f = random.below(FIELDS as u64) as usize;
                other[i].selector.high[f] = other[i].selector.low[f].max(other[j].selector.low[f]);
            }
        }
    }
    if random.one_in(4) {
        let more = *random.pick(&[0, 1, 4, 0x0ff0]);
        other.iter_mut().for_each(|e| e.actions |= more);
    }
    other
}

// ---------------------------------------------------------------- files and headers

/// Ranges of directions that count as crossed: a low above its high, or an end above 1.
const NO_DIRECTIONS: [(u32, u32); 12] = [
    (1, 0),
    (1, 0),
    (0, 2),
    (0, 2),
    (1, 2),
    (2, 2),
    (2, 0),
    (2, 1),
    (0, 255),
    (255, 255),
    (255, 0),
    (128, 129),
];

/// Gives a box such a range of directions.
pub fn leave_directions(b: &mut Box6, random: &mut Random) {
    (b.low[DIRECTION], b.high[DIRECTION]) = *random.pick(&NO_DIRECTIONS);
}

/// Gives an entry a crossed range.
pub fn cross_one(list: &mut [Entry], random: &mut Random) {
    let i = random.below(list.len() as u64) as usize;
    let f = random.below(FIELDS as u64) as usize;
    let s = &mut list[i].selector;
    if f == DIRECTION {
        return leave_directions(s, random);
    }
    s.low[f] = random.between(1, TOP[f]);
    s.high[f] = s.low[f] - random.between(1, s.low[f].min(3));
}

/// The file of a list in one of the versions. Version 1 is seldom taken where it leaves out directions.
pub fn file_in_some_version(list: &[Entry], random: &mut Random) -> Vec<u8> {
    let is_lost = !list.iter().all(is_both_ways);
    let version = if is_lost && !random.one_in(4) { 2 } else { *random.pick(&VERSIONS) };
    file_in(version, list)
}

/// A file of 420 bytes of records, which are 15 of version 1 and 14 of version 2, with a version and a
/// count that seldom are those of its records.
fn file_of_either_size(list: &[Entry], random: &mut Random) -> Vec<u8> {
    let (version, count) = *random.pick(&[(1, 15), (2, 14)]);
    let mut list = list.to_vec();
    list.resize(count, list[0]);
    let mut bytes = file_in(version, &list);
    bytes[2] = *random.pick(&VERSIONS);
    bytes[4] = *random.pick(&[14, 15]);
    bytes
}

/// A file with a fault, so that each of the refusals of reading is met, now and then without one.
pub fn damaged(list: &[Entry], random: &mut Random) -> Vec<u8> {
    let mut list = list.to_vec();
    let n = list.len();
    let version = *random.pick(&VERSIONS);
    match random.below(16) {
        0 | 1 => {
            // A crossed range, or two.
            for _ in 0..random.between(1, 2) {
                cross_one(&mut list, random);
            }
            file_in(version, &list)
        }
        2 => {
            // A gap at the end of one field.
            let f = random.below(FIELDS as u64) as usize;
            for e in &mut list {
                e.selector.high[f] = e.selector.high[f].min(TOP[f] - 1);
                e.selector.low[f] = e.selector.low[f].min(e.selector.high[f]);
            }
            file_in(version, &list)
        }
        3 => {
            list.pop();
            file_in(version, &list)
        }
        4 => {
            // More entries than any file has.
            while list.len() < 250 + random.below(12) as usize {
                list.extend_from_within(..);
            }
            list.truncate(random.between(250, 260) as usize);
            file_in(version, &list)
        }
        5 => {
            let mut bytes = file_in(version, &list);
            bytes[2] = *random.pick(&[0, 3, 4, 255]);
            bytes
        }
        6 => {
            let mut bytes = file_in(version, &list);
            let count = *random.pick(&[0, 1, n as u32 + 1, n as u32 - 1, 33, 256, 257, 65535]);
            bytes[3..5].copy_from_slice(&(count as u16).to_be_bytes());
            bytes
        }
        7 => {
            let mut bytes = file_in(version, &list);
            bytes.truncate(random.below(bytes.len() as u64) as usize);
            bytes
        }
        8 => {
            let mut bytes = file_in(version, &list);
            bytes.truncate(random.below(7) as usize);
            bytes
        }
        9 => {
            let mut bytes = file_in(version, &list);
            let more = random.between(1, 30);
            bytes.extend((0..more).map(|_| random.next() as u8));
            bytes
        }
        10 => {
            // The length agrees, the count does not.
            let mut bytes = file_in(version, &list);
            let more = random.between(1, 30) as usize;
            bytes.extend((0..more).map(|_| random.next() as u8));
            let length = bytes.len() - 2;
            bytes[0..2].copy_from_slice(&(length as u16).to_be_bytes());
            bytes
        }
        11 => {
            let mut bytes = file_in(version, &list);
            let i = random.below(bytes.len().min(5) as u64) as usize;
            bytes[i] ^= 1 << random.below(8);
            bytes
        }
        12 => {
            let mut bytes = file_in(version, &list);
            let i = random.below(bytes.len() as u64) as usize;
            bytes[i] = random.next() as u8;
            bytes
        }
        13 => {
            // The length of the other version's records.
            let mut bytes = file_in(version, &list);
            bytes[2] = 3 - version;
            bytes
        }
        14 => file_of_either_size(&list, random),
        _ => {
            let length = random.below(80) as usize;
            let mut bytes: Vec<u8> = (0..length).map(|_| random.next() as u8).collect();
            if length >= 5 && random.one_in(2) {
                bytes[0..2].copy_from_slice(&(length as u16 - 2).to_be_bytes());
                bytes[2] = random.between(0, 3) as u8;
                bytes[3..5].copy_from_slice(&[0, random.between(0, 2) as u8]);
            }
            bytes
        }
    }
}

/// The file of a list, now and then damaged.
pub fn some_file(list: &[Entry], random: &mut Random) -> Vec<u8> {
    match random.below(8) {
        0 => damaged(list, random),
        _ => file_in_some_version(list, random),
    }
}

/// Directions that are none.
const NO_DIRECTION: [u32; 4] = [2, 3, 128, 255];

/// A header at or beside the ends of a list's ranges; now and then a combination that is none.
pub fn header_near(list: &[Entry], random: &mut Random) -> Header {
    let mut header = numbers_near(list, random);
    if !is_header(&header) && !random.one_in(5) {
        if random.one_in(2) {
            (header[LOCAL_PORT], header[REMOTE_PORT]) = (0, 0);
        } else {
            header[PROTOCOL] = *random.pick(&WITH_PORTS);
        }
    }
    if random.one_in(20) {
        header[DIRECTION] = *random.pick(&NO_DIRECTION);
    }
    header
}

/// Numbers at or beside the ends of a list's ranges.
fn numbers_near(list: &[Entry], random: &mut Random) -> Header {
    let mut header = [0; FIELDS];
    for f in 0..FIELDS {
        let mut near = 0;
        if !list.is_empty() {
            let s = &random.pick(list).selector;
            near = *random.pick(&[s.low[f], s.high[f], s.low[f] / 2 + s.high[f] / 2]);
        }
        header[f] = match random.below(12) {
            0 => 0,
            1 => TOP[f],
            2 => random.between(0, TOP[f]),
            3 | 4 => near.saturating_sub(1),
            5 | 6 => near.saturating_add(1).min(TOP[f]),
            _ => near,
        };
    }
    header
}

/// A box with its ends at or beside those of a list's ranges, sometimes crossed, in its directions too,
/// sometimes without a header.
pub fn box_near(list: &[Entry], random: &mut Random) -> Box6 {
    let (x, y) = (numbers_near(list, random), numbers_near(list, random));
    let mut b = Box6 { low: x, high: y };
    if !random.one_in(20) {
        for f in 0..FIELDS {
            b.low[f] = x[f].min(y[f]);
            b.high[f] = x[f].max(y[f]);
        }
    }
    match random.below(8) {
        0 => {
            let protocols = *random.pick(&without_ports());
            leave_headers(&mut b, protocols, random);
        }
        1..=3 => (b.low[LOCAL_PORT], b.low[REMOTE_PORT]) = (0, 0),
        _ => {}
    }
    if random.one_in(16) {
        leave_directions(&mut b, random);
    }
    b
}

// ---------------------------------------------------------------- rankings

/// The actions in the order of their bits.
pub const RISING: [u8; 16] = [0, 1, 2, 3, 4, 5, 6, 7, 8, 9, 10, 11, 12, 13, 14, 15];

/// All actions in any order.
pub fn good_ranking(random: &mut Random) -> Vec<u8> {
    let mut ranking = RISING.to_vec();
    random.shuffle(&mut ranking);
    ranking
}

/// Bytes that are no order of all actions, each for one reason.
pub fn bad_ranking(random: &mut Random) -> Vec<u8> {
    let mut ranking = good_ranking(random);
    let i = random.below(16) as usize;
    match random.below(8) {
        0 => ranking.clear(),
        1 => drop(ranking.pop()),
        2 => ranking.push(random.between(0, 16) as u8),
        // As many as 16 in the last eight bits.
        3 => ranking.resize(16 + 256, 0),
        4 => ranking[i] = ranking[(i + random.between(1, 15) as usize) % 16],
        5 => ranking[i] = 16,
        6 => ranking[i] = 255,
        // The same in the last four bits.
        _ => ranking[i] += 16 * random.between(1, 15) as u8,
    }
    ranking
}

/// Mostly a ranking, now and then bytes that are none.
pub fn some_ranking(random: &mut Random) -> Vec<u8> {
    match random.below(8) {
        0 | 1 => bad_ranking(random),
        2 => RISING.to_vec(),
        _ => good_ranking(random),
    }
}

// ---------------------------------------------------------------- filings, inputs of the program

/// Single ports then ALL, as in 01's example of 256 and 272 entries; or single numbers of another field.
/// Of protocols, those with ports come first; of directions, there are two.
pub fn single_ports(f: usize, n: usize) -> List {
    let number = |i: usize| match f {
        PROTOCOL if i < WITH_PORTS.len() => WITH_PORTS[i],
        DIRECTION => i as u32,
        _ => 100 + i as u32,
    };
    let single = |i| Entry { selector: only(f, number(i), number(i)), actions: 0x8000 };
    let mut list: List = (0..n).map(single).collect();
    list.push(Entry { selector: ALL, actions: 0x8001 });
    list
}

/// Two lists whose working list has 256 entries and `more`: 15 single local ports then ALL, against
/// 15 single remote ports, `more` single local ports of others and ALL.
pub fn lists_at_limit(more: u32) -> [List; 2] {
    let mut second = single_ports(3, 15);
    for i in 0..more {
        let mut entry = second[0];
        entry.selector = ALL;
        (entry.selector.low[2], entry.selector.high[2]) = (5000 + i, 5000 + i);
        second.insert(0, entry);
    }
    [single_ports(2, 15), second]
}

/// Their filings by two parties, one in each version.
pub fn filings_at_limit(more: u32) -> Vec<u8> {
    let mut input = vec![];
    for (version, list) in VERSIONS.into_iter().zip(lists_at_limit(more)) {
        filing(version, &file_in(version, &list), &mut input);
    }
    input
}

/// Fields and numbers of single values in them: the working lists have 256 entries, or a few more.
/// The last two have 256 only because protocols without ports have no pairs with single ports.
pub const CROWDS: [&[(usize, usize)]; 13] = [
    &[(2, 15), (3, 15)],
    &[(2, 16), (3, 15)],
    &[(4, 31), (1, 7)],
    &[(0, 7), (1, 7), (4, 3)],
    &[(0, 8), (1, 7), (4, 3)],
    &[(0, 3), (1, 3), (2, 3), (3, 3)],
    &[(0, 3), (1, 3), (2, 3), (3, 3), (4, 1)],
    &[(2, 15), (3, 7), (5, 1)],
    &[(2, 16), (3, 7), (5, 1)],
    &[(5, 1), (0, 7), (1, 15)],
    &[(0, 3), (1, 1), (2, 3), (4, 17)],
    &[(0, 3), (1, 1), (2, 1), (3, 1), (4, 16)],
    &[(1, 1), (3, 21), (4, 22)],
];

/// The actions whose numbers have a bit. Where some lists leave out all others, each by its own bit, the
/// least action left is the one whose number has these bits alone.
fn actions_with_bit(bit: usize) -> u16 {
    (0..16).filter(|action| action >> bit & 1 == 1).map(|action| 1 << action).sum()
}

/// Lists whose working list has about 256 entries; most agree, some are in conflict.
pub fn crowd(random: &mut Random) -> Vec<List> {
    let mut lists: Vec<List> = match random.below(12) {
        0..=7 => random.pick(&CROWDS).iter().map(|(f, n)| single_ports(*f, *n)).collect(),
        8..=10 => lists_at_limit(random.between(0, 3)).to_vec(),
        _ => (0..2).map(|_| family(Shape::Slabs(5), Closing::All, 24, random)).collect(),
    };
    // Only the last entries leave actions out, each others, so that nothing can be struck: of the one
    // kind by merging, of the other not by installing either, with the actions in rising order.
    let last_sets: Option<fn(usize) -> u16> = match random.below(6) {
        0 => Some(|own| !(1 << own)),
        1 => Some(|own| actions_with_bit(own % 4)),
        _ => None,
    };
    if let Some(last_set) = last_sets {
        for (own, list) in lists.iter_mut().enumerate() {
            list.iter_mut().for_each(|e| e.actions = 0xffff);
            list.last_mut().expect("not empty").actions = last_set(own);
        }
    } else {
        let sets = some_sets(random);
        lists.iter_mut().flatten().for_each(|e| e.actions = action_set(sets, random));
    }
    lists
}

/// Lists of all eight parties that clash at the last header, which the last of 32 entries catches in each:
/// no conflict carries more.
pub fn longest_conflict() -> Vec<List> {
    let clashing = |own: u32| {
        let mut boxes = all_but_last();
        boxes.resize(31, boxes[0]);
        let mut list: List =
            boxes.into_iter().map(|selector| Entry { selector, actions: 1 }).collect();
        list.push(Entry { selector: ALL, actions: 1 << own });
        list
    };
    (0..8).map(clashing).collect()
}

fn filing(party: u8, bytes: &[u8], input: &mut Vec<u8>) {
    input.push(party);
    input.extend_from_slice(bytes);
}

/// Filings of lists that share most entries, as parties have who speak of the same nets, so that even
/// eight lists of 32 entries stay within the working list's limit and agree.
pub fn related_filings(parties: u8, n: usize, own: usize, random: &mut Random) -> Vec<u8> {
    let mut shared = body(Shape::Realistic, n - own, random);
    shared[n - own - 1] = ALL;
    let sets: Vec<u16> = shared.iter().map(|_| *random.pick(&[4, 8, 16])).collect();
    let mut input = vec![];
    for party in 1..=parties {
        let mut list: List = vec![];
        for (selector, set) in shared.iter().zip(&sets) {
            let more = *random.pick(&[0, 0, 1, 2, 32]);
            list.push(Entry { selector: *selector, actions: set | more });
        }
        for _ in 0..own {
            let selector = realistic_box(random);
            let at = random.below(list.len() as u64) as usize;
            list.insert(at, Entry { selector, actions: 0x1c });
        }
        filing(party, &file(&list), &mut input);
    }
    input
}

/// Filings of realistic lists of `least` to `most` entries.
pub fn realistic_filings(parties: u8, least: u32, most: u32, random: &mut Random) -> Vec<u8> {
    let mut input = vec![];
    for party in 1..=parties {
        let n = random.between(least, most) as usize;
        let list = realistic_list(n, Sets::With(4), random);
        filing(party, &file_in_some_version(&list, random), &mut input);
    }
    input
}

/// The lists that some parties file: all of one kind, and the shorter the more parties there are,
/// since the model walks every cell of a merging.
pub struct Filings {
    kind: u64,
    pub parties: u32,
    most: u32,
    sets: Sets,
}

impl Filings {
    pub fn some(random: &mut Random) -> Filings {
        Filings::of_kind(1 + random.below(15), random)
    }

    fn of_kind(kind: u64, random: &mut Random) -> Filings {
        let parties = *random.pick(&[1, 2, 2, 3, 3, 4, 5, 6, 8]);
        let most = match parties {
            1 => 32,
            2 => *random.pick(&[4, 8, 15, 32]),
            3 | 4 => *random.pick(&[4, 8, 12]),
            _ => *random.pick(&[2, 4, 6]),
        };
        Filings { kind, parties, most, sets: some_sets(random) }
    }

    pub fn list(&self, random: &mut Random) -> List {
        match self.kind {
            1..=5 => realistic_list(random.between(1, self.most) as usize, self.sets, random),
            6..=9 => small_list(random.between(1, self.most) as usize, self.sets, random),
            10..=12 => shaped_list(random.between(1, self.most) as usize, self.sets, random),
            13 => clashing_list(random.between(2, self.most) as usize, random),
            _ => any_list(self.most as usize, self.sets, random),
        }
    }
}

/// So many of the eight parties, rising.
pub fn some_parties(count: usize, random: &mut Random) -> Vec<u8> {
    let mut parties: Vec<u8> = (1..=8).collect();
    while parties.len() > count {
        parties.remove(random.below(parties.len() as u64) as usize);
    }
    parties
}

/// One of the parties, now and then a number that is none's.
pub fn some_party(parties: u32, random: &mut Random) -> u8 {
    if random.one_in(25) {
        *random.pick(&[0, 9, 10, 128, 255])
    } else {
        random.between(1, parties) as u8
    }
}

/// An input of the program: some filings of lists of one kind, damaged and replaced ones among
/// them.
pub fn program_input(random: &mut Random) -> Vec<u8> {
    let mut input = vec![];
    let kind = random.below(16);
    if kind == 0 {
        // Around the limit of the working list.
        if random.one_in(2) {
            return filings_at_limit(random.between(0, 3));
        }
        let (first, second) = (random.between(14, 17), random.between(14, 17));
        for (party, f, n) in [(1, LOCAL_PORT, first), (2, REMOTE_PORT, second)] {
            let bytes = file_in_some_version(&single_ports(f, n as usize), random);
            filing(party, &bytes, &mut input);
        }
        return input;
    }
    let filings = Filings::of_kind(kind, random);
    let parties = filings.parties;
    for i in 0..parties + random.below(4) as u32 {
        let list = filings.list(random);
        let party = if i < parties && !random.one_in(20) {
            i as u8 + 1
        } else {
            some_party(parties, random)
        };
        if random.one_in(9) {
            filing(party, &damaged(&list, random), &mut input);
        } else {
            filing(party, &file_in_some_version(&list, random), &mut input);
        }
    }
    if random.one_in(12) {
        input.truncate(random.below(input.len() as u64 + 1) as usize);
    }
    if random.one_in(12) {
        let more = random.between(1, 5);
        input.extend((0..more).map(|_| random.next() as u8));
    }
    input
}

/// An input of exactly `length` bytes: filings until no more fit, then part of one.
pub fn long_input(length: usize, random: &mut Random) -> Vec<u8> {
    let mut input = vec![];
    while input.len() < length {
        let n = *random.pick(&[1, 5, 20, 32]);
        let list = realistic_list(n, Sets::With(4), random);
        let bytes = file_in_some_version(&list, random);
        filing(some_party(3, random), &bytes, &mut input);
    }
    input.truncate(length);
    input
}

/// An input of exactly `length` bytes whose last byte counts, if some input of that length has one:
/// it ends with a filing, or where none fits with a party's number. Records of other filings and of
/// bytes that are no list stand before that.
pub fn input_to_the_last_byte(length: usize, random: &mut Random) -> Vec<u8> {
    // A record has 3 bytes or more, except where the input ends.
    if length < 4 {
        return [1, 0, 0][..length].to_vec();
    }
    let record = |random: &mut Random| {
        let n = *random.pick(&[1, 2, 5, 20, 32]);
        let mut record = vec![];
        let list = realistic_list(n, Sets::With(4), random);
        let bytes = file_in_some_version(&list, random);
        filing(random.between(1, 3) as u8, &bytes, &mut record);
        record
    };
    let mut last = record(random);
    if last.len() + 3 > length {
        last = vec![random.between(1, 8) as u8];
    }
    // From the last record to the first.
    let mut records = vec![last];
    let mut rest = length - records[0].len();
    while rest > 0 {
        let mut next = record(random);
        if next.len() + 3 > rest {
            let [high, low] = (rest as u16 - 3).to_be_bytes();
            next = vec![random.between(1, 8) as u8, high, low];
            next.extend((3..rest).map(|_| random.next() as u8));
        }
        rest -= next.len();
        records.push(next);
    }
    records.reverse();
    records.concat()
}
