//! Headers, boxes, entries and lists as plain numbers, and the file's bytes for them.
//! The six fields stand in the order of headers: local address, remote address, local port,
//! remote port, protocol, direction.

pub const FIELDS: usize = 6;
pub const LOCAL_PORT: usize = 2;
pub const REMOTE_PORT: usize = 3;
pub const PROTOCOL: usize = 4;
pub const DIRECTION: usize = 5;

/// The two directions.
pub const IN: u32 = 0;
pub const OUT: u32 = 1;

/// The greatest number of each field. The byte of a direction can hold greater ones, which are none.
pub const TOP: [u32; FIELDS] = [u32::MAX, u32::MAX, 0xffff, 0xffff, 0xff, OUT];

/// Bytes of each field's number in a record.
pub const WIDTH: [usize; FIELDS] = [4, 4, 2, 2, 1, 1];

/// Bytes of a header, of a box, and of an entry with all its numbers.
pub const HEADER: usize = 14;
pub const BOX: usize = 2 * HEADER;
pub const RECORD: usize = BOX + 2;

/// The versions of a file. Version 1 has no directions: each of its entries covers both.
pub const VERSIONS: [u8; 2] = [1, 2];

/// A combination of numbers, whether it is a header or not. Compared as arrays are: the first number
/// that differs decides.
pub type Header = [u32; FIELDS];

/// The protocols that have ports, rising.
pub const WITH_PORTS: [u32; 5] = [6, 17, 33, 132, 136];

/// The greatest header: its protocol is the last that has ports.
pub const LAST_HEADER: Header =
    [TOP[0], TOP[1], TOP[2], TOP[3], WITH_PORTS[WITH_PORTS.len() - 1], OUT];

/// Whether a combination of numbers is a header: its direction is one of the two, and its protocol has
/// ports, or both its ports are 0.
#[inline(always)]
pub fn is_header(h: &Header) -> bool {
    h[DIRECTION] <= OUT
        && (WITH_PORTS.contains(&h[PROTOCOL]) || (h[LOCAL_PORT] == 0 && h[REMOTE_PORT] == 0))
}

#[derive(Clone, Copy, PartialEq, Eq, Debug, Hash)]
pub struct Box6 {
    pub low: [u32; FIELDS],
    pub high: [u32; FIELDS],
}

pub const ALL: Box6 = Box6 { low: [0; FIELDS], high: TOP };

#[derive(Clone, Copy, PartialEq, Eq, Debug, Hash)]
pub struct Entry {
    pub selector: Box6,
    pub actions: u16,
}

pub type List = Vec<Entry>;

/// Whether an entry's range of directions is exactly both.
pub fn is_both_ways(e: &Entry) -> bool {
    (e.selector.low[DIRECTION], e.selector.high[DIRECTION]) == (IN, OUT)
}

/// A list as version 1 has it: every entry for both directions.
pub fn both_ways(list: &[Entry]) -> List {
    let mut list = list.to_vec();
    for e in &mut list {
        (e.selector.low[DIRECTION], e.selector.high[DIRECTION]) = (IN, OUT);
    }
    list
}

fn put(bytes: &mut Vec<u8>, value: u32, width: usize) {
    bytes.extend_from_slice(&value.to_be_bytes()[4 - width..]);
}

/// The ranges of a box's first so many fields.
fn ranges(b: &Box6, fields: usize) -> Vec<u8> {
    let mut bytes = Vec::with_capacity(RECORD);
    for f in 0..fields {
        put(&mut bytes, b.low[f], WIDTH[f]);
        put(&mut bytes, b.high[f], WIDTH[f]);
    }
    bytes
}

/// A box's 28 bytes.
pub fn box_bytes(b: &Box6) -> Vec<u8> {
    ranges(b, FIELDS)
}

/// The record of an entry in a file of some version: 30 bytes, or 28 without the direction.
fn record_in(version: u8, e: &Entry) -> Vec<u8> {
    let mut bytes = ranges(&e.selector, if version == 1 { DIRECTION } else { FIELDS });
    put(&mut bytes, e.actions as u32, 2);
    bytes
}

/// The 30 bytes of an entry.
pub fn record(e: &Entry) -> Vec<u8> {
    record_in(2, e)
}

/// The records of a list, one after the other.
pub fn records(list: &[Entry]) -> Vec<u8> {
    list.iter().flat_map(record).collect()
}

/// The file of a list in some version, for lists of at most 2184 entries. What version 1 has no room
/// for, the directions, is left out of it.
pub fn file_in(version: u8, list: &[Entry]) -> Vec<u8> {
    let records: Vec<u8> = list.iter().flat_map(|e| record_in(version, e)).collect();
    let mut bytes = Vec::with_capacity(5 + records.len());
    put(&mut bytes, (3 + records.len()) as u32, 2);
    bytes.push(version);
    put(&mut bytes, list.len() as u32, 2);
    bytes.extend(records);
    bytes
}

/// The file of a list in version 2, which has all that a list says.
pub fn file(list: &[Entry]) -> Vec<u8> {
    file_in(2, list)
}

/// A header's 14 bytes.
pub fn header_bytes(h: &Header) -> Vec<u8> {
    let mut bytes = Vec::with_capacity(HEADER);
    for f in 0..FIELDS {
        put(&mut bytes, h[f], WIDTH[f]);
    }
    bytes
}
