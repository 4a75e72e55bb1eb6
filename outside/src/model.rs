//! Document 01 once more, with Wishes 1, 2, 4, 5 and 6 of 02, written from their text for clarity, as the
//! other side of the tests. It shares no algorithm with the product: what the product finds by cutting boxes
//! is found here by walking the cells between all ends of ranges, field by field, in the order of headers.

use crate::entry::{
    is_both_ways, is_header, Box6, Entry, Header, List, ALL, FIELDS, OUT, TOP, WIDTH,
};
use crate::entry::{DIRECTION, LOCAL_PORT, PROTOCOL, REMOTE_PORT, WITH_PORTS};
use std::collections::{BTreeSet, HashSet};

// ---------------------------------------------------------------- what is turned down

/// A party's number, and that of an entry of its list as filed.
pub type Named = (u8, usize);

#[derive(Clone, PartialEq, Eq, Debug)]
pub enum Refusal {
    Missized,
    Version,
    Count,
    Crossed(usize),
    Gap(Header),
    Party,
    Vacant,
    Bare,
    Crowded,
    /// The header, and the entries that catch it in the lists in force, by rising party.
    Conflict(Header, Vec<Named>),
    Narrow(usize),
    Ranking,
}

impl Refusal {
    /// The number in 01's table, or in 02.
    pub fn number(&self) -> u32 {
        match self {
            Refusal::Missized => 1,
            Refusal::Version => 2,
            Refusal::Count => 3,
            Refusal::Crossed(_) => 4,
            Refusal::Gap(_) => 5,
            Refusal::Party => 6,
            Refusal::Vacant => 7,
            Refusal::Bare => 8,
            Refusal::Crowded => 9,
            Refusal::Conflict(..) => 10,
            Refusal::Narrow(_) => 11,
            Refusal::Ranking => 12,
        }
    }
}

pub const FILED_LIMIT: usize = 32;
pub const LIST_LIMIT: usize = 256;

/// Bytes before a file's records, and of a record in versions 1 and 2.
const HEAD: usize = 5;
const RECORD_1: usize = 28;
const RECORD_2: usize = 30;

/// The longest file: merged, installed and tried ones are of version 2.
pub const LONGEST_FILE: usize = HEAD + RECORD_2 * LIST_LIMIT;

// ---------------------------------------------------------------- headers, entries, lists

/// Whether numbers are in a box; a crossed box holds none.
pub fn holds(b: &Box6, h: &Header) -> bool {
    (0..FIELDS).all(|f| b.low[f] <= h[f] && h[f] <= b.high[f]) && !is_crossed(b)
}

/// Whether a low is above its high, or an end of the directions is none.
pub fn is_crossed(b: &Box6) -> bool {
    let ends = [b.low[DIRECTION], b.high[DIRECTION]];
    (0..FIELDS).any(|f| b.low[f] > b.high[f]) || ends.iter().any(|end| *end > OUT)
}

/// The number of the first entry that matches (Definition 3). What is no header is uncaught.
pub fn catching(list: &[Entry], h: &Header) -> Option<usize> {
    if !is_header(h) {
        return None;
    }
    list.iter().position(|e| holds(&e.selector, h))
}

/// What a list allows a header, where it is caught (Definition 4).
pub fn allowed(list: &[Entry], h: &Header) -> Option<u16> {
    catching(list, h).map(|i| list[i].actions)
}

// ---------------------------------------------------------------- walking the cells

/// Calls `visit` with headers of a box in rising order, and the numbers of the entries that catch
/// them in each list, until it answers true. Headers that no list tells apart from an earlier
/// header are left out. So every combination of catching entries that occurs at a header of the box
/// is visited, first at its least header.
pub fn walk(
    within: &Box6,
    lists: &[&[Entry]],
    visit: &mut dyn FnMut(&Header, &[Option<usize>]) -> bool,
) {
    if is_crossed(within) {
        return;
    }
    let alive = lists.iter().map(|list| (0..list.len()).collect()).collect();
    let mut seen = vec![HashSet::new(); FIELDS];
    walk_field(within, lists, 0, alive, &mut [0; FIELDS], &mut seen, visit);
}

/// Entries of each list that match in all fields so far.
type Alive = Vec<Vec<usize>>;

/// All that what is still to be walked depends on: the entries, and whether a port was chosen that
/// only protocols with ports have.
type Walked = (Alive, bool);

fn walk_field(
    within: &Box6,
    lists: &[&[Entry]],
    f: usize,
    alive: Alive,
    header: &mut Header,
    seen: &mut Vec<HashSet<Walked>>,
    visit: &mut dyn FnMut(&Header, &[Option<usize>]) -> bool,
) -> bool {
    // Once the protocol is chosen, ports that it lacks make no header with either direction.
    if f > PROTOCOL && !is_header(header) {
        return false;
    }
    if f == FIELDS {
        let catching: Vec<Option<usize>> = alive.iter().map(|list| list.first().copied()).collect();
        return visit(header, &catching);
    }
    let alive = without_hidden(within, lists, f, alive);
    let has_port = [LOCAL_PORT, REMOTE_PORT].iter().any(|g| *g < f && header[*g] > 0);
    if !seen[f].insert((alive.clone(), has_port)) {
        return false;
    }
    for start in cell_starts(within, lists, f, &alive) {
        header[f] = start;
        let matching = lists
            .iter()
            .zip(&alive)
            .map(|(list, numbers)| {
                let matches = |i: &usize| {
                    let s = &list[*i].selector;
                    s.low[f] <= start && start <= s.high[f]
                };
                numbers.iter().copied().filter(matches).collect()
            })
            .collect();
        if walk_field(within, lists, f + 1, matching, header, seen, visit) {
            return true;
        }
    }
    false
}

/// Drops the entries after one that matches everything that is still to be walked: they catch
/// nothing of it.
fn without_hidden(within: &Box6, lists: &[&[Entry]], f: usize, mut alive: Alive) -> Alive {
    for (list, numbers) in lists.iter().zip(&mut alive) {
        let whole = |i: &usize| {
            let s = &list[*i].selector;
            (f..FIELDS).all(|g| s.low[g] <= within.low[g] && within.high[g] <= s.high[g])
        };
        if let Some(at) = numbers.iter().position(whole) {
            numbers.truncate(at + 1);
        }
    }
    alive
}

/// Where a field is cut because of what a header is: a port is 0 or not, and a protocol has ports or
/// not.
pub fn header_cuts(f: usize) -> Vec<u32> {
    match f {
        LOCAL_PORT | REMOTE_PORT => vec![1],
        PROTOCOL => WITH_PORTS.iter().flat_map(|p| [*p, p + 1]).collect(),
        _ => vec![],
    }
}

/// The least numbers of the cells of field `f`: the ends of all ranges cut the box's range there.
fn cell_starts(within: &Box6, lists: &[&[Entry]], f: usize, alive: &Alive) -> BTreeSet<u32> {
    let mut starts = BTreeSet::from([within.low[f]]);
    starts.extend(header_cuts(f));
    for (list, numbers) in lists.iter().zip(alive) {
        for &i in numbers {
            let s = &list[i].selector;
            starts.insert(s.low[f]);
            if s.high[f] < TOP[f] {
                starts.insert(s.high[f] + 1);
            }
        }
    }
    starts.retain(|x| within.low[f] <= *x && *x <= within.high[f]);
    starts
}

/// The least header of a box whose catching entries have a property.
fn least(
    within: &Box6,
    lists: &[&[Entry]],
    property: impl Fn(&[Option<usize>]) -> bool,
) -> Option<Header> {
    let mut found = None;
    walk(within, lists, &mut |header, catching| {
        if property(catching) {
            found = Some(*header);
        }
        found.is_some()
    });
    found
}

/// The least header of a box.
pub fn least_header(within: &Box6) -> Option<Header> {
    least(within, &[], |_| true)
}

// ---------------------------------------------------------------- the file

pub fn number(bytes: &[u8]) -> u32 {
    bytes.iter().fold(0, |n, b| n * 256 + *b as u32)
}

/// The numbers of the given widths at the start of the bytes.
fn numbers(bytes: &[u8], widths: impl Iterator<Item = usize>) -> Vec<u32> {
    let mut rest = bytes;
    let next = |width| {
        let (head, tail) = rest.split_at(width);
        rest = tail;
        number(head)
    };
    widths.map(next).collect()
}

pub fn header_at(bytes: &[u8]) -> Header {
    let found = numbers(bytes, WIDTH.into_iter());
    std::array::from_fn(|f| found[f])
}

/// The ranges of the first so many fields; the others are whole.
fn ranges_at(bytes: &[u8], fields: usize) -> Box6 {
    let found = numbers(bytes, WIDTH[..fields].iter().flat_map(|width| [*width, *width]));
    let mut b = ALL;
    for f in 0..fields {
        (b.low[f], b.high[f]) = (found[2 * f], found[2 * f + 1]);
    }
    b
}

pub fn box_at(bytes: &[u8]) -> Box6 {
    ranges_at(bytes, FIELDS)
}

/// A list, and the version of the file that it was read from or is written to.
#[derive(Clone, PartialEq, Eq, Debug)]
pub struct Versioned {
    pub version: u8,
    pub entries: List,
}

/// Check 2, and how many bytes a record has in this version.
fn record_size(version: u8) -> Result<usize, Refusal> {
    match version {
        1 => Ok(RECORD_1),
        2 => Ok(RECORD_2),
        _ => Err(Refusal::Version),
    }
}

/// How many fields a record has in a version: the direction comes with version 2.
fn fields_in(version: u8) -> usize {
    match version {
        1 => DIRECTION,
        _ => FIELDS,
    }
}

/// The entry of a record: of version 1, it covers both directions.
pub fn entry_at(version: u8, record: &[u8]) -> Entry {
    let (ranges, actions) = record.split_at(record.len() - 2);
    Entry { selector: ranges_at(ranges, fields_in(version)), actions: number(actions) as u16 }
}

/// Reading a file: checks 1 to 4, and the list.
pub fn read(file: &[u8], limit: usize) -> Result<Versioned, Refusal> {
    if file.len() < HEAD || file.len() != number(&file[0..2]) as usize + 2 {
        return Err(Refusal::Missized);
    }
    let version = file[2];
    let size = record_size(version)?;
    let n = number(&file[3..5]) as usize;
    let rest = file.len() - HEAD;
    if n < 1 || n > limit || rest / size != n || rest % size != 0 {
        return Err(Refusal::Count);
    }
    let entries: List = file[HEAD..].chunks(size).map(|record| entry_at(version, record)).collect();
    match entries.iter().position(|e| is_crossed(&e.selector)) {
        Some(i) => Err(Refusal::Crossed(i)),
        None => Ok(Versioned { version, entries }),
    }
}

/// Check 5.
pub fn gap(list: &[Entry]) -> Result<(), Refusal> {
    match least(&ALL, &[list], |c| c[0].is_none()) {
        Some(header) => Err(Refusal::Gap(header)),
        None => Ok(()),
    }
}

fn bytes_of(value: u32, width: usize) -> Vec<u8> {
    (0..width).rev().map(|i| (value >> (8 * i)) as u8).collect()
}

fn record_of(version: u8, e: &Entry) -> Vec<u8> {
    let mut bytes = vec![];
    for f in 0..fields_in(version) {
        bytes.extend(bytes_of(e.selector.low[f], WIDTH[f]));
        bytes.extend(bytes_of(e.selector.high[f], WIDTH[f]));
    }
    bytes.extend(bytes_of(e.actions as u32, 2));
    bytes
}

pub fn header_of(h: &Header) -> Vec<u8> {
    (0..FIELDS).flat_map(|f| bytes_of(h[f], WIDTH[f])).collect()
}

/// The file of a list: what stands after the first two bytes, and before that how much it is.
fn file_of(version: u8, list: &[Entry]) -> Vec<u8> {
    let mut bytes = vec![version];
    bytes.extend(bytes_of(list.len() as u32, 2));
    bytes.extend(list.iter().flat_map(|e| record_of(version, e)));
    [bytes_of(bytes.len() as u32, 2), bytes].concat()
}

/// Puts a list's file at the start of a lent buffer, if it has room: the file's length.
fn put_file(version: u8, list: &[Entry], buffer: &mut [u8]) -> Result<usize, Refusal> {
    let file = file_of(version, list);
    if buffer.len() < file.len() {
        return Err(Refusal::Narrow(file.len()));
    }
    buffer[..file.len()].copy_from_slice(&file);
    Ok(file.len())
}

/// Whether an entry counts as crossed in a file of some version: version 1 can't say its directions
/// unless they are both.
fn is_crossed_in(version: u8, e: &Entry) -> bool {
    is_crossed(&e.selector) || (version == 1 && !is_both_ways(e))
}

/// Writing a list into a lent buffer: the file's length. Of a list of `count` entries, no more than the
/// first 256 are at hand.
pub fn write(
    version: u8,
    count: usize,
    first: &[Entry],
    buffer: &mut [u8],
) -> Result<usize, Refusal> {
    record_size(version)?;
    if !(1..=LIST_LIMIT).contains(&count) {
        return Err(Refusal::Count);
    }
    if let Some(i) = first.iter().position(|e| is_crossed_in(version, e)) {
        return Err(Refusal::Crossed(i));
    }
    put_file(version, first, buffer)
}

/// Reading a file and writing the list that was read.
pub fn rewrite(file: &[u8], buffer: &mut [u8]) -> Result<usize, Refusal> {
    let Versioned { version, entries } = read(file, LIST_LIMIT)?;
    write(version, entries.len(), &entries, buffer)
}

// ---------------------------------------------------------------- search, lookup, comparison

#[derive(Clone, Copy, PartialEq, Eq, Debug)]
pub enum Want {
    Uncaught,
    CaughtBy(usize),
    Differing(u16),
}

/// A header, and the number of the entry that catches it, if one does.
pub type Found = (Header, Option<usize>);

/// The least header of a box that the file's list treats in a wanted way.
pub fn search(file: &[u8], within: &Box6, want: Want) -> Result<Option<Found>, Refusal> {
    let list = read(file, LIST_LIMIT)?.entries;
    let found = least(within, &[&list], |c| match want {
        Want::Uncaught => c[0].is_none(),
        Want::CaughtBy(i) => c[0] == Some(i),
        Want::Differing(set) => c[0].map(|i| list[i].actions) != Some(set),
    });
    Ok(found.map(|header| (header, catching(&list, &header))))
}

/// The number of the entry that catches the header. The file's checks come first.
pub fn lookup(file: &[u8], h: &Header) -> Result<Option<usize>, Refusal> {
    Ok(catching(&read(file, LIST_LIMIT)?.entries, h))
}

/// The catching record as a part of the file: where it starts, and its length.
pub fn lookup_part(file: &[u8], h: &Header) -> (usize, usize) {
    match lookup(file, h) {
        Ok(Some(i)) => {
            let size = record_size(file[2]).expect("a good file");
            (HEAD + size * i, size)
        }
        _ => (0, 0),
    }
}

/// The first matching entry of a table; a crossed one matches nothing.
pub fn lookup_in_table(table: &[Entry], h: &Header) -> Option<usize> {
    catching(table, h)
}

/// The answer to the daemon's lookup.
pub fn lookup_number(file: &[u8], h: &Header) -> u32 {
    match lookup(file, h) {
        Ok(Some(i)) => i as u32,
        Ok(None) => 256,
        Err(refusal) => 256 + refusal.number(),
    }
}

/// Whether the first list refines the second, else the least header where it doesn't. A refusal
/// comes with the file's number.
pub fn compare(first: &[u8], second: &[u8]) -> Result<Option<Header>, (u32, Refusal)> {
    let covering = |file: &[u8]| {
        let list = read(file, LIST_LIMIT)?.entries;
        gap(&list)?;
        Ok(list)
    };
    let p = covering(first).map_err(|r| (1, r))?;
    let q = covering(second).map_err(|r| (2, r))?;
    Ok(least(&ALL, &[&p, &q], |c| {
        let (a, b) = (p[c[0].unwrap()].actions, q[c[1].unwrap()].actions);
        a & !b != 0
    }))
}

/// The answer to the daemon's comparison, and what the lent buffer holds after it.
pub fn compare_number(first: &[u8], second: &[u8], buffer: &mut [u8]) -> u32 {
    match compare(first, second) {
        Ok(None) => 0,
        Ok(Some(header)) => {
            let bytes = header_of(&header);
            if let Some(start) = buffer.get_mut(..bytes.len()) {
                start.copy_from_slice(&bytes);
            }
            1
        }
        Err((file, refusal)) => 256 * file + refusal.number(),
    }
}

// ---------------------------------------------------------------- merging

/// A party's number and its list, as filed.
pub type Filed<'a> = (u8, &'a [Entry]);

/// Lists as those of parties 1, 2 and so on.
pub fn numbered(lists: &[List]) -> Vec<Filed<'_>> {
    (1..).zip(lists.iter().map(|list| &list[..])).collect()
}

fn common_part(a: &Box6, b: &Box6) -> Box6 {
    let mut r = *a;
    for f in 0..FIELDS {
        r.low[f] = a.low[f].max(b.low[f]);
        r.high[f] = a.high[f].min(b.high[f]);
    }
    r
}

/// The numbers of a list's entries that catch a header.
pub fn catching_entries(list: &[Entry]) -> BTreeSet<usize> {
    let mut numbers = BTreeSet::new();
    walk(&ALL, &[list], &mut |_, c| {
        numbers.extend(c[0]);
        false
    });
    numbers
}

/// Rules 1 and 2 for one more list. A header matches the pair of two entries where it matches
/// both; in lexicographic order the first such pair is that of the first matches. What catches no
/// header is dropped, the pairs with an empty selector among it. None stands for more than 256.
fn crossed_with(working: &[Entry], next: &[Entry]) -> Option<List> {
    let mut pairs = BTreeSet::new();
    walk(&ALL, &[working, next], &mut |_, c| {
        if let (Some(i), Some(j)) = (c[0], c[1]) {
            pairs.insert((i, j));
        }
        pairs.len() > LIST_LIMIT
    });
    if pairs.len() > LIST_LIMIT {
        return None;
    }
    let pair = |(i, j): (usize, usize)| Entry {
        selector: common_part(&working[i].selector, &next[j].selector),
        actions: working[i].actions & next[j].actions,
    };
    Some(pairs.into_iter().map(pair).collect())
}

/// Rules 1 and 2: the working list after the last party.
pub fn working_list(lists: &[&[Entry]]) -> Result<List, Refusal> {
    let (first, others) = lists.split_first().ok_or(Refusal::Bare)?;
    let mut working: List = catching_entries(first).into_iter().map(|i| first[i]).collect();
    for next in others {
        working = crossed_with(&working, next).ok_or(Refusal::Crowded)?;
    }
    Ok(working)
}

/// The least header without an action common to its first matches in all lists.
pub fn least_conflict(lists: &[&[Entry]]) -> Option<Header> {
    least(&ALL, lists, |c| {
        let sets = c.iter().zip(lists).map(|(i, list)| i.map_or(0, |i| list[i].actions));
        sets.fold(0xffff, |common, set| common & set) == 0
    })
}

/// Rule 4 for one entry. Only headers that the entry matches can tell the difference.
fn can_be_struck(list: &[Entry], k: usize) -> bool {
    let mut without = list.to_vec();
    without.remove(k);
    let differing = least(&list[k].selector, &[list, &without], |c| {
        c[0].map(|i| list[i].actions) != c[1].map(|i| without[i].actions)
    });
    differing.is_none()
}

/// Rule 4: what is left of a list.
fn struck(mut list: List) -> List {
    for k in (0..list.len()).rev() {
        if can_be_struck(&list, k) {
            list.remove(k);
        }
    }
    list
}

/// The entry that catches a header in each party's list; they are covering.
fn named(filed: &[Filed], h: &Header) -> Vec<Named> {
    let name = |(party, list): &Filed| (*party, catching(list, h).expect("a covering list"));
    filed.iter().map(name).collect()
}

/// Merging of covering lists, in the parties' order: rules 1 to 4.
pub fn merged_list(filed: &[Filed]) -> Result<List, Refusal> {
    let lists: Vec<&[Entry]> = filed.iter().map(|(_, list)| *list).collect();
    let list = working_list(&lists)?;
    let conflict = least_conflict(&lists);
    // Rule 3 and demand 3 say the same in two ways.
    assert_eq!(conflict.is_some(), list.iter().any(|e| e.actions == 0));
    if let Some(header) = conflict {
        return Err(Refusal::Conflict(header, named(filed, &header)));
    }
    Ok(struck(list))
}

// ---------------------------------------------------------------- installing

/// A ranking has so many actions: all that a set can have.
pub const ACTIONS: usize = 16;

/// Check 12: in some order, the bytes are the numbers 0 to 15.
fn check_ranking(ranking: &[u8]) -> Result<(), Refusal> {
    let mut numbers = ranking.to_vec();
    numbers.sort();
    match numbers.iter().copied().eq(0..ACTIONS as u8) {
        true => Ok(()),
        false => Err(Refusal::Ranking),
    }
}

/// The best-ranked action of a set, alone.
fn best_alone(set: u16, ranking: &[u8]) -> u16 {
    let mut alone = ranking.iter().map(|action| 1 << action);
    alone.find(|one| set & one != 0).expect("a merged set is not empty")
}

/// Installing of covering lists: merging, one action of each set, and rule 4 once more.
pub fn installed_list(filed: &[Filed], ranking: &[u8]) -> Result<List, Refusal> {
    check_ranking(ranking)?;
    let mut list = merged_list(filed)?;
    list.iter_mut().for_each(|e| e.actions = best_alone(e.actions, ranking));
    Ok(struck(list))
}

// ---------------------------------------------------------------- the bench

/// A slot for each party.
#[derive(Clone, Default, PartialEq, Eq, Debug)]
pub struct Bench {
    slots: [Option<Versioned>; 8],
}

impl Bench {
    pub fn file(&mut self, party: u8, file: &[u8]) -> Result<usize, Refusal> {
        if !(1..=8).contains(&party) {
            return Err(Refusal::Party);
        }
        let list = read(file, FILED_LIMIT)?;
        gap(&list.entries)?;
        let n = list.entries.len();
        self.slots[party as usize - 1] = Some(list);
        Ok(n)
    }

    pub fn withdraw(&mut self, party: u8) -> Result<(), Refusal> {
        if !(1..=8).contains(&party) {
            return Err(Refusal::Party);
        }
        match self.slots[party as usize - 1].take() {
            Some(_) => Ok(()),
            None => Err(Refusal::Vacant),
        }
    }

    /// The lists in force, in the parties' order.
    pub fn in_force(&self) -> Vec<Filed<'_>> {
        let slots = (1..).zip(&self.slots);
        slots.filter_map(|(party, slot)| Some((party, &slot.as_ref()?.entries[..]))).collect()
    }

    /// Their versions.
    pub fn versions(&self) -> Vec<u8> {
        self.slots.iter().flatten().map(|list| list.version).collect()
    }

    /// The merged list's entry count and its file's length.
    pub fn merge(&self, buffer: &mut [u8]) -> Result<(usize, usize), Refusal> {
        let list = merged_list(&self.in_force())?;
        Ok((list.len(), put_file(2, &list, buffer)?))
    }

    /// The installed list's entry count and its file's length.
    pub fn install(&self, ranking: &[u8], buffer: &mut [u8]) -> Result<(usize, usize), Refusal> {
        let list = installed_list(&self.in_force(), ranking)?;
        Ok((list.len(), put_file(2, &list, buffer)?))
    }

    /// What filing on a copy answers where it is refused, else what merging the copy answers.
    pub fn trial(
        &self,
        party: u8,
        file: &[u8],
        buffer: &mut [u8],
    ) -> Result<(usize, usize), Refusal> {
        let mut copy = self.clone();
        copy.file(party, file)?;
        copy.merge(buffer)
    }
}

// ---------------------------------------------------------------- the program

fn hexadecimal(bytes: &[u8]) -> String {
    bytes.iter().map(|b| format!("{b:02x}")).collect()
}

fn refused_line(party: u8, refusal: &Refusal) -> String {
    let number = refusal.number();
    match refusal {
        Refusal::Crossed(entry) => format!("refused {party} {number} {entry}\n"),
        Refusal::Gap(header) => {
            format!("refused {party} {number} {}\n", hexadecimal(&header_of(header)))
        }
        Refusal::Conflict(header, named) => {
            let named: String = named.iter().map(|(p, entry)| format!(" {p}:{entry}")).collect();
            format!("refused {party} {number} {}{named}\n", hexadecimal(&header_of(header)))
        }
        _ => format!("refused {party} {number}\n"),
    }
}

/// The program's records: a party byte, then L + 2 bytes, or what is left.
pub fn framed(input: &[u8]) -> Vec<(u8, &[u8])> {
    let mut records = vec![];
    let mut rest = input;
    while let Some((party, after)) = rest.split_first() {
        let length = match after {
            [a, b, ..] => (*a as usize * 256 + *b as usize + 2).min(after.len()),
            _ => after.len(),
        };
        let (file, next) = after.split_at(length);
        records.push((*party, file));
        rest = next;
    }
    records
}

/// Standard output for a standard input.
pub fn program(input: &[u8]) -> String {
    if input.len() > 65_536 {
        return "input too long\n".to_string();
    }
    let mut output = String::new();
    let mut bench = Bench::default();
    for (party, file) in framed(input) {
        match bench.file(party, file) {
            Ok(n) => output += &format!("filed {party} {n}\n"),
            Err(refusal) => output += &refused_line(party, &refusal),
        }
    }
    let mut buffer = vec![0; LONGEST_FILE];
    match bench.merge(&mut buffer) {
        Ok((n, length)) => {
            output += &format!("merged {n}\n");
            for record in buffer[HEAD..length].chunks(RECORD_2) {
                output += &hexadecimal(record);
                output += "\n";
            }
        }
        Err(refusal) => output += &refused_line(0, &refusal),
    }
    output
}
