//! Lists of calls for the replay, from fixed seeds: every call, accepted and refused in every way.

use crate::entry::{both_ways, file_in, Entry, Header, List, ALL, RECORD, VERSIONS};
use crate::generate::{
    any_list, box_near, cross_one, crowd, damaged, file_in_some_version, header_near,
    leave_directions, long_list, realistic_list, related_list, small_list, some_file, some_list,
    some_parties, some_party, some_ranking, some_sets, Filings, Sets, RISING,
};
use crate::model::{catching, Bench, Refusal, LIST_LIMIT, LONGEST_FILE};
use crate::random::Random;
use crate::replay::{answer, Buffer, Bytes, Call, Wanted, LONGEST_BUFFER, LONGEST_TABLE};

/// Filings, withdrawals, mergings, installs and trials of small lists, refused ones among them. Behind a
/// trial often comes a merging: it would show a trial that stayed on the bench.
pub fn bench_calls(random: &mut Random) -> Vec<Call> {
    let parties = random.between(1, 4);
    let sets = some_sets(random);
    let mut calls = vec![];
    for _ in 0..random.between(1, 16) {
        let call = match calls.last() {
            Some(Call::Trial { .. }) if random.one_in(2) => {
                Call::Merge { buffer: room_for_some(random) }
            }
            _ => bench_call(parties, sets, random),
        };
        calls.push(call);
    }
    calls
}

fn bench_call(parties: u32, sets: Sets, random: &mut Random) -> Call {
    let party = some_party(parties, random);
    match random.below(13) {
        0..=4 => Call::File { party, file: file_of_small_list(sets, random) },
        5 => Call::Withdraw { party },
        6 | 7 => Call::Merge { buffer: room_for_some(random) },
        8 | 9 => {
            Call::Install { ranking: Bytes(some_ranking(random)), buffer: room_for_some(random) }
        }
        _ => Call::Trial {
            party,
            file: file_of_small_list(sets, random),
            buffer: room_for_some(random),
        },
    }
}

fn file_of_small_list(sets: Sets, random: &mut Random) -> Bytes {
    let list = small_list(random.between(1, 5) as usize, sets, random);
    Bytes(match random.below(6) {
        0 => damaged(&list, random),
        _ => file_in_some_version(&list, random),
    })
}

/// A buffer for the longest file, or for one of a few entries, or one byte shorter.
fn room_for_some(random: &mut Random) -> Buffer {
    let entries = random.below(12) as usize;
    let length = *random.pick(&[LONGEST_FILE, 5 + RECORD * entries, 4 + RECORD * entries]);
    Buffer { length, fill: 0xaa }
}

// ---------------------------------------------------------------- lists of every call

/// A list of calls, and bytes behind it that are no call.
pub struct CallList {
    pub calls: Vec<Call>,
    pub ending: Vec<u8>,
}

impl CallList {
    pub fn bytes(&self) -> Vec<u8> {
        let mut bytes: Vec<u8> = self.calls.iter().flat_map(Call::bytes).collect();
        bytes.extend(&self.ending);
        bytes
    }

    /// Whether other lists can stand before and behind it in one input.
    pub fn can_be_joined(&self) -> bool {
        self.calls[0] == Call::Open && self.ending.is_empty()
    }
}

/// An opening and `count` further calls. Now and then the opening is missing, or a bad call ends it.
pub fn call_list(count: usize, random: &mut Random) -> CallList {
    let mut made = Made::new(random);
    match made.random.below(10) {
        0 => made.file_crowd(),
        1..=4 => made.file_each(),
        _ => {}
    }
    while made.calls.len() <= count {
        let call = made.next_call();
        made.push(call);
    }
    let mut calls = made.calls;
    if random.one_in(60) {
        calls.remove(0);
    }
    let ending = if random.one_in(16) { bad_ending(random) } else { vec![] };
    CallList { calls, ending }
}

/// The calls so far, and the bench that they have made: what a merging, an install or a trial needs
/// depends on it.
struct Made<'a> {
    random: &'a mut Random,
    filings: Filings,
    bench: Bench,
    calls: Vec<Call>,
}

impl Made<'_> {
    fn new(random: &mut Random) -> Made<'_> {
        let filings = Filings::some(random);
        Made { random, filings, bench: Bench::default(), calls: vec![Call::Open] }
    }

    fn push(&mut self, call: Call) {
        if let Call::Open | Call::File { .. } | Call::Withdraw { .. } = call {
            answer(&mut self.bench, &call);
        }
        self.calls.push(call);
    }

    /// Behind a trial often a merging: it would show a trial that stayed on the bench.
    fn next_call(&mut self) -> Call {
        match self.calls.last() {
            Some(Call::Trial { .. }) if self.random.one_in(2) => self.merging(),
            _ => self.some_call(),
        }
    }

    fn some_call(&mut self) -> Call {
        let random = &mut *self.random;
        match random.below(49) {
            0..=11 => self.filing(),
            12..=14 => Call::Withdraw { party: some_party(self.filings.parties, random) },
            15..=19 => self.merging(),
            20..=22 => rewriting(random),
            23..=25 => writing(random),
            26 | 27 => {
                let (file, header) = looked_up(random);
                Call::Lookup { file, header }
            }
            28 | 29 => {
                let (file, header) = looked_up(random);
                Call::LookupPart { file, header }
            }
            30 | 31 => table_lookup(random),
            32 => {
                let (first, second) = compared(random);
                Call::Compare { first, second }
            }
            33..=35 => searching(random),
            36 => {
                let (file, header) = looked_up(random);
                Call::LookupInC { file, header }
            }
            37 | 38 => comparison_in_c(random),
            39..=42 => self.installing(),
            43..=47 => self.trying(),
            _ => Call::Open,
        }
    }

    fn filing(&mut self) -> Call {
        let party = some_party(self.filings.parties, self.random);
        Call::File { party, file: self.some_file() }
    }

    fn some_file(&mut self) -> Bytes {
        let list = self.filings.list(self.random);
        Bytes(match self.random.below(20) {
            0 => file_at_limit(self.random),
            1 => doubly_damaged(&list, self.random),
            _ => some_file(&list, self.random),
        })
    }

    fn merging(&mut self) -> Call {
        let needed = length_or_one_entry(self.bench.merge(&mut [0; LONGEST_FILE]));
        Call::Merge { buffer: room(needed, self.random) }
    }

    fn installing(&mut self) -> Call {
        let ranking = some_ranking(self.random);
        self.installing_by(ranking)
    }

    /// Often the buffer is too short for the merged file alone.
    fn installing_by(&mut self, ranking: Vec<u8>) -> Call {
        let merged = length_or_one_entry(self.bench.merge(&mut [0; LONGEST_FILE]));
        let needed = length_or_one_entry(self.bench.install(&ranking, &mut [0; LONGEST_FILE]));
        let mut buffer = room(needed, self.random);
        if needed < merged && self.random.one_in(3) {
            buffer.length = self.random.between(needed as u32, merged as u32 - 1) as usize;
        }
        Call::Install { ranking: Bytes(ranking), buffer }
    }

    /// A trial, mostly for one of the parties that file.
    fn trying(&mut self) -> Call {
        let party = match self.random.below(8) {
            0 => some_party(8, self.random),
            1 => *self.random.pick(&[0, 9, 255]),
            _ => some_party(self.filings.parties, self.random),
        };
        let file = self.some_file();
        self.trying_for(party, file)
    }

    /// Where the trial is refused, the buffer is one for the bench's own merging, which must not follow.
    fn trying_for(&mut self, party: u8, file: Bytes) -> Call {
        let longest = &mut [0; LONGEST_FILE];
        let trial = self.bench.trial(party, &file.0, longest);
        let needed = length_or_one_entry(trial.or_else(|_| self.bench.merge(longest)));
        Call::Trial { party, file, buffer: room(needed, self.random) }
    }

    /// A filing by each party.
    fn file_each(&mut self) {
        for party in 1..=self.filings.parties as u8 {
            let list = self.filings.list(self.random);
            self.file_list(party, &list);
        }
    }

    fn file_list(&mut self, party: u8, list: &[Entry]) {
        let file = Bytes(file_in_some_version(list, self.random));
        self.push(Call::File { party, file });
    }

    fn try_list(&mut self, party: u8, list: &[Entry]) {
        let file = Bytes(file_in_some_version(list, self.random));
        let trying = self.trying_for(party, file);
        self.push(trying);
    }

    /// Filings whose working list has about 256 entries, by some of the eight parties, a merging and an
    /// install. The last list is tried before it is filed; then one of them is tried without its first
    /// entry, and may fit where all of it is too much.
    fn file_crowd(&mut self) {
        let lists = crowd(self.random);
        let parties = some_parties(lists.len(), self.random);
        let mut filed: Vec<(u8, List)> = parties.into_iter().zip(lists).collect();
        self.random.shuffle(&mut filed);
        let ((party, last), others) = filed.split_last().expect("some lists");
        others.iter().for_each(|(party, list)| self.file_list(*party, list));
        self.try_list(*party, last);
        self.file_list(*party, last);
        let (party, list) = self.random.pick(&filed);
        self.try_list(*party, &list[1..]);
        let merging = self.merging();
        self.push(merging);
        let installing = match self.random.one_in(2) {
            true => self.installing_by(RISING.to_vec()),
            false => self.installing(),
        };
        self.push(installing);
    }
}

/// The length of the file that an accepted merging, install or trial writes, else that of one entry's
/// file.
fn length_or_one_entry(answer: Result<(usize, usize), Refusal>) -> usize {
    answer.map_or(5 + RECORD, |(_, length)| length)
}

// ---------------------------------------------------------------- arguments

/// A buffer for a file of `needed` bytes: empty, too short, exact or longer.
fn room(needed: usize, random: &mut Random) -> Buffer {
    let length = match random.below(16) {
        0 | 1 => 0,
        2 | 3 => needed.saturating_sub(1),
        4 => random.below(needed as u64 + 1) as usize,
        5..=8 => needed,
        9 => needed + 1,
        10 if random.one_in(8) => LONGEST_BUFFER,
        _ => needed + random.below(80) as usize,
    };
    let any = random.next() as u8;
    Buffer { length: length.min(LONGEST_BUFFER), fill: *random.pick(&[0, 0xff, 0xa5, any]) }
}

/// A file of no entries, or with a count at or beside the limits.
fn file_at_limit(random: &mut Random) -> Vec<u8> {
    match *random.pick(&[0, 1, 31, 32, 32, 33, 33, 255, 256, 257]) {
        0 => file_in_some_version(&[], random),
        n => {
            let list = realistic_list(n, Sets::With(4), random);
            file_in(*random.pick(&VERSIONS), &list)
        }
    }
}

/// A damaged file with one more fault in its first bytes or at its end: the order of the refusals
/// decides.
fn doubly_damaged(list: &[Entry], random: &mut Random) -> Vec<u8> {
    let mut bytes = damaged(list, random);
    match random.below(4) {
        0 if bytes.len() > 2 => bytes[2] = *random.pick(&[0, 3]),
        1 if bytes.len() > 4 => bytes[4] ^= 1,
        2 if bytes.len() > 1 => bytes[1] ^= 1,
        _ => drop(bytes.pop()),
    }
    bytes
}

fn any_file(list: &[Entry], random: &mut Random) -> Bytes {
    Bytes(match random.below(30) {
        0 => file_at_limit(random),
        1 | 2 => doubly_damaged(list, random),
        _ => some_file(list, random),
    })
}

fn rewriting(random: &mut Random) -> Call {
    let list = some_list(random);
    let file = any_file(&list, random);
    let buffer = room(file.0.len(), random);
    Call::Rewrite { file, buffer }
}

/// Counts past 256, some of which look smaller in fewer bits.
const LONG_COUNTS: [usize; 7] = [257, 258, 512, 0x1_0001, 0x1_0100, 0x8000_0001, 0xffff_ffff];

/// Mostly a version, now and then a byte that is none.
fn some_version(random: &mut Random) -> u8 {
    match random.below(8) {
        0 => *random.pick(&[0, 3, 4, 255]),
        _ => *random.pick(&VERSIONS),
    }
}

fn writing(random: &mut Random) -> Call {
    let (count, mut list) = match random.below(12) {
        0 => (0, vec![]),
        1 => (*random.pick(&LONG_COUNTS), realistic_list(LIST_LIMIT, Sets::Any, random)),
        2 => {
            let n = *random.pick(&[1, 255, 256]);
            (n, realistic_list(n, Sets::Any, random))
        }
        _ => {
            let list = any_list(12, Sets::Any, random);
            (list.len(), list)
        }
    };
    let version = some_version(random);
    // Version 1 turns down most of the others.
    if version == 1 && !random.one_in(3) {
        list = both_ways(&list);
    }
    if !list.is_empty() && random.one_in(4) {
        cross_one(&mut list, random);
    }
    let buffer = room(file_in(version, &list).len(), random);
    Call::Write { version, count, list, buffer }
}

/// A file and a header to look up in it.
fn looked_up(random: &mut Random) -> (Bytes, Header) {
    let list = some_list(random);
    (any_file(&list, random), header_near(&list, random))
}

fn table_lookup(random: &mut Random) -> Call {
    let n = match random.below(8) {
        0 => 0,
        1 => 1,
        2 => *random.pick(&[255, 256, 257, LONGEST_TABLE - 1, LONGEST_TABLE]),
        3 => random.between(1, LONGEST_TABLE as u32) as usize,
        _ => random.between(2, 12) as usize,
    };
    let mut table = match n {
        0 => vec![],
        1..=12 => small_list(n, Sets::Any, random),
        n => realistic_list(n, Sets::Any, random),
    };
    let header = header_near(&table, random);
    if n > 0 && random.one_in(3) {
        cross_one(&mut table, random);
    }
    if let Some(i) = catching(&table, &header).filter(|_| random.one_in(3)) {
        match random.one_in(2) {
            true => turn_round(&mut table[i]),
            false => leave_directions(&mut table[i].selector, random),
        }
    }
    Call::LookupInTable { table, header }
}

/// Exchanges low and high: a range of more than one number is crossed then.
fn turn_round(entry: &mut Entry) {
    std::mem::swap(&mut entry.selector.low, &mut entry.selector.high);
}

/// Two files that are often related.
fn compared(random: &mut Random) -> (Bytes, Bytes) {
    let list = some_list(random);
    let other = match random.below(3) {
        0 => some_list(random),
        _ => related_list(&list, random),
    };
    (any_file(&list, random), any_file(&other, random))
}

fn comparison_in_c(random: &mut Random) -> Call {
    let (first, second) = compared(random);
    let length = *random.pick(&[0, 1, 13, 13, 14, 14, 15, 15, 28, 64]);
    Call::CompareInC { first, second, buffer: Buffer { length, fill: random.next() as u8 } }
}

fn searching(random: &mut Random) -> Call {
    let list = if random.one_in(6) { long_list(random) } else { some_list(random) };
    let entry = random.below(list.len() as u64) as usize;
    let number = match random.below(8) {
        0 => *random.pick(&[0, 1, 255, 256, 0xffff]),
        1 => list.len() as u16,
        2 => !list[entry].actions,
        3 | 4 => list[entry].actions,
        _ => entry as u16,
    };
    let within = if random.one_in(4) { ALL } else { box_near(&list, random) };
    let wanted = Wanted { way: random.below(3) as u8, number };
    Call::Search { file: any_file(&list, random), within, wanted }
}

// ---------------------------------------------------------------- what is no call

/// A bad call, and often good calls behind it that get no answer.
fn bad_ending(random: &mut Random) -> Vec<u8> {
    let too_long = Buffer {
        length: *random.pick(&[LONGEST_BUFFER + 1, 65_536, 0x8000_0000, 0xffff_ffff]),
        fill: 0,
    };
    let (file, header) = looked_up(random);
    let mut bytes = match random.below(10) {
        0 | 1 => return cut_short(random),
        2 => vec![*random.pick(&[13, 14, 18, 21, 22, 128, 255])],
        3 => Call::Merge { buffer: too_long }.bytes(),
        4 => Call::Rewrite { file, buffer: too_long }.bytes(),
        5 => Call::CompareInC { first: file.clone(), second: file, buffer: too_long }.bytes(),
        6 => Call::Install { ranking: Bytes(some_ranking(random)), buffer: too_long }.bytes(),
        7 => Call::Trial { party: 1, file, buffer: too_long }.bytes(),
        8 => {
            let entry = Entry { selector: box_near(&[], random), actions: 1 };
            let n = LONGEST_TABLE + 1;
            Call::LookupInTable { table: vec![entry; n], header }.bytes()
        }
        _ => {
            let wanted = Wanted { way: *random.pick(&[3, 4, 128, 255]), number: 0 };
            Call::Search { file, within: box_near(&[], random), wanted }.bytes()
        }
    };
    for _ in 0..random.below(3) {
        bytes.extend(Call::Open.bytes());
    }
    bytes
}

/// Some bytes of a call, not all.
fn cut_short(random: &mut Random) -> Vec<u8> {
    let call = match random.below(8) {
        0 => rewriting(random),
        1 => writing(random),
        2 => table_lookup(random),
        3 => searching(random),
        4 => comparison_in_c(random),
        5 => {
            let buffer = room(5 + RECORD, random);
            Call::Install { ranking: Bytes(some_ranking(random)), buffer }
        }
        6 => {
            let (file, _) = looked_up(random);
            Call::Trial { party: 1, file, buffer: room(5 + RECORD, random) }
        }
        _ => Call::Withdraw { party: 1 },
    };
    let mut bytes = call.bytes();
    bytes.truncate(1 + random.below(bytes.len() as u64 - 1) as usize);
    bytes
}
