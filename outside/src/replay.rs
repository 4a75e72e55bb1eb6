//! The form in which calls are replayed from outside, and what the model answers in it.
//!
//! Input is calls, one after the other, the first an opening; output is a line for each. A call is
//! its number (1 byte), then its arguments. Numbers are big-endian. Lent bytes are a length of
//! 4 bytes and that many bytes. A lent buffer is a length of 4 bytes and a byte that fills it.
//! Records, headers and boxes have the widths of a record of version 2.
//!
//! A line is `ok` or `no` and the refusal's number, then values in decimal, each after a space; a
//! header is its numbers. Where a buffer was lent, ` = ` and all of it in hexadecimal follow. What
//! is not in this form ends the output with the line `bad`.

use crate::entry::{box_bytes, header_bytes, records, Box6, Header, List, BOX, HEADER, RECORD};
use crate::model::{self, Bench, Found, Refusal, Want, LIST_LIMIT};
use crate::report::hexadecimal;
use std::fmt;

pub const LONGEST_INPUT: usize = 1 << 20;
pub const LONGEST_BUFFER: usize = 16_384;
pub const LONGEST_TABLE: usize = 512;

// ---------------------------------------------------------------- calls

/// Lent bytes, shown in hexadecimal.
#[derive(Clone, PartialEq, Eq)]
pub struct Bytes(pub Vec<u8>);

impl fmt::Debug for Bytes {
    fn fmt(&self, f: &mut fmt::Formatter) -> fmt::Result {
        write!(f, "{} bytes {}", self.0.len(), hexadecimal(&self.0))
    }
}

/// A buffer to be lent.
#[derive(Clone, Copy, PartialEq, Eq, Debug)]
pub struct Buffer {
    pub length: usize,
    pub fill: u8,
}

/// What is searched for: 0 uncaught, 1 caught by entry `number`, 2 differing from set `number`.
#[derive(Clone, Copy, PartialEq, Eq, Debug)]
pub struct Wanted {
    pub way: u8,
    pub number: u16,
}

/// A call with its arguments. Of a list with a count above 256, writing has the first 256 entries.
#[derive(Clone, PartialEq, Eq, Debug)]
pub enum Call {
    Open,
    File { party: u8, file: Bytes },
    Withdraw { party: u8 },
    Merge { buffer: Buffer },
    Rewrite { file: Bytes, buffer: Buffer },
    Write { version: u8, count: usize, list: List, buffer: Buffer },
    Lookup { file: Bytes, header: Header },
    LookupPart { file: Bytes, header: Header },
    LookupInTable { table: List, header: Header },
    Compare { first: Bytes, second: Bytes },
    Search { file: Bytes, within: Box6, wanted: Wanted },
    Install { ranking: Bytes, buffer: Buffer },
    Trial { party: u8, file: Bytes, buffer: Buffer },
    LookupInC { file: Bytes, header: Header },
    CompareInC { first: Bytes, second: Bytes, buffer: Buffer },
}

// ---------------------------------------------------------------- writing calls

fn four(n: usize) -> Vec<u8> {
    (n as u32).to_be_bytes().to_vec()
}

fn lent(bytes: &Bytes) -> Vec<u8> {
    [four(bytes.0.len()), bytes.0.clone()].concat()
}

fn room(buffer: &Buffer) -> Vec<u8> {
    [four(buffer.length), vec![buffer.fill]].concat()
}

fn wish(wanted: &Wanted) -> Vec<u8> {
    [vec![wanted.way], wanted.number.to_be_bytes().to_vec()].concat()
}

impl Call {
    pub fn number(&self) -> u8 {
        match self {
            Call::Open => 0,
            Call::File { .. } => 1,
            Call::Withdraw { .. } => 2,
            Call::Merge { .. } => 3,
            Call::Rewrite { .. } => 4,
            Call::Write { .. } => 5,
            Call::Lookup { .. } => 6,
            Call::LookupPart { .. } => 7,
            Call::LookupInTable { .. } => 8,
            Call::Compare { .. } => 9,
            Call::Search { .. } => 10,
            Call::Install { .. } => 11,
            Call::Trial { .. } => 12,
            Call::LookupInC { .. } => 19,
            Call::CompareInC { .. } => 20,
        }
    }

    pub fn bytes(&self) -> Vec<u8> {
        let arguments = match self {
            Call::Open => vec![],
            Call::File { party, file } => vec![vec![*party], lent(file)],
            Call::Withdraw { party } => vec![vec![*party]],
            Call::Merge { buffer } => vec![room(buffer)],
            Call::Rewrite { file, buffer } => vec![lent(file), room(buffer)],
            Call::Write { version, count, list, buffer } => {
                vec![vec![*version], four(*count), records(list), room(buffer)]
            }
            Call::Lookup { file, header }
            | Call::LookupPart { file, header }
            | Call::LookupInC { file, header } => vec![lent(file), header_bytes(header)],
            Call::LookupInTable { table, header } => {
                vec![four(table.len()), records(table), header_bytes(header)]
            }
            Call::Compare { first, second } => vec![lent(first), lent(second)],
            Call::Search { file, within, wanted } => {
                vec![lent(file), box_bytes(within), wish(wanted)]
            }
            Call::Install { ranking, buffer } => vec![lent(ranking), room(buffer)],
            Call::Trial { party, file, buffer } => vec![vec![*party], lent(file), room(buffer)],
            Call::CompareInC { first, second, buffer } => {
                vec![lent(first), lent(second), room(buffer)]
            }
        };
        [vec![self.number()], arguments.concat()].concat()
    }
}

// ---------------------------------------------------------------- reading calls

/// What is left of the input. Each function takes something from its start, if it is there.
struct Rest<'a>(&'a [u8]);

impl<'a> Rest<'a> {
    fn take(&mut self, length: usize) -> Option<&'a [u8]> {
        let (head, tail) = self.0.split_at_checked(length)?;
        self.0 = tail;
        Some(head)
    }

    fn number(&mut self, width: usize) -> Option<usize> {
        self.take(width).map(|bytes| model::number(bytes) as usize)
    }

    fn byte(&mut self) -> Option<u8> {
        self.number(1).map(|n| n as u8)
    }

    fn lent(&mut self) -> Option<Bytes> {
        let length = self.number(4)?;
        self.take(length).map(|bytes| Bytes(bytes.to_vec()))
    }

    fn buffer(&mut self) -> Option<Buffer> {
        let length = self.number(4).filter(|length| *length <= LONGEST_BUFFER)?;
        Some(Buffer { length, fill: self.byte()? })
    }

    fn header(&mut self) -> Option<Header> {
        self.take(HEADER).map(model::header_at)
    }

    fn within(&mut self) -> Option<Box6> {
        self.take(BOX).map(model::box_at)
    }

    fn entries(&mut self, count: usize) -> Option<List> {
        let records = self.take(count * RECORD)?.chunks(RECORD);
        Some(records.map(|record| model::entry_at(2, record)).collect())
    }

    fn table(&mut self) -> Option<List> {
        let count = self.number(4).filter(|count| *count <= LONGEST_TABLE)?;
        self.entries(count)
    }

    fn wanted(&mut self) -> Option<Wanted> {
        let way = self.byte().filter(|way| *way <= 2)?;
        Some(Wanted { way, number: self.number(2)? as u16 })
    }

    fn write(&mut self) -> Option<Call> {
        let (version, count) = (self.byte()?, self.number(4)?);
        let list = self.entries(count.min(LIST_LIMIT))?;
        Some(Call::Write { version, count, list, buffer: self.buffer()? })
    }

    fn call(&mut self) -> Option<Call> {
        Some(match self.byte()? {
            0 => Call::Open,
            1 => Call::File { party: self.byte()?, file: self.lent()? },
            2 => Call::Withdraw { party: self.byte()? },
            3 => Call::Merge { buffer: self.buffer()? },
            4 => Call::Rewrite { file: self.lent()?, buffer: self.buffer()? },
            5 => self.write()?,
            6 => Call::Lookup { file: self.lent()?, header: self.header()? },
            7 => Call::LookupPart { file: self.lent()?, header: self.header()? },
            8 => Call::LookupInTable { table: self.table()?, header: self.header()? },
            9 => Call::Compare { first: self.lent()?, second: self.lent()? },
            10 => {
                Call::Search { file: self.lent()?, within: self.within()?, wanted: self.wanted()? }
            }
            11 => Call::Install { ranking: self.lent()?, buffer: self.buffer()? },
            12 => Call::Trial { party: self.byte()?, file: self.lent()?, buffer: self.buffer()? },
            19 => Call::LookupInC { file: self.lent()?, header: self.header()? },
            20 => Call::CompareInC {
                first: self.lent()?,
                second: self.lent()?,
                buffer: self.buffer()?,
            },
            _ => return None,
        })
    }
}

// ---------------------------------------------------------------- lines

/// What an accepted call answers, or why it is refused.
type Answer = Result<Vec<usize>, Refusal>;

fn line(word: &str, values: &[usize]) -> String {
    values.iter().fold(word.to_string(), |line, value| format!("{line} {value}"))
}

fn bytes_after(line: String, bytes: &[u8]) -> String {
    format!("{line} = {}", hexadecimal(bytes))
}

fn header_values(header: &Header) -> Vec<usize> {
    header.map(|n| n as usize).to_vec()
}

/// The refusal's number, and what it carries.
fn refusal_values(refusal: &Refusal) -> Vec<usize> {
    let carried = match refusal {
        Refusal::Crossed(entry) => vec![*entry],
        Refusal::Gap(header) => header_values(header),
        Refusal::Conflict(header, named) => {
            let named = named.iter().flat_map(|(party, entry)| [*party as usize, *entry]);
            header_values(header).into_iter().chain(named).collect()
        }
        Refusal::Narrow(length) => vec![*length],
        _ => vec![],
    };
    [vec![refusal.number() as usize], carried].concat()
}

fn answer_line(answer: Answer) -> String {
    match answer {
        Ok(values) => line("ok", &values),
        Err(refusal) => line("no", &refusal_values(&refusal)),
    }
}

/// The line of a call that is lent a buffer, with what the buffer holds after it.
fn lending(buffer: &Buffer, call: impl FnOnce(&mut [u8]) -> Answer) -> String {
    let mut bytes = vec![buffer.fill; buffer.length];
    let line = answer_line(call(&mut bytes));
    bytes_after(line, &bytes)
}

// ---------------------------------------------------------------- answers

fn part_line(file: &[u8], header: &Header) -> String {
    let (start, length) = model::lookup_part(file, header);
    bytes_after(line("ok", &[length]), &file[start..start + length])
}

fn compare_line(first: &[u8], second: &[u8]) -> String {
    match model::compare(first, second) {
        Ok(None) => line("ok", &[]),
        Ok(Some(header)) => line("ok", &header_values(&header)),
        Err((file, refusal)) => {
            line("no", &[vec![file as usize], refusal_values(&refusal)].concat())
        }
    }
}

fn search(file: &[u8], within: &Box6, wanted: &Wanted) -> Answer {
    let want = match wanted.way {
        0 => Want::Uncaught,
        1 => Want::CaughtBy(wanted.number as usize),
        _ => Want::Differing(wanted.number),
    };
    Ok(model::search(file, within, want)?.map(found_values).unwrap_or_default())
}

/// A header, then the entry that catches it.
fn found_values((header, entry): Found) -> Vec<usize> {
    [header_values(&header), caught(entry)].concat()
}

/// An entry count and a file's length.
fn counted((count, length): (usize, usize)) -> Vec<usize> {
    vec![count, length]
}

/// An entry's number, nothing for uncaught.
fn caught(entry: Option<usize>) -> Vec<usize> {
    entry.into_iter().collect()
}

/// The line for a call, without its newline.
pub fn answer(bench: &mut Bench, call: &Call) -> String {
    match call {
        Call::Open => {
            *bench = Bench::default();
            answer_line(Ok(vec![]))
        }
        Call::File { party, file } => answer_line(bench.file(*party, &file.0).map(|n| vec![n])),
        Call::Withdraw { party } => answer_line(bench.withdraw(*party).map(|()| vec![])),
        Call::Merge { buffer } => lending(buffer, |bytes| bench.merge(bytes).map(counted)),
        Call::Rewrite { file, buffer } => {
            lending(buffer, |bytes| model::rewrite(&file.0, bytes).map(|length| vec![length]))
        }
        Call::Write { version, count, list, buffer } => lending(buffer, |bytes| {
            model::write(*version, *count, list, bytes).map(|length| vec![length])
        }),
        Call::Lookup { file, header } => answer_line(model::lookup(&file.0, header).map(caught)),
        Call::LookupPart { file, header } => part_line(&file.0, header),
        Call::LookupInTable { table, header } => {
            answer_line(Ok(caught(model::lookup_in_table(table, header))))
        }
        Call::Compare { first, second } => compare_line(&first.0, &second.0),
        Call::Search { file, within, wanted } => answer_line(search(&file.0, within, wanted)),
        Call::Install { ranking, buffer } => {
            lending(buffer, |bytes| bench.install(&ranking.0, bytes).map(counted))
        }
        Call::Trial { party, file, buffer } => {
            lending(buffer, |bytes| bench.trial(*party, &file.0, bytes).map(counted))
        }
        Call::LookupInC { file, header } => {
            answer_line(Ok(vec![model::lookup_number(&file.0, header) as usize]))
        }
        Call::CompareInC { first, second, buffer } => lending(buffer, |bytes| {
            Ok(vec![model::compare_number(&first.0, &second.0, bytes) as usize])
        }),
    }
}

// ---------------------------------------------------------------- the program `replay`

/// The calls of an input, each with its line. The line `bad` has no call.
pub struct Replayed<'a> {
    rest: Rest<'a>,
    bench: Bench,
    opened: bool,
}

pub fn replayed(input: &[u8]) -> Replayed<'_> {
    Replayed { rest: Rest(input), bench: Bench::default(), opened: false }
}

impl Replayed<'_> {
    /// The bench after the calls so far.
    pub fn bench(&self) -> &Bench {
        &self.bench
    }
}

impl Iterator for Replayed<'_> {
    type Item = (Option<Call>, String);

    fn next(&mut self) -> Option<Self::Item> {
        if self.rest.0.is_empty() {
            return None;
        }
        // Only the whole input can be too long, so this is `bad` alone.
        let too_long = self.rest.0.len() > LONGEST_INPUT;
        let in_form = |call: &Call| !too_long && (self.opened || *call == Call::Open);
        let Some(call) = self.rest.call().filter(in_form) else {
            self.rest = Rest(&[]);
            return Some((None, "bad\n".to_string()));
        };
        self.opened = true;
        let line = answer(&mut self.bench, &call);
        Some((Some(call), line + "\n"))
    }
}

/// Standard output for a standard input.
pub fn replay(input: &[u8]) -> String {
    replayed(input).map(|(_, line)| line).collect()
}
