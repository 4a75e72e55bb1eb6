//! What is measured of the product, as far as its archives are linked: feature `gateway` for
//! libgateway.a, feature `measured` for libmeasured.a, an archive made for measuring alone:
//!
//! ```c
//! /* The public search, in the selector of a record of 30 bytes. `want` is 0 for uncaught, 1 for
//!    caught by entry `value`, 2 for a set other than `value`. 0 for none, 1 with the header in the
//!    buffer's first 14 bytes, 256 plus the refusal's number. */
//! uint32_t measured_search(const uint8_t *file, size_t file_len,
//!                          const uint8_t *record, size_t record_len,
//!                          uint32_t want, uint16_t value, uint8_t *header, size_t header_len);
//! /* Lookup as a part of the file: the part's length, 0, 28 or 30. */
//! size_t measured_part(const uint8_t *file, size_t file_len, uint32_t local, uint32_t remote,
//!                      uint16_t local_port, uint16_t remote_port, uint8_t protocol,
//!                      uint8_t direction);
//! /* Lookup in a lent table: the entry's number, 256 for uncaught. An entry is 32 bytes, as
//!    baseline::Unpacked lays it out. */
//! size_t measured_table(const struct entry *table, size_t table_len, uint32_t local,
//!                       uint32_t remote, uint16_t local_port, uint16_t remote_port,
//!                       uint8_t protocol, uint8_t direction);
//! /* Files an input of the program on a bench and merges into the buffer: the entry count, or 256
//!    plus the refusal's number. */
//! size_t measured_merge(const uint8_t *input, size_t input_len, uint8_t *file, size_t file_len);
//! /* The same with installing by a ranking. Archives from before Wish 2 lack it (see build.rs). */
//! size_t measured_install(const uint8_t *input, size_t input_len,
//!                         const uint8_t *ranking, size_t ranking_len,
//!                         uint8_t *file, size_t file_len);
//! /* The same with a trial of a file for a party. Archives from before Wish 6 lack it. */
//! size_t measured_trial(const uint8_t *input, size_t input_len, uint8_t party,
//!                       const uint8_t *tried, size_t tried_len, uint8_t *file, size_t file_len);
//! ```

use crate::baseline::Unpacked;
use crate::entry::{Box6, Entry, Header};
use crate::model::{framed, Want};

pub struct Product {
    pub lookup: Option<fn(&[u8], &Header) -> u32>,
    pub compare: Option<fn(&[u8], &[u8], &mut [u8]) -> u32>,
    pub search: Option<fn(&[u8], &Search, &mut [u8]) -> u32>,
    pub part: Option<fn(&[u8], &Header) -> u32>,
    pub table: Option<fn(&[Unpacked], &Header) -> u32>,
    pub merge: Option<fn(&[u8], &mut [u8]) -> u32>,
    pub install: Option<fn(&[u8], &[u8], &mut [u8]) -> u32>,
    pub trial: Option<fn(&[u8], u8, &[u8], &mut [u8]) -> u32>,
}

pub fn product() -> Product {
    #[allow(unused_mut)]
    let mut product = Product {
        lookup: None,
        compare: None,
        search: None,
        part: None,
        table: None,
        merge: None,
        install: None,
        trial: None,
    };
    #[cfg(feature = "gateway")]
    {
        product.lookup = Some(crate::gateway::lookup);
        product.compare = Some(crate::gateway::compare);
    }
    #[cfg(feature = "measured")]
    {
        product.search = Some(measured::search);
        product.part = Some(measured::part);
        product.table = Some(measured::table);
        product.merge = Some(measured::merge);
    }
    #[cfg(all(feature = "measured", measured_install))]
    {
        product.install = Some(measured::install);
    }
    #[cfg(all(feature = "measured", measured_trial))]
    {
        product.trial = Some(measured::trial);
    }
    product
}

/// A search as `measured_search` takes it.
pub struct Search {
    pub record: Vec<u8>,
    pub want: u32,
    pub value: u16,
}

pub fn search_of(within: &Box6, want: Want) -> Search {
    let entry = Entry { selector: *within, actions: 0 };
    let (want, value) = match want {
        Want::Uncaught => (0, 0),
        Want::CaughtBy(i) => (1, i as u16),
        Want::Differing(set) => (2, set),
    };
    Search { record: crate::entry::record(&entry), want, value }
}

/// The party and file of an input's last record, if there is one, behind the records before it.
pub fn last_record(input: &[u8]) -> Option<(&[u8], u8, &[u8])> {
    let (party, file) = *framed(input).last()?;
    Some((&input[..input.len() - file.len() - 1], party, file))
}

#[cfg(feature = "measured")]
mod measured {
    use super::{Header, Search, Unpacked};

    #[link(name = "measured", kind = "static")]
    extern "C" {
        fn measured_search(
            file: *const u8,
            file_len: usize,
            record: *const u8,
            record_len: usize,
            want: u32,
            value: u16,
            header: *mut u8,
            header_len: usize,
        ) -> u32;
        fn measured_part(
            file: *const u8,
            file_len: usize,
            local: u32,
            remote: u32,
            local_port: u16,
            remote_port: u16,
            protocol: u8,
            direction: u8,
        ) -> usize;
        fn measured_table(
            table: *const Unpacked,
            table_len: usize,
            local: u32,
            remote: u32,
            local_port: u16,
            remote_port: u16,
            protocol: u8,
            direction: u8,
        ) -> usize;
        fn measured_merge(
            input: *const u8,
            input_len: usize,
            file: *mut u8,
            file_len: usize,
        ) -> usize;
        #[cfg(measured_install)]
        fn measured_install(
            input: *const u8,
            input_len: usize,
            ranking: *const u8,
            ranking_len: usize,
            file: *mut u8,
            file_len: usize,
        ) -> usize;
        #[cfg(measured_trial)]
        fn measured_trial(
            input: *const u8,
            input_len: usize,
            party: u8,
            tried: *const u8,
            tried_len: usize,
            file: *mut u8,
            file_len: usize,
        ) -> usize;
    }

    // Sound, all six: each pointer goes with the length of the slice that it is taken from.

    pub fn search(file: &[u8], search: &Search, header: &mut [u8]) -> u32 {
        unsafe {
            measured_search(
                file.as_ptr(),
                file.len(),
                search.record.as_ptr(),
                search.record.len(),
                search.want,
                search.value,
                header.as_mut_ptr(),
                header.len(),
            )
        }
    }

    pub fn part(file: &[u8], h: &Header) -> u32 {
        let (ports, last) = ((h[2] as u16, h[3] as u16), (h[4] as u8, h[5] as u8));
        let (bytes, length) = (file.as_ptr(), file.len());
        unsafe { measured_part(bytes, length, h[0], h[1], ports.0, ports.1, last.0, last.1) as u32 }
    }

    pub fn table(table: &[Unpacked], h: &Header) -> u32 {
        let (ports, last) = ((h[2] as u16, h[3] as u16), (h[4] as u8, h[5] as u8));
        let (entries, length) = (table.as_ptr(), table.len());
        unsafe {
            measured_table(entries, length, h[0], h[1], ports.0, ports.1, last.0, last.1) as u32
        }
    }

    pub fn merge(input: &[u8], file: &mut [u8]) -> u32 {
        unsafe { measured_merge(input.as_ptr(), input.len(), file.as_mut_ptr(), file.len()) as u32 }
    }

    #[cfg(measured_install)]
    pub fn install(input: &[u8], ranking: &[u8], file: &mut [u8]) -> u32 {
        unsafe {
            measured_install(
                input.as_ptr(),
                input.len(),
                ranking.as_ptr(),
                ranking.len(),
                file.as_mut_ptr(),
                file.len(),
            ) as u32
        }
    }

    #[cfg(measured_trial)]
    pub fn trial(input: &[u8], party: u8, tried: &[u8], file: &mut [u8]) -> u32 {
        unsafe {
            measured_trial(
                input.as_ptr(),
                input.len(),
                party,
                tried.as_ptr(),
                tried.len(),
                file.as_mut_ptr(),
                file.len(),
            ) as u32
        }
    }
}
