//! The functions of libgateway.a (include/dunnarek/policy.h), called as the daemon calls them.

use crate::entry::Header;

#[link(name = "gateway", kind = "static")]
extern "C" {
    fn policy_lookup(
        file: *const u8,
        file_len: usize,
        local: u32,
        remote: u32,
        local_port: u16,
        remote_port: u16,
        protocol: u8,
        direction: u8,
    ) -> u32;

    fn policy_compare(
        first: *const u8,
        first_len: usize,
        second: *const u8,
        second_len: usize,
        header: *mut u8,
        header_len: usize,
    ) -> u32;
}

/// A slice as a C programmer passes it: an empty one has a null pointer.
fn parts(bytes: &[u8]) -> (*const u8, usize) {
    match bytes.len() {
        0 => (std::ptr::null(), 0),
        n => (bytes.as_ptr(), n),
    }
}

pub fn lookup(file: &[u8], h: &Header) -> u32 {
    let (file, length) = parts(file);
    let (ports, last) = ((h[2] as u16, h[3] as u16), (h[4] as u8, h[5] as u8));
    // Sound: the pointer and the length are those of a slice, or null and 0.
    unsafe { policy_lookup(file, length, h[0], h[1], ports.0, ports.1, last.0, last.1) }
}

pub fn compare(first: &[u8], second: &[u8], header: &mut [u8]) -> u32 {
    let ((first, first_len), (second, second_len)) = (parts(first), parts(second));
    let (header, header_len) = match header.len() {
        0 => (std::ptr::null_mut(), 0),
        n => (header.as_mut_ptr(), n),
    };
    // Sound as above, and the buffer is lent to this call alone.
    unsafe { policy_compare(first, first_len, second, second_len, header, header_len) }
}
