//! How long the proved test of a ULID takes: two writes are refused alike, one at the last character of
//! the delete identifier and one at its first, so that they differ by 25 characters.

use std::hint::black_box;
use std::process::exit;

mod timing;

const IDENTIFIER: &str = "01M7ZQ0000ABCDEFGHJKMNPQRS:registry/scans/2026/animal-0001.dcm";
const LAST_WRONG: &str = "7ZYXWVTSRQPNMKJHGFEDCBA98U";
const FIRST_WRONG: &str = "UZYXWVTSRQPNMKJHGFEDCBA987";

// The proved function, from target/staticlib/libvof.a.
#[link(name = "vof", kind = "static")]
extern "C" {
    fn vof_write_delete_of(
        buf: *mut u8,
        buf_len: usize,
        used: usize,
        id: *const u8,
        id_len: usize,
        delete_ulid: *const u8,
        delete_ulid_len: usize,
    ) -> u64;
}

fn refused(delete_ulid: &str) -> u64 {
    let mut buffer = [0; 1];
    let (id, delete_ulid) = (black_box(IDENTIFIER), black_box(delete_ulid));
    // SAFETY: the pointers and lengths are those of slices, and only `buffer` is written.
    unsafe {
        vof_write_delete_of(
            buffer.as_mut_ptr(),
            buffer.len(),
            0,
            id.as_ptr(),
            id.len(),
            delete_ulid.as_ptr(),
            delete_ulid.len(),
        )
    }
}

fn main() {
    if [LAST_WRONG, FIRST_WRONG].map(refused) != [20, 20] {
        eprintln!("ulid: a delete identifier with a U is not refused with 20");
        exit(1);
    }
    let (late, early) = timing::compare(
        || {
            black_box(refused(LAST_WRONG));
        },
        || {
            black_box(refused(FIRST_WRONG));
        },
    );
    println!("ulid: 25 characters in {:.1} ns", late - early);
}
