//! The check of a pack against the deposit profile beside the lookup on the same pack: both hash the
//! pack and read every record.

use std::hint::black_box;
use std::process::exit;

mod encode;
mod plain;
mod records;
mod timing;
mod tlv;

use records::{object, Pack, BUCKET};

// The proved functions, from target/staticlib/libvof.a.
#[link(name = "vof", kind = "static")]
extern "C" {
    fn vof_check_deposit(pack: *const u8, pack_len: usize) -> u64;
    fn vof_current(
        pack: *const u8,
        pack_len: usize,
        bucket: *const u8,
        bucket_len: usize,
        object: *const u8,
        object_len: usize,
        told: *mut u64,
        told_len: usize,
        ulid: *mut u8,
        ulid_len: usize,
    ) -> u64;
}

fn deposit(pack: &[u8]) -> u64 {
    // SAFETY: the pointer and the length are those of a slice, and nothing is written.
    unsafe { vof_check_deposit(pack.as_ptr(), pack.len()) }
}

fn lookup(pack: &[u8], object: &str) -> u64 {
    let (mut told, mut ulid) = ([0; 4], [0; 26]);
    // SAFETY: the pointers and lengths are those of slices, and only `told` and `ulid` are written.
    unsafe {
        vof_current(
            pack.as_ptr(),
            pack.len(),
            BUCKET.as_ptr(),
            BUCKET.len(),
            object.as_ptr(),
            object.len(),
            told.as_mut_ptr(),
            told.len(),
            ulid.as_mut_ptr(),
            ulid.len(),
        )
    }
}

fn main() {
    println!("Deposit check and lookup, both proved, best round of each");
    println!("versions     bytes   deposit ms   lookup ms   deposit/lookup");
    for versions in [100, 10_000, 100_000] {
        let (pack, name) = (Pack::new(versions, 50, 0), object(0));
        let (mut count, mut found) = (0, 0);
        let (d, l) = timing::compare(
            || count = black_box(deposit(black_box(&pack.bytes))),
            || found = black_box(lookup(black_box(&pack.bytes), &name)),
        );
        // Figures of a function that gives a wrong answer would mean nothing.
        if count != 256 * versions as u64 || found % 256 != 0 {
            eprintln!("deposit: {versions} versions: told {count} and {found}");
            exit(1);
        }
        let (d, l, length) = (d / 1e6, l / 1e6, pack.bytes.len());
        println!("{versions:8} {length:9} {d:12.4} {l:11.4} {:16.2}", d / l);
    }
}
