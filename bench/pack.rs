//! The proved scan of a whole pack against a plain one in Rust, on the same bytes and in one run.

use std::hint::black_box;
use std::process::exit;

mod large;
mod plain;
mod timing;
mod tlv;

use large::RECORDS;

// The proved function, from target/staticlib/libvof.a.
#[link(name = "vof", kind = "static")]
extern "C" {
    fn vof_scan(pack: *const u8, pack_len: usize, told: *mut u64, told_len: usize) -> u64;
}

/// How many records the pack has, or the number of its refusal. Of a pack that is not refused the
/// entries are told, four numbers each: start, tag, length and hash.
fn proved(pack: &[u8], told: &mut [u64]) -> Result<u64, u32> {
    // SAFETY: the pointers and lengths are those of slices, and only `told` is written.
    let answer = unsafe { vof_scan(pack.as_ptr(), pack.len(), told.as_mut_ptr(), told.len()) };
    match answer % 256 {
        0 => Ok(answer / 256),
        number => Err(number as u32),
    }
}

/// Figures of a function that takes a bad pack, or tells other entries, would mean nothing.
fn check(pack: &mut [u8]) {
    large::each(pack, |want, pack, what| {
        let mut told = [vec![0; 4 * RECORDS], vec![0; 4 * RECORDS]];
        let (p, r) = (proved(pack, &mut told[0]), large::scan(pack, &mut told[1]));
        if p != want || r != want {
            eprintln!("pack: {what}: proved gives {p:?}, Rust {r:?}, where {want:?} is right");
            exit(1);
        }
        if told[0] != told[1] {
            eprintln!("pack: {what}: proved and Rust tell other entries");
            exit(1);
        }
    });
}

fn main() {
    let mut pack = large::generate();
    check(&mut pack);
    println!("Pack scan, best round of each; proved/Rust under 1.00 means that proved is faster");
    println!("   bytes   records   proved ms   Rust ms   proved/Rust   proved GB/s   Rust GB/s");
    let (mut by_proved, mut by_rust) = (vec![0; 4 * RECORDS], vec![0; 4 * RECORDS]);
    let (p, r) = timing::compare(
        || {
            let _ = black_box(proved(black_box(&pack), black_box(&mut by_proved)));
        },
        || {
            let _ = black_box(large::scan(black_box(&pack), black_box(&mut by_rust)));
        },
    );
    let len = pack.len();
    // Bytes per nanosecond are gigabytes per second.
    println!(
        "{len:8} {RECORDS:9} {:11.3} {:9.3} {:13.2} {:13.2} {:11.2}",
        p / 1e6,
        r / 1e6,
        p / r,
        len as f64 / p,
        len as f64 / r
    );
}
