//! The proved XXH64 against a plain one in Rust and xxHash's own in C, on the same bytes and in one run.

use std::hint::black_box;
use std::process::exit;

mod plain;
mod timing;

// The proved function, from target/staticlib/libvof.a.
#[link(name = "vof", kind = "static")]
extern "C" {
    fn vof_xxh64(s: *const u8, len: usize) -> u64;
}

fn proved(data: &[u8]) -> u64 {
    // SAFETY: the pointer and the length are those of a slice, and the function only reads it.
    unsafe { vof_xxh64(data.as_ptr(), data.len()) }
}

// Not inlined: the proved function is a call into an archive, so this one is to be a call too.
#[inline(never)]
fn rust(data: &[u8]) -> u64 {
    plain::xxh64(data)
}

// Debian's library. bench/run says whether it is there.
#[cfg(libxxhash)]
fn libxxhash(data: &[u8]) -> u64 {
    extern "C" {
        fn XXH64(data: *const u8, len: usize, seed: u64) -> u64;
    }
    // SAFETY: as above.
    unsafe { XXH64(data.as_ptr(), data.len(), 0) }
}

// The same source, bench/xxhash.c, compiled by clang.
#[cfg(clang)]
fn clang(data: &[u8]) -> u64 {
    extern "C" {
        fn xxh64_by_clang(data: *const u8, len: usize) -> u64;
    }
    // SAFETY: as above.
    unsafe { xxh64_by_clang(data.as_ptr(), data.len()) }
}

/// A hash of bytes, by its name.
type Hash = (&'static str, fn(&[u8]) -> u64);

/// Published hashes of the first bytes that `plain::generate` gives, so that all are not wrong alike.
const KNOWN: [(usize, u64); 4] = [
    (0, 0xEF46DB3751D8E999),
    (1, 0xE934A84ADB052768),
    (14, 0x8282DCC4994E35C8),
    (222, 0xB641AE8CB691C174),
];

/// Figures of a function that gives a wrong hash would mean nothing.
fn check((name, hash): Hash, buffer: &[u8]) {
    for len in (0..=300).chain([65536, buffer.len()]) {
        let (got, want) = (hash(&buffer[..len]), rust(&buffer[..len]));
        if got != want {
            eprintln!("xxh64: {len} bytes: {name} gives {got:016x}, Rust {want:016x}");
            exit(1);
        }
    }
    for (len, want) in KNOWN {
        let got = hash(&buffer[..len]);
        if got != want {
            eprintln!("xxh64: {len} bytes: {name} gives {got:016x}, not {want:016x}");
            exit(1);
        }
    }
}

const LENGTHS: [usize; 12] = [0, 1, 4, 8, 16, 31, 32, 64, 100, 1024, 65536, 16 << 20];

macro_rules! timed {
    ($hash:expr, $data:expr) => {
        timing::calls(|| {
            black_box($hash(black_box($data)));
        })
    };
}

fn main() {
    let hashes: Vec<Hash> = vec![
        ("proved", proved),
        ("Rust", rust),
        #[cfg(libxxhash)]
        ("libxxhash", libxxhash),
        #[cfg(clang)]
        ("by clang", clang),
    ];
    let buffer = plain::generate(16 << 20);
    for hash in &hashes {
        check(*hash, &buffer);
    }
    println!("XXH64 in ns, best round of each; a ratio under 1.00 means that proved is faster");
    print!("    bytes");
    for (name, _) in &hashes {
        print!("{name:>13}");
    }
    for (name, _) in &hashes[1..] {
        print!("{:>18}", format!("proved/{name}"));
    }
    println!("    proved GB/s");
    for len in LENGTHS {
        let data = &buffer[..len];
        // Each called by its name, not by a pointer: short values would feel the difference.
        let best = timing::compare_all(&mut [
            timed!(proved, data),
            timed!(rust, data),
            #[cfg(libxxhash)]
            timed!(libxxhash, data),
            #[cfg(clang)]
            timed!(clang, data),
        ]);
        print!("{len:9}");
        for took in &best {
            print!("{took:13.2}");
        }
        for took in &best[1..] {
            print!("{:18.2}", best[0] / took);
        }
        // Bytes per nanosecond are gigabytes per second. For short inputs the rate says little.
        if len >= 1024 {
            print!("{:15.2}", len as f64 / best[0]);
        }
        println!();
    }
}
