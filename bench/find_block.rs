//! The proved search for the block that holds a byte of a version, in a pack list, against a plain one in
//! Rust, on the same lists and in one run. Both test the whole list.

use std::hint::black_box;
use std::process::exit;

mod encode;
mod msgpack;
mod plain_names;
mod plain_pack_list;
mod timing;

use encode::{list, map, natural, text, ulid};

// The proved function, from target/staticlib/libvof.a.
#[link(name = "vof", kind = "static")]
extern "C" {
    fn vof_find_block(
        primary: *const u8,
        primary_len: usize,
        byte: u64,
        told: *mut u64,
        told_len: usize,
    ) -> u64;
}

/// What vof_find_block tells, or the number of the refusal.
type Answer = Result<[u64; 6], u32>;

fn proved(part: &[u8], byte: u64) -> Answer {
    let mut told = [0; 6];
    // SAFETY: the pointers and lengths are those of slices, and only `told` is written.
    let answer = unsafe {
        vof_find_block(
            part.as_ptr(),
            part.len(),
            byte,
            told.as_mut_ptr(),
            told.len(),
        )
    };
    match answer % 256 {
        0 => Ok(told),
        number => Err(number as u32),
    }
}

fn rust(part: &[u8], byte: u64) -> Answer {
    plain_pack_list::find_block(part, byte)
}

fn fail(what: &str) -> ! {
    eprintln!("find_block: {what}");
    exit(1)
}

/// Figures of a function that gives a wrong answer would mean nothing.
fn expect(want: Answer, p: Answer, r: Answer, what: &str) {
    if p != want || r != want {
        fail(&format!(
            "{what}: proved gives {p:?}, Rust {r:?}, where {want:?} is right"
        ));
    }
}

fn range(start: usize, length: usize) -> Vec<u8> {
    map(&[("s", natural(start)), ("l", natural(length))])
}

fn part(entries: &[Vec<u8>]) -> Vec<u8> {
    let identifier = format!("{}:registry/scans/2026/animal-0000.dcm", ulid(0));
    map(&[("I", text(&identifier)), ("P", list(entries))])
}

/// Document 001's printed entry, its bytes from a place on.
fn printed(start: usize) -> Vec<u8> {
    map(&[
        ("p", text(&ulid(1))),
        ("o", range(start, 36)),
        ("t", range(0, 303)),
        ("E", list(&[natural(101), natural(101)])),
        ("N", list(&[])),
    ])
}

/// Two bytes from a place on in two blocks; the deltas are bytes of the list.
fn irregular(start: usize, deltas: &[u8]) -> Vec<u8> {
    let deltas: Vec<Vec<u8>> = deltas.iter().map(|&delta| vec![delta]).collect();
    map(&[
        ("p", text(&ulid(2))),
        ("o", range(start, 2)),
        ("t", range(9, 7)),
        ("E", list(&[natural(3)])),
        ("N", list(&deltas)),
    ])
}

/// What is found, without the place of the ULID.
fn told(answer: Answer) -> Result<[u64; 5], u32> {
    answer.map(|[kind, entry, block, _, start, length]| [kind, entry, block, start, length])
}

fn check_rules() {
    // -12 leaves the first block no byte, -13 brings it below 0.
    let lists = [
        part(&[printed(0), irregular(36, &[0xF4])]),
        part(&[printed(0), irregular(36, &[0xF3])]),
    ];
    for (list, byte, want) in [
        (0, 0, [2, 0, 0, 0, 101]),
        (0, 11, [2, 0, 0, 0, 101]),
        (0, 12, [2, 0, 1, 101, 101]),
        (0, 23, [2, 0, 1, 101, 101]),
        (0, 24, [2, 0, 2, 202, 101]),
        (0, 35, [2, 0, 2, 202, 101]),
        (0, 36, [2, 1, 1, 12, 4]),
        (0, 38, [0; 5]),
        (1, 36, [1, 1, 0, 9, 7]),
        (1, 37, [1, 1, 0, 9, 7]),
        (1, u64::MAX, [0; 5]),
    ] {
        let (p, r) = (proved(&lists[list], byte), rust(&lists[list], byte));
        expect(r, p, r, &format!("list {list}, byte {byte}"));
        if told(r) != Ok(want) {
            fail(&format!("list {list}, byte {byte}: {r:?}, not {want:?}"));
        }
    }
}

/// Lists with a byte changed, and cut. What is right is not told here.
fn check_damaged() {
    let mut part = part(&[printed(5), irregular(41, &[0x01, 0xFF, 0x03])]);
    for place in 0..part.len() {
        for mask in 1..=255 {
            part[place] ^= mask;
            for byte in [5, 17, 41, 42] {
                let (p, r) = (proved(&part, byte), rust(&part, byte));
                expect(r, p, r, &format!("byte {place} by {mask}, at {byte}"));
            }
            part[place] ^= mask;
        }
        let cut = &part[..place];
        expect(
            Err(16),
            proved(cut, 5),
            rust(cut, 5),
            &format!("cut at {place}"),
        );
    }
}

/// The source length of a block, and its stored length.
const STRIDE: usize = 10_000_000;
const STORED: usize = STRIDE + 99;

/// A list of so many entries of so many blocks; a delta of 0 for each block, or none.
fn regular(entries: usize, blocks: usize, deltas: bool) -> Vec<u8> {
    let entry = |number: usize| {
        let mut pairs = vec![
            ("p", text(&ulid(number))),
            ("o", range(number * blocks * STRIDE, blocks * STRIDE)),
            ("t", range(0, blocks * STORED)),
            ("E", list(&vec![natural(STORED); blocks - 1])),
        ];
        if deltas {
            pairs.push(("N", list(&vec![natural(0); blocks])));
        }
        map(&pairs)
    };
    part(&(0..entries).map(entry).collect::<Vec<_>>())
}

/// A block by its number in the whole list; one past the last stands for no entry.
fn measure(what: &str, part: &[u8], blocks: usize, block: usize, want: [u64; 5]) {
    let byte = (block * STRIDE) as u64;
    let (mut p_answer, mut r_answer) = (Ok([0; 6]), Ok([0; 6]));
    let (p, r) = timing::compare(
        || p_answer = black_box(proved(black_box(part), byte)),
        || r_answer = black_box(rust(black_box(part), byte)),
    );
    expect(r_answer, p_answer, r_answer, what);
    if told(r_answer) != Ok(want) {
        fail(&format!("{what}: {r_answer:?}, not {want:?}"));
    }
    let (p, r, len) = (p / 1e3, r / 1e3, part.len());
    println!(
        "{what:44} {len:9} {blocks:8} {p:11.3} {r:11.3} {:13.2}",
        p / r
    );
}

fn main() {
    check_rules();
    check_damaged();
    println!("Block of a byte, best round of each; a ratio under 1.00 means that proved is faster");
    println!(
        "{:44}     bytes   blocks   proved us     Rust us   proved/Rust",
        "entries of blocks, byte"
    );
    for (entries, blocks, deltas) in [
        (1, 1, false),
        (1, 100, false),
        (1_000, 100, false),
        (1_000, 100, true),
        (1, 100_000, false),
        (100_000, 1, false),
    ] {
        let part = regular(entries, blocks, deltas);
        let all = entries * blocks;
        let listed = if deltas { " with deltas" } else { "" };
        let what = |byte| format!("{entries} of {blocks}{listed}, {byte}");
        let at = |entry: usize, block: usize| {
            let start = block * STORED;
            [2, entry as u64, block as u64, start as u64, STORED as u64]
        };
        measure(&what("first"), &part, all, 0, at(0, 0));
        let last = at(entries - 1, blocks - 1);
        measure(&what("last"), &part, all, all - 1, last);
        measure(&what("none"), &part, all, all, [0; 5]);
    }
}
