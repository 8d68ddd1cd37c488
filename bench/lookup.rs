//! The proved lookup of the current version against a plain one in Rust and against document 001's
//! own code in Python, on the same packs and in one run.

use std::hint::black_box;
use std::process::{exit, Command};

mod encode;
mod msgpack;
mod plain;
mod plain_lookup;
mod plain_names;
mod records;
mod timing;
mod tlv;

use records::{object, version, version_delete, Order, Pack, BUCKET};

// The proved function, from target/staticlib/libvof.a.
#[link(name = "vof", kind = "static")]
extern "C" {
    fn vof_current(
        pack: *const u8,
        pack_len: usize,
        bucket: *const u8,
        bucket_len: usize,
        object: *const u8,
        object_len: usize,
        told: *mut u64,
        told_len: usize,
        ulid: *mut u8,
        ulid_len: usize,
    ) -> u64;

    fn vof_current_with(
        pack: *const u8,
        pack_len: usize,
        bucket: *const u8,
        bucket_len: usize,
        object: *const u8,
        object_len: usize,
        scratch: *mut u32,
        scratch_len: usize,
        out: *mut u64,
        out_len: usize,
        ulid: *mut u8,
        ulid_len: usize,
    ) -> u64;
}

/// The start of the current version's record, or the number of the refusal.
type Answer = Result<Option<usize>, u32>;

fn proved(pack: &[u8], bucket: &str, object: &str) -> Answer {
    let (mut told, mut ulid) = ([0; 4], [0; 26]);
    // SAFETY: the pointers and lengths are those of slices, and only `told` and `ulid` are written.
    let answer = unsafe {
        vof_current(
            pack.as_ptr(),
            pack.len(),
            bucket.as_ptr(),
            bucket.len(),
            object.as_ptr(),
            object.len(),
            told.as_mut_ptr(),
            told.len(),
            ulid.as_mut_ptr(),
            ulid.len(),
        )
    };
    read(answer, told)
}

fn read(answer: u64, told: [u64; 4]) -> Answer {
    match answer % 256 {
        0 => Ok((told[0] == 1).then_some(told[1] as usize)),
        number => Err(number as u32),
    }
}

/// The same with memory lent for hints.
fn lent(pack: &[u8], bucket: &str, object: &str, scratch: &mut [u32]) -> Answer {
    let (mut told, mut ulid) = ([0; 4], [0; 26]);
    // SAFETY: the pointers and lengths are those of slices, and only `scratch`, `told` and `ulid`
    // are written.
    let answer = unsafe {
        vof_current_with(
            pack.as_ptr(),
            pack.len(),
            bucket.as_ptr(),
            bucket.len(),
            object.as_ptr(),
            object.len(),
            scratch.as_mut_ptr(),
            scratch.len(),
            told.as_mut_ptr(),
            told.len(),
            ulid.as_mut_ptr(),
            ulid.len(),
        )
    };
    read(answer, told)
}

/// No version delete takes fewer bytes: VOF_LEAST_DELETION_LENGTH of include/vof.h.
const LEAST_DELETION_LENGTH: usize = 106;

/// As many hints, of two numbers each, as a pack of this length has deletions at most.
fn scratch_for(pack: &[u8]) -> Vec<u32> {
    vec![0; 2 * (pack.len() / LEAST_DELETION_LENGTH)]
}

fn rust(pack: &[u8], bucket: &str, object: &str) -> Answer {
    plain_lookup::lookup(pack, bucket.as_bytes(), object.as_bytes())
}

fn fail(what: &str) -> ! {
    eprintln!("lookup: {what}");
    exit(1)
}

/// Figures of a function that gives a wrong answer would mean nothing.
fn expect(want: Answer, p: Answer, r: Answer, what: &str) {
    if p != want || r != want {
        fail(&format!(
            "{what}: proved gives {p:?}, Rust {r:?}, where {want:?} is right"
        ));
    }
}

/// A record of a small pack. Its number is its ULID's.
#[derive(Clone, Copy)]
enum Entry {
    Version(usize),
    Marker(usize),
    Deletion(usize),
    /// The same of another object.
    OtherVersion(usize),
    OtherDeletion(usize),
    /// A record that is passed over, with a value that would not be read.
    Block,
}

fn record(entry: Entry) -> ([u8; 2], Vec<u8>) {
    match entry {
        Entry::Version(n) => (*b"vr", version(n, &object(0), false)),
        Entry::Marker(n) => (*b"vr", version(n, &object(0), true)),
        Entry::Deletion(n) => (*b"vd", version_delete(n, &object(0))),
        Entry::OtherVersion(n) => (*b"vr", version(n, &object(1), false)),
        Entry::OtherDeletion(n) => (*b"vd", version_delete(n, &object(1))),
        Entry::Block => (*b"bk", vec![0xC1]),
    }
}

/// The pack of these records, and the start of each.
fn small(entries: &[Entry]) -> (Vec<u8>, Vec<usize>) {
    let (mut pack, mut starts) = (Vec::new(), Vec::new());
    for &entry in entries {
        let (tag, value) = record(entry);
        starts.push(pack.len());
        tlv::append(&mut pack, tag, &value);
    }
    (pack, starts)
}

/// Records, and which of them is current.
const RULES: [(&[Entry], Option<usize>); 14] = {
    use Entry::*;
    [
        (&[], None),
        (&[Version(1), Version(2), Version(3)], Some(2)),
        (&[Version(3), Version(1), Version(2)], Some(0)),
        (&[Version(1), Version(3), Version(2)], Some(1)),
        (&[Version(1), OtherVersion(2)], Some(0)),
        (&[OtherVersion(2)], None),
        (&[Version(1), Version(2), Deletion(2)], Some(0)),
        (&[Deletion(2), Version(1), Version(2)], Some(1)),
        (&[Deletion(1), Version(1), Version(2), Deletion(2)], None),
        (&[Version(1), Version(2), OtherDeletion(2)], Some(1)),
        (&[Version(1), Version(2), Version(2)], Some(1)),
        (&[Version(1), Marker(2)], Some(1)),
        (&[Version(1), Marker(2), Deletion(2)], Some(0)),
        (&[Block, Version(1), Block], Some(1)),
    ]
};

fn check_rules() {
    let name = object(0);
    for (i, (entries, current)) in RULES.into_iter().enumerate() {
        let (pack, starts) = small(entries);
        let want = Ok(current.map(|index| starts[index]));
        let (p, r) = (proved(&pack, BUCKET, &name), rust(&pack, BUCKET, &name));
        expect(want, p, r, &format!("rule {i}"));
        let l = lent(&pack, BUCKET, &name, &mut scratch_for(&pack));
        expect(want, l, r, &format!("rule {i}, memory lent"));
    }
    let (pack, _) = small(&[Entry::Version(1)]);
    let long = "x".repeat(1025);
    for (bucket, name) in [
        ("", "x"),
        ("a/b", "x"),
        (&long[..64], "x"),
        ("b", ""),
        ("b", &long),
    ] {
        let (p, r) = (proved(&pack, bucket, name), rust(&pack, bucket, name));
        expect(Err(20), p, r, "a name that breaks the rules");
    }
}

/// The two answer alike. What is right is not told here. Gives whether they refuse.
fn alike(pack: &[u8], what: &str) -> bool {
    let name = object(0);
    let (p, r) = (proved(pack, BUCKET, &name), rust(pack, BUCKET, &name));
    expect(r, p, r, what);
    let l = lent(pack, BUCKET, &name, &mut scratch_for(pack));
    expect(r, l, r, what);
    r.is_err()
}

const SMALL: [Entry; 5] = [
    Entry::Version(1),
    Entry::Deletion(3),
    Entry::Version(3),
    Entry::OtherVersion(4),
    Entry::Version(2),
];

/// Packs with a byte changed, cut, and with a byte of a value changed under right hashes.
fn check_damaged() {
    let (mut pack, _) = small(&SMALL);
    for place in 0..pack.len() {
        pack[place] ^= 1;
        if !alike(&pack, &format!("byte {place} flipped")) {
            fail(&format!("byte {place} flipped, and both take the pack"));
        }
        pack[place] ^= 1;
        alike(&pack[..place], &format!("cut at {place}"));
    }
    for damaged in [1, 4] {
        let (mut front, _) = small(&SMALL[..damaged]);
        let (back, _) = small(&SMALL[damaged + 1..]);
        let (tag, mut value) = record(SMALL[damaged]);
        let length = front.len();
        for place in 0..value.len() {
            for mask in 1..=255 {
                value[place] ^= mask;
                tlv::append(&mut front, tag, &value);
                front.extend(&back);
                let what = format!("record {damaged}, byte {place} of the value by {mask}");
                alike(&front, &what);
                front.truncate(length);
                value[place] ^= mask;
            }
        }
    }
}

/// Every fiftieth version is of the object that is looked up.
const OBJECTS: usize = 50;

const PACK_FILE: &str = "target/bench/lookup.pack";

/// Document 001's own code: the ULID of the current version, and the best round's milliseconds. None
/// where Python or its packages are absent.
fn python(pack: &[u8], object: &str) -> Option<(String, f64)> {
    std::fs::write(PACK_FILE, pack).unwrap_or_else(|e| fail(&format!("{PACK_FILE}: {e}")));
    let run = Command::new("bench/lookup.py")
        .args([PACK_FILE, BUCKET, object])
        .output()
        .ok()?;
    match run.status.code() {
        Some(0) => {}
        Some(2) => return None,
        _ => fail(&format!("Python: {}", String::from_utf8_lossy(&run.stderr))),
    }
    let said = String::from_utf8_lossy(&run.stdout);
    let (ulid, milliseconds) = said.trim().split_once(' ').unwrap();
    Some((ulid.to_string(), milliseconds.parse().unwrap()))
}

/// A row with more deletions than LOOKUP_MOST is left out, for a try that takes seconds, and one with
/// fewer than LOOKUP_LEAST, for the longest alone.
fn is_measured(deletions: usize) -> bool {
    let bound = |name| {
        std::env::var(name)
            .ok()
            .and_then(|bound| bound.parse().ok())
    };
    bound("LOOKUP_LEAST").unwrap_or(0) <= deletions
        && deletions <= bound("LOOKUP_MOST").unwrap_or(usize::MAX)
}

/// With LOOKUP_LENT nothing but the lookup with memory lent is measured, beside Rust: the others take
/// minutes where there are many deletions.
fn is_lent_alone() -> bool {
    std::env::var_os("LOOKUP_LENT").is_some()
}

fn measure(what: &str, pack: Pack) {
    let name = object(0);
    let (mut p_answer, mut l_answer, mut r_answer) = (Ok(None), Ok(None), Ok(None));
    let mut scratch = scratch_for(&pack.bytes);
    let mut functions = vec![
        timing::calls(|| {
            l_answer = black_box(lent(black_box(&pack.bytes), BUCKET, &name, &mut scratch))
        }),
        timing::calls(|| r_answer = black_box(rust(black_box(&pack.bytes), BUCKET, &name))),
    ];
    if !is_lent_alone() {
        let call = || p_answer = black_box(proved(black_box(&pack.bytes), BUCKET, &name));
        functions.push(timing::calls(call));
    }
    let best = timing::compare_all(&mut functions);
    drop(functions);
    let want = pack.current.as_ref().map(|(start, _)| *start);
    expect(Ok(want), l_answer, r_answer, what);
    let (l, r, len) = (best[0] / 1e6, best[1] / 1e6, pack.bytes.len());
    print!("{what:36} {len:9} {l:9.4} {r:9.4} {:9.2}", l / r);
    if is_lent_alone() {
        return println!();
    }
    expect(Ok(want), p_answer, r_answer, what);
    let p = best[2] / 1e6;
    print!(" {p:11.4} {:13.2}", p / r);
    match python(&pack.bytes, &name) {
        Some((ulid, y)) => {
            let want = pack.current.map_or("nothing".to_string(), |(_, ulid)| ulid);
            if ulid != want {
                fail(&format!("{what}: Python gives {ulid}, not {want}"));
            }
            println!(" {y:11.3} {:13.3}", l / y);
        }
        None => println!(" {:>11}", "absent"),
    }
}

fn main() {
    check_rules();
    check_damaged();
    println!("Current version, best round of each; a ratio under 1.00 means that proved is faster");
    println!("Python needs Debian's python3-msgpack and python3-xxhash");
    println!(
        "{:36}     bytes   lent ms   Rust ms lent/Rust not lent ms not lent/Rust   Python ms   lent/Python",
        "versions, deleted"
    );
    for (versions, deleted) in [(1, 0), (1, 1)] {
        if is_measured(deleted) {
            let what = format!("{versions}, {deleted}");
            measure(&what, Pack::new(versions, 1, deleted));
        }
    }
    for versions in [1_000, 10_000, 100_000] {
        if is_measured(0) {
            measure(&format!("{versions}, 0"), Pack::new(versions, OBJECTS, 0));
        }
    }
    for deleted in [1, 10, 100] {
        if is_measured(deleted) {
            let what = format!("10000, newest {deleted}");
            measure(&what, Pack::new(10_000, OBJECTS, deleted));
        }
    }
    // The worst case: all versions of the one object deleted.
    let orders = [
        ("rising", Order::Rising),
        ("falling", Order::Falling),
        ("mixed", Order::Mixed),
    ];
    let counts = [100, 1_000, 10_000, 100_000, 400_000, 1_600_000];
    for versions in counts.into_iter().filter(|&count| is_measured(count)) {
        for (name, order) in orders {
            let what = format!("{versions}, all, {name}");
            measure(&what, Pack::all_deleted(versions, 1, order));
        }
    }
    // Prepared packs: no more versions than it takes to need as many turns, a version where the hints
    // that a lookup has itself end.
    for deletions in [20_000, 200_000]
        .into_iter()
        .filter(|&count| is_measured(count))
    {
        for (name, order) in orders {
            let pack = Pack::all_deleted(deletions, 8_193, order);
            let versions = deletions.div_ceil(8_193);
            measure(&format!("{versions}, {deletions} deletions, {name}"), pack);
        }
    }
}
