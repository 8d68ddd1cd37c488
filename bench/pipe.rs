//! The proved pipe, which a pack is handed to in parts, against the proved scan of the whole, on the same bytes
//! and in one run.

use std::hint::black_box;
use std::process::exit;

mod large;
mod plain;
mod timing;
mod tlv;

use large::RECORDS;

// The proved functions, from target/staticlib/libvof.a.
#[link(name = "vof", kind = "static")]
extern "C" {
    fn vof_scan(pack: *const u8, pack_len: usize, told: *mut u64, told_len: usize) -> u64;
    fn vof_pipe_start(state: *mut u64, state_len: usize) -> u64;
    fn vof_pipe_take(
        state: *mut u64,
        state_len: usize,
        part: *const u8,
        part_len: usize,
        told: *mut u64,
        told_len: usize,
    ) -> u64;
    fn vof_pipe_end(state: *mut u64, state_len: usize) -> u64;
}

/// How many numbers a state has.
const STATE: usize = 19;

/// How many records the pack has, or the number of its refusal.
type Answer = Result<u64, u32>;

fn read(answer: u64) -> Answer {
    match answer % 256 {
        0 => Ok(answer / 256),
        number => Err(number as u32),
    }
}

// SAFETY, of every call below: the pointers and lengths are those of slices, and only `told` and `state` are
// written.

fn whole(pack: &[u8], told: &mut [u64]) -> Answer {
    read(unsafe { vof_scan(pack.as_ptr(), pack.len(), told.as_mut_ptr(), told.len()) })
}

fn take(state: &mut [u64], part: &[u8], told: &mut [u64]) -> u64 {
    unsafe {
        vof_pipe_take(
            state.as_mut_ptr(),
            state.len(),
            part.as_ptr(),
            part.len(),
            told.as_mut_ptr(),
            told.len(),
        )
    }
}

/// The same in parts of this length. The records are told as the scan tells them.
fn in_parts(pack: &[u8], length: usize, told: &mut [u64]) -> Answer {
    let mut state = [0; STATE];
    read(unsafe { vof_pipe_start(state.as_mut_ptr(), state.len()) })?;
    let mut entries = told.chunks_exact_mut(4);
    for mut part in pack.chunks(length) {
        while !part.is_empty() {
            let mut told = [0; 6];
            read(take(&mut state, part, &mut told))?;
            part = &part[told[0] as usize..];
            if told[1] == 1 {
                entries.next().unwrap().copy_from_slice(&told[2..]);
            }
        }
    }
    read(unsafe { vof_pipe_end(state.as_mut_ptr(), state.len()) })
}

/// Figures of functions that answer differently would mean nothing.
fn expect(want: Answer, got: Answer, what: &str) {
    if got != want {
        eprintln!("pipe: {what}: {got:?}, where {want:?} is right");
        exit(1);
    }
}

fn check(pack: &mut [u8], told: &mut [u64]) {
    for length in [65_536, 1_000] {
        large::each(pack, |want, pack, what| {
            expect(want, large::scan(pack, told), what);
            let what = format!("in parts of {length}, {what}");
            expect(want, in_parts(pack, length, told), &what);
        });
    }
}

fn main() {
    let mut pack = large::generate();
    let mut told = vec![0; 4 * RECORDS];
    check(&mut pack, &mut told);
    let mut wanted = vec![0; 4 * RECORDS];
    println!(
        "Packs in parts, best round of each; the state has {} bytes",
        8 * STATE
    );
    println!("   bytes   records    part    parts ms   whole ms   parts/whole   parts GB/s");
    for length in [65_536, 1_000, 1] {
        let (mut answer, good) = (Err(0), Ok(RECORDS as u64));
        let (parts, scan) = timing::compare(
            || answer = black_box(in_parts(black_box(&pack), length, &mut told)),
            || expect(good, whole(black_box(&pack), &mut wanted), "the scan"),
        );
        expect(good, answer, "the pack in parts");
        if told != wanted {
            expect(good, Err(0), "the records told");
        }
        let len = pack.len();
        // Bytes per nanosecond are gigabytes per second.
        println!(
            "{len:8} {RECORDS:9} {length:7} {:11.3} {:10.3} {:13.2} {:12.2}",
            parts / 1e6,
            scan / 1e6,
            parts / scan,
            len as f64 / parts
        );
    }
}
