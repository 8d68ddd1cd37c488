//! A plain XXH64 in Rust, and bytes to hash, shared by the benchmarks here.

const P1: u64 = 0x9E3779B185EBCA87;
const P2: u64 = 0xC2B2AE3D27D4EB4F;
const P3: u64 = 0x165667B19E3779F9;
const P4: u64 = 0x85EBCA77C2B2AE63;
const P5: u64 = 0x27D4EB2F165667C5;

fn read32(bytes: &[u8]) -> u64 {
    u64::from(u32::from_le_bytes(bytes.try_into().unwrap()))
}

fn read64(bytes: &[u8]) -> u64 {
    u64::from_le_bytes(bytes.try_into().unwrap())
}

fn round(acc: u64, lane: u64) -> u64 {
    acc.wrapping_add(lane.wrapping_mul(P2))
        .rotate_left(31)
        .wrapping_mul(P1)
}

fn merge(hash: u64, acc: u64) -> u64 {
    (hash ^ round(0, acc)).wrapping_mul(P1).wrapping_add(P4)
}

/// XXH64 with seed 0, after the public specification.
pub fn xxh64(data: &[u8]) -> u64 {
    let mut stripes = data.chunks_exact(32);
    let mut h = if data.len() < 32 {
        P5
    } else {
        let mut a = P1.wrapping_add(P2);
        let mut b = P2;
        let mut c = 0;
        let mut d = P1.wrapping_neg();
        for stripe in &mut stripes {
            a = round(a, read64(&stripe[..8]));
            b = round(b, read64(&stripe[8..16]));
            c = round(c, read64(&stripe[16..24]));
            d = round(d, read64(&stripe[24..]));
        }
        let h = a
            .rotate_left(1)
            .wrapping_add(b.rotate_left(7))
            .wrapping_add(c.rotate_left(12))
            .wrapping_add(d.rotate_left(18));
        merge(merge(merge(merge(h, a), b), c), d)
    };
    h = h.wrapping_add(data.len() as u64);

    let mut eights = stripes.remainder().chunks_exact(8);
    for lane in &mut eights {
        h = (h ^ round(0, read64(lane)))
            .rotate_left(27)
            .wrapping_mul(P1)
            .wrapping_add(P4);
    }
    let mut fours = eights.remainder().chunks_exact(4);
    for lane in &mut fours {
        h = (h ^ read32(lane).wrapping_mul(P1))
            .rotate_left(23)
            .wrapping_mul(P2)
            .wrapping_add(P3);
    }
    for &byte in fours.remainder() {
        h = (h ^ u64::from(byte).wrapping_mul(P5))
            .rotate_left(11)
            .wrapping_mul(P1);
    }

    h = (h ^ (h >> 33)).wrapping_mul(P2);
    h = (h ^ (h >> 29)).wrapping_mul(P3);
    h ^ (h >> 32)
}

/// The bytes that xxHash's own sanity check hashes.
pub fn generate(len: usize) -> Vec<u8> {
    let mut state: u64 = 2654435761;
    let mut bytes = Vec::with_capacity(len);
    for _ in 0..len {
        bytes.push((state >> 56) as u8);
        state = state.wrapping_mul(11400714785074694797);
    }
    bytes
}
