//! A pack of 64 MiB, faults of it, and a plain scan in Rust, shared by the benchmarks of whole packs.

use crate::{plain, tlv};

const VALUE: usize = 10_000;
const RECORD: usize = tlv::HEADER + VALUE;
/// As many as 64 MiB have room for.
pub const RECORDS: usize = (64 << 20) / RECORD;

/// A good pack. Its values are only bytes: the check reads nothing in them.
pub fn generate() -> Vec<u8> {
    let mut pack = Vec::with_capacity(RECORDS * RECORD);
    for value in plain::generate(RECORDS * VALUE).chunks_exact(VALUE) {
        tlv::append(&mut pack, *b"bk", value);
    }
    pack
}

/// How many records the pack has, or the number of its refusal, after document 01 and in one pass. Of a
/// pack that is not refused the entries are told, four numbers each: start, tag, length and hash. They
/// are kept until the pack is known to be good.
// Not inlined: the proved function is a call into an archive, so this one is to be a call too.
#[inline(never)]
pub fn scan(pack: &[u8], told: &mut [u64]) -> Result<u64, u32> {
    if pack.len() > tlv::PACK_LIMIT {
        return Err(1);
    }
    let mut left = pack;
    let mut entries = Vec::new();
    while !left.is_empty() {
        let start = (pack.len() - left.len()) as u64;
        let record = tlv::take(&mut left)?;
        let tag = u16::from_be_bytes(record.tag).into();
        entries.extend([start, tag, record.value.len() as u64, record.hash]);
    }
    let Some(front) = told.get_mut(..entries.len()) else {
        return Err(19);
    };
    front.copy_from_slice(&entries);
    Ok(entries.len() as u64 / 4)
}

/// Bytes of a record, under the refusal that a change of one of them brings.
const FLIPS: [(u32, &[usize]); 5] = [
    (3, &[0, 7]),
    (4, &[24]),
    (5, &[27]),
    (6, &[8, 15, 16, 23, 25, 26, 28, 29, 30, 31]),
    // Among them both sides of where the first and the last stripe of the value's hash end.
    (8, &[32, 63, 64, 5000, 10015, 10016, RECORD - 1]),
];

/// The good pack, then the same with a fault, one after the other: how many records it has, or the
/// number of its refusal, and what was done to it.
pub fn each(pack: &mut [u8], mut expect: impl FnMut(Result<u64, u32>, &[u8], &str)) {
    expect(Ok(RECORDS as u64), pack, "the good pack");
    for record in [0, RECORDS / 2, RECORDS - 1] {
        for (refusal, places) in FLIPS {
            for place in places {
                let at = record * RECORD + place;
                pack[at] ^= 1;
                expect(Err(refusal), pack, &format!("byte {at} flipped"));
                pack[at] ^= 1;
            }
        }
    }
    // Without its last byte, and with 31 bytes of the last header.
    for (refusal, cut) in [(7, 1), (2, VALUE + 1)] {
        let left = &pack[..pack.len() - cut];
        expect(Err(refusal), left, &format!("{cut} bytes cut off"));
    }
}
