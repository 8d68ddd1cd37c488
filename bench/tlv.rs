//! TLV records after document 01, made and checked, shared by the benchmarks here.

use crate::plain;

pub const HEADER: usize = 32;
pub const PACK_LIMIT: usize = 4_294_967_295;
const MAGIC: [u8; 8] = *b"\x89TLV\r\n\x1a\n";

fn read16(bytes: &[u8]) -> u64 {
    u64::from(u16::from_be_bytes(bytes.try_into().unwrap()))
}

fn read64(bytes: &[u8]) -> u64 {
    u64::from_be_bytes(bytes.try_into().unwrap())
}

/// A record that was checked.
pub struct Record<'a> {
    pub tag: [u8; 2],
    pub value: &'a [u8],
    #[allow(dead_code)] // Not every benchmark reads it.
    pub hash: u64,
}

/// Takes the record at the front off, or gives the number of its refusal.
pub fn take<'a>(left: &mut &'a [u8]) -> Result<Record<'a>, u32> {
    let Some((header, after)) = left.split_first_chunk::<HEADER>() else {
        return Err(2);
    };
    if header[..8] != MAGIC {
        return Err(3);
    }
    if header[24] != 0 {
        return Err(4);
    }
    if header[27] != 8 {
        return Err(5);
    }
    if read16(&header[30..]) != plain::xxh64(&header[..30]) % 65536 {
        return Err(6);
    }
    let length = read64(&header[8..16]);
    if length > after.len() as u64 {
        return Err(7);
    }
    let (value, after) = after.split_at(length as usize);
    let hash = read64(&header[16..24]);
    if hash != plain::xxh64(value) {
        return Err(8);
    }
    *left = after;
    let tag = [header[25], header[26]];
    Ok(Record { tag, value, hash })
}

/// Puts a record after those of the pack.
pub fn append(pack: &mut Vec<u8>, tag: [u8; 2], value: &[u8]) {
    let start = pack.len();
    pack.extend(MAGIC);
    pack.extend((value.len() as u64).to_be_bytes());
    pack.extend(plain::xxh64(value).to_be_bytes());
    pack.push(0);
    pack.extend(tag);
    // The hash type and two bytes that are not interpreted.
    pack.extend([8, 0, 0]);
    let hash = plain::xxh64(&pack[start..]) as u16;
    pack.extend(hash.to_be_bytes());
    pack.extend(value);
}
