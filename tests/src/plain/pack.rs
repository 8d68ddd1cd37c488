//! The TLV layer: one record, and a whole pack.

use super::xxh64::xxh64;
use super::{Number, LIMIT};
use vof::Refusal;

const MAGIC: &[u8] = b"\x89TLV\r\n\x1a\n";

/// A record of a pack: its start, its tag, its value.
pub type Entry<'a> = (usize, [u8; 2], &'a [u8]);

pub fn refusal(number: Number, place: usize) -> Refusal {
    Refusal {
        number,
        place: Some(place as u64),
        because: None,
    }
}

pub fn number(bytes: &[u8]) -> u64 {
    bytes
        .iter()
        .fold(0, |number, &byte| number << 8 | u64::from(byte))
}

/// What a record's first 32 bytes say.
pub struct Header {
    pub tag: [u8; 2],
    pub length: u64,
    pub hash: u64,
}

/// The header in these 32 bytes: refusals 3 to 6.
pub fn read_header(header: &[u8]) -> Result<Header, Number> {
    if &header[..8] != MAGIC {
        return Err(3);
    }
    if header[24] != 0 {
        return Err(4);
    }
    if header[27] != 8 {
        return Err(5);
    }
    if number(&header[30..]) != xxh64(&header[..30]) % 65_536 {
        return Err(6);
    }
    Ok(Header {
        tag: [header[25], header[26]],
        length: number(&header[8..16]),
        hash: number(&header[16..24]),
    })
}

/// The record at the front of the bytes, of which there is at least one: refusals 2 to 8.
pub fn read_tlv(bytes: &[u8]) -> Result<([u8; 2], &[u8]), Number> {
    if bytes.len() < 32 {
        return Err(2);
    }
    let (header, rest) = bytes.split_at(32);
    let header = read_header(header)?;
    if header.length > rest.len() as u64 {
        return Err(7);
    }
    let value = &rest[..header.length as usize];
    if header.hash != xxh64(value) {
        return Err(8);
    }
    Ok((header.tag, value))
}

/// The records of a pack before its first fault, and how it ends: refusals 1 to 8.
pub fn walk(pack: &[u8], limit: u64) -> (Vec<Entry<'_>>, Result<(), Refusal>) {
    let mut entries = Vec::new();
    if pack.len() as u64 > limit {
        return (entries, Err(refusal(1, 0)));
    }
    let mut at = 0;
    while at < pack.len() {
        match read_tlv(&pack[at..]) {
            Err(number) => return (entries, Err(refusal(number, at))),
            Ok((tag, value)) => {
                entries.push((at, tag, value));
                at += 32 + value.len();
            }
        }
    }
    (entries, Ok(()))
}

/// All records of a pack: refusals 1 to 8.
pub fn read_pack(pack: &[u8]) -> Result<Vec<Entry<'_>>, Refusal> {
    let (entries, ending) = walk(pack, LIMIT);
    ending.map(|()| entries)
}

/// The 32 bytes before a value, with both hashes right.
pub fn header(tag: [u8; 2], length: u64, hash: u64, spare: [u8; 2]) -> Vec<u8> {
    let (length, hash) = (length.to_be_bytes(), hash.to_be_bytes());
    let mut header = [MAGIC, &length, &hash, b"\0", &tag, b"\x08", &spare].concat();
    let own = xxh64(&header) as u16;
    header.extend(own.to_be_bytes());
    header
}

pub fn record_with(tag: [u8; 2], spare: [u8; 2], value: &[u8]) -> Vec<u8> {
    let header = header(tag, value.len() as u64, xxh64(value), spare);
    [&header, value].concat()
}

pub fn record(tag: [u8; 2], value: &[u8]) -> Vec<u8> {
    record_with(tag, [0, 0], value)
}
