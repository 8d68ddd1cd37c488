//! Writing: the record, or where what is handed in is not admitted the number that a reader would give it.

use super::identifier::{is_ulid, Identifier};
use super::pack::record;
use super::pack_list::read_pack_list;
use super::record::{read_delete, read_version};
use super::{Number, LIMIT};

fn sized(first: u8, width: usize, length: usize) -> Vec<u8> {
    let length = (length as u64).to_be_bytes();
    [&[first], &length[8 - width..]].concat()
}

fn text(text: &[u8]) -> Vec<u8> {
    let head = match text.len() {
        length @ 0..=31 => vec![0xA0 + length as u8],
        length @ 32..=255 => sized(0xD9, 1, length),
        length => sized(0xDA, 2, length),
    };
    [&head, text].concat()
}

fn bytes(bytes: &[u8]) -> Vec<u8> {
    let head = match bytes.len() {
        length @ 0..=255 => sized(0xC4, 1, length),
        length @ 256..=65_535 => sized(0xC5, 2, length),
        length => sized(0xC6, 4, length),
    };
    [&head, bytes].concat()
}

fn natural(number: usize) -> Vec<u8> {
    match number {
        0..=127 => vec![number as u8],
        128..=255 => sized(0xCC, 1, number),
        256..=65_535 => sized(0xCD, 2, number),
        _ => sized(0xCE, 4, number),
    }
}

/// `{e}` alone.
pub fn with_primary(tag: &[u8; 2], primary: &[u8]) -> Vec<u8> {
    record(*tag, &[&b"\x81\xa1e"[..], &bytes(primary)].concat())
}

/// The data is shorter than the pack limit.
pub fn block(identifier: &[u8], data: &[u8]) -> Result<Vec<u8>, Number> {
    Identifier::from_text(identifier).ok_or(18)?;
    let primary = [&b"\x81\xa1I"[..], &text(identifier)].concat();
    let header = [
        b"\x82\xa1s\x91\x81\xa1l",
        &natural(data.len())[..],
        b"\xa1e",
    ]
    .concat();
    Ok(record(*b"bk", &[&header, &bytes(&primary), data].concat()))
}

pub fn version(primary: &[u8]) -> Result<Vec<u8>, Number> {
    read_version(primary)?;
    Ok(with_primary(b"vr", primary))
}

/// A map with so many pairs more, the first of which are the identifier's.
fn named(identifier: &Identifier, more: u8) -> Vec<u8> {
    let pairs = [
        (&b"b"[..], &identifier.bucket),
        (b"o", &identifier.object),
        (b"v", &identifier.ulid),
    ];
    let mut map = vec![0x83 + more];
    for (key, value) in pairs {
        map.extend([text(key), text(value)].concat());
    }
    map
}

pub fn version_part(identifier: &[u8], is_delete_marker: bool) -> Result<Vec<u8>, Number> {
    let identifier = Identifier::from_text(identifier).ok_or(18)?;
    let flag: &[u8] = if is_delete_marker { b"\xa1d\xc3" } else { b"" };
    Ok([&named(&identifier, is_delete_marker.into()), flag].concat())
}

pub fn delete(primary: &[u8]) -> Result<Vec<u8>, Number> {
    read_delete(primary)?;
    Ok(with_primary(b"vd", primary))
}

pub fn pack_list(primary: &[u8]) -> Result<Vec<u8>, Number> {
    read_pack_list(primary)?;
    Ok(with_primary(b"ol", primary))
}

pub fn delete_of(identifier: &[u8], delete_ulid: &[u8]) -> Result<Vec<u8>, Number> {
    let identifier = Identifier::from_text(identifier).ok_or(18)?;
    if !is_ulid(delete_ulid) {
        return Err(18);
    }
    let by = [text(b"???"), text(delete_ulid)].concat();
    let primary = [named(&identifier, 1), by].concat();
    Ok(with_primary(b"vd", &primary))
}

/// The new count of bytes: `length` more after `used`, in a buffer with `room`.
pub fn count(length: usize, used: usize, room: usize) -> Result<usize, Number> {
    let end = used as u128 + length as u128;
    if end > u128::from(LIMIT) {
        return Err(20);
    }
    if end > room as u128 {
        return Err(19);
    }
    Ok(end as usize)
}
