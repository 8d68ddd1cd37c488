//! The value: a header, the primary part in it, the secondary part after it.

use super::msgpack::{read, Fault, Item};
use super::{Number, LIMIT};

#[derive(Clone, Copy, Debug, PartialEq)]
pub struct Part {
    pub start: usize,
    pub length: usize,
    pub c: u64,
    pub z: bool,
}

#[derive(Clone, Copy, Debug, PartialEq)]
pub struct Value {
    pub primary: Part,
    pub listed: bool,
    /// Where it is not listed: empty, after the header, with the primary's `c` and `z`.
    pub secondary: Part,
    pub v: u64,
}

/// Refusals 9, 10, 11, 22 and 12, in this order.
pub fn read_value(bytes: &[u8]) -> Result<Value, Number> {
    let (header, length) = read(bytes).map_err(|fault| match fault {
        Fault::NotWhole => 9,
        Fault::TooDeep => 10,
    })?;
    let value = read_header(&header, length).ok_or(11)?;
    header.once(&["e", "s", "c", "z", "v"])?;
    if let Some(Item::List(maps)) = header.get("s") {
        for map in maps {
            map.once(&["l", "c", "z"])?;
        }
    }
    if length + value.secondary.length != bytes.len() {
        return Err(12);
    }
    Ok(value)
}

/// An integer of at least 0, absent with a default; None where it is another thing.
fn natural(item: Option<&Item>, absent: u64) -> Option<u64> {
    match item {
        None => Some(absent),
        Some(Item::Integer(number)) => u64::try_from(*number).ok(),
        Some(_) => None,
    }
}

fn read_header(header: &Item, length: usize) -> Option<Value> {
    let Some(Item::Bytes(e)) = header.get("e") else {
        return None;
    };
    let primary = Part {
        start: e.start,
        length: e.bytes.len(),
        c: natural(header.get("c"), 0)?,
        z: header.get("z").is_some(),
    };
    let v = natural(header.get("v"), 0)?;
    let absent = Part {
        start: length,
        length: 0,
        ..primary
    };
    let (listed, secondary) = match header.get("s") {
        None => (false, absent),
        Some(Item::List(list)) => match &list[..] {
            [] => (false, absent),
            [map] => (true, read_secondary(map, absent)?),
            _ => return None,
        },
        Some(_) => return None,
    };
    Some(Value {
        primary,
        listed,
        secondary,
        v,
    })
}

fn read_secondary(map: &Item, absent: Part) -> Option<Part> {
    // What is no map has no `l`.
    let length = natural(Some(map.get("l")?), 0)?;
    (length <= LIMIT).then_some(Part {
        start: absent.start,
        length: length as usize,
        c: natural(map.get("c"), absent.c)?,
        z: absent.z || map.get("z").is_some(),
    })
}
