//! Request 8: one MessagePack item, and whether it stands in its short form.

use super::msgpack::{read, Fault, Item};
use super::Number;

/// Kind, length in bytes, argument, and whether the form is the short one, as vof_item tells them.
pub struct Told {
    pub kind: u64,
    pub length: usize,
    pub argument: i128,
    pub short: bool,
}

pub fn item(bytes: &[u8]) -> Result<Told, Number> {
    let (item, length) = read(bytes).map_err(|fault| match fault {
        Fault::NotWhole => 9,
        Fault::TooDeep => 10,
    })?;
    let first = bytes[0];
    let (kind, argument) = match &item {
        Item::Nil => (0, 0),
        Item::Boolean(set) => (1, i128::from(*set)),
        Item::Integer(number) => (2, *number),
        Item::Float => (3, 0),
        Item::Text(text) => (4, text.bytes.len() as i128),
        Item::Bytes(bytes) => (5, bytes.bytes.len() as i128),
        Item::List(items) => (6, items.len() as i128),
        Item::Map(pairs) => (7, pairs.len() as i128),
        Item::Extension => (8, (length - extension_head(first) - 1) as i128),
    };
    Ok(Told {
        kind,
        length,
        argument,
        short: kind == 3 || first == short_first(kind, argument),
    })
}

fn extension_head(first: u8) -> usize {
    match first {
        0xC7..=0xC9 => 1 + (1 << (first - 0xC7)),
        _ => 1,
    }
}

/// The first byte of the short form.
fn short_first(kind: u64, argument: i128) -> u8 {
    let among = |limits: &[(i128, u8)], last| {
        let first = limits.iter().find(|(limit, _)| argument < *limit);
        first.map_or(last, |(_, first)| *first)
    };
    let fixed = |base: u8| base.wrapping_add(argument as u8);
    match kind {
        0 => 0xC0,
        1 => fixed(0xC2),
        2 if (-32..128).contains(&argument) => fixed(0),
        2 if argument < 0 => match argument {
            -0x80.. => 0xD0,
            -0x8000.. => 0xD1,
            -0x8000_0000.. => 0xD2,
            _ => 0xD3,
        },
        2 => among(&[(1 << 8, 0xCC), (1 << 16, 0xCD), (1 << 32, 0xCE)], 0xCF),
        4 => among(&[(32, fixed(0xA0)), (1 << 8, 0xD9), (1 << 16, 0xDA)], 0xDB),
        5 => among(&[(1 << 8, 0xC4), (1 << 16, 0xC5)], 0xC6),
        6 => among(&[(16, fixed(0x90)), (1 << 16, 0xDC)], 0xDD),
        7 => among(&[(16, fixed(0x80)), (1 << 16, 0xDE)], 0xDF),
        _ => match argument {
            1 => 0xD4,
            2 => 0xD5,
            4 => 0xD6,
            8 => 0xD7,
            16 => 0xD8,
            _ => among(&[(1 << 8, 0xC7), (1 << 16, 0xC8)], 0xC9),
        },
    }
}
