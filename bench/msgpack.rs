//! A plain MessagePack reader after the public specification, for the benchmarks of the lookup and of pack
//! lists.
// The lookup asks for less.
#![allow(dead_code)]

/// An item, as far as documents 01 and 02 tell items apart in the maps that they read.
#[derive(Clone, Copy)]
pub enum Item<'a> {
    Natural(u64),
    /// By its magnitude.
    Negative(u64),
    Boolean,
    Text(&'a [u8]),
    Bytes(&'a [u8]),
    /// How many items, and the bytes that begin with them.
    List(u64, &'a [u8]),
    /// The bytes that begin with it.
    Map(&'a [u8]),
    Other,
}

const DEPTH_LIMIT: u32 = 16;

/// Takes the item at the front off, or gives the number of its refusal, 9 or 10. If it is a map, its
/// pairs are handed over.
pub fn map_pairs<'a>(
    left: &mut &'a [u8],
    mut pair: impl FnMut(Item<'a>, Item<'a>),
) -> Result<(), u32> {
    let count = match left.first() {
        Some(first @ 0x80..=0x8F) => {
            take(left, 1)?;
            u64::from(first & 15)
        }
        Some(first @ (0xDE | 0xDF)) => {
            take(left, 1)?;
            number(left, 2 << (first - 0xDE))?
        }
        _ => {
            item(left, 1)?;
            return Ok(());
        }
    };
    for _ in 0..count {
        let key = item(left, 2)?;
        let value = item(left, 2)?;
        pair(key, value);
    }
    Ok(())
}

/// Takes the item at the front off, which met no refusal as a part of another.
pub fn next<'a>(left: &mut &'a [u8]) -> Option<Item<'a>> {
    item(left, 1).ok()
}

/// Takes the item at the front off.
fn item<'a>(left: &mut &'a [u8], depth: u32) -> Result<Item<'a>, u32> {
    let whole = *left;
    let first = take(left, 1)?[0];
    match first {
        0x00..=0x7F => Ok(Item::Natural(u64::from(first))),
        0x80..=0x8F => {
            items(left, 2 * u64::from(first & 15), depth)?;
            Ok(Item::Map(whole))
        }
        0x90..=0x9F => list(left, u64::from(first & 15), depth),
        0xA0..=0xBF => Ok(Item::Text(take(left, u64::from(first & 31))?)),
        0xC1 => Err(9),
        0xC2 | 0xC3 => Ok(Item::Boolean),
        0xC4..=0xC6 => Ok(Item::Bytes(counted(left, 1 << (first - 0xC4))?)),
        0xC7..=0xC9 => {
            let length = number(left, 1 << (first - 0xC7))?;
            other(left, 1 + length)
        }
        0xCA | 0xCB => other(left, 4 << (first - 0xCA)),
        0xCC..=0xCF => Ok(Item::Natural(number(left, 1 << (first - 0xCC))?)),
        0xD0..=0xD3 => signed(left, 1 << (first - 0xD0)),
        0xD4..=0xD8 => other(left, 1 + (1 << (first - 0xD4))),
        0xD9..=0xDB => Ok(Item::Text(counted(left, 1 << (first - 0xD9))?)),
        0xDC | 0xDD => {
            let count = number(left, 2 << (first - 0xDC))?;
            list(left, count, depth)
        }
        0xDE | 0xDF => {
            let count = number(left, 2 << (first - 0xDE))?;
            items(left, 2 * count, depth)?;
            Ok(Item::Map(whole))
        }
        0xE0..=0xFF => Ok(Item::Negative(u64::from(first.wrapping_neg()))),
        0xC0 => Ok(Item::Other),
    }
}

fn take<'a>(left: &mut &'a [u8], length: u64) -> Result<&'a [u8], u32> {
    if length > left.len() as u64 {
        return Err(9);
    }
    let (taken, after) = left.split_at(length as usize);
    *left = after;
    Ok(taken)
}

fn number(left: &mut &[u8], width: u64) -> Result<u64, u32> {
    let bytes = take(left, width)?;
    Ok(bytes.iter().fold(0, |n, &byte| n << 8 | u64::from(byte)))
}

fn signed<'a>(left: &mut &'a [u8], width: u64) -> Result<Item<'a>, u32> {
    // With its sign in all 64 bits.
    let above = 64 - 8 * width;
    let n = (number(left, width)? << above) as i64 >> above;
    Ok(if n < 0 {
        Item::Negative(n.unsigned_abs())
    } else {
        Item::Natural(n as u64)
    })
}

fn counted<'a>(left: &mut &'a [u8], width: u64) -> Result<&'a [u8], u32> {
    let length = number(left, width)?;
    take(left, length)
}

fn other<'a>(left: &mut &'a [u8], length: u64) -> Result<Item<'a>, u32> {
    take(left, length)?;
    Ok(Item::Other)
}

fn list<'a>(left: &mut &'a [u8], count: u64, depth: u32) -> Result<Item<'a>, u32> {
    let content = *left;
    items(left, count, depth)?;
    Ok(Item::List(count, content))
}

fn items(left: &mut &[u8], count: u64, depth: u32) -> Result<(), u32> {
    if depth > DEPTH_LIMIT {
        return Err(10);
    }
    for _ in 0..count {
        item(left, depth + 1)?;
    }
    Ok(())
}
