//! The deposit profile of request 9: refusals 23 to 28.

use super::msgpack::{read, Item};
use super::pack::{read_pack, refusal};
use super::record::read_record;
use super::Number;
use vof::Refusal;

/// The least of 1, 2, 4 and 8 bytes that holds the number.
fn least(number: u64) -> usize {
    [1, 2, 4]
        .into_iter()
        .find(|width| number >> (8 * width) == 0)
        .unwrap_or(8)
}

/// The same for a negative integer, in two's complement.
fn least_signed(number: i64) -> usize {
    let holds = |width: &usize| number >= -(1 << (8 * width - 1));
    [1, 2, 4].into_iter().find(holds).unwrap_or(8)
}

/// The length of the whole item at the front, where it and all in it are in their short forms.
fn short(bytes: &[u8]) -> Option<usize> {
    let first = bytes[0];
    let low = |bits: u32| usize::from(first) % (1 << bits);
    let big = |width: usize| {
        let number = bytes[1..=width].iter();
        number.fold(0, |number, &byte| number << 8 | u64::from(byte))
    };
    // A head with a number of `width` bytes, which has to be the least for it.
    let sized = |width: usize, from: usize, fixed: &[u64]| {
        let number = big(width);
        let is_short = width == least(number).max(from) && !fixed.contains(&number);
        is_short.then_some((1 + width, number as usize))
    };
    let fixed_up_to = |most: u64| (0..=most).collect::<Vec<_>>();
    match first {
        0x00..=0x7F | 0xC0..=0xC3 | 0xE0..=0xFF => Some(1),
        0x80..=0x8F => several(bytes, 1, 2 * low(4)),
        0x90..=0x9F => several(bytes, 1, low(4)),
        0xA0..=0xBF => Some(1 + low(5)),
        0xC4..=0xC6 => sized(1 << (first - 0xC4), 1, &[]).map(|(head, n)| head + n),
        0xC7..=0xC9 => {
            let head = sized(1 << (first - 0xC7), 1, &[1, 2, 4, 8, 16]);
            head.map(|(head, n)| head + 1 + n)
        }
        0xCA | 0xCB => Some(1 + (4 << (first - 0xCA))),
        0xCC..=0xCF => sized(1 << (first - 0xCC), 1, &fixed_up_to(127)).map(|(head, _)| head),
        0xD0..=0xD3 => {
            let width = 1usize << (first - 0xD0);
            let unused = 64 - 8 * width as u32;
            let number = (big(width) << unused) as i64 >> unused;
            (number < -32 && width == least_signed(number)).then_some(1 + width)
        }
        0xD4..=0xD8 => Some(2 + (1 << (first - 0xD4))),
        0xD9..=0xDB => {
            let head = sized(1 << (first - 0xD9), 1, &fixed_up_to(31));
            head.map(|(head, n)| head + n)
        }
        0xDC | 0xDD => {
            let (head, n) = sized(2 << (first - 0xDC), 2, &fixed_up_to(15))?;
            several(bytes, head, n)
        }
        0xDE | 0xDF => {
            let (head, n) = sized(2 << (first - 0xDE), 2, &fixed_up_to(15))?;
            several(bytes, head, 2 * n)
        }
    }
}

/// So many items from a place on, and where they end.
fn several(bytes: &[u8], mut at: usize, count: usize) -> Option<usize> {
    for _ in 0..count {
        at += short(&bytes[at..])?;
    }
    Some(at)
}

/// A map's keys, in their order: their texts, None where one is no text.
fn keys<'a>(map: &Item<'a>) -> Vec<Option<&'a [u8]>> {
    let Item::Map(pairs) = map else {
        return Vec::new();
    };
    let text = |key: &Item<'a>| match key {
        Item::Text(text) => Some(text.bytes),
        _ => None,
    };
    pairs.iter().map(|(key, _)| text(key)).collect()
}

fn are_among(map: &Item, given: &[&str]) -> bool {
    let is_given = |key: &Option<&[u8]>| given.iter().any(|text| *key == Some(text.as_bytes()));
    keys(map).iter().all(is_given)
}

fn are(map: &Item, wanted: &[&str]) -> bool {
    let wanted: Vec<_> = wanted.iter().map(|text| Some(text.as_bytes())).collect();
    keys(map) == wanted
}

fn is_bucket(name: &[u8]) -> bool {
    let is_end = |byte: &u8| byte.is_ascii_lowercase() || byte.is_ascii_digit();
    (3..=63).contains(&name.len())
        && name.iter().all(|byte| is_end(byte) || b".-".contains(byte))
        && name.first().is_some_and(is_end)
        && name.last().is_some_and(is_end)
        && !name.windows(2).any(|two| two == b"..")
}

/// Of one record, with its bytes 28 and 29.
pub fn check_record(tag: [u8; 2], spare: &[u8], bytes: &[u8]) -> Result<(), Number> {
    let (value, content) = read_record(tag, bytes)?;
    let part = &bytes[value.primary.start..][..value.primary.length];
    let (header, map) = (read(bytes).unwrap().0, read(part).unwrap().0);
    let given: &[&str] = match &tag {
        b"bk" => &["I"],
        b"vr" => &[
            "b", "o", "v", "w", "A", "l", "e", "d", "N", "C", "p", "s", "m", "h", "D",
        ],
        b"vd" => &["b", "o", "v", "???"],
        _ => &["I", "U", "P"],
    };
    let is_block = &tag == b"bk";
    let order: &[&str] = if is_block { &["s", "e"] } else { &["e"] };
    let is_plain = || {
        let Some(Item::List(list)) = header.get("s") else {
            return false;
        };
        matches!(&list[..], [only] if are(only, &["l"]))
            && matches!(map.get("I"), Some(Item::Text(_)))
    };
    let rules = [
        short(bytes).is_some() && short(part).is_some(),
        are_among(&header, &["e", "s", "c", "z", "v"]) && are_among(&map, given),
        are(&header, order),
        !is_block || is_plain(),
        spare == [0, 0],
        is_bucket(&content.identifier.bucket),
    ];
    match rules.iter().position(|kept| !kept) {
        Some(broken) => Err(23 + broken as u8),
        None => Ok(()),
    }
}

/// How many records a pack has that keeps the profile.
pub fn check(pack: &[u8]) -> Result<usize, Refusal> {
    let entries = read_pack(pack)?;
    for &(start, tag, bytes) in &entries {
        let spare = &pack[start + 28..start + 30];
        check_record(tag, spare, bytes).map_err(|number| refusal(number, start))?;
    }
    Ok(entries.len())
}
