//! A plain search in a pack list in Rust, after request 1 of document 02: every entry is read once, and the
//! one that holds the byte once more.

use crate::msgpack::{map_pairs, next, Item};
use crate::plain_names::{is_bucket, is_object, is_ulid};

/// What vof_find_block tells, or the number of the refusal.
// Not inlined: the proved function is a call into an archive, so this one is to be a call too.
#[inline(never)]
pub fn find_block(part: &[u8], byte: u64) -> Result<[u64; 6], u32> {
    let mut left = part;
    let (mut i, mut p, mut repeated) = (None, None, false);
    let read = map_pairs(&mut left, |key, value| match key {
        Item::Text(b"I") => repeated |= i.replace(value).is_some(),
        Item::Text(b"P") => repeated |= p.replace(value).is_some(),
        _ => {}
    });
    if read.is_err() || !left.is_empty() {
        return Err(16);
    }
    // What is no map has no `I` either.
    let identifier = identifier(i).ok_or(17u32)?;
    let (count, content) = items(p).ok_or(17u32)?;
    let all = survey(count, content, byte).ok_or(17u32)?;
    if repeated || identifier.repeated || all.repeated {
        return Err(22);
    }
    if !identifier.valid || !all.named {
        return Err(18);
    }
    if !all.filled {
        return Err(21);
    }
    Ok(all.holder.map_or([0; 6], |(number, entry, sums)| {
        let ulid = (entry.ulid.as_ptr() as usize - part.as_ptr() as usize) as u64;
        let offset = byte - entry.source.start;
        let block = match sums.counted {
            true => entry.block_at(sums.blocks - 1, all.stride, offset),
            false => None,
        };
        match block {
            Some((block, stored)) => [2, number, block, ulid, stored.start, stored.length],
            None => [1, number, 0, ulid, entry.stored.start, entry.stored.length],
        }
    }))
}

/// What all entries tell together.
struct Survey<'a> {
    repeated: bool,
    named: bool,
    filled: bool,
    stride: u64,
    /// The first with the byte, with its number.
    holder: Option<(u64, Entry<'a>, Sums)>,
}

/// So many entries; None where one is not as described.
fn survey(count: u64, mut left: &[u8], byte: u64) -> Option<Survey<'_>> {
    let mut all = Survey {
        repeated: false,
        named: true,
        filled: true,
        stride: 0,
        holder: None,
    };
    for number in 0..count {
        let entry = entry(&mut left)?;
        let sums = entry.sums()?;
        all.repeated |= entry.repeated;
        all.named &= is_ulid(entry.ulid);
        all.filled &= sums.filled;
        all.stride = all.stride.max(sums.stride);
        if all.holder.is_none() && entry.source.has(byte) {
            all.holder = Some((number, entry, sums));
        }
    }
    Some(all)
}

struct Identifier {
    repeated: bool,
    valid: bool,
}

fn identifier(found: Option<Item>) -> Option<Identifier> {
    let mut map = match found? {
        Item::Text(text) => {
            return Some(Identifier {
                repeated: false,
                valid: is_composite(text),
            })
        }
        Item::Map(map) => map,
        _ => return None,
    };
    let (mut b, mut o, mut v, mut repeated) = (None, None, None, false);
    map_pairs(&mut map, |key, value| match key {
        Item::Text(b"b") => repeated |= b.replace(value).is_some(),
        Item::Text(b"o") => repeated |= o.replace(value).is_some(),
        Item::Text(b"v") => repeated |= v.replace(value).is_some(),
        _ => {}
    })
    .ok()?;
    let (Item::Text(bucket), Item::Text(object), Item::Text(ulid)) = (b?, o?, v?) else {
        return None;
    };
    Some(Identifier {
        repeated,
        valid: is_ulid(ulid) && is_bucket(bucket) && is_object(object),
    })
}

fn is_composite(text: &[u8]) -> bool {
    if text.len() < 27 || text[26] != b':' {
        return false;
    }
    let name = &text[27..];
    let Some(slash) = name.iter().position(|&b| b == b'/') else {
        return false;
    };
    is_ulid(&text[..26]) && is_bucket(&name[..slash]) && is_object(&name[slash + 1..])
}

/// A list's items, how many and the bytes that begin with them; none where it is absent.
fn items(found: Option<Item<'_>>) -> Option<(u64, &[u8])> {
    match found {
        None => Some((0, &[])),
        Some(Item::List(count, content)) => Some((count, content)),
        Some(_) => None,
    }
}

#[derive(Clone, Copy)]
struct Range {
    start: u64,
    length: u64,
}

impl Range {
    fn has(self, byte: u64) -> bool {
        self.start <= byte && byte - self.start < self.length
    }

    fn is_short(self) -> bool {
        self.start.checked_add(self.length).is_some()
    }
}

/// The range, and whether a key repeats in its map.
fn range(found: Option<Item>) -> Option<(Range, bool)> {
    let Some(Item::Map(mut map)) = found else {
        return None;
    };
    let (mut s, mut l, mut repeated) = (None, None, false);
    map_pairs(&mut map, |key, value| match key {
        Item::Text(b"s") => repeated |= s.replace(value).is_some(),
        Item::Text(b"l") => repeated |= l.replace(value).is_some(),
        _ => {}
    })
    .ok()?;
    let natural = |found| match found {
        None => Some(0),
        Some(Item::Natural(n)) => Some(n),
        Some(_) => None,
    };
    let (start, length) = (natural(s)?, natural(l)?);
    Some((Range { start, length }, repeated))
}

#[derive(Clone, Copy)]
struct Entry<'a> {
    ulid: &'a [u8],
    source: Range,
    stored: Range,
    lengths: (u64, &'a [u8]),
    deltas: (u64, &'a [u8]),
    repeated: bool,
}

/// Takes the entry at the front off.
fn entry<'a>(left: &mut &'a [u8]) -> Option<Entry<'a>> {
    let (mut p, mut o, mut t, mut e, mut n) = (None, None, None, None, None);
    let mut repeated = false;
    map_pairs(left, |key, value| match key {
        Item::Text(b"p") => repeated |= p.replace(value).is_some(),
        Item::Text(b"o") => repeated |= o.replace(value).is_some(),
        Item::Text(b"t") => repeated |= t.replace(value).is_some(),
        Item::Text(b"E") => repeated |= e.replace(value).is_some(),
        Item::Text(b"N") => repeated |= n.replace(value).is_some(),
        _ => {}
    })
    .ok()?;
    let Item::Text(ulid) = p? else {
        return None;
    };
    let ((source, twice), (stored, again)) = (range(o)?, range(t)?);
    Some(Entry {
        ulid,
        source,
        stored,
        lengths: items(e)?,
        deltas: items(n)?,
        repeated: repeated || twice || again,
    })
}

/// What the lengths and the deltas of an entry say.
struct Sums {
    blocks: u64,
    filled: bool,
    counted: bool,
    /// The least with which its blocks hold the source range; 0, where they are not counted.
    stride: u64,
}

impl Entry<'_> {
    fn sums(&self) -> Option<Sums> {
        let (count, mut left) = self.lengths;
        let mut total = 0u128;
        for _ in 0..count {
            let Item::Natural(length) = next(&mut left)? else {
                return None;
            };
            total += u128::from(length);
        }
        // One more than are listed, where these do not fill the range.
        let blocks = count + u64::from(total < u128::from(self.stored.length));
        let (count, mut left) = self.deltas;
        let (mut gains, mut needed) = (0u128, u128::from(self.source.length));
        for k in 0..count {
            match next(&mut left)? {
                Item::Natural(n) if k < blocks => gains += u128::from(n),
                Item::Negative(n) if k < blocks => needed += u128::from(n),
                Item::Natural(_) | Item::Negative(_) => {}
                _ => return None,
            }
        }
        let counted = blocks > 0 && gains.max(needed) <= u128::from(u64::MAX);
        let short = self.source.is_short() && self.stored.is_short();
        Some(Sums {
            blocks,
            filled: short && total <= u128::from(self.stored.length),
            counted,
            stride: match counted {
                true => (needed as u64)
                    .saturating_sub(gains as u64)
                    .div_ceil(blocks),
                false => 0,
            },
        })
    }

    /// The block with the byte at an offset of the source range, by the number of the last block: its
    /// number, and its range of the pack. None where a block would have a length below 0.
    fn block_at(&self, last: u64, stride: u64, mut offset: u64) -> Option<(u64, Range)> {
        let ((_, mut lengths), (deltas, mut delta)) = (self.lengths, self.deltas);
        let (mut source, mut stored, mut found) = (self.source.length, self.stored, None);
        for k in 0..last {
            let Item::Natural(length) = next(&mut lengths)? else {
                return None;
            };
            let own = match k < deltas {
                false => stride,
                true => match next(&mut delta)? {
                    Item::Natural(n) => stride.checked_add(n)?,
                    Item::Negative(n) => stride.checked_sub(n)?,
                    _ => return None,
                },
            };
            source = source.checked_sub(own)?;
            let start = stored.start;
            if found.is_none() && offset < own {
                found = Some((k, Range { start, length }));
            }
            offset = offset.saturating_sub(own);
            stored.start += length;
            stored.length -= length;
        }
        found.or(Some((last, stored)))
    }
}
