//! A plain lookup of the current version in Rust, after documents 01 and 02: one pass, and a set of
//! what is deleted.

use std::cmp::Reverse;
use std::collections::HashSet;

use crate::msgpack::{map_pairs, Item};
use crate::plain_names::{is_bucket, is_object, is_ulid};
use crate::tlv;

/// The start of the current version's record, or the number of the refusal.
// Not inlined: the proved function is a call into an archive, so this one is to be a call too.
#[inline(never)]
pub fn lookup(pack: &[u8], bucket: &[u8], object: &[u8]) -> Result<Option<usize>, u32> {
    if !is_bucket(bucket) || !is_object(object) {
        return Err(20);
    }
    if pack.len() > tlv::PACK_LIMIT {
        return Err(1);
    }
    let (mut versions, mut deleted, mut unreadable) = (Vec::new(), HashSet::new(), None);
    let mut left = pack;
    while !left.is_empty() {
        let start = pack.len() - left.len();
        let tlv::Record { tag, value, .. } = tlv::take(&mut left)?;
        let is_delete = match &tag {
            b"vr" => false,
            b"vd" => true,
            _ => continue,
        };
        match identifier(is_delete, value) {
            Ok(i) if i.bucket != bucket || i.object != object => {}
            Ok(i) if is_delete => _ = deleted.insert(i.ulid),
            Ok(i) => versions.push((i.ulid, start)),
            // Kept for now: 2 to 8 of a later record come before it.
            Err(refusal) => _ = unreadable.get_or_insert(refusal),
        }
    }
    if let Some(refusal) = unreadable {
        return Err(refusal);
    }
    versions.retain(|(ulid, _)| !deleted.contains(ulid));
    let current = versions
        .iter()
        .max_by_key(|(ulid, start)| (ulid, Reverse(start)));
    Ok(current.map(|&(_, start)| start))
}

struct Identifier<'a> {
    ulid: &'a [u8],
    bucket: &'a [u8],
    object: &'a [u8],
}

/// The identifier of a version or a version delete, by its value.
fn identifier(is_delete: bool, value: &[u8]) -> Result<Identifier<'_>, u32> {
    let mut left = primary(value)?;
    let (mut b, mut o, mut v, mut flag, mut delete) = (None, None, None, None, None);
    // Types are tested first, on the last value of a key.
    let mut repeated = false;
    let read = map_pairs(&mut left, |key, value| match key {
        Item::Text(b"b") => repeated |= b.replace(value).is_some(),
        Item::Text(b"o") => repeated |= o.replace(value).is_some(),
        Item::Text(b"v") => repeated |= v.replace(value).is_some(),
        Item::Text(b"d") if !is_delete => repeated |= flag.replace(value).is_some(),
        Item::Text(b"???") if is_delete => repeated |= delete.replace(value).is_some(),
        _ => {}
    });
    if read.is_err() || !left.is_empty() {
        return Err(16);
    }
    // What is no map has no `b` either.
    let (Some(Item::Text(bucket)), Some(Item::Text(object)), Some(Item::Text(ulid))) = (b, o, v)
    else {
        return Err(17);
    };
    let delete = match (is_delete, flag, delete) {
        (true, _, Some(Item::Text(ulid))) => Some(ulid),
        (false, None | Some(Item::Boolean), _) => None,
        _ => return Err(17),
    };
    if repeated {
        return Err(22);
    }
    if !(is_ulid(ulid) && is_bucket(bucket) && is_object(object) && delete.map_or(true, is_ulid)) {
        return Err(18);
    }
    Ok(Identifier {
        ulid,
        bucket,
        object,
    })
}

/// The primary part, where the value is as described and this part is neither compressed nor
/// encrypted.
fn primary(value: &[u8]) -> Result<&[u8], u32> {
    let mut left = value;
    let (mut e, mut s, mut c, mut z, mut v) = (None, None, None, None, None);
    let mut repeated = false;
    map_pairs(&mut left, |key, value| match key {
        Item::Text(b"e") => repeated |= e.replace(value).is_some(),
        Item::Text(b"s") => repeated |= s.replace(value).is_some(),
        Item::Text(b"c") => repeated |= c.replace(value).is_some(),
        Item::Text(b"z") => repeated |= z.replace(value).is_some(),
        Item::Text(b"v") => repeated |= v.replace(value).is_some(),
        _ => {}
    })?;
    // What is no map has no `e` either.
    let Some(Item::Bytes(e)) = e else {
        return Err(11);
    };
    let (c, v) = (natural_or_0(c)?, natural_or_0(v)?);
    let (length, inner_repeated) = secondary_length(s)?;
    if repeated || inner_repeated {
        return Err(22);
    }
    if left.len() as u64 != length {
        return Err(12);
    }
    if v != 0 {
        return Err(14);
    }
    if z.is_some() || c != 0 {
        return Err(15);
    }
    Ok(e)
}

fn natural_or_0(found: Option<Item>) -> Result<u64, u32> {
    match found {
        None => Ok(0),
        Some(Item::Natural(n)) => Ok(n),
        Some(_) => Err(11),
    }
}

/// The secondary part's length, and whether a key repeats in its parameters.
fn secondary_length(parameters: Option<Item>) -> Result<(u64, bool), u32> {
    let mut left = match parameters {
        None | Some(Item::List(0, _)) => return Ok((0, false)),
        Some(Item::List(1, content)) => content,
        Some(_) => return Err(11),
    };
    let (mut l, mut c, mut z, mut repeated) = (None, None, None, false);
    map_pairs(&mut left, |key, value| match key {
        Item::Text(b"l") => repeated |= l.replace(value).is_some(),
        Item::Text(b"c") => repeated |= c.replace(value).is_some(),
        Item::Text(b"z") => repeated |= z.replace(value).is_some(),
        _ => {}
    })?;
    natural_or_0(c)?;
    match l {
        Some(Item::Natural(l)) if l <= tlv::PACK_LIMIT as u64 => Ok((l, repeated)),
        _ => Err(11),
    }
}
