//! One record: its tag, its value, its primary part.

use super::identifier::{is_ulid, Identifier};
use super::msgpack::{read, Item, Span};
use super::pack_list::read_pack_list;
use super::value::{read_value, Value};
use super::{pack, Number, LIMIT};
use vof::Refusal;

/// What a primary part says. The delete identifier is a part of the primary part.
#[derive(Debug)]
pub struct Content<'a> {
    pub identifier: Identifier,
    pub deleted: bool,
    pub delete_ulid: Option<Span<'a>>,
}

#[derive(Debug)]
pub struct Record<'a> {
    pub tag: [u8; 2],
    /// Where the value starts in the pack.
    pub start: usize,
    pub bytes: &'a [u8],
    pub value: Value,
    pub content: Content<'a>,
}

pub fn text<'a>(map: &Item<'a>, key: &str) -> Result<Span<'a>, Number> {
    match map.get(key) {
        Some(Item::Text(text)) => Ok(*text),
        _ => Err(17),
    }
}

/// The identifier's texts: refusal 17.
fn texts<'a>(map: &Item<'a>) -> Result<[Span<'a>; 3], Number> {
    Ok([text(map, "v")?, text(map, "b")?, text(map, "o")?])
}

/// The identifier of these texts: refusal 18.
fn identifier([ulid, bucket, object]: [Span; 3]) -> Result<Identifier, Number> {
    Identifier::new(ulid.bytes, bucket.bytes, object.bytes).ok_or(18)
}

/// The one map that fills the bytes.
pub fn whole_map(bytes: &[u8]) -> Result<Item<'_>, Number> {
    match read(bytes) {
        Ok((map @ Item::Map(_), length)) if length == bytes.len() => Ok(map),
        Ok((_, length)) if length == bytes.len() => Err(17),
        _ => Err(16),
    }
}

/// The identifier under `I`, in either shape.
pub enum Named<'i, 'a> {
    Composite(Span<'a>),
    Map(&'i Item<'a>, [Span<'a>; 3]),
}

impl<'i, 'a> Named<'i, 'a> {
    /// Refusal 17.
    pub fn under(map: &'i Item<'a>) -> Result<Self, Number> {
        match map.get("I") {
            Some(Item::Text(text)) => Ok(Named::Composite(*text)),
            Some(inner @ Item::Map(_)) => Ok(Named::Map(inner, texts(inner)?)),
            _ => Err(17),
        }
    }

    /// Refusal 22, of the map that it stands in too.
    pub fn once(&self, map: &Item) -> Result<(), Number> {
        map.once(&["I"])?;
        match self {
            Named::Composite(_) => Ok(()),
            Named::Map(inner, _) => inner.once(&["v", "b", "o"]),
        }
    }

    /// Refusal 18.
    pub fn identifier(&self) -> Result<Identifier, Number> {
        match self {
            Named::Composite(text) => Identifier::from_text(text.bytes).ok_or(18),
            Named::Map(_, texts) => identifier(*texts),
        }
    }
}

/// What a primary part says that tells nothing but its identifier.
fn identified<'a>(identifier: Identifier) -> Content<'a> {
    Content {
        identifier,
        deleted: false,
        delete_ulid: None,
    }
}

/// Refusals 16, 17, 22 and 18, in this order; so too below.
pub fn read_block(bytes: &[u8]) -> Result<Content<'_>, Number> {
    let map = whole_map(bytes)?;
    let named = Named::under(&map)?;
    named.once(&map)?;
    named.identifier().map(identified)
}

pub fn read_version(bytes: &[u8]) -> Result<Content<'_>, Number> {
    let map = whole_map(bytes)?;
    let deleted = match map.get("d") {
        None => false,
        Some(Item::Boolean(deleted)) => *deleted,
        Some(_) => return Err(17),
    };
    let texts = texts(&map)?;
    map.once(&["v", "b", "o", "d"])?;
    Ok(Content {
        identifier: identifier(texts)?,
        deleted,
        delete_ulid: None,
    })
}

pub fn read_delete(bytes: &[u8]) -> Result<Content<'_>, Number> {
    let map = whole_map(bytes)?;
    let (texts, delete_ulid) = (texts(&map)?, text(&map, "???")?);
    map.once(&["v", "b", "o", "???"])?;
    let identifier = identifier(texts)?;
    if !is_ulid(delete_ulid.bytes) {
        return Err(18);
    }
    Ok(Content {
        identifier,
        deleted: false,
        delete_ulid: Some(delete_ulid),
    })
}

/// As a record, a pack list tells what a block does. Refusal 21 too, behind 18.
fn read_list(bytes: &[u8]) -> Result<Content<'_>, Number> {
    read_pack_list(bytes).map(|list| identified(list.identifier))
}

/// Refusals 9 to 18, then 21, and 22 before 12 and before 18.
pub fn read_record(tag: [u8; 2], bytes: &[u8]) -> Result<(Value, Content<'_>), Number> {
    let value = read_value(bytes)?;
    let read_content = match &tag {
        b"bk" => read_block,
        b"vr" => read_version,
        b"vd" => read_delete,
        b"ol" => read_list,
        _ => return Err(13),
    };
    if value.v != 0 {
        return Err(14);
    }
    if value.primary.z || value.primary.c != 0 {
        return Err(15);
    }
    let primary = &bytes[value.primary.start..][..value.primary.length];
    Ok((value, read_content(primary)?))
}

/// The record at a place of a pack.
pub fn record_at(pack: &[u8], at: usize) -> Result<Record<'_>, Refusal> {
    let alone = |number| Refusal {
        number,
        place: None,
        because: None,
    };
    if at >= pack.len() {
        return Err(alone(20));
    }
    if pack.len() as u64 > LIMIT {
        return Err(pack::refusal(1, 0));
    }
    let (tag, bytes) = pack::read_tlv(&pack[at..]).map_err(|number| pack::refusal(number, at))?;
    let (value, content) = read_record(tag, bytes).map_err(alone)?;
    Ok(Record {
        tag,
        start: at + 32,
        bytes,
        value,
        content,
    })
}
