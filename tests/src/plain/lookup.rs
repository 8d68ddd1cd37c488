//! The current version of an object, and why it is current.

use super::identifier::{is_name, Identifier};
use super::pack::{read_pack, refusal};
use super::record::read_record;
use vof::Refusal;

/// A version record.
#[derive(Clone, Debug, PartialEq)]
pub struct Version<'a> {
    pub identifier: Identifier,
    pub deleted: bool,
    pub start: usize,
    pub value: &'a [u8],
}

pub fn current<'a>(
    pack: &'a [u8],
    bucket: &[u8],
    object: &[u8],
) -> Result<Option<Version<'a>>, Refusal> {
    if !is_name(bucket, object) {
        return Err(Refusal {
            number: 20,
            place: None,
            because: None,
        });
    }
    let (versions, gone) = versions(pack)?;
    let mut best: Option<Version> = None;
    for version in versions {
        let named = version.identifier.bucket == bucket && version.identifier.object == object;
        if !named || gone.iter().any(|(_, it)| *it == version.identifier) {
            continue;
        }
        // Of equals the earliest stays.
        match &best {
            Some(so_far) if so_far.identifier.ulid >= version.identifier.ulid => {}
            _ => best = Some(version),
        }
    }
    Ok(best)
}

/// Start, reason and place of each version record of the name.
pub fn explain(pack: &[u8], bucket: &[u8], object: &[u8]) -> Result<Vec<[u64; 3]>, Refusal> {
    let current = current(pack, bucket, object)?.map(|version| version.start);
    let (versions, gone) = versions(pack)?;
    let mut lines = Vec::new();
    for version in &versions {
        let name = &version.identifier;
        if name.bucket != bucket || name.object != object {
            continue;
        }
        let removed = gone.iter().find(|(_, it)| it == name);
        // The version itself is among them.
        let first = versions.iter().find(|it| it.identifier == *name).unwrap();
        let (reason, place) = match (removed, current) {
            (Some((deletion, _)), _) => (4, *deletion),
            (None, _) if first.start < version.start => (3, first.start),
            (None, Some(start)) if start != version.start => (2, start),
            (None, _) => (u64::from(version.deleted), version.start),
        };
        lines.push([version.start as u64, reason, place as u64]);
    }
    Ok(lines)
}

/// Where a deletion starts, and the identifier that it names.
type Deletion = (usize, Identifier);

/// All version records and all deletions, in order.
pub fn versions(pack: &[u8]) -> Result<(Vec<Version<'_>>, Vec<Deletion>), Refusal> {
    let (mut versions, mut gone) = (Vec::new(), Vec::new());
    for (start, tag, value) in read_pack(pack)? {
        if tag != *b"vr" && tag != *b"vd" {
            continue;
        }
        let (_, content) = read_record(tag, value).map_err(|number| refusal(number, start))?;
        if tag == *b"vd" {
            gone.push((start, content.identifier));
            continue;
        }
        versions.push(Version {
            identifier: content.identifier,
            deleted: content.deleted,
            start,
            value,
        });
    }
    Ok((versions, gone))
}
