//! What the customer's demands and requests say of the archive, through the safe functions of the `vof`
//! crate.

use crate::compare::Compare;
use crate::generate::{any_identifier, few_identifiers, identifier, primary, records, tag, ulid};
use crate::generate::{value, NAMES, ULIDS};
use crate::plain::identifier::Identifier;
use crate::plain::lookup::{current, versions, Version};
use crate::plain::pack::{read_pack, record, refusal};
use crate::plain::record::{read_delete, read_version};
use crate::random::Random;
use vof::{Entry, Tag, HEADER_LENGTH};

/// What was handed to the writer.
enum Written {
    Block(Vec<u8>),
    Version(Vec<u8>),
    Delete(Vec<u8>),
    PackList(Vec<u8>),
    DeleteOf(Vec<u8>),
}

fn write(buffer: &mut [u8], used: usize, identifier: &Identifier, written: &Written) -> usize {
    let composite = identifier.to_text();
    let count = match written {
        Written::Block(data) => vof::write_block(buffer, used, &composite, data),
        Written::Version(part) => vof::write_version(buffer, used, part),
        Written::Delete(part) => vof::write_delete(buffer, used, part),
        Written::PackList(part) => vof::write_pack_list(buffer, used, part),
        Written::DeleteOf(by) => vof::write_delete_of(buffer, used, &composite, by),
    };
    count.unwrap()
}

fn any_written(random: &mut Random, identifier: &Identifier) -> Written {
    match random.below(5) {
        0 => {
            let length = random.below(300);
            Written::Block(random.bytes(length))
        }
        1 => Written::Version(primary(random, b"vr", identifier)),
        2 => Written::Delete(primary(random, b"vd", identifier)),
        3 => Written::PackList(primary(random, b"ol", identifier)),
        _ => Written::DeleteOf(ulid(random)),
    }
}

/// Lists of records, written, are scanned and read as these lists.
pub fn read_back(compare: &mut Compare, random: &mut Random) {
    random.faults = false;
    let mut buffer = vec![0; 1 << 16];
    for _ in 0..10_000 {
        let list: Vec<(Identifier, Written)> = (0..random.below(8))
            .map(|_| {
                let identifier = any_identifier(random);
                let written = any_written(random, &identifier);
                (identifier, written)
            })
            .collect();
        let mut starts = vec![0];
        for (identifier, written) in &list {
            let used = starts[starts.len() - 1];
            starts.push(write(&mut buffer, used, identifier, written));
        }
        let pack = &buffer[..starts[list.len()]];
        compare.inputs += 1;
        let entries = vof::scan(pack).unwrap();
        compare.hold("the scan counts", &[pack], entries.len() == list.len());
        for (index, (identifier, written)) in list.iter().enumerate() {
            let record = &pack[starts[index]..starts[index + 1]];
            let entry = entries[index];
            let placed = entry.start as usize == starts[index]
                && entry.value_length as usize == record.len() - 32;
            compare.hold("the entry", &[pack], placed);
            let same = reads_as(pack, entry, identifier, written);
            compare.hold("the record reads back", &[record], same);
        }
    }
}

fn reads_as(pack: &[u8], entry: Entry, identifier: &Identifier, written: &Written) -> bool {
    let record = vof::record(pack, entry.start).unwrap();
    let (part, secondary) = (record.primary, record.secondary);
    let value = vof::Value {
        structure_version: 0,
        primary: part,
        secondary,
    };
    let parts = vof::value(record.value) == Ok(value) && record.tag == entry.tag;
    let plain = part.compression == 0 && !part.is_encrypted;
    let named = record.identifier.composite() == identifier.to_text();
    let content = match written {
        Written::Block(data) => {
            record.tag == Tag::Block
                && secondary.is_some_and(|part| part.bytes == data)
                && record.delete_ulid.is_none()
        }
        Written::Version(given) => {
            record.tag == Tag::Version
                && part.bytes == given
                && secondary.is_none()
                && record.is_delete_marker == read_version(given).unwrap().deleted
        }
        Written::Delete(given) => {
            let by = read_delete(given).unwrap().delete_ulid.unwrap();
            record.tag == Tag::VersionDelete
                && part.bytes == given
                && secondary.is_none()
                && record.delete_ulid == Some(by.bytes)
        }
        Written::PackList(given) => {
            record.tag == Tag::PackList
                && part.bytes == given
                && secondary.is_none()
                && record.delete_ulid.is_none()
        }
        Written::DeleteOf(by) => {
            record.tag == Tag::VersionDelete
                && secondary.is_none()
                && record.delete_ulid == Some(by)
        }
    };
    parts && plain && named && content
}

/// A pack cut at every byte, which request 11 asks for.
pub fn fronts(compare: &mut Compare, random: &mut Random) {
    random.faults = false;
    for _ in 0..40 {
        let list = records(random, 4);
        let pack = list.concat();
        let all = vof::scan(&pack).unwrap();
        compare.hold("the pack is accepted", &[&pack], all.len() == list.len());
        for end in 0..=pack.len() {
            compare.inputs += 1;
            front(compare, &pack[..end], &all);
        }
    }
}

/// Between records the front is accepted with the entries before the cut, otherwise it is refused at the
/// start of the broken record.
fn front(compare: &mut Compare, front: &[u8], all: &[Entry]) {
    let end = front.len();
    let last = |entry: &Entry| entry.start as usize + HEADER_LENGTH + entry.value_length as usize;
    let before = all.iter().take_while(|entry| last(entry) <= end).count();
    let broken = all.get(before).map(|entry| entry.start as usize);
    let answer = match broken.filter(|&start| start < end) {
        Some(start) if end - start < HEADER_LENGTH => Err(refusal(2, start)),
        Some(start) => Err(refusal(7, start)),
        None => Ok(all[..before].to_vec()),
    };
    compare.hold("the scan of a front", &[front], vof::scan(front) == answer);
}

/// An answer of the lookup as demand 3 compares it: where the record stands plays no part.
type Answer = Option<(Vec<u8>, bool, Vec<u8>)>;

fn answer(pack: &[u8], name: &Identifier) -> Answer {
    let found = vof::current(pack, &name.bucket, &name.object).unwrap();
    found.map(|found| {
        let ulid = found.identifier.ulid().to_vec();
        (ulid, found.is_delete_marker, found.value.to_vec())
    })
}

fn plain_answer(pack: &[u8], name: &Identifier) -> Answer {
    let found = current(pack, &name.bucket, &name.object).unwrap();
    found.map(|found| (found.identifier.ulid, found.deleted, found.value.to_vec()))
}

/// Identifiers of every object in the pack, and of some that may not be.
fn names(pack: &[u8]) -> Vec<Identifier> {
    let (versions, gone) = versions(pack).unwrap();
    let there = versions.into_iter().map(|version| version.identifier);
    let others = NAMES.map(|(bucket, object)| identifier(ULIDS[0], bucket, object));
    let gone = gone.into_iter().map(|(_, identifier)| identifier);
    let mut names: Vec<Identifier> = there.chain(gone).chain(others).collect();
    names.sort_by(|a, b| (&a.bucket, &a.object).cmp(&(&b.bucket, &b.object)));
    names.dedup_by(|a, b| (&a.bucket, &a.object) == (&b.bucket, &b.object));
    names
}

/// The pack without the version records of an identifier.
fn without(pack: &[u8], identifier: &Identifier) -> Vec<u8> {
    let (versions, _) = versions(pack).unwrap();
    let mut left = Vec::new();
    for (start, _, value) in read_pack(pack).unwrap() {
        let taken = |version: &Version| version.start == start && version.identifier == *identifier;
        if !versions.iter().any(taken) {
            left.extend(&pack[start..start + 32 + value.len()]);
        }
    }
    left
}

pub fn deletions_and_orders(compare: &mut Compare, random: &mut Random) {
    random.faults = false;
    for _ in 0..4_000 {
        let list = match random.once_in(2) {
            true => records(random, 10),
            false => equal_if_same(random),
        };
        let pack = list.concat();
        let (versions, _) = versions(&pack).unwrap();
        let gone = match versions.is_empty() || random.once_in(3) {
            true => few_identifiers(random),
            false => versions[random.below(versions.len())].identifier.clone(),
        };
        deletion(compare, random, &pack, &gone);
        order(compare, random, list);
    }
}

/// Deletes at the end, in both ways.
fn deletion(compare: &mut Compare, random: &mut Random, pack: &[u8], gone: &Identifier) {
    let before = without(pack, gone);
    let made = Written::DeleteOf(ulid(random));
    let handed_in = Written::Delete(primary(random, b"vd", gone));
    for written in [made, handed_in] {
        let mut buffer = [pack, &[0; 4096]].concat();
        let count = write(&mut buffer, pack.len(), gone, &written);
        let after = &buffer[..count];
        compare.inputs += 1;
        compare.hold("the pack stays in front", &[pack], after.starts_with(pack));
        for name in names(after) {
            let same = answer(after, &name) == plain_answer(&before, &name);
            compare.hold("a deletion takes out its version alone", &[after], same);
        }
    }
}

/// Records of which version records that share an identifier have equal values.
fn equal_if_same(random: &mut Random) -> Vec<Vec<u8>> {
    let mut list: Vec<Vec<u8>> = Vec::new();
    let mut identifiers: Vec<Identifier> = Vec::new();
    for _ in 0..random.below(10) {
        let (tag, identifier) = (tag(random), few_identifiers(random));
        if tag == *b"vr" {
            if let Some(same) = identifiers.iter().position(|other| *other == identifier) {
                let again = list[same].clone();
                list.push(again);
                identifiers.push(identifier);
                continue;
            }
        }
        let part = primary(random, &tag, &identifier);
        list.push(record(tag, &value(random, part)));
        identifiers.push(identifier);
    }
    list
}

/// Shuffles, and compares the answers where version records that share an identifier have equal values.
fn order(compare: &mut Compare, random: &mut Random, mut list: Vec<Vec<u8>>) {
    let pack = list.concat();
    let (versions, _) = versions(&pack).unwrap();
    let equal = versions.iter().all(|version| {
        let same = versions
            .iter()
            .find(|other| other.identifier == version.identifier);
        same.is_none_or(|other| other.value == version.value)
    });
    random.shuffle(&mut list);
    let shuffled = list.concat();
    for name in names(&pack) {
        compare.object(&shuffled, &name.bucket, &name.object);
        if equal {
            let same = answer(&shuffled, &name) == answer(&pack, &name);
            compare.hold("the order plays no part", &[&pack, &shuffled], same);
        }
    }
}
