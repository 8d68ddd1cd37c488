//! Pack lists, and the blocks found in them.

use super::forms::{every_map, every_second, near_powers, pairs_of, with_other};
use crate::compare::Compare;
use crate::encode::{integer_forms, item_from, map, text, Tree};
use crate::generate::{any_identifier, edge, few_identifiers, primary, ULIDS};
use crate::plain::pack_list::read_pack_list;
use crate::plain::writer::with_primary;
use crate::random::Random;

const IDENTIFIER: &str = "00000000000000000000000001:herd/k";

/// The part by itself, at these bytes of the version, as a record, and written.
pub fn read(compare: &mut Compare, part: &[u8], bytes: &[u64]) {
    compare.pack_list(part);
    for &byte in bytes {
        compare.find_block(part, byte);
    }
    compare.record(&with_primary(b"ol", part), 0);
    compare.write_pack_list(0, part);
}

/// Bytes at and near the ends of each source range, and inside it.
fn bytes(random: &mut Random, part: &[u8]) -> Vec<u64> {
    let mut bytes = vec![0, edge(random), u64::MAX];
    let Ok(list) = read_pack_list(part) else {
        return bytes;
    };
    for source in list.entries.iter().map(|entry| entry.source) {
        let end = source.start + source.length;
        bytes.extend([source.start.wrapping_sub(1), source.start]);
        bytes.extend([end.wrapping_sub(1), end]);
        for _ in 0..6 {
            let offset = match random.once_in(3) {
                true => random.next(),
                false => random.below(100) as u64,
            };
            bytes.push(source.start + offset % source.length.max(1));
        }
    }
    bytes
}

pub fn lists(compare: &mut Compare, random: &mut Random) {
    for _ in 0..20_000 {
        random.faults = random.once_in(2);
        let identifier = match random.once_in(10) {
            true => any_identifier(random),
            false => few_identifiers(random),
        };
        let part = primary(random, b"ol", &identifier);
        let bytes = bytes(random, &part);
        read(compare, &part, &bytes);
    }
}

pub fn damaged(compare: &mut Compare, random: &mut Random) {
    random.faults = false;
    for _ in 0..60 {
        let identifier = few_identifiers(random);
        let part = primary(random, b"ol", &identifier);
        for at in 0..part.len() {
            let mut changed = part.clone();
            changed[at] = match random.below(3) {
                0 => random.byte(),
                1 => random.of(&[0xC0, 0xC1, 0x80, 0x90, 0xA0, 0x00, 0xFF, 0xCF, 0xD3]),
                _ => part[at] ^ 1 << random.below(8),
            };
            for part in [&changed, &part[..at]] {
                let bytes = bytes(random, part);
                read(compare, part, &bytes[..bytes.len().min(8)]);
            }
        }
        read(compare, &[&part[..], b"\x00"].concat(), &[0]);
    }
}

fn range(start: i128, length: i128) -> Tree {
    map([("s", Tree::Integer(start)), ("l", Tree::Integer(length))])
}

fn integers(numbers: &[i128]) -> Tree {
    Tree::List(numbers.iter().copied().map(Tree::Integer).collect())
}

/// 36 bytes from byte 5 on in 3 blocks.
fn pairs() -> Vec<(Tree, Tree)> {
    pairs_of(map([
        ("p", text(ULIDS[3])),
        ("o", range(5, 36)),
        ("t", range(7, 303)),
        ("E", integers(&[101, 101])),
        ("N", integers(&[1, -2])),
    ]))
}

pub fn good() -> Tree {
    Tree::Map(pairs())
}

fn list(entries: Vec<Tree>) -> Tree {
    map([("I", text(IDENTIFIER)), ("P", Tree::List(entries))])
}

/// The entry with this under the key that has this place.
fn with(at: usize, value: Tree) -> Tree {
    let mut pairs = pairs();
    pairs[at].1 = value;
    Tree::Map(pairs)
}

/// A list with an entry of the pack that has this ULID.
pub fn of_pack(ulid: &[u8]) -> Vec<u8> {
    list(vec![with(0, Tree::Text(ulid.to_vec()))]).shortest()
}

/// Lists that have an item where nobody looks: in an entry and in a range, as a key and as a value.
pub fn with_inside(item: &Tree) -> Vec<Tree> {
    let mut parts = Vec::new();
    for pair in [(text("x"), item.clone()), (item.clone(), Tree::Nil)] {
        let more = |pairs: Vec<(Tree, Tree)>| Tree::Map([pairs, vec![pair.clone()]].concat());
        parts.push(list(vec![good(), more(pairs())]));
        for at in [1, 2] {
            parts.push(list(vec![with(at, more(pairs_of(range(5, 303))))]));
        }
    }
    parts
}

pub fn orders(compare: &mut Compare, _: &mut Random) {
    let values = pairs().into_iter().map(|(_, value)| value.shortest());
    let entry: Vec<(&str, Vec<u8>)> = ["p", "o", "t", "E", "N"].into_iter().zip(values).collect();
    let mut read_entry = |entry: Tree| compare.pack_list(&list(vec![entry]).shortest());
    every_map(&entry, |entry| read_entry(Tree::Raw(entry.to_vec())));
    let range = [("s", vec![3]), ("l", vec![0xCD, 1, 47])];
    for at in [1, 2] {
        every_map(&range, |range| {
            read_entry(with(at, Tree::Raw(range.to_vec())))
        });
    }
    let part = [
        ("I", text(IDENTIFIER).shortest()),
        ("P", Tree::List(vec![good(), good()]).shortest()),
        ("U", vec![0xC0]),
    ];
    every_map(&part, |part| read(compare, part, &[5, 40]));
}

/// Every type in place of each value, entry and number, and each key twice.
pub fn keys(compare: &mut Compare, random: &mut Random) {
    let range = pairs_of(range(3, 303));
    let mut read_entries = |entries: Vec<Tree>| read(compare, &list(entries).shortest(), &[5]);
    for first in 0..=255 {
        let other = Tree::Raw(item_from(first, random));
        read_entries(vec![other.clone()]);
        read_entries(vec![good(), other.clone()]);
        for at in 0..5 {
            for entry in with_other(&pairs(), at, &other) {
                read_entries(vec![entry]);
            }
        }
        for at in [1, 2] {
            for inner in 0..2 {
                for range in with_other(&range, inner, &other) {
                    read_entries(vec![with(at, range)]);
                }
            }
        }
        for at in [3, 4] {
            read_entries(vec![with(at, Tree::List(vec![other.clone()]))]);
            let numbers = vec![Tree::Integer(1), other.clone(), Tree::Integer(0)];
            read_entries(vec![with(at, Tree::List(numbers))]);
        }
    }
    every_second(&pairs(), |entry| {
        read_entries(vec![good(), Tree::Map(entry)])
    });
    for at in [1, 2] {
        every_second(&range, |range| {
            read_entries(vec![with(at, Tree::Map(range))])
        });
    }
}

/// Numbers at both ends of 64 bits, and in the middle.
const ENDS: [i128; 8] = [
    0,
    1,
    5,
    (1 << 63) - 1,
    1 << 63,
    (1 << 63) + 1,
    (1 << 64) - 2,
    (1 << 64) - 1,
];

pub fn numbers(compare: &mut Compare, random: &mut Random) {
    let mut read_entries = |entries: &[Tree]| {
        let part = list(entries.to_vec()).shortest();
        let bytes = bytes(random, &part);
        compare.pack_list(&part);
        for byte in bytes {
            compare.find_block(&part, byte);
        }
    };
    for a in ENDS {
        for b in ENDS {
            read_entries(&[with(1, range(a, b))]);
            read_entries(&[with(2, range(a, b))]);
            for c in ENDS {
                read_entries(&[entry(9, c, &[a, b], &[])]);
            }
        }
    }
    let signed = |number: i128| [number, -number.min(1 << 63)];
    for a in ENDS.into_iter().flat_map(signed) {
        for b in ENDS.into_iter().flat_map(signed) {
            for c in ENDS {
                for lengths in [&[][..], &[0], &[0, 7]] {
                    let entry = entry(c, 9, lengths, &[a, b]);
                    read_entries(&[entry.clone(), good()]);
                    read_entries(&[entry]);
                }
            }
        }
    }
    for form in near_powers().into_iter().flat_map(integer_forms) {
        for at in [1, 2] {
            for key in ["s", "l"] {
                read_entries(&[with(at, map([(key, Tree::Raw(form.clone()))]))]);
            }
        }
        for at in [3, 4] {
            read_entries(&[with(at, Tree::List(vec![Tree::Raw(form.clone())]))]);
        }
    }
}

/// An entry with ranges of these lengths from 0 on, and these lists.
fn entry(source: i128, stored: i128, lengths: &[i128], deltas: &[i128]) -> Tree {
    map([
        ("p", text(ULIDS[4])),
        ("o", range(0, source)),
        ("t", range(0, stored)),
        ("E", integers(lengths)),
        ("N", integers(deltas)),
    ])
}
