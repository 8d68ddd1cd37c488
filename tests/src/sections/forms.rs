//! MessagePack in values and primary parts: every order, width, type, depth and length.

use crate::compare::Compare;
use crate::encode::{
    bytes_heads, extension_heads, integer_forms, item_from, list_heads, map, map_heads, text,
    text_heads, Tree,
};
use crate::generate::ULIDS;
use crate::plain::pack::record;
use crate::plain::writer::with_primary;
use crate::random::Random;
use crate::sections::pack_lists;
use std::slice;

/// All orders of the numbers below `count`.
fn orders(count: usize) -> Vec<Vec<usize>> {
    if count == 0 {
        return vec![Vec::new()];
    }
    let insert = |order: Vec<usize>| {
        (0..count).map(move |at| {
            let mut order = order.clone();
            order.insert(at, count - 1);
            order
        })
    };
    orders(count - 1).into_iter().flat_map(insert).collect()
}

/// A map of these pairs in every order, and each key in every width of text.
pub fn every_map(pairs: &[(&str, Vec<u8>)], mut use_map: impl FnMut(&[u8])) {
    let forms: Vec<Vec<Vec<u8>>> = pairs
        .iter()
        .map(|(key, value)| {
            let heads = text_heads(key.len() as u64);
            let pair = |head: Vec<u8>| [&head, key.as_bytes(), value].concat();
            heads.into_iter().map(pair).collect()
        })
        .collect();
    let heads = map_heads(pairs.len() as u64);
    for order in orders(pairs.len()) {
        for widths in 0..4usize.pow(pairs.len() as u32) {
            let mut bytes = heads[widths % heads.len()].clone();
            for &key in &order {
                bytes.extend(&forms[key][widths >> (2 * key) & 3]);
            }
            use_map(&bytes);
        }
    }
}

pub fn header_orders(compare: &mut Compare, _: &mut Random) {
    let pairs = [
        ("e", b"\xc4\x02pp".to_vec()),
        ("s", b"\x91\x81\xa1l\x03".to_vec()),
        ("c", vec![1]),
        ("z", vec![0xC0]),
        ("v", vec![2]),
    ];
    every_map(&pairs, |header| compare.value(&[header, b"abc"].concat()));
    let pairs = [("l", vec![3]), ("c", vec![4]), ("z", vec![0x90])];
    every_map(&pairs, |second| {
        let header = [b"\x82\xa1e\xc4\x01p\xa1s\x91", second].concat();
        compare.value(&[&header[..], b"abc"].concat());
    });
}

pub fn primary_orders(compare: &mut Compare, random: &mut Random) {
    let mut form = |content: &str| text(content).any_form(random);
    let pairs = [
        ("b", form("herd")),
        ("o", form("list/2")),
        ("v", form(ULIDS[3])),
        ("d", vec![0xC3]),
        ("???", form(ULIDS[0])),
    ];
    let (names, marker, by) = (
        &pairs[..3],
        &pairs[..4],
        [&pairs[..3], &pairs[4..]].concat(),
    );
    let mut read = |tag: &[u8; 2], primary: &[u8]| {
        let pack = with_primary(tag, primary);
        compare.record(&pack, 0);
        compare.object(&pack, b"herd", b"list/2");
    };
    every_map(marker, |part| read(b"vr", part));
    every_map(&by, |part| read(b"vd", part));
    every_map(names, |identifier| {
        every_map(&[("I", identifier.to_vec())], |part| read(b"bk", part));
    });
}

pub fn unknown_keys(compare: &mut Compare, random: &mut Random) {
    let keys = primary_pairs();
    for key in 0..=255 {
        for value in 0..=255 {
            let pair = [item_from(key, random), item_from(value, random)].concat();
            compare.value(&[b"\x82", &pair[..], b"\xa1e\xc4\x01p"].concat());
            if value % 16 == key % 16 {
                let odd = (Tree::Raw(pair), Tree::Raw(Vec::new()));
                for tag in [b"bk", b"vr", b"vd", b"ol"] {
                    let mut pairs = keys.clone();
                    pairs.insert(random.below(pairs.len() + 1), odd.clone());
                    primary(compare, tag, Tree::Map(pairs));
                }
            }
        }
    }
}

/// Keys of a primary part that reads under each tag.
fn primary_pairs() -> Vec<(Tree, Tree)> {
    pairs_of(map([
        ("b", text("herd")),
        ("o", text("list")),
        ("v", text(ULIDS[3])),
        ("d", Tree::Boolean(true)),
        ("???", text(ULIDS[4])),
        ("I", text("00000000000000000000000001:herd/k")),
        ("P", Tree::List(vec![pack_lists::good()])),
    ]))
}

pub fn pairs_of(map: Tree) -> Vec<(Tree, Tree)> {
    match map {
        Tree::Map(pairs) => pairs,
        _ => Vec::new(),
    }
}

fn primary(compare: &mut Compare, tag: &[u8; 2], primary: Tree) {
    let pack = with_primary(tag, &primary.shortest());
    compare.record(&pack, 0);
    compare.object(&pack, b"herd", b"list");
    match tag {
        b"vr" => compare.write_version(0, &primary.shortest()),
        b"vd" => compare.write_delete(0, &primary.shortest()),
        b"ol" => pack_lists::read(compare, &primary.shortest(), &[0]),
        _ => {}
    }
}

/// The pairs with one key's value replaced, and with the key a second time, before and after.
pub fn with_other(pairs: &[(Tree, Tree)], at: usize, other: &Tree) -> [Tree; 3] {
    let pair = (pairs[at].0.clone(), other.clone());
    let mut replaced = pairs.to_vec();
    replaced[at] = pair.clone();
    let before = [slice::from_ref(&pair), pairs].concat();
    let after = [pairs, &[pair]].concat();
    [replaced, before, after].map(Tree::Map)
}

pub fn known_keys(compare: &mut Compare, random: &mut Random) {
    for first in 0..=255 {
        for _ in 0..3 {
            let other = Tree::Raw(item_from(first, random));
            known_header_keys(compare, &other);
            known_primary_keys(compare, &other);
        }
    }
}

/// Keys of a header with this list in `s`.
fn header(s: Vec<Tree>) -> Vec<(Tree, Tree)> {
    pairs_of(map([
        ("e", Tree::Bytes(b"pp".to_vec())),
        ("s", Tree::List(s)),
        ("c", Tree::Integer(1)),
        ("z", Tree::Nil),
        ("v", Tree::Integer(0)),
    ]))
}

/// Keys of a map in `s`, for three bytes of data.
fn second_pairs() -> Vec<(Tree, Tree)> {
    pairs_of(map([
        ("l", Tree::Integer(3)),
        ("c", Tree::Integer(2)),
        ("z", Tree::Nil),
    ]))
}

fn known_header_keys(compare: &mut Compare, other: &Tree) {
    let second = second_pairs();
    let mut value = |header: Tree| {
        let header = header.shortest();
        for rest in [&b"abc"[..], b""] {
            compare.value(&[&header, rest].concat());
        }
    };
    for at in 0..5 {
        for map in with_other(&header(vec![Tree::Map(second.clone())]), at, other) {
            value(map);
        }
    }
    for at in 0..3 {
        for map in with_other(&second, at, other) {
            value(Tree::Map(header(vec![map])));
        }
    }
    let (second, other) = (Tree::Map(second), other.clone());
    value(other.clone());
    for s in [
        vec![],
        vec![other.clone()],
        vec![second.clone(), second.clone()],
        vec![second.clone(), other.clone()],
        vec![other, second],
    ] {
        value(Tree::Map(header(s)));
    }
}

fn known_primary_keys(compare: &mut Compare, other: &Tree) {
    let pairs = primary_pairs();
    for tag in [b"bk", b"vr", b"vd", b"ol"] {
        for at in 0..pairs.len() {
            for map in with_other(&pairs, at, other) {
                primary(compare, tag, map);
            }
        }
        primary(compare, tag, other.clone());
        let more = [other.shortest(), vec![0]].concat();
        primary(compare, tag, Tree::Raw(more));
    }
    for at in 0..3 {
        for identifier in with_other(&pairs[..3], at, other) {
            primary(compare, b"bk", map([("I", identifier.clone())]));
            primary(compare, b"ol", map([("I", identifier)]));
        }
    }
}

/// A map of these pairs with one of its keys twice: the second at every place, with the value of
/// every key, and both in every two widths.
pub fn every_second(pairs: &[(Tree, Tree)], mut use_map: impl FnMut(Vec<(Tree, Tree)>)) {
    for (key, _) in pairs {
        for (_, value) in pairs {
            for at in 0..=pairs.len() {
                for widths in 0..16 {
                    let wide =
                        |(key, value): &(Tree, Tree)| (in_width(key, widths % 4), value.clone());
                    let mut map: Vec<(Tree, Tree)> = pairs.iter().map(wide).collect();
                    map.insert(at, (in_width(key, widths / 4), value.clone()));
                    use_map(map);
                }
            }
        }
    }
}

fn in_width(key: &Tree, width: usize) -> Tree {
    Tree::Raw(key.encode(&mut |_| width))
}

pub fn keys_twice(compare: &mut Compare, _: &mut Random) {
    let second = second_pairs();
    let mut value = |header: Vec<(Tree, Tree)>| {
        compare.value(&[&Tree::Map(header).shortest()[..], b"abc"].concat());
    };
    every_second(&header(vec![Tree::Map(second.clone())]), &mut value);
    every_second(&second, |second| value(header(vec![Tree::Map(second)])));
    let pairs = primary_pairs();
    for tag in [b"bk", b"vr", b"vd", b"ol"] {
        every_second(&pairs, |part| primary(compare, tag, Tree::Map(part)));
    }
    every_second(&pairs[..3], |identifier| {
        let part = map([("I", Tree::Map(identifier))]);
        primary(compare, b"bk", part.clone());
        primary(compare, b"ol", part);
    });
}

/// Containers of one item or pair, in every width: what comes before the next container, and after it.
/// A map goes on in its key, or behind a key in its value.
const FORMS: [(&[u8], &[u8]); 9] = [
    (b"\x91", b""),
    (b"\xdc\x00\x01", b""),
    (b"\xdd\x00\x00\x00\x01", b""),
    (b"\x81", b"\x00"),
    (b"\xde\x00\x01", b"\x00"),
    (b"\xdf\x00\x00\x00\x01", b"\x00"),
    (b"\x81\xa1x", b""),
    (b"\xde\x00\x01\xc0", b""),
    (b"\xdf\x00\x00\x00\x01\xd4\x05\x00", b""),
];

pub fn nesting(compare: &mut Compare, _: &mut Random) {
    for (before, after) in FORMS {
        for around in (0..20).chain([33, 64]) {
            let deep = [before.repeat(around), vec![0x90], after.repeat(around)].concat();
            compare.item(&deep);
            nested_values(compare, &deep);
            nested_primaries(compare, &Tree::Raw(deep));
        }
    }
}

fn nested_values(compare: &mut Compare, deep: &[u8]) {
    let broken = b"\xc1";
    let e = &b"\xa1e\xc4\x01p"[..];
    for value in [
        deep.to_vec(),
        [b"\x82\xa1x", deep, e].concat(),
        [&b"\x82"[..], e, deep, b"\x00"].concat(),
        [&b"\x82"[..], e, b"\xa1z", deep].concat(),
        [&b"\x82"[..], e, b"\xa1s\x91\x82\xa1l\x00\xa1x", deep].concat(),
        [&b"\x82"[..], e, b"\xa1s", deep].concat(),
        [b"\x82\xa1x", &broken[..], b"\xa1y", deep].concat(),
        [b"\x82\xa1x", deep, b"\xa1y", broken].concat(),
    ] {
        for end in 0..=value.len() {
            compare.value(&value[..end]);
        }
        compare.value(&[&value[..], b"\x00"].concat());
        for tag in [b"bk", b"vr", b"vd", b"ol", b"xx"] {
            let pack = record(*tag, &value);
            compare.record(&pack, 0);
            compare.object(&pack, b"herd", b"list");
        }
    }
}

fn nested_primaries(compare: &mut Compare, deep: &Tree) {
    let pairs = primary_pairs();
    let identifier = [&pairs[..3], &[(text("x"), deep.clone())]].concat();
    for tag in [b"bk", b"vr", b"vd", b"ol"] {
        let value = [&pairs[..], &[(text("x"), deep.clone())]].concat();
        let key = [&[(deep.clone(), Tree::Nil)], &pairs[..]].concat();
        primary(compare, tag, Tree::Map(value));
        primary(compare, tag, Tree::Map(key));
        primary(compare, tag, deep.clone());
        primary(compare, tag, map([("I", Tree::Map(identifier.clone()))]));
    }
    for part in pack_lists::with_inside(deep) {
        primary(compare, b"ol", part);
    }
}

/// The numbers within two of each power of two up to 2^64, and their negatives.
pub fn near_powers() -> Vec<i128> {
    let near = |power: u32| (-2..=2).map(move |more| (1i128 << power) + more);
    let numbers: Vec<i128> = (0..=64).flat_map(near).collect();
    let negatives = numbers.iter().map(|number| -number);
    numbers.iter().copied().chain(negatives).collect()
}

pub fn integers(compare: &mut Compare, _: &mut Random) {
    for number in near_powers() {
        // What does not fit an integer has no form.
        for form in integer_forms(number) {
            compare.item(&form);
            let form = Tree::Raw(form);
            let e = ("e", Tree::Bytes(b"p".to_vec()));
            let second = |key| {
                let pairs = map([("l", Tree::Integer(0)), (key, form.clone())]);
                map([e.clone(), ("s", Tree::List(vec![pairs]))])
            };
            let headers = [
                map([e.clone(), ("c", form.clone())]),
                map([e.clone(), ("v", form.clone())]),
                second("c"),
                second("l"),
                form.clone(),
            ];
            for header in headers {
                let header = header.shortest();
                compare.value(&header);
                let rest = number.clamp(0, 300) as usize;
                compare.value(&[header.clone(), vec![0; rest]].concat());
                compare.record(&record(*b"bk", &header), 0);
            }
        }
    }
}

/// Every first byte, with what may follow it, and with nothing.
pub fn first_bytes(compare: &mut Compare, random: &mut Random) {
    for first in 0..=255 {
        compare.item(&[first]);
        for length in [1, 2, 5, 9, 40, 600] {
            let content: Vec<u8> = (0..length).map(|_| random.byte() % 128).collect();
            compare.item(&[&[first], &content[..]].concat());
            compare.item(&[&[first], &vec![0; length][..]].concat());
            compare.item(&[&[first], &vec![0xFF; length][..]].concat());
        }
    }
    compare.item(b"");
}

pub fn item_lengths(compare: &mut Compare, random: &mut Random) {
    for length in near_powers() {
        let Ok(length) = u32::try_from(length) else {
            continue;
        };
        let count = u64::from(length);
        // How many bytes follow the head, at the least, for each of what it counts.
        for (heads, scale, more) in [
            (text_heads(count), 1, 0),
            (bytes_heads(count), 1, 0),
            (extension_heads(count), 1, 1),
            (list_heads(count), 1, 0),
            (map_heads(count), 2, 0),
        ] {
            let needed = scale * count + more;
            for head in heads {
                item_length(compare, random, &head, needed);
            }
        }
    }
}

/// An item with this head, and with what it needs or too little or more.
fn item_length(compare: &mut Compare, random: &mut Random, head: &[u8], needed: u64) {
    let lengths = [0, 1, 7, needed - needed.min(1), needed, needed + 1];
    for length in lengths.into_iter().filter(|&length| length < 1 << 17) {
        let content: Vec<u8> = (0..length).map(|_| random.byte() % 128).collect();
        let item = [head, &content].concat();
        compare.item(&item);
        compare.value(&item);
        compare.value(&[b"\x81\xa1e", &item[..]].concat());
        compare.value(&[b"\x82\xa1e\xc4\x01p\xa1x", &item[..]].concat());
        let primary = [b"\x81\xa1I", &item[..]].concat();
        compare.record(&with_primary(b"bk", &primary), 0);
    }
}
