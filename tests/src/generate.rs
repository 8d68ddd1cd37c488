//! Names, primary parts, values and records by chance; wrong ones too where `Random::faults` is set.

use crate::encode::{any_item, text, Tree};
use crate::plain::identifier::{Identifier, ALPHABET};
use crate::plain::pack::{header, record_with};
use crate::plain::xxh64::xxh64;
use crate::random::Random;

pub const ULIDS: [&str; 5] = [
    "00000000000000000000000001",
    "00000000000000000000000009",
    "0000000000000000000000000A",
    "7YF1QTCNCDN7FYSQFD2PFH2DCS",
    "7ZZZZZZZZZZZZZZZZZZZZZZZZZ",
];

/// Names that a wrong split or a wrong comparison would mix up.
pub const NAMES: [(&str, &str); 6] = [
    ("herd", "list"),
    ("herd", "list/2"),
    ("herd", "lis"),
    ("her", "dlist"),
    ("pen", "list"),
    ("h", "/"),
];

pub fn identifier(ulid: &str, bucket: &str, object: &str) -> Identifier {
    Identifier::new(ulid.as_bytes(), bucket.as_bytes(), object.as_bytes()).unwrap()
}

/// One of few, so that packs have several records of one identifier.
pub fn few_identifiers(random: &mut Random) -> Identifier {
    let (bucket, object) = random.of(&NAMES[..4]);
    identifier(random.of(&ULIDS), bucket, object)
}

/// One of few, so that a delete identifier is a version's too, or any.
pub fn ulid(random: &mut Random) -> Vec<u8> {
    match random.once_in(2) {
        true => random.of(&ULIDS).into(),
        false => (0..26)
            .map(|at| random.of(if at == 0 { &ALPHABET[..8] } else { ALPHABET }))
            .collect(),
    }
}

/// With lengths near the limits and near those where a text's head changes.
pub fn any_identifier(random: &mut Random) -> Identifier {
    let bucket = random.of(&[1, 2, 4, 31, 32, 62, 63]);
    let object = random.of(&[1, 2, 31, 32, 190, 227, 228, 255, 256, 1023, 1024]);
    let no_slash = |byte: u8| if byte == b'/' { b'_' } else { byte };
    Identifier {
        ulid: ulid(random),
        bucket: random.bytes(bucket).into_iter().map(no_slash).collect(),
        object: random.bytes(object),
    }
}

/// The text, seldom with a fault.
fn text_near(random: &mut Random, right: &[u8]) -> Tree {
    let mut bytes = right.to_vec();
    if !random.fault_in(12) {
        return Tree::Text(bytes);
    }
    match random.below(7) {
        0 => bytes.clear(),
        1 => bytes.push(random.byte()),
        2 => drop(bytes.pop()),
        3 => {
            let at = random.below(bytes.len());
            bytes[at] = random.byte();
        }
        4 => return any_item(random, 2),
        5 => return Tree::Bytes(bytes),
        _ => bytes = vec![b'x'; random.of(&[63, 64, 1024, 1025])],
    }
    Tree::Text(bytes)
}

/// Texts that are keys nowhere.
const UNKNOWN: [&str; 6] = ["", "S", "ee", "??", "????", "\0"];
const KNOWN: [&str; 16] = [
    "e", "s", "c", "z", "v", "l", "b", "o", "d", "I", "???", "P", "p", "t", "E", "N",
];

/// Pairs in an order by chance, with unknown keys between, once or twice; seldom with a fault.
fn any_map(random: &mut Random, mut pairs: Vec<(Tree, Tree)>) -> Tree {
    random.shuffle(&mut pairs);
    if random.fault_in(40) {
        pairs.pop();
    }
    for _ in 0..random.below(3) {
        let value = match random.fault_in(20) {
            true => lists(10 + random.below(10)),
            false => any_item(random, 3),
        };
        let (key, times) = match random.below(3) {
            0 if random.fault_in(4) && !pairs.is_empty() => {
                (pairs[random.below(pairs.len())].0.clone(), 1)
            }
            1 if random.faults => (text(random.of(&KNOWN)), 1),
            1 => (text(random.of(&UNKNOWN)), 1 + random.below(2)),
            _ => (odd_key(random), 1 + random.below(2)),
        };
        for _ in 0..times {
            let anywhere = random.below(pairs.len() + 1);
            pairs.insert(anywhere, (key.clone(), value.clone()));
        }
    }
    Tree::Map(pairs)
}

/// Lists nested this deep.
pub fn lists(depth: usize) -> Tree {
    Tree::Raw([vec![0x91; depth - 1], vec![0x90]].concat())
}

/// An item that is no text.
fn odd_key(random: &mut Random) -> Tree {
    match any_item(random, 2) {
        Tree::Raw(bytes) if matches!(bytes[0], 0xA0..=0xBF | 0xD9..=0xDB) => Tree::Nil,
        item => item,
    }
}

fn identifier_pairs(random: &mut Random, identifier: &Identifier) -> Vec<(Tree, Tree)> {
    vec![
        (text("b"), text_near(random, &identifier.bucket)),
        (text("o"), text_near(random, &identifier.object)),
        (text("v"), text_near(random, &identifier.ulid)),
    ]
}

/// A number of 64 bits: most often small, else near a power of two or the greatest.
pub fn edge(random: &mut Random) -> u64 {
    let near = random.below(5) as u64;
    match random.below(10) {
        0 => u64::MAX - near,
        1 => (1 << random.below(64)) + near,
        _ => random.below(60) as u64,
    }
}

/// An integer, seldom another item.
fn integer(random: &mut Random, number: i128) -> Tree {
    match random.fault_in(100) {
        true => any_item(random, 1),
        false => Tree::Integer(number),
    }
}

/// A range of this length that ends within 64 bits, seldom past them. A 0 may be left out.
fn range(random: &mut Random, length: u64) -> Tree {
    let room = u64::MAX - length;
    let start = match random.fault_in(40) {
        true => room.saturating_add(1),
        false => edge(random).min(room),
    };
    let mut pairs = Vec::new();
    for (key, number) in [("s", start), ("l", length)] {
        if number > 0 || random.once_in(2) {
            pairs.push((text(key), integer(random, i128::from(number))));
        }
    }
    any_map(random, pairs)
}

fn delta(random: &mut Random) -> i128 {
    match random.below(6) {
        0 => i128::from(edge(random)),
        1 => -i128::from(edge(random).min(1 << 63)),
        _ => random.below(9) as i128 - 4,
    }
}

/// An entry of a pack list whose blocks are most often of this stride.
fn entry(random: &mut Random, stride: usize) -> Tree {
    let (count, ulid) = (random.of(&[0, 0, 1, 2, 3, 16]), ulid(random));
    let source = match random.once_in(4) {
        true => edge(random),
        // The last block may be shorter.
        false => (count * stride + random.below(stride + 1)) as u64,
    };
    let stored = edge(random);
    let (mut left, mut lengths) = (stored, Vec::new());
    for _ in 0..count {
        let length = edge(random).min(left);
        left -= length;
        lengths.push(integer(random, i128::from(length)));
    }
    // All are listed, so that none is missing.
    if random.once_in(3) {
        lengths.push(integer(random, i128::from(left)));
    }
    if random.fault_in(30) {
        lengths.push(Tree::Integer(i128::from(left.saturating_add(1))));
    }
    let mut pairs = vec![
        (text("p"), text_near(random, &ulid)),
        (text("o"), range(random, source)),
        (text("t"), range(random, stored)),
    ];
    if !lengths.is_empty() || random.once_in(2) {
        pairs.push((text("E"), Tree::List(lengths)));
    }
    if random.once_in(2) {
        let deltas = (0..random.below(count + 3)).map(|_| {
            let number = delta(random);
            integer(random, number)
        });
        pairs.push((text("N"), Tree::List(deltas.collect())));
    }
    any_map(random, pairs)
}

/// A pack list's `P`, and its `U`, which is passed over.
fn entries(random: &mut Random) -> Vec<(Tree, Tree)> {
    let stride = match random.once_in(4) {
        true => edge(random) as usize >> 8,
        false => random.below(30),
    };
    let mut pairs = Vec::new();
    if !random.once_in(10) {
        let list = (0..random.below(4)).map(|_| entry(random, stride));
        pairs.push((text("P"), Tree::List(list.collect())));
    }
    if random.once_in(5) {
        pairs.push((text("U"), any_item(random, 2)));
    }
    pairs
}

/// A primary part for this tag.
pub fn primary(random: &mut Random, tag: &[u8; 2], identifier: &Identifier) -> Vec<u8> {
    let mut pairs = identifier_pairs(random, identifier);
    match tag {
        b"bk" | b"ol" => {
            let shape = match random.below(2) {
                0 => text_near(random, &identifier.to_text()),
                _ => any_map(random, pairs),
            };
            pairs = vec![(text("I"), shape)];
            if tag == b"ol" {
                pairs.extend(entries(random));
            }
        }
        b"vd" => {
            let by = ulid(random);
            pairs.push((text("???"), text_near(random, &by)));
        }
        _ if random.fault_in(30) => pairs.push((text("d"), any_item(random, 1))),
        _ if random.once_in(3) => pairs.push((text("d"), Tree::Boolean(random.once_in(2)))),
        _ => {}
    }
    let mut part = any_map(random, pairs).any_form(random);
    if random.fault_in(80) {
        part.push(random.byte());
    }
    if random.fault_in(80) {
        part.pop();
    }
    part
}

fn natural(random: &mut Random, right: usize) -> Tree {
    if !random.fault_in(8) {
        return Tree::Integer(right as i128);
    }
    match random.below(3) {
        0 => any_item(random, 1),
        1 => Tree::Integer(-1),
        _ => Tree::Integer(i128::from(random.next() >> random.below(64))),
    }
}

/// A header's `s` for data of this length.
fn secondary(random: &mut Random, length: usize) -> Tree {
    let mut pairs = vec![(text("l"), natural(random, length))];
    if random.once_in(5) {
        pairs.push((text("c"), natural(random, 1)));
    }
    if random.once_in(5) {
        pairs.push((text("z"), any_item(random, 2)));
    }
    Tree::List(vec![any_map(random, pairs)])
}

/// A value around this primary part.
pub fn value(random: &mut Random, primary: Vec<u8>) -> Vec<u8> {
    let mut pairs = vec![(text("e"), Tree::Bytes(primary))];
    let mut rest = Vec::new();
    if random.fault_in(20) {
        pairs.push((text("s"), any_item(random, 2)));
    } else if random.once_in(10) {
        pairs.push((text("s"), Tree::List(Vec::new())));
    } else if random.once_in(2) {
        let length = random.below(20);
        rest = random.bytes(length);
        pairs.push((text("s"), secondary(random, length)));
    }
    for key in ["c", "v"] {
        if random.once_in(8) {
            pairs.push((text(key), natural(random, 0)));
        }
    }
    if random.fault_in(25) {
        pairs.push((text("z"), any_item(random, 2)));
    }
    if random.fault_in(60) {
        rest.push(random.byte());
    }
    let header = any_map(random, pairs).any_form(random);
    [header, rest].concat()
}

pub fn tag(random: &mut Random) -> [u8; 2] {
    match random.below(13) {
        0 => [random.byte(), random.byte()],
        1..=3 => *b"bk",
        4..=8 => *b"vr",
        9..=11 => *b"vd",
        _ => *b"ol",
    }
}

/// A record, seldom with content for another tag.
pub fn record(random: &mut Random, identifier: &Identifier) -> Vec<u8> {
    let tag = tag(random);
    let spare = if random.once_in(8) {
        [random.byte(), random.byte()]
    } else {
        [0, 0]
    };
    let content = if random.fault_in(30) { *b"vr" } else { tag };
    let part = primary(random, &content, identifier);
    record_with(tag, spare, &value(random, part))
}

/// Records, most of them of few identifiers.
pub fn records(random: &mut Random, most: usize) -> Vec<Vec<u8>> {
    (0..random.below(most + 1))
        .map(|_| {
            let identifier = match random.once_in(6) {
                true => any_identifier(random),
                false => few_identifiers(random),
            };
            record(random, &identifier)
        })
        .collect()
}

/// The record with another value and the hashes of that value.
pub fn with_value(record: &[u8], value: &[u8]) -> Vec<u8> {
    record_with([record[25], record[26]], [record[28], record[29]], value)
}

/// The record with the header's own hash made right again, whatever its fields say.
pub fn with_header_hash(record: &[u8]) -> Vec<u8> {
    let mut record = record.to_vec();
    let hash = xxh64(&record[..30]) as u16;
    record[30..32].copy_from_slice(&hash.to_be_bytes());
    record
}

/// A record that claims this value length.
pub fn with_length(tag: [u8; 2], length: u64, value: &[u8]) -> Vec<u8> {
    let hash = xxh64(&value[..value.len().min(length as usize)]);
    [&header(tag, length, hash, [0, 0]), value].concat()
}
