//! The deposit profile: packs that keep it, and such with one rule broken.

use crate::compare::Compare;
use crate::encode::{any_item, map, text, Tree};
use crate::generate::{any_identifier, identifier, record, ulid, with_header_hash, ULIDS};
use crate::plain::identifier::Identifier;
use crate::plain::pack::record_with;
use crate::random::Random;

const BUCKETS: [&str; 24] = [
    "herd", "a0z", "0a9", "her.d", "her-d", "h..d", "h.-d", "h-.d", ".herd", "-herd", "herd.",
    "herd-", "he", "h", "Herd", "herD", "he_d", "he d", "he,d", "he:d", "he`d", "he{d", "h\u{e9}d",
    "her\0d",
];

const VERSION: [&str; 12] = ["w", "A", "l", "e", "d", "N", "C", "p", "s", "m", "h", "D"];

fn bucket(random: &mut Random) -> String {
    match random.below(4) {
        0 => "b".repeat(random.of(&[2, 3, 62, 63])),
        1 => random.of(&BUCKETS).into(),
        _ => random.of(&BUCKETS[..5]).into(),
    }
}

fn named(random: &mut Random) -> Identifier {
    identifier(
        random.of(&ULIDS),
        &bucket(random),
        random.of(&["k", "list/2"]),
    )
}

/// The pairs of a primary part that keeps the profile, or nearly.
fn part(random: &mut Random, tag: &[u8; 2], name: &Identifier) -> Tree {
    let texts = [("b", &name.bucket), ("o", &name.object), ("v", &name.ulid)];
    let identity = texts.map(|(key, value)| (text(key), Tree::Text(value.clone())));
    let mut pairs = match tag {
        b"vr" | b"vd" => identity.to_vec(),
        _ if random.once_in(20) => vec![(text("I"), Tree::Map(identity.to_vec()))],
        _ => vec![(text("I"), Tree::Text(name.to_text()))],
    };
    match tag {
        b"vd" => pairs.push((text("???"), Tree::Text(ulid(random)))),
        b"ol" if random.once_in(2) => pairs.push((text("U"), any_item(random, 2))),
        b"vr" => {
            for _ in 0..random.below(3) {
                let key = random.of(&VERSION);
                let value = match key {
                    "d" => Tree::Boolean(random.once_in(2)),
                    _ => any_item(random, 2),
                };
                pairs.push((text(key), value));
            }
        }
        _ => {}
    }
    if random.once_in(12) {
        let key = match random.below(3) {
            0 => Tree::Nil,
            1 => Tree::Bytes(b"b".to_vec()),
            _ => text(random.of(&["x", "", "II", "????", "U", "c", "w"])),
        };
        pairs.push((key, Tree::Nil));
    }
    if random.once_in(6) {
        random.shuffle(&mut pairs);
    }
    Tree::Map(pairs)
}

/// A tree in short forms, seldom with one that is not.
fn encoded(random: &mut Random, tree: &Tree) -> Vec<u8> {
    match random.once_in(10) {
        true => {
            let mut at = random.below(8);
            tree.encode(&mut |forms| {
                at = at.wrapping_sub(1);
                if at == 0 {
                    forms - 1
                } else {
                    0
                }
            })
        }
        false => tree.shortest(),
    }
}

fn header(random: &mut Random, tag: &[u8; 2], part: Vec<u8>, length: usize) -> Tree {
    let mut pairs = vec![(text("e"), Tree::Bytes(part))];
    if tag == b"bk" {
        let inner = match random.below(12) {
            0 => map([
                ("l", Tree::Integer(length as i128)),
                ("c", Tree::Integer(0)),
            ]),
            1 => map([("l", Tree::Integer(length as i128)), ("x", Tree::Nil)]),
            _ => map([("l", Tree::Integer(length as i128))]),
        };
        let list = match length == 0 && random.once_in(4) {
            true => Tree::List(Vec::new()),
            false => Tree::List(vec![inner]),
        };
        pairs.insert(0, (text("s"), list));
    }
    match random.below(20) {
        0 => pairs.push((text("c"), Tree::Integer(0))),
        1 => pairs.insert(0, (text("v"), Tree::Integer(0))),
        2 => pairs.push((text("x"), Tree::Nil)),
        3 => pairs.push((Tree::Integer(1), Tree::Nil)),
        4 => random.shuffle(&mut pairs),
        5 => pairs.push((text("s"), Tree::List(Vec::new()))),
        _ => {}
    }
    Tree::Map(pairs)
}

/// A record that keeps the profile, or nearly.
fn near(random: &mut Random) -> Vec<u8> {
    let tag = random.of(&[*b"bk", *b"bk", *b"vr", *b"vr", *b"vd", *b"ol"]);
    let name = named(random);
    let tree = part(random, &tag, &name);
    let part = encoded(random, &tree);
    let length = if tag == *b"bk" {
        random.of(&[0, 1, 3, 31, 32, 127, 128, 255, 256, 300])
    } else {
        0
    };
    let tree = header(random, &tag, part, length);
    let value = [encoded(random, &tree), random.bytes(length)].concat();
    let spare = match random.below(15) {
        0 => [random.byte(), 0],
        1 => [0, random.byte()],
        _ => [0, 0],
    };
    record_with(tag, spare, &value)
}

pub fn profiles(compare: &mut Compare, random: &mut Random) {
    random.faults = false;
    compare.deposit(b"");
    for _ in 0..20_000 {
        let count = random.below(4);
        let pack: Vec<u8> = (0..count).flat_map(|_| near(random)).collect();
        compare.deposit(&pack);
    }
    for bucket in BUCKETS {
        for tag in [*b"bk", *b"vr"] {
            let name = identifier(ULIDS[0], bucket, "k");
            let tree = part(random, &tag, &name);
            let header = header(random, &tag, tree.shortest(), 0);
            compare.deposit(&record_with(tag, [0, 0], &header.shortest()));
        }
    }
}

/// Records of every kind, most of which do not keep it; cut, and with a bit changed.
pub fn any_packs(compare: &mut Compare, random: &mut Random) {
    for _ in 0..10_000 {
        random.faults = random.once_in(3);
        let name = match random.once_in(3) {
            true => any_identifier(random),
            false => named(random),
        };
        let mut pack = [near(random), record(random, &name)].concat();
        compare.deposit(&pack);
        let at = random.below(pack.len());
        compare.deposit(&pack[..at]);
        pack[at] ^= 1 << random.below(8);
        compare.deposit(&pack);
    }
}

/// What our writer writes keeps the profile, where the bucket does.
pub fn written(compare: &mut Compare, random: &mut Random) {
    for _ in 0..2_000 {
        let name = named(random);
        let composite = name.to_text();
        let length = random.below(300);
        let mut writer = vof::Writer::new();
        let made = [
            writer.block(&composite, &random.bytes(length)),
            writer.version_of(&composite, random.once_in(2)),
            writer.delete_of(&composite, &ulid(random)),
        ];
        let pack = writer.as_bytes();
        compare.hold("written", &[pack], made.iter().all(Result::is_ok));
        compare.deposit(pack);
    }
}

/// Bytes 28 and 29, each at each value, with the header's hash made right again.
pub fn spare(compare: &mut Compare, _: &mut Random) {
    let mut writer = vof::Writer::new();
    writer
        .block(b"00000000000000000000000001:herd/k", b"abc")
        .unwrap();
    for at in [28, 29] {
        for byte in 0..=255 {
            let mut pack = writer.as_bytes().to_vec();
            pack[at] = byte;
            compare.deposit(&with_header_hash(&pack));
        }
    }
}
