//! What the papers and the stored vectors say, compared with both implementations.

use crate::compare::Compare;
use crate::encode::{map, text, Tree};
use crate::generate::lists;
use crate::plain::lookup::current;
use crate::plain::pack::{read_pack, record};
use crate::plain::pack_list::{find, read_pack_list, Found, Range};
use crate::plain::value::read_value;
use crate::plain::writer;
use crate::plain::xxh64::{generate, xxh64};
use crate::random::Random;
use vof::Refusal;

fn hex(text: &str) -> Vec<u8> {
    let digits: Vec<u32> = text.chars().filter_map(|c| c.to_digit(16)).collect();
    digits
        .chunks(2)
        .map(|pair| (16 * pair[0] + pair[1]) as u8)
        .collect()
}

/// A pack with so many records, or with a refusal.
fn pack(compare: &mut Compare, name: &str, pack: &[u8], wanted: Result<usize, (u8, u64)>) {
    compare.scan(pack);
    compare.object(pack, b"herd", b"k");
    compare.record(pack, 0);
    let found = read_pack(pack).map(|entries| entries.len());
    let wanted = wanted.map_err(|(number, place)| Refusal {
        number,
        place: Some(place),
        because: None,
    });
    compare.hold(name, &[pack], found == wanted);
}

/// A value with primary and secondary parts of these lengths, or with a refusal.
fn value(compare: &mut Compare, name: &str, value: &[u8], wanted: Result<(usize, usize), u8>) {
    compare.value(value);
    let found = read_value(value).map(|read| (read.primary.length, read.secondary.length));
    compare.hold(name, &[value], found == wanted);
}

pub fn cases(compare: &mut Compare, _: &mut Random) {
    let header = "89544C560D0A1A0A 000000000000000E E33DB5F49F8ECB36 00 4321 08 0000 BB14";
    let b = [&hex(header)[..], b"data data data"].concat();
    pack(compare, "A", b"", Ok(0));
    pack(compare, "B", &b, Ok(1));
    pack(compare, "C", &b[..45], Err((7, 0)));
    pack(compare, "D", &b[..31], Err((2, 0)));
    pack(compare, "E", &[&b[..], &[0]].concat(), Err((2, 46)));
    for (name, at, byte, number) in [
        ("F", 0, 0x88, 3),
        ("G", 24, 0x01, 4),
        ("H", 27, 0x07, 5),
        ("I", 31, 0x15, 6),
        ("J", 45, b'b', 8),
    ] {
        let mut damaged = b.clone();
        damaged[at] = byte;
        pack(compare, name, &damaged, Err((number, 0)));
    }
    let head = hex("82 A1 73 91 81 A1 6C 0C A1 65 C4 10 C4 0E");
    let k = [&head[..], b"value 1 headervalue 1 data"].concat();
    value(compare, "K", &k, Ok((16, 12)));
    value(compare, "L", &k[..39], Err(12));
    value(compare, "M", b"\x80", Err(11));
    value(compare, "M, empty", b"", Err(9));
    value(compare, "N, depth 16", &lists(16).shortest(), Err(11));
    value(compare, "N, depth 17", &lists(17).shortest(), Err(10));
    block_of_three(compare);
    printed_list(compare);
}

fn block_of_three(compare: &mut Compare) {
    let identifier = b"00000000000000000000000001:herd/k";
    compare.write_block(0, identifier, b"abc");
    let block = writer::block(identifier, b"abc").unwrap();
    pack(compare, "the block of 3 bytes", &block, Ok(1));
    value(compare, "its value", &block[32..], Ok((38, 3)));
    compare.hold("its length", &[&block], block.len() == 85);
}

/// The pack list of 001:584, and the blocks of its version's bytes.
fn printed_list(compare: &mut Compare) {
    let range = |length| map([("s", Tree::Integer(0)), ("l", Tree::Integer(length))]);
    let lengths = vec![Tree::Integer(101), Tree::Integer(101)];
    let entry = map([
        ("p", text("7YF1QJW74QNR5BZ83NC8307YYM")),
        ("o", range(36)),
        ("t", range(303)),
        ("E", Tree::List(lengths)),
        ("N", Tree::List(Vec::new())),
    ]);
    let part = map([
        ("I", text("7YF1QJW74PNYV552JB3YPAJJX1:bucket/object")),
        ("P", Tree::List(vec![entry])),
    ])
    .shortest();
    compare.pack_list(&part);
    compare.write_pack_list(0, &part);
    let list = read_pack_list(&part).unwrap();
    for byte in 0..37 {
        compare.find_block(&part, byte);
        let wanted = (byte < 36).then(|| Found {
            entry: 0,
            block: Some(byte as usize / 12),
            stored: Range {
                start: byte / 12 * 101,
                length: 101,
            },
        });
        compare.hold("its block", &[&part], find(&list, byte) == wanted);
    }
}

/// The fields of tests/lookup_vectors.py: a length of four bytes before each.
fn field<'a>(bytes: &mut &'a [u8]) -> &'a [u8] {
    let length = number(bytes);
    let (field, rest) = bytes.split_at(length);
    *bytes = rest;
    field
}

fn number(bytes: &mut &[u8]) -> usize {
    let (number, rest) = bytes.split_first_chunk().unwrap();
    *bytes = rest;
    u32::from_be_bytes(*number) as usize
}

/// A line of that script's output.
fn told(title: &[u8], pack: &[u8], bucket: &[u8], object: &[u8]) -> Vec<u8> {
    let name = [bucket, b"/", object].concat();
    let answer = match current(pack, bucket, object) {
        // Number and place; the reason comes after a colon.
        Err(refusal) => refusal.to_string().split(':').next().unwrap().into(),
        Ok(None) => b"nothing".to_vec(),
        Ok(Some(found)) => {
            let kind = if found.deleted {
                "delete marker"
            } else {
                "version"
            };
            let (start, length, hash) = (found.start, found.value.len(), xxh64(found.value));
            let place = format!(" {kind} at {start} value {length} {hash:016x}");
            [&found.identifier.ulid, &b" "[..], &name, place.as_bytes()].concat()
        }
    };
    [title, b", ", &name, b": ", &answer, b"\n"].concat()
}

pub fn lookups(compare: &mut Compare, _: &mut Random) {
    let mut stdin = &include_bytes!("../../../crates/lookup_vectors/stdin")[..];
    let mut stdout = &include_bytes!("../../../crates/lookup_vectors/stdout")[..];
    for _ in 0..number(&mut stdin) {
        let mut input = field(&mut stdin);
        let (title, pack) = (field(&mut input), field(&mut input));
        let mut names = field(&mut input);
        while !names.is_empty() {
            let (bucket, object) = (field(&mut names), field(&mut names));
            compare.object(pack, bucket, object);
            let rest = stdout.strip_prefix(&told(title, pack, bucket, object)[..]);
            compare.hold("the stored answer", &[pack, bucket, object], rest.is_some());
            stdout = rest.unwrap();
        }
    }
    compare.hold("no answers are left", &[stdout], stdout.is_empty());
}

/// Published hashes of the first bytes that `generate` gives.
const PUBLISHED: [(usize, u64); 4] = [
    (0, 0xEF46DB3751D8E999),
    (1, 0xE934A84ADB052768),
    (14, 0x8282DCC4994E35C8),
    (222, 0xB641AE8CB691C174),
];

pub fn hashes(compare: &mut Compare, random: &mut Random) {
    let bytes = generate(300);
    for (length, hash) in PUBLISHED {
        let bytes = &bytes[..length];
        compare.hold("the published hash", &[bytes], xxh64(bytes) == hash);
    }
    for length in 0..2048 {
        for _ in 0..4 {
            compare.xxh64(&random.bytes(length));
        }
        compare.xxh64(&vec![0xFF; length]);
        compare.scan(&record(*b"xx", &random.bytes(length)));
    }
}
