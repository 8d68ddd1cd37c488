//! Names and identifiers, good and bad, wherever they are handed in or read.

use crate::compare::Compare;
use crate::encode::{map, text, Tree};
use crate::generate::{any_identifier, ULIDS};
use crate::plain::writer::with_primary;
use crate::random::Random;
use crate::sections::pack_lists;

const LENGTHS: [usize; 22] = [
    0, 1, 2, 3, 30, 31, 32, 61, 62, 63, 64, 65, 127, 128, 255, 256, 257, 1022, 1023, 1024, 1025,
    2000,
];

/// The name is handed to the lookup and to the writer, and stands in records.
fn name(compare: &mut Compare, ulid: &[u8], bucket: &[u8], object: &[u8]) {
    let composite = [ulid, b":", bucket, b"/", object].concat();
    handed_in(compare, &composite);
    let of = |bytes: &[u8]| Tree::Text(bytes.to_vec());
    let pairs = map([
        ("b", of(bucket)),
        ("o", of(object)),
        ("v", of(ulid)),
        ("???", text(ULIDS[0])),
    ]);
    let part = pairs.shortest();
    compare.write_version(0, &part);
    compare.write_delete(0, &part);
    let records = [
        with_primary(b"vr", &part),
        with_primary(b"vd", &part),
        with_primary(b"bk", &map([("I", pairs)]).shortest()),
    ];
    for record in &records {
        compare.record(record, 0);
        compare.object(record, bucket, object);
    }
    compare.object(&records.concat(), bucket, object);
    compare.object(b"no pack", bucket, object);
    compare.object(b"", bucket, object);
}

/// A composite text, handed to the writer, in a block and in a pack list.
fn handed_in(compare: &mut Compare, composite: &[u8]) {
    compare.write_block(0, composite, b"data");
    compare.version_of(0, composite, 0);
    compare.version_of(0, composite, 1);
    compare.write_delete_of(0, composite, ULIDS[4].as_bytes());
    let part = map([("I", Tree::Text(composite.to_vec()))]).shortest();
    compare.record(&with_primary(b"bk", &part), 0);
    compare.pack_list(&part);
}

pub fn names(compare: &mut Compare, random: &mut Random) {
    let ulid = ULIDS[3].as_bytes();
    for bucket in LENGTHS {
        for object in LENGTHS {
            name(compare, ulid, &vec![b'b'; bucket], &vec![b'o'; object]);
        }
    }
    for byte in 0..=255 {
        for at in 0..5 {
            let mut bucket = *b"a.b-c";
            bucket[at] = byte;
            name(compare, ulid, &bucket, b"o");
            name(compare, ulid, b"b", &bucket);
        }
    }
    for _ in 0..2_000 {
        let right = any_identifier(random);
        name(compare, &right.ulid, &right.bucket, &right.object);
    }
    for _ in 0..20 {
        let composite = any_identifier(random).to_text();
        for end in (0..composite.len()).filter(|&end| end < 100 || end % 50 == 0) {
            handed_in(compare, &composite[..end]);
            handed_in(compare, &composite[end..]);
        }
    }
}

pub fn ulids(compare: &mut Compare, random: &mut Random) {
    for length in [0, 1, 24, 25, 26, 27, 28, 52, 255, 256] {
        ulid(compare, &vec![b'0'; length]);
    }
    // The greatest number of 128 bits, and the next.
    for edge in ["7ZZZZZZZZZZZZZZZZZZZZZZZZZ", "80000000000000000000000000"] {
        ulid(compare, edge.as_bytes());
        handed_in(compare, format!("{edge}:herd/k").as_bytes());
    }
    // The 27th byte is the colon.
    for at in 0..27 {
        for byte in 0..=255 {
            let right = any_identifier(random);
            let mut composite = right.to_text();
            composite[at] = byte;
            handed_in(compare, &composite);
            if at < 26 {
                ulid(compare, &composite[..26]);
            }
        }
    }
}

/// As a version's, as a delete identifier, and as a pack's.
fn ulid(compare: &mut Compare, ulid: &[u8]) {
    pack_lists::read(compare, &pack_lists::of_pack(ulid), &[5]);
    compare.write_delete_of(0, b"00000000000000000000000001:herd/k", ulid);
    for (of, by) in [(ulid, ULIDS[0].as_bytes()), (ULIDS[0].as_bytes(), ulid)] {
        let of_text = |bytes: &[u8]| Tree::Text(bytes.to_vec());
        let part = map([
            ("b", text("herd")),
            ("o", text("k")),
            ("v", of_text(of)),
            ("???", of_text(by)),
        ])
        .shortest();
        for tag in [b"vr", b"vd"] {
            let pack = with_primary(tag, &part);
            compare.record(&pack, 0);
            compare.object(&pack, b"herd", b"k");
        }
        compare.write_delete(0, &part);
    }
}
