//! Calls of the writer, each with buffers exactly long enough, one short, empty and longer.

use crate::compare::Compare;
use crate::encode::{map, text, Tree};
use crate::generate::{any_identifier, few_identifiers, primary, ulid, ULIDS};
use crate::plain::LIMIT;
use crate::random::Random;

/// Counts of bytes so far, near both ends and near where a record of this length meets the limit.
fn used(random: &mut Random, length: usize) -> usize {
    let limit = LIMIT as usize;
    let more = random.below(5).wrapping_sub(2);
    let near = [
        limit,
        limit - length,
        usize::MAX,
        usize::MAX - length,
        1 << 63,
        1 << 32,
    ];
    match random.below(8) {
        0..=2 => 0,
        3 => random.below(300),
        4 => random.of(&[1, 31, 32, 33, 4095, 4096, 70_000]),
        _ => random.of(&near).wrapping_add(more),
    }
}

pub fn calls(compare: &mut Compare, random: &mut Random) {
    for _ in 0..20_000 {
        random.faults = random.once_in(3);
        let identifier = match random.once_in(2) {
            true => any_identifier(random),
            false => few_identifiers(random),
        };
        let (composite, length) = (identifier.to_text(), random.below(200));
        let data = random.bytes(length);
        let block = 32 + 12 + 3 + composite.len() + length;
        compare.write_block(used(random, block), &composite, &data);
        let part = primary(random, b"vr", &identifier);
        compare.write_version(used(random, 32 + 5 + part.len()), &part);
        let part = primary(random, b"vd", &identifier);
        compare.write_delete(used(random, 32 + 5 + part.len()), &part);
        let part = primary(random, b"ol", &identifier);
        compare.write_pack_list(used(random, 32 + 5 + part.len()), &part);
        let by = ulid(random);
        compare.write_delete_of(used(random, 32 + 5 + 39 + composite.len()), &composite, &by);
    }
    for length in (0..300)
        .chain(65_400..65_600)
        .chain([1 << 17, (1 << 20) + 1])
    {
        let data = random.bytes(length);
        compare.write_block(5, b"00000000000000000000000001:herd/k", &data);
        let part = map([
            ("b", text("herd")),
            ("D", Tree::Bytes(data)),
            ("o", text("k")),
            ("v", text(ULIDS[1])),
            ("???", text(ULIDS[2])),
            ("I", text("00000000000000000000000001:herd/k")),
        ]);
        compare.write_version(3, &part.shortest());
        compare.write_delete(0, &part.shortest());
        compare.write_pack_list(1, &part.shortest());
    }
}

/// Of identifiers, good and bad, and of flags that are any number.
pub fn version_parts(compare: &mut Compare, random: &mut Random) {
    const FLAGS: [u64; 8] = [0, 0, 1, 1, 2, 256, 1 << 32, u64::MAX];
    for _ in 0..20_000 {
        let mut composite = any_identifier(random).to_text();
        if random.once_in(3) {
            let at = random.below(composite.len());
            match random.below(3) {
                0 => composite[at] = random.byte(),
                1 => composite.truncate(at),
                _ => composite.insert(at, random.of(b"/:I80")),
            }
        }
        let used = used(random, 32 + 5 + 11 + composite.len());
        compare.version_of(used, &composite, random.of(&FLAGS));
    }
    for bucket in 0..66 {
        for object in (0..34).chain(254..258).chain(1022..1027) {
            let (bucket, object) = ("b".repeat(bucket), "o".repeat(object));
            let composite = format!("{}:{bucket}/{object}", ULIDS[3]);
            compare.version_of(0, composite.as_bytes(), 0);
            compare.version_of(0, composite.as_bytes(), 1);
        }
    }
}
