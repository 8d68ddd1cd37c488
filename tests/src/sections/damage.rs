//! Packs by chance, whole and damaged.

use crate::compare::Compare;
use crate::generate::{few_identifiers, records, with_header_hash, with_length, with_value};
use crate::random::Random;

/// Where each record starts, and where the last one ends.
fn starts(records: &[Vec<u8>]) -> Vec<usize> {
    let mut starts = vec![0];
    for record in records {
        starts.push(starts[starts.len() - 1] + record.len());
    }
    starts
}

/// The pack is read as a whole, and from the start of the record that was damaged.
fn read(compare: &mut Compare, pack: &[u8], at: usize) {
    compare.scan(pack);
    compare.record(pack, at);
    compare.deposit(&pack[at..]);
    compare.object(pack, b"herd", b"list");
}

pub fn value_lengths(compare: &mut Compare, random: &mut Random) {
    let near = |power: u32| (-2..=2).map(move |more| (1u64 << power).wrapping_add_signed(more));
    let top = (0..80).map(|less| u64::MAX - less);
    let lengths: Vec<u64> = (0..64).flat_map(near).chain(top).collect();
    random.faults = false;
    for length in lengths {
        let front = records(random, 2).concat();
        let near = [length.wrapping_sub(1), length, length.wrapping_add(1)];
        let short = [0, 1, 2, 31, 32, 33, 63, 64, 300];
        for room in near.into_iter().filter(|&room| room < 1 << 17).chain(short) {
            let value = random.bytes(room as usize);
            for tag in [*b"vr", *b"vd", *b"bk", *b"xx"] {
                let pack = [&front[..], &with_length(tag, length, &value)].concat();
                read(compare, &pack, front.len());
            }
        }
    }
}

pub fn random_packs(compare: &mut Compare, random: &mut Random) {
    for _ in 0..20_000 {
        random.faults = random.once_in(2);
        let list = records(random, 6);
        let pack = list.concat();
        compare.scan(&pack);
        let mut places = starts(&list);
        places.extend([random.below(pack.len() + 2), usize::MAX, 1 << 32]);
        for place in places {
            compare.record(&pack, place);
        }
        for _ in 0..2 {
            let name = few_identifiers(random);
            compare.object(&pack, &name.bucket, &name.object);
        }
        for record in &list {
            compare.value(&record[32..]);
            compare.deposit(record);
        }
    }
}

/// Another byte: a bit flipped, or one that means something to MessagePack.
fn other_byte(random: &mut Random, byte: u8) -> u8 {
    match random.below(4) {
        0 => random.of(&[
            0xC1, 0xC0, 0x91, 0x81, 0xC4, 0xD9, 0xDD, 0xDF, 0x00, 0xFF, b'/',
        ]),
        1 => random.byte(),
        _ => byte ^ 1 << random.below(8),
    }
}

pub fn changed(compare: &mut Compare, random: &mut Random) {
    for _ in 0..150 {
        random.faults = random.once_in(4);
        let list = records(random, 3);
        let (pack, starts) = (list.concat(), starts(&list));
        for (index, record) in list.iter().enumerate() {
            // Most of a long record is a name.
            for at in (0..record.len()).filter(|&at| at < 200 || at % 50 == 0) {
                let mut damaged = record.clone();
                damaged[at] = other_byte(random, record[at]);
                let start = starts[index];
                let end = start + record.len();
                let mut put = |record: &[u8]| {
                    let pack = [&pack[..start], record, &pack[end..]].concat();
                    read(compare, &pack, start);
                };
                put(&damaged);
                match at < 32 {
                    true => put(&with_header_hash(&damaged)),
                    false => put(&with_value(record, &damaged[32..])),
                }
            }
        }
    }
}

pub fn cut_and_grown(compare: &mut Compare, random: &mut Random) {
    for _ in 0..100 {
        random.faults = random.once_in(4);
        let list = records(random, 3);
        let (pack, starts) = (list.concat(), starts(&list));
        for end in (0..pack.len()).filter(|&end| end < 1000 || end % 50 == 0) {
            let start = starts.iter().rev().find(|&&start| start <= end).unwrap();
            read(compare, &pack[..end], *start);
        }
        for more in 1..=40 {
            let tail = random.bytes(more);
            read(compare, &[&pack[..], &tail].concat(), pack.len());
            read(compare, &[&pack[..], &vec![0; more]].concat(), pack.len());
        }
        for record in &list {
            cut_values(compare, random, record);
        }
    }
}

/// The value cut at every place and grown, with the hashes of what is left.
fn cut_values(compare: &mut Compare, random: &mut Random, record: &[u8]) {
    let value = &record[32..];
    for end in (0..value.len()).filter(|&end| end < 200 || end % 50 == 0) {
        read(compare, &with_value(record, &value[..end]), 0);
    }
    for more in [1, 2, 31, 32, 33] {
        let tail = random.bytes(more);
        read(compare, &with_value(record, &[value, &tail].concat()), 0);
    }
}
