//! Slices that are really longer than the limit: mapped, and hardly touched.

use crate::compare::{pattern_bytes, Compare};
use crate::generate::ULIDS;
use crate::plain::pack::{header, record};
use crate::plain::xxh64::xxh64;
use crate::plain::{writer, LIMIT};
use crate::random::Random;
use std::ffi::{c_int, c_long, c_void};
use vof::raw;

extern "C" {
    fn mmap(
        address: *mut c_void,
        length: usize,
        protection: c_int,
        flags: c_int,
        file: c_int,
        offset: c_long,
    ) -> *mut c_void;
    fn munmap(address: *mut c_void, length: usize) -> c_int;
}

/// Zeros that take no memory until they are written to.
struct Mapped {
    address: *mut c_void,
    length: usize,
}

impl Mapped {
    fn new(length: usize) -> Mapped {
        // Linux on x86-64: PROT_READ | PROT_WRITE; MAP_PRIVATE | MAP_ANONYMOUS | MAP_NORESERVE.
        let (protection, flags) = (0x1 | 0x2, 0x02 | 0x20 | 0x4000);
        // SAFETY: an anonymous mapping at an address of the system's choice touches nothing else.
        let address = unsafe { mmap(std::ptr::null_mut(), length, protection, flags, -1, 0) };
        assert!(address as isize != -1, "no {length} bytes could be mapped");
        Mapped { address, length }
    }

    fn bytes(&mut self) -> &mut [u8] {
        // SAFETY: the mapping has this length, is ours alone and lasts as long as `self`.
        unsafe { std::slice::from_raw_parts_mut(self.address.cast(), self.length) }
    }
}

impl Drop for Mapped {
    fn drop(&mut self) {
        // SAFETY: the mapping is ours, and no slice of it outlives `self`.
        unsafe { munmap(self.address, self.length) };
    }
}

const PACK_LIMIT: usize = LIMIT as usize;

pub fn longer_than_the_limit(compare: &mut Compare, _: &mut Random) {
    // 4 GiB and one byte, and a page beyond.
    let mut mapped = Mapped::new(PACK_LIMIT + 2 + 4096);
    let bytes = mapped.bytes();
    for length in [PACK_LIMIT + 1, PACK_LIMIT + 2] {
        too_long(compare, &bytes[..length]);
    }
    handed_in(compare, bytes);
    let buffer = &mut bytes[..PACK_LIMIT + 2];
    written(compare, buffer);
    // After what was written: a right record in front makes the pack no shorter.
    too_long(compare, buffer);
    buffer[..4096].fill(0);
    longest_pack(compare, &mut bytes[..PACK_LIMIT]);
    many_words(compare);
}

/// 2^34 words and one: a search in them is refused before any is read.
fn many_words(compare: &mut Compare) {
    let mapped = Mapped::new(8 * ((1 << 34) + 1));
    // SAFETY: the mapping has so many words, all zeros, and lasts as long as `mapped`.
    let told = unsafe { std::slice::from_raw_parts(mapped.address.cast(), (1 << 34) + 1) };
    compare.inputs += 1;
    compare.find_hash_refused(told);
}

fn too_long(compare: &mut Compare, pack: &[u8]) {
    compare.scan(pack);
    compare.deposit(pack);
    let length = pack.len();
    for at in [
        0,
        1,
        32,
        length - 33,
        length - 1,
        length,
        length + 1,
        usize::MAX,
    ] {
        compare.record(pack, at);
    }
    compare.object(pack, b"herd", b"k");
    compare.object(pack, b"herd", b"");
    compare.object(pack, b"he/rd", b"k");
}

/// Data, texts and primary parts that no pack has room for.
fn handed_in(compare: &mut Compare, long: &[u8]) {
    let identifier = b"00000000000000000000000001:herd/k";
    let short = PACK_LIMIT - 32 - 50 - 10;
    for length in [
        short + 200,
        PACK_LIMIT - 1,
        PACK_LIMIT,
        PACK_LIMIT + 1,
        PACK_LIMIT + 2,
    ] {
        let long = &long[..length];
        let mut buffer = pattern_bytes(200);
        let answers = [
            raw::write_block(&mut buffer, 0, identifier, long),
            raw::write_block(&mut buffer, 0, long, b""),
            raw::write_version(&mut buffer, 0, long),
            raw::write_delete(&mut buffer, 0, long),
            raw::write_delete_of(&mut buffer, 0, long, ULIDS[0].as_bytes()),
            raw::write_delete_of(&mut buffer, 0, identifier, long),
        ];
        compare.inputs += 6;
        let kept = buffer == pattern_bytes(200);
        compare.hold("too long to be written", &[], kept && answers == [20; 6]);
        compare.object(b"", long, b"k");
        compare.object(b"", b"herd", long);
    }
}

/// A call of the writer on a buffer with so many bytes so far.
type Call<'a> = &'a dyn Fn(&mut [u8], usize) -> u64;

/// Records in front, at the limit and above it.
fn written(compare: &mut Compare, buffer: &mut [u8]) {
    let (identifier, by) = (b"00000000000000000000000001:herd/k", ULIDS[4].as_bytes());
    let block = writer::block(identifier, b"abc").unwrap();
    let delete = writer::delete_of(identifier, by).unwrap();
    let part = &delete[37..];
    let version = writer::version(part).unwrap();
    let calls: [(&[u8], Call); 4] = [
        (&block, &|buffer, used| {
            raw::write_block(buffer, used, identifier, b"abc")
        }),
        (&version, &|buffer, used| {
            raw::write_version(buffer, used, part)
        }),
        (&delete, &|buffer, used| {
            raw::write_delete(buffer, used, part)
        }),
        (&delete, &|buffer, used| {
            raw::write_delete_of(buffer, used, identifier, by)
        }),
    ];
    for (record, call) in calls {
        let full = PACK_LIMIT - record.len();
        for used in [0, 1, 100, 5000, 1 << 31, full - 1, full] {
            fits(compare, buffer, used, record, call);
        }
        for used in [
            full + 1,
            PACK_LIMIT - 1,
            PACK_LIMIT,
            PACK_LIMIT + 1,
            usize::MAX,
        ] {
            compare.inputs += 1;
            let answer = call(buffer, used);
            compare.hold("a pack above the limit gets 20", &[record], answer == 20);
        }
    }
    buffer[..delete.len()].copy_from_slice(&delete);
}

/// The record is written, and a few pages around it keep their zeros. Leaves zeros.
fn fits(compare: &mut Compare, buffer: &mut [u8], used: usize, record: &[u8], call: Call) {
    compare.inputs += 1;
    let end = used + record.len();
    let answer = call(buffer, used);
    let zeros = |bytes: &[u8]| bytes.iter().all(|&byte| byte == 0);
    let before = zeros(&buffer[used.saturating_sub(9000)..used]);
    let after = zeros(&buffer[end..buffer.len().min(end + 9000)]);
    let there = answer == 256 * end as u64 && buffer[used..end] == *record;
    compare.hold(
        "a record in a long buffer",
        &[record],
        there && before && after,
    );
    buffer[used..end].fill(0);
}

/// A record at the very end of the longest pack, and one record that fills it.
fn longest_pack(compare: &mut Compare, pack: &mut [u8]) {
    let last = record(*b"bk", b"\x81\xa1e\xc4\x00");
    let at = PACK_LIMIT - last.len();
    pack[at..].copy_from_slice(&last);
    compare.record(pack, at);
    compare.record(pack, at + 1);
    let length = PACK_LIMIT as u64 - 32;
    let front = header(*b"xx", length, xxh64(&pack[32..]), [0, 0]);
    pack[..32].copy_from_slice(&front);
    // Once each: this is a long way to hash.
    compare.inputs += 2;
    let entries = vof::scan(pack).unwrap_or_default();
    let told = entries.len() == 1 && entries[0].value_length == length;
    compare.hold("the longest pack is accepted", &[&front], told);
    let found = vof::current(pack, b"herd", b"k");
    compare.hold("and has no versions", &[&front], found == Ok(None));
}
