//! Versions and version deletes as docs/FORMAT.md has them, in shortest forms, made for the benchmark
//! of the lookup.

use crate::encode::{head, list, map, natural, text, ulid};
use crate::plain;
use crate::tlv;

fn boolean(b: bool) -> Vec<u8> {
    vec![0xC2 + u8::from(b)]
}

fn bytes(b: &[u8]) -> Vec<u8> {
    let mut item = head(b.len(), 0, 0, &[(0xC4, 1), (0xC5, 2), (0xC6, 4)]);
    item.extend(b);
    item
}

pub const BUCKET: &str = "registry";

pub fn object(number: usize) -> String {
    format!("scans/2026/animal-{number:04}.dcm")
}

/// The value of a version, with what such a record usually tells of an object on tape.
pub fn version(number: usize, object: &str, is_delete_marker: bool) -> Vec<u8> {
    let length = natural(5_000_000 + number);
    let reader = map(&[("t", natural(1)), ("i", text("vets")), ("p", natural(1))]);
    let clone = map(&[
        ("p", text("tape")),
        ("l", bytes(&plain::generate(64))),
        ("f", natural(0)),
        ("B", natural(10_000_000)),
        ("s", length.clone()),
    ]);
    value(map(&[
        ("b", text(BUCKET)),
        ("o", text(object)),
        ("v", text(&ulid(number))),
        ("w", text("owner")),
        ("A", list(&[reader])),
        ("l", length),
        ("e", text(&format!("{number:032x}"))),
        ("d", boolean(is_delete_marker)),
        ("p", list(&[clone])),
        ("s", map(&[("Content-Type", text("application/dicom"))])),
    ]))
}

/// The value of a version delete.
pub fn version_delete(number: usize, object: &str) -> Vec<u8> {
    value(map(&[
        ("b", text(BUCKET)),
        ("o", text(object)),
        ("v", text(&ulid(number))),
        ("???", text(&ulid(1_000_000 + number))),
    ]))
}

fn value(primary: Vec<u8>) -> Vec<u8> {
    map(&[("e", bytes(&primary))])
}

/// The order of the records of a pack in which everything is deleted.
#[derive(Clone, Copy)]
pub enum Order {
    Rising,
    Falling,
    Mixed,
}

impl Order {
    fn numbers(self, count: usize) -> Vec<usize> {
        match self {
            Order::Rising => (0..count).collect(),
            Order::Falling => (0..count).rev().collect(),
            // A step that shares no factor with the count comes to every number once.
            Order::Mixed => (0..count).map(|k| k * 7_919 % count).collect(),
        }
    }
}

pub struct Pack {
    pub bytes: Vec<u8>,
    /// The first object's current version: its record's start and its ULID.
    pub current: Option<(usize, String)>,
}

impl Pack {
    /// Versions of several objects in turn, and after them the deletion of the newest of the first
    /// object's.
    pub fn new(versions: usize, objects: usize, deleted: usize) -> Self {
        let (mut bytes, mut starts) = (Vec::new(), Vec::new());
        for number in 0..versions {
            starts.push(bytes.len());
            let value = version(number, &object(number % objects), false);
            tlv::append(&mut bytes, *b"vr", &value);
        }
        let mut newest_first = (0..versions).step_by(objects).rev();
        for number in newest_first.by_ref().take(deleted) {
            tlv::append(&mut bytes, *b"vd", &version_delete(number, &object(0)));
        }
        let current = newest_first.next();
        Pack {
            bytes,
            current: current.map(|number| (starts[number], ulid(number))),
        }
    }

    /// Versions of one object, one for every so many deletions, and after them the deletions, both in
    /// this order.
    pub fn all_deleted(deletions: usize, every: usize, order: Order) -> Self {
        let (numbers, mut bytes) = (order.numbers(deletions), Vec::new());
        for &number in numbers.iter().filter(|&number| number % every == 0) {
            tlv::append(&mut bytes, *b"vr", &version(number, &object(0), false));
        }
        for &number in &numbers {
            tlv::append(&mut bytes, *b"vd", &version_delete(number, &object(0)));
        }
        Pack {
            bytes,
            current: None,
        }
    }
}
