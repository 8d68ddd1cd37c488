//! One call of the archive beside the plain implementation: the answer, and all of the lent memory.

mod pipe;

use crate::plain::deposit;
use crate::plain::form;
use crate::plain::lookup::{current, explain, Version};
use crate::plain::pack::read_pack;
use crate::plain::pack_list::{self, find, read_pack_list, PackList};
use crate::plain::record::{record_at, Record};
use crate::plain::value::{read_value, Value};
use crate::plain::{writer, Number};
use std::process::exit;
use vof::{raw, Refusal};

/// What a call is to answer and to write at the front of the lent words and bytes.
#[derive(Clone)]
struct Wanted {
    answer: u64,
    words: Vec<u64>,
    bytes: Vec<u8>,
}

impl Wanted {
    fn refused(refusal: Refusal) -> Wanted {
        Wanted {
            answer: u64::from(refusal.number) + 256 * refusal.place.unwrap_or(0),
            words: Vec::new(),
            bytes: Vec::new(),
        }
    }

    /// 19 where the result does not fit what is lent.
    fn within(&self, words: usize, bytes: usize) -> Wanted {
        match self.words.len() <= words && self.bytes.len() <= bytes {
            true => self.clone(),
            false => Wanted::refused(alone(19)),
        }
    }
}

fn alone(number: Number) -> Refusal {
    Refusal {
        number,
        place: None,
        because: None,
    }
}

fn pattern_words(length: usize) -> Vec<u64> {
    (0..length as u64)
        .map(|i| 0xA5A5_A5A5_0000_0000 + i)
        .collect()
}

pub fn pattern_bytes(length: usize) -> Vec<u8> {
    (0..length).map(|i| (i * 37 + 0x5A) as u8).collect()
}

/// In hex; of what is longer than a pack of the tests only the front.
fn shown(bytes: &[u8]) -> String {
    let front = &bytes[..bytes.len().min(1 << 17)];
    let digits: String = front.iter().map(|byte| format!("{byte:02x}")).collect();
    match front.len() == bytes.len() {
        true => digits,
        false => format!("{digits}... of {} bytes", bytes.len()),
    }
}

/// The archive's functions that can refuse.
#[derive(Clone, Copy, Debug)]
pub enum Function {
    Scan,
    FindHash,
    Value,
    Record,
    Current,
    CurrentWith,
    Explain,
    CheckDeposit,
    PipeStart,
    PipeTake,
    PipeEnd,
    PackList,
    FindBlock,
    Item,
    WriteBlock,
    VersionPart,
    WriteVersion,
    WriteDelete,
    WritePackList,
    WriteDeleteOf,
}

/// The numbers that each function can answer, 0 where it does not refuse.
const NUMBERS: [(Function, &[usize]); 20] = [
    (Function::Scan, &[0, 1, 2, 3, 4, 5, 6, 7, 8, 19]),
    (Function::FindHash, &[0, 20]),
    (Function::Value, &[0, 9, 10, 11, 12, 19, 22]),
    (
        Function::Record,
        &[
            0, 1, 2, 3, 4, 5, 6, 7, 8, 9, 10, 11, 12, 13, 14, 15, 16, 17, 18, 19, 20, 21, 22,
        ],
    ),
    (
        Function::Current,
        &[
            0, 1, 2, 3, 4, 5, 6, 7, 8, 9, 10, 11, 12, 14, 15, 16, 17, 18, 19, 20, 22,
        ],
    ),
    (
        Function::CurrentWith,
        &[
            0, 1, 2, 3, 4, 5, 6, 7, 8, 9, 10, 11, 12, 14, 15, 16, 17, 18, 19, 20, 22,
        ],
    ),
    (
        Function::Explain,
        &[
            0, 1, 2, 3, 4, 5, 6, 7, 8, 9, 10, 11, 12, 14, 15, 16, 17, 18, 19, 20, 22,
        ],
    ),
    (
        Function::CheckDeposit,
        &[
            0, 1, 2, 3, 4, 5, 6, 7, 8, 9, 10, 11, 12, 13, 14, 15, 16, 17, 18, 21, 22, 23, 24, 25,
            26, 27, 28,
        ],
    ),
    (Function::PipeStart, &[0, 19]),
    (Function::PipeTake, &[0, 1, 2, 3, 4, 5, 6, 7, 8, 19, 20]),
    (Function::PipeEnd, &[0, 1, 2, 3, 4, 5, 6, 7, 8, 20]),
    (Function::PackList, &[0, 16, 17, 18, 19, 21, 22]),
    (Function::FindBlock, &[0, 16, 17, 18, 19, 21, 22]),
    (Function::Item, &[0, 9, 10, 19]),
    (Function::WriteBlock, &[0, 19, 20]),
    (Function::VersionPart, &[0, 19, 20]),
    (Function::WriteVersion, &[0, 19, 20]),
    (Function::WriteDelete, &[0, 19, 20]),
    (Function::WritePackList, &[0, 19, 20]),
    (Function::WriteDeleteOf, &[0, 19, 20]),
];

/// Counts what was compared, and ends the run at the first difference.
#[derive(Default)]
pub struct Compare {
    pub section: &'static str,
    pub seed: u64,
    /// Different inputs; each is tried with lent memory of several lengths.
    pub inputs: u64,
    pub calls: u64,
    /// How often each function gave each number.
    met: [[u64; 29]; NUMBERS.len()],
}

impl Compare {
    fn fail(&self, what: &str, inputs: &[&[u8]], told: String) -> ! {
        let (section, seed) = (self.section, self.seed);
        eprintln!("comparison: {section}, seed {seed}: {what}");
        for input in inputs {
            eprintln!("  input {}", shown(input));
        }
        eprintln!("  {told}");
        exit(1);
    }

    /// A refusal that no input brings would not be compared.
    pub fn all_met(&self) {
        for (function, numbers) in NUMBERS {
            let mut missing = numbers.to_vec();
            missing.retain(|&number| self.met[function as usize][number] == 0);
            if !missing.is_empty() {
                let told = format!("never gave {missing:?}");
                self.fail(&format!("{function:?}"), &[], told);
            }
        }
    }

    fn called(&mut self, function: Function, answer: u64) {
        self.calls += 1;
        self.met[function as usize][(answer % 256) as usize] += 1;
    }

    /// A fact that is to hold of an input.
    pub fn hold(&mut self, what: &str, inputs: &[&[u8]], holds: bool) {
        self.calls += 1;
        if !holds {
            self.fail(what, inputs, "does not hold".into());
        }
    }

    /// Calls with lent words and bytes of each of these lengths.
    fn lent(
        &mut self,
        function: Function,
        inputs: &[&[u8]],
        wanted: &Wanted,
        rooms: &[(usize, usize)],
        call: impl Fn(&mut [u64], &mut [u8]) -> u64,
    ) {
        for &(words, bytes) in rooms {
            let wanted = wanted.within(words, bytes);
            let (mut words, mut bytes) = (pattern_words(words), pattern_bytes(bytes));
            let (mut right_words, mut right_bytes) = (words.clone(), bytes.clone());
            right_words[..wanted.words.len()].copy_from_slice(&wanted.words);
            right_bytes[..wanted.bytes.len()].copy_from_slice(&wanted.bytes);
            let answer = call(&mut words, &mut bytes);
            self.called(function, wanted.answer);
            if answer != wanted.answer || words != right_words || bytes != right_bytes {
                let proved = format!("{answer} {words:?} {}", shown(&bytes));
                let plain = format!("{} {right_words:?} {}", wanted.answer, shown(&right_bytes));
                let told = format!("proved {proved}\n  plain  {plain}");
                self.fail(&format!("{function:?}"), inputs, told);
            }
        }
    }

    pub fn xxh64(&mut self, bytes: &[u8]) {
        self.inputs += 1;
        self.calls += 1;
        let (proved, plain) = (raw::xxh64(bytes), crate::plain::xxh64::xxh64(bytes));
        if proved != plain {
            let told = format!("proved {proved:016x}, plain {plain:016x}");
            self.fail("Xxh64", &[bytes], told);
        }
    }

    pub fn scan(&mut self, pack: &[u8]) {
        self.inputs += 1;
        let plain = read_pack(pack);
        let wanted = match &plain {
            Err(refusal) => Wanted::refused(*refusal),
            Ok(entries) => Wanted {
                answer: 256 * entries.len() as u64,
                words: entries.iter().flat_map(entry_words).collect(),
                bytes: Vec::new(),
            },
        };
        let exact = wanted.words.len();
        let rooms = [exact, exact.saturating_sub(1), 0, exact + 1, exact + 7].map(|n| (n, 0));
        let call = |words: &mut [u64], _: &mut [u8]| raw::scan(pack, words);
        self.lent(Function::Scan, &[pack], &wanted, &rooms, call);
        let safe = vof::scan(pack);
        let entries = safe.clone().unwrap_or_default();
        let words: Vec<u64> = entries.iter().flat_map(safe_entry_words).collect();
        let same = safe.map(|_| ()) == plain.map(|_| ()) && words == wanted.words;
        self.hold("the safe scan", &[pack], same);
        let hashes: Vec<u64> = entries.iter().map(|entry| entry.value_hash).collect();
        for hash in [
            hashes.first(),
            hashes.last(),
            hashes.get(exact / 8),
            Some(&0),
        ] {
            let Some(&hash) = hash else { continue };
            self.find_hash(&wanted.words, hash);
            let found = vof::find_hash(&entries, hash);
            let first = hashes.iter().position(|&each| each == hash);
            self.hold("the safe search", &[pack], found == Ok(first));
        }
    }

    /// Words as a scan tells them, also with a rest that is no entry.
    pub fn find_hash(&mut self, told: &[u64], hash: u64) {
        for rest in 0..4 {
            let told = [told, &vec![hash; rest]].concat();
            let place = told.chunks_exact(4).position(|entry| entry[3] == hash);
            let wanted = 256 * place.map_or(0, |place| 1 + place as u64);
            let answer = raw::find_hash(&told, hash);
            self.called(Function::FindHash, answer);
            let same = answer == wanted;
            self.hold("a search by hash", &[&hash.to_be_bytes()], same);
        }
    }

    /// More words than are searched.
    pub fn find_hash_refused(&mut self, told: &[u64]) {
        let answer = raw::find_hash(told, 0);
        self.called(Function::FindHash, answer);
        self.hold("a search in too many words", &[], answer == 20);
    }

    pub fn value(&mut self, value: &[u8]) {
        self.inputs += 1;
        let plain = read_value(value).map_err(alone);
        let wanted = match &plain {
            Err(refusal) => Wanted::refused(*refusal),
            Ok(read) => Wanted {
                answer: 0,
                words: [&part_words(read, 0)[..], &[read.v]].concat(),
                bytes: Vec::new(),
            },
        };
        let rooms = [10, 9, 0, 13].map(|n| (n, 0));
        let call = |words: &mut [u64], _: &mut [u8]| raw::value(value, words);
        self.lent(Function::Value, &[value], &wanted, &rooms, call);
        let same = vof::value(value).map(|read| read.structure_version) == plain.map(|read| read.v);
        self.hold("the safe value", &[value], same);
    }

    pub fn record(&mut self, pack: &[u8], at: usize) {
        self.inputs += 1;
        let plain = record_at(pack, at);
        let wanted = match &plain {
            Err(refusal) => Wanted::refused(*refusal),
            Ok(record) => Wanted {
                answer: 0,
                words: record_words(record),
                bytes: record.content.identifier.to_text(),
            },
        };
        let exact = wanted.bytes.len();
        let short = exact.saturating_sub(1);
        let rooms = [
            (16, exact),
            (15, exact),
            (16, short),
            (0, 0),
            (16, 0),
            (19, exact + 5),
        ];
        let call = |words: &mut [u64], bytes: &mut [u8]| raw::record(pack, at, words, bytes);
        let place = at.to_be_bytes();
        self.lent(Function::Record, &[pack, &place], &wanted, &rooms, call);
        let safe = vof::record(pack, at as u64);
        let same = safe.map(|record| record.value) == plain.map(|record| record.bytes);
        self.hold("the safe record", &[pack, &place], same);
    }

    pub fn current(&mut self, pack: &[u8], bucket: &[u8], object: &[u8]) {
        self.inputs += 1;
        let plain = current(pack, bucket, object);
        let wanted = match &plain {
            Err(refusal) => Wanted::refused(*refusal),
            Ok(None) => Wanted {
                answer: 0,
                words: vec![0; 4],
                bytes: Vec::new(),
            },
            Ok(Some(version)) => Wanted {
                answer: 0,
                words: version_words(version),
                bytes: version.identifier.ulid.clone(),
            },
        };
        let rooms = [(4, 26), (3, 26), (4, 25), (0, 0), (4, 0), (6, 31)];
        let inputs = [pack, bucket, object];
        let call =
            |words: &mut [u64], ulid: &mut [u8]| raw::current(pack, bucket, object, words, ulid);
        self.lent(Function::Current, &inputs, &wanted, &rooms, call);
        // More than the search has of its own, so that it is used, and none of it a hint.
        const LENT: [u32; 2 * vof::OWN_HINTS + 1] = [7; 2 * vof::OWN_HINTS + 1];
        let call = |words: &mut [u64], ulid: &mut [u8]| {
            let mut scratch = LENT;
            let answer = raw::current_with(pack, bucket, object, &mut scratch, words, ulid);
            // An answer that none gives tells of a refusal that changed it.
            if answer == 0 || scratch == LENT {
                answer
            } else {
                u64::MAX
            }
        };
        self.lent(Function::CurrentWith, &inputs, &wanted, &rooms, call);
        let safe = vof::current(pack, bucket, object).map(|found| found.map(|it| it.value));
        let same = safe == plain.map(|found| found.map(|it| it.value));
        self.hold("the safe current version", &inputs, same);
    }

    pub fn explain(&mut self, pack: &[u8], bucket: &[u8], object: &[u8]) {
        self.inputs += 1;
        let plain = explain(pack, bucket, object);
        let wanted = match &plain {
            Err(refusal) => Wanted::refused(*refusal),
            Ok(lines) => Wanted {
                answer: 256 * lines.len() as u64,
                words: lines.concat(),
                bytes: Vec::new(),
            },
        };
        let exact = wanted.words.len();
        let rooms = [exact, exact.saturating_sub(1), 0, exact + 1, exact + 7].map(|n| (n, 0));
        let inputs = [pack, bucket, object];
        let call = |words: &mut [u64], _: &mut [u8]| raw::explain(pack, bucket, object, words);
        self.lent(Function::Explain, &inputs, &wanted, &rooms, call);
        let safe = vof::explain(pack, bucket, object);
        let word = |line: &vof::Line| [line.start, line.reason as u64, line.place];
        let same = safe.map(|lines| lines.iter().map(word).collect::<Vec<_>>()) == plain;
        self.hold("the safe explanation", &inputs, same);
    }

    pub fn deposit(&mut self, pack: &[u8]) {
        self.inputs += 1;
        let plain = deposit::check(pack);
        let wanted = match &plain {
            Err(refusal) => Wanted::refused(*refusal),
            Ok(records) => Wanted {
                answer: 256 * *records as u64,
                words: Vec::new(),
                bytes: Vec::new(),
            },
        };
        let call = |_: &mut [u64], _: &mut [u8]| raw::check_deposit(pack);
        self.lent(Function::CheckDeposit, &[pack], &wanted, &[(0, 0)], call);
        let same = vof::check_deposit(pack) == plain;
        self.hold("the safe deposit check", &[pack], same);
    }

    /// All that is told of an object.
    pub fn object(&mut self, pack: &[u8], bucket: &[u8], object: &[u8]) {
        self.current(pack, bucket, object);
        self.explain(pack, bucket, object);
    }

    pub fn pack_list(&mut self, primary: &[u8]) {
        self.inputs += 1;
        let plain = read_pack_list(primary).map_err(alone);
        let wanted = match &plain {
            Err(refusal) => Wanted::refused(*refusal),
            Ok(list) => Wanted {
                answer: 256 * list.entries.len() as u64,
                words: list.entries.iter().flat_map(pack_entry_words).collect(),
                bytes: Vec::new(),
            },
        };
        let exact = wanted.words.len();
        let rooms = [exact, exact.saturating_sub(1), 0, exact + 1, exact + 7].map(|n| (n, 0));
        let call = |words: &mut [u64], _: &mut [u8]| raw::pack_list(primary, words);
        self.lent(Function::PackList, &[primary], &wanted, &rooms, call);
        let safe = vof::pack_list(primary).map(|entries| entries.len());
        let same = safe == plain.map(|list| list.entries.len());
        self.hold("the safe pack list", &[primary], same);
    }

    pub fn find_block(&mut self, primary: &[u8], byte: u64) {
        self.inputs += 1;
        let plain = read_pack_list(primary).map_err(alone);
        let wanted = match &plain {
            Err(refusal) => Wanted::refused(*refusal),
            Ok(list) => Wanted {
                answer: 0,
                words: found_words(list, byte).to_vec(),
                bytes: Vec::new(),
            },
        };
        let rooms = [6, 5, 0, 9].map(|n| (n, 0));
        let place = byte.to_be_bytes();
        let inputs = [primary, &place];
        let call = |words: &mut [u64], _: &mut [u8]| raw::find_block(primary, byte, words);
        self.lent(Function::FindBlock, &inputs, &wanted, &rooms, call);
        let safe = vof::find_block(primary, byte).map(|found| found.and_then(|it| it.block));
        let block = |list| find(&list, byte).and_then(|found| found.block);
        let same = safe == plain.map(|list| block(list).map(|number| number as u64));
        self.hold("the safe block", &inputs, same);
    }

    pub fn item(&mut self, bytes: &[u8]) {
        self.inputs += 1;
        let plain = form::item(bytes).map_err(alone);
        let wanted = match &plain {
            Err(refusal) => Wanted::refused(*refusal),
            Ok(told) => Wanted {
                answer: 0,
                words: vec![
                    told.kind,
                    told.length as u64,
                    told.argument.unsigned_abs() as u64,
                    u64::from(told.argument < 0),
                    u64::from(told.short),
                ],
                bytes: Vec::new(),
            },
        };
        let rooms = [5, 4, 0, 8].map(|n| (n, 0));
        let call = |words: &mut [u64], _: &mut [u8]| raw::item(bytes, words);
        self.lent(Function::Item, &[bytes], &wanted, &rooms, call);
        let safe = vof::item(bytes).map(|item| (item.length, item.argument, item.is_short));
        let same = safe == plain.map(|told| (told.length as u64, told.argument, told.short));
        self.hold("the safe item", &[bytes], same);
    }

    /// A call of the writer, with buffers around the length that is needed.
    fn write(
        &mut self,
        function: Function,
        inputs: &[&[u8]],
        used: usize,
        record: Result<Vec<u8>, Number>,
        call: impl Fn(&mut [u8]) -> u64,
        safe: impl Fn(&mut [u8]) -> Result<usize, Refusal>,
    ) {
        self.inputs += 1;
        let length = record.as_ref().map_or(100, Vec::len);
        // Where no buffer could be long enough, short ones will do.
        let end = used.saturating_add(length);
        let exact = if end > 1 << 24 { length } else { end };
        for room in [exact, exact - 1, 0, length - 1, exact + 9] {
            let mut buffer = pattern_bytes(room);
            let (wanted, right) = after_write(&record, used, room);
            let answer = call(&mut buffer);
            self.called(function, wanted);
            if answer != wanted || buffer != right {
                let proved = format!("{answer} {}", shown(&buffer));
                let plain = format!("{wanted} {}", shown(&right));
                let told = format!("used {used}\n  proved {proved}\n  plain  {plain}");
                self.fail(&format!("{function:?}"), inputs, told);
            }
        }
        let same = safe(&mut pattern_bytes(exact)) == written(&record, used, exact);
        self.hold("the safe write", inputs, same);
    }

    pub fn write_block(&mut self, used: usize, identifier: &[u8], data: &[u8]) {
        self.write(
            Function::WriteBlock,
            &[identifier, data],
            used,
            writer::block(identifier, data),
            |buffer| raw::write_block(buffer, used, identifier, data),
            |buffer| vof::write_block(buffer, used, identifier, data),
        );
    }

    /// A version's primary part, made as the number asks for it, and the version that is written with it,
    /// which reads back.
    pub fn version_of(&mut self, used: usize, identifier: &[u8], marker: u64) {
        self.inputs += 1;
        let is_delete_marker = marker != 0;
        let plain = writer::version_part(identifier, is_delete_marker);
        let wanted = match &plain {
            Err(_) => Wanted::refused(alone(20)),
            Ok(part) => Wanted {
                answer: 256 * part.len() as u64,
                words: Vec::new(),
                bytes: part.clone(),
            },
        };
        let exact = wanted.bytes.len();
        let rooms = [exact, exact.saturating_sub(1), 0, exact + 1, exact + 70].map(|n| (0, n));
        let number = marker.to_be_bytes();
        let inputs = [identifier, &number];
        let call = |_: &mut [u64], part: &mut [u8]| raw::version_part(part, identifier, marker);
        self.lent(Function::VersionPart, &inputs, &wanted, &rooms, call);
        let safe = vof::version_part(identifier, is_delete_marker);
        let same = safe == plain.clone().map_err(not_admitted);
        self.hold("the safe part", &inputs, same);
        let record = plain.map(|part| writer::with_primary(b"vr", &part));
        let mut buffer = pattern_bytes(vof::HEADER_LENGTH + 6 + exact);
        let safe = vof::write_version_of(&mut buffer, used, identifier, is_delete_marker);
        let same = safe == written(&record, used, buffer.len());
        self.hold("the version of an identifier", &inputs, same);
        if let Ok(count) = safe {
            let read = vof::record(&buffer[..count], used as u64).unwrap();
            let same = read.identifier.composite() == identifier;
            let same = same && read.is_delete_marker == is_delete_marker;
            self.hold("the version reads back", &inputs, same);
        }
    }

    pub fn write_version(&mut self, used: usize, primary: &[u8]) {
        self.write(
            Function::WriteVersion,
            &[primary],
            used,
            writer::version(primary),
            |buffer| raw::write_version(buffer, used, primary),
            |buffer| vof::write_version(buffer, used, primary),
        );
    }

    pub fn write_delete(&mut self, used: usize, primary: &[u8]) {
        self.write(
            Function::WriteDelete,
            &[primary],
            used,
            writer::delete(primary),
            |buffer| raw::write_delete(buffer, used, primary),
            |buffer| vof::write_delete(buffer, used, primary),
        );
    }

    pub fn write_pack_list(&mut self, used: usize, primary: &[u8]) {
        self.write(
            Function::WritePackList,
            &[primary],
            used,
            writer::pack_list(primary),
            |buffer| raw::write_pack_list(buffer, used, primary),
            |buffer| vof::write_pack_list(buffer, used, primary),
        );
    }

    pub fn write_delete_of(&mut self, used: usize, identifier: &[u8], delete_ulid: &[u8]) {
        self.write(
            Function::WriteDeleteOf,
            &[identifier, delete_ulid],
            used,
            writer::delete_of(identifier, delete_ulid),
            |buffer| raw::write_delete_of(buffer, used, identifier, delete_ulid),
            |buffer| vof::write_delete_of(buffer, used, identifier, delete_ulid),
        );
    }
}

/// 20, because of what a reader would say.
fn not_admitted(because: Number) -> Refusal {
    Refusal {
        because: Some(because),
        ..alone(20)
    }
}

/// The new count, or why there is none: of what is not admitted what a reader would say, or that the pack is
/// full.
fn written(record: &Result<Vec<u8>, Number>, used: usize, room: usize) -> Result<usize, Refusal> {
    let record = record.as_ref().map_err(|&number| not_admitted(number))?;
    writer::count(record.len(), used, room).map_err(|number| match number {
        20 => not_admitted(1),
        number => alone(number),
    })
}

/// The answer of a write, and the buffer after it.
fn after_write(record: &Result<Vec<u8>, Number>, used: usize, room: usize) -> (u64, Vec<u8>) {
    let mut buffer = pattern_bytes(room);
    let (count, record) = match (written(record, used, room), record) {
        (Ok(count), Ok(record)) => (count, record),
        (refused, _) => return (refused.unwrap_err().number.into(), buffer),
    };
    buffer[used..count].copy_from_slice(record);
    (256 * count as u64, buffer)
}

fn number(tag: [u8; 2]) -> u64 {
    u64::from(u16::from_be_bytes(tag))
}

fn entry_words(&(start, tag, value): &(usize, [u8; 2], &[u8])) -> [u64; 4] {
    let hash = crate::plain::xxh64::xxh64(value);
    [start as u64, number(tag), value.len() as u64, hash]
}

fn safe_entry_words(entry: &vof::Entry) -> [u64; 4] {
    let tag = u16::from_be_bytes(entry.tag.bytes()).into();
    [entry.start, tag, entry.value_length, entry.value_hash]
}

/// The nine numbers of a value's parts; `base`: where the value starts.
fn part_words(value: &Value, base: usize) -> [u64; 9] {
    let (primary, secondary) = (value.primary, value.secondary);
    [
        (base + primary.start) as u64,
        primary.length as u64,
        u64::from(value.listed),
        (base + secondary.start) as u64,
        secondary.length as u64,
        primary.c,
        u64::from(primary.z),
        secondary.c,
        u64::from(secondary.z),
    ]
}

fn record_words(record: &Record) -> Vec<u64> {
    let content = &record.content;
    let primary = record.start + record.value.primary.start;
    let (by_start, by_length) = match content.delete_ulid {
        None => (0, 0),
        Some(ulid) => (primary + ulid.start, ulid.bytes.len()),
    };
    let mut words = vec![
        number(record.tag),
        record.start as u64,
        record.bytes.len() as u64,
    ];
    words.extend(part_words(&record.value, record.start));
    words.extend([
        u64::from(content.deleted),
        content.identifier.to_text().len() as u64,
        by_start as u64,
        by_length as u64,
    ]);
    words
}

fn version_words(version: &Version) -> Vec<u64> {
    let (start, length) = (version.start as u64, version.value.len() as u64);
    vec![1, start, length, u64::from(version.deleted)]
}

fn pack_entry_words(entry: &pack_list::Entry) -> [u64; 6] {
    [
        entry.pack.start as u64,
        entry.source.start,
        entry.source.length,
        entry.stored.start,
        entry.stored.length,
        entry.blocks() as u64,
    ]
}

fn found_words(list: &PackList, byte: u64) -> [u64; 6] {
    let Some(found) = find(list, byte) else {
        return [0; 6];
    };
    [
        if found.block.is_some() { 2 } else { 1 },
        found.entry as u64,
        found.block.unwrap_or(0) as u64,
        list.entries[found.entry].pack.start as u64,
        found.stored.start,
        found.stored.length,
    ]
}
