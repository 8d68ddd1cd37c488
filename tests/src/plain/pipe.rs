//! A pack that comes in parts: request 6 of document 02, one byte after the other, and XXH64 of bytes that
//! come so. The numbers of a state are those of include/vof.h.

use super::pack::{number, read_header, refusal};
use super::Number;
use vof::{Entry, Refusal, Tag};

/// The longest pack.
pub const LIMIT: u64 = 1_099_511_627_776;

const MARK: u64 = 0x564F462050495045;

const P1: u64 = 0x9E3779B185EBCA87;
const P2: u64 = 0xC2B2AE3D27D4EB4F;
const P3: u64 = 0x165667B19E3779F9;
const P4: u64 = 0x85EBCA77C2B2AE63;
const P5: u64 = 0x27D4EB2F165667C5;

/// What the hash of a value's bytes so far is made of.
#[derive(Clone, Debug, PartialEq)]
pub struct Hash {
    accumulators: [u64; 4],
    count: u64,
    /// The bytes since the last whole 32.
    held: Vec<u8>,
}

fn little(bytes: &[u8]) -> u64 {
    let add = |number, &byte: &u8| number << 8 | u64::from(byte);
    bytes.iter().rev().fold(0, add)
}

fn round(accumulator: u64, lane: u64) -> u64 {
    let sum = accumulator.wrapping_add(lane.wrapping_mul(P2));
    sum.rotate_left(31).wrapping_mul(P1)
}

impl Hash {
    fn new() -> Hash {
        Hash {
            accumulators: [P1.wrapping_add(P2), P2, 0, P1.wrapping_neg()],
            count: 0,
            held: Vec::new(),
        }
    }

    pub fn push(&mut self, byte: u8) {
        self.count += 1;
        self.held.push(byte);
        if self.held.len() == 32 {
            for (at, accumulator) in self.accumulators.iter_mut().enumerate() {
                *accumulator = round(*accumulator, little(&self.held[8 * at..][..8]));
            }
            self.held.clear();
        }
    }

    /// Steps 3 to 6 of the xxHash specification.
    pub fn finish(&self) -> u64 {
        let mut hash = P5;
        if self.count >= 32 {
            let turned = self.accumulators.iter().zip([1, 7, 12, 18]);
            hash = turned.fold(0, |sum, (lane, by)| sum.wrapping_add(lane.rotate_left(by)));
            for &lane in &self.accumulators {
                hash = (hash ^ round(0, lane)).wrapping_mul(P1).wrapping_add(P4);
            }
        }
        hash = hash.wrapping_add(self.count);
        let mut left = &self.held[..];
        while let Some((lane, rest)) = left.split_at_checked(8) {
            hash ^= round(0, little(lane));
            hash = hash.rotate_left(27).wrapping_mul(P1).wrapping_add(P4);
            left = rest;
        }
        if let Some((lane, rest)) = left.split_at_checked(4) {
            hash ^= little(lane).wrapping_mul(P1);
            hash = hash.rotate_left(23).wrapping_mul(P2).wrapping_add(P3);
            left = rest;
        }
        for &byte in left {
            hash ^= u64::from(byte).wrapping_mul(P5);
            hash = hash.rotate_left(11).wrapping_mul(P1);
        }
        hash = (hash ^ (hash >> 33)).wrapping_mul(P2);
        hash = (hash ^ (hash >> 29)).wrapping_mul(P3);
        hash ^ (hash >> 32)
    }
}

/// What is kept between calls.
#[derive(Clone, Debug, PartialEq)]
pub enum State {
    /// In the header of the record that starts here, behind so many records: its bytes so far.
    Header(u64, u64, Vec<u8>),
    /// In its value: the header's bytes, and the hash.
    Value(u64, u64, Vec<u8>, Hash),
    Refused(Number, u64),
    Ended(u64),
}

/// What a call tells.
#[derive(Clone, Copy, Debug, PartialEq)]
pub enum Event {
    Wanted,
    Complete(Entry),
    Ended,
}

fn bytes(words: &[u64]) -> Vec<u8> {
    words.iter().flat_map(|word| word.to_be_bytes()).collect()
}

/// Whether so many bytes may have been taken.
fn within(counts: &[u64]) -> bool {
    let sum: u128 = counts.iter().map(|&count| u128::from(count)).sum();
    sum <= u128::from(LIMIT)
}

impl State {
    pub fn new() -> State {
        State::Header(0, 0, Vec::new())
    }

    /// None where the numbers are not well formed.
    pub fn from_words(words: &[u64]) -> Option<State> {
        let words = words.get(..19)?;
        let [mark, phase, start, records, refusal, held, a, b, c, d, count] = words[..11] else {
            return None;
        };
        let (header, stripe) = (bytes(&words[11..15]), bytes(&words[15..]));
        let few = records <= start;
        match phase {
            _ if mark != MARK => None,
            0 if held < 32 && few && within(&[start, held]) => Some(State::Header(
                start,
                records,
                header[..held as usize].to_vec(),
            )),
            1 if count < number(&header[8..16]) && few && within(&[start, 32, count]) => {
                let hash = Hash {
                    accumulators: [a, b, c, d],
                    count,
                    held: stripe[..count as usize % 32].to_vec(),
                };
                Some(State::Value(start, records, header, hash))
            }
            2 if (1..=8).contains(&refusal) && start <= LIMIT => {
                Some(State::Refused(refusal as Number, start))
            }
            3 if records <= LIMIT => Some(State::Ended(records)),
            _ => None,
        }
    }

    /// How many bytes were taken since the fresh state.
    fn position(&self) -> u64 {
        match self {
            State::Header(start, _, held) => start + held.len() as u64,
            State::Value(start, _, _, hash) => start + 32 + hash.count,
            State::Refused(..) | State::Ended(_) => 0,
        }
    }

    fn refusal(&self) -> Option<Refusal> {
        match *self {
            State::Refused(number, place) => Some(refusal(number, place as usize)),
            _ => None,
        }
    }

    /// After one byte more, and the record that is complete with it.
    fn after(self, byte: u8) -> (State, Option<Entry>) {
        if self.position() >= LIMIT {
            return (State::Refused(1, 0), None);
        }
        match self {
            State::Header(start, records, mut held) => {
                held.push(byte);
                if held.len() < 32 {
                    return (State::Header(start, records, held), None);
                }
                match read_header(&held) {
                    Err(number) => (State::Refused(number, start), None),
                    Ok(_) => State::Value(start, records, held, Hash::new()).if_complete(),
                }
            }
            State::Value(start, records, header, mut hash) => {
                hash.push(byte);
                State::Value(start, records, header, hash).if_complete()
            }
            done => (done, None),
        }
    }

    /// Where the whole value is there, the next state.
    fn if_complete(self) -> (State, Option<Entry>) {
        let State::Value(start, records, header, hash) = &self else {
            return (self, None);
        };
        let (length, wanted) = (number(&header[8..16]), number(&header[16..24]));
        if hash.count < length {
            return (self, None);
        }
        if hash.finish() != wanted {
            return (State::Refused(8, *start), None);
        }
        let record = Entry {
            start: *start,
            tag: Tag::from([header[25], header[26]]),
            value_length: length,
            value_hash: wanted,
        };
        let next = State::Header(start + 32 + length, records + 1, Vec::new());
        (next, Some(record))
    }

    /// The state after a part, and what is told: how many bytes were taken, and what has happened; or
    /// the refusal.
    pub fn take(mut self, part: &[u8]) -> (State, Result<(usize, Event), Refusal>) {
        if let State::Ended(_) = self {
            return (self, Ok((0, Event::Ended)));
        }
        for (at, &byte) in part.iter().enumerate() {
            let (next, record) = self.after(byte);
            self = next;
            if let Some(record) = record {
                return (self, Ok((at + 1, Event::Complete(record))));
            }
        }
        match self.refusal() {
            Some(refusal) => (self, Err(refusal)),
            None => (self, Ok((part.len(), Event::Wanted))),
        }
    }

    /// The state after the announced end, and how many records there are, or the refusal.
    pub fn end(self) -> (State, Result<u64, Refusal>) {
        let ended = match self {
            State::Header(_, records, held) if held.is_empty() => State::Ended(records),
            State::Header(start, ..) => State::Refused(2, start),
            State::Value(start, ..) => State::Refused(7, start),
            done => done,
        };
        match ended {
            State::Ended(records) => (ended, Ok(records)),
            ref refused => (refused.clone(), Err(refused.refusal().unwrap())),
        }
    }
}
