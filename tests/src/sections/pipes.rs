//! Packs in parts: cut by chance and at every place, whole and damaged; states that no call leaves; and
//! states that claim so many bytes that the limit is near.

use crate::compare::Compare;
use crate::generate::{edge, records, with_header_hash, with_length};
use crate::plain::pack::{header, record, refusal, walk, Entry};
use crate::plain::pipe::{State, LIMIT};
use crate::random::Random;
use vof::raw::PIPE_STATE;
use vof::Refusal;

/// Lengths of values near those where the hash goes on differently, and none.
const LENGTHS: [usize; 14] = [0, 0, 1, 3, 4, 8, 31, 32, 33, 63, 64, 65, 100, 1000];

/// A good pack; few of its values are read by anyone.
fn good(random: &mut Random, most: usize) -> Vec<Vec<u8>> {
    if random.once_in(3) {
        return records(random, most);
    }
    let count = random.below(most + 1);
    let one = |_| {
        let length = random.of(&LENGTHS);
        record([random.byte(), random.byte()], &random.bytes(length))
    };
    (0..count).map(one).collect()
}

/// The same with a fault, or with none.
fn damaged(random: &mut Random, list: &[Vec<u8>]) -> Vec<u8> {
    let mut list = list.to_vec();
    let last = list.len();
    let mut pack = match random.below(6) {
        0 => {
            let length = edge(random);
            list.insert(random.below(last + 1), with_length(*b"vr", length, b"abc"));
            return list.concat();
        }
        1 if last > 0 => {
            let fault = random.below(last);
            list[fault][random.below(32)] ^= 1 << random.below(8);
            list[fault] = with_header_hash(&list[fault]);
            return list.concat();
        }
        _ => list.concat(),
    };
    match random.below(4) {
        0 => pack.truncate(random.below(pack.len() + 1)),
        1 => {
            let more = random.of(&[1, 31, 32, 40]);
            pack.extend(random.bytes(more));
        }
        _ if pack.is_empty() => {}
        _ => {
            let at = random.below(pack.len());
            pack[at] ^= 1 << random.below(8);
        }
    }
    pack
}

/// Places in rising order, some of them twice: then a part is empty.
fn cuts(random: &mut Random, length: usize, most: usize) -> Vec<usize> {
    let mut ends: Vec<usize> = (0..random.below(most + 1))
        .map(|_| random.below(length + 1))
        .collect();
    if random.once_in(3) {
        ends.extend([0, length]);
    }
    ends.extend(ends.first().copied());
    ends.sort();
    ends
}

pub fn cut_by_chance(compare: &mut Compare, random: &mut Random) {
    random.faults = false;
    for _ in 0..20_000 {
        let list = good(random, 6);
        let mut pack = list.concat();
        if random.once_in(2) {
            pack = damaged(random, &list);
        }
        let most = random.of(&[1, 4, 20]);
        compare.pipe(&pack, &cuts(random, pack.len(), most));
        compare.pipe(&pack, &[]);
    }
}

/// In two parts, and byte by byte.
pub fn cut_everywhere(compare: &mut Compare, random: &mut Random) {
    random.faults = false;
    for _ in 0..60 {
        let list = good(random, 3);
        let faulty = damaged(random, &list);
        for pack in [list.concat(), faulty] {
            let all: Vec<usize> = (0..=pack.len()).collect();
            compare.pipe(&pack, &all);
            for &end in all.iter().filter(|&end| end % 50 < 2 || pack.len() < 400) {
                compare.pipe(&pack, &[end]);
            }
        }
    }
    // A value that is longer than the parts by far.
    let pack = [record(*b"bk", &random.bytes(200_000)), record(*b"bk", b"")].concat();
    for part in [1000, 65_536] {
        let ends: Vec<usize> = (1..pack.len().div_ceil(part)).map(|n| n * part).collect();
        compare.pipe(&pack, &ends);
    }
}

/// Each byte of a record changed, between two others.
pub fn changed(compare: &mut Compare, random: &mut Random) {
    let front = record(*b"xx", &random.bytes(40));
    for length in [0, 1, 31, 32, 33, 64, 77] {
        let middle = record(*b"yy", &random.bytes(length));
        for at in 0..middle.len() {
            let mut faulty = middle.clone();
            faulty[at] ^= 1 << random.below(8);
            for faulty in [with_header_hash(&faulty), faulty] {
                let pack = [&front[..], &faulty, &front].concat();
                let place = front.len() + at;
                for ends in [vec![place], vec![place + 1], cuts(random, pack.len(), 6)] {
                    compare.pipe(&pack, &ends);
                }
            }
        }
    }
}

/// States as calls leave them, in every phase.
fn states(compare: &mut Compare, random: &mut Random) -> Vec<Vec<u64>> {
    let front = record(*b"xx", &random.bytes(5));
    let pack = [front.clone(), record(*b"yy", &random.bytes(99))].concat();
    let mut states = Vec::new();
    for end in [
        0, 1, 31, 32, 36, 37, 38, 68, 69, 70, 100, 101, 132, 133, 167, 168,
    ] {
        let (mut state, mut at) = (compare.pipe_start(), 0);
        while at < end {
            let (left, told) = compare.pipe_take(&state, &pack[at..end]);
            (state, at) = (left, at + told.unwrap().0);
        }
        let (ended, _) = compare.pipe_end(&state);
        states.extend([state, ended]);
    }
    for at in [37, 37 + 24, 37 + 27, 37 + 30, 37 + 40] {
        let mut faulty = pack.clone();
        faulty[at] ^= 1;
        let fresh = compare.pipe_start();
        let (state, _) = compare.pipe_take(&fresh, &front);
        let (refused, _) = compare.pipe_take(&state, &faulty[front.len()..]);
        states.push(refused);
    }
    states
}

/// Any call in this state.
fn any_call(compare: &mut Compare, random: &mut Random, state: &[u64]) {
    let length = random.of(&[1, 30, 31, 32, 33, 68, 100, 200]);
    let bytes = random.bytes(length);
    let good = record(*b"zz", &random.bytes(9));
    for part in [&[][..], &bytes, &good, &good[..length.min(32)]] {
        let _ = compare.pipe_take(state, part);
    }
    let _ = compare.pipe_end(state);
}

/// Numbers at the ends of every range of a state.
const ENDS: [u64; 18] = [
    0,
    1,
    2,
    3,
    4,
    8,
    9,
    31,
    32,
    33,
    LIMIT - 33,
    LIMIT - 32,
    LIMIT - 31,
    LIMIT - 1,
    LIMIT,
    LIMIT + 1,
    1 << 63,
    u64::MAX,
];

/// A number by chance, most often near a range's end.
fn any_number(random: &mut Random) -> u64 {
    let more = random.below(3) as u64;
    match random.below(4) {
        0 => random.next(),
        1 => random.below(200) as u64,
        _ => random.of(&ENDS).wrapping_add(more).wrapping_sub(1),
    }
}

pub fn any_state(compare: &mut Compare, random: &mut Random) {
    let states = states(compare, random);
    for state in &states {
        any_call(compare, random, state);
        for length in 0..PIPE_STATE {
            any_call(compare, random, &state[..length]);
        }
        for at in 0..PIPE_STATE {
            let (old, word) = (state[at], random.next());
            let near = [
                old.wrapping_sub(1),
                old.wrapping_add(1),
                old ^ 1 << random.below(64),
                word,
            ];
            for number in near.into_iter().chain(ENDS) {
                let mut state = state.clone();
                state[at] = number;
                any_call(compare, random, &state);
            }
        }
    }
    for _ in 0..100_000 {
        let mut state = states[random.below(states.len())].clone();
        let fresh: Vec<u64> = (0..PIPE_STATE).map(|_| any_number(random)).collect();
        match random.below(3) {
            0 => state[1..].copy_from_slice(&fresh[1..]),
            1 => state = fresh,
            // In one phase what another leaves.
            _ => state[2..5].copy_from_slice(&fresh[2..5]),
        }
        if !random.once_in(4) {
            state[1] = random.below(4) as u64;
        }
        if random.once_in(2) {
            state[12] = state[10].wrapping_add(random.below(70) as u64);
        }
        any_call(compare, random, &state);
    }
}

/// A state that claims so many bytes, in so many records.
fn claims(compare: &mut Compare, bytes: u64, records: u64) -> Vec<u64> {
    let mut state = compare.pipe_start();
    (state[2], state[3]) = (bytes, records);
    state
}

pub fn near_the_limit(compare: &mut Compare, random: &mut Random) {
    random.faults = false;
    for _ in 0..150 {
        let list = good(random, 4);
        let mut pack = list.concat();
        if random.once_in(4) {
            pack = damaged(random, &list);
        }
        let (entries, _) = walk(&pack, LIMIT);
        let mut places: Vec<usize> = entries.iter().map(|entry| entry.0).collect();
        places.extend([pack.len().saturating_sub(1), pack.len()]);
        places.push(random.below(pack.len() + 1));
        for place in places {
            for more in [0, 1, 31, 32, 33] {
                with_room(compare, random, &pack, (place + more) as u64);
            }
        }
    }
    in_long_values(compare, random);
}

/// The pack where so many bytes are left up to the limit.
fn with_room(compare: &mut Compare, random: &mut Random, pack: &[u8], room: u64) {
    let (bytes, before) = (LIMIT - room, random.below(1000) as u64);
    let state = claims(compare, bytes, before);
    let (told, verdict) = compare.session(state, pack, &cuts(random, pack.len(), 5));
    let (entries, ending) = walk(pack, LIMIT);
    let fits = |entry: &&Entry| (entry.0 + 32 + entry.2.len()) as u64 <= room;
    let starts = entries.iter().take_while(fits);
    let starts = starts.map(|entry| bytes + entry.0 as u64);
    let shown = told.iter().map(|record| record.start).eq(starts);
    compare.hold("the records up to the limit", &[pack], shown);
    let moved = |own: Refusal| refusal(own.number, (bytes + own.place.unwrap()) as usize);
    let own = ending.map(|()| before + told.len() as u64).map_err(moved);
    // A fault that is met earlier comes first.
    let met = told.len() == entries.len() && ending.is_err();
    let right = match pack.len() as u64 > room {
        true => verdict == Err(refusal(1, 0)) || met && verdict == own,
        false => verdict == own,
    };
    compare.hold("the verdict near the limit", &[pack], right);
}

/// The last bytes of values that are longer than any buffer, up to the limit and past it.
fn in_long_values(compare: &mut Compare, random: &mut Random) {
    for _ in 0..3_000 {
        let count = random.of(&[1 << 31, 1 << 32, 1 << 33, LIMIT - 200]) + random.below(64) as u64;
        let left = random.of(&[1, 2, 31, 32, 33, 70]);
        let (length, rest) = (count + left as u64, random.bytes(left));
        let end = random.of(&[0, 1, 2, 31, 100]);
        let start = (LIMIT + 1 - random.of(&[0, 1, 2])).saturating_sub(32 + length + end);
        let mut state = claims(compare, start, random.below(9) as u64);
        state[1] = 1;
        for word in &mut state[6..19] {
            *word = random.next();
        }
        (state[10], state[12]) = (count, length);
        let Some(State::Value(.., mut hash)) = State::from_words(&state) else {
            any_call(compare, random, &state);
            continue;
        };
        rest.iter().for_each(|&byte| hash.push(byte));
        let right = header(*b"zz", length, hash.finish(), [0, 0]);
        for (at, bytes) in right.chunks_exact(8).enumerate() {
            state[11 + at] = u64::from_be_bytes(bytes.try_into().unwrap());
        }
        let part = [&rest[..], &record(*b"yy", b"abc")].concat();
        let (told, _) = compare.session(state.clone(), &part, &cuts(random, part.len(), 3));
        let complete = told
            .first()
            .is_some_and(|record| record.value_length == length);
        let fits = start + 32 + length <= LIMIT;
        compare.hold("the end of a long value", &[&part], complete == fits);
        any_call(compare, random, &state);
    }
}
