//! Pack lists: request 1 of document 02.

use super::identifier::{is_ulid, Identifier};
use super::msgpack::{Item, Span};
use super::record::{text, whole_map, Named};
use super::Number;

#[derive(Clone, Copy, Debug, PartialEq)]
pub struct Range {
    pub start: u64,
    pub length: u64,
}

#[derive(Debug)]
pub struct Entry<'a> {
    /// The pack's ULID, a part of the primary part.
    pub pack: Span<'a>,
    pub source: Range,
    pub stored: Range,
    /// Of all blocks that are listed: all, or all but the last.
    lengths: Vec<u64>,
    /// Of every block, from the stride.
    deltas: Vec<i128>,
}

#[derive(Debug)]
pub struct PackList<'a> {
    pub identifier: Identifier,
    pub entries: Vec<Entry<'a>>,
}

/// Where a byte of the version stands.
#[derive(Debug, PartialEq)]
pub struct Found {
    pub entry: usize,
    /// None where the lengths of the entry's blocks place no byte.
    pub block: Option<usize>,
    /// The block's range of the pack, or the entry's.
    pub stored: Range,
}

fn natural(item: &Item) -> Result<u64, Number> {
    match item {
        Item::Integer(number) => u64::try_from(*number).map_err(|_| 17),
        _ => Err(17),
    }
}

fn integer(item: &Item) -> Result<i128, Number> {
    match item {
        Item::Integer(number) => Ok(*number),
        _ => Err(17),
    }
}

/// What is read of each item of a list; an absent list is empty.
fn each<'i, 'a, T>(
    list: Option<&'i Item<'a>>,
    read: impl Fn(&'i Item<'a>) -> Result<T, Number>,
) -> Result<Vec<T>, Number> {
    match list {
        None => Ok(Vec::new()),
        Some(Item::List(items)) => items.iter().map(read).collect(),
        Some(_) => Err(17),
    }
}

/// The range under a key that must be there.
fn range(map: &Item, key: &str) -> Result<Range, Number> {
    let Some(range @ Item::Map(_)) = map.get(key) else {
        return Err(17);
    };
    let number = |key| range.get(key).map_or(Ok(0), natural);
    Ok(Range {
        start: number("s")?,
        length: number("l")?,
    })
}

fn entry<'a>(map: &Item<'a>) -> Result<Entry<'a>, Number> {
    let entry = Entry {
        pack: text(map, "p")?,
        source: range(map, "o")?,
        stored: range(map, "t")?,
        lengths: each(map.get("E"), natural)?,
        deltas: each(map.get("N"), integer)?,
    };
    Ok(entry.with_all_deltas())
}

/// Refusal 22 of an entry and its ranges.
fn once(map: &Item) -> Result<(), Number> {
    map.once(&["p", "o", "t", "E", "N"])?;
    let ranges = ["o", "t"].iter().filter_map(|key| map.get(key));
    ranges.map(|range| range.once(&["s", "l"])).collect()
}

/// Refusals 16, 17, 22, 18 and 21, in this order.
pub fn read_pack_list(bytes: &[u8]) -> Result<PackList<'_>, Number> {
    let map = whole_map(bytes)?;
    let named = Named::under(&map)?;
    let entries = each(map.get("P"), entry)?;
    map.once(&["P"])?;
    named.once(&map)?;
    each(map.get("P"), once)?;
    let identifier = named.identifier()?;
    if !entries.iter().all(|entry| is_ulid(entry.pack.bytes)) {
        return Err(18);
    }
    if !entries.iter().all(Entry::is_filled) {
        return Err(21);
    }
    Ok(PackList {
        identifier,
        entries,
    })
}

fn is_short(range: Range) -> bool {
    range.start.checked_add(range.length).is_some()
}

fn total(lengths: &[u64]) -> u128 {
    lengths.iter().map(|&length| u128::from(length)).sum()
}

impl Entry<'_> {
    /// Those listed, and one more where these do not fill the pack's range.
    pub fn blocks(&self) -> usize {
        let missing = total(&self.lengths) < u128::from(self.stored.length);
        self.lengths.len() + usize::from(missing)
    }

    /// 0 for a block that has none, and none past the last block.
    fn with_all_deltas(mut self) -> Self {
        self.deltas.resize(self.blocks(), 0);
        self
    }

    fn is_filled(&self) -> bool {
        is_short(self.source)
            && is_short(self.stored)
            && total(&self.lengths) <= u128::from(self.stored.length)
    }

    /// Whether it has a block, and 64 bits hold the sums of its deltas.
    fn is_counted(&self) -> bool {
        let sum = |sign: i128| -> u128 {
            let magnitudes = self.deltas.iter().map(|delta| (sign * delta).max(0));
            magnitudes.map(|magnitude| magnitude as u128).sum()
        };
        let most = u128::from(u64::MAX);
        let held = sum(1) <= most && u128::from(self.source.length) + sum(-1) <= most;
        self.blocks() > 0 && held
    }

    /// Whether its blocks hold the source range by this stride.
    fn holds_by(&self, stride: i128) -> bool {
        let deltas: i128 = self.deltas.iter().sum();
        self.blocks() as i128 * stride + deltas >= i128::from(self.source.length)
    }

    /// The source length of each block; None where one is below 0, there is none, or the sums are not
    /// held.
    fn source_lengths(&self, stride: i128) -> Option<Vec<u64>> {
        if !self.is_counted() {
            return None;
        }
        let (_, front) = self.deltas.split_last()?;
        let mut lengths: Vec<i128> = front.iter().map(|delta| stride + delta).collect();
        lengths.push(i128::from(self.source.length) - lengths.iter().sum::<i128>());
        let lengths = lengths.into_iter().map(|length| u64::try_from(length).ok());
        lengths.collect()
    }

    /// The stored length of each block.
    fn stored_lengths(&self) -> Vec<u64> {
        let mut lengths = self.lengths.clone();
        if lengths.len() < self.blocks() {
            lengths.push(self.stored.length - total(&self.lengths) as u64);
        }
        lengths
    }

    /// The block with the byte at this offset of the source range, and its range of the pack.
    fn block_at(&self, stride: i128, mut offset: u64) -> Option<(usize, Range)> {
        let mut start = self.stored.start;
        let both = self.source_lengths(stride)?.into_iter();
        for (number, (source, length)) in both.zip(self.stored_lengths()).enumerate() {
            if offset < source {
                return Some((number, Range { start, length }));
            }
            offset -= source;
            start += length;
        }
        None
    }
}

/// The least with which the blocks of every entry hold its source range: each bit from the top is
/// left out, if the ones below it can make up for it.
fn stride(entries: &[Entry]) -> i128 {
    let counted = |entry: &&Entry| entry.is_counted();
    let (mut least, mut bit) = (0, 1 << 64);
    while bit > 0 {
        let without = least + bit - 1;
        if !entries
            .iter()
            .filter(counted)
            .all(|entry| entry.holds_by(without))
        {
            least += bit;
        }
        bit >>= 1;
    }
    least
}

/// Where a byte of the version stands, in the first entry that holds it; None: in no entry.
pub fn find(list: &PackList, byte: u64) -> Option<Found> {
    let holds = |entry: &Entry| {
        let offset = byte.checked_sub(entry.source.start);
        offset.is_some_and(|offset| offset < entry.source.length)
    };
    let number = list.entries.iter().position(holds)?;
    let entry = &list.entries[number];
    let block = entry.block_at(stride(&list.entries), byte - entry.source.start);
    Some(Found {
        entry: number,
        block: block.map(|(number, _)| number),
        stored: block.map_or(entry.stored, |(_, stored)| stored),
    })
}
