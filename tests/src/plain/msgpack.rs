//! One MessagePack item, read into a tree.

use super::Number;

/// Bytes of the input, and where they start in it.
#[derive(Clone, Copy, Debug)]
pub struct Span<'a> {
    pub start: usize,
    pub bytes: &'a [u8],
}

#[derive(Debug)]
pub enum Item<'a> {
    Nil,
    Boolean(bool),
    Integer(i128),
    Float,
    Text(Span<'a>),
    Bytes(Span<'a>),
    Extension,
    List(Vec<Item<'a>>),
    Map(Vec<(Item<'a>, Item<'a>)>),
}

impl<'a> Item<'a> {
    /// All that a map has under a key, in whatever width this is written.
    fn values(&self, key: &str) -> Vec<&Item<'a>> {
        let Item::Map(pairs) = self else {
            return Vec::new();
        };
        let is_key = |item: &Item| matches!(item, Item::Text(text) if text.bytes == key.as_bytes());
        let found = pairs.iter().filter(|(item, _)| is_key(item));
        found.map(|(_, value)| value).collect()
    }

    /// The last of these, on which types and rules are tested.
    pub fn get(&self, key: &str) -> Option<&Item<'a>> {
        self.values(key).pop()
    }

    /// Refusal 22, where a map has one of these keys twice.
    pub fn once(&self, keys: &[&str]) -> Result<(), Number> {
        match keys.iter().any(|key| self.values(key).len() > 1) {
            true => Err(22),
            false => Ok(()),
        }
    }
}

#[derive(Debug, PartialEq)]
pub enum Fault {
    /// It ends early, or has the byte C1 where an item should begin.
    NotWhole,
    /// A container at depth 17.
    TooDeep,
}

/// The item at the front of the bytes, and its length.
pub fn read(bytes: &[u8]) -> Result<(Item<'_>, usize), Fault> {
    let mut reader = Reader { bytes, at: 0 };
    let item = reader.item(1)?;
    Ok((item, reader.at))
}

struct Reader<'a> {
    bytes: &'a [u8],
    at: usize,
}

impl<'a> Reader<'a> {
    fn take(&mut self, length: usize) -> Result<Span<'a>, Fault> {
        let start = self.at;
        if length > self.bytes.len() - start {
            return Err(Fault::NotWhole);
        }
        self.at += length;
        let bytes = &self.bytes[start..self.at];
        Ok(Span { start, bytes })
    }

    fn number(&mut self, width: usize) -> Result<u64, Fault> {
        let bytes = self.take(width)?.bytes;
        Ok(bytes
            .iter()
            .fold(0, |number, &byte| number << 8 | u64::from(byte)))
    }

    fn length(&mut self, width: usize) -> Result<usize, Fault> {
        Ok(self.number(width)? as usize)
    }

    /// A container met here is at `depth`.
    fn item(&mut self, depth: u32) -> Result<Item<'a>, Fault> {
        let first = self.take(1)?.bytes[0];
        let low = |bits: u32| usize::from(first) % (1 << bits);
        // 1, 2, 4 or 8 bytes, in the order of the first bytes from `base`.
        let width = |base: u8| 1 << (first - base);
        Ok(match first {
            0x00..=0x7F => Item::Integer(i128::from(first)),
            0x80..=0x8F => self.map(low(4), depth)?,
            0x90..=0x9F => self.list(low(4), depth)?,
            0xA0..=0xBF => Item::Text(self.take(low(5))?),
            0xC0 => Item::Nil,
            0xC1 => return Err(Fault::NotWhole),
            0xC2 | 0xC3 => Item::Boolean(first == 0xC3),
            0xC4..=0xC6 => Item::Bytes(self.sized(width(0xC4))?),
            0xC7..=0xC9 => self.extension(width(0xC7))?,
            0xCA | 0xCB => self.take(4 * width(0xCA)).map(|_| Item::Float)?,
            0xCC..=0xCF => Item::Integer(i128::from(self.number(width(0xCC))?)),
            0xD0..=0xD3 => Item::Integer(self.signed(width(0xD0))?),
            0xD4..=0xD8 => self.take(1 + width(0xD4)).map(|_| Item::Extension)?,
            0xD9..=0xDB => Item::Text(self.sized(width(0xD9))?),
            0xDC | 0xDD => {
                let count = self.length(2 * width(0xDC))?;
                self.list(count, depth)?
            }
            0xDE | 0xDF => {
                let count = self.length(2 * width(0xDE))?;
                self.map(count, depth)?
            }
            0xE0..=0xFF => Item::Integer(i128::from(first) - 256),
        })
    }

    fn sized(&mut self, width: usize) -> Result<Span<'a>, Fault> {
        let length = self.length(width)?;
        self.take(length)
    }

    fn signed(&mut self, width: usize) -> Result<i128, Fault> {
        let number = i128::from(self.number(width)?);
        let half = 1 << (8 * width - 1);
        Ok(if number < half {
            number
        } else {
            number - 2 * half
        })
    }

    fn extension(&mut self, width: usize) -> Result<Item<'a>, Fault> {
        let length = self.length(width)?;
        self.take(1 + length).map(|_| Item::Extension)
    }

    fn list(&mut self, count: usize, depth: u32) -> Result<Item<'a>, Fault> {
        if depth > 16 {
            return Err(Fault::TooDeep);
        }
        let mut items = Vec::new();
        for _ in 0..count {
            items.push(self.item(depth + 1)?);
        }
        Ok(Item::List(items))
    }

    fn map(&mut self, count: usize, depth: u32) -> Result<Item<'a>, Fault> {
        if depth > 16 {
            return Err(Fault::TooDeep);
        }
        let mut pairs = Vec::new();
        for _ in 0..count {
            pairs.push((self.item(depth + 1)?, self.item(depth + 1)?));
        }
        Ok(Item::Map(pairs))
    }
}
