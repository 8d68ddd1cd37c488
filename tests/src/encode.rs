//! MessagePack items in every form, right and wrong.

use crate::random::Random;

#[derive(Clone, Debug)]
pub enum Tree {
    Nil,
    Boolean(bool),
    Integer(i128),
    Text(Vec<u8>),
    Bytes(Vec<u8>),
    List(Vec<Tree>),
    Map(Vec<(Tree, Tree)>),
    /// Bytes as they are.
    Raw(Vec<u8>),
}

pub fn text(text: &str) -> Tree {
    Tree::Text(text.into())
}

/// A map whose keys are texts.
pub fn map<const N: usize>(pairs: [(&str, Tree); N]) -> Tree {
    Tree::Map(pairs.map(|(key, value)| (text(key), value)).into())
}

impl Tree {
    /// In the shortest form throughout.
    pub fn shortest(&self) -> Vec<u8> {
        self.encode(&mut |_| 0)
    }

    /// In forms by chance.
    pub fn any_form(&self, random: &mut Random) -> Vec<u8> {
        self.encode(&mut |forms| random.below(forms))
    }

    /// `pick` is told how many forms there are, the shortest being the first, and says which.
    pub fn encode(&self, pick: &mut impl FnMut(usize) -> usize) -> Vec<u8> {
        let mut pick_of = |mut forms: Vec<Vec<u8>>| forms.swap_remove(pick(forms.len()));
        match self {
            Tree::Nil => vec![0xC0],
            Tree::Boolean(is) => vec![0xC2 + u8::from(*is)],
            Tree::Integer(number) => pick_of(integer_forms(*number)),
            Tree::Text(text) => [pick_of(text_heads(text.len() as u64)), text.clone()].concat(),
            Tree::Bytes(bytes) => {
                [pick_of(bytes_heads(bytes.len() as u64)), bytes.clone()].concat()
            }
            Tree::Raw(bytes) => bytes.clone(),
            Tree::List(items) => {
                let head = pick_of(list_heads(items.len() as u64));
                let items = items.iter().map(|item| item.encode(pick));
                items.fold(head, |list, item| [list, item].concat())
            }
            Tree::Map(pairs) => {
                let mut map = pick_of(map_heads(pairs.len() as u64));
                for (key, value) in pairs {
                    map.extend(key.encode(pick));
                    map.extend(value.encode(pick));
                }
                map
            }
        }
    }
}

/// A first byte and a number in so many bytes, where it fits.
fn sized(first: u8, width: usize, number: u64) -> Option<Vec<u8>> {
    let bytes = number.to_be_bytes();
    let fits = width == 8 || number >> (8 * width) == 0;
    fits.then(|| [&[first], &bytes[8 - width..]].concat())
}

fn heads(fixed: u8, fixed_end: u64, forms: &[(u8, usize)], count: u64) -> Vec<Vec<u8>> {
    let short = (count < fixed_end).then(|| vec![fixed + count as u8]);
    let long = forms
        .iter()
        .filter_map(|&(first, width)| sized(first, width, count));
    short.into_iter().chain(long).collect()
}

pub fn text_heads(length: u64) -> Vec<Vec<u8>> {
    heads(0xA0, 32, &[(0xD9, 1), (0xDA, 2), (0xDB, 4)], length)
}

pub fn bytes_heads(length: u64) -> Vec<Vec<u8>> {
    heads(0, 0, &[(0xC4, 1), (0xC5, 2), (0xC6, 4)], length)
}

pub fn extension_heads(length: u64) -> Vec<Vec<u8>> {
    heads(0, 0, &[(0xC7, 1), (0xC8, 2), (0xC9, 4)], length)
}

pub fn list_heads(count: u64) -> Vec<Vec<u8>> {
    heads(0x90, 16, &[(0xDC, 2), (0xDD, 4)], count)
}

pub fn map_heads(count: u64) -> Vec<Vec<u8>> {
    heads(0x80, 16, &[(0xDE, 2), (0xDF, 4)], count)
}

/// An integer in every form that holds it.
pub fn integer_forms(number: i128) -> Vec<Vec<u8>> {
    let mut forms = Vec::new();
    if (-32..128).contains(&number) {
        forms.push(vec![number as u8]);
    }
    for power in 0..8 {
        let (width, signed) = (1 << (power % 4), power >= 4);
        let bits = 8 * width as u32;
        let range = match signed {
            false => 0..1i128 << bits,
            true => -(1i128 << (bits - 1))..1i128 << (bits - 1),
        };
        if range.contains(&number) {
            let low = number as u64 & (u64::MAX >> (64 - bits));
            forms.extend(sized(0xCC + power, width, low));
        }
    }
    forms
}

/// A whole item that begins with this byte, except C1; its content is by chance.
pub fn item_from(first: u8, random: &mut Random) -> Vec<u8> {
    let long = random.below(3) as u64;
    let (head, content) = match first {
        0x80..=0x8F => (vec![first], 2 * usize::from(first % 16)),
        0x90..=0x9F => (vec![first], usize::from(first % 16)),
        0xA0..=0xBF => (vec![first], usize::from(first % 32)),
        0xC4..=0xC6 => (
            sized(first, 1 << (first - 0xC4), long).unwrap(),
            long as usize,
        ),
        0xC7..=0xC9 => (
            sized(first, 1 << (first - 0xC7), long).unwrap(),
            1 + long as usize,
        ),
        0xCA | 0xCB => (vec![first], 4 << (first - 0xCA)),
        0xCC..=0xCF => (vec![first], 1 << (first - 0xCC)),
        0xD0..=0xD3 => (vec![first], 1 << (first - 0xD0)),
        0xD4..=0xD8 => (vec![first], 1 + (1 << (first - 0xD4))),
        0xD9..=0xDB => (
            sized(first, 1 << (first - 0xD9), long).unwrap(),
            long as usize,
        ),
        0xDC | 0xDD => (
            sized(first, 2 << (first - 0xDC), long).unwrap(),
            long as usize,
        ),
        0xDE | 0xDF => (
            sized(first, 2 << (first - 0xDE), long).unwrap(),
            2 * long as usize,
        ),
        _ => (vec![first], 0),
    };
    let container = matches!(first, 0x80..=0x9F | 0xDC..=0xDF);
    let content = match container {
        // Small integers, so that each byte is an item.
        true => (0..content).map(|_| random.byte() % 128).collect(),
        false => random.bytes(content),
    };
    [head, content].concat()
}

/// An item by chance, of every type, nested at most `depth` deep.
pub fn any_item(random: &mut Random, depth: usize) -> Tree {
    if depth == 0 || random.below(3) > 0 {
        let first = match random.byte() {
            0x80..=0x9F | 0xC1 | 0xDC..=0xDF => 0xC0,
            first => first,
        };
        return Tree::Raw(item_from(first, random));
    }
    let count = random.below(4);
    let item = |random: &mut Random| any_item(random, depth - 1);
    match random.below(2) {
        0 => Tree::List((0..count).map(|_| item(random)).collect()),
        _ => Tree::Map((0..count).map(|_| (item(random), item(random))).collect()),
    }
}
