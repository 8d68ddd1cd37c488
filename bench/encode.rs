//! MessagePack items in their shortest forms, and ULIDs, for what the benchmarks read.

/// The head of an item: one byte where the number is below the limit, else the first of the forms
/// (byte, width) that holds it.
pub fn head(n: usize, short: u8, limit: usize, forms: &[(u8, usize)]) -> Vec<u8> {
    if n < limit {
        return vec![short + n as u8];
    }
    let holds = |form: &&(u8, usize)| form.1 == 8 || n >> (8 * form.1) == 0;
    let &(byte, width) = forms.iter().find(holds).unwrap();
    [&[byte], &n.to_be_bytes()[8 - width..]].concat()
}

pub fn natural(n: usize) -> Vec<u8> {
    head(n, 0x00, 128, &[(0xCC, 1), (0xCD, 2), (0xCE, 4), (0xCF, 8)])
}

pub fn text(t: &str) -> Vec<u8> {
    let mut item = head(t.len(), 0xA0, 32, &[(0xD9, 1), (0xDA, 2), (0xDB, 4)]);
    item.extend(t.as_bytes());
    item
}

pub fn list(items: &[Vec<u8>]) -> Vec<u8> {
    let mut item = head(items.len(), 0x90, 16, &[(0xDC, 2), (0xDD, 4)]);
    item.extend(items.concat());
    item
}

pub fn map(pairs: &[(&str, Vec<u8>)]) -> Vec<u8> {
    let mut item = head(pairs.len(), 0x80, 16, &[(0xDE, 2), (0xDF, 4)]);
    for (key, value) in pairs {
        item.extend(text(key));
        item.extend(value);
    }
    item
}

const ALPHABET: &[u8; 32] = b"0123456789ABCDEFGHJKMNPQRSTVWXYZ";

/// A ULID that grows with the number, which is its time.
pub fn ulid(number: usize) -> String {
    let random = (number as u64).wrapping_mul(11400714785074694797);
    let bits = (1_790_000_000_000 + number as u128) << 80 | u128::from(random) << 16;
    let digit = |place| char::from(ALPHABET[(bits >> (5 * place)) as usize % 32]);
    (0..26).rev().map(digit).collect()
}
