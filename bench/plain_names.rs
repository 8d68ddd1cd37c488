//! The rules for ULIDs and names, plainly.

pub fn is_ulid(text: &[u8]) -> bool {
    let is_digit = |b: &u8| matches!(b, b'0'..=b'9' | b'A'..=b'Z') && !b"ILOU".contains(b);
    text.len() == 26 && text.iter().all(is_digit) && text[0] <= b'7'
}

pub fn is_bucket(text: &[u8]) -> bool {
    (1..=63).contains(&text.len()) && !text.contains(&b'/')
}

pub fn is_object(text: &[u8]) -> bool {
    (1..=1024).contains(&text.len())
}
