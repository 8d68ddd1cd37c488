//! ULID, bucket and object.

pub const ALPHABET: &[u8] = b"0123456789ABCDEFGHJKMNPQRSTVWXYZ";

#[derive(Clone, Debug, PartialEq, Eq, PartialOrd, Ord)]
pub struct Identifier {
    pub ulid: Vec<u8>,
    pub bucket: Vec<u8>,
    pub object: Vec<u8>,
}

pub fn is_ulid(text: &[u8]) -> bool {
    text.len() == 26 && text.iter().all(|byte| ALPHABET.contains(byte)) && text[0] <= b'7'
}

pub fn is_name(bucket: &[u8], object: &[u8]) -> bool {
    (1..=63).contains(&bucket.len())
        && !bucket.contains(&b'/')
        && (1..=1024).contains(&object.len())
}

impl Identifier {
    /// None where a rule is broken.
    pub fn new(ulid: &[u8], bucket: &[u8], object: &[u8]) -> Option<Identifier> {
        let good = is_ulid(ulid) && is_name(bucket, object);
        good.then(|| Identifier {
            ulid: ulid.to_vec(),
            bucket: bucket.to_vec(),
            object: object.to_vec(),
        })
    }

    /// From `ULID:bucket/object`, where the first slash ends the bucket.
    pub fn from_text(text: &[u8]) -> Option<Identifier> {
        let (ulid, rest) = text.split_at_checked(26)?;
        let name = rest.strip_prefix(b":")?;
        let slash = name.iter().position(|&byte| byte == b'/')?;
        Identifier::new(ulid, &name[..slash], &name[slash + 1..])
    }

    pub fn to_text(&self) -> Vec<u8> {
        [&self.ulid, &b":"[..], &self.bucket, b"/", &self.object].concat()
    }
}
