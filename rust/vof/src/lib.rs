//! LTFS-VOF pack records, read and written by code that is proved to keep its contract.
//!
//! Every input has an answer: a result, or a [`Refusal`], which says why and what to do; [`refused`] names
//! the numbers. Nothing is copied but identifiers: parts of a record are handed back as parts of the pack.
//! A pack too long for memory is handed over in parts, to a [`Pipe`], or read by [`stream`]. The functions of
//! [`raw`] allocate nothing.
//!
//! The build links the archive that the environment variable VOF_LIBRARY names by its absolute path, else
//! this repository's target/staticlib/libvof.a, which `bin/archive` writes. It refuses an archive that has
//! another version than include/vof.h had when this crate was written.
//!
//! ```
//! let mut writer = vof::Writer::new();
//! let name = b"00000000000000000000000001:herd/k";
//! writer.block(name, b"abc")?;
//! let pack = writer.as_bytes();
//!
//! let entries = vof::scan(pack)?;
//! assert_eq!(entries.len(), 1);
//! assert_eq!(entries[0].tag, vof::Tag::Block);
//! assert_eq!(vof::find_hash(&entries, entries[0].value_hash)?, Some(0));
//!
//! let record = vof::record(pack, entries[0].start)?;
//! assert_eq!(record.identifier.object(), b"k");
//! assert_eq!(record.secondary.unwrap().bytes, b"abc");
//! # Ok::<(), vof::Refusal>(())
//! ```

mod pipe;
pub mod raw;
pub mod refused;

pub use pipe::{stream, Pipe, Records, Stream};

/// The bytes of a record before its value.
pub const HEADER_LENGTH: usize = 32;
/// The characters of a ULID.
pub const ULID_LENGTH: usize = 26;
/// The longest bucket.
pub const BUCKET_LIMIT: usize = 63;
/// The longest object.
pub const OBJECT_LIMIT: usize = 1024;
/// The longest composite text, `ULID:bucket/object`.
pub const COMPOSITE_LIMIT: usize = 1115;
/// The longest primary part that [`version_part`] makes.
pub const VERSION_PART_LIMIT: usize = 1129;
/// The longest pack.
pub const PACK_LIMIT: usize = 4294967295;
/// The longest pack that comes in parts.
pub const PIPE_LIMIT: u64 = 1099511627776;
/// The fewest bytes of a version delete.
pub const LEAST_DELETION_LENGTH: usize = 106;
/// The hints that a lookup has itself: to lend it no more is of no use.
pub const OWN_HINTS: usize = 8192;

/// Why there is no result.
#[derive(Clone, Copy, Debug, PartialEq, Eq)]
pub struct Refusal {
    /// One of [`refused`].
    pub number: u8,
    /// The start of the record at fault, where the refusal is about a place of the pack.
    pub place: Option<u64>,
    /// Of a record that is not written, the number that a reader would give it, or 1 where the pack is
    /// full.
    pub because: Option<u8>,
}

impl Refusal {
    /// What was handed to the writer is not admitted.
    fn not_admitted(because: u8) -> Refusal {
        Refusal {
            number: refused::NOT_ADMITTED,
            place: None,
            because: Some(because),
        }
    }

    /// Why, in a few words.
    pub fn reason(&self) -> &'static str {
        text(self.number).0
    }

    /// What to do about it.
    pub fn advice(&self) -> &'static str {
        text(self.number).1
    }
}

fn text(number: u8) -> (&'static str, &'static str) {
    refused::TEXTS[usize::from(number) - 1]
}

impl std::fmt::Display for Refusal {
    fn fmt(&self, f: &mut std::fmt::Formatter) -> std::fmt::Result {
        write!(f, "refused {}", self.number)?;
        if let Some(place) = self.place {
            write!(f, " at {place}")?;
        }
        write!(f, ": {}", self.reason())?;
        match self.because {
            Some(number) => write!(f, ", by {number}: {}", text(number).0),
            None => Ok(()),
        }
    }
}

impl std::error::Error for Refusal {}

/// The word of an answer, or the refusal; `placed` says which have a place.
fn word(answer: u64, placed: fn(u8) -> bool) -> Result<u64, Refusal> {
    match (answer % 256) as u8 {
        0 => Ok(answer / 256),
        number => Err(Refusal {
            number,
            place: placed(number).then_some(answer / 256),
            because: None,
        }),
    }
}

/// 1 to 8, of a pack.
fn of_pack(number: u8) -> bool {
    number <= refused::VALUE_DAMAGED
}

/// All but what was handed in, of a lookup.
fn of_lookup(number: u8) -> bool {
    !matches!(number, refused::NO_ROOM | refused::NOT_ADMITTED)
}

/// A record's tag.
#[derive(Clone, Copy, Debug, PartialEq, Eq, Hash)]
pub enum Tag {
    /// `bk`
    Block,
    /// `vr`
    Version,
    /// `vd`
    VersionDelete,
    /// `ol`
    PackList,
    /// That of a record that is listed and not read.
    Other([u8; 2]),
}

impl From<[u8; 2]> for Tag {
    fn from(bytes: [u8; 2]) -> Tag {
        match &bytes {
            b"bk" => Tag::Block,
            b"vr" => Tag::Version,
            b"vd" => Tag::VersionDelete,
            b"ol" => Tag::PackList,
            _ => Tag::Other(bytes),
        }
    }
}

impl Tag {
    /// As it stands in the record.
    pub fn bytes(self) -> [u8; 2] {
        match self {
            Tag::Block => *b"bk",
            Tag::Version => *b"vr",
            Tag::VersionDelete => *b"vd",
            Tag::PackList => *b"ol",
            Tag::Other(bytes) => bytes,
        }
    }

    fn told(number: u64) -> Tag {
        Tag::from((number as u16).to_be_bytes())
    }
}

/// A version's identifier.
#[derive(Clone, Debug, PartialEq, Eq, Hash)]
pub struct Identifier {
    composite: Vec<u8>,
}

impl Identifier {
    /// Refused with 20 where its text would read as another identifier.
    pub fn new(ulid: &[u8], bucket: &[u8], object: &[u8]) -> Result<Identifier, Refusal> {
        if ulid.len() != ULID_LENGTH || bucket.contains(&b'/') {
            return Err(Refusal::not_admitted(refused::NAME_BREAKS_RULES));
        }
        let composite = [ulid, b":", bucket, b"/", object].concat();
        Ok(Identifier { composite })
    }

    /// The identifier as one text.
    pub fn composite(&self) -> &[u8] {
        &self.composite
    }

    pub fn ulid(&self) -> &[u8] {
        &self.composite[..ULID_LENGTH]
    }

    pub fn bucket(&self) -> &[u8] {
        self.names().0
    }

    pub fn object(&self) -> &[u8] {
        self.names().1
    }

    fn names(&self) -> (&[u8], &[u8]) {
        let names = &self.composite[ULID_LENGTH + 1..];
        // A bucket has no slash.
        let slash = names.iter().position(|&byte| byte == b'/').unwrap();
        (&names[..slash], &names[slash + 1..])
    }
}

impl AsRef<[u8]> for Identifier {
    fn as_ref(&self) -> &[u8] {
        &self.composite
    }
}

/// A record as a scan lists it, and a pipe.
#[derive(Clone, Copy, Debug, PartialEq, Eq)]
pub struct Entry {
    /// Where the record starts in the pack.
    pub start: u64,
    pub tag: Tag,
    /// The length of its value; the record is [`HEADER_LENGTH`] bytes longer.
    pub value_length: u64,
    /// The XXH64 of its value.
    pub value_hash: u64,
}

impl Entry {
    fn told([start, tag, value_length, value_hash]: [u64; 4]) -> Entry {
        Entry {
            start,
            tag: Tag::told(tag),
            value_length,
            value_hash,
        }
    }
}

/// Bytes in a pack.
#[derive(Clone, Copy, Debug, PartialEq, Eq)]
pub struct Place {
    pub start: u64,
    pub length: u64,
}

/// A part of a value, and how it is encoded.
#[derive(Clone, Copy, Debug, PartialEq, Eq)]
pub struct Part<'a> {
    /// The part as it stands in the value, compressed and encrypted as it may be.
    pub bytes: &'a [u8],
    /// `c`, the compression's number; 0 is none.
    pub compression: u64,
    /// Whether `z`, the encryption's parameters, is there.
    pub is_encrypted: bool,
}

/// A value taken apart.
#[derive(Clone, Copy, Debug, PartialEq, Eq)]
pub struct Value<'a> {
    /// `v`: the version of the structure.
    pub structure_version: u64,
    /// `e`: what the record is about.
    pub primary: Part<'a>,
    /// What follows the header: a block's data. An empty part is not an absent one.
    pub secondary: Option<Part<'a>>,
}

/// A block, a version, a version delete or a pack list.
#[derive(Clone, Debug, PartialEq, Eq)]
pub struct Record<'a> {
    pub tag: Tag,
    pub identifier: Identifier,
    /// Only a version is one.
    pub is_delete_marker: bool,
    /// Only a version delete has one.
    pub delete_ulid: Option<&'a [u8]>,
    /// The whole value.
    pub value: &'a [u8],
    /// As in [`Value`].
    pub primary: Part<'a>,
    /// As in [`Value`].
    pub secondary: Option<Part<'a>>,
}

/// An object's current version.
#[derive(Clone, Debug, PartialEq, Eq)]
pub struct Version<'a> {
    pub identifier: Identifier,
    pub is_delete_marker: bool,
    /// Where its record starts in the pack.
    pub start: u64,
    /// The whole value.
    pub value: &'a [u8],
}

/// Why a version record is current, or is not.
#[derive(Clone, Copy, Debug, PartialEq, Eq)]
pub enum Reason {
    Current,
    /// It is current, and a delete marker.
    CurrentMarker,
    /// Another version is current, and its ULID is greater.
    Older,
    /// An earlier version record has the same identifier.
    Repeated,
    /// A version delete names it.
    Removed,
}

/// In the order of include/vof.h.
const REASONS: [Reason; 5] = [
    Reason::Current,
    Reason::CurrentMarker,
    Reason::Older,
    Reason::Repeated,
    Reason::Removed,
];

/// A version record of a name, and why it is current or is not.
#[derive(Clone, Copy, Debug, PartialEq, Eq)]
pub struct Line {
    /// Where the record starts in the pack.
    pub start: u64,
    pub reason: Reason,
    /// Where another record starts: of an older one the current one, of a repeated one the earliest with
    /// its identifier, of a removed one the earliest deletion of it; of the current one its own start.
    pub place: u64,
}

/// An entry of a pack list: a range of the version's data, and where it is stored in which pack, in so many
/// blocks: one for each length that is listed, and one more where these leave a rest of the stored range.
#[derive(Clone, Copy, Debug, PartialEq, Eq)]
pub struct PackEntry<'a> {
    /// The pack's.
    pub ulid: &'a [u8],
    pub source: Place,
    pub stored: Place,
    pub blocks: u64,
}

/// Where a byte of a version stands.
#[derive(Clone, Copy, Debug, PartialEq, Eq)]
pub struct Found<'a> {
    /// The entry's number in the list, from 0.
    pub entry: u64,
    /// The block's number in the entry, from 0; `None` where the entry's lengths place the byte in no
    /// block.
    pub block: Option<u64>,
    /// The pack's ULID.
    pub ulid: &'a [u8],
    /// Where the block's record stands in that pack, or the entry's range.
    pub stored: Place,
}

/// The version of the library, and of include/vof.h.
pub fn version() -> u64 {
    raw::version()
}

/// The XXH64 of the bytes, seed 0.
pub fn xxh64(bytes: &[u8]) -> u64 {
    raw::xxh64(bytes)
}

/// What a function tells, so many numbers for each of at most so many things.
fn rows<const WIDTH: usize>(
    most: usize,
    placed: fn(u8) -> bool,
    tell: impl Fn(&mut [u64]) -> u64,
) -> Result<Vec<[u64; WIDTH]>, Refusal> {
    let mut room = most.min(4096);
    // How many there are is known after the check, and only to a list that is long enough.
    loop {
        let mut told = vec![[0; WIDTH]; room];
        let answer = tell(told.as_flattened_mut());
        if answer % 256 != u64::from(refused::NO_ROOM) || room == most {
            told.truncate(word(answer, placed)? as usize);
            return Ok(told);
        }
        room = most.min(16 * room);
    }
}

/// Checks a pack, and lists its records in their order.
///
/// Refused with 1 to 8 and a place.
pub fn scan(pack: &[u8]) -> Result<Vec<Entry>, Refusal> {
    let most = pack.len() / HEADER_LENGTH;
    let told = rows(most, of_pack, |told| raw::scan(pack, told))?;
    Ok(told.into_iter().map(Entry::told).collect())
}

/// The index of the first entry whose value has this hash, `None` where none has it.
///
/// Refused with 20 where there are more than 2^32 entries.
pub fn find_hash(entries: &[Entry], hash: u64) -> Result<Option<usize>, Refusal> {
    let told: Vec<_> = entries
        .iter()
        .map(|entry| [0, 0, 0, entry.value_hash])
        .collect();
    let found = word(raw::find_hash(told.as_flattened(), hash), |_| false)?;
    Ok(found.checked_sub(1).map(|place| place as usize))
}

/// The record at a place of a pack; the rest of the pack is not looked at.
///
/// Refused with 1 to 8 and a place, with 9 to 18, 21 or 22, or with 20 where the place is not inside the
/// pack.
pub fn record(pack: &[u8], at: u64) -> Result<Record<'_>, Refusal> {
    let (mut told, mut composite) = ([0; 16], [0; COMPOSITE_LIMIT]);
    let answer = raw::record(pack, at as usize, &mut told, &mut composite);
    word(answer, of_pack)?;
    let [tag, value, length, parts @ .., is_delete_marker, composite_length, by, by_length] = told;
    let (primary, secondary) = read_parts(pack, parts);
    let tag = Tag::told(tag);
    Ok(Record {
        tag,
        identifier: Identifier {
            composite: composite[..composite_length as usize].into(),
        },
        is_delete_marker: is_delete_marker == 1,
        delete_ulid: (tag == Tag::VersionDelete).then(|| range(pack, by, by_length)),
        value: range(pack, value, length),
        primary,
        secondary,
    })
}

/// A value taken apart, whatever its record's tag, for whoever opens compressed or encrypted parts.
///
/// Refused with 9 to 12 or 22.
pub fn value(value: &[u8]) -> Result<Value<'_>, Refusal> {
    let mut told = [0; 10];
    word(raw::value(value, &mut told), |_| false)?;
    let [parts @ .., structure_version] = told;
    let (primary, secondary) = read_parts(value, parts);
    Ok(Value {
        structure_version,
        primary,
        secondary,
    })
}

/// How many numbers a lookup in a pack of so many bytes is lent: a hint of two numbers for each version
/// delete that it can have, or none where a lookup has enough itself.
pub fn scratch_length(pack_length: usize) -> usize {
    match pack_length / LEAST_DELETION_LENGTH {
        most if most > OWN_HINTS => 2 * most,
        _ => 0,
    }
}

/// Memory for these hints; none where it is not to be had, which costs time alone.
fn scratch(pack_length: usize) -> Vec<u32> {
    let (length, mut hints) = (scratch_length(pack_length), Vec::new());
    if hints.try_reserve_exact(length).is_ok() {
        hints.resize(length, 0);
    }
    hints
}

/// The current version of an object, `None` where the pack has none.
///
/// Refused with 1 to 12, 14 to 18 or 22 and a place, or with 20 where the name breaks the rules. A
/// delete marker is handed back as such.
pub fn current<'a>(
    pack: &'a [u8],
    bucket: &[u8],
    object: &[u8],
) -> Result<Option<Version<'a>>, Refusal> {
    let (mut told, mut ulid) = ([0; 4], [0; ULID_LENGTH]);
    let mut scratch = scratch(pack.len());
    let answer = raw::current_with(pack, bucket, object, &mut scratch, &mut told, &mut ulid);
    word(answer, of_lookup)?;
    let [found, start, value_length, is_delete_marker] = told;
    if found == 0 {
        return Ok(None);
    }
    Ok(Some(Version {
        identifier: Identifier::new(&ulid, bucket, object)?,
        is_delete_marker: is_delete_marker == 1,
        start,
        value: range(pack, start + HEADER_LENGTH as u64, value_length),
    }))
}

/// A line for each version record of an object, in their order.
///
/// Refused as [`current`] is.
pub fn explain(pack: &[u8], bucket: &[u8], object: &[u8]) -> Result<Vec<Line>, Refusal> {
    let most = pack.len() / HEADER_LENGTH;
    let told = rows(most, of_lookup, |told| {
        raw::explain(pack, bucket, object, told)
    })?;
    let line = |[start, reason, place]: [u64; 3]| Line {
        start,
        reason: REASONS[reason as usize],
        place,
    };
    Ok(told.into_iter().map(line).collect())
}

/// How many records a pack has that keeps the deposit profile, a narrower rule for packs that are
/// deposited.
///
/// Refused with 1 to 8 for the pack; then, of the first record at fault, with 9 to 18, 21, 22 or 23 to 28;
/// each with a place.
pub fn check_deposit(pack: &[u8]) -> Result<usize, Refusal> {
    word(raw::check_deposit(pack), |_| true).map(|count| count as usize)
}

/// The entries of a pack list, by its primary part.
///
/// Refused with 16 to 18, 21 or 22.
pub fn pack_list(primary: &[u8]) -> Result<Vec<PackEntry<'_>>, Refusal> {
    // No entry is shorter than 36 bytes.
    let most = primary.len() / 36;
    let told = rows(most, |_| false, |told| raw::pack_list(primary, told))?;
    let entry = |[ulid, start, length, stored, stored_length, blocks]: [u64; 6]| PackEntry {
        ulid: range(primary, ulid, ULID_LENGTH as u64),
        source: Place { start, length },
        stored: Place {
            start: stored,
            length: stored_length,
        },
        blocks,
    };
    Ok(told.into_iter().map(entry).collect())
}

/// The block that holds a byte of the version, by a pack list's primary part; `None` where no entry has
/// the byte, and the first of them where several do.
///
/// The list has no key for the stride, the usual source length of a block: it is taken to be the least
/// with which the blocks of every entry hold its source range. Of a single entry whose last block is
/// short that is a guess: 25 bytes in 3 blocks are read as 9, 9 and 7, and may have been 10, 10 and 5.
///
/// Refused with 16 to 18, 21 or 22.
///
/// ```
/// // A list with one entry: 36 bytes of the version in 3 blocks, of which 2 lengths are listed.
/// let primary = b"\x82\xa1I\xd9\x2100000000000000000000000001:herd/k\xa1P\x91\
///     \x84\xa1p\xba00000000000000000000000002\xa1o\x81\xa1l\x24\xa1t\x81\xa1l\xcd\x01\x2f\
///     \xa1E\x92\x65\x65";
/// let entries = vof::pack_list(primary)?;
/// assert_eq!((entries.len(), entries[0].blocks), (1, 3));
///
/// let found = vof::find_block(primary, 12)?.unwrap();
/// assert_eq!((found.entry, found.block), (0, Some(1)));
/// assert_eq!((found.stored.start, found.stored.length), (101, 101));
/// assert_eq!(found.ulid, b"00000000000000000000000002");
/// assert_eq!(vof::find_block(primary, 36)?, None);
/// # Ok::<(), vof::Refusal>(())
/// ```
pub fn find_block(primary: &[u8], byte: u64) -> Result<Option<Found<'_>>, Refusal> {
    let mut told = [0; 6];
    word(raw::find_block(primary, byte, &mut told), |_| false)?;
    let [kind, entry, block, ulid, start, length] = told;
    Ok((kind > 0).then(|| Found {
        entry,
        block: (kind == 2).then_some(block),
        ulid: range(primary, ulid, ULID_LENGTH as u64),
        stored: Place { start, length },
    }))
}

/// The kind of a MessagePack item.
#[derive(Clone, Copy, Debug, PartialEq, Eq)]
pub enum Kind {
    Nil,
    Boolean,
    Integer,
    Float,
    Text,
    Bytes,
    Array,
    Map,
    Extension,
}

const KINDS: [Kind; 9] = [
    Kind::Nil,
    Kind::Boolean,
    Kind::Integer,
    Kind::Float,
    Kind::Text,
    Kind::Bytes,
    Kind::Array,
    Kind::Map,
    Kind::Extension,
];

/// A MessagePack item.
#[derive(Clone, Copy, Debug, PartialEq, Eq)]
pub struct Item {
    pub kind: Kind,
    /// In bytes, with all that it holds.
    pub length: u64,
    /// An integer itself, a boolean as 0 or 1, the length of a text, of bytes, or of an extension
    /// without its type byte, an array's items, a map's pairs; else 0.
    pub argument: i128,
    /// Whether its own form is the short one.
    pub is_short: bool,
}

/// The MessagePack item at the front of bytes.
///
/// Refused with 9 or 10.
///
/// ```
/// let item = vof::item(b"\xd1\xff\x80")?;
/// assert_eq!((item.kind, item.length, item.argument), (vof::Kind::Integer, 3, -128));
/// assert!(!item.is_short && vof::item(b"\xd0\x80")?.is_short);
/// # Ok::<(), vof::Refusal>(())
/// ```
pub fn item(bytes: &[u8]) -> Result<Item, Refusal> {
    let mut told = [0; 5];
    word(raw::item(bytes, &mut told), |_| false)?;
    let [kind, length, magnitude, is_negative, is_short] = told;
    let argument = i128::from(magnitude);
    Ok(Item {
        kind: KINDS[kind as usize],
        length,
        argument: if is_negative == 1 {
            -argument
        } else {
            argument
        },
        is_short: is_short == 1,
    })
}

/// Writes a block after the first `used` bytes of the buffer, and gives the new count of bytes.
///
/// The identifier is an [`Identifier`] or its composite text. Refused with 20 where it breaks the rules or
/// the pack would be too long, with 19 where the buffer is too short.
pub fn write_block(
    buffer: &mut [u8],
    used: usize,
    identifier: impl AsRef<[u8]>,
    data: &[u8],
) -> Result<usize, Refusal> {
    let name = identifier.as_ref();
    written(raw::write_block(buffer, used, name, data), || {
        of_names(raw::write_block(&mut [], 0, name, &[]))
    })
}

/// The primary part of a version with this identifier, or of a delete marker.
///
/// The identifier is an [`Identifier`] or its composite text. Refused with 20 where it breaks the rules.
pub fn version_part(
    identifier: impl AsRef<[u8]>,
    is_delete_marker: bool,
) -> Result<Vec<u8>, Refusal> {
    let mut part = vec![0; VERSION_PART_LIMIT];
    let answer = raw::version_part(&mut part, identifier.as_ref(), is_delete_marker.into());
    part.truncate(written(answer, || refused::NAME_BREAKS_RULES)?);
    Ok(part)
}

/// Writes a version with this primary part, as [`write_block`] does.
///
/// Refused with 20 where the primary part does not read (16 to 18, 22), too.
///
/// ```
/// let refusal = vof::write_version(&mut [0; 99], 0, b"\x80").unwrap_err();
/// assert_eq!(refusal.number, vof::refused::NOT_ADMITTED);
/// assert_eq!(refusal.because, Some(vof::refused::PRIMARY_NOT_DESCRIBED));
/// ```
pub fn write_version(buffer: &mut [u8], used: usize, primary: &[u8]) -> Result<usize, Refusal> {
    let answer = raw::write_version(buffer, used, primary);
    written(answer, || of_part(Tag::Version, primary))
}

/// Writes a version, or a delete marker, with the primary part that [`version_part`] makes, as
/// [`write_block`] does.
///
/// ```
/// let (name, mut writer) = (b"00000000000000000000000001:herd/k", vof::Writer::new());
/// writer.version_of(name, true)?;
/// let version = vof::current(writer.as_bytes(), b"herd", b"k")?.unwrap();
/// assert_eq!(version.identifier.composite(), name);
/// assert!(version.is_delete_marker);
/// # Ok::<(), vof::Refusal>(())
/// ```
pub fn write_version_of(
    buffer: &mut [u8],
    used: usize,
    identifier: impl AsRef<[u8]>,
    is_delete_marker: bool,
) -> Result<usize, Refusal> {
    write_version(buffer, used, &version_part(identifier, is_delete_marker)?)
}

/// Writes a version delete with this primary part, as [`write_version`] does.
pub fn write_delete(buffer: &mut [u8], used: usize, primary: &[u8]) -> Result<usize, Refusal> {
    let answer = raw::write_delete(buffer, used, primary);
    written(answer, || of_part(Tag::VersionDelete, primary))
}

/// Writes a pack list with this primary part, as [`write_version`] does.
///
/// Refused with 20 where the primary part has a range or lengths that cannot be (21), too.
pub fn write_pack_list(buffer: &mut [u8], used: usize, primary: &[u8]) -> Result<usize, Refusal> {
    let answer = raw::write_pack_list(buffer, used, primary);
    written(answer, || of_part(Tag::PackList, primary))
}

/// Writes a version delete that names the version `identifier`, as [`write_block`] does.
pub fn write_delete_of(
    buffer: &mut [u8],
    used: usize,
    identifier: impl AsRef<[u8]>,
    delete_ulid: &[u8],
) -> Result<usize, Refusal> {
    let name = identifier.as_ref();
    written(
        raw::write_delete_of(buffer, used, name, delete_ulid),
        || of_names(raw::write_delete_of(&mut [], 0, name, delete_ulid)),
    )
}

/// The new count; of what is not admitted, why is asked.
fn written(answer: u64, because: impl Fn() -> u8) -> Result<usize, Refusal> {
    match word(answer, |_| false) {
        Err(refusal) if refusal.number == refused::NOT_ADMITTED => {
            Err(Refusal::not_admitted(because()))
        }
        count => count.map(|count| count as usize),
    }
}

/// Good names lack nothing but room, in a buffer that has none; else the pack is full.
fn of_names(alone: u64) -> u8 {
    match alone % 256 == u64::from(refused::NO_ROOM) {
        true => refused::PACK_TOO_LONG,
        false => refused::NAME_BREAKS_RULES,
    }
}

/// What a reader says of the record; where it says nothing, the pack is full.
fn of_part(tag: Tag, primary: &[u8]) -> u8 {
    let read = match primary.len() <= PACK_LIMIT {
        true => record(&around(tag, primary), 0).map(drop),
        false => Ok(()),
    };
    read.err()
        .map_or(refused::PACK_TOO_LONG, |refusal| refusal.number)
}

/// A record around a primary part, whatever that is.
fn around(tag: Tag, primary: &[u8]) -> Vec<u8> {
    let length = (primary.len() as u32).to_be_bytes();
    let value = [b"\x81\xa1e\xc6", &length[..], primary].concat();
    let mut record = [
        b"\x89TLV\r\n\x1a\n",
        &(value.len() as u64).to_be_bytes()[..],
        &xxh64(&value).to_be_bytes(),
        &[0],
        &tag.bytes(),
        &[8, 0, 0],
    ]
    .concat();
    record.extend((xxh64(&record) as u16).to_be_bytes());
    record.extend(value);
    record
}

/// A pack, empty or as it is handed in, to which each method adds a record and tells where it starts: as the
/// write function of that name does, but for 19.
#[derive(Clone, Debug, Default)]
pub struct Writer {
    buffer: Vec<u8>,
    used: usize,
}

impl From<Vec<u8>> for Writer {
    fn from(pack: Vec<u8>) -> Writer {
        let used = pack.len();
        Writer { buffer: pack, used }
    }
}

impl Writer {
    pub fn new() -> Writer {
        Writer::default()
    }

    /// The pack so far.
    pub fn as_bytes(&self) -> &[u8] {
        &self.buffer[..self.used]
    }

    /// The pack.
    pub fn into_bytes(mut self) -> Vec<u8> {
        self.buffer.truncate(self.used);
        self.buffer
    }

    /// The buffer grows until the record fits.
    fn add(
        &mut self,
        write: impl Fn(&mut [u8], usize) -> Result<usize, Refusal>,
    ) -> Result<u64, Refusal> {
        let start = self.used;
        loop {
            match write(&mut self.buffer, start) {
                Err(refusal) if refusal.number == refused::NO_ROOM => {
                    let room = self.buffer.len().max(2048);
                    self.buffer.resize(2 * room, 0);
                }
                count => {
                    self.used = count?;
                    return Ok(start as u64);
                }
            }
        }
    }

    pub fn block(&mut self, identifier: impl AsRef<[u8]>, data: &[u8]) -> Result<u64, Refusal> {
        self.add(|buffer, used| write_block(buffer, used, &identifier, data))
    }

    pub fn version(&mut self, primary: &[u8]) -> Result<u64, Refusal> {
        self.add(|buffer, used| write_version(buffer, used, primary))
    }

    pub fn version_of(
        &mut self,
        identifier: impl AsRef<[u8]>,
        is_delete_marker: bool,
    ) -> Result<u64, Refusal> {
        self.add(|buffer, used| write_version_of(buffer, used, &identifier, is_delete_marker))
    }

    pub fn delete(&mut self, primary: &[u8]) -> Result<u64, Refusal> {
        self.add(|buffer, used| write_delete(buffer, used, primary))
    }

    pub fn pack_list(&mut self, primary: &[u8]) -> Result<u64, Refusal> {
        self.add(|buffer, used| write_pack_list(buffer, used, primary))
    }

    pub fn delete_of(
        &mut self,
        identifier: impl AsRef<[u8]>,
        delete_ulid: &[u8],
    ) -> Result<u64, Refusal> {
        self.add(|buffer, used| write_delete_of(buffer, used, &identifier, delete_ulid))
    }
}

fn range(bytes: &[u8], start: u64, length: u64) -> &[u8] {
    &bytes[start as usize..][..length as usize]
}

/// The primary and the secondary part, by the nine numbers that the functions tell of them.
fn read_parts(bytes: &[u8], told: [u64; 9]) -> (Part<'_>, Option<Part<'_>>) {
    let [start, length, there, second_start, second_length, c, z, second_c, second_z] = told;
    let part = |start, length, compression, z| Part {
        bytes: range(bytes, start, length),
        compression,
        is_encrypted: z == 1,
    };
    let secondary = (there == 1).then(|| part(second_start, second_length, second_c, second_z));
    (part(start, length, c, z), secondary)
}
