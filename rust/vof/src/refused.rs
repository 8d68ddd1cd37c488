//! The refusals' numbers by their names.
//!
//! Made from docs/REFUSALS.md by tests/refusals.py: change that, and run it.

/// Refused: the pack is too long.
pub const PACK_TOO_LONG: u8 = 1;
/// Refused: fewer than 32 bytes are left, too few for a record.
pub const RECORD_CUT: u8 = 2;
/// Refused: no record begins here.
pub const NO_RECORD: u8 = 3;
/// Refused: the format's version is not 0.
pub const FORMAT_VERSION: u8 = 4;
/// Refused: the hash is of another type than XXH64.
pub const HASH_TYPE: u8 = 5;
/// Refused: the record's header is damaged: its hash differs.
pub const HEADER_DAMAGED: u8 = 6;
/// Refused: the pack ends within the record's value.
pub const VALUE_CUT: u8 = 7;
/// Refused: the record's value is damaged: its hash differs.
pub const VALUE_DAMAGED: u8 = 8;
/// Refused: the value begins with no whole MessagePack item.
pub const VALUE_NO_ITEM: u8 = 9;
/// Refused: the value is nested deeper than 16.
pub const VALUE_TOO_DEEP: u8 = 10;
/// Refused: the value's header is not as described.
pub const HEADER_NOT_DESCRIBED: u8 = 11;
/// Refused: the header and the secondary part do not fill the value.
pub const VALUE_NOT_FILLED: u8 = 12;
/// Refused: the record's tag is unknown.
pub const TAG_UNKNOWN: u8 = 13;
/// Refused: the version of the value's structure is not 0.
pub const STRUCTURE_VERSION: u8 = 14;
/// Refused: the primary part is encrypted or compressed.
pub const PRIMARY_ENCODED: u8 = 15;
/// Refused: the primary part is not one whole MessagePack item, or is nested deeper than 16.
pub const PRIMARY_NO_ITEM: u8 = 16;
/// Refused: the primary part lacks a key, or has a wrong type.
pub const PRIMARY_NOT_DESCRIBED: u8 = 17;
/// Refused: a ULID, bucket or object breaks the rules.
pub const NAME_BREAKS_RULES: u8 = 18;
/// Refused: what was lent is too short for the result.
pub const NO_ROOM: u8 = 19;
/// Refused: what was handed in is not admitted.
pub const NOT_ADMITTED: u8 = 20;
/// Refused: a pack list has a range or lengths that cannot be.
pub const RANGE_IMPOSSIBLE: u8 = 21;
/// Refused: a key that is read is given twice.
pub const KEY_REPEATED: u8 = 22;
/// Refused: an item is not in its short form.
pub const NOT_SHORT: u8 = 23;
/// Refused: a map has a key that document 001 does not give.
pub const KEY_NOT_GIVEN: u8 = 24;
/// Refused: the header's keys are not the writer's.
pub const HEADER_ORDER: u8 = 25;
/// Refused: a block's map is not the writer's.
pub const BLOCK_FORM: u8 = 26;
/// Refused: byte 28 or 29 is not 0.
pub const SPARE_NOT_ZERO: u8 = 27;
/// Refused: the bucket's name may not be deposited.
pub const BUCKET_NAME: u8 = 28;

/// Of each number, from 1 on, the reason, and what to do.
pub(crate) const TEXTS: [(&str, &str); 28] = [
    (
        "the pack is too long",
        "The pack may be good, and only too long for what was asked: vof check, vof list and stream-pack take more, and so does a pipe. To look something up in it, and where these refuse it, ask the writing site for smaller packs.",
    ),
    (
        "fewer than 32 bytes are left, too few for a record",
        "Copy again. If the length is the same, ask the writing site how long the pack should be.",
    ),
    (
        "no record begins here",
        "At 0: check that it is the right file. Later: look at the bytes; if only zeros follow, ask the writing site how long the pack should be. Otherwise copy again.",
    ),
    (
        "the format's version is not 0",
        "Copy again. If it stays, ask the writing site which format they write; only 0 is read here.",
    ),
    (
        "the hash is of another type than XXH64",
        "Copy again. If it stays, ask the writing site which hash they write; only XXH64, type 8, is read here.",
    ),
    (
        "the record's header is damaged: its hash differs",
        "Copy again. The length in this header cannot be trusted, so what comes after it cannot be found from here.",
    ),
    (
        "the pack ends within the record's value",
        "Copy again. The whole pack has at least place + 32 + value length bytes (bytes 8..15 of the record).",
    ),
    (
        "the record's value is damaged: its hash differs",
        "Copy again. The header is right, so it tells which record is damaged and how long it is.",
    ),
    (
        "the value begins with no whole MessagePack item",
        "Ask the writing site.",
    ),
    (
        "the value is nested deeper than 16",
        "Ask the writing site to nest less; 16 is read.",
    ),
    (
        "the value's header is not as described",
        "Ask the writing site, and compare with Table 3 of docs/FORMAT.md.",
    ),
    (
        "the header and the secondary part do not fill the value",
        "Ask the writing site.",
    ),
    (
        "the record's tag is unknown",
        "Nothing: the listing shows it and the lookup passes it over. Ask for another record.",
    ),
    (
        "the version of the value's structure is not 0",
        "Ask the writing site for version 0, or wait for a reader that knows the newer one.",
    ),
    (
        "the primary part is encrypted or compressed",
        "Have it opened by whoever has the key or the tool; that is outside this reader.",
    ),
    (
        "the primary part is not one whole MessagePack item, or is nested deeper than 16",
        "Ask the writing site.",
    ),
    (
        "the primary part lacks a key, or has a wrong type",
        "Ask the writing site, and compare with Tables 4 to 8 of docs/FORMAT.md.",
    ),
    (
        "a ULID, bucket or object breaks the rules",
        "Ask the writing site which object it should be. Do not guess the name.",
    ),
    (
        "what was lent is too short for the result",
        "Lend a longer one; exactly long enough will do. A pack has at most one record for each 32 of its bytes, a pack list at most one entry for each 36 bytes of its primary part, a pipe's state 19 numbers.",
    ),
    (
        "what was handed in is not admitted",
        "Check the name against the rules in 18 and the place against the pack's length. If the pack is full, begin a new one. Start a pipe before its first part, and hand its state over as it was left; include/vof.h says which states are well formed.",
    ),
    (
        "a pack list has a range or lengths that cannot be",
        "Ask the writing site which ranges it meant, and compare with Table 8 of docs/FORMAT.md. The blocks themselves can still be read: each has the identifier of its version.",
    ),
    (
        "a key that is read is given twice",
        "Ask the writing site which value it meant, and to write it once. Do not guess: some readers take the first, others the last. Other keys may stand twice.",
    ),
    (
        "an item is not in its short form",
        "Write the record anew in short forms: the library's writer does, and takes a version's primary part from vof_version_part. vof item shows which form an item has.",
    ),
    (
        "a map has a key that document 001 does not give",
        "Write the record anew without that key, or put it into a map that the profile does not look at: s or m of a version.",
    ),
    (
        "the header's keys are not the writer's",
        "Write the record anew with the library's writer, from its primary part and its data.",
    ),
    (
        "a block's map is not the writer's",
        "Write the block anew with the library's writer, from its identifier and its data.",
    ),
    (
        "byte 28 or 29 is not 0",
        "Set both bytes to 0 and write the header's hash anew, or write the record with the library's writer.",
    ),
    (
        "the bucket's name may not be deposited",
        "A record cannot be given another name. Deposit the object again under a bucket with such a name, and leave this record out.",
    ),
];
