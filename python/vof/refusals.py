"""The refusals' numbers by their names, with reasons and advice.

Made from docs/REFUSALS.md by tests/refusals.py: change that, and run it.
"""
from enum import IntEnum


class Refused(IntEnum):
    """The numbers of the refusals."""

    PACK_TOO_LONG = 1
    RECORD_CUT = 2
    NO_RECORD = 3
    FORMAT_VERSION = 4
    HASH_TYPE = 5
    HEADER_DAMAGED = 6
    VALUE_CUT = 7
    VALUE_DAMAGED = 8
    VALUE_NO_ITEM = 9
    VALUE_TOO_DEEP = 10
    HEADER_NOT_DESCRIBED = 11
    VALUE_NOT_FILLED = 12
    TAG_UNKNOWN = 13
    STRUCTURE_VERSION = 14
    PRIMARY_ENCODED = 15
    PRIMARY_NO_ITEM = 16
    PRIMARY_NOT_DESCRIBED = 17
    NAME_BREAKS_RULES = 18
    NO_ROOM = 19
    NOT_ADMITTED = 20
    RANGE_IMPOSSIBLE = 21
    KEY_REPEATED = 22
    NOT_SHORT = 23
    KEY_NOT_GIVEN = 24
    HEADER_ORDER = 25
    BLOCK_FORM = 26
    SPARE_NOT_ZERO = 27
    BUCKET_NAME = 28


# Of each number the reason, and what to do.
TEXTS = {
    1: (
        "the pack is too long",
        "The pack may be good, and only too long for what was asked: vof check, vof list and stream-pack take more, and so does a pipe. To look something up in it, and where these refuse it, ask the writing site for smaller packs.",
    ),
    2: (
        "fewer than 32 bytes are left, too few for a record",
        "Copy again. If the length is the same, ask the writing site how long the pack should be.",
    ),
    3: (
        "no record begins here",
        "At 0: check that it is the right file. Later: look at the bytes; if only zeros follow, ask the writing site how long the pack should be. Otherwise copy again.",
    ),
    4: (
        "the format's version is not 0",
        "Copy again. If it stays, ask the writing site which format they write; only 0 is read here.",
    ),
    5: (
        "the hash is of another type than XXH64",
        "Copy again. If it stays, ask the writing site which hash they write; only XXH64, type 8, is read here.",
    ),
    6: (
        "the record's header is damaged: its hash differs",
        "Copy again. The length in this header cannot be trusted, so what comes after it cannot be found from here.",
    ),
    7: (
        "the pack ends within the record's value",
        "Copy again. The whole pack has at least place + 32 + value length bytes (bytes 8..15 of the record).",
    ),
    8: (
        "the record's value is damaged: its hash differs",
        "Copy again. The header is right, so it tells which record is damaged and how long it is.",
    ),
    9: (
        "the value begins with no whole MessagePack item",
        "Ask the writing site.",
    ),
    10: (
        "the value is nested deeper than 16",
        "Ask the writing site to nest less; 16 is read.",
    ),
    11: (
        "the value's header is not as described",
        "Ask the writing site, and compare with Table 3 of docs/FORMAT.md.",
    ),
    12: (
        "the header and the secondary part do not fill the value",
        "Ask the writing site.",
    ),
    13: (
        "the record's tag is unknown",
        "Nothing: the listing shows it and the lookup passes it over. Ask for another record.",
    ),
    14: (
        "the version of the value's structure is not 0",
        "Ask the writing site for version 0, or wait for a reader that knows the newer one.",
    ),
    15: (
        "the primary part is encrypted or compressed",
        "Have it opened by whoever has the key or the tool; that is outside this reader.",
    ),
    16: (
        "the primary part is not one whole MessagePack item, or is nested deeper than 16",
        "Ask the writing site.",
    ),
    17: (
        "the primary part lacks a key, or has a wrong type",
        "Ask the writing site, and compare with Tables 4 to 8 of docs/FORMAT.md.",
    ),
    18: (
        "a ULID, bucket or object breaks the rules",
        "Ask the writing site which object it should be. Do not guess the name.",
    ),
    19: (
        "what was lent is too short for the result",
        "Lend a longer one; exactly long enough will do. A pack has at most one record for each 32 of its bytes, a pack list at most one entry for each 36 bytes of its primary part, a pipe's state 19 numbers.",
    ),
    20: (
        "what was handed in is not admitted",
        "Check the name against the rules in 18 and the place against the pack's length. If the pack is full, begin a new one. Start a pipe before its first part, and hand its state over as it was left; include/vof.h says which states are well formed.",
    ),
    21: (
        "a pack list has a range or lengths that cannot be",
        "Ask the writing site which ranges it meant, and compare with Table 8 of docs/FORMAT.md. The blocks themselves can still be read: each has the identifier of its version.",
    ),
    22: (
        "a key that is read is given twice",
        "Ask the writing site which value it meant, and to write it once. Do not guess: some readers take the first, others the last. Other keys may stand twice.",
    ),
    23: (
        "an item is not in its short form",
        "Write the record anew in short forms: the library's writer does, and takes a version's primary part from vof_version_part. vof item shows which form an item has.",
    ),
    24: (
        "a map has a key that document 001 does not give",
        "Write the record anew without that key, or put it into a map that the profile does not look at: s or m of a version.",
    ),
    25: (
        "the header's keys are not the writer's",
        "Write the record anew with the library's writer, from its primary part and its data.",
    ),
    26: (
        "a block's map is not the writer's",
        "Write the block anew with the library's writer, from its identifier and its data.",
    ),
    27: (
        "byte 28 or 29 is not 0",
        "Set both bytes to 0 and write the header's hash anew, or write the record with the library's writer.",
    ),
    28: (
        "the bucket's name may not be deposited",
        "A record cannot be given another name. Deposit the object again under a bucket with such a name, and leave this record out.",
    ),
}
