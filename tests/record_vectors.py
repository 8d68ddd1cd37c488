#!/usr/bin/env python3
"""tests/record_vectors.py [--check]: makes the vectors of crates/record_vectors.

Written from documents 01 and 02, docs/FORMAT.md and document 001, and not from the definitions that
are proved. What a vector is to give is said twice: by the plain reader of tests/reader.py, and by
hand, where it is a refusal or stands in the documents; of calls of the writer by the plain writer,
and by hand. Without arguments the script writes the program's stored stdin and stdout; with --check
it compares them. That the program prints this stdout is checked by rt.
"""
import sys
from collections import namedtuple

sys.dont_write_bytecode = True
import packs
from packs import NIL, Raw, every_text, header, item, lists, pairs, record, sized, xxh64
from reader import (
    GREATEST,
    LIMIT,
    Refusal,
    composite,
    find_block,
    identifier,
    is_ulid,
    outcome,
    read_block,
    read_content,
    read_delete,
    read_pack_list,
    read_tlv,
    read_value,
    read_version,
)
from stored import Vectors, field, number

BUFFER = 70000

# ---- what is read, as the program prints it


def told_part(letter, part):
    return "%s %d l %d c %d z %d" % (letter, *part)


def told_value(value):
    primary, secondary = told_part("e", value.primary), told_part("@", value.secondary)
    return "v %d %s s %d %s" % (value.v, primary, value.listed, secondary)


def told_text(letter, s):
    return letter + " " + s.decode(errors="surrogateescape")


def told_identifier(id):
    return " ".join(map(told_text, "ubo", id))


def told_block(s):
    return told_identifier(read_block(s))


def told_version(s):
    id, deleted = read_version(s)
    return "%s d %d" % (told_identifier(id), deleted)


def told_delete(s):
    id, by = read_delete(s)
    return told_identifier(id) + " " + told_text("?", by)


def told_entry(entry):
    ranges = "o %d l %d t %d l %d" % (*entry.source, *entry.stored)
    counts = "E %d N %d" % (len(entry.lengths), len(entry.deltas))
    return " ".join([told_text("p", entry.pack), ranges, counts])


def told_pack_list(s):
    id, entries = read_pack_list(s)
    return " ".join([told_identifier(id), "n %d" % len(entries), *map(told_entry, entries)])


def told_found(s):
    """A byte of the version, in 8 bytes, and a pack list's part: where the byte stands."""
    found = find_block(s[8:], int.from_bytes(s[:8], "big"))
    if found is None:
        return "none"
    block = "" if found.block is None else "# %d " % found.block
    pack = told_text("p", found.entry.pack)
    return "P %d %s%s @ %d l %d" % (found.number, block, pack, *found.stored)


def told_record(s):
    """A tag and a value. Of a pack list a record tells what it tells of a block."""
    kinds = {b"bk": told_block, b"vr": told_version, b"vd": told_delete}
    kinds[b"ol"] = lambda s: told_identifier(read_pack_list(s)[0])
    tag, value = s[:2], read_value(s[2:])
    if tag not in kinds:
        raise Refusal("13")
    return kinds[tag](read_content(value)) + " " + told_value(value)


def told_at(s):
    """A place, in 8 bytes, and a pack. No pack of a vector is so long that 1 applies."""
    place, pack = int.from_bytes(s[:8], "big"), s[8:]
    if place >= len(pack):
        raise Refusal("20")
    tag, value = read_tlv(pack, place)
    return "@ %d l %d " % (place + 32, len(value)) + told_record(tag + value)


def hashed(letter, s):
    return "%s %d %016x" % (letter, len(s), xxh64(s))


def told_parts(s):
    """The primary and the secondary part; of a refused value both are empty."""
    value, refused = outcome(read_value, s)
    parts = [] if refused else [value.primary, value.secondary]
    primary, secondary = [s[p.start :][: p.length] for p in parts] or (b"", b"")
    return hashed("e", primary) + " " + hashed("s", secondary)


def told_walk(s):
    """The number of a call, from 0, in 8 bytes, and a pack: what the walker answers to it."""
    n, pack, place = int.from_bytes(s[:8], "big"), s[8:], 0
    while place < len(pack):
        tag, value = read_tlv(pack, place)
        if n == 0:
            return "@ %d t %d %s" % (place, int.from_bytes(tag, "big"), hashed("l", value))
        n, place = n - 1, place + 32 + len(value)
    return "end"


def told_composite(s):
    """Where the slash is, and the identifier: the answers of two functions."""
    try:
        return "/ %d %s" % (s.index(b"/", 27), told_identifier(composite(s)))
    except (Refusal, ValueError):
        raise Refusal("18 refused 18")


def told_refusal(refusal):
    return "refused " + refusal.replace("at", "@")


# ---- a plain writer by document 01


def written(made, buffer, used, room):
    """The count. made: the record, None where what is handed in is not admitted."""
    if made is None or used + len(made) > LIMIT:
        raise Refusal("20")
    end = used + len(made)
    if end > room:
        raise Refusal("19")
    buffer[used:end] = made
    return end


class Held(namedtuple("Held", "ulid bucket object lengths", defaults=[None])):
    """An identifier by value. lengths: what it tells of bucket and object, where it is wrong."""

    def bytes(self):
        return [x.encode(errors="surrogateescape") for x in self[:3]]

    def given(self):
        """As a vector has it: no more bytes than the arrays hold, and the lengths."""
        ulid, bucket, object = self.bytes()
        lengths = self.lengths or (len(bucket), len(object))
        return b"".join([*map(field, (ulid, bucket[:63], object[:1024])), *map(number, lengths)])


def held_record(made, id, *more):
    _, refused = outcome(identifier, *id.bytes())
    right = id.lengths is None and not refused
    return made(id.ulid, id.bucket, id.object, *more) if right else None


def part_record(tag, read, part):
    _, refused = outcome(read, part)
    return None if refused else record(tag, item({"e": bytes(part)}))


# ---- the vectors

READERS = {
    "identifier": told_composite,
    "value": lambda s: told_value(read_value(s)),
    "block": told_block,
    "version": told_version,
    "delete": told_delete,
    "record": told_record,
    "at": told_at,
    "parts": told_parts,
    "walk": told_walk,
    "pack_list": told_pack_list,
    "find_block": told_found,
}
WRITERS = ["write_block", "write_version", "write_delete", "write_pack_list", "write_delete_of"]
vectors = Vectors("record_vectors", [*READERS, "names", *WRITERS])


def vector(kind, name, data, wanted=None):
    """wanted: what is to be refused, by its number, or the whole answer; else that it is read."""
    found, refused = outcome(READERS[kind], data)
    right = not refused if wanted is None else found == str(wanted)
    assert right, "%s %s: wanted %s, found %s" % (kind, name, wanted or "a reading", found)
    # The tag, the place, the number of a call and the byte are numbers of their own.
    cut = {"record": 2, "at": 8, "walk": 8, "find_block": 8}.get(kind, 0)
    more = number(int.from_bytes(data[:cut], "big")) if cut else b""
    found = told_refusal(found) if refused else found
    vectors.add(kind, kind + " " + name, data[cut:], more, found)


def at(name, place, pack, wanted=None):
    vector("at", name, number(place) + pack, wanted)


def parts_of(name, value, primary=b"", secondary=b""):
    """Of a refused value both parts are empty."""
    vector("parts", name, value, hashed("e", primary) + " " + hashed("s", secondary))


def find(name, part, *wanted):
    """wanted: bytes of the version, each with where it stands."""
    for byte, found in wanted:
        vector("find_block", "%s, byte %d" % (name, byte), number(byte) + part, found)


def walk(name, pack, *wanted):
    """wanted: the answers to the calls from 0 on, the last of them to later calls too."""
    for n, answer in enumerate([*wanted, wanted[-1], wanted[-1]]):
        vector("walk", "%s, call %d" % (name, n), number(n) + pack, answer)


def names(name, texts, other, same, named):
    """An identifier of three texts, and another: whether that is the same, and has this name. Both
    are said by hand; same: None where the texts are no identifier."""
    texts = [x.encode(errors="surrogateescape") for x in texts]
    id, refused = outcome(identifier, *texts)
    right = other.lengths is None
    assert same == (None if refused else right and other.bytes() == texts), name
    assert named == (right and other.bytes()[1:] == texts[1:]), name
    told = told_refusal(id) if refused else told_identifier(id) + " = %d" % same
    more = field(texts[1]) + field(texts[2]) + other.given()
    vectors.add("names", "names " + name, texts[0], more, told + " ~ %d" % named)


def call(kind, name, made, data, id, wanted=None, used=None, room=BUFFER, pack=b""):
    """A call of the writer, behind a pack, and the pack after it. wanted: the count or the refusal;
    else that it is written. used: the count so far, where it is not the pack's length."""
    used = len(pack) if used is None else used
    buffer = bytearray(pack.ljust(BUFFER, b"\xa5"))
    count, refused = outcome(written, made, buffer, used, room)
    right = not refused if wanted is None else str(count) == str(wanted)
    assert right, "%s %s: wanted %s, found %s" % (kind, name, wanted or "a record", count)
    after = pack if refused else bytes(buffer[:count])
    found = told_refusal(count) if refused else "n %d " % count + told_at(number(used) + after)
    found += " buffer %016x" % xxh64(buffer)
    more = field(pack) + number(room) + number(used) + id
    vectors.add("write_" + kind, "write_%s %s" % (kind, name), data, more, found)
    return after


def write_block(name, id, data, *rest, **more):
    made = held_record(packs.block, id, data)
    return call("block", name, made, data, id.given(), *rest, **more)


def write_version(name, part, *rest, **more):
    made = part_record(b"vr", read_version, part)
    return call("version", name, made, part, b"", *rest, **more)


def write_delete(name, part, *rest, **more):
    made = part_record(b"vd", read_delete, part)
    return call("delete", name, made, part, b"", *rest, **more)


def write_pack_list(name, part, *rest, **more):
    made = part_record(b"ol", read_pack_list, part)
    return call("pack_list", name, made, part, b"", *rest, **more)


def write_delete_of(name, id, by, *rest, **more):
    text = by.encode(errors="surrogateescape")
    made = held_record(packs.version_delete, id, by) if is_ulid(text) else None
    return call("delete_of", name, made, text, id.given(), *rest, **more)


def integers(n):
    """An integer in every form that holds it."""
    if -32 <= n < 128:
        yield "fixint", Raw(bytes([n % 256]))
    for k in range(8):
        width, signed = 1 << k % 4, k >= 4
        low, high = (-(1 << 8 * width - 1), 1 << 8 * width - 1) if signed else (0, 256**width)
        if low <= n < high:
            yield ("int%d" if signed else "uint%d") % (8 * width), sized(0xCC + k, width, n)


FLOAT, EXTENSION = Raw(b"\xca\x3f\x80\x00\x00"), Raw(b"\xd4\x05\x00")
# Keys that are not text, each with a value.
ODD = [(b"e", 1), (101, 2), (NIL, 3), (True, 4), ([], 5), ({}, 6), (FLOAT, 7), (EXTENSION, 8)]
ULID = "00000000000000000000000001"
OTHER = "7ZZZZZZZZZZZZZZZZZZZZZZZZZ"
HERD = ULID + ":herd/k"
TOLD = "u " + ULID + " b herd o k"
# 26 characters that write a number of more than 128 bits.
BEYOND = [("beginning with " + x, x + "0" * 25) for x in "89AZ"]
# Breaches of the rules for a ULID.
ULIDS = [
    *BEYOND,
    ("of 25 characters", ULID[:25]),
    ("of 27 characters", ULID + "0"),
    ("of no characters", ""),
    ("with a small letter", "0000000000000000000000000a"),
    *[("with " + x, ULID[:9] + x + ULID[10:]) for x in "ILOU/:@[`{"],
    ("with a space", ULID[:25] + " "),
    ("with byte B0", Raw(b"\xba" + ULID[:25].encode() + b"\xb0")),
]


def identifiers():
    def read(name, text, wanted=None):
        vector("identifier", name, text if isinstance(text, bytes) else text.encode(), wanted)

    no = "18 refused 18"
    printed_001 = "7YGGZJ4YSFMYW6BQVHFKD5KKTV"
    read(
        "001:484",
        printed_001 + ":bucket/object/name.txt",
        "/ 33 u " + printed_001 + " b bucket o object/name.txt",
    )
    read("001:581", "7YF1QJW74PNYV552JB3YPAJJX1:bucket/object")
    read("001:822", "7YF1QTCNCDN7FYSQFD2PFH2DCS:bucket/object")
    read("herd", HERD, "/ 31 " + TOLD)
    read("all letters, first half", "0123456789ABCDEFGHJKMNPQRS:b/o")
    read("all letters, second half", "0123456789GHJKMNPQRSTVWXYZ:b/o")
    read("greatest ULID of 128 bits", OTHER + ":b/o")
    read("greatest number of 130 bits", "Z" * 26 + ":b/o", no)
    read("longest, 1115 bytes", ULID + ":" + "b" * 63 + "/" + "o" * 1024)
    read("bucket of 64", ULID + ":" + "b" * 64 + "/o", no)
    read("bucket of 0", ULID + ":/o", no)
    read("object of 1025", ULID + ":b/" + "o" * 1025, no)
    read("object of 0", ULID + ":b/", no)
    read("object with slashes", ULID + ":b//a/c/", "/ 28 u " + ULID + " b b o /a/c/")
    read("no slash", ULID + ":bo", no)
    read("colon in bucket and object", ULID + ":b:/:o")
    read("bytes that are no UTF-8", ULID.encode() + b":\xff\\/\xfe \x00")
    read("colon missing", ULID + "b/o", no)
    read("another byte for the colon", ULID + ";b/o", no)
    read("empty", "", no)
    read("ULID alone", ULID, no)
    read("ULID and colon", ULID + ":", no)
    for name, ulid in ULIDS[:-1]:
        read("ULID " + name, ulid + ":b/o", no)
    read("ULID with byte B0", ULID[:25].encode() + b"\xb0:b/o", no)


def herd_block():
    """The block of 3 bytes of document 01."""
    part = item({"I": HERD})
    value = item({"s": [{"l": 3}], "e": part}) + b"abc"
    made = record(b"bk", value)
    assert (len(part), len(value), len(made)) == (38, 53, 85)
    told = "v 0 e 12 l 38 c 0 z 0 s 1 @ 50 l 3 c 0 z 0"
    vector("block", "herd", part, TOLD)
    vector("value", "herd", value, told)
    vector("record", "herd", b"bk" + value, TOLD + " " + told)
    at("herd", 0, made, "@ 32 l 53 " + TOLD + " " + told)


def printed_list(*more):
    """The primary part of the pack list of 001:584, with more lengths listed."""
    ranges = {"o": {"s": 0, "l": 36}, "t": {"s": 0, "l": 303}}
    entry = {"p": "7YF1QJW74QNR5BZ83NC8307YYM", **ranges, "E": [101, 101, *more], "N": []}
    return item({"I": "7YF1QJW74PNYV552JB3YPAJJX1:bucket/object", "P": [entry]})


def document_001():
    """What the documents print, in the writer's form; 001:584 gives 101 bytes for each block."""
    pack = b""
    for k in b"123":
        data = b"block %c data" % k
        part = item({"I": "7YF1QJW74PNYV552JB3YPAJJX1:bucket/object"})
        pack += record(b"bk", item({"s": [{"l": 12}], "e": part}) + data)
    assert len(pack) == 303
    for k in range(3):
        at("block %d of 001:581-583" % (k + 1), 101 * k, pack)
    at("end of 001:581-583", 303, pack, 20)
    told = "u 7YF1QJW74PNYV552JB3YPAJJX1 b bucket o object"
    entry = " n 1 p 7YF1QJW74QNR5BZ83NC8307YYM o 0 l 36 t 0 l 303 E 2 N 0"
    vector("pack_list", "001:584", printed_list(), told + entry)
    pack += record(b"ol", item({"e": printed_list()}))
    at("pack list of 001:584", 303, pack)
    blocks = ["P 0 # %d p 7YF1QJW74QNR5BZ83NC8307YYM @ %d l 101" % (k, 101 * k) for k in range(3)]
    of_blocks = [(n, blocks[n // 12]) for n in (0, 11, 12, 23, 24, 35)]
    find("001:584", printed_list(), *of_blocks, (36, "none"), (GREATEST, "none"))
    # With its last length listed too, nothing is missing.
    of_listed = [(n, blocks[n // 12]) for n in (0, 8, 9, 11, 12, 23, 24, 35)]
    find("001:584, all listed", printed_list(101), *of_listed, (36, "none"), (GREATEST, "none"))
    part = item({"b": "bucket", "o": "object", "v": "7YF1QTCNCDN7FYSQFD2PFH2DCS"})
    wanted = "u 7YF1QTCNCDN7FYSQFD2PFH2DCS b bucket o object d 0"
    vector("version", "001:822", part, wanted)
    at("version of 001:822", 0, record(b"vr", item({"e": part})))
    k = bytes.fromhex("82A1739181A16C0CA165C410C40E") + b"value 1 headervalue 1 data"
    vector("value", "K", k, "v 0 e 12 l 16 c 0 z 0 s 1 @ 28 l 12 c 0 z 0")
    vector("value", "L", k[:39], 12)
    vector("record", "K as a block: bytes, no map", b"bk" + k, 17)


def values_whole():
    def read(name, s, wanted=None):
        vector("value", name, bytes(s), wanted)

    e = {"e": b"pp"}
    read("header alone", item(e), "v 0 e 5 l 2 c 0 z 0 s 0 @ 7 l 0 c 0 z 0")
    read("s empty", item({**e, "s": []}), "v 0 e 5 l 2 c 0 z 0 s 0 @ 10 l 0 c 0 z 0")
    read("l 0", item({**e, "s": [{"l": 0}]}))
    read("e empty", item({"e": b""}))
    read("M, no e", b"\x80", 11)
    read("M, empty", b"", 9)
    read("N, depth 16", lists(16), 11)
    read("N, depth 17", lists(17), 10)
    read("cut in the header", item(e)[:-1], 9)
    read("C1 under a key", item({**e, "x": Raw(b"\xc1")}), 9)
    read("C1 before depth 17", item({"x": Raw(b"\xc1"), "y": lists(16)}), 9)
    read("depth 17 before C1", item({"y": lists(16), "x": Raw(b"\xc1")}), 10)
    read("count cut at depth 17", b"\x91" * 16 + b"\xdc\x00", 9)
    read("header of depth 16", item({**e, "x": lists(15)}))
    read("header of depth 17", item({**e, "x": lists(16)}), 10)
    read("depth 17 in a key", item({**e, lists(16): 0}), 10)
    read("10 before 11", item({"x": lists(16)}), 10)
    read("1 byte left over", item(e) + b"\x00", 12)
    read("a byte of 3 missing", item({**e, "s": [{"l": 3}]}) + b"ab", 12)
    read("a byte beside 3", item({**e, "s": [{"l": 3}]}) + b"abcd", 12)
    read("l of 4294967295", item({**e, "s": [{"l": LIMIT}]}), 12)
    read("11 before 12", item({"s": [{"l": 3}]}) + b"ab", 11)
    read("11 before 12, e text", item({"e": "pp"}) + b"a", 11)
    for name, x in [("list", [e]), ("text", "e"), ("bytes", b"e"), ("nil", NIL), ("integer", 5)]:
        read("no map but " + name, item(x), 11)
    read("no map, and bytes left over", item(5) + b"\x00", 11)


WRONG = {
    "nil": NIL,
    "false": False,
    "integer": 1,
    "-1": Raw(b"\xff"),
    "text": "1",
    "bytes": b"1",
    "float": FLOAT,
    "list": [1],
    "map": {"l": 1},
    "extension": EXTENSION,
}


def wrong(kind, key, made, right, number):
    """Each type but the right ones under a key."""
    for name, x in WRONG.items():
        if name not in right:
            vector(kind, "%s is %s" % (key, name), made(x), number)


def values_wrong():
    e = {"e": b"pp"}
    wrong("value", "e", lambda x: item({"e": x}), ["bytes"], 11)
    wrong("value", "s", lambda x: item({**e, "s": x}), ["list"], 11)
    wrong("value", "the item in s", lambda x: item({**e, "s": [x]}) + b"a", ["map"], 11)
    wrong("value", "l", lambda x: item({**e, "s": [{"l": x}]}) + b"a", ["integer"], 11)
    wrong("value", "c", lambda x: item({**e, "c": x}), ["integer"], 11)
    wrong("value", "v", lambda x: item({**e, "v": x}), ["integer"], 11)
    wrong("value", "c in s", lambda x: item({**e, "s": [{"l": 0, "c": x}]}), ["integer"], 11)
    vector("value", "s of two maps", item({**e, "s": [{"l": 1}, {"l": 1}]}) + b"a", 11)
    vector("value", "map in s without l", item({**e, "s": [{"c": 1}]}), 11)
    vector("value", "map in s empty", item({**e, "s": [{}]}), 11)
    vector("value", "v in s is text", item({**e, "s": [{"l": 0, "v": "x", "e": 5}]}))
    for name, x in WRONG.items():
        vector("value", "z is " + name, item({"z": x, **e}))
        vector("value", "z in s is " + name, item({"s": [{"z": x, "l": 0}], **e}))


def values_parts():
    e = {"e": b"p"}
    vector("value", "s takes c and z over", item({**e, "c": 7, "z": 1, "s": [{"l": 1}]}) + b"a")
    vector("value", "s has its own c", item({**e, "c": 7, "z": 1, "s": [{"l": 1, "c": 2}]}) + b"a")
    vector("value", "s has its own c 0", item({**e, "c": 7, "s": [{"l": 1, "c": 0}]}) + b"a")
    vector("value", "s has its own z", item({**e, "c": 7, "s": [{"l": 1, "z": NIL}]}) + b"a")
    vector("value", "absent part takes c and z over", item({**e, "c": 7, "z": 1}))
    for n in (0, 1, 31, 200, 70000, LIMIT, LIMIT + 1, 2**63 - 1, 2**64 - 1):
        for form, x in integers(n):
            forms = "%d as %s" % (n, form)
            vector("value", "c " + forms, item({**e, "c": x}))
            vector("value", "v " + forms, item({**e, "v": x}))
            wanted = 11 if n > LIMIT else 12 if n > 31 else None
            vector("value", "l " + forms, item({**e, "s": [{"l": x}]}) + b"a" * min(n, 31), wanted)
    for n in (-1, -33, -129, -32769, -(2**31) - 1, -(2**63)):
        form, x = next(integers(n))
        for key, made in [("c", {"c": x}), ("v", {"v": x}), ("l", {"s": [{"l": x}]})]:
            vector("value", "%s %d as %s" % (key, n, form), item({**e, **made}), 11)
    for form, x in integers(-1):
        vector("value", "c in s -1 as " + form, item({**e, "s": [{"l": 0, "c": x}]}), 11)


def values_widths():
    def read(name, s, wanted=None):
        vector("value", name, s, wanted)

    e, l = item("e") + item(b"p"), item("l") + item(1)
    for k in range(2):
        form, width = "in %d bits" % (16 << k), 2 << k
        read("header " + form, sized(0xDE + k, width, 1, e))
        read("s " + form, pairs(("e", b"p"), ("s", sized(0xDC + k, width, 1, b"\x81" + l))) + b"a")
        read("s empty " + form, pairs(("e", b"p"), ("s", sized(0xDC + k, width, 0))))
        read("map in s " + form, pairs(("e", b"p"), ("s", [sized(0xDE + k, width, 1, l)])) + b"a")
    for k in range(3):
        read("e in %d bits" % (8 << k), pairs(("e", sized(0xC4 + k, 1 << k, 2, b"pp"))))
        long = pairs(("e", sized(0xC4 + k, 1 << k, -1, b"p")))
        read("e longer than the value in %d bits" % (8 << k), long, 9)
    read("e of 256 bytes", item({"e": b"p" * 256}))
    for first, name in [(0xDD, "list"), (0xDF, "map")]:
        most = sized(first, 4, -1)
        read(name + " of 2^32-1", most, 9)
        read(name + " of 2^32-1 under a key", pairs(("e", b"p"), ("s", most)), 9)


def values_keys():
    e = ("e", b"p")
    told = "v 3 e %d l 2 c 2 z 1 s 1 @ %d l 1 c 5 z 1"
    for k in range(4):

        def key(s):
            return list(every_text(s.encode()))[k][1]

        inner = {key("l"): 1, key("c"): 5, key("z"): 0}
        more = {key("s"): [inner], key("c"): 2, key("z"): 0, key("v"): 3, key("e"): b"pp"}
        s = item(more)
        name = "keys in " + list(every_text(b""))[k][0]
        vector("value", name, s + b"a", told % (len(s) - 2, len(s)))
    odd = pairs(*ODD, e, *[("ee", 1), ("", 2), ("E", 3), (Raw(b"\xa1\xff"), FLOAT)])
    vector("value", "unknown keys and keys of other types", odd)
    vector("value", "no e but keys of other types", pairs(*ODD), 11)
    odd = pairs(*[(b"l", 2), (108, 2), ("ll", 2), (Raw(b"\xa1\xff"), 0), ("l", 1), (b"l", 2)])
    vector("value", "in s unknown keys and keys of other types", pairs(e, ("s", [odd])) + b"a")


def lent_parts():
    """The parts that a value lends; K is document 01's."""
    k = bytes.fromhex("82A1739181A16C0CA165C410C40E") + b"value 1 headervalue 1 data"
    parts_of("K", k, b"\xc4\x0evalue 1 header", b"value 1 data")
    parts_of("L", k[:39])
    parts_of("M, no e", b"\x80")
    parts_of("M, empty", b"")
    parts_of("N, depth 17", lists(17))
    e, s = {"e": b"pp"}, {"s": [{"l": 3}]}
    parts_of("header alone", item(e), b"pp")
    parts_of("s empty", item({**e, "s": []}), b"pp")
    parts_of("l 0", item({**e, "s": [{"l": 0}]}), b"pp")
    parts_of("both parts empty", item({"e": b"", "s": [{"l": 0}]}))
    parts_of("secondary part alone", item({"e": b"", **s}) + b"abc", b"", b"abc")
    parts_of("e before s", item({**e, **s}) + b"abc", b"pp", b"abc")
    parts_of("s before e", item({**s, **e}) + b"abc", b"pp", b"abc")
    parts_of("the same bytes in both", item({"e": b"abc", **s}) + b"abc", b"abc", b"abc")
    parts_of("the same bytes before e", item({"x": b"pq", "e": b"pq"}), b"pq")
    parts_of("other bytes behind e", item({**e, "x": b"qq", **s}) + b"abc", b"pp", b"abc")
    parts_of("compressed and encrypted", item({**e, "c": 1, "z": 1, **s}) + b"abc", b"pp", b"abc")
    parts_of("v not 0", item({**e, "v": 7}), b"pp")
    parts_of("a byte missing", item({**e, **s}) + b"ab")
    parts_of("a byte left over", item({**e, **s}) + b"abcd")
    parts_of("e is text", item({"e": "pp"}))
    parts_of("e twice", pairs(("e", b"pp"), ("e", b"pp")))
    parts_of("cut", item(e)[:-1])
    for n in (255, 256):
        parts_of("e of %d bytes" % n, item({"e": b"p" * n, **s}) + b"abc", b"p" * n, b"abc")
    for n in (127, 128):
        parts_of("s of %d bytes" % n, item({"s": [{"l": n}], **e}) + b"d" * n, b"pp", b"d" * n)


def parts(kind, given):
    """What holds of the primary parts of all kinds. given: the keys of one that is read."""
    whole = item(given)
    vector(kind, "least", whole)
    vector(kind, "empty part", b"", 16)
    vector(kind, "a byte left over", whole + b"\x00", 16)
    vector(kind, "cut", whole[:-1], 16)
    vector(kind, "C1", b"\xc1", 16)
    vector(kind, "C1 under a key", item({**given, "x": Raw(b"\xc1")}), 16)
    vector(kind, "depth 16", item({**given, "x": lists(15)}))
    vector(kind, "depth 17", item({**given, "x": lists(16)}), 16)
    for name, x in [("list", [given]), ("nil", NIL), ("text", HERD), ("lists 16 deep", lists(16))]:
        vector(kind, "no map but " + name, item(x), 17)
    vector(kind, "lists 17 deep", lists(17), 16)
    vector(kind, "empty map", item({}), 17)
    vector(kind, "keys in another case", item({k.swapcase(): x for k, x in given.items()}), 17)
    vector(kind, "keys as bytes", item({k.encode(): x for k, x in given.items()}), 17)
    odd = pairs(*ODD, ("", 1), (Raw(b"\xa1\xff"), FLOAT), *given.items())
    vector(kind, "unknown keys and keys of other types", odd)
    for k in range(4):
        form = list(every_text(b""))[k][0]
        wide = {list(every_text(key.encode()))[k][1]: x for key, x in given.items()}
        vector(kind, "keys in " + form, item(wide))


def identifier_maps(kind, made):
    """The texts of an identifier, in a map. made: the part for the map's pairs."""
    right = {"b": "herd", "o": "k", "v": ULID}

    def read(name, wanted=None, **more):
        vector(kind, name, made(*{**right, **more}.items()), wanted)

    for key in "bov":
        without = [pair for pair in right.items() if pair[0] != key]
        vector(kind, "no " + key, made(*without), 17)
        for name in ("nil", "bytes", "integer", "map"):
            read("%s is %s" % (key, name), 17, **{key: WRONG[name]})
    for name, ulid in ULIDS:
        read("v " + name, 18, v=ulid)
    read("v of 128 bits", v=OTHER)
    read("bucket of 1", b="b")
    read("bucket of 63", b="b" * 63)
    read("bucket of 64", 18, b="b" * 64)
    read("bucket with a slash", 18, b="he/rd")
    read("bucket is a slash", 18, b="/")
    read("object of 1024", o="o" * 1024)
    read("object of 1025", 18, o="o" * 1025)
    read("object with slashes", o="/a//c/")
    read("bytes that are no UTF-8", b=Raw(b"\xa2\xff\xfe"), o=Raw(b"\xa3\x80\\\x00"))
    read("no ULID, object no text, 17 before 18", 17, v="", o=5)
    for form, x in every_text(ULID.encode()):
        read("texts in " + form, v=x)


def blocks():
    parts("block", {"I": HERD})
    map = {"b": "herd", "o": "k", "v": ULID}
    vector("block", "I as a map", item({"I": map}), TOLD)
    vector("block", "I as a map of depth 16", item({"I": {"x": lists(14), **map}}), TOLD)
    vector("block", "I as a map of depth 17", item({"I": {"x": lists(15), **map}}), 16)
    identifier_maps("block", lambda *given: item({"I": pairs(*given)}))
    wrong("block", "I", lambda x: item({"I": x}), ["text"], 17)
    vector("block", "I is text, no identifier", item({"I": "1"}), 18)
    vector("block", "I is bytes of the identifier", item({"I": HERD.encode()}), 17)
    vector("block", "map in the part itself", item(map), 17)
    vector("block", "other keys of other kinds", item({"d": 5, "???": 5, "v": 5, "I": HERD}))
    for form, x in list(every_text(HERD.encode()))[1:]:
        vector("block", "I in " + form, item({"I": x}), TOLD)
    for name, text in [
        ("bucket of 64", ULID + ":" + "b" * 64 + "/o"),
        ("bucket of 0", ULID + ":/o"),
        ("object of 0", ULID + ":b/"),
        ("no slash", ULID + ":b"),
        ("no colon", ULID + "b/o"),
        ("a small letter", HERD.replace("1", "a")),
        ("no text at all", ""),
        *[("a ULID " + name, ulid + ":b/o") for name, ulid in BEYOND],
    ]:
        vector("block", "I with " + name, item({"I": text}), 18)
    vector("block", "I with a ULID of 128 bits", item({"I": OTHER + ":b/o"}))
    vector("block", "I with slashes in the object", item({"I": HERD + "/a/"}))
    vector("block", "I with object of 1024", item({"I": ULID + ":b/" + "o" * 1024}))
    vector("block", "I with object of 1025", item({"I": ULID + ":b/" + "o" * 1025}), 18)
    text = ULID.encode() + b":\xff/\xfe"
    vector("block", "I with bytes that are no UTF-8", item({"I": sized(0xD9, 1, 30, text)}))


def versions():
    map = {"b": "herd", "o": "k", "v": ULID}
    parts("version", map)
    identifier_maps("version", pairs)
    vector("version", "d false", item({**map, "d": False}), TOLD + " d 0")
    vector("version", "d true", item({**map, "d": True}), TOLD + " d 1")
    wrong("version", "d", lambda x: item({**map, "d": x}), ["false"], 17)
    vector("version", "bad ULID and d, 17 before 18", item({**map, "v": "x", "d": 1}), 17)
    vector("version", "I and ??? are passed over", item({"I": 5, "???": NIL, **map}))
    vector("version", "identifier under I alone", item({"I": map}), 17)
    acl, crypt = {"t": 0, "i": "u", "p": 15}, {"x": 2, "k": b"\x00\x01", "e": ""}
    clone = {"p": "tape", "l": b"\x80", "f": 0, "B": 10000000, "s": 36}
    full = {"w": "owner", "A": [acl], "l": 36, "e": "etag", "N": False, "C": crypt, "p": [clone]}
    full.update({"s": {"v": 1, "b": 2}, "m": {"d": 3}, "h": True, "D": b"data"})
    vector("version", "every key of 001", item({**map, **full, "d": True}), TOLD + " d 1")


def deletes():
    map = {"b": "herd", "o": "k", "v": ULID}
    whole = {**map, "???": OTHER}
    parts("delete", whole)
    identifier_maps("delete", lambda *given: pairs(("???", OTHER), *given))
    vector("delete", "in the writer's order", item(whole), TOLD + " ? " + OTHER)
    vector("delete", "in reverse", item(dict(reversed(whole.items()))), TOLD + " ? " + OTHER)
    vector("delete", "delete identifier of itself", item({**map, "???": ULID}))
    vector("delete", "no delete identifier", item(map), 17)
    near = {"??": OTHER, "????": OTHER}
    vector("delete", "no delete identifier but near ones", item({**map, **near}), 17)
    wrong("delete", "???", lambda x: item({**map, "???": x}), ["text"], 17)
    for name, ulid in ULIDS:
        vector("delete", "??? " + name, item({**map, "???": ulid}), 18)
    vector("delete", "??? is composite", item({**map, "???": HERD}), 18)
    broken = {**map, "b": "/"}
    vector("delete", "bucket broken, no ???, 17 before 18", item(broken), 17)
    vector("delete", "bucket broken, ??? no text, 17 before 18", item({**broken, "???": 1}), 17)
    vector("delete", "bucket and ??? broken", item({**broken, "???": "x"}), 18)
    vector("delete", "d and I are passed over", item({**whole, "d": 5, "I": NIL}))


BK, VR, VD, OL = b"bk", b"vr", b"vd", b"ol"


def records():
    map = {"b": "herd", "o": "k", "v": ULID}
    block, version, delete = item({"I": HERD}), item(map), item({**map, "???": OTHER})

    def read(name, tag, value, wanted=None):
        vector("record", name, tag + bytes(value), wanted)

    read("block without data", BK, item({"e": block}))
    read("block with empty data", BK, item({"s": [{"l": 0}], "e": block}))
    read("version with a secondary part", VR, item({"e": version, "s": [{"l": 2}]}) + b"ab")
    read("delete marker", VR, item({"e": item({**map, "d": True})}))
    read("version delete", VD, item({"e": delete}))
    coded = [{"l": 0, "c": 1, "z": 1}]
    read("secondary part compressed and encrypted", BK, item({"s": coded, "e": block}))
    deep = item({"I": HERD, "x": lists(15)})
    read("header and part of depth 16", BK, item({"x": lists(15), "e": deep}))
    read("v, c of 0, wide", BK, item({"v": sized(0xCF, 8, 0), "c": sized(0xD3, 8, 0), "e": block}))
    for tag in (BK, VR, VD, OL, b"C!"):
        name = tag.decode()
        read("empty, " + name, tag, b"", 9)
        read("C1, " + name, tag, b"\xc1", 9)
        read("depth 17, " + name, tag, lists(17), 10)
        read("no header, " + name, tag, b"\x80", 11)
        read("value of case B, " + name, tag, b"data data data", 11)
        read("left over, " + name, tag, item({"e": b"", "v": 1, "c": 1}) + b"\x00", 12)
    for tag in (b"C!", b"OL", b"lo", b"BK", b"kb", b"rv", b"\x00\x00", b"\xff\xff"):
        read("tag " + tag.hex(), tag, item({"e": block}), 13)
    read("13 before 14 and 15", b"C!", item({"e": b"", "v": 1, "c": 1, "z": 1}), 13)
    for tag in (BK, VR, VD, OL):
        name = tag.decode()
        read("v 1, " + name, tag, item({"e": block, "v": 1}), 14)
        read("v 2^64-1, " + name, tag, item({"e": block, "v": 2**64 - 1}), 14)
        read("14 before 15, " + name, tag, item({"e": b"", "v": 1, "c": 1}), 14)
        read("c 1, " + name, tag, item({"e": block, "c": 1}), 15)
        read("z nil, " + name, tag, item({"e": block, "z": NIL}), 15)
        read("z false, c 0, " + name, tag, item({"e": block, "z": False, "c": 0}), 15)
        read("15 before 16, " + name, tag, item({"e": b"", "z": 1}), 15)
        read("e empty, " + name, tag, item({"e": b""}), 16)
        read("e with a byte left over, " + name, tag, item({"e": delete + b"\x00"}), 16)
        read("e of depth 17, " + name, tag, item({"e": bytes(lists(17))}), 16)
        read("e of depth 16, " + name, tag, item({"e": bytes(lists(16))}), 17)
        read("e empty map, " + name, tag, item({"e": b"\x80"}), 17)
    read("a version's part in a block", BK, item({"e": version}), 17)
    read("a block's part in a version", VR, item({"e": block}), 17)
    read("a version's part in a delete", VD, item({"e": version}), 17)
    read("a delete's part in a version", VR, item({"e": delete}))
    read("a block's part in a pack list", OL, item({"e": block}))
    read("a version's part in a pack list", OL, item({"e": version}), 17)
    read("a pack list's part in a block", BK, item({"e": pack_list(5)}))
    read("pack list", OL, item({"e": pack_list(GOOD, GOOD)}))
    secondary = {"s": [{"l": 2}], "e": pack_list(GOOD)}
    read("pack list with a secondary part", OL, item(secondary) + b"ab")
    read("entry no map, pack list", OL, item({"e": pack_list(GOOD, NIL)}), 17)
    read("key twice, pack list", OL, item({"e": bytes(pairs(("I", HERD), ("I", HERD)))}), 22)
    read("no pack ULID, pack list", OL, item({"e": pack_list(GOOD, {**GOOD, "p": ""})}), 18)
    read("range too long, pack list", OL, item({"e": pack_list(GOOD, {**GOOD, "o": LONG})}), 21)
    read("no identifier, block", BK, item({"e": item({"I": "x"})}), 18)
    read("no bucket, version", VR, item({"e": item({**map, "b": ""})}), 18)
    read("no delete ULID, delete", VD, item({"e": item({**map, "???": ""})}), 18)
    read("text over the part", BK, item({"e": block, "x": HERD}))


# ---- pack lists


def range_of(start, length):
    return {"s": start, "l": length}


def entry(source, stored, E=None, N=None, pack=OTHER):
    """An entry from two ranges, and the lists that it has; a delta may be below 0."""
    made = {"p": pack, "o": range_of(*source), "t": range_of(*stored)}
    if E is not None:
        made["E"] = E
    if N is not None:
        made["N"] = [next(integers(n))[1] for n in N]
    return made


def pack_list(*entries):
    return item({"I": HERD, "P": [*entries]})


GOOD = entry((3, 7), (9, 5), [5], [2])
LONG = range_of(GREATEST, 1)


def in_block(number, block, start, length, pack=OTHER):
    return "P %d # %d p %s @ %d l %d" % (number, block, pack, start, length)


def in_entry(number, start, length, pack=OTHER):
    return "P %d p %s @ %d l %d" % (number, pack, start, length)


def pack_lists():
    parts("pack_list", {"I": HERD, "P": [GOOD]})
    identifier_maps("pack_list", lambda *given: pairs(("P", [GOOD]), ("I", pairs(*given))))
    told = " p " + OTHER + " o 3 l 7 t 9 l 5 E 1 N 1"

    def read(name, part, wanted=None):
        vector("pack_list", name, part, wanted)

    read("no P", item({"I": HERD}), TOLD + " n 0")
    read("P empty", pack_list(), TOLD + " n 0")
    read("one entry", pack_list(GOOD), TOLD + " n 1" + told)
    both = told + told.replace(OTHER, ULID)
    read("two entries", pack_list(GOOD, {**GOOD, "p": ULID}), TOLD + " n 2" + both)
    read("16 entries", pack_list(*[GOOD] * 16), TOLD + " n 16" + told * 16)
    read("P before I", item({"P": [GOOD], "I": HERD}), TOLD + " n 1" + told)
    reverse = dict(reversed(GOOD.items()))
    read("entry in reverse", pack_list(reverse), TOLD + " n 1" + told)
    for name, x in WRONG.items():
        read("U is " + name, item({"U": x, "I": HERD, "P": [GOOD]}), TOLD + " n 1" + told)
    for key, said in [("E", "E 0 N 1"), ("N", "E 1 N 0")]:
        less = {k: x for k, x in GOOD.items() if k != key}
        read("no " + key, pack_list(less), TOLD + " n 1" + told.replace("E 1 N 1", said))
        read(key + " empty", pack_list({**GOOD, key: []}))
    for key, where in [("o", "o 3 l 7"), ("t", "t 9 l 5")]:
        start, length = where.split()[1], where.split()[3]
        for name, x, said in [
            ("empty", {}, "0 l 0"),
            ("without s", {"l": int(length)}, "0 l " + length),
            ("without l", {"s": int(start)}, start + " l 0"),
        ]:
            made = {**GOOD, "E": [], key: x}
            wanted = told.replace(where, key + " " + said).replace("E 1", "E 0")
            read("%s %s" % (key, name), pack_list(made), TOLD + " n 1" + wanted)
        read(key + " alone of depth 16", pack_list({**GOOD, key: {"x": lists(12), "l": 5}}))
        read(key + " alone of depth 17", pack_list({**GOOD, key: {"x": lists(13), "l": 5}}), 16)
    odd = [*ODD, ("", 1), ("x", 1), (Raw(b"\xa1\xff"), FLOAT)]
    read("unknown keys in an entry", pack_list(pairs(*odd, *GOOD.items())), TOLD + " n 1" + told)
    for key in "ot":
        made = {**GOOD, key: pairs(*odd, *GOOD[key].items())}
        read("unknown keys in " + key, pack_list(made), TOLD + " n 1" + told)


def pack_lists_wrong():
    def read(name, part, wanted):
        vector("pack_list", name, part, wanted)

    def types(key, made, right):
        wrong("pack_list", key, made, right, 17)

    types("I", lambda x: item({"I": x, "P": []}), ["text"])
    read("I is text, no identifier", item({"I": "1"}), 18)
    read("no I", item({"P": [GOOD]}), 17)
    read("identifier in the part itself", item({"b": "herd", "o": "k", "v": ULID}), 17)
    types("P", lambda x: item({"I": HERD, "P": x}), ["list"])
    types("an entry", lambda x: pack_list(x), [])
    types("a second entry", lambda x: pack_list(GOOD, x), [])
    types("an entry before a good one", lambda x: pack_list(x, GOOD), [])
    for key in "pot":
        left = {k: x for k, x in GOOD.items() if k != key}
        read("entry without " + key, pack_list(left), 17)
        read("a second entry without " + key, pack_list(GOOD, left), 17)
    for key, right in [("p", ["text"]), ("o", ["map"]), ("t", ["map"])]:
        types("entry's " + key, lambda x: pack_list(GOOD, {**GOOD, key: x}), right)
    for key in "EN":
        types("entry's " + key, lambda x: pack_list({**GOOD, key: x}, GOOD), ["list"])
    natural, integer = ["integer"], ["integer", "-1"]
    for key, right in [("E", natural), ("N", integer)]:
        types("the item in " + key, lambda x: pack_list({**GOOD, key: [x]}), right)
        types("the last item in " + key, lambda x: pack_list({**GOOD, key: [1, 0, x]}), right)
        types("the first item in " + key, lambda x: pack_list({**GOOD, key: [x, 0, 0, 0]}), right)
    for key in "ot":
        for inner in "sl":
            made = lambda x: pack_list({**GOOD, key: {**GOOD[key], inner: x}})
            types("%s in %s" % (inner, key), made, natural)
    for name, ulid in ULIDS:
        read("p " + name, pack_list({**GOOD, "p": ulid}), 18)
    read("p broken in a second entry", pack_list(GOOD, {**GOOD, "p": ULID[:25]}), 18)
    read("p broken before a good entry", pack_list({**GOOD, "p": ULID[:25]}, GOOD), 18)
    read("p is composite", pack_list({**GOOD, "p": HERD}), 18)


def pack_lists_unfilled():
    def read(name, wanted, *entries):
        vector("pack_list", name, pack_list(*entries), wanted)

    half = 2**63
    for key in "ot":
        for start, length, wanted in [
            (0, GREATEST, None),
            (GREATEST, 0, None),
            (GREATEST - 1, 1, None),
            (half, half - 1, None),
            (1, GREATEST, 21),
            (GREATEST, 1, 21),
            (half, half, 21),
            (GREATEST, GREATEST, 21),
        ]:
            given = {**GOOD, "E": [], key: range_of(start, length)}
            name = "%s from %d for %d" % (key, start, length)
            read(name, wanted, given)
            read(name + ", second entry", wanted, GOOD, given)
            read(name + ", first entry", wanted, given, GOOD)
    for length, listed, wanted in [
        (5, [5], None),
        (5, [4], None),
        (5, [0, 5, 0, 0], None),
        (5, [6], 21),
        (5, [5, 1], 21),
        (5, [6, 0], 21),
        (5, [2, 2, 2], 21),
        (0, [], None),
        (0, [0, 0], None),
        (0, [1], 21),
        (5, [GREATEST, 1], 21),
        (0, [GREATEST, 1], 21),
        (5, [half, half], 21),
        (5, [half, half, 5], 21),
        (GREATEST, [GREATEST], None),
        (GREATEST, [half, half - 1], None),
        (GREATEST, [half, half], 21),
        (GREATEST, [GREATEST, 1], 21),
    ]:
        given = {**GOOD, "t": range_of(0, length), "E": listed}
        name = "lengths %s of %d" % (listed, length)
        read(name, wanted, given)
        read(name + ", second entry", wanted, GOOD, given)
        read(name + ", first entry", wanted, given, GOOD)
    read("ends at 2^64-1, lengths too", None, entry((0, 1), (GREATEST - 5, 5), [2, 3]))


def pack_lists_in_order():
    """17, 22, 18, 21, each over the whole list."""
    untyped, unnamed = {**GOOD, "N": NIL}, {**GOOD, "p": ""}
    unfilled = {**GOOD, "E": [6]}
    twice = pairs(("t", {}), *GOOD.items())
    faults = [(17, untyped), (22, twice), (18, unnamed), (21, unfilled)]
    for k, (number, first) in enumerate(faults):
        for other, second in faults[k + 1 :]:
            name = "%d before %d, " % (number, other)
            vector("pack_list", name + "in order", pack_list(first, second), number)
            vector("pack_list", name + "in reverse", pack_list(second, first), number)
    for number, fault in faults:
        wanted = number if number in (17, 22) else 18
        part = item({"I": "x", "P": [fault]})
        vector("pack_list", "no identifier and %d" % number, part, wanted)
        part = pairs(("I", HERD), ("I", HERD), ("P", [fault]))
        vector("pack_list", "I twice and %d" % number, part, 17 if number == 17 else 22)
        part = item({"I": 5, "P": [fault]})
        vector("pack_list", "I is integer and %d" % number, part, 17)
        part = pack_list(fault) + b"\x00"
        vector("pack_list", "16 before %d" % number, part, 16)
        find("%d" % number, pack_list(GOOD, fault), (0, number), (3, number))
    inner = pairs(("v", ULID), *{"b": "herd", "o": "k", "v": ULID}.items())
    part = item({"I": inner, "P": [untyped]})
    vector("pack_list", "v in I twice, an entry wrong", part, 17)
    find("16", pack_list(GOOD)[:-1], (3, 16))
    find("no map", item([]), (3, 17))
    for name, first, last, wanted in [
        ("first wrong inside", [NIL], [GOOD], 22),
        ("last wrong inside", [GOOD], [NIL], 17),
        ("last broken", [GOOD], [unfilled], 22),
        ("first with a key twice", [twice], [], 22),
    ]:
        part = pairs(("P", first), ("I", HERD), ("P", last))
        vector("pack_list", "P twice, " + name, part, wanted)
    for key, bad in [("o", LONG), ("t", {"s": NIL}), ("E", [99]), ("N", [NIL])]:
        part = pack_list(pairs((key, bad), *GOOD.items()))
        vector("pack_list", "%s twice, first wrong inside" % key, part, 22)


def pack_list_widths():
    def read(name, made, *more):
        vector("pack_list", name, pack_list(made), *more)

    told = TOLD + " n 1 p " + OTHER + " o %d l %d t %d l %d E 1 N 1"
    for k in range(4):

        def wide(map):
            return {list(every_text(key.encode()))[k][1]: x for key, x in map.items()}

        ranges = {key: wide(GOOD[key]) for key in "ot"}
        name = list(every_text(b""))[k][0]
        read("keys of the entry and its ranges in " + name, wide({**GOOD, **ranges}))
    for form, x in every_text(OTHER.encode()):
        read("p in " + form, {**GOOD, "p": x}, told % (3, 7, 9, 5))
    for k in range(2):
        form, width = "in %d bits" % (16 << k), 2 << k
        content = b"".join(item(x) for pair in GOOD.items() for x in pair)
        read("entry " + form, sized(0xDE + k, width, 5, content), told % (3, 7, 9, 5))
        part = item({"I": HERD, "P": sized(0xDC + k, width, 2, item(GOOD) * 2)})
        vector("pack_list", "P " + form, part)
        read("E " + form, {**GOOD, "E": sized(0xDC + k, width, 1, b"\x05")}, told % (3, 7, 9, 5))
        read("N " + form, {**GOOD, "N": sized(0xDC + k, width, 1, b"\xff")}, told % (3, 7, 9, 5))
        source = sized(0xDE + k, width, 2, b"\xa1s\x03\xa1l\x07")
        read("o " + form, {**GOOD, "o": source}, told % (3, 7, 9, 5))
    for n in (0, 127, 255, 65535, LIMIT, 2**63 - 1, GREATEST):
        for form, x in integers(n):
            name = "%d as %s" % (n, form)
            read("o l " + name, {**GOOD, "o": {"l": x}}, told % (0, n, 9, 5))
            read("o s " + name, {**GOOD, "o": {"s": x}}, told % (n, 0, 9, 5))
            stored = {"t": {"l": x}, "E": [x]}
            read("t l and E " + name, {**GOOD, **stored}, told % (3, 7, 0, n))
            # The last block has what is left, whatever its delta.
            given = {**entry((0, 9), (1, 6)), "N": [x]}
            find("N " + name, pack_list(given), (8, in_block(0, 0, 1, 6)))
    for n in (-1, -32, -33, -129, -32769, -(2**31) - 1, 1 - 2**63):
        for form, x in integers(n):
            # The stride is -n, so that the first block has no byte.
            given = {**entry((0, 9), (1, 6), [2]), "N": [x, next(integers(9 + n))[1]]}
            name = "N %d as %s" % (n, form)
            find(name, pack_list(given), *[(k, in_block(0, 1, 3, 4)) for k in (0, 8)])


# 20 bytes in 2 blocks of 7 and 6 stored bytes.
TWENTY = entry((0, 20), (50, 13), [7], pack=ULID)


def in_three(start, *deltas):
    """25 bytes from a byte on in 3 blocks of 6, 8 and 5 stored bytes."""
    return entry((start, 25), (70, 19), [6, 8], deltas)


def thirds(number, lengths):
    """Where the bytes of such an entry from byte 100 on stand, by its blocks' source lengths."""
    start, stored = 100, [(70, 6), (76, 8), (84, 5)]
    for k, n in enumerate(lengths):
        if n:
            yield start, in_block(number, k, *stored[k])
            yield start + n - 1, in_block(number, k, *stored[k])
        start += n
    yield start, "none"


def strides():
    def read(name, entries, lengths):
        """lengths: of the blocks of the last entry; none where it is the answer by itself."""
        number = len(entries) - 1
        if lengths:
            wanted = list(dict(thirds(number, lengths)).items())
        else:
            wanted = [(n, in_entry(number, 70, 19)) for n in (100, 112, 124)] + [(125, "none")]
        find(name, pack_list(*entries), *wanted, (99, "none"))

    half = 2**63
    for name, deltas, lengths in [
        ("no deltas", [], [9, 9, 7]),
        ("deltas of 0", [0, 0, 0], [9, 9, 7]),
        ("first added", [4], [11, 7, 7]),
        ("second subtracted", [0, -3], [10, 7, 8]),
        ("third subtracted", [0, 0, -4], [10, 10, 5]),
        ("third added", [0, 0, 7], [6, 6, 13]),
        ("each its own", [1, 2, -3], [10, 11, 4]),
        ("past the last block", [0, 0, 0, -100, GREATEST, GREATEST], [9, 9, 7]),
        ("deltas hold all bytes", [20, 5], [20, 5, 0]),
        ("deltas hold more than all bytes", [20, 0, 100], [20, 0, 5]),
        ("the first block empty", [-13], [0, 13, 12]),
        ("the second block empty", [0, -13], [13, 0, 12]),
        ("the first block below 0", [-30, 50], None),
        ("the first block just below 0", [-14], None),
        ("the second block below 0", [9, -9, 9], None),
        ("the third block below 0", [20, 0, -20], None),
        ("the third block below 0 by the second", [0, 26], None),
        ("gains of 2^64-1", [0, 0, GREATEST], [0, 0, 25]),
        ("gains of 2^64-1 before the last", [GREATEST], None),
        ("gains of 2^64", [0, 1, GREATEST], None),
        ("gains of 2^64 that a sum brings to 0", [half, 0, half], None),
        ("losses up to 2^64-1", [-half, 0, -(half - 26)], None),
        ("losses up to 2^64", [0, -(half - 25), -half], None),
        ("losses and gains beyond 2^64", [GREATEST, -half, -half], None),
    ]:
        read("stride, " + name, [in_three(100, *deltas)], lengths)
    # The stride is that of the whole list, wherever the entry stands that asks for it.
    for length, lengths in [(17, [9, 9, 7]), (20, [10, 10, 5]), (24, [12, 12, 1]), (25, None)]:
        name = "stride, beside %d bytes in 2 blocks" % length
        read(name, [{**TWENTY, "o": range_of(0, length)}, in_three(100)], lengths)
    longer = {**TWENTY, "o": range_of(0, 25)}
    read("stride, of three entries", [TWENTY, longer, in_three(100, -5, -4)], [8, 9, 8])
    for name, deltas in [
        ("gains", [GREATEST, 1]),
        ("losses", [-half, -half]),
        ("bytes and losses", [-half, 25 - half]),
    ]:
        entries = [in_three(0, *deltas), in_three(100)]
        read("stride, another entry's %s not counted" % name, entries, [9, 9, 7])
    entries = [in_three(0, 0, 0, -(2**40)), in_three(100)]
    read("stride, another entry's losses counted", entries, None)


def blocks_found():
    forty = in_three(20)
    find(
        "two entries",
        pack_list(TWENTY, forty),
        *[(n, in_block(0, 0, 50, 7, ULID)) for n in (0, 9)],
        *[(n, in_block(0, 1, 57, 6, ULID)) for n in (10, 19)],
        *[(n, in_block(1, 0, 70, 6)) for n in (20, 29)],
        *[(n, in_block(1, 1, 76, 8)) for n in (30, 39)],
        *[(n, in_block(1, 2, 84, 5)) for n in (40, 44)],
        (45, "none"),
    )
    find(
        "the later bytes first",
        pack_list(forty, TWENTY),
        (0, in_block(1, 0, 50, 7, ULID)),
        (10, in_block(1, 1, 57, 6, ULID)),
        (20, in_block(0, 0, 70, 6)),
        (40, in_block(0, 2, 84, 5)),
        (45, "none"),
    )
    def ten_of(number):
        return 19, in_block(number, 1, 57, 6, ULID)

    nine, ten = (9, in_block(1, 0, 50, 7, ULID)), ten_of(0)
    find("in several", pack_list(TWENTY, in_three(10)), ten, (20, in_block(1, 1, 76, 8)))
    reverse = pack_list(in_three(10), TWENTY)
    find("in several, reverse", reverse, nine, (19, in_block(0, 0, 70, 6)))
    find("in two of the same range", pack_list(TWENTY, {**TWENTY, "p": OTHER}), ten)
    alone = pack_list(in_three(10, GREATEST, 1), TWENTY)
    find("in several, the first alone", alone, nine, (19, in_entry(0, 70, 19)))
    find("between entries", pack_list(TWENTY, in_three(30)), ten, (20, "none"), (29, "none"))
    find("no P", item({"I": HERD}), (0, "none"), (GREATEST, "none"))
    find("no entries", pack_list(), (0, "none"))
    empty = {"p": OTHER, "o": {"s": 5}, "t": {}}
    find("an entry without bytes", pack_list(empty), (4, "none"), (5, "none"), (6, "none"))
    find("one before others", pack_list(empty, TWENTY), (5, in_block(1, 0, 50, 7, ULID)))
    without = pack_list({"p": OTHER, "o": {"l": 5}, "t": {"s": 9}})
    find("no stored bytes", without, *[(k, in_entry(0, 9, 0)) for k in (0, 4)], (5, "none"))
    beside = pack_list(entry((20, 5), (9, 0)), TWENTY)
    find("no stored bytes, beside others", beside, ten_of(1), (20, in_entry(0, 9, 0)))
    filled = entry((0, 4), (0, 7), [3, 4, 0])
    find("a last length of 0, listed", pack_list(filled), (3, in_block(0, 1, 3, 4)))
    zeros = pack_list(entry((0, 4), (9, 0), [0, 0, 0]))
    find("lengths of 0", zeros, (1, in_block(0, 0, 9, 0)), (2, in_block(0, 1, 9, 0)))
    map = {"b": "herd", "o": "k", "v": ULID}
    inside = item({"P": [TWENTY], "U": NIL, "I": map})
    find("the identifier as a map", inside, (10, in_block(0, 1, 57, 6, ULID)))
    many = entry((1000, 160), (5, 1700), [10] * 159)
    front = [(1000 + k, in_block(0, k, 5 + 10 * k, 10)) for k in (0, 15, 16, 158)]
    last = (1159, in_block(0, 159, 1595, 110))
    find("160 blocks", pack_list(many), *front, last, (1160, "none"))


def blocks_found_near_64_bits():
    half, most = 2**63, GREATEST
    whole = entry((0, most), (0, most))
    in_whole = [(n, in_block(0, 0, 0, most)) for n in (0, most - 1)]
    find("all bytes in one block", pack_list(whole), *in_whole, (most, "none"))
    find(
        "all bytes in two blocks",
        pack_list(entry((0, most), (1, most - 1), [half])),
        (half - 1, in_block(0, 0, 1, half)),
        *[(n, in_block(0, 1, half + 1, half - 2)) for n in (half, most - 1)],
    )
    find(
        "the last bytes",
        pack_list(entry((most - 9, 9), (most - 5, 5), [2, 3])),
        (most - 10, "none"),
        *[(n, in_block(0, 0, most - 5, 2)) for n in (most - 9, most - 5)],
        *[(n, in_block(0, 1, most - 3, 3)) for n in (most - 4, most - 1)],
        (most, "none"),
    )
    # The stride of the one is too long for the other.
    both = pack_list(whole, entry((most, 0), (0, 1)), entry((0, 2), (3, 4), [1]))
    find("a long stride", both, (1, in_block(0, 0, 0, most)))
    both = pack_list(entry((5, 2), (3, 4), [1]), whole)
    find("a long stride, a short entry", both, (5, in_entry(0, 3, 4)), (7, in_block(1, 0, 0, most)))
    # Deltas that bring the stride to 2^63, and others that take it away again, or not.
    for name, lost in [
        ("one", [-half]),
        ("two", [-half, -(half - 1)]),
        ("two in reverse", [-(half - 1), -half]),
    ]:
        long = entry((0, 0), (0, 1), [0] * (len(lost) - 1), lost)
        for said, deltas, wanted in [
            ("taken away", [-half], in_block(1, 1, 4, 3)),
            ("taken away twice", [-half, 6 - half], in_block(1, 1, 4, 3)),
            ("taken away twice, not counted", [-half, 5 - half], in_entry(1, 3, 4)),
            ("all but one", [1 - half], in_block(1, 0, 3, 1)),
            ("all but 6", [6 - half], in_entry(1, 3, 4)),
            ("brought to 2^64+4", [half + 4], in_entry(1, 3, 4)),
        ]:
            part = pack_list(long, entry((0, 5), (3, 4), [1], deltas))
            byte = 0 if said == "all but one" else 4
            find("a stride of 2^63 by %s, %s" % (name, said), part, (byte, wanted))


# Document 01's cases F to J: a byte of B changed, and the refusal.
DAMAGE = [
    ("F", 0, 0x88, 3),
    ("G", 24, 1, 4),
    ("H", 27, 7, 5),
    ("I", 31, 0x15, 6),
    ("J", 45, 0x62, 8),
]


def places():
    map = {"b": "b", "o": "o", "v": ULID}
    version = record(VR, item({"e": item(map)}))
    delete = record(VD, item({"e": item({**map, "???": OTHER})}))
    second, third = len(version), len(version) + len(delete)
    b = record(b"C!", b"data data data")
    printed_b = "89544C560D0A1A0A 000000000000000E E33DB5F49F8ECB36 00 4321 08 0000 BB14"
    assert xxh64(b"") == 0xEF46DB3751D8E999 and b[:32] == bytes.fromhex(printed_b)
    at("A, empty pack", 0, b"", 20)
    at("B", 0, b, 11)
    at("C", 0, b[:-1], "7 at 0")
    at("D", 0, b[:31], "2 at 0")
    at("E", 46, b + b"\x00", "2 at 46")
    at("E, at 0", 0, b + b"\x00", 11)
    for name, i, byte, number in DAMAGE:
        damaged = b[:i] + bytes([byte]) + b[i + 1 :]
        at(name, 0, damaged, "%d at 0" % number)
        at(name + " behind a version", second, version + damaged, "%d at %d" % (number, second))
    pack = version + delete + b
    at("a version", 0, pack)
    at("a version delete", second, pack)
    at("B in third place", third, pack, 11)
    at("last byte", len(pack) - 1, pack, "2 at %d" % (len(pack) - 1))
    at("31 bytes", len(pack) - 31, pack, "2 at %d" % (len(pack) - 31))
    at("32 bytes, no record", len(pack) - 32, pack, "3 at %d" % (len(pack) - 32))
    at("inside a header", 1, pack, "3 at 1")
    for place in (len(pack), len(pack) + 1, 2**32, 2**63, 2**64 - 1):
        at("place %d of %d" % (place, len(pack)), place, pack, 20)
    for length in (len(delete) + 1, 2**32, 2**64 - 32, 2**64 - 1):
        s = header(VR, length, 0) + delete
        at("length %d of %d" % (length, len(delete)), 0, s, "7 at 0")
    at("a pack cut behind is no fault of the first", 0, version + b"\x89")
    value = version[32:]
    at("bytes 28 and 29 set", 0, header(VR, len(value), xxh64(value), spare=0xFFFF) + value)
    at("3 before 4 to 8", 0, b"\x00" * 33, "3 at 0")
    at("4 before 5", 0, header(VR, 0, 0, version=1, hash_type=0), "4 at 0")
    at("5 before 7", 0, header(VR, 9, 0, hash_type=0), "5 at 0")
    at("7 before 8", 0, header(VR, 1, 0), "7 at 0")
    at("8 before 9", 0, header(VR, 0, 0), "8 at 0")
    at("9, empty value", 0, record(VR, b""), 9)
    at("10", 0, record(VR, lists(17)), 10)
    at("12", 0, record(VR, item({"e": b""}) + b"a"), 12)
    at("13", 0, record(b"C!", item({"e": b""})), 13)
    at("14", 0, record(VR, item({"e": b"", "v": 1})), 14)
    at("15", 0, record(VR, item({"e": b"", "z": 1})), 15)
    at("16 behind a version", second, version + record(VR, item({"e": b""})), 16)
    at("17 behind a version", second, version + record(VR, item({"e": b"\x80"})), 17)
    header_twice = record(VR, pairs(("e", b""), ("e", b"")) + b"a")
    at("22 of a header behind a version", second, version + header_twice, 22)
    part = bytes(pairs(*map.items(), *map.items()))
    at("22 of a part behind a version", second, version + record(VR, item({"e": part})), 22)
    part = pack_list({**GOOD, "o": LONG})
    at("21 behind a version", second, version + record(OL, item({"e": part})), 21)
    at("18 behind a version", second, version + record(BK, item({"e": item({"I": ""})})), 18)
    outer = record(BK, item({"s": [{"l": len(version)}], "e": item({"I": HERD})}) + version)
    at("a record in a block's data", len(outer) - len(version), outer)
    at("the block around it", 0, outer)


# ---- keys given twice

# A map that is read: the kind of vector, which map of it, the number of a wrong type, the bytes
# that its pairs make, the keys that must be there, and all its keys, each with a right value,
# another, and one of a wrong type, if there is one.
Map = namedtuple("Map", "kind where number made needed keys")
NAMES = {"b": ("herd", "pen", NIL), "o": ("k", "j", 5), "v": (ULID, OTHER, b"v")}
# A value of them breaks more rules, which come behind 22: 14 to 16, and 12 without its last byte.
MAPS = [
    Map(
        "value",
        "header",
        11,
        lambda *given: pairs(*given) + b"a",
        ["e"],
        {
            "e": (b"", b"qq", "p"),
            "s": ([{"l": 1}], [{"l": 1, "c": 7}], {"l": 1}),
            "c": (1, 2, Raw(b"\xff")),
            "z": (1, NIL, None),
            "v": (1, 2, NIL),
        },
    ),
    Map(
        "value",
        "map in s",
        11,
        lambda *given: pairs(("e", b""), ("v", 1), ("c", 1), ("s", [pairs(*given)])) + b"a",
        ["l"],
        {"l": (1, 2, "1"), "c": (1, 2, NIL), "z": (1, NIL, None)},
    ),
    Map("block", "part", 17, pairs, ["I"], {"I": (HERD, {"b": "b", "o": "o", "v": ULID}, 5)}),
    Map("block", "map under I", 17, lambda *given: pairs(("I", pairs(*given))), [*NAMES], NAMES),
    Map("version", "part", 17, pairs, [*NAMES], {**NAMES, "d": (True, False, NIL)}),
    Map("delete", "part", 17, pairs, [*NAMES, "???"], {**NAMES, "???": (OTHER, ULID, 5)}),
    Map(
        "pack_list",
        "part",
        17,
        pairs,
        ["I"],
        {"I": (HERD, {"b": "b", "o": "o", "v": ULID}, 5), "P": ([GOOD], [], NIL)},
    ),
    Map(
        "pack_list",
        "map under I",
        17,
        lambda *given: pairs(("P", [GOOD]), ("I", pairs(*given))),
        [*NAMES],
        NAMES,
    ),
    Map(
        "pack_list",
        "entry",
        17,
        lambda *given: pack_list(GOOD, pairs(*given)),
        ["p", "o", "t"],
        {
            "p": (OTHER, ULID, 5),
            "o": ({"s": 3, "l": 7}, {}, []),
            "t": ({"s": 9, "l": 5}, {"l": 5}, NIL),
            "E": ([5], [], [NIL]),
            "N": ([Raw(b"\xff")], [1], {}),
        },
    ),
    Map(
        "pack_list",
        "source range",
        17,
        lambda *given: pack_list(GOOD, {**GOOD, "o": pairs(*given)}),
        [],
        {"s": (3, 4, NIL), "l": (7, 0, Raw(b"\xff"))},
    ),
    Map(
        "pack_list",
        "pack range",
        17,
        lambda *given: pack_list({**GOOD, "t": pairs(*given)}, GOOD),
        [],
        {"s": (3, 0, "3"), "l": (7, 8, [])},
    ),
]
READ = dict.fromkeys(key for map in MAPS for key in map.keys)
# All of them in one map, twice each: nobody looks into it.
TWICE = pairs(*[(key, 1) for key in READ] * 2)
TOLD_OF = {"block": TOLD, "version": TOLD + " d 1", "delete": TOLD + " ? " + OTHER}


def right(map):
    return {key: given[0] for key, given in map.keys.items()}


def twice():
    for map in MAPS:
        for key, (x, other, wrong) in map.keys.items():
            name = "%s, %s twice, " % (map.where, key)
            rest = [pair for pair in right(map).items() if pair[0] != key]
            values = [("equal", x, x, 22), ("other first", other, x, 22)]
            values.append(("other last", x, other, 22))
            if wrong is not None:
                values.append(("wrong first", wrong, x, 22))
                values.append(("wrong last", x, wrong, map.number))
                values.append(("both wrong", wrong, wrong, map.number))
            forms = list(every_text(key.encode()))
            # Two of the same form, and each form first and last.
            two = [forms[:1] * 2, *zip(forms, forms[1:] + forms[:1])]
            for (form, k), (again, l) in two:
                for said, a, b, wanted in values:
                    shown = "%s%s, %s and %s" % (name, said, form, again)
                    vector(map.kind, shown, map.made((k, a), *rest, (l, b)), wanted)
            pair = (key, x)
            vector(map.kind, name + "before the others", map.made(pair, pair, *rest), 22)
            vector(map.kind, name + "behind the others", map.made(*rest, pair, pair), 22)
            vector(map.kind, name + "and again", map.made(pair, *rest, pair, pair), 22)


def twice_in_order():
    """22 behind the types of all maps, and before all else."""
    for map in MAPS:
        for key, x in right(map).items():
            name = "%s, %s twice, " % (map.where, key)

            def read(said, given, wanted, kind=map.kind, front=b"", cut=None):
                made = map.made((key, x), *given.items())
                vector(kind, name + said, front + made[:cut], wanted)

            for other, (_, _, wrong) in map.keys.items():
                if other != key and wrong is not None:
                    read("%s wrong" % other, {**right(map), other: wrong}, map.number)
            for other in map.needed:
                if other != key:
                    left = {k: y for k, y in right(map).items() if k != other}
                    read("no %s" % other, left, map.number)
                if isinstance(right(map)[other], str):
                    read("%s broken" % other, {**right(map), other: ""}, 22)
            if map.kind == "value":
                read("not filled", right(map), 22, cut=-1)
                for tag in (BK, VR, VD, OL, b"C!"):
                    read(tag.decode(), right(map), 22, kind="record", front=tag)


def twice_in_two_maps():
    one, again = [{"l": 1}], [pairs(("l", 1), ("l", 1))]
    e, names = ("e", b"p"), {"b": "herd", "o": "k", "v": ULID}
    for name, given, wanted in [
        ("c twice, c in s wrong", [("c", 1), e, ("s", [{"l": 1, "c": NIL}]), ("c", 1)], 11),
        ("l in s twice, v wrong", [("s", again), e, ("v", NIL)], 11),
        ("l in s twice, no e", [("s", again)], 11),
        ("l twice in one map of two", [("s", again + one), e], 11),
        ("e twice, l in s twice", [e, ("s", again), e], 22),
        ("s twice, first wrong inside", [("s", [{"l": "x"}]), e, ("s", one)], 22),
        ("s twice, last wrong inside", [("s", one), e, ("s", [{"l": "x"}])], 11),
        ("s twice, first with l twice", [("s", again), e, ("s", one)], 22),
        ("s twice, last empty", [("s", one), e, ("s", [])], 22),
    ]:
        vector("value", name, pairs(*given) + b"a", wanted)
    again = pairs(("b", "herd"), *names.items())
    for name, first, last, wanted in [
        ("first wrong inside", {"b": 5}, HERD, 22),
        ("last wrong inside", HERD, {**names, "b": 5}, 17),
        ("last empty", names, {}, 17),
        ("last broken", HERD, {**names, "v": "x"}, 22),
        ("last broken text", names, "x", 22),
        ("first with b twice", again, HERD, 22),
        ("last with b twice", HERD, again, 22),
    ]:
        vector("block", "I twice, " + name, pairs(("I", first), ("I", last)), wanted)


def records_with_parts_twice():
    for tag, map in zip((BK, VR, VD, OL), [MAPS[2], *MAPS[4:]]):
        part = bytes(map.made(*right(map).items(), *right(map).items()))
        name = "part with all keys twice, %s, " % tag.decode()
        for said, front, value, wanted in [
            ("22", tag, item({"e": part}), 22),
            ("12 before", tag, item({"e": part}) + b"a", 12),
            ("13 before", b"C!", item({"e": part}), 13),
            ("14 before", tag, item({"e": part, "v": 1}), 14),
            ("15 before", tag, item({"e": part, "z": NIL}), 15),
            ("16 before", tag, item({"e": part + b"\x00"}), 16),
        ]:
            vector("record", name + said, front + value, wanted)


def may_repeat():
    unknown = [*ODD, ("", 1), ("x", 1), ("ee", 1), ("U", 1), (Raw(b"\xa1\xff"), 1)]
    for map in MAPS:
        given, told = right(map).items(), TOLD_OF.get(map.kind)
        for key in READ:
            if key not in map.keys:
                name = "%s, %s twice, not read" % (map.where, key)
                vector(map.kind, name, map.made((key, TWICE), *given, (key, NIL)), told)
            else:
                name = "%s, %s twice, as bytes" % (map.where, key)
                pair = (key.encode(), 1)
                vector(map.kind, name, map.made(pair, *given, pair), told)
        for pair in unknown:
            name = "%s, unknown %s twice" % (map.where, item(pair[0]).hex())
            vector(map.kind, name, map.made(pair, *given, pair), told)


def written_twice():
    for write, map, others in [
        (write_version, MAPS[4], ["???", "I", "x"]),
        (write_delete, MAPS[5], ["d", "I", "x"]),
        (write_pack_list, MAPS[6], ["U", "b", "x"]),
    ]:
        given = right(map).items()
        for key, values in map.keys.items():
            for name, x in zip(("equal", "other", "wrong"), values):
                write("%s twice, %s first" % (key, name), map.made((key, x), *given), 20)
            write("%s twice, no room" % key, map.made((key, values[0]), *given), 20, room=0)
        for key in others:
            write("%s twice, not read" % key, map.made((key, TWICE), *given, (key, 5)))


def walks():
    """The records, then the end or the fault, and that again; B is document 01's."""
    b = record(b"C!", b"data data data")
    empty = record(b"vd", b"")
    hash, none = " e33db5f49f8ecb36", " ef46db3751d8e999"
    first = "@ 0 t 17185 l 14" + hash
    assert int.from_bytes(b"C!", "big") == 17185 and int.from_bytes(b"vd", "big") == 30308
    walk("A", b"", "end")
    walk("B", b, first, "end")
    walk("C", b[:-1], "7 at 0")
    walk("D", b[:31], "2 at 0")
    walk("E", b + b"\x00", first, "2 at 46")
    for name, i, byte, number in DAMAGE:
        damaged = b[:i] + bytes([byte]) + b[i + 1 :]
        walk(name, damaged, "%d at 0" % number)
        second = empty + damaged
        walk(name + " in second place", second, "@ 0 t 30308 l 0" + none, "%d at 32" % number)
    others = "@ 46 t 30308 l 0" + none, "@ 78 t 17185 l 14" + hash
    walk("three records", b + empty + b, first, *others, "end")
    walk("a fault in the middle", b + damaged + b, first, "8 at 46")
    walk("length of 2^64-1", b + header(b"vr", 2**64 - 1, 0), first, "7 at 46")


HELD = Held(ULID, "herd", "k")


def compared():
    """Identifiers of three texts, and held ones beside them."""
    texts = (ULID, "herd", "k")
    names("herd", texts, HELD, True, True)
    names("another ULID", texts, Held(OTHER, "herd", "k"), False, True)
    names("ULID with another end", texts, Held(ULID[:25] + "2", "herd", "k"), False, True)
    names("another bucket", texts, Held(ULID, "here", "k"), False, False)
    names("another object", texts, Held(ULID, "herd", "l"), False, False)
    names("a longer bucket", texts, Held(ULID, "herds", "k"), False, False)
    names("a shorter bucket", texts, Held(ULID, "her", "k"), False, False)
    names("a longer object", texts, Held(ULID, "herd", "k/"), False, False)
    names("a shorter object", (ULID, "herd", "kk"), HELD, False, False)
    names("the padding of the other", (ULID, "herd", "k//"), HELD, False, False)
    names("the slash elsewhere", (ULID, "a", "b/c"), Held(ULID, "a/b", "c"), False, False)
    names("bucket and object exchanged", (ULID, "k", "herd"), HELD, False, False)
    names("another case", (ULID, "Herd", "k"), HELD, False, False)
    longest = (OTHER, "b" * 63, "o" * 1024)
    names("longest", longest, Held(*longest), True, True)
    for name, bucket, object in [
        ("bucket with another end", "b" * 62 + "c", "o" * 1024),
        ("object with another end", "b" * 63, "o" * 1023 + "p"),
    ]:
        names("longest, " + name, longest, Held(OTHER, bucket, object), False, False)
    odd = (ULID, "\udcff", "\udcfe\0")
    names("bytes that are no UTF-8", odd, Held(*odd), True, True)
    names("bucket told too long", texts, Held(ULID, "herd", "k", (64, 1)), False, False)
    names("object told too long", texts, Held(ULID, "herd", "k", (4, 1025)), False, False)
    for name, broken, named in [
        ("bucket of 64", (ULID, "b" * 64, "k"), False),
        ("object of 1025", (ULID, "herd", "o" * 1025), False),
        ("bucket of 0", (ULID, "", "k"), False),
        ("object of 0", (ULID, "herd", ""), False),
        ("bucket with a slash", (ULID, "he/rd", "k"), False),
        *[("ULID " + name, (ulid, "herd", "k"), True) for name, ulid in ULIDS[:-1]],
    ]:
        names(name, broken, HELD, None, named)


def written_blocks():
    value = bytes.fromhex("82 A173 91 81 A16C 03 A165 C426 81 A149 D921") + HERD.encode() + b"abc"
    made = packs.block(ULID, "herd", "k", b"abc")
    assert (made[32:], len(value), len(made)) == (value, 53, 85)
    write_block("herd", HELD, b"abc", 85)
    write_block("empty", HELD, b"", 82)
    for n, count in [
        (1, 83),
        (127, 209),
        (128, 211),
        (255, 338),
        (256, 340),
        (65535, 65619),
        (65536, 65622),
    ]:
        write_block("of %d bytes" % n, HELD, b"d" * n, count)
    write_block("of 65536 bytes behind others", HELD, b"d" * 65536, 4000 + 65622, used=4000)
    # The widths of the text, and at 250 and 251 of the primary part.
    for n in (30, 31, 32, 250, 251, 255, 256, 1053):
        write_block("with a text of %d bytes" % n, Held(ULID, "b", "o" * (n - 29)), b"abc")
    longest = Held(OTHER, "b" * 63, "o" * 1024)
    write_block("with the longest identifier", longest, b"abc")
    write_block("with slashes in the object", Held(OTHER, "b:", "//a/"), b"/")
    write_block("with bytes that are no UTF-8", Held(ULID, "\udcff\\", "\udcfe \0"), b"\0\xff")


def filled(map, n):
    """A part of n bytes, which a key of its own fills."""
    rest = n - len(item({**map, "x": sized(0xC6, 4, 0)}))
    return item({**map, "x": sized(0xC6, 4, rest, b"d" * rest)})


def written_parts():
    map = {"b": "herd", "o": "k", "v": ULID}
    whole = {**map, "???": OTHER}
    version, delete, block = item(map), item(whole), item({"I": HERD})
    write_version("least", version, 32 + 5 + 41)
    write_version("delete marker", item({**map, "d": True}))
    write_version("of a delete's part", delete)
    for n, count in [(65535, 65573), (65536, 65576)]:
        write_version("part of %d bytes" % n, filled(map, n), count)
    write_delete("least", delete, 32 + 5 + 72)
    write_delete("in reverse", item(dict(reversed(whole.items()))))
    write_delete("with d and I", item({**whole, "d": 5, "I": NIL}))
    write_delete("of a version's part", version, 20)
    for write, part in [(write_version, version), (write_delete, delete)]:
        given = map if write is write_version else whole
        wide = {sized(0xDB, 4, len(key), key.encode()): x for key, x in given.items()}
        write("in wide forms", sized(0xDF, 4, len(given), item(wide)[1:]))
        for n in (255, 256):
            part_of = item({**given, "x": b"p" * (n - len(part) - 4)})
            assert len(part_of) == n
            write("part of %d bytes" % n, part_of, 32 + 3 + (2 if n < 256 else 3) + n)
        write("depth 16", item({**given, "x": lists(15)}))
        write("longest names", item({**given, "b": "b" * 63, "o": "o" * 1024}))
        write("ULID of 128 bits", item({**given, "v": OTHER}))
        for name, broken in [
            ("empty part", b""),
            ("cut", part[:-1]),
            ("a byte left over", part + b"\x00"),
            ("depth 17", item({**given, "x": lists(16)})),
            ("a block's part", block),
            ("no map", item([given])),
            ("no bucket", item({key: x for key, x in given.items() if key != "b"})),
            ("bucket of 64", item({**given, "b": "b" * 64})),
            ("bucket with a slash", item({**given, "b": "he/rd"})),
            ("object empty", item({**given, "o": ""})),
            ("object of 1025", item({**given, "o": "o" * 1025})),
            ("object is bytes", item({**given, "o": b"k"})),
            ("ULID with a small letter", item({**given, "v": ULID[:25] + "a"})),
            *[("ULID " + name, item({**given, "v": ulid})) for name, ulid in BEYOND],
        ]:
            write(name, broken, 20)
        write("empty part, no room", b"", 20, room=0)
    write_version("d is nil", item({**map, "d": NIL}), 20)
    short, small = ULID[:25], ULID[:25] + "a"
    for name, by in [("of 25 characters", short), ("with a small letter", small), *BEYOND]:
        write_delete("??? " + name, item({**map, "???": by}), 20)
    write_delete("??? is bytes", item({**map, "???": OTHER.encode()}), 20)


def written_pack_lists():
    part = item({"I": HERD})
    write_pack_list("least", part, 32 + 5 + 38)
    write_pack_list("of 001:584", printed_list())
    write_pack_list("I as a map", item({"I": {"b": "herd", "o": "k", "v": ULID}, "P": [GOOD]}))
    write_pack_list("two entries", pack_list(GOOD, TWENTY))
    write_pack_list("U and unknown keys", item({"U": NIL, "x": 1, "I": HERD, "P": []}))
    write_pack_list("depth 16", pack_list({**GOOD, "x": lists(13)}))
    wide = sized(0xDF, 4, 1, item(sized(0xDB, 4, 1, b"I")) + item(HERD))
    write_pack_list("in wide forms", wide)
    for n in (255, 256):
        filler = item({"I": HERD, "x": b"p" * (n - len(part) - 4)})
        assert len(filler) == n
        write_pack_list("part of %d bytes" % n, filler, 32 + 3 + (2 if n < 256 else 3) + n)
    for n, count in [(65535, 65573), (65536, 65576)]:
        write_pack_list("part of %d bytes" % n, filled({"I": HERD}, n), count)
    for name, broken in [
        ("empty part", b""),
        ("cut", part[:-1]),
        ("a byte left over", part + b"\x00"),
        ("depth 17", pack_list({**GOOD, "x": lists(14)})),
        ("no map", item([HERD])),
        ("a version's part", item({"b": "herd", "o": "k", "v": ULID})),
        ("P is nil", item({"I": HERD, "P": NIL})),
        ("entry is nil", pack_list(GOOD, NIL)),
        ("entry without p", pack_list({"o": {}, "t": {}})),
        ("s below 0", pack_list({**GOOD, "o": {"s": Raw(b"\xff")}})),
        ("E below 0", pack_list({**GOOD, "E": [Raw(b"\xff")]})),
        ("N is text", pack_list({**GOOD, "N": "1"})),
        ("p twice", pack_list(pairs(("p", ULID), *GOOD.items()))),
        ("s twice", pack_list({**GOOD, "o": pairs(("s", 1), ("s", 1))})),
        ("I no identifier", item({"I": "x"})),
        *[("ULID " + name, item({"I": ulid + ":herd/k"})) for name, ulid in BEYOND],
        *[("p " + name, pack_list({**GOOD, "p": ulid})) for name, ulid in BEYOND],
        ("o too long", pack_list({**GOOD, "o": LONG})),
        ("t too long", pack_list(GOOD, {**GOOD, "t": range_of(1, GREATEST)})),
        ("E too long", pack_list({**GOOD, "E": [6]})),
    ]:
        write_pack_list(name, broken, 20)
    write_pack_list("empty part, no room", b"", 20, room=0)
    write_pack_list("E too long, no room", pack_list({**GOOD, "E": [6]}), 20, room=0)


def written_deletes():
    names = bytes.fromhex("A162 A4") + b"herd" + bytes.fromhex("A16F A1") + b"k"
    ulids = bytes.fromhex("A176 BA") + ULID.encode() + b"\xa3???\xba" + OTHER.encode()
    made = packs.version_delete(ULID, "herd", "k", OTHER)
    assert made[32:] == bytes.fromhex("81 A165 C448 84") + names + ulids
    write_delete_of("herd", HELD, OTHER, 109)
    write_delete_of("by its own ULID", HELD, ULID, 109)
    # The widths of the texts, and at 183 and 184 of the primary part.
    for n in (31, 32, 183, 184, 255, 256, 1024):
        write_delete_of("object of %d" % n, Held(ULID, "herd", "o" * n), OTHER)
    for n in (1, 31, 32, 63):
        write_delete_of("bucket of %d" % n, Held(ULID, "b" * n, "k"), OTHER)
    write_delete_of("longest identifier", Held(OTHER, "b" * 63, "o" * 1024), OTHER)
    write_delete_of("bytes that are no UTF-8", Held(ULID, "\udcff\\", "\udcfe \0"), OTHER)
    for name, ulid in [*ULIDS[:-1], ("with byte B0", ULID[:25] + "\udcb0")]:
        write_delete_of("delete ULID " + name, HELD, ulid, 20)
    write_delete_of("delete ULID composite", HELD, HERD, 20)
    write_delete_of("delete ULID empty, no room", HELD, "", 20, room=0)


def not_admitted():
    for name, id in [
        ("bucket of 0", Held(ULID, "", "k")),
        ("bucket of 64", Held(ULID, "b" * 64, "k")),
        ("bucket of 2^64-1", Held(ULID, "b" * 63, "k", (2**64 - 1, 1))),
        ("bucket with a slash", Held(ULID, "he/rd", "k")),
        ("bucket is a slash", Held(ULID, "/", "k")),
        ("object of 0", Held(ULID, "herd", "")),
        ("object of 1025", Held(ULID, "herd", "o" * 1025)),
        ("object of 2^64-1", Held(ULID, "herd", "o" * 1024, (4, 2**64 - 1))),
        ("ULID with byte B0", Held(ULID[:25] + "\udcb0", "herd", "k")),
        *[("ULID " + x, Held(u, "herd", "k")) for x, u in ULIDS[:-1] if len(u) == 26],
    ]:
        write_block(name, id, b"abc", 20)
        write_delete_of(name, id, OTHER, 20)
    broken = Held(ULID, "herd", "")
    write_block("object of 0, no room", broken, b"", 20, room=0)
    write_delete_of("object of 0, no room", broken, OTHER, 20, room=0)


def rooms():
    map = {"b": "herd", "o": "k", "v": ULID}
    version, delete = item(map), item({**map, "???": OTHER})
    for write, given, n in [
        (write_block, (HELD, b"abc"), 85),
        (write_version, (version,), 78),
        (write_delete, (delete,), 109),
        (write_pack_list, (item({"I": HERD}),), 75),
        (write_delete_of, (HELD, OTHER), 109),
    ]:
        for name, used, room, wanted in [
            ("exactly long enough", 0, n, n),
            ("one short", 0, n - 1, 19),
            ("no room", 0, 0, 19),
            ("exactly long enough behind others", 1000, 1000 + n, 1000 + n),
            ("one short behind others", 1000, 1000 + n - 1, 19),
            ("count of the room", n, n, 19),
            ("count above the room", n + 1, n, 19),
            ("at the buffer's end", BUFFER - n, BUFFER, BUFFER),
            ("one past the buffer's end", BUFFER - n + 1, BUFFER, 19),
            ("up to the limit", LIMIT - n, BUFFER, 19),
            ("one past the limit", LIMIT - n + 1, BUFFER, 20),
            ("count of the limit", LIMIT, BUFFER, 20),
            ("count of 2^32", LIMIT + 1, BUFFER, 20),
            ("count of 2^63", 2**63, 0, 20),
            ("count that a sum brings to 0", 2**64 - n, BUFFER, 20),
            ("count of 2^64-1", 2**64 - 1, 0, 20),
        ]:
            write(name, *given, wanted, used=used, room=room)


def written_packs():
    """Records one after another; 001:584 gives 101 bytes for each of its blocks."""
    id = Held("7YF1QJW74PNYV552JB3YPAJJX1", "bucket", "object")
    pack = b""
    for k in range(3):
        data = b"block %d data" % (k + 1)
        pack = write_block("%d of 001:581-583" % (k + 1), id, data, 101 * (k + 1), pack=pack)
    map = {"b": "bucket", "o": "object", "v": "7YF1QTCNCDN7FYSQFD2PFH2DCS"}
    part = item(map)
    pack = write_version("of 001:822 behind them", part, 303 + 85, pack=pack)
    pack = write_delete("behind them", item({**map, "???": OTHER}), 388 + 116, pack=pack)
    write_block("not admitted behind them", Held(ULID, "", ""), b"", 20, pack=pack)
    pack = write_delete_of("made behind them", id, OTHER, 504 + 116, pack=pack)
    write_version("too long behind them", part, 19, pack=pack, room=620 + 84)
    pack = write_version("again behind them", part, 620 + 85, pack=pack)
    end = 705 + 32 + 5 + len(printed_list())
    pack = write_pack_list("of 001:584 behind them", printed_list(), end, pack=pack)
    for place in (0, 101, 202, 303, 388, 504, 620, 705):
        at("written pack, %d" % place, place, pack)


def main():
    for section in [
        herd_block,
        document_001,
        identifiers,
        values_whole,
        values_wrong,
        values_parts,
        values_widths,
        values_keys,
        lent_parts,
        blocks,
        versions,
        deletes,
        records,
        pack_lists,
        pack_lists_wrong,
        pack_lists_unfilled,
        pack_lists_in_order,
        pack_list_widths,
        strides,
        blocks_found,
        blocks_found_near_64_bits,
        places,
        twice,
        twice_in_order,
        twice_in_two_maps,
        records_with_parts_twice,
        may_repeat,
        walks,
        compared,
        written_blocks,
        written_parts,
        written_pack_lists,
        written_deletes,
        written_twice,
        not_admitted,
        rooms,
        written_packs,
    ]:
        section()
    vectors.store()


main()
