"""A plain reader by documents 01 and 02 and docs/FORMAT.md, for the scripts that make vectors.

Written from these and not from the definitions that are proved.
"""
from collections import namedtuple

from packs import xxh64

LIMIT = 4294967295


class Refusal(Exception):
    """A number of the refusal sheet, and for 1 to 8 the place."""


def outcome(answer, *given):
    """The answer, and whether it is a refusal."""
    try:
        return answer(*given), False
    except Refusal as refusal:
        return str(refusal), True


Item = namedtuple("Item", "type content end")
# A part of a value, as the header tells it.
Part = namedtuple("Part", "start length c z")
# listed: whether there is a map in `s`; content: the primary part's bytes.
Value = namedtuple("Value", "v primary secondary listed content")
Identifier = namedtuple("Identifier", "ulid bucket object")
FIXED = {0xC0: ("nil", None), 0xC2: ("boolean", False), 0xC3: ("boolean", True)}
SIZED = {0xC4: "bytes", 0xC7: "extension", 0xD9: "text"}
COUNTED = {0xDC: "list", 0xDE: "map"}


class Reader:
    """Reads items from a place of s on."""

    def __init__(self, s, at=0):
        self.s, self.at = s, at

    def take(self, n):
        if len(self.s) - self.at < n:
            raise Refusal("9")
        self.at += n
        return self.s[self.at - n : self.at]

    def number(self, width, signed=False):
        return int.from_bytes(self.take(width), "big", signed=signed)

    def made(self, type, content):
        return Item(type, content, self.at)

    def container(self, type, count, depth):
        if depth > 16:
            raise Refusal("10")
        if type == "map":
            content = [(self.item(depth + 1), self.item(depth + 1)) for _ in range(count)]
        else:
            content = [self.item(depth + 1) for _ in range(count)]
        return self.made(type, content)

    def item(self, depth=1):
        first = self.number(1)
        if first < 0x80 or first >= 0xE0:
            return self.made("integer", first if first < 0x80 else first - 256)
        if first < 0x90:
            return self.container("map", first - 0x80, depth)
        if first < 0xA0:
            return self.container("list", first - 0x90, depth)
        if first < 0xC0:
            return self.made("text", self.take(first - 0xA0))
        if first == 0xC1:
            raise Refusal("9")
        if first in FIXED:
            return self.made(*FIXED[first])
        if first in (0xCA, 0xCB):
            return self.made("float", self.take(4 * (first - 0xC9)))
        if 0xCC <= first <= 0xD3:
            width = 1 << (first - 0xCC) % 4
            return self.made("integer", self.number(width, signed=first >= 0xD0))
        if 0xD4 <= first <= 0xD8:
            return self.made("extension", self.take(1 + (1 << first - 0xD4)))
        if first >= 0xDC:
            width = 4 if first & 1 else 2
            return self.container(COUNTED[first & 0xFE], self.number(width), depth)
        start = max(x for x in SIZED if x <= first)
        size = self.number(1 << first - start)
        return self.made(SIZED[start], self.take(size + (start == 0xC7)))


def values(map, key):
    """All that stands under a key, in whatever width this is written."""
    return [value for name, value in map.content if (name.type, name.content) == ("text", key)]


def under(map, key):
    """What types and rules are tested on: the last value of a key."""
    found = values(map, key)
    return found[-1] if found else None


def once(map, *keys):
    """Refusal 22 where one of these keys is given twice, with equal values too."""
    if any(len(values(map, key)) > 1 for key in keys):
        raise Refusal("22")


def typed(type, found, number):
    """What is found, if it is of this type."""
    if found is None or found.type != type:
        raise Refusal(number)
    return found.content


def natural(found, absent, number="11"):
    if found is None and absent is not None:
        return absent
    n = typed("integer", found, number)
    if n < 0:
        raise Refusal(number)
    return n


# ---- values


def read_value(s):
    """Refusals 9, 10, 11, 22 and 12, in this order, or what the value tells."""
    map = Reader(s).item()
    if map.type != "map":
        raise Refusal("11")
    found = under(map, b"e")
    content = typed("bytes", found, "11")
    c, v = natural(under(map, b"c"), 0), natural(under(map, b"v"), 0)
    z = under(map, b"z") is not None
    listed = under(map, b"s")
    maps = [] if listed is None else typed("list", listed, "11")
    length, c2, z2 = 0, c, z
    if len(maps) > 1:
        raise Refusal("11")
    for inner in maps:
        if inner.type != "map":
            raise Refusal("11")
        length = natural(under(inner, b"l"), None)
        if length > LIMIT:
            raise Refusal("11")
        c2, z2 = natural(under(inner, b"c"), c), z or under(inner, b"z") is not None
    once(map, b"e", b"s", b"c", b"z", b"v")
    for inner in maps:
        once(inner, b"l", b"c", b"z")
    if map.end + length != len(s):
        raise Refusal("12")
    primary = Part(found.end - len(content), len(content), c, z)
    return Value(v, primary, Part(map.end, length, c2, z2), bool(maps), content)


def read_content(value):
    """Refusals 14 and 15, or the primary part's bytes."""
    if value.v != 0:
        raise Refusal("14")
    if value.primary.c != 0 or value.primary.z:
        raise Refusal("15")
    return value.content


# ---- identifiers and primary parts

ALPHABET = b"0123456789ABCDEFGHJKMNPQRSTVWXYZ"


def is_ulid(s):
    """26 characters, and the number that they write in base 32 has at most 128 bits (request 2)."""
    number = 0
    for byte in s:
        if byte not in ALPHABET:
            return False
        number = 32 * number + ALPHABET.index(byte)
    return len(s) == 26 and number < 2**128


def is_name(bucket, object):
    return 1 <= len(bucket) <= 63 and b"/" not in bucket and 1 <= len(object) <= 1024


def identifier(ulid, bucket, object):
    """The three, if they keep the rules."""
    if not is_ulid(ulid) or not is_name(bucket, object):
        raise Refusal("18")
    return Identifier(ulid, bucket, object)


def composite(s):
    bucket, slash, object = s[27:].partition(b"/")
    if s[26:27] != b":" or not slash:
        raise Refusal("18")
    return identifier(s[:26], bucket, object)


def read_part(s):
    """The map that fills a primary part."""
    try:
        map = Reader(s).item()
    except Refusal:
        raise Refusal("16")
    if map.end != len(s):
        raise Refusal("16")
    typed("map", map, "17")
    return map


NAMES = (b"v", b"b", b"o")


def texts(map):
    return [typed("text", under(map, key), "17") for key in NAMES]


def names_under(map):
    """The texts of an identifier, or its composite text, and the map that they stand in, if any."""
    found = under(map, b"I")
    if found is not None and found.type == "map":
        return texts(found), [found]
    return [typed("text", found, "17")], []


def named(names):
    return composite(*names) if len(names) == 1 else identifier(*names)


def read_block(s):
    """Refusals 16, 17, 22 and 18, in this order, or the identifier; so too below."""
    map = read_part(s)
    names, inner = names_under(map)
    once(map, b"I")
    for found in inner:
        once(found, *NAMES)
    return named(names)


def read_version(s):
    """The identifier, and the delete flag."""
    map = read_part(s)
    names, flag = texts(map), under(map, b"d")
    deleted = False if flag is None else typed("boolean", flag, "17")
    once(map, *NAMES, b"d")
    return identifier(*names), deleted


def read_delete(s):
    """The identifier, and the delete identifier."""
    map = read_part(s)
    names, by = texts(map), typed("text", under(map, b"???"), "17")
    once(map, *NAMES, b"???")
    id = identifier(*names)
    if not is_ulid(by):
        raise Refusal("18")
    return id, by


# ---- pack lists

Range = namedtuple("Range", "start length")
# at: where the pack's ULID starts in the primary part.
Entry = namedtuple("Entry", "pack at source stored lengths deltas")
# block: its number; None where the lengths of the entry's blocks place no byte.
Found = namedtuple("Found", "number entry block stored")
GREATEST = 2**64 - 1


def read_range(found):
    typed("map", found, "17")
    return Range(*[natural(under(found, key), 0, "17") for key in (b"s", b"l")])


def read_list(found):
    """The items of a list, which may be absent."""
    return [] if found is None else typed("list", found, "17")


def read_entry(map):
    typed("map", map, "17")
    pack = under(map, b"p")
    ulid = typed("text", pack, "17")
    source, stored = read_range(under(map, b"o")), read_range(under(map, b"t"))
    lengths = [natural(length, None, "17") for length in read_list(under(map, b"E"))]
    deltas = [typed("integer", delta, "17") for delta in read_list(under(map, b"N"))]
    return Entry(ulid, pack.end - len(ulid), source, stored, lengths, deltas)


def is_filled(entry):
    """Whether the ranges end within 64 bits, and the lengths listed within the pack's range."""
    ranges = all(sum(range) <= GREATEST for range in (entry.source, entry.stored))
    return ranges and sum(entry.lengths) <= entry.stored.length


def read_pack_list(s):
    """Refusal 21 too, behind 18: the identifier, and the entries."""
    map = read_part(s)
    names, inner = names_under(map)
    maps = read_list(under(map, b"P"))
    entries = [read_entry(entry) for entry in maps]
    once(map, b"I", b"P")
    for found in inner:
        once(found, *NAMES)
    for entry in maps:
        once(entry, b"p", b"o", b"t", b"E", b"N")
        for key in (b"o", b"t"):
            once(under(entry, key), b"s", b"l")
    id = named(names)
    if not all(is_ulid(entry.pack) for entry in entries):
        raise Refusal("18")
    if not all(is_filled(entry) for entry in entries):
        raise Refusal("21")
    return id, entries


def stored_lengths(entry):
    """Of each block: those listed, and the rest of the pack's range, where there is one."""
    rest = entry.stored.length - sum(entry.lengths)
    return entry.lengths + ([rest] if rest else [])


def block_deltas(entry):
    """The delta of each block, 0 where there is none; those past the last block play no part."""
    count = len(stored_lengths(entry))
    return (entry.deltas + [0] * count)[:count]


def is_counted(entry):
    """Whether it has a block, and 64 bits hold its sums."""
    deltas = block_deltas(entry)
    gains, losses = sum(d for d in deltas if d > 0), sum(-d for d in deltas if d < 0)
    return bool(deltas) and gains <= GREATEST and entry.source.length + losses <= GREATEST


def stride(entries):
    """The least number of at least 0 with which the blocks of every entry hold its source range."""
    least = 0
    for entry in filter(is_counted, entries):
        deltas = block_deltas(entry)
        # Rounded up.
        least = max(least, -((sum(deltas) - entry.source.length) // len(deltas)))
    return least


def source_lengths(entry, stride):
    """Of each block; None where one would be below 0, there is none, or a sum is above 64 bits."""
    lengths = [stride + delta for delta in block_deltas(entry)[:-1]]
    lengths.append(entry.source.length - sum(lengths))
    return lengths if is_counted(entry) and min(lengths) >= 0 else None


def find_block(s, byte):
    """The refusals of a pack list, or where a byte of the version stands; None: in no entry."""
    _, entries = read_pack_list(s)
    for number, entry in enumerate(entries):
        offset = byte - entry.source.start
        if not 0 <= offset < entry.source.length:
            continue
        lengths = source_lengths(entry, stride(entries))
        if lengths is None:
            return Found(number, entry, None, entry.stored)
        # The block with the byte is the last that begins at or before it and is not empty.
        block = max(k for k, n in enumerate(lengths) if n and sum(lengths[:k]) <= offset)
        start = entry.stored.start + sum(entry.lengths[:block])
        return Found(number, entry, block, Range(start, stored_lengths(entry)[block]))
    return None


# ---- records


def read_tlv(pack, place):
    """Refusals 2 to 8, or the tag and the value of the record at a place."""
    s = pack[place:]
    length, value = int.from_bytes(s[8:16], "big"), s[32:]
    value = value[:length]
    for number, fault in [
        (2, len(s) < 32),
        (3, s[:8] != bytes.fromhex("89544C560D0A1A0A")),
        (4, s[24:25] != b"\x00"),
        (5, s[27:28] != b"\x08"),
        (6, s[30:32] != (xxh64(s[:30]) % 65536).to_bytes(2, "big")),
        (7, length > len(s) - 32),
        (8, s[16:24] != xxh64(value).to_bytes(8, "big")),
    ]:
        if fault:
            raise Refusal("%d at %d" % (number, place))
    return s[25:27], value


def records_of(pack):
    """Refusals 2 to 8, or each record: its start, tag and value. No pack here is too long."""
    place = 0
    while place < len(pack):
        tag, value = read_tlv(pack, place)
        yield place, tag, value
        place += 32 + len(value)


def read_pack(pack, bucket, object):
    """The lookup's refusals, or the pack's versions and deletions, each in pack order.

    A version: identifier, delete flag, start and value. A deletion: identifier and start.
    """
    if not is_name(bucket, object):
        raise Refusal("20")
    versions, deletions = [], []
    # The whole pack is checked before the first value is read.
    for start, tag, value in list(records_of(pack)):
        try:
            if tag == b"vr":
                identifier, flag = read_version(read_content(read_value(value)))
                versions.append((identifier, flag, start, value))
            elif tag == b"vd":
                identifier, _ = read_delete(read_content(read_value(value)))
                deletions.append((identifier, start))
        except Refusal as refusal:
            raise Refusal("%s at %d" % (refusal, start))
    return versions, deletions
