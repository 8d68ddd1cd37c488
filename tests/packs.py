"""Packs by document 01's layout, for samples/make and the tests.

Plain Python, written from the public specifications; no part of what is proved.
"""

M64 = 2**64 - 1
P1, P2, P3, P4, P5 = (
    0x9E3779B185EBCA87,
    0xC2B2AE3D27D4EB4F,
    0x165667B19E3779F9,
    0x85EBCA77C2B2AE63,
    0x27D4EB2F165667C5,
)


def left(x, n):
    return (x << n | x >> (64 - n)) & M64


def mixed(lane, word):
    return left((lane + word * P2) & M64, 31) * P1 & M64


def xxh64(data):
    """XXH64 with seed 0."""

    def little(at, width):
        return int.from_bytes(data[at : at + width], "little")

    at, n = 0, len(data)
    h = P5
    if n >= 32:
        lanes = [(P1 + P2) & M64, P2, 0, -P1 & M64]
        while n - at >= 32:
            lanes = [mixed(lane, little(at + 8 * i, 8)) for i, lane in enumerate(lanes)]
            at += 32
        h = sum(left(lane, r) for lane, r in zip(lanes, (1, 7, 12, 18))) & M64
        for lane in lanes:
            h = ((h ^ mixed(0, lane)) * P1 + P4) & M64
    h = (h + n) & M64
    while n - at >= 8:
        h = (left(h ^ mixed(0, little(at, 8)), 27) * P1 + P4) & M64
        at += 8
    if n - at >= 4:
        h = (left(h ^ little(at, 4) * P1 & M64, 23) * P2 + P3) & M64
        at += 4
    for byte in data[at:]:
        h = left(h ^ byte * P5 & M64, 11) * P1 & M64
    h = (h ^ h >> 33) * P2 & M64
    h = (h ^ h >> 29) * P3 & M64
    return h ^ h >> 32


def head(n, short, limit, forms):
    """n in one byte below the limit, else in the first of the forms (byte, width) that holds it."""
    if n < limit:
        return bytes([short + n])
    byte, width = next(form for form in forms if n < 256 ** form[1])
    return bytes([byte]) + n.to_bytes(width, "big")


class Raw(bytes):
    """An item encoded already, in a form of its own."""


def item(x):
    """A MessagePack item in its shortest form; the keys of a map in the order given."""
    if isinstance(x, Raw):
        return x
    if isinstance(x, bool):
        return b"\xc3" if x else b"\xc2"
    if isinstance(x, int) and x < 0:
        return negative(x)
    if isinstance(x, int):
        return head(x, 0x00, 128, [(0xCC, 1), (0xCD, 2), (0xCE, 4), (0xCF, 8)])
    if isinstance(x, bytes):
        return head(len(x), 0, 0, [(0xC4, 1), (0xC5, 2), (0xC6, 4)]) + x
    if isinstance(x, str):
        text = x.encode(errors="surrogateescape")
        return head(len(text), 0xA0, 32, [(0xD9, 1), (0xDA, 2), (0xDB, 4)]) + text
    if isinstance(x, list):
        return head(len(x), 0x90, 16, [(0xDC, 2), (0xDD, 4)]) + b"".join(map(item, x))
    return bytes(pairs(*x.items()))


def negative(x):
    if x >= -32:
        return bytes([256 + x])
    first, width = next(f for f in [(0xD0, 1), (0xD1, 2), (0xD2, 4), (0xD3, 8)] if -x <= 1 << 8 * f[1] - 1)
    return bytes([first]) + x.to_bytes(width, "big", signed=True)


def pairs(*given):
    """A map of any pairs, keys that come twice included."""
    content = b"".join(item(x) for pair in given for x in pair)
    return Raw(head(len(given), 0x80, 16, [(0xDE, 2), (0xDF, 4)]) + content)


def sized(first, width, n, content=b""):
    return Raw(bytes([first]) + (n % 256**width).to_bytes(width, "big") + content)


def every_text(s):
    """A short text in every width."""
    yield "fixstr", Raw(bytes([0xA0 + len(s)]) + s)
    for k in range(3):
        yield "str%d" % (8 << k), sized(0xD9 + k, 1 << k, len(s), s)


def lists(depth):
    return Raw(b"\x91" * (depth - 1) + b"\x90")


NIL = Raw(b"\xc0")


def header(tag, length, value_hash, version=0, hash_type=8, spare=0):
    """The 32 bytes before a value, with their own hash right."""
    fields = b"\x89TLV\r\n\x1a\n" + length.to_bytes(8, "big") + value_hash.to_bytes(8, "big")
    fields += bytes([version]) + tag + bytes([hash_type]) + spare.to_bytes(2, "big")
    return fields + (xxh64(fields) % 65536).to_bytes(2, "big")


def record(tag, value):
    return header(tag, len(value), xxh64(value)) + value


def block(ulid, bucket, name, data):
    primary = item({"I": ulid + ":" + bucket + "/" + name})
    return record(b"bk", item({"s": [{"l": len(data)}], "e": primary}) + data)


def version(ulid, bucket, name, **more):
    primary = item({"b": bucket, "o": name, "v": ulid, **more})
    return record(b"vr", item({"e": primary}))


def version_delete(ulid, bucket, name, delete_ulid):
    primary = item({"b": bucket, "o": name, "v": ulid, "???": delete_ulid})
    return record(b"vd", item({"e": primary}))
