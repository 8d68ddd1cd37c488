#!/usr/bin/env python3
"""tests/vectors.py [--check]: makes the vectors of crates/vectors.

What is to be found is written out here: the hashes are those of Debian's libxxhash 0.8.1, the rest
is by MessagePack's specification. Without arguments the script writes the program's stored stdin
and stdout; with --check it compares them. That the program prints this stdout is checked by rt.
"""
import sys

sys.dont_write_bytecode = True
from stored import Vectors, number

HEADS = ["text head", "bytes head", "array head", "map head", "integer head"]
READERS = ["item", "integer", "text", "binary", "boolean", "array", "map"]
vectors = Vectors("vectors", ["hash", *READERS, "key", "pair", *HEADS])


def read(kind, title, data, found):
    vectors.add(kind, "msgpack " + title, data, b"", found)


# ---- XXH64

# Of the first n bytes of an input whose byte at k is 73 k + 5, modulo 256.
HASHES = {
    0: 0xEF46DB3751D8E999,
    1: 0x50FF15A81340970F,
    3: 0x4FE01DC597D43618,
    4: 0x44660F2F3CEB9EA7,
    7: 0xDECB0785A46E4099,
    8: 0xD07ADB86CF82DCB2,
    14: 0xEA70A536BF0025E5,
    31: 0x40AC04D6FBE5056B,
    32: 0xD52B1688AB9BC2B5,
    33: 0x175C983E458FBD0B,
    63: 0x088B4640A04AE0AA,
    64: 0xA25A860384A36D7C,
    100: 0x5F8E0F12DED2ABD5,
    222: 0x66432F25198DAD5E,
}


def hashes():
    for n, found in HASHES.items():
        data = bytes((73 * k + 5) % 256 for k in range(n))
        vectors.add("hash", "xxh64 of %d bytes" % n, data, b"", "%016x" % found)


# ---- items passed over

# How long the items are that begin with C0 to DF and go on with zeros, by the specification's table
# of formats; C1 is none.
SIZED = {
    0xC0: [1, None, 1, 1, 2, 3, 5, 3, 4, 6, 5, 9, 2, 3, 5, 9],
    0xD0: [2, 3, 5, 9, 3, 4, 6, 10, 18, 2, 3, 5, 3, 5, 3, 5],
}


def format_length(first):
    if 0x80 <= first < 0x90:
        return 1 + 2 * (first - 0x80)
    if 0x90 <= first < 0xA0:
        return 1 + (first - 0x90)
    if 0xA0 <= first < 0xC0:
        return 1 + (first - 0xA0)
    if 0xC0 <= first < 0xE0:
        return SIZED[first & 0xF0][first & 0x0F]
    return 1


def formats():
    for first in range(256):
        length = format_length(first)
        found = "cut" if length is None else "l %d" % length
        read("item", "format %02x" % first, bytes([first]) + bytes(39), found)


def depths():
    for title, data, found in [
        ("arrays 16 deep", b"\x91" * 15 + b"\x90", "l 16"),
        ("arrays 17 deep", b"\x91" * 16 + b"\x90", "too deep"),
        ("arrays 17 deep, the count cut", b"\x91" * 16 + b"\xdc\x00", "cut"),
        ("arrays 17 deep, the count whole", b"\x91" * 16 + b"\xdc\x00\x05", "too deep"),
        ("maps as values 16 deep", b"\x81\x00" * 15 + b"\x80", "l 31"),
        ("maps as values 17 deep", b"\x81\x00" * 16 + b"\x80", "too deep"),
        ("maps as keys 16 deep", b"\x81" * 15 + b"\x80" + b"\x00" * 15, "l 31"),
        ("maps as keys 17 deep", b"\x81" * 16 + b"\x80" + b"\x00" * 16, "too deep"),
        ("C1 before depth 17", b"\x92\xc1" + b"\x91" * 17 + b"\x90", "cut"),
        ("depth 17 before C1", b"\x92" + b"\x91" * 17 + b"\x90\xc1", "too deep"),
        ("count of 2^32-1", b"\xdf\xff\xff\xff\xff\x00", "cut"),
        ("nothing", b"", "cut"),
    ]:
        read("item", title, data, found)


def cuts():
    """Every front of an item is cut."""
    whole = b"\xde\x00\x04"
    # str 8 "a": [nil, true, -1, a float]
    whole += b"\xd9\x01a\x94\xc0\xc3\xd1\xff\xff\xca\x3f\x80\x00\x00"
    # str 16 "b": 2 bytes
    whole += b"\xda\x00\x01b\xc5\x00\x02\x01\x02"
    # 5: an extension
    whole += b"\x05\xc7\x03\x07xyz"
    # an extension: str 32
    whole += b"\xd4\x01\x02\xdb\x00\x00\x00\x02hi"
    for n in range(len(whole)):
        read("item", "first %d bytes" % n, whole[:n], "cut")
    read("item", "all of them", whole, "l 43")


# ---- items read


def integers():
    """`s` is 1 where the form is the short one."""
    for title, data, found in [
        ("positive fixint of 0", b"\x00", "+ 0 s 1"),
        ("positive fixint of 127", b"\x7f", "+ 127 s 1"),
        ("uint 8 of 0", b"\xcc\x00", "+ 0 s 0"),
        ("uint 8 of 255", b"\xcc\xff", "+ 255 s 1"),
        ("uint 16 of 0", b"\xcd\x00\x00", "+ 0 s 0"),
        ("uint 16 of 65535", b"\xcd\xff\xff", "+ 65535 s 1"),
        ("uint 32 of 0", b"\xce\x00\x00\x00\x00", "+ 0 s 0"),
        ("uint 32 of 2^32-1", b"\xce\xff\xff\xff\xff", "+ 4294967295 s 1"),
        ("uint 64 of 0", b"\xcf\x00\x00\x00\x00\x00\x00\x00\x00", "+ 0 s 0"),
        ("uint 64 of 2^64-1", b"\xcf" + b"\xff" * 8, "+ 18446744073709551615 s 1"),
        ("uint 64, cut", b"\xcf" + b"\xff" * 7, "missing"),
        ("negative fixint of -1", b"\xff", "- 1 s 1"),
        ("negative fixint of -32", b"\xe0", "- 32 s 1"),
        ("int 8 of -128", b"\xd0\x80", "- 128 s 1"),
        ("int 8 of 127", b"\xd0\x7f", "+ 127 s 0"),
        ("int 16 of -32768", b"\xd1\x80\x00", "- 32768 s 1"),
        ("int 16 of 32767", b"\xd1\x7f\xff", "+ 32767 s 0"),
        ("int 32 of -2^31", b"\xd2\x80\x00\x00\x00", "- 2147483648 s 1"),
        ("int 32 of 2^31-1", b"\xd2\x7f\xff\xff\xff", "+ 2147483647 s 0"),
        ("int 64 of -2^63", b"\xd3\x80" + b"\x00" * 7, "- 9223372036854775808 s 1"),
        ("int 64 of 2^63-1", b"\xd3\x7f" + b"\xff" * 7, "+ 9223372036854775807 s 0"),
        ("int 8 of 100", b"\xd0\x64", "+ 100 s 0"),
        ("int 8 of -32", b"\xd0\xe0", "- 32 s 0"),
        ("int 8 of -33", b"\xd0\xdf", "- 33 s 1"),
        ("uint 8 of 127", b"\xcc\x7f", "+ 127 s 0"),
        ("uint 8 of 128", b"\xcc\x80", "+ 128 s 1"),
        ("uint 16 of 255", b"\xcd\x00\xff", "+ 255 s 0"),
        ("uint 16 of 256", b"\xcd\x01\x00", "+ 256 s 1"),
        ("int 64 of -1", b"\xd3" + b"\xff" * 8, "- 1 s 0"),
        ("a float", b"\xca\x00\x00\x00\x00", "missing"),
    ]:
        read("integer", title, data, found)


def contents():
    for kind, title, data, found in [
        ("text", "fixstr", b"\xa2hi", "@ 1 l 2 s 1"),
        ("text", "str 8", b"\xd9\x02hi", "@ 2 l 2 s 0"),
        ("text", "str 16", b"\xda\x00\x02hi", "@ 3 l 2 s 0"),
        ("text", "str 32", b"\xdb\x00\x00\x00\x02hi", "@ 5 l 2 s 0"),
        ("text", "str 8 of 31 bytes", b"\xd9\x1f" + b"h" * 31, "@ 2 l 31 s 0"),
        ("text", "str 8 of 32 bytes", b"\xd9\x20" + b"h" * 32, "@ 2 l 32 s 1"),
        ("text", "text that is no UTF-8", b"\xa3\xff\xfe\x80", "@ 1 l 3 s 1"),
        ("text", "text, cut", b"\xa2h", "missing"),
        ("text", "bytes read as text", b"\xc4\x02hi", "missing"),
        ("binary", "bin 8", b"\xc4\x02hi", "@ 2 l 2 s 1"),
        ("binary", "bin 16", b"\xc5\x00\x02hi", "@ 3 l 2 s 0"),
        ("binary", "bin 32", b"\xc6\x00\x00\x00\x02hi", "@ 5 l 2 s 0"),
        ("binary", "bin 16 of 255 bytes", b"\xc5\x00\xff" + b"h" * 255, "@ 3 l 255 s 0"),
        ("binary", "bin 16 of 256 bytes", b"\xc5\x01\x00" + b"h" * 256, "@ 3 l 256 s 1"),
        ("binary", "bytes, cut", b"\xc6\xff\xff\xff\xffhi", "missing"),
        ("binary", "text read as bytes", b"\xa2hi", "missing"),
        ("boolean", "C2", b"\xc2", "= 0"),
        ("boolean", "C3", b"\xc3", "= 1"),
        ("boolean", "nil", b"\xc0", "missing"),
        ("array", "fixarray", b"\x9f", "n 15 @ 1 s 1"),
        ("array", "array 16", b"\xdc\xff\xff", "n 65535 @ 3 s 1"),
        ("array", "array 32", b"\xdd\xff\xff\xff\xff", "n 4294967295 @ 5 s 1"),
        ("array", "array 16 of 15 items", b"\xdc\x00\x0f", "n 15 @ 3 s 0"),
        ("array", "array 16 of 16 items", b"\xdc\x00\x10", "n 16 @ 3 s 1"),
        ("array", "array 32 of 65535 items", b"\xdd\x00\x00\xff\xff", "n 65535 @ 5 s 0"),
        ("array", "a map read as array", b"\x80", "missing"),
        ("map", "fixmap", b"\x8f", "n 15 @ 1 s 1"),
        ("map", "map 16", b"\xde\xff\xff", "n 65535 @ 3 s 1"),
        ("map", "map 32", b"\xdf\xff\xff\xff\xff", "n 4294967295 @ 5 s 1"),
        ("map", "map 16 of 15 pairs", b"\xde\x00\x0f", "n 15 @ 3 s 0"),
        ("map", "map 32 of 65536 pairs", b"\xdf\x00\x01\x00\x00", "n 65536 @ 5 s 1"),
        ("map", "map 32, cut", b"\xdf\xff\xff\xff", "missing"),
    ]:
        read(kind, title, data, found)


def code(key):
    """A short key as a number: its bytes, with a 1 before them."""
    return int.from_bytes(b"\x01" + key, "big")


def keys():
    """Place 0 is no value's: the key is missing."""
    for title, key, data, found in [
        ("fixstr key", b"a", b"\x81\xa1a\x05", "@ 3 2 0"),
        ("str 8 key", b"a", b"\x81\xd9\x01a\x05", "@ 4 2 0"),
        ("str 16 key", b"a", b"\x81\xda\x00\x01a\x05", "@ 5 2 0"),
        ("str 32 key", b"a", b"\x81\xdb\x00\x00\x00\x01a\x05", "@ 7 2 0"),
        ("repeated key", b"a", b"\x83\xa1a\x05\xd9\x01a\x06\xa1b\x07", "@ 7 2 1"),
        ("keys of other types", b"a", b"\x84\xc4\x01a\x01\x05\x02\x90\xc0\xa1a\xc3", "@ 11 2 0"),
        ("key with nil", b"z", b"\x81\xa1z\xc0", "@ 3 2 0"),
        ("key that is no UTF-8", b"\xff", b"\x81\xa1\xff\xa2\xfe\xff", "@ 3 2 0"),
        ("key of three bytes", b"???", b"\x82\xa2??\x01\xa3???\x05", "@ 9 2 0"),
        ("key that begins another", b"a", b"\x81\xa2ab\x05", "@ 0 2 0"),
        ("key in an empty map", b"a", b"\x80", "@ 0 2 0"),
        ("key in an array", b"a", b"\x91\xa1a", "broken"),
        ("key in a map, cut", b"a", b"\x82\xa1a\x05\xa1b", "broken"),
        ("another key twice", b"a", b"\x83\xa1z\x05\xa1a\x05\xa1z\x05", "@ 6 2 0"),
        ("key in a map below", b"a", b"\x82\xa1a\x05\xa1b\x81\xa1a\x05", "@ 3 2 0"),
        ("key twice with one value", b"a", b"\x82\xa1a\x05\xa1a\x05", "@ 6 2 1"),
    ]:
        vectors.add("key", "msgpack " + title, data, number(code(key)), found)


def pairs():
    for title, data, at, found in [
        ("pair", b"\x81\xa1a\x05", 1, "k 353 @ 3 @ 4"),
        ("pair in other widths", b"\xd9\x01a\xcc\x05\x90", 0, "k 353 @ 3 @ 5"),
        ("pair with a key of another type", b"\x05\xa1a", 0, "k 4294967295 @ 1 @ 3"),
        ("pair with a long key", b"\xa4abcd\xc0", 0, "k 4294967295 @ 5 @ 6"),
        ("pair without its value", b"\xa1a", 0, "cut"),
        ("pair past the end", b"\xa1a\x05", 3, "cut"),
        ("pair 15 deep", b"\xa1a" + b"\x91" * 14 + b"\x90", 0, "k 353 @ 2 @ 17"),
        ("pair 16 deep", b"\xa1a" + b"\x91" * 15 + b"\x90", 0, "too deep"),
    ]:
        vectors.add("pair", "msgpack " + title, data, number(at), found)


# ---- heads written


def head(kind, at, n, found, written):
    """Into ten bytes EE. written: the bytes from the place on that are no longer EE."""
    title = "msgpack %s of %d at %d" % (kind, n, at)
    out = bytearray(b"\xee" * 10)
    out[at : at + len(written)] = written
    assert len(out) == 10, title
    vectors.add(kind, title, b"", number(at) + number(n), found + " " + out.hex())


def heads():
    for kind, n, written in [
        ("text head", 0, b"\xa0"),
        ("text head", 31, b"\xbf"),
        ("text head", 32, b"\xd9\x20"),
        ("text head", 255, b"\xd9\xff"),
        ("text head", 256, b"\xda\x01\x00"),
        ("text head", 65535, b"\xda\xff\xff"),
        ("text head", 65536, b"\xdb\x00\x01\x00\x00"),
        ("bytes head", 0, b"\xc4\x00"),
        ("bytes head", 255, b"\xc4\xff"),
        ("bytes head", 256, b"\xc5\x01\x00"),
        ("bytes head", 2**32 - 1, b"\xc6\xff\xff\xff\xff"),
        ("integer head", 127, b"\x7f"),
        ("integer head", 128, b"\xcc\x80"),
        ("integer head", 256, b"\xcd\x01\x00"),
        ("integer head", 65536, b"\xce\x00\x01\x00\x00"),
        ("integer head", 2**32, b"\xcf\x00\x00\x00\x01\x00\x00\x00\x00"),
        ("integer head", 2**64 - 1, b"\xcf" + b"\xff" * 8),
        ("array head", 1, b"\x91"),
        ("array head", 15, b"\x9f"),
        ("array head", 16, b"\xdc\x00\x10"),
        ("array head", 65536, b"\xdd\x00\x01\x00\x00"),
        ("map head", 1, b"\x81"),
        ("map head", 16, b"\xde\x00\x10"),
        ("map head", 65536, b"\xdf\x00\x01\x00\x00"),
    ]:
        head(kind, 1, n, "@ %d" % (1 + len(written)), written)
    head("map head", 9, 15, "@ 10", b"\x8f")
    head("map head", 6, 65536, "no room", b"")
    head("map head", 10, 15, "no room", b"")
    head("map head", 2**64 - 1, 15, "no room", b"")


for section in [hashes, formats, depths, cuts, integers, contents, keys, pairs, heads]:
    section()
vectors.store()
