#!/usr/bin/python3
"""bench/lookup.py PACK BUCKET OBJECT: the current version's ULID, or `nothing`, and the milliseconds
of the best of three rounds.

The reading is document 001's own code. A ULID stays a text, since the package `ulid` is not
Debian's; texts sort as ULIDs do. Nothing here is compressed, so `zstd` is not asked for either.
"""

import io
import struct
import sys
import time
from collections import namedtuple

try:
    import msgpack
    from xxhash import xxh64
except ImportError as absent:
    print(absent, file=sys.stderr)
    sys.exit(2)

ROUNDS = 3

TlvHeader = namedtuple("TlvHeader", "magic dlen dhash version tag hashtype hhash")
VersionID = namedtuple("VersionID", "bucket object version")
ACL = namedtuple("ACL", "idtype id permissions")
CryptData = namedtuple("CryptData", "type datakey extra")
Clone = namedtuple("Clone", "pool data flags blocklen len")
Version = namedtuple(
    "Version",
    "versionid owner acls len etag deletemarker nullversion "
    "crypt clones metadata usermetadata legalhold data",
)
VersionDelete = namedtuple("VersionDelete", "versionid deleteid")


def read_tlv_header(f):
    header_raw = f.read(32)
    if len(header_raw) == 0:
        raise EOFError
    if len(header_raw) < 32:
        raise RuntimeError("TLV header too short")
    h = TlvHeader._make(struct.unpack("!8sQQB2sBxxH", header_raw))
    if h.magic != b"\x89TLV\r\n\x1a\n":
        raise RuntimeError("invalid TLV header magic")
    if h.version != 0:
        raise RuntimeError("unknown version")
    if h.hashtype != 8:
        raise RuntimeError("invalid hash type")
    if h.hhash != (xxh64(header_raw[0:30]).intdigest() % 2**16):
        raise RuntimeError("TLV header hash mismatch")
    return h


def read_tlv(f):
    header = read_tlv_header(f)
    data = f.read(header.dlen)
    if len(data) < header.dlen:
        raise RuntimeError("short data read")
    if header.dhash != xxh64(data).intdigest():
        raise RuntimeError("TLV data hash mismatch")
    return header, data


def decode_value(f, dlen):
    unpacker = msgpack.Unpacker(f)
    val = unpacker.unpack()
    if "z" in val or val.get("c") == 1:
        raise NotImplementedError("encrypted or compressed")
    primary = msgpack.unpackb(val["e"])
    secondary = bytes(0)
    try:
        sec_len = val["s"][0]["l"]
        f.seek(dlen - sec_len)
        secondary = f.read(sec_len)
    except (IndexError, KeyError):
        pass
    return primary, secondary


def dict_to_versionid(d):
    return VersionID(bucket=d["b"], object=d["o"], version=d["v"])


def dict_to_acl(d):
    return ACL(idtype=d["t"], id=d["i"], permissions=d["p"])


def dict_to_cryptdata(d):
    if d is None:
        return None
    return CryptData(type=d["x"], datakey=d["k"], extra=d["e"])


def dict_to_clone(d):
    return Clone(pool=d["p"], data=d["l"], flags=d["f"], blocklen=d["B"], len=d["s"])


def handle_version(part1, part2):
    return Version(
        versionid=dict_to_versionid(part1),
        owner=part1.get("w"),
        acls=[dict_to_acl(a) for a in part1.get("A", [])],
        len=part1.get("l"),
        etag=part1.get("e"),
        deletemarker=part1.get("d", False),
        nullversion=part1.get("N", False),
        crypt=dict_to_cryptdata(part1.get("C")),
        clones=[dict_to_clone(c) for c in part1.get("p", [])],
        metadata=part1.get("s", {}),
        usermetadata=part1.get("m", {}),
        legalhold=part1.get("h", False),
        data=part1.get("D"),
    )


def handle_version_delete(part1, part2):
    return VersionDelete(versionid=dict_to_versionid(part1), deleteid=part1["???"])


def ltfsvof_reader(f):
    handlers = {b"vr": handle_version, b"vd": handle_version_delete}
    while True:
        try:
            header, data = read_tlv(f)
            if header.tag not in handlers:
                raise RuntimeError(f"unknown tag {header.tag}; no handler registered")
            part1, part2 = decode_value(io.BytesIO(data), header.dlen)
            yield handlers[header.tag](part1, part2)
        except EOFError:
            break


def lookup(f, bucket, name):
    """The versions sorted by version ID, as 001 has it: the last that no version delete names."""
    versions, deleted = [], set()
    for entry in ltfsvof_reader(f):
        if isinstance(entry, VersionDelete):
            deleted.add(entry.versionid)
        elif (entry.versionid.bucket, entry.versionid.object) == (bucket, name):
            versions.append(entry)
    versions = [v for v in versions if v.versionid not in deleted]
    versions.sort(key=lambda v: v.versionid.version)
    return versions[-1].versionid.version if versions else "nothing"


def main():
    path, bucket, name = sys.argv[1:]
    with open(path, "rb") as f:
        pack = f.read()
    best = float("inf")
    for _ in range(ROUNDS):
        began = time.perf_counter()
        answer = lookup(io.BytesIO(pack), bucket, name)
        best = min(best, time.perf_counter() - began)
    print(f"{answer} {best * 1000:.3f}")


main()
