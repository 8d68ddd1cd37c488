"""LTFS-VOF packs, read and written by the proved library (include/vof.h), with ctypes.

    import vof

    pack = open("samples/herd.pack", "rb").read()
    for entry in vof.scan(pack):
        print(entry.start, entry.tag, entry.value_length, "%016x" % entry.value_hash)
    version = vof.current(pack, "herd", "signers/list")
    if version is None or version.is_delete_marker:
        print("there is no such object")
    else:
        print(vof.record(pack, version.start).identifier)

A pack too long for memory comes in parts, through a Pipe:

    with open("samples/herd.pack", "rb") as file:
        for entry in vof.stream(file):
            print(entry.start, entry.tag)

What is refused raises Refusal, which says why and what to do; Refused names the numbers.

Packs, values and parts are bytes, or anything else that lends its memory, as a bytearray or an
mmap; no other thread may change it during a call. It is not copied, unless it is read-only and not
bytes: map a large file with mmap.ACCESS_COPY. Names and identifiers may be str too, which stands
for its UTF-8. Answers have bytes, and tell places, counted from 0.

A Writer makes a pack, and grows as it is written. The write functions put one record a call into a
lent buffer, as a bytearray: each is told how many bytes at the front are the pack so far, 0 at
first, puts its record directly after them and gives the new count. Refusals: 20 for what is not
admitted, or would make the pack too long, and because of what; 19 where the record does not fit
into the buffer.

The shared object that this module loads stands beside it, as libvof.so; in the repository that is a
copy of dist/libvof.so, which bin/build-library makes. The environment variable VOF_LIBRARY names
another.
"""
import ctypes
import os
import struct
from enum import Enum
from mmap import mmap
from typing import Any, Callable, Iterator, List, NamedTuple, Optional, Sequence, Tuple, Union

from .refusals import TEXTS, Refused

# What lends its memory, and what may be text too.
Data = Union[bytes, bytearray, memoryview, mmap]
Text = Union[str, Data]

# The bytes of a record before its value, and of a ULID; the longest bucket, object, composite text
# and primary part that version_part makes; the longest pack, and the longest that comes in parts.
HEADER_LENGTH, ULID_LENGTH = 32, 26
BUCKET_LIMIT, OBJECT_LIMIT, COMPOSITE_LIMIT, VERSION_PART_LIMIT = 63, 1024, 1115, 1129
PACK_LIMIT, PIPE_LIMIT = 4294967295, 1 << 40
# The fewest bytes of a version delete, and the hints that a lookup has itself.
LEAST_DELETION_LENGTH, OWN_HINTS = 106, 8192


class Refusal(Exception):
    """A refusal: its number, and the start of the record at fault, or None where none is named.

    Of a record that is not written, because is the number that a reader would give it, or 1 where
    the pack is full."""

    def __init__(
        self, number: int, place: Optional[int] = None, because: Optional[int] = None
    ) -> None:
        super().__init__(number, place, because)
        self.number, self.place, self.because = Refused(number), place, because

    @property
    def reason(self) -> str:
        """Why, in a few words."""
        return TEXTS[self.number][0]

    @property
    def advice(self) -> str:
        """What to do about it."""
        return TEXTS[self.number][1]

    def __str__(self) -> str:
        at = "" if self.place is None else " at %d" % self.place
        told = "refused %d%s: %s" % (self.number, at, self.reason)
        if self.because is not None:
            told += ", by %d: %s" % (self.because, TEXTS[self.because][0])
        return told


class Tag(bytes, Enum):
    """The tags of records that can be read one by one."""

    BLOCK = b"bk"
    VERSION = b"vr"
    VERSION_DELETE = b"vd"
    PACK_LIST = b"ol"


class Reason(str, Enum):
    """Why a version record is current, or is not; in the order of include/vof.h."""

    CURRENT = "current"
    CURRENT_MARKER = "current marker"
    OLDER = "older"
    REPEATED = "repeat"
    REMOVED = "removed"


class Entry(NamedTuple):
    """A record as a scan lists it, and a pipe."""

    start: int
    tag: bytes
    value_length: int
    # The XXH64 of the value.
    value_hash: int


class Place(NamedTuple):
    """Bytes in a pack."""

    start: int
    length: int


class Part(NamedTuple):
    """A part of a value, and how it is encoded."""

    start: int
    length: int
    compression: int
    is_encrypted: bool


class Identifier(NamedTuple):
    """A version's identifier."""

    ulid: bytes
    bucket: bytes
    object: bytes

    def composite(self) -> bytes:
        """The identifier as one text; refused if the text would read as another identifier."""
        parts = Identifier(*map(_text, self))
        text = b"%b:%b/%b" % parts
        if _split(text) != parts:
            raise Refusal(Refused.NOT_ADMITTED, because=Refused.NAME_BREAKS_RULES)
        return text


class Record(NamedTuple):
    """A block, a version, a version delete or a pack list; its value and its parts are places of
    the pack."""

    tag: bytes
    identifier: Identifier
    # Only a version is one.
    is_delete_marker: bool
    # Only a version delete has one.
    delete_ulid: Optional[bytes]
    value: Place
    primary: Part
    secondary: Optional[Part]


class Value(NamedTuple):
    """A value taken apart; its parts are places of the value."""

    structure_version: int
    primary: Part
    secondary: Optional[Part]


class Version(NamedTuple):
    """An object's current version: where its record starts, and where its value stands."""

    identifier: Identifier
    is_delete_marker: bool
    start: int
    value: Place


class Line(NamedTuple):
    """A version record of a name, and why it is current or is not."""

    start: int
    reason: Reason
    # Where another record starts: of an older one the current one, of a repeat the earliest with its
    # identifier, of a removed one the earliest deletion of it; of the current one its own start.
    place: int


class PackEntry(NamedTuple):
    """An entry of a pack list: a range of the version's data, and where it is stored in which pack,
    in so many blocks: one for each length that is listed, and one more where these leave a rest of
    the stored range."""

    ulid: bytes
    source: Place
    stored: Place
    blocks: int


class Found(NamedTuple):
    """Where a byte of a version stands: entry and block are numbers from 0, and stored is where the
    block's record stands in the pack that has the ULID."""

    entry: int
    # None where the entry's lengths place the byte in no block; stored is then the entry's.
    block: Optional[int]
    ulid: bytes
    stored: Place


class Kind(Enum):
    """The kind of a MessagePack item."""

    NIL = "nil"
    BOOLEAN = "boolean"
    INTEGER = "integer"
    FLOAT = "float"
    TEXT = "text"
    BYTES = "bytes"
    ARRAY = "array"
    MAP = "map"
    EXTENSION = "extension"


class Item(NamedTuple):
    """A MessagePack item: how many bytes it has, with all that it holds, and whether its own form is
    the short one."""

    kind: Kind
    length: int
    # An integer itself, a boolean as 0 or 1, the length of a text, of bytes, or of an extension
    # without its type byte, an array's items, a map's pairs; else 0.
    argument: int
    is_short: bool


# ---- the shared object

_BYTES, _SIZE, _NUMBER = ctypes.c_void_p, ctypes.c_size_t, ctypes.c_uint64
_NUMBERS = ctypes.POINTER(ctypes.c_uint64)
_HINTS = ctypes.POINTER(ctypes.c_uint32)
_READ, _TOLD, _WRITE = [_BYTES, _SIZE], [_NUMBERS, _SIZE], [_BYTES, _SIZE, _SIZE]
_FUNCTIONS = {
    "vof_version": [],
    "vof_xxh64": _READ,
    "vof_scan": _READ + _TOLD,
    "vof_find_hash": _TOLD + [_NUMBER],
    "vof_record": _READ + [_SIZE] + _TOLD + [_BYTES, _SIZE],
    "vof_value": _READ + _TOLD,
    "vof_current": _READ * 3 + _TOLD + [_BYTES, _SIZE],
    "vof_current_with": _READ * 3 + [_HINTS, _SIZE] + _TOLD + [_BYTES, _SIZE],
    "vof_explain": _READ * 3 + _TOLD,
    "vof_check_deposit": _READ,
    "vof_pipe_start": _TOLD,
    "vof_pipe_take": _TOLD + _READ + _TOLD,
    "vof_pipe_end": _TOLD,
    "vof_pack_list": _READ + _TOLD,
    "vof_find_block": _READ + [_NUMBER] + _TOLD,
    "vof_item": _READ + _TOLD,
    "vof_write_block": _WRITE + _READ * 2,
    "vof_version_part": _READ * 2 + [_NUMBER],
    "vof_write_version": _WRITE + _READ,
    "vof_write_delete": _WRITE + _READ,
    "vof_write_pack_list": _WRITE + _READ,
    "vof_write_delete_of": _WRITE + _READ * 2,
}


# The version of include/vof.h that this module is written for.
_VERSION = 2


def _load() -> ctypes.CDLL:
    beside = os.path.join(os.path.dirname(os.path.realpath(__file__)), "libvof.so")
    path = os.environ.get("VOF_LIBRARY") or beside
    if not os.path.exists(path):
        raise ImportError("vof: there is no %s; bin/build-library makes dist/libvof.so" % path)
    library = ctypes.CDLL(os.path.abspath(path))
    # The first version had no number.
    version = library.vof_version() if hasattr(library, "vof_version") else 1
    if version != _VERSION:
        raise ImportError("vof: %s has version %d, and %d is wanted" % (path, version, _VERSION))
    for name, parameters in _FUNCTIONS.items():
        function = getattr(library, name)
        function.argtypes, function.restype = parameters, ctypes.c_uint64
    return library


_library = _load()


# The refusals that come with a place: a pack's, and those of the lookup in it.
_OF_PACK = range(1, 9)
_OF_LOOKUP = (*range(1, 19), 22)
# And those of the deposit profile: all that it gives.
_OF_DEPOSIT = range(1, 29)


def _word(answer: int, placed: Sequence[int] = _OF_PACK) -> int:
    """The word of an answer; a refusal is raised, with its place where it is one of these."""
    word, number = divmod(answer, 256)
    if number:
        raise Refusal(number, word if number in placed else None)
    return word


def _text(text: Text) -> bytes:
    return text.encode() if isinstance(text, str) else bytes(memoryview(text))


def _split(composite: bytes) -> Identifier:
    bucket, _, object = composite[ULID_LENGTH + 1 :].partition(b"/")
    return Identifier(composite[:ULID_LENGTH], bucket, object)


def _view(data: Data) -> memoryview:
    view = memoryview(data)
    if view.itemsize != 1 or view.ndim != 1 or not view.contiguous:
        raise TypeError("vof: bytes in one piece are wanted")
    return view


def _writable(view: memoryview) -> Tuple[Any, int]:
    """The memory of a view, and its length.

    Callers keep it in no variable: a refusal would keep that, and lent bytearrays cannot grow.
    """
    return (ctypes.c_ubyte * len(view)).from_buffer(view), len(view)


def _lent(data: Data) -> Tuple[Any, int]:
    """The same of data that is only read."""
    if not isinstance(data, bytes):
        view = _view(data)
        if not view.readonly:
            return _writable(view)
        data = bytes(view)
    return data, len(data)


def _address(memory: Any) -> int:
    """Where lent memory starts. (ctypes.cast would keep it until garbage is collected.)"""
    if isinstance(memory, bytes):
        return ctypes.c_void_p.from_buffer(ctypes.c_char_p(memory)).value
    return ctypes.addressof(memory)


def _apart(data: Text) -> Tuple[Any, int]:
    """The same beside a buffer that is written: of what could overlap it, a copy."""
    return _lent(data if isinstance(data, bytes) else _text(data))


def _composite(identifier: Union[Identifier, Text]) -> Tuple[Any, int]:
    return _apart(identifier.composite() if isinstance(identifier, Identifier) else identifier)


def _size(n: int) -> int:
    """A place or a count; one that C could not hold is outside every pack, as the greatest is."""
    return n if 0 <= n < 2**64 else 2**64 - 1


def _numbers(count: int) -> Any:
    return (ctypes.c_uint64 * count)()


def _tag(number: int) -> bytes:
    return number.to_bytes(2, "big")


def _parts(
    primary: Sequence[int], has_secondary: int, secondary: Sequence[int], encoding: Sequence[int]
) -> Tuple[Part, Optional[Part]]:
    """The primary and the secondary part from their starts, lengths and encodings."""
    first = Part(*primary, encoding[0], bool(encoding[1]))
    return first, Part(*secondary, encoding[2], bool(encoding[3])) if has_secondary else None


# ---- reading


def version() -> int:
    """The version of the library, and of include/vof.h."""
    return _library.vof_version()


def xxh64(data: Data) -> int:
    """The XXH64 of the data, seed 0."""
    return _library.vof_xxh64(*_lent(data))


def _rows(
    width: int, pack: Data, placed: Sequence[int], function: Callable[..., int], *given: Any
) -> Iterator[Tuple[int, ...]]:
    """What a function tells of the records of a pack, so many numbers for each."""
    most = len(_view(pack)) // HEADER_LENGTH
    room = min(most, 4096)
    # How many rows there are is known after the check, and only to a list that is long enough.
    while True:
        told = _numbers(width * room)
        answer = function(*_lent(pack), *given, told, len(told))
        if answer % 256 != Refused.NO_ROOM or room == most:
            break
        room = min(most, 16 * room)
    return zip(*[iter(told[: width * _word(answer, placed)])] * width)


def scan(pack: Data) -> List[Entry]:
    """Checks a pack, and gives a list with an Entry for each record. Refusals 1 to 8."""
    rows = _rows(4, pack, _OF_PACK, _library.vof_scan)
    return [Entry(start, _tag(tag), length, hash) for start, tag, length, hash in rows]


def find_hash(entries: Sequence[Entry], hash: int) -> Optional[int]:
    """The index in a list that scan gave of the first Entry whose value has this hash, or None."""
    told = _numbers(4 * len(entries))
    told[3::4] = [entry.value_hash for entry in entries]
    # A number that 64 bits do not hold is no hash, and C would cut it.
    word = _word(_library.vof_find_hash(told, len(told), hash)) if 0 <= hash < 2**64 else 0
    return word - 1 if word else None


def record(pack: Data, at: int) -> Record:
    """The Record at a place of a pack; the rest of the pack is not looked at. Refusals 1 to 18, 21
    and 22, and 20 for a place that is not inside the pack."""
    told, composite = _numbers(16), ctypes.create_string_buffer(COMPOSITE_LIMIT)
    _word(_library.vof_record(*_lent(pack), _size(at), told, 16, composite, len(composite)))
    # In the order of include/vof.h; so too below.
    by = Place(*told[14:16])
    primary, secondary = _parts(told[3:5], told[5], told[6:8], told[8:12])
    return Record(
        tag=_tag(told[0]),
        identifier=_split(composite.raw[: told[13]]),
        is_delete_marker=bool(told[12]),
        delete_ulid=bytes(_view(pack)[by.start : by.start + by.length]) or None,
        value=Place(*told[1:3]),
        primary=primary,
        secondary=secondary,
    )


def value(value: Data) -> Value:
    """A Value taken apart, for whoever opens compressed or encrypted parts: how they are encoded,
    and the structure's version, are told and not tested. Refusals 9 to 12 and 22."""
    told = _numbers(10)
    _word(_library.vof_value(*_lent(value), told, 10))
    return Value(told[9], *_parts(told[0:2], told[2], told[3:5], told[5:9]))


def scratch_length(pack_length: int) -> int:
    """How many numbers a lookup in a pack of so many bytes is lent: a hint of two numbers for each
    version delete that it can have, or none where a lookup has enough itself."""
    most = pack_length // LEAST_DELETION_LENGTH
    return 2 * most if most > OWN_HINTS else 0


def _scratch(pack_length: int) -> Any:
    """Memory for these hints; none where it is not to be had, which costs time alone."""
    try:
        return (ctypes.c_uint32 * scratch_length(pack_length))()
    except MemoryError:
        return (ctypes.c_uint32 * 0)()


def current(pack: Data, bucket: Text, object: Text) -> Optional[Version]:
    """The current Version of an object, or None. If it is a delete marker, the object counts as
    deleted, whatever older versions there are. Refusals 1 to 8 of the pack, then 9 to 12, 14 to
    18 and 22 of its first version or version delete that cannot be read, all with the place; 20 for
    a name that breaks the rules."""
    bucket, object = _text(bucket), _text(object)
    told, ulid = _numbers(4), ctypes.create_string_buffer(ULID_LENGTH)
    names = *_lent(bucket), *_lent(object)
    scratch = _scratch(len(_view(pack)))
    rest = *names, scratch, len(scratch), told, 4, ulid, len(ulid)
    answer = _library.vof_current_with(*_lent(pack), *rest)
    _word(answer, _OF_LOOKUP)
    found, start, value_length, is_delete_marker = told
    if not found:
        return None
    identifier = Identifier(ulid.raw, bucket, object)
    place = Place(start + HEADER_LENGTH, value_length)
    return Version(identifier, bool(is_delete_marker), start, place)


_REASONS = tuple(Reason)


def explain(pack: Data, bucket: Text, object: Text) -> List[Line]:
    """A list with a Line for each version record of an object, in their order. Refusals as those of
    current."""
    names = *_lent(_text(bucket)), *_lent(_text(object))
    return [
        Line(start, _REASONS[reason], place)
        for start, reason, place in _rows(3, pack, _OF_LOOKUP, _library.vof_explain, *names)
    ]


def check_deposit(pack: Data) -> int:
    """How many records a pack has that keeps the deposit profile. Refusals 1 to 8 of the pack, then
    9 to 18, 21, 22 and 23 to 28 of its first record at fault, all with the place."""
    return _word(_library.vof_check_deposit(*_lent(pack)), _OF_DEPOSIT)


# ---- packs in parts


class Pipe:
    """A pack of at most PIPE_LIMIT bytes that comes in parts, of any length, empty ones too.

    However it is cut, its records and its refusal are those that scan would give of the whole, with
    this limit for its own; but those before a fault are told too. What is kept between parts has
    one size.

        pipe = vof.Pipe()
        while part := connection.recv(65536):
            for entry in pipe.feed(part):
                print(entry.start, entry.tag)
        print(pipe.end(), "records")
    """

    def __init__(self) -> None:
        self._state = _numbers(19)
        _library.vof_pipe_start(self._state, 19)

    def copy(self) -> "Pipe":
        """A pipe that goes on from here by itself."""
        pipe = Pipe()
        pipe._state[:] = self._state[:]
        return pipe

    __copy__ = copy

    def _take(self, data: Data) -> Tuple[List[Entry], int]:
        """The records that complete in the data, and the answer to the last call."""
        entries, told = [], _numbers(6)
        memory, left = _lent(data)
        at = _address(memory)
        while True:
            answer = _library.vof_pipe_take(self._state, 19, at, left, told, 6)
            if answer:
                return entries, answer
            taken, is_complete, start, tag, value_length, value_hash = told
            if is_complete:
                entries.append(Entry(start, _tag(tag), value_length, value_hash))
            at, left = at + taken, left - taken
            if not left:
                return entries, 0

    def feed(self, data: Data) -> Iterator[Entry]:
        """Takes the next bytes of the pack, and gives an iterator over an Entry for each record
        that completes in them. Refusals, after these and again at every later call: 1 past the
        limit, 3 to 6 once a header is whole, 8 once a value is. After the end nothing may be
        fed."""
        if self._state[1] == 3:
            raise ValueError("vof: the end of the pack was announced")

        def told(entries: List[Entry], answer: int) -> Iterator[Entry]:
            yield from entries
            _word(answer)

        return told(*self._take(data))

    def end(self) -> int:
        """Announces the end of the pack, and gives the number of its records. Refusals 1 to 8: 2
        where the last header is not whole, 7 where the last value is not. So too when called
        again."""
        return _word(_library.vof_pipe_end(self._state, 19))


def stream(source: Any) -> Iterator[Entry]:
    """An iterator over an Entry for each record of a pack, as it completes, that is read from a
    socket or a binary file up to its end. Refusals 1 to 8, after the records before the fault. The
    source must wait where there are no bytes yet."""
    pipe = Pipe()
    # Fewer bytes than asked for will do: the others may be long in coming.
    read = getattr(source, "recv", None) or getattr(source, "read1", None) or source.read
    while (part := read(65536)) != b"":
        yield from pipe.feed(part)
    pipe.end()


# ---- pack lists


def _ulid(primary: Data, start: int) -> bytes:
    return bytes(_view(primary)[start : start + ULID_LENGTH])


def pack_list(primary: Data) -> List[PackEntry]:
    """A list with a PackEntry for each entry of a pack list, by its primary part. Refusals 16 to
    18, 21 and 22."""
    # No entry is shorter than 36 bytes.
    told = _numbers(len(_view(primary)) // 36 * 6)
    count = _word(_library.vof_pack_list(*_lent(primary), told, len(told)))
    entries = zip(*[iter(told[: 6 * count])] * 6)
    return [
        PackEntry(_ulid(primary, at), Place(*ranges[:2]), Place(*ranges[2:]), blocks)
        for at, *ranges, blocks in entries
    ]


def find_block(primary: Data, byte: int) -> Optional[Found]:
    """Where a byte of the version stands, by a pack list's primary part: a Found, in the first
    entry that has the byte, or None. Refusals 16 to 18, 21 and 22.

    The list has no key for the stride, the usual source length of a block: it is taken to be the
    least with which the blocks of every entry hold its source range. Of a single entry whose last
    block is short that is a guess: 25 bytes in 3 blocks are read as 9, 9 and 7, and may have been
    10, 10 and 5."""
    told = _numbers(6)
    _word(_library.vof_find_block(*_lent(primary), _size(byte), told, 6))
    kind, entry, block, at, *stored = told
    if not kind:
        return None
    return Found(entry, block if kind == 2 else None, _ulid(primary, at), Place(*stored))


# ---- MessagePack items


def item(data: Data) -> Item:
    """The item at the front. Refusals 9 and 10."""
    told = _numbers(5)
    _word(_library.vof_item(*_lent(data), told, 5))
    kind, length, argument, is_negative, is_short = told
    return Item(tuple(Kind)[kind], length, -argument if is_negative else argument, is_short == 1)


# ---- writing


def _around(tag: Tag, primary: bytes) -> bytes:
    """A record around a primary part, whatever that is."""
    value = struct.pack(">4sI", b"\x81\xa1e\xc6", len(primary)) + primary
    fields = (b"\x89TLV\r\n\x1a\n", len(value), xxh64(value), 0, tag, 8)
    header = struct.pack(">8sQQB2sBxx", *fields)
    return header + struct.pack(">H", xxh64(header) % 65536) + value


def _written(answer: int, because: Callable[[], int]) -> int:
    """The new count; of what is not admitted, why is asked."""
    if answer % 256 == Refused.NOT_ADMITTED:
        raise Refusal(Refused.NOT_ADMITTED, because=because())
    return _word(answer)


def _buffer(buffer: Data, used: int) -> Tuple[Any, int, int]:
    return *_writable(_view(buffer)), _size(used)


def _write_part(
    function: Callable[..., int], tag: Tag, buffer: Data, used: int, primary: Data
) -> int:
    part, length = _apart(primary)

    def because() -> int:
        """What a reader says of the record; where it says nothing, the pack is full."""
        try:
            if length <= PACK_LIMIT:
                record(_around(tag, part), 0)
        except Refusal as refusal:
            return refusal.number
        return Refused.PACK_TOO_LONG

    return _written(function(*_buffer(buffer, used), part, length), because)


def _write_named(
    function: Callable[..., int], buffer: Data, used: int, names: Tuple[Any, ...], *data: Any
) -> int:
    def because() -> int:
        """Good names lack nothing but room, in a buffer that has none."""
        alone = function(b"", 0, 0, *names, *(b"", 0)[: len(data)])
        good = alone % 256 == Refused.NO_ROOM
        return Refused.PACK_TOO_LONG if good else Refused.NAME_BREAKS_RULES

    return _written(function(*_buffer(buffer, used), *names, *data), because)


def write_block(buffer: Data, used: int, identifier: Union[Identifier, Text], data: Data) -> int:
    """Writes a block. The identifier is an Identifier or its composite text."""
    names, function = _composite(identifier), _library.vof_write_block
    return _write_named(function, buffer, used, names, *_apart(data))


def version_part(identifier: Union[Identifier, Text], is_delete_marker: bool = False) -> bytes:
    """The primary part of a version, or of a delete marker, with this identifier, which is an
    Identifier or its composite text. Refusal 20 where that breaks the rules."""
    part, names = ctypes.create_string_buffer(VERSION_PART_LIMIT), _composite(identifier)
    answer = _library.vof_version_part(part, len(part), *names, bool(is_delete_marker))
    return part.raw[: _written(answer, lambda: Refused.NAME_BREAKS_RULES)]


def write_version(buffer: Data, used: int, primary: Data) -> int:
    """Writes a version with this primary part, which must read as one."""
    return _write_part(_library.vof_write_version, Tag.VERSION, buffer, used, primary)


def write_version_of(
    buffer: Data,
    used: int,
    identifier: Union[Identifier, Text],
    is_delete_marker: bool = False,
) -> int:
    """Writes a version, or a delete marker, with the primary part that version_part makes."""
    return write_version(buffer, used, version_part(identifier, is_delete_marker))


def write_delete(buffer: Data, used: int, primary: Data) -> int:
    """Writes a version delete with this primary part, which must read as one."""
    return _write_part(_library.vof_write_delete, Tag.VERSION_DELETE, buffer, used, primary)


def write_pack_list(buffer: Data, used: int, primary: Data) -> int:
    """Writes a pack list with this primary part, which must read as one."""
    return _write_part(_library.vof_write_pack_list, Tag.PACK_LIST, buffer, used, primary)


def write_delete_of(
    buffer: Data, used: int, identifier: Union[Identifier, Text], delete_ulid: Text
) -> int:
    """Writes a version delete of the version that the identifier, an Identifier or its composite
    text, names; it has a delete ULID of its own."""
    names = *_composite(identifier), *_apart(delete_ulid)
    return _write_named(_library.vof_write_delete_of, buffer, used, names)


class Writer:
    """A pack, empty or as it is handed in, to which each method adds a record and tells where it
    starts: as the write function of that name does, but for 19. Its bytes() are the pack, its len()
    how long that is."""

    def __init__(self, pack: Data = b"") -> None:
        self._buffer = bytearray(pack)
        self._used = len(self._buffer)

    def __bytes__(self) -> bytes:
        return bytes(memoryview(self._buffer)[: self._used])

    def __len__(self) -> int:
        return self._used

    def _add(self, write: Callable[..., int], *given: Any) -> int:
        """The buffer grows until the record fits."""
        start = self._used
        while True:
            try:
                self._used = write(self._buffer, start, *given)
                return start
            except Refusal as refusal:
                if refusal.number != Refused.NO_ROOM:
                    raise
            self._buffer.extend(bytes(max(len(self._buffer), 4096)))

    def block(self, identifier: Union[Identifier, Text], data: Data) -> int:
        return self._add(write_block, identifier, data)

    def version(self, primary: Data) -> int:
        return self._add(write_version, primary)

    def version_of(
        self, identifier: Union[Identifier, Text], is_delete_marker: bool = False
    ) -> int:
        return self._add(write_version_of, identifier, is_delete_marker)

    def delete(self, primary: Data) -> int:
        return self._add(write_delete, primary)

    def pack_list(self, primary: Data) -> int:
        return self._add(write_pack_list, primary)

    def delete_of(self, identifier: Union[Identifier, Text], delete_ulid: Text) -> int:
        return self._add(write_delete_of, identifier, delete_ulid)
