"""The command vof: what the library tells of packs, in columns, or with --json as JSON, an object a
line, with the same names.

A refusal is an answer: it goes to standard output, with what to do about it.
"""
import argparse
import json
import mmap
import os
import stat
import sys
import threading
import time
from typing import Any, BinaryIO, Callable, Dict, Iterable, Iterator, NamedTuple, Optional, Tuple

import vof
from vof import HEADER_LENGTH, Data, Refusal, Refused, Tag
from vof.refusals import TEXTS

Fields = Dict[str, Any]

# How many bytes of a pack are taken at a time, and the longest record that is kept where the pack
# can only be read once.
PART, KEPT = 1 << 20, 16 << 20


class Failed(Exception):
    """Neither an answer nor a refusal."""


# ---- packs


def opened(path: str) -> BinaryIO:
    """- is standard input."""
    try:
        return open(0 if path == "-" else path, "rb", closefd=path != "-")
    except OSError as error:
        raise Failed("%s: %s" % (path, error.strerror)) from None


def mapped(file: BinaryIO) -> Optional[mmap.mmap]:
    """The bytes of a file, where it has any, can be mapped, and nobody has begun to read it."""
    status = os.fstat(file.fileno())
    if not stat.S_ISREG(status.st_mode) or not status.st_size or file.tell():
        return None
    try:
        # Memory that could be written is lent without a copy.
        return mmap.mmap(file.fileno(), 0, access=mmap.ACCESS_COPY)
    except OSError:
        return None


def parts(path: str, file: BinaryIO) -> Iterator[bytes]:
    """What can only be read once."""
    try:
        while part := file.read1(PART):
            yield part
    except OSError as error:
        raise Failed("%s: %s" % (path, error.strerror)) from None


def contents(path: str) -> Data:
    """A pack's bytes, mapped where they can be."""
    with opened(path) as file:
        pack = mapped(file)
        if pack is None:
            pack = bytearray()
            for part in parts(path, file):
                pack += part
                if len(pack) > vof.PACK_LIMIT:
                    break
        if len(pack) > vof.PACK_LIMIT:
            raise Refusal(Refused.PACK_TOO_LONG, 0)
        return pack


class Walk:
    """A pack that is read part by part, of any length that a pipe takes."""

    def __init__(self, path: str) -> None:
        self.path, self.file = path, opened(path)
        self.pack = mapped(self.file)
        self.length = None if self.pack is None else len(self.pack)
        # How many bytes were read.
        self.done = 0

    def records(self) -> Iterator[Tuple[vof.Entry, Optional[Data]]]:
        """Each record as it completes, with its bytes where they are at hand."""
        with self.file:
            yield from self.streamed() if self.pack is None else self.sliced(memoryview(self.pack))

    def sliced(self, pack: memoryview) -> Iterator[Tuple[vof.Entry, Data]]:
        pipe = vof.Pipe()
        for at in range(0, len(pack), PART):
            for entry in pipe.feed(pack[at : at + PART]):
                yield entry, pack[entry.start : end(entry)]
            self.done = min(at + PART, len(pack))
        pipe.end()

    def streamed(self) -> Iterator[Tuple[vof.Entry, Optional[Data]]]:
        """What is kept begins with a record, or later in one that is too long."""
        pipe, kept, start, begun = vof.Pipe(), bytearray(), 0, 0
        for part in parts(self.path, self.file):
            kept += part
            for entry in pipe.feed(part):
                begun = end(entry)
                is_kept = start <= entry.start and begun - entry.start <= KEPT
                yield entry, bytes(kept[entry.start - start : begun - start]) if is_kept else None
            self.done = start + len(kept)
            if start <= begun and self.done - begun <= KEPT:
                del kept[: begun - start]
                start = begun
            else:
                kept.clear()
                start = self.done
        pipe.end()


def end(entry: vof.Entry) -> int:
    return entry.start + HEADER_LENGTH + entry.value_length


class Progress:
    """While this is entered, a line on a terminal tells how far a pack is read that takes its time:
    of one that is walked how many bytes, and of which length."""

    def __init__(self, length: Optional[int], walk: Optional[Walk] = None) -> None:
        self.length, self.walk, self.left = length, walk, threading.Event()

    def tell(self) -> None:
        began, mebibytes = time.monotonic(), "%d MiB" % ((self.length or 0) >> 20)
        while not self.left.wait(0.5):
            told = mebibytes
            if self.walk is not None:
                told = "%d MiB" % (self.walk.done >> 20)
                if self.length:
                    told = "%d %% of %s" % (100 * self.walk.done // self.length, mebibytes)
            sys.stderr.write("\rvof: %s, %d s " % (told, time.monotonic() - began))
            sys.stderr.flush()

    def __enter__(self) -> None:
        self.teller = threading.Thread(target=self.tell, daemon=True)
        if sys.stderr.isatty():
            self.teller.start()

    def __exit__(self, *raised: Any) -> None:
        self.left.set()
        if self.teller.is_alive():
            self.teller.join()
            sys.stderr.write("\r\033[K")


def patiently(function: Callable[..., Any], pack: Data, *more: Any) -> Any:
    """What the function gives."""
    with Progress(len(pack)):
        return function(pack, *more)


# ---- what is printed


def text(data: bytes) -> str:
    """Bytes as text; surrogateescape gives them back."""
    return data.decode("utf-8", "surrogateescape")


def shown(value: Any) -> str:
    """A field for people: what a terminal would obey, or could not print, is escaped."""
    if value is None or isinstance(value, bool):
        return {None: "-", False: "no", True: "yes"}[value]
    told = str(value).encode("utf-8", "surrogateescape").decode("utf-8", "backslashreplace")
    return "".join(
        each if each.isprintable() else each.encode("unicode_escape").decode() for each in told
    )


def put(line: str) -> None:
    sys.stdout.write(line + "\n")


class Output(NamedTuple):
    as_json: bool

    def rows(self, line: str, rows: Iterable[Fields], titled: bool = True) -> None:
        """A line for each row, in this layout, below the names of its fields."""
        for row in rows:
            if self.as_json:
                put(json.dumps(row))
                continue
            if titled:
                put(line.format(**{name: name for name in row}))
                titled = False
            put(line.format(**{name: shown(value) for name, value in row.items()}))

    def fields(self, fields: Optional[Fields]) -> None:
        """A line for each field, or nothing."""
        if self.as_json:
            put(json.dumps(fields))
        elif fields is None:
            put("nothing")
        else:
            width = max(map(len, fields))
            for name, value in fields.items():
                put(name.ljust(width) + "  " + shown(value))

    def refused(self, refusal: Refusal, path: Optional[str]) -> None:
        if self.as_json:
            about = {} if path is None else {"pack": path}
            place = {"place": refusal.place}
            put(json.dumps({**about, "refused": refusal.number, **place, **meaning(refusal)}))
        else:
            put(("" if path is None else shown(path) + ": ") + str(refusal))
            put("  " + refusal.advice)


def meaning(refusal: Refusal) -> Fields:
    number = refusal.number
    return {"name": number.name, "reason": refusal.reason, "advice": refusal.advice}


def column(name: str, length: Optional[int]) -> str:
    """The layout of a column of places or lengths in a pack, of which the length may be unknown."""
    return "{%s:>%d}" % (name, max(len(name), len(str(length or vof.PIPE_LIMIT))))


def kind(tag: bytes) -> Optional[str]:
    return Tag(tag).name.lower().replace("_", " ") if tag in set(Tag) else None


def flat(**named: Any) -> Fields:
    """The fields of what is named, each with that name before its own."""
    return {
        "%s_%s" % (name, field): value
        for name, fields in named.items()
        if fields is not None
        for field, value in fields._asdict().items()
    }


# ---- the subcommands: each has a line of help, and prints what it finds in a pack


def list_records(given: argparse.Namespace, output: Output, walk: Walk) -> None:
    """list the records: start, tag, length, hash, identifier"""

    def row(entry: vof.Entry, data: Optional[Data]) -> Fields:
        identifier = refused = None
        try:
            if data is not None:
                identifier = text(vof.record(data, 0).identifier.composite())
        except Refusal as refusal:
            refused = refusal.number
        return {
            "start": entry.start,
            "tag": entry.tag.hex(),
            "kind": kind(entry.tag),
            "value_length": entry.value_length,
            "value_hash": "%016x" % entry.value_hash,
            "refused": refused,
            "identifier": identifier,
        }

    line = "%s  {tag:4}  {kind:14}  %s  {value_hash:16}  {refused:>7}  {identifier}"
    line %= column("start", walk.length), column("value_length", walk.length)
    rows = (row(*record) for record in walk.records())
    # Lines that somebody reads tell how far it is by themselves.
    if not stat.S_ISREG(os.fstat(sys.stdout.fileno()).st_mode):
        return output.rows(line, rows)
    with Progress(walk.length, walk):
        output.rows(line, rows)


def record(given: argparse.Namespace, output: Output, pack: Data) -> None:
    """read the record at a place"""
    read = vof.record(pack, given.at)
    output.fields(
        {
            "tag": read.tag.hex(),
            "kind": kind(read.tag),
            "identifier": text(read.identifier.composite()),
            "is_delete_marker": read.is_delete_marker,
            "delete_ulid": read.delete_ulid and text(read.delete_ulid),
            **flat(value=read.value, primary=read.primary, secondary=read.secondary),
        }
    )


def current(given: argparse.Namespace, output: Output, pack: Data) -> None:
    """look up the current version of an object"""
    version = patiently(vof.current, pack, *given.name)
    output.fields(
        version
        and {
            "identifier": text(version.identifier.composite()),
            "is_delete_marker": version.is_delete_marker,
            "start": version.start,
            **flat(value=version.value),
        }
    )


def why(given: argparse.Namespace, output: Output, pack: Data) -> None:
    """tell of each version of an object why it is current, or why not"""
    start, place = column("start", len(pack)), column("place", len(pack))
    line = "%s  {ulid:26}  {reason:14}  %s" % (start, place)
    output.rows(
        line,
        (
            {
                "start": start,
                "ulid": text(vof.record(pack, start).identifier.ulid),
                "reason": reason.value,
                "place": place,
            }
            for start, reason, place in patiently(vof.explain, pack, *given.name)
        ),
    )


def check(given: argparse.Namespace, output: Output, walk: Walk) -> None:
    """say whether packs are accepted"""
    with Progress(walk.length, walk):
        row = {"pack": given.pack, "records": sum(1 for _ in walk.records())}
    output.rows("{pack}: accepted, records {records}", [row], titled=False)


def check_deposit(given: argparse.Namespace, output: Output, pack: Data) -> None:
    """say whether packs keep the deposit profile"""
    row = {"pack": given.pack, "records": patiently(vof.check_deposit, pack)}
    output.rows("{pack}: may be deposited, records {records}", [row], titled=False)


def find(given: argparse.Namespace, output: Output, pack: Data) -> None:
    """find the block that holds a byte of a version, by the pack list at a place"""
    read = vof.record(pack, given.at)
    if read.tag != Tag.PACK_LIST:
        raise Failed("the record at %d is no pack list" % given.at)
    at, length = read.primary.start, read.primary.length
    found = vof.find_block(pack[at : at + length], given.byte)
    output.fields(
        found
        and {
            "entry": found.entry,
            "block": found.block,
            "ulid": text(found.ulid),
            **flat(stored=found.stored),
        }
    )


def item(given: argparse.Namespace, output: Output, pack: Data) -> None:
    """tell what MessagePack item stands at the front of a file, or at a place, and in which form"""
    if not 0 <= given.at <= len(pack):
        raise Failed("there is no place %d in it" % given.at)
    told = vof.item(pack[given.at :])
    output.fields(
        {
            "kind": told.kind.value,
            "length": told.length,
            "argument": told.argument,
            "is_short": told.is_short,
        }
    )


def refusals(given: argparse.Namespace, output: Output) -> None:
    """say what a refusal means and what to do, or list them all"""
    if given.number is None:
        rows = ({"number": number, **meaning(Refusal(number))} for number in Refused)
        output.rows("{number:>6}  {name:21}  {reason}", rows)
    elif given.number in TEXTS:
        output.fields({"number": given.number, **meaning(Refusal(given.number))})
    else:
        raise Failed("no refusal has the number %d" % given.number)


def name(argument: str) -> Iterable[bytes]:
    bucket, _, object = os.fsencode(argument).partition(b"/")
    return bucket, object


class Deposit(argparse.Action):
    """Has packs checked by the deposit profile, which wants them whole."""

    def __call__(self, parser: Any, given: argparse.Namespace, *more: Any) -> None:
        given.run, given.read = check_deposit, contents


def parsed(arguments: Optional[Iterable[str]]) -> argparse.Namespace:
    about = "Reads LTFS-VOF packs. PACK is a file, or - for standard input."
    statuses = "Exit status: 0 told; 1 refused; 2 neither, and standard error says why."
    common = argparse.ArgumentParser(add_help=False)
    version = "vof, library version %d" % vof.version()
    common.add_argument("--version", action="version", version=version)
    parser = argparse.ArgumentParser(
        prog="vof", description=about, epilog=statuses, parents=[common]
    )
    subparsers = parser.add_subparsers(metavar="COMMAND", required=True)
    common.add_argument("--json", action="store_true", help="print JSON, an object a line")

    def add(
        name: str, run: Callable[..., None], packs: Any, read: Callable[[str], Any] = contents
    ) -> argparse.ArgumentParser:
        more = {"help": run.__doc__, "description": run.__doc__, "epilog": statuses}
        subparser = subparsers.add_parser(name, parents=[common], **more)
        subparser.set_defaults(run=run, packs=None, read=read)
        if packs:
            subparser.add_argument("packs", nargs=packs, metavar="PACK")
        return subparser

    add("list", list_records, 1, Walk)
    add("record", record, 1).add_argument("at", type=int, metavar="AT")
    for word, run in (("current", current), ("why", why)):
        add(word, run, 1).add_argument("name", type=name, metavar="BUCKET/OBJECT")
    checker = add("check", check, "+", Walk)
    profile = "check them against the deposit profile"
    checker.add_argument("--deposit", action=Deposit, nargs=0, help=profile)
    finder = add("find", find, 1)
    finder.add_argument("at", type=int, metavar="AT")
    finder.add_argument("byte", type=int, metavar="BYTE")
    add("item", item, 1).add_argument("at", type=int, nargs="?", default=0, metavar="AT")
    add("refusal", refusals, None).add_argument("number", type=int, nargs="?", metavar="N")
    return parser.parse_args(arguments)


def ran(given: argparse.Namespace) -> int:
    """The exit status of a command that is run on its packs, one after the other."""
    output, status = Output(given.json), 0
    for given.pack in given.packs or [None]:
        try:
            if given.pack is None:
                given.run(given, output)
            else:
                given.run(given, output, given.read(given.pack))
        except Refusal as refusal:
            is_check = given.run in (check, check_deposit)
            output.refused(refusal, given.pack if is_check else None)
            status = max(status, 1)
        except Failed as failure:
            sys.stderr.write("vof: %s\n" % shown(failure))
            status = 2
    return status


def main(arguments: Optional[Iterable[str]] = None) -> int:
    # Names have letters that the terminal may lack.
    sys.stdout.reconfigure(errors="backslashreplace")
    try:
        status = ran(parsed(arguments))
        sys.stdout.flush()
        return status
    except KeyboardInterrupt:
        return 2
    except OSError as error:
        # Nobody reads on: that is no fault, and what is left is thrown away.
        if not isinstance(error, BrokenPipeError):
            sys.stderr.write("vof: standard output: %s\n" % error.strerror)
        os.dup2(os.open(os.devnull, os.O_WRONLY), sys.stdout.fileno())
        return 2
