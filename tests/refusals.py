#!/usr/bin/env python3
"""Makes the refusals' names, reasons and advice for C, Rust and Python from docs/REFUSALS.md.

Without arguments it writes them; with --check it compares what is there, and the numbers with those
of documents 01 and 02.
"""
import os
import re
import sys
from typing import NamedTuple

ROOT = os.path.join(os.path.dirname(os.path.abspath(__file__)), "..")
SHARED = os.path.join(ROOT, "..", "shared")
HEADER, RUST = "include/vof.h", "rust/vof/src/refused.rs"
PYTHON = "python/vof/refusals.py"
ORIGIN = "Made from docs/REFUSALS.md by tests/refusals.py: change that, and run it."


class Row(NamedTuple):
    number: int
    name: str
    reason: str
    exactly_when: str
    cause: str
    advice: str


def text(path):
    with open(os.path.join(ROOT, path), encoding="utf-8") as file:
        return file.read()


def plain(cell):
    """A cell without its marks."""
    return re.sub(r"\[([^]]*)\]\(([^)#]*)[^)]*\)", r"\1 of docs/\2", cell).replace("`", "")


def rows():
    for line in text("docs/REFUSALS.md").splitlines():
        if re.match(r"\| \d", line):
            number, *cells = map(plain, line.strip("| ").split(" | "))
            yield Row(int(number), *cells)


def quoted(told):
    return '"%s"' % told.replace("\\", "\\\\").replace('"', '\\"')


# ---- what is made


def python(table):
    yield '"""The refusals\' numbers by their names, with reasons and advice.\n\n%s\n"""' % ORIGIN
    yield "from enum import IntEnum\n\n\nclass Refused(IntEnum):"
    yield '    """The numbers of the refusals."""\n'
    for row in table:
        yield "    %s = %d" % (row.name, row.number)
    yield "\n\n# Of each number the reason, and what to do.\nTEXTS = {"
    for row in table:
        yield "    %d: (\n        %s,\n        %s,\n    )," % (
            row.number,
            quoted(row.reason),
            quoted(row.advice),
        )
    yield "}"


def rust(table):
    yield "//! The refusals' numbers by their names.\n//!\n//! %s\n" % ORIGIN
    for row in table:
        yield "/// Refused: %s.\npub const %s: u8 = %d;" % (row.reason, row.name, row.number)
    yield "\n/// Of each number, from 1 on, the reason, and what to do."
    yield "pub(crate) const TEXTS: [(&str, &str); %d] = [" % len(table)
    for row in table:
        yield "    (\n        %s,\n        %s,\n    )," % (quoted(row.reason), quoted(row.advice))
    yield "];"


def c(table):
    yield "enum {"
    yield ",\n".join("    VOF_REFUSED_%s = %d" % (row.name, row.number) for row in table)
    yield "};\n\n/* Why it was refused, by the number. */"
    yield "static inline const char *vof_reason(unsigned number) {\n    switch (number) {"
    for row in table:
        yield "    case VOF_REFUSED_%s:\n        return %s;" % (row.name, quoted(row.reason))
    yield '    default:\n        return "no refusal has this number";\n    }\n}'


def made(table):
    """Each file, and what is to stand in it; of the header the section that has the refusals."""
    yield PYTHON, "\n".join(python(table)) + "\n"
    yield RUST, "\n".join(rust(table)) + "\n"
    begin = "/* ---- refusals\n\n   %s */\n\n" % ORIGIN
    before, found, rest = text(HEADER).partition(begin)
    end = rest.find("\n\n/* ----")
    if not found or end < 0:
        sys.exit("refusals: %s has no section for them" % HEADER)
    yield HEADER, before + begin + "\n".join(c(table)) + rest[end:]


# ---- the documents


def documents(table):
    """Document 01's sheet has these numbers, and document 02 gives the others."""
    paths = [os.path.join(SHARED, name) for name in ("01-scope.md", "02-change-requests.md")]
    if not all(map(os.path.exists, paths)):
        print("skipped: the refusals' numbers beside documents 01 and 02, for want of ../shared")
        return
    scope, requests = map(text, map(os.path.abspath, paths))
    sheet = scope.partition("## Refusal sheet")[2]
    first = [int(number) for number in re.findall(r"^\| (\d+) \| ", sheet, re.MULTILINE)]
    given = set()
    for sentence in re.findall(r"Refusals\b.*", requests):
        given.update(map(int, re.findall(r"\b\d+\b", sentence)))
        for low, high in re.findall(r"\b(\d+) to (\d+)\b", sentence):
            given.update(range(int(low), int(high) + 1))
    for row in table:
        if row.number not in (first if row.number <= max(first) else given):
            sys.exit("refusals: documents 01 and 02 do not give %d" % row.number)
    if len(table) < max(first):
        sys.exit("refusals: document 01 has %d" % max(first))


table = sorted(rows())
if [row.number for row in table] != list(range(1, len(table) + 1)):
    sys.exit("refusals: docs/REFUSALS.md does not number them 1, 2 and so on")
for path, wanted in made(table):
    if sys.argv[1:] != ["--check"]:
        with open(os.path.join(ROOT, path), "w", encoding="utf-8") as file:
            file.write(wanted)
    elif text(path) != wanted:
        sys.exit("refusals: %s is not what tests/refusals.py makes" % path)
documents(table)
print("refusals: C, Rust and Python have the %d of docs/REFUSALS.md" % len(table))
