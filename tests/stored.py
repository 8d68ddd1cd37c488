"""The stdin and stdout that a program of vectors has stored: written, or with --check compared."""
import os
import sys

CRATES = os.path.join(os.path.dirname(os.path.abspath(__file__)), "..", "crates")


def store(crate, stdin, stdout):
    """The stdout has a line for each vector."""
    for name, made in [("stdin", stdin), ("stdout", stdout)]:
        path = os.path.join(CRATES, crate, name)
        if sys.argv[1:] != ["--check"]:
            with open(path, "wb") as file:
                file.write(made)
        else:
            with open(path, "rb") as file:
                if file.read() != made:
                    sys.exit("%s: crates/%s/%s is not what is made" % (crate, crate, name))
    print("%s: %d vectors are as stored" % (crate, stdout.count(b"\n")))


def number(n):
    return n.to_bytes(8, "big")


def field(s):
    return number(len(s)) + s


class Vectors:
    """Vectors of a title, a kind, bytes, and what else the kind takes, with what is to be found."""

    def __init__(self, crate, kinds):
        """kinds: in the order of their numbers in the program."""
        self.crate, self.kinds = crate, kinds
        self.inputs, self.outputs, self.titles = [], [], set()

    def add(self, kind, title, data, more, found):
        """more: numbers and fields. found: as the program prints it behind the title."""
        assert title not in self.titles, title
        # The program's buffer.
        assert len(data) <= 65536, title
        self.titles.add(title)
        line = title.encode() + b":"
        self.inputs.append(field(line) + number(self.kinds.index(kind)) + field(data) + more)
        self.outputs.append(line + b" " + found.encode(errors="surrogateescape") + b"\n")

    def store(self):
        stdin = number(len(self.inputs)) + b"".join(self.inputs)
        store(self.crate, stdin, b"".join(self.outputs))
