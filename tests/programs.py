"""Runs a built program and compares all that it prints, for tests/listing, tests/stream and
tests/why."""
import argparse
import os
import socket
import subprocess
import sys
import tempfile
import time

from cases import Cases

ROOT = os.path.join(os.path.dirname(os.path.abspath(__file__)), "..")
# What the programs read at most.
LIMIT = 65536


def refused(number, place):
    return "refused %d at %d\n" % (number, place)


def broken(data):
    """A socket whose other end goes and leaves what it was sent: behind the data one read fails,
    then it ends."""
    ours, theirs = socket.socketpair()
    theirs.sendall(b"never read")
    ours.sendall(data)
    ours.close()
    return theirs


def proved(title, crate):
    """The program, proved and built of the crates as they are."""
    if subprocess.call([sys.executable, os.path.join(ROOT, "bin", "kit.py"), title, "program", crate]):
        sys.exit("%s: no program to test" % title)
    return os.path.join(ROOT, "target", "bin", crate)


class Program(Cases):
    """A built program, and how many cases were tried on it."""

    def __init__(self, title, crate):
        options = argparse.ArgumentParser(description="Tests of the program %s." % crate)
        options.add_argument("--program", help="default: the proved one, built where it is not there")
        super().__init__(title)
        self.path = os.path.abspath(options.parse_args().program or proved(title, crate))
        if not os.access(self.path, os.X_OK):
            sys.exit("%s: no program to test" % title)

    def start(self, stdin, *arguments, **more):
        pipe = subprocess.PIPE
        command = [self.path, *arguments]
        return subprocess.Popen(command, stdin=stdin, stdout=pipe, stderr=pipe, bufsize=0, **more)

    def finish(self, process, data=None):
        try:
            out, err = process.communicate(data, timeout=60)
        except subprocess.TimeoutExpired:
            process.kill()
            process.communicate()
            return "(still running after a minute)", "", 0
        return out.decode("latin-1"), err.decode("latin-1"), process.returncode

    def compare(self, name, wanted, told):
        out, err, status = told
        if out != wanted:
            pairs = zip(wanted.splitlines() + ["(the end)"], out.splitlines() + ["(the end)"])
            line = next(((w, o) for w, o in pairs if w != o), (wanted[-20:], out[-20:]))
            self.check(name, False, "wanted %r, printed %r" % line)
        else:
            right = not err and status == 0
            self.check(name, right, "standard error %r, status %d" % (err, status))

    def pack(self, name, data, wanted, *arguments):
        self.compare(name, wanted, self.finish(self.start(subprocess.PIPE, *arguments), data))

    def from_file(self, name, data, wanted, *arguments):
        with tempfile.TemporaryFile() as file:
            file.write(data)
            file.seek(0)
            self.compare(name, wanted, self.finish(self.start(file, *arguments)))

    def in_pieces(self, name, data, sizes, wanted, *arguments):
        """Through a pipe, in pieces of these sizes and then the rest, with a pause before each."""
        process = self.start(subprocess.PIPE, *arguments)
        ends = [0]
        for size in sizes:
            ends.append(ends[-1] + size)
        try:
            for begin, end in zip(ends, ends[1:] + [len(data)]):
                time.sleep(0.003)
                process.stdin.write(data[begin:end])
        except BrokenPipeError:
            pass
        self.compare(name, wanted, self.finish(process))

    def unread(self, name, process, wanted=""):
        """A read that fails is no pack: nothing more on standard output, one line on standard
        error."""
        out, err, status = self.finish(process)
        told = "printed %r, standard error %r, status %d" % (out, err, status)
        right = out == wanted and err.count("\n") == 1 and err[-1] == "\n" and status >= 0
        self.check(name, right, told)

    def failed_reads(self, record, *arguments, line=""):
        """Standard input that cannot be read, at once or within these bytes of a record, for which
        the program may have printed a line."""
        closed = self.start(None, *arguments, preexec_fn=lambda: os.close(0))
        self.unread("standard input closed", closed)
        folder = os.open(ROOT, os.O_RDONLY)
        self.unread("standard input is a folder", self.start(folder, *arguments))
        os.close(folder)
        unwanted = os.open(os.devnull, os.O_WRONLY)
        self.unread("standard input is for writing only", self.start(unwanted, *arguments))
        os.close(unwanted)
        for name, data, wanted in [
            ("at once", b"", ""),
            ("in a record", record[:40], ""),
            ("after it", record, line),
        ]:
            with broken(data) as stdin:
                self.unread("reading breaks off " + name, self.start(stdin, *arguments), wanted)

    def sample(self, name):
        """A pack of samples/, which the script there makes."""
        folder = os.path.join(ROOT, "samples")
        with open(os.path.join(folder, name + ".pack"), "rb") as file:
            stored = file.read()
        command = [os.path.join(folder, "make"), name]
        made = subprocess.run(command, stdout=subprocess.PIPE).stdout
        told = "samples/make does not make samples/%s.pack" % name
        self.check("samples/%s.pack" % name, made == stored, told)
        return stored
