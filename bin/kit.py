"""bin/kit.py: what the commands and tests here have the Rattle kit do. It is no command of its own; bin/program has
what the shell commands share.

    python3 bin/kit.py COMMAND program CRATE     target/bin/CRATE, proved and compiled
    python3 bin/kit.py COMMAND archive CRATE..   of each crates/CRATE/out/libCRATE.a
    python3 bin/kit.py COMMAND sums              what the crates are made of: a sum of each file
    python3 bin/kit.py COMMAND passed SUMS       after `rt ci`, if the crates still have these sums: what it built serves

COMMAND is the name under which it speaks. Exit status: 0 done; 1 not, and standard error says why.

`rt` builds over what `rt check` and `rt lib` keep in the crates' out/, and takes nothing of what `rt ci` built there. In a fresh
clone all would be proved once more after the gate. So what passed it is noted in target/passed, and as long as the crates are
as they were then, the libraries that it left are taken as they are.
"""
import contextlib
import functools
import hashlib
import importlib.machinery
import importlib.util
import os
import re
import shutil
import subprocess
import sys
import tempfile
from pathlib import Path

ROOT = Path(__file__).resolve().parent.parent
PASSED = ROOT / "target" / "passed"


class Fault(Exception):
    """Something could not be built."""


@functools.lru_cache(maxsize=None)
def rt():
    """The kit's `rt` as a module: the one on the path."""
    found = shutil.which("rt")
    if found is None:
        raise Fault("rt is not on the path: it is in the Rattle kit's bin folder")
    sys.dont_write_bytecode = True
    loader = importlib.machinery.SourceFileLoader("rt", os.path.realpath(found))
    made = importlib.util.module_from_spec(importlib.util.spec_from_loader("rt", loader))
    loader.exec_module(made)
    return made


@functools.lru_cache(maxsize=None)
def crates():
    """The crates by name, those below first, held to what `rt ci` holds them to."""
    kit = rt()
    # What it starts ends with it. The first call sets a signal's handler, which threads may not.
    kit.rtlib.guarded()
    kit.rtlib.Crate = kit.Crate
    try:
        kit.Crate.allowed = kit.handles_of(str(ROOT))
        return {each.name: each for each in kit.rtlib.crates_below(str(ROOT))}
    except SystemExit:
        raise Fault("rt cannot read crates.txt") from None


def sums():
    """A line for each file that a verdict rests on, as sha256sum writes it; bin/program compares them."""
    files = [ROOT / "crates.txt"]
    for part in ("src", "specs", "proofs"):
        files += [path for path in ROOT.glob("crates/*/%s/**/*" % part) if path.is_file()]
    rows = [(str(path.relative_to(ROOT)), hashlib.sha256(path.read_bytes()).hexdigest()) for path in files]
    return "".join("%s  %s\n" % (told, name) for name, told in sorted(rows, key=lambda row: row[0].encode()))


def has_passed():
    """Whether `rt ci` passed the crates as they are."""
    return PASSED.is_file() and PASSED.read_text() == sums()


def as_passed(crate):
    """Whether the libraries below are all those that `rt ci` built of these files. `rt ci` puts back what stood in out/ before:
    of that, and only of that, rt keeps a stamp."""
    rlibs = [Path(each.rlib) for each in crate.below()]
    return has_passed() and all((each / "format").is_file() and not (each.parent / "stamp").exists() for each in rlibs)


def call(name, *words):
    """Runs rt in a crate's folder, and gives its status and what it said."""
    with tempfile.TemporaryFile("w+", errors="replace") as out:
        command = [shutil.which("rt"), *words]
        how = {"cwd": ROOT / "crates" / name, "stdin": subprocess.DEVNULL, "stdout": subprocess.DEVNULL, "stderr": out}
        if words[0] != "run":
            how["stdout"] = out
        status = subprocess.call(command, **how)
        out.seek(0)
        return status, out.read()


@functools.lru_cache(maxsize=None)
def library(name):
    """Builds a library of the repository over kept work, where it is not there."""
    status, said = call(name, "lib")
    if status:
        raise Fault("%s\n%s could not be built" % (said, name))


def libraries(crate):
    """Builds the libraries below a crate, where they are not there."""
    if not as_passed(crate):
        for each in crate.below():
            library(each.name)


def tell(command, names):
    """Says how many crates are proved, and about how long that takes at most, where rt kept nothing of them: by the kit's guide
    5 to 15 seconds each, and one to three minutes for 1,000 lines of code."""
    lines = {each: crates()[each].count(rb"\n") for each in names}
    minutes = round(sum(10 + 0.12 * count for count in lines.values()) / 60)
    what = "compiling" if not names else "proving a crate" if len(names) == 1 else "proving %d crates" % len(names)
    about = "about %d minutes" % minutes if minutes > 1 else "about a minute"
    print("%s: %s, %s at most" % (command, what, about), file=sys.stderr, flush=True)


def unbuilt(names):
    """The crates that rt proves to build these."""
    below = [each for name in names for each in crates()[name].below()]
    lacking = [] if all(as_passed(crates()[name]) for name in names) else [each.name for each in below if not each.is_built()]
    return list(dict.fromkeys([*lacking, *names]))


def put(made, to, told):
    """Puts a program where the commands look for it, whole, and what it was made of beside it."""
    to.parent.mkdir(parents=True, exist_ok=True)
    for path, write in [(to, lambda new: shutil.copy2(made, new)), (of(to), lambda new: new.write_text(told))]:
        new = path.with_name(".new.%s.%d" % (path.name, os.getpid()))
        write(new)
        os.replace(new, path)


def of(path):
    return path.with_name(path.name + ".of")


def program(command, name):
    made, told = ROOT / "target" / "bin" / name, sums()
    if made.is_file() and of(made).is_file() and of(made).read_text() == told:
        return
    if name not in crates() or not crates()[name].is_program:
        raise Fault("there is no program %s" % name)
    tell(command, unbuilt([name]))
    # It runs too, on no input.
    _, said = call(name, "run")
    if not re.search(r"^rt: running out/%s;" % name, said, re.M):
        raise Fault(said + "the program could not be built")
    put(ROOT / "crates" / name / "out" / name, made, told)


def over_passed(crate):
    """Proves a static library over the libraries that `rt ci` left, from nothing, as `rt ci` proves it, and compiles it."""
    kit, archive = rt(), "out/lib%s.a" % crate.name
    os.makedirs("%s/out" % crate.folder, exist_ok=True)
    words = [*crate.words(["--jobs", "1"], keeps=False), "--toolchain", "%s/toolchain" % kit.KIT, "--backend", "llvm", "-o", archive]
    with tempfile.TemporaryFile("w+", errors="replace") as crate.out:
        status = crate.prove(["build", *words])
        crate.out.seek(0)
        return "" if status == 0 else "%s\n%s could not be built" % (crate.out.read(), crate.name)


def archive(command, *names):
    tell(command, unbuilt(names))
    meant = [crates()[name] for name in names]
    if all(as_passed(each) for each in meant):
        tasks = {
            (each.name, "proof"): ([], each.count(rb"\n"), rt().need(each), lambda given, jobs, each=each: over_passed(each))
            for each in meant
        }
        faults = [told for told in rt().in_lanes(tasks).values() if told]
        if faults:
            raise Fault("\n".join(faults))
        return
    for each in meant:
        library(each.name)


def passed(before):
    """before: the file with the sums from before `rt ci`."""
    told = sums()
    if Path(before).read_text() != told:
        raise Fault("the crates changed while rt ci ran")
    for each in crates().values():
        if each.is_program:
            put(Path(each.folder) / "out" / each.name, ROOT / "target" / "bin" / each.name, told)
    PASSED.parent.mkdir(exist_ok=True)
    PASSED.write_text(told)


if __name__ == "__main__":
    command, verb, *given = sys.argv[1:]
    try:
        if verb == "program":
            program(command, *given)
        elif verb == "archive":
            archive(command, *given)
        elif verb == "passed":
            passed(*given)
        else:
            with contextlib.suppress(BrokenPipeError):
                print(sums(), end="")
    except Fault as fault:
        told, _, last = str(fault).rpartition("\n")
        if told:
            print(told, file=sys.stderr)
        print("%s: %s" % (command, last), file=sys.stderr)
        sys.exit(1)
