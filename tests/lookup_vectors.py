#!/usr/bin/env python3
"""tests/lookup_vectors.py [--check]: makes the vectors of crates/lookup_vectors.

Written from documents 01 and 02 and not from the definitions that are proved. What a lookup is to
find is said twice: by the plain lookup of this file, and by hand, but for the random packs. Without
arguments the script writes the program's stored stdin and stdout; with --check it compares them.
That the program prints this stdout is checked by rt.
"""
import itertools
import sys

sys.dont_write_bytecode = True
from packs import NIL, Raw, block, every_text, header, item, lists, pairs, record, sized
from packs import version, version_delete, xxh64
from reader import outcome, read_pack
from stored import store

BUFFER = 65536

# ---- a plain lookup by document 01


def lookup(pack, bucket, object):
    versions, deletions = read_pack(pack, bucket, object)
    deleted = {identifier for identifier, _ in deletions}
    named = [v for v in versions if v[0][1:] == (bucket, object) and v[0] not in deleted]
    # Of equals, max gives the first.
    return max(named, key=lambda v: v[0].ulid) if named else None


def told(pack, bucket, object):
    """What the program prints."""
    found, refused = outcome(lookup, pack, bucket, object)
    if refused:
        return b"refused " + found.encode()
    if found is None:
        return b"nothing"
    (ulid, bucket, object), flag, start, value = found
    kind = b"delete marker" if flag else b"version"
    shown = (ulid, bucket, object, kind, start, len(value), xxh64(value))
    return b"%s %s/%s %s at %d value %d %016x" % shown


# ---- the vectors

inputs, outputs, titles = [], [], set()


def four(n):
    return n.to_bytes(4, "big")


def field(s):
    return four(len(s)) + s


def add(title, pack, names):
    """The answers for the names."""
    assert title not in titles, title
    titles.add(title)
    names = [tuple(x.encode(errors="surrogateescape") for x in name) for name in names]
    answers = [told(pack, *name) for name in names]
    fields = [title.encode(), pack, b"".join(field(x) for name in names for x in name)]
    inputs.append(b"".join(map(field, fields)))
    assert len(inputs[-1]) <= BUFFER, title
    for name, answer in zip(names, answers):
        outputs.append(b"%s, %s/%s: %s\n" % (title.encode(), *name, answer))
    return answers


def wanted_answer(records, wanted):
    """The end of the answer, from what is wanted: a record, None, a refusal at a record, or 20."""

    def start(found):
        return len(b"".join(records[: records.index(found)]))

    if wanted is None:
        return "nothing"
    if wanted == 20:
        return "refused 20"
    if isinstance(wanted, tuple):
        return "refused %d at %d" % (wanted[0], start(wanted[1]))
    return " at %d value %d %016x" % (start(wanted), len(wanted) - 32, xxh64(wanted[32:]))


def case(title, records, *given):
    """given: names, each with what is wanted, or a function that tells it from the records."""
    answers = add(title, b"".join(records), [name for name, _ in given])
    for (name, wanted), answer in zip(given, answers):
        wanted = wanted_answer(records, wanted(records) if callable(wanted) else wanted)
        right = answer.endswith(wanted.encode())
        assert right, "%s, %s: wanted %s, found %s" % (title, name, wanted, answer)


def orders(title, records, *given):
    """Every order of up to three records; of more the rotations, and the reverse."""
    n = len(records)
    chosen = [[*range(k, n), *range(k)] for k in range(n)] + [range(n)[::-1]]
    if n <= 3:
        chosen = itertools.permutations(range(n))
    for order in chosen:
        shown = " ".join(str(k + 1) for k in order)
        case("%s, order %s" % (title, shown), [records[k] for k in order], *given)


def earliest(*among):
    return lambda records: next(r for r in records if r in among)


# In rising order: a digit before a letter, an earlier character before a later one.
LEAST, OLD, MIDDLE, NEW = "0" * 26, "0" * 25 + "9", "0" * 25 + "A", "0" + "Z" * 25
GREATEST, BEYOND = "7" + "Z" * 25, ["8" + "0" * 25, "9" + NEW[1:], "Z" * 26]
BY = "7YF1QTCNCDN7FYSQFD2PFH2DCS"
LIST, SCAN, PEN = ("herd", "list"), ("herd", "scans/7/list"), ("pen", "list")


def part(ulid, name):
    """The keys of a version's primary part."""
    return {"b": name[0], "o": name[1], "v": ulid}


def retagged(made, tag):
    return record(tag, made[32:])


def with_spare(made, spare):
    value = made[32:]
    return header(made[25:27], len(value), xxh64(value), spare=spare) + value


def changed(s, at, byte):
    return s[:at] + bytes([byte]) + s[at + 1 :]


def gone(ulid, name=LIST, by=BY):
    return version_delete(ulid, *name, by)


def deletions():
    old, new = version(OLD, *LIST), version(NEW, *LIST)
    least, middle = version(LEAST, *LIST), version(MIDDLE, *LIST)
    orders("newest deleted", [old, new, gone(NEW)], (LIST, old), (PEN, None))
    orders("oldest deleted", [old, new, gone(OLD)], (LIST, new))
    orders("middle deleted", [old, middle, new, gone(MIDDLE)], (LIST, new))
    orders("the only one deleted", [old, gone(OLD)], (LIST, None), (SCAN, None))
    orders("deleted twice", [old, gone(OLD), gone(OLD, by=NEW)], (LIST, None))
    orders("all deleted", [old, new, gone(OLD), gone(NEW)], (LIST, None))
    versions = [least, old, middle, new]
    orders("two newest deleted", versions + [gone(NEW), gone(MIDDLE)], (LIST, old))
    three = [gone(x) for x in (NEW, OLD, MIDDLE)]
    orders("three newest deleted", versions + three, (LIST, least))
    orders("four deleted", versions + three + [gone(LEAST)], (LIST, None))
    orders("newest and oldest deleted", versions + [gone(NEW), gone(LEAST)], (LIST, middle))
    case("deletions alone", three, (LIST, None))
    pen, scan = version(NEW, *PEN), version(NEW, *SCAN)
    given = [(LIST, None), (PEN, pen), (SCAN, scan)]
    orders("one of three names deleted", [new, pen, scan, gone(NEW)], *given)


def other_deletions():
    old, new = version(OLD, *LIST), version(NEW, *LIST)
    for title, delete in [
        ("a version that is not there", gone(MIDDLE)),
        ("a greater ULID", gone(GREATEST)),
        ("a lesser ULID", gone(LEAST)),
        ("another bucket", gone(NEW, PEN)),
        ("another object", gone(NEW, SCAN)),
        ("an object that goes on", gone(NEW, ("herd", "list/"))),
        ("an object cut short", gone(NEW, ("herd", "lis"))),
        ("a bucket that goes on", gone(NEW, ("herds", "list"))),
        ("a name with its slash elsewhere", gone(NEW, ("her", "dlist"))),
        ("another version by this one's ULID", gone(MIDDLE, by=NEW)),
    ]:
        orders("deletion of " + title, [old, new, delete], (LIST, new))
    orders("deletion by the other's ULID", [old, new, gone(NEW, by=OLD)], (LIST, old))


def greatest():
    def each(*ulids):
        return [version(ulid, *LIST) for ulid in ulids]

    old, new = each(OLD, NEW)
    orders("three versions", [old, *each(MIDDLE), new], (LIST, new), (PEN, None), (SCAN, None))
    ends = each(LEAST, GREATEST)
    orders("least and greatest ULID", ends, (LIST, ends[1]))
    case("least ULID alone", ends[:1], (LIST, ends[0]))
    five = each(LEAST, OLD, MIDDLE, NEW, GREATEST)
    orders("five versions", five, (LIST, five[4]))
    for k in range(26):
        pair = each(MIDDLE[:k] + "6" + MIDDLE[k + 1 :], MIDDLE[:k] + "7" + MIDDLE[k + 1 :])
        orders("ULIDs apart at %d" % k, pair, (LIST, pair[1]))
    letters = each(*["1" * 20 + x + "1" * 5 for x in "0123456789ABCDEFGHJKMNPQRSTVWXYZ"])
    for k in range(31):
        orders("letters %d and %d" % (k, k + 1), letters[k : k + 2], (LIST, letters[k + 1]))
    pens = [version(GREATEST, *PEN), version(OLD, *PEN)]
    orders("a greater ULID in another bucket", [old, new, *pens], (LIST, new), (PEN, pens[0]))


def twice():
    old = version(OLD, *LIST)
    for title, x, y in [
        ("values", version(NEW, *LIST, D=b"one"), version(NEW, *LIST, D=b"other")),
        ("flags", version(NEW, *LIST), version(NEW, *LIST, d=True)),
        ("widths", version(NEW, *LIST), version(sized(0xD9, 1, 26, NEW.encode()), *LIST)),
        ("headers", version(NEW, *LIST), with_spare(version(NEW, *LIST), 0xABCD)),
    ]:
        orders("twice with other " + title, [x, old, y], (LIST, earliest(x, y)))
        orders("twice with other %s, deleted" % title, [x, old, y, gone(NEW)], (LIST, old))
    same = version(NEW, *LIST)
    orders("twice the same record", [same, old, same], (LIST, same))
    x, y = version(OLD, *LIST, D=b"one"), version(OLD, *LIST, D=b"other")
    newest = version(NEW, *LIST)
    orders("an older one twice", [x, newest, y], (LIST, newest))
    deleted = [x, newest, y, gone(NEW)]
    orders("an older one twice, newest deleted", deleted, (LIST, earliest(x, y)))


def markers():
    old, marker = version(OLD, *LIST), version(NEW, *LIST, d=True)
    orders("a delete marker", [old, marker], (LIST, marker), (PEN, None))
    orders("a deleted delete marker", [old, marker, gone(NEW)], (LIST, old))
    orders("a deleted delete marker alone", [marker, gone(NEW)], (LIST, None))
    orders("a delete marker, older one deleted", [old, marker, gone(OLD)], (LIST, marker))
    older, newest = version(MIDDLE, *LIST, d=True), version(GREATEST, *LIST)
    orders("a marker below a version", [old, older, newest], (LIST, newest))
    orders("two markers", [old, older, marker], (LIST, marker))
    orders("two markers, newest deleted", [old, older, marker, gone(NEW)], (LIST, older))
    plain = version(NEW, *LIST, d=False)
    orders("a flag that is false", [old, plain], (LIST, plain))
    other = record(b"vd", item({"e": item({**part(NEW, LIST), "???": BY, "d": 5})}))
    orders("d in a deletion", [old, marker, other], (LIST, old))


def names():
    objects = ["a", "a/", "/a", "a/b", "a/b/c", "//", "/", "a//b"]
    made = {("b", x): version(NEW, "b", x) for x in objects}
    made.update({("b:", x): version(NEW, "b:", x) for x in objects})
    given = [*made.items(), (("b", "b"), None), (("b:", "b"), None), (("b::", "a"), None)]
    case("objects with slashes", list(made.values()), *given)
    half = [gone(NEW, name) for name in list(made)[1::2]]
    kept = [(name, None if k % 2 else r) for k, (name, r) in enumerate(made.items())]
    case("objects with slashes, half deleted", half + list(made.values()), *kept)
    two = {LIST: version(OLD, *LIST), PEN: version(NEW, *PEN)}
    orders("one object in two buckets", list(two.values()), *two.items())
    longest, long = ("b" * 63, "o" * 1024), ("b" * 62, "o" * 1023)
    made = {longest: version(OLD, *longest), long: version(NEW, *long)}
    orders("longest names", list(made.values()), *made.items(), (("b" * 63, "o" * 1023), None))
    deleted = [gone(OLD, longest), *made.values()]
    case("longest name deleted", deleted, (longest, None), (long, made[long]))
    odd = ("\udcff\\", "\udcfe \0")
    made = version(OLD, *odd)
    case("bytes that are no UTF-8", [made], (odd, made), (("\udcfe\\", "\udcfe \0"), None))
    made = version(OLD, *LIST)
    case("case of letters", [made], (("Herd", "list"), None), (("herd", "List"), None))


def others():
    case("empty pack", [], (LIST, None))
    old, new = version(OLD, *LIST), version(NEW, *LIST)
    id = GREATEST + ":herd/list"
    for title, other in [
        ("a block", block(GREATEST, *LIST, b"abc")),
        ("an empty block", block(GREATEST, *LIST, b"")),
        ("the record of 001", record(b"C!", b"data data data")),
        ("a block without a value", record(b"bk", b"")),
        ("a block of depth 17", record(b"bk", lists(17))),
        ("a block under z", record(b"bk", item({"z": 1, "e": b""}))),
        ("an unknown tag without a value", record(b"xx", b"")),
        ("an unknown tag with C1", record(b"\0\0", b"\xc1")),
        ("a pack list", record(b"ol", item({"e": b""}))),
        ("a block with e twice", record(b"bk", pairs(*[("e", item({"I": id}))] * 2))),
        ("a block with I twice", record(b"bk", item({"e": bytes(pairs(*[("I", id)] * 2))}))),
        ("a block with spare bytes", with_spare(block(OLD, *LIST, b"abc"), 0xFFFF)),
    ]:
        orders(title + " passed over", [old, other, new], (LIST, new))
        case(title + " passed over, newest deleted", [gone(NEW), old, other, new], (LIST, old))
        case(title + " alone", [other], (LIST, None))
    for tag in (b"bk", b"rv", b"dv", b"Vr", b"vD", b"ol", b"v\0"):
        x, y = retagged(version(GREATEST, *LIST), tag), retagged(gone(NEW), tag)
        orders("a version under tag " + tag.hex(), [old, x], (LIST, old))
        orders("a deletion under tag " + tag.hex(), [new, y], (LIST, new))


def headers():
    old, new = version(OLD, *LIST), version(NEW, *LIST)
    for spare in (1, 0x0100, 0xABCD, 0xFFFF):
        title = "bytes 28 and 29 %04x" % spare
        odd = with_spare(new, spare)
        orders(title, [old, odd], (LIST, odd))
        orders(title + " in a deletion", [old, new, with_spare(gone(NEW), spare)], (LIST, old))
    e, deletion = item(part(NEW, LIST)), item({**part(NEW, LIST), "???": BY})
    for title, more, rest in [
        ("a secondary part", {"s": [{"l": 3}]}, b"abc"),
        ("an empty secondary part", {"s": [{"l": 0}]}, b""),
        ("an empty list under s", {"s": []}, b""),
        ("c and z of the secondary part", {"s": [{"c": 1, "z": NIL, "l": 1}]}, b"a"),
        ("c and v of 0", {"c": 0, "v": 0}, b""),
        ("unknown keys", {"x": lists(15), "E": 5, Raw(b"\xa1\xff"): NIL, 7: 8}, b""),
    ]:
        made = record(b"vr", item({**more, "e": e}) + rest)
        orders("a version with " + title, [old, made], (LIST, made))
        delete = record(b"vd", item({"e": deletion, **more}) + rest)
        orders("a deletion with " + title, [old, new, delete], (LIST, old))


def both(title, given, whole=lambda e: item({"e": bytes(e)})):
    """A version and a deletion of LIST at NEW. given: the primary part of both."""
    old, new = version(OLD, *LIST), version(NEW, *LIST)
    x, y = (record(tag, whole(given)) for tag in (b"vr", b"vd"))
    orders("a version, " + title, [old, x], (LIST, x))
    orders("a deletion, " + title, [new, y], (LIST, None))
    case("both, " + title, [old, x, y], (LIST, old))


KEYS = {**part(NEW, LIST), "???": BY}


def widths():
    for k in range(4):
        form = list(every_text(b""))[k][0]
        keys = {list(every_text(key.encode()))[k][1]: x for key, x in KEYS.items()}
        both("keys in " + form, item(keys))
        texts = {key: list(every_text(x.encode()))[k][1] for key, x in KEYS.items()}
        both("texts in " + form, item(texts))
    for k in range(2):

        def wide(s):
            return sized(0xDE + k, 2 << k, s[0] - 0x80, s[1:])

        both("map in %d bits" % (16 << k), wide(item(KEYS)))
        both("header in %d bits" % (16 << k), item(KEYS), lambda e: wide(item({"e": e})))
    for k in range(3):

        def whole(e):
            return item({"e": sized(0xC4 + k, 1 << k, len(e), e)})

        both("e in %d bits" % (8 << k), item(KEYS), whole)


def keys():
    old = version(OLD, *LIST)
    for order in itertools.permutations(KEYS.items()):
        e = item({"e": bytes(pairs(*order))})
        x, y = record(b"vr", e), record(b"vd", e)
        title = "keys in the order " + " ".join(key for key, _ in order)
        case(title, [x, old], (LIST, x))
        case(title + ", deleted", [x, old, y], (LIST, old))
    for key in ("x", "I", "D", "e", 5, NIL):
        both("%s twice" % item(key).hex(), pairs((key, 1), *KEYS.items(), (key, {"b": 2})))
    # What only the other kind reads.
    new = version(NEW, *LIST)
    x = record(b"vr", item({"e": bytes(pairs(("???", 1), *KEYS.items()))}))
    orders("??? twice in a version", [old, x], (LIST, x))
    y = record(b"vd", item({"e": bytes(pairs(("d", 1), *KEYS.items(), ("d", True)))}))
    orders("d twice in a deletion", [old, new, y], (LIST, old))


def inadmissible():
    old = version(OLD, *LIST)
    packs = [
        ("an empty pack", []),
        ("a good pack", [old]),
        ("a damaged pack", [b"\x88" + old[1:]]),
        ("a cut pack", [old[:31]]),
        ("an unreadable version", [record(b"vr", b"")]),
        ("an unreadable version and a cut", [record(b"vr", b""), old[:-1]]),
    ]
    broken = [
        ("", "list"),
        ("herd", ""),
        ("", ""),
        ("b" * 64, "list"),
        ("herd", "o" * 1025),
        ("b" * 64, "o" * 1025),
        ("he/rd", "list"),
        ("/", "list"),
        ("herd/", "list"),
        ("/herd", "list"),
    ]
    for title, records in packs:
        case("names against the rules, " + title, records, *[(name, 20) for name in broken])


def by_number(faults):
    """One record for each number, the first."""
    return dict(reversed(list(faults)))


def damages(made):
    """A record under each of 3 to 8, and under two of them the lower number."""
    tag, value = made[25:27], made[32:]
    n, hashed = len(value), xxh64(value)
    yield 3, changed(made, 0, 0x88)
    yield 3, changed(made, 7, 0x0B)
    yield 3, b"\0" * 32
    yield 4, header(tag, n, hashed, version=1) + value
    yield 4, changed(made, 24, 1)
    yield 5, header(tag, n, hashed, hash_type=7) + value
    yield 5, changed(made, 27, 0)
    yield 6, changed(made, 31, made[31] ^ 1)
    yield 6, changed(made, 25, 0x43)
    yield 6, changed(made, 28, 1)
    yield 7, header(tag, 2**64 - 1, hashed) + value
    yield 7, header(tag, 2**32, hashed) + value
    yield 8, changed(made, len(made) - 1, made[-1] ^ 1)
    yield 8, header(tag, n, hashed ^ 1) + value
    yield 8, header(tag, n, 0) + value


def damaged():
    old, new = version(OLD, *LIST), version(NEW, *LIST)
    bad, other = record(b"vr", b"\xc1"), version(OLD, *PEN)
    made_of = {"version": new, "deletion": gone(NEW), "block": block(NEW, *LIST, b"abc")}
    for kind, made in made_of.items():
        for k, (number, x) in enumerate(damages(made)):
            title = "damaged %s %d, %d" % (kind, k + 1, number)
            fault = [(LIST, (number, x)), (PEN, (number, x))]
            case(title + " at the end", [old, bad, x], *fault)
            case(title + " in the middle", [bad, x, other], *fault)
        for title, number, end in [
            ("cut to 1 byte", 2, made[:1]),
            ("cut to 31 bytes", 2, made[:31]),
            ("cut to its header", 7, made[:32]),
            ("without its last byte", 7, made[:-1]),
        ]:
            case("%s %s" % (kind, title), [old, bad, end], (LIST, (number, end)))
            case("%s %s, alone" % (kind, title), [end], (LIST, (number, end)))
    case("a byte left over", [old, new, b"\0"], (LIST, (2, b"\0")))
    case("31 bytes left over", [bad, b"\x89" * 31], (LIST, (2, b"\x89" * 31)))
    firsts = by_number(damages(new))
    for a, b in itertools.permutations(firsts, 2):
        records = [old, firsts[a], bad, firsts[b]]
        case("damaged %d and later %d" % (a, b), records, (LIST, (a, firsts[a])))


def value_faults(tag, e):
    """Records of a tag under each of 9 to 15, under 22 in the header, and under 16 in what fills
    `e`. e: a right part."""

    def made(number, s):
        return number, record(tag, bytes(s))

    yield made(9, b"")
    yield made(9, b"\xc1")
    yield made(9, item({"e": e})[:-1])
    yield made(9, item({"e": e, "x": Raw(b"\xc1"), "y": lists(16)}))
    yield made(10, item({"e": e, "x": lists(16)}))
    yield made(10, item({"e": e, "x": lists(16), "y": Raw(b"\xc1")}))
    yield made(11, item({}))
    yield made(11, item([e]))
    yield made(11, item({"e": e.decode(errors="surrogateescape")}))
    yield made(11, item({"e": e, "v": Raw(b"\xff")}) + b"a")
    yield made(11, pairs(("e", e), ("e", e), ("v", NIL)))
    for key, x in [("e", e), ("s", []), ("c", 1), ("z", 1), ("v", 1)]:
        # 22 before 12, 14 and 15.
        yield made(22, pairs((key, x), ("e", e), (key, x)))
        yield made(22, pairs((key, NIL), ("e", e), (key, x)) + b"a")
    for key, x in [("l", 1), ("c", 1), ("z", NIL)]:
        yield made(22, pairs(("e", e), ("s", [pairs((key, x), ("l", 1), (key, x))])) + b"a")
    yield made(12, item({"e": e}) + b"a")
    yield made(12, item({"e": e, "v": 1, "s": [{"l": 2}]}) + b"a")
    yield made(14, item({"e": e, "v": 1}))
    yield made(14, item({"e": b"", "v": 2**64 - 1, "z": 1, "c": 1}))
    yield made(15, item({"e": e, "c": 1}))
    yield made(15, item({"e": e, "z": NIL}))
    yield made(15, item({"e": b"", "c": 2}))
    yield made(16, item({"e": b""}))
    yield made(16, item({"e": e[:-1]}))
    yield made(16, item({"e": e + b"\0"}))


def part_faults(tag, keys):
    """Records of a tag under each of 16, 17, 22 and 18. keys: those of a right primary part."""

    def made(number, e):
        return number, record(tag, item({"e": bytes(item(e))}))

    def other(number, key, x):
        return made(number, {**keys, key: x})

    yield other(16, "x", lists(16))
    yield made(17, [keys])
    yield made(17, {"I": keys})
    for key in keys:
        yield made(17, {k: x for k, x in keys.items() if k != key})
        yield other(17, key, b"bytes")
    yield made(17, {**keys, "v": "x", "o": 1})
    others = {"b": PEN[0], "o": SCAN[1], "v": GREATEST, "???": NEW}
    for key, x in keys.items():
        for first in (x, others[key], "", NIL):
            yield made(22, pairs((key, first), *keys.items()))
        for last in (others[key], ""):
            yield made(22, pairs(*keys.items(), (sized(0xD9, 1, len(key), key.encode()), last)))
        yield made(17, pairs(*keys.items(), (key, NIL)))
    for ulid in (NEW[:25] + "U", NEW.lower(), NEW[:25], "", *BEYOND):
        yield other(18, "v", ulid)
    for bucket in ("b" * 64, "he/rd", ""):
        yield other(18, "b", bucket)
    yield other(18, "o", "")
    if tag == b"vr":
        yield other(17, "d", NIL)
        yield made(17, {**keys, "v": "x", "d": 1})
        for flags in itertools.product([NIL, False, True], [False, True]):
            yield made(22, pairs(*[("d", flag) for flag in flags], *keys.items()))
    else:
        yield other(18, "???", BY[:25])
        yield other(18, "???", BY.lower())
        yield other(18, "???", BEYOND[0])


def faults(tag, name):
    """Records of a tag and a name that cannot be read, with their numbers."""
    keys = part(NEW, name) if tag == b"vr" else {**part(NEW, name), "???": BY}
    return [*value_faults(tag, item(keys)), *part_faults(tag, keys)]


def unreadable():
    old = version(OLD, *LIST)
    for tag in (b"vr", b"vd"):
        for k, (number, x) in enumerate(faults(tag, LIST)):
            title = "unreadable %s %d, %d" % (tag.decode(), k + 1, number)
            fault = [(LIST, (number, x)), (SCAN, (number, x))]
            orders(title, [x, old], *fault)
            case(title + ", between", [gone(OLD), x, old], *fault)
            passed = [old, retagged(x, b"bk"), retagged(x, b"xx")]
            case(title + ", under other tags", passed, (LIST, old))
        for k, (number, x) in enumerate(faults(tag, PEN)):
            title = "unreadable %s of another object %d, %d" % (tag.decode(), k + 1, number)
            case(title, [old, x], (LIST, (number, x)))


def two_unreadable():
    kinds = {"vr": by_number(faults(b"vr", LIST)), "vd": by_number(faults(b"vd", PEN))}
    found = [(kind, number) for kind in kinds for number in kinds[kind]]
    for (one, a), (other, b) in itertools.product(found, repeat=2):
        x, y = kinds[one][a], kinds[other][b]
        case("unreadable %s, %d, and later %s, %d" % (one, a, other, b), [x, y], (LIST, (a, x)))


# ---- packs by chance


class Chance:
    """Draws that are the same in every version of Python: XXH64 of a count."""

    def __init__(self):
        self.count = 0

    def below(self, n):
        self.count += 1
        return xxh64(self.count.to_bytes(8, "big")) % n

    def of(self, choices):
        return choices[self.below(len(choices))]


def random_record(chance):
    ulid, name = chance.of([LEAST, OLD, MIDDLE, NEW, GREATEST]), chance.of([LIST, LIST, PEN, SCAN])
    kind = chance.below(10)
    if kind < 6:
        more = chance.of([{}, {}, {"d": True}, {"d": False}])
        return version(ulid, *name, **more, D=b"%d" % chance.below(1000))
    if kind < 9:
        return gone(ulid, name)
    return chance.of([block(ulid, *name, b"abc"), record(b"xx", b"\xc1")])


def random():
    chance = Chance()
    for k in range(200):
        records = [random_record(chance) for _ in range(1 + chance.below(11))]
        add("random %d" % k, b"".join(records), [LIST, PEN, SCAN])
    for k in range(60):
        records = [random_record(chance) for _ in range(3)]
        x = chance.of(records)
        value = changed(x[32:], chance.below(len(x) - 32), chance.below(256))
        made = [record(x[25:27], value) if y is x else y for y in records]
        add("random with a byte of a value changed %d" % k, b"".join(made), [LIST])
        pack = b"".join(records)
        at = chance.below(len(pack))
        pack = changed(pack, at, pack[at] ^ 1 << chance.below(8))
        add("random with a bit changed %d" % k, pack, [LIST])


def main():
    for section in [
        deletions,
        other_deletions,
        greatest,
        twice,
        markers,
        names,
        others,
        headers,
        widths,
        keys,
        inadmissible,
        damaged,
        unreadable,
        two_unreadable,
        random,
    ]:
        section()
    stdin = four(len(inputs)) + b"".join(map(field, inputs))
    store("lookup_vectors", stdin, b"".join(outputs))


main()
