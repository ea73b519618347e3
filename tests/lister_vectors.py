#!/usr/bin/env python3
"""Runs crates/lister/out/lister on many inputs and compares what it prints with the lister of lister.py.

The inputs with a `meant` also say here what must come out, and lister.py must agree: of those the
answer does not hang on one reader alone. At the first difference the input is saved, the lines are
shown, and the exit is 1. Another program can be named: python3 tests/lister_vectors.py PROGRAM
"""
import bisect
import concurrent.futures
import itertools
import os
import pathlib
import random
import re
import select
import socket
import struct
import subprocess
import sys
import tempfile
import time

import body_vectors
from annex_c_coder import END, ESCAPE, LISTS, code, decode, encode, pack, raw
from body_vectors import BLANK, D, RATED, SAMPLES, SMALLEST, eit, event, joined, list_of, rrt, tvct
from lister import MARK, listed
from sections import EIT, KINDS, MGT, RRT, TVCT, sealed, section
from texts import made as title
from texts import BROKEN, ODD, UNREAD, packed, plain, wide

ROOT = pathlib.Path(__file__).resolve().parent.parent
RUN = [sys.argv[1] if len(sys.argv) > 1 else ROOT / "crates" / "lister" / "out" / "lister"]
FAILED = ROOT / "target" / "lister-failed.bin"
LIMIT = 10  # seconds that one run may take
ROOM = 65536  # bytes of input that the lister has room for
PID = 0x1D00

EXAMPLE = """\
guide lister
0 pid 7424 eit 7 v3 0/0 events 1
event 5 start 1000 length 1800 title "Tea"
1 pid 7424 eit 8 v3 0/0 events 0
end 2
"""

inputs = []  # (sort, bytes, the lines that are meant or None)


def add(data, meant=None):
    """`meant`: the lines between the first one and the end."""
    inputs.append((sort, data, meant))


def add_all(them):
    """Records in one input, each with its lines; `%d` in the first of them stands for the record's number."""
    add(b"".join(one for one, _ in them),
        [line % n if k == 0 else line for n, (_, lines) in enumerate(them) for k, line in enumerate(lines)])


def record(s, pid=PID, mark=MARK):
    return mark + pid.to_bytes(2, "big") + s


def whole(table_id, fields, **words):
    return section(table_id, joined(fields), **{"version": 3, **words})


def unsealed(s):
    """A wrong checksum, nothing else wrong."""
    return s[:-1] + bytes([s[-1] ^ 1])


TEA = title([plain(b"Tea")])
GOOD = record(whole(EIT, eit([event(TEA)]), extension=7))
BLANK_EIT = record(whole(EIT, eit([]), extension=8))
GOOD_LINES = ["%d pid 7424 eit 7 v3 0/0 events 1", 'event 5 start 1000 length 1800 title "Tea"']

sort = "the example of SCOPE 8.2"
add(GOOD + BLANK_EIT, EXAMPLE.splitlines()[1:-1])
add(b"", [])

# ---- whole records
sort = "refusals"
for table_id, (_, smallest, largest, most) in KINDS.items():
    body = joined(SAMPLES[table_id])
    for refusal, them in (
        (2, [section(n, body) for n in (0x00, 0xC6, 0xC9, 0xCD, 0xFF)]),
        (3, [section(table_id, body, flags=n) for n in (0x0, 0x3, 0x4, 0x7, 0x8, 0xB)]),
        (4, [section(table_id, bytes(n - 10)) for n in (10, smallest - 1, largest + 1, 4094, 4095)]),
        (6, [unsealed(section(table_id, body)), section(table_id, body)[:-4] + bytes(4)]),
        (7, [section(table_id, body, protocol=n) for n in (1, 128, 255)]),
        (8, [section(table_id, body, number=n, last=n - 1) for n in (1, 4, 255)]
            + [section(table_id, body, last=n) for n in (1, 255) if not most]),
        (9, [section(table_id, body + b"\0"), section(table_id, body[:-1]), section(table_id, body[:-5])]),
    ):
        add_all([(record(s), ["%%d refused %d" % refusal]) for s in them] + [(GOOD, GOOD_LINES)])
    add(record(section(table_id, body), 8192), ["0 refused 15"])

sort = "refusals in order"
# a section with the first faults of this list put right, one after the other: the next of them is told
WORDS = [("table_id", 0xC9, EIT), ("flags", 0x3, 0xF), ("length", 10, 11), ("seal", False, True),
         ("protocol", 1, 0), ("last", 0, 2), ("body", b"\xff", b"\0")]
ordered = []
for right, refusal in enumerate((2, 3, 4, 6, 7, 8, 9)):
    words = {name: good if k < right else bad for k, (name, bad, good) in enumerate(WORDS)}
    seal, length = words.pop("seal"), words.pop("length")
    s = section(words.pop("table_id"), words.pop("body")[:length - 10], number=2, length=length, **words)
    s = s if seal else unsealed(s)
    ordered += [(record(s, pid), ["%%d refused %d" % (refusal if pid <= 8191 else 15)]) for pid in (PID, 8191, 8192, 65535)]
add_all(ordered)

sort = "sections of 3 to 13 bytes, of every table_id"
for length in range(11):
    for flags in (0x0, 0xF):
        add(b"".join(record(bytes([n, flags << 4, length]) + bytes(length)) for n in range(256)),
            ["%d refused %d" % (n, 2 if n not in KINDS else 4 if flags else 3) for n in range(256)])

sort = "the longest sections"
for n, refusal in ((0x00, 2), (0xC9, 2), (0xFF, 2), (EIT, 4), (MGT, 4)):
    for length in (4094, 4095):
        s = bytes([n, 0xF0 | length >> 8, length & 255]) + MARK * 2047 + bytes(length - 4094)
        add_all([(record(s), ["%%d refused %d" % refusal]), (GOOD, GOOD_LINES)])

sort = "PIDs"
add_all([(record(GOOD[4:], n), ["%%d pid %d eit 7 v3 0/0 events 1" % n, GOOD_LINES[1]]) for n in (0, 1, 255, 256, 4096, 8190, 8191)])
add_all([(record(s, n), ["%d refused 15"]) for n in (8192, 8193, 0x1D00 | 0x2000, 0x4000, 0x8000, 0xFF00, 65535)
         for s in (GOOD[4:], b"\0\0\0")])

sort = "the header's fields"
for table_id, (word, _, _, most) in KINDS.items():
    tail = " events 0" if table_id == EIT else ""
    add_all([(record(whole(table_id, SMALLEST[table_id], extension=extension, version=version, current=current)),
              ["%%d pid 7424 %s %d v%d 0/0%s" % (word, extension, version, tail)])
             for extension in (0, 1, 255, 256, 0xFF01, 65535) for version in (0, 1, 9, 10, 16, 31) for current in (0, 1)])
    add_all([(record(whole(table_id, SMALLEST[table_id], number=number, last=last)),
              ["%%d pid 7424 %s 0 v3 %d/%d%s" % (word, number, last, tail)] if most else ["%d refused 8"])
             for number, last in ((0, 1), (1, 1), (3, 3), (9, 10), (99, 100), (0, 255), (255, 255))])
    # reserved bits do not matter
    add(b"".join(record(section(table_id, joined(SAMPLES[table_id], ones), reserved=ones & 3, flags=0xC | ones & 3)) for ones in range(-4, 4)))
add(b"".join(record(whole(table_id, SAMPLES[table_id])) for table_id in KINDS))

sort = "the vectors of test 9"
them = [s for _, _, s, _ in body_vectors.vectors]
for n in range(0, len(them), 100):
    add(b"".join(map(record, them[n:n + 100])))

sort = "the numbers of records"
for count in (9, 10, 11, 100, 101, 1001):
    add(BLANK_EIT * count, ["%d pid 7424 eit 8 v3 0/0 events 0" % n for n in range(count)])
add(record(b"\0\0\0") * 100010, ["%d refused 2" % n for n in range(100010)])

sort = "events"
for count in (0, 1, 2, 9, 10, 99, 100, 254, 255):
    add(record(whole(EIT, eit([event(event_id=n, start=n * n, length=n) for n in range(count)]))),
        ["0 pid 7424 eit 0 v3 0/0 events %d" % count]
        + ["event %d start %d length %d title none" % (n, n * n, n) for n in range(count)])
for event_id, start, length in ((0, 0, 0), (16383, 2**32 - 1, 2**20 - 1), (8192, 2**31, 2**19), (255, 256, 65535)):
    for ones in (0, -1):
        fields = eit([event(b"", D, event_id, start, length), event(TEA, RATED, event_id, start, length)])
        add(record(section(EIT, joined(fields, ones))),
            ["0 pid 7424 eit 0 v0 0/0 events 2"] + ["event %d start %d length %d title %s" % (event_id, start, length, shown)
                                                    for shown in ("none", '"Tea"')])

# ---- records that are cut or wrongly marked
sort = "cut records"
LARGE = record(whole(EIT, eit([event(TEA, list_of(2000))])))


def after(before, last, rest=b""):
    """Some good records, and then one that is bad, and what nobody reads."""
    add_all([(GOOD, GOOD_LINES)] * before + [(last + rest, ["%d bad record"])])


for size in range(1, len(GOOD)):
    after(0, GOOD[:size])
for before, last in ((3, GOOD), (0, record(GOOD[4:], 8192)), (1, record(GOOD[4:], 65535)), (12, record(unsealed(GOOD[4:]))),
                     (12, record(b"\xff\xff\xff" + bytes(40)))):
    for size in (1, 2, 3, 4, 5, 6, 7, 8, 20, len(last) - 4, len(last) - 1):
        after(before, last[:size])
for size in (7, 8, 1000, len(LARGE) - 4, len(LARGE) - 1):
    after(1, LARGE[:size])

sort = "wrong marks"
MARKS = [bytes([first, 0x5A]) for first in (0x00, 0x5A, 0x25, 0xA4, 0xAD, 0xFF)]
MARKS += [bytes([0xA5, second]) for second in (0x00, 0xA5, 0xDA, 0x5B, 0x52, 0xFF)] + [b"\x5a\xa5", b"\0\0"]
for mark in MARKS:
    after(0, mark)
    after(0, record(GOOD[4:], PID, mark))
    after(10, record(GOOD[4:], PID, mark), BLANK_EIT * 20)
    after(1, record(b"\0\0\0", 65535, mark), GOOD)
for last in (b"\0", b"\x5a", b"\xff", b"\n", bytes(7), b"guide lister\n", GOOD[1:]):
    add(last, ["0 bad record"])
    add(last + GOOD, ["0 bad record"])
# a section_length that is off by one puts the next mark in the wrong place
for by in (-1, 1):
    add(GOOD[:6] + bytes([GOOD[6] + by]) + GOOD[7:] + GOOD, ["0 refused 6", "1 bad record"])

# ---- titles
def titled(them, meant=None):
    """A record of events with these titles; `meant`: what is shown after `title`."""
    add(record(whole(EIT, eit([event(t) for t in them]))),
        meant and ["0 pid 7424 eit 0 v3 0/0 events %d" % len(them)]
        + ["event 5 start 1000 length 1800 title %s" % shown for shown in meant])


def units(*them):
    return 0, 0x3F, b"".join(struct.pack(">H", u) for u in them)


SHOWN = {  # what is shown: titles
    "none": [b""],
    "empty": [b"\0"],
    '""': [title([]), title([plain(b"")]), title([plain(b""), units(), plain(b"")]), title([units()]), title([], [plain(b"Tea")]),
           title([plain(b"")] * 83), title(*[[]] * 63)],
    '"Tea"': [TEA, title([wide("Tea")]), title([plain(b"T"), plain(b""), wide("e"), plain(b"a")]),
              title([plain(b"Tea")], [plain(b"th")]), title([plain(b"Tea")], []),
              # faults of the second string are not this one's
              title([plain(b"Tea")], [UNREAD]), title([plain(b"Tea")], [BROKEN]), title([plain(b"Tea")], [ODD], [UNREAD])],
    '"The next"': [title([packed(1, b"The next")]), title([plain(b"The "), wide("next")]), title([(1, 0, bytes.fromhex("4328dc84d5"))])],
    '"A story."': [title([packed(2, b"A story.")]), title([packed(1, b"A story.")])],
    '"On: The next A story.\\u03A9\\uD83D\\uDE00 end"': [
        title([plain(b"On: "), packed(1, b"The next"), wide(" "), packed(2, b"A story."), wide("Ω😀"), plain(b" end")])],
    # each segment starts with prior 0
    '"qu.u.qu.u."': [title([packed(1, b"qu."), packed(1, b"u."), packed(2, b"qu."), packed(2, b"u.")])],
    "refused 10": [title([UNREAD]), title([(0, 1, b"")]), title([(1, 0xFF, pack(encode(1, b"The next")))]), title([(2, 0x3F, b"")]),
                   title([(0, 0x40, b"ab")]), title([(0, 0x3E, b"ab")]), title([(255, 255, b"")]), title([UNREAD, BROKEN]),
                   title([plain(b"Tea"), UNREAD]), title([UNREAD], [plain(b"Tea")])],
    "refused 11": [title([ODD]), title([BROKEN]), title([(1, 0, b"")]), title([(2, 0, b"")]), title([BROKEN, UNREAD]), title([ODD, UNREAD]),
                   title([(1, 0, pack(encode(1, b"The next")) + b"\0")]), title([(1, 0, pack(encode(1, b"The next"))[:-1])]),
                   title([(2, 0, pack(encode(2, b"A story.")) + b"\xff")]), title([(1, 0, pack(raw(1, 0, 128) + "1" * 40))]),
                   title([plain(b"Tea"), packed(1, b"The next"), ODD]), title([BROKEN], [plain(b"Tea")])],
    '"\\u0022\\u005C\\u007F\\u0000\\u001F ~\\u0080\\u00FF"': [
        title([plain(b'"\\\x7f\x00\x1f ~\x80\xff')]), title([wide('"\\\x7f\x00\x1f ~\x80\xff')])],
    '"\\u0000\\uFFFF\\uFEFF\\uD800\\uDFFF\\uDBFF\\uDC00\\u0100!#[]\\u000A\\u0100\\u2022\\u205C"': [
        title([units(0, 0xFFFF, 0xFEFF, 0xD800, 0xDFFF, 0xDBFF, 0xDC00, 0x100, 33, 35, 91, 93, 10, 0x100, 0x2022, 0x205C)])],
    # raw 0 and raw 27 are characters, and so is a raw letter
    '"\\u0000\\u001B\\u007F."': [
        title([(k, 0, pack(raw(k, 0, 0) + raw(k, 0, 27) + raw(k, 27, 127) + raw(k, 127, 46) + code(k, 46, END)))]) for k in (1, 2)],
}

sort = "titles"
ALL = [(t, shown) for shown, them in SHOWN.items() for t in them]
titled([t for t, _ in ALL[::2]], [shown for _, shown in ALL[::2]])
titled([t for t, _ in ALL[1::2]], [shown for _, shown in ALL[1::2]])
titled([b"", b"\0"] * 127, ["none", "empty"] * 127)
for compression in (0, 1, 2, 3, 63, 255):  # every pair about the read ones
    for first in (0, 128):
        titled([title([(compression, mode, b"\0A")]) for mode in range(first, first + 128)])

sort = "every unit"
WIDTH = 123  # the most UTF-16 units of one title
PER = 15
for first in range(0, 65536, WIDTH * PER):
    groups = [range(n, min(n + WIDTH, 65536)) for n in range(first, min(first + WIDTH * PER, 65536), WIDTH)]
    titled([title([units(*group)]) for group in groups],
           ['"%s"' % "".join(chr(u) if 32 <= u < 127 and u not in (34, 92) else "\\u" + format(u, "04X") for u in group)
            for group in groups])
titled([title([plain(bytes(range(n, min(n + 86, 256))))]) for n in (0, 86, 172)])
for kind in (1, 2):
    titled([title([(kind, 0, pack(raw(kind, 0, c) + raw(kind, c, 46) + code(kind, 46, END)))]) for c in range(128)])


def longest(kind, size, worth):
    """A function from a number of bytes, up to `size`, to the segment whose units are worth most, and that worth.

    By the best text of each number of bits that ends at each prior; after an escape, 8 bits later, at any character
    that has codes of its own (another only leads to the next escape).
    """
    room = 8 * size
    useful = [char for char, codes in LISTS[kind].items() if set(codes.values()) != {ESCAPE}]
    raw_steps = [(char, format(char, "08b"), worth(char)) for char in useful]
    steps = {prior: [(symbol, bits, len(bits), worth(symbol)) for bits, symbol in codes.items() if symbol not in (END, ESCAPE)]
             for prior, codes in LISTS[kind].items()}
    ends = {prior: (code(kind, prior, ESCAPE), code(kind, prior, END)) for prior in LISTS[kind]}
    best = [{} for _ in range(room + 1)]  # by bits: prior: (worth, bits and prior before, bits added)
    escaped = [None] * (room + 1)  # by bits: (worth, bits and prior before, bits added), a raw character to come
    best[0][0] = (0, None, "")
    found = {}
    for used, here in enumerate(best):
        before = escaped[used - 8] if used >= 8 else None
        for char, bits, gain in raw_steps if before else ():
            if char not in here or here[char][0] < before[0] + gain:
                here[char] = (before[0] + gain, before[1], before[2] + bits)
        for prior, (value, _, _) in here.items():
            for symbol, bits, width, gain in steps[prior]:
                if used + width <= room:
                    there = best[used + width]
                    if symbol not in there or there[symbol][0] < value + gain:
                        there[symbol] = (value + gain, (used, prior), bits)
            escape, end = ends[prior]
            at = used + len(escape)
            if at <= room and (not escaped[at] or escaped[at][0] < value):
                escaped[at] = (value, (used, prior), escape)
            n = -(-(used + len(end)) // 8) if end else size + 1
            if n <= size and (n not in found or found[n][0] < value):
                found[n] = (value, (used, prior), end)

    def text(n):
        value, before, bits = found[n]
        while before:
            _, before, add = best[before[0]][before[1]]
            bits = add + bits
        return value, (kind, 0, pack(bits))

    return text


def printed(char):
    return 1 if 32 <= char <= 126 and chr(char) not in '"\\' else 6


sort = "the longest titles"
SEGMENT = 247  # bytes: the longest in a title, of one segment
by_units = [longest(kind, SEGMENT, lambda char: 1)(SEGMENT) for kind in (1, 2)]
assert [n for n, _ in by_units] == [987, 983]
for n, segment in by_units:
    assert len(segment[2]) == SEGMENT and len(decode(segment[0], segment[2])) == n
by_print = longest(2, SEGMENT, printed)
LONGEST = [by_units[0][1], by_units[1][1], by_print(SEGMENT)[1], plain(b"x" * SEGMENT), plain(b'"' * SEGMENT), plain(b"\xff" * SEGMENT),
           units(*[0xFFFF] * WIDTH), units(*[65] * WIDTH), (0, 0x3F, b"\xff" * SEGMENT), BROKEN[:2] + (b"\xaa" * SEGMENT,)]
for segment in LONGEST:
    titled([title([segment])] * 15)
titled([title([segment]) for segment in LONGEST])
titled([title([plain(b"ab")] * 50)], ['"%s"' % ("ab" * 50)])
titled([title([packed(1, b"A.")] * 31), title([packed(2, b"A.")] * 31)], ['"%s"' % ("A." * 31)] * 2)

# The most that one record can print. Of the pairs, type 2 prints most a byte (a quotation mark is six characters, and its
# code after a comma has two bits), and each event costs 20 bytes besides its segment: so as few events as can be, 16. These
# sizes are the best found by trying all.
sort = "the longest output"
SIZES = [255] * 10 + [249] * 5 + [95]
FULL = [event(title([by_print(size - 8)[1]]), b"", 16383, 2**32 - 1, 2**20 - 1) for size in SIZES]
s = whole(EIT, eit(FULL), extension=65535, version=31, number=255, last=255)
assert len(s) == 4096
longest_record = record(s, 8191)
add(longest_record)
add(longest_record * 3 + GOOD)
assert sum(len(line) + 1 for line in listed(longest_record).decode().splitlines()[2:-1]) == 30896
add(record(whole(EIT, eit([event(title([plain(b"\xff" * SEGMENT)]), b"", 16383, 2**32 - 1, 2**20 - 1)] * 15))))
add(record(whole(EIT, eit([event(b"\0", b"", 16383, 2**32 - 1, 2**20 - 1)] * 255))))
add(record(whole(EIT, eit([event(title([UNREAD[:2] + (b"",)]), b"", 16383, 2**32 - 1, 2**20 - 1)] * 204))))

# ---- chance
sort = "chance"
chance = random.Random(0xA55A)
POOL = [whole(table_id, fields[table_id], extension=chance.getrandbits(16), version=chance.getrandbits(5))
        for fields in (SMALLEST, SAMPLES) for table_id in KINDS]
POOL += [whole(EIT, eit([event(t, chance.choice([b"", D, RATED]), chance.getrandbits(14), chance.getrandbits(32), chance.getrandbits(20))
                         for t in chance.sample([t for t, _ in ALL], count)]), number=count, last=chance.randrange(count, 256))
         for count in (1, 1, 1, 1, 2, 2, 2, 3, 3, 4)]
POOL += [whole(RRT, rrt(TEA, [BLANK] * 3, D)), whole(TVCT, tvct([], D), last=7)]


def flipped(data, first=0):
    """With one to three bits flipped, in bytes from `first` on."""
    out = bytearray(data)
    for _ in range(chance.randrange(1, 4)):
        bit = chance.randrange(8 * first, 8 * len(out))
        out[bit // 8] ^= 1 << bit % 8
    return bytes(out)


def any_record():
    s = chance.choice(POOL)
    pid = chance.choice((PID, 0, 8191, chance.getrandbits(13), chance.getrandbits(16)))
    sort = chance.randrange(10)
    if sort == 0:  # any damage, to the mark and the lengths too
        return flipped(record(s, pid))
    if sort == 1:  # damage that keeps the record's length
        return record(flipped(s, 3), pid)
    if sort < 5:  # damage under a right checksum
        return record(sealed(flipped(s[:-4], 3)), pid)
    if sort == 5:  # a title or a list of anything
        body = eit([event(bytes(chance.choice((0, 1, 2, 65, 255)) for _ in range(chance.randrange(12)))), event(TEA)])
        return record(whole(EIT, body), pid)
    return record(s, pid)


for _ in range(150):
    stream = b"".join(any_record() for _ in range(chance.randrange(1, 13)))
    if chance.randrange(4) == 0:
        stream = stream[:chance.randrange(len(stream))]
    add(stream)
for _ in range(30):
    add(b"".join(chance.choice((MARK, b"\x1d\0", b"\xcb\xf0\x0b", b"\0", b"\xa5", b"\x5a")) for _ in range(chance.randrange(20))))


# ---- the runs
def failed(what, data, meant, found):
    FAILED.parent.mkdir(exist_ok=True)
    FAILED.write_bytes(data)
    print("FAILED lister: %s; the input is in %s" % (what, FAILED))
    meant, found = meant.splitlines(), found.splitlines()
    k = next((k for k in range(len(meant)) if meant[k:k + 1] != found[k:k + 1]), len(meant))
    for name, lines in ("expected", meant), ("found", found):
        print("%s, from line %d of %d: %s" % (name, k + 1, len(lines), [line[:200] for line in lines[k:k + 3]]))
    sys.exit(1)


def compared(vector):
    """None, or what is wrong: the words for `failed`."""
    sort, data, meant = vector
    expected = listed(data)
    if meant is not None:
        lines = ["guide lister", *meant]
        lines.append("end %d" % sum(line[0].isdigit() and not line.endswith("bad record") for line in meant))
        assert expected == "".join(line + "\n" for line in lines).encode(), (sort, meant[:3], expected[:300])
    try:
        run = subprocess.run(RUN, input=data, capture_output=True, timeout=LIMIT)
    except subprocess.TimeoutExpired as late:
        return sort + ": not done in %d seconds" % LIMIT, data, expected, late.stdout or b""
    if run.stdout != expected:
        return sort, data, expected, run.stdout
    if run.returncode or run.stderr:
        return "%s: exit %d, errors %r" % (sort, run.returncode, run.stderr), data, expected, run.stdout
    return None


def left_unread(data):
    """From a file no more is read past a bad record than the lister has room for."""
    assert len(data) > ROOM
    with tempfile.TemporaryFile() as file:
        file.write(data)
        file.seek(0)
        run = subprocess.run(RUN, stdin=file, capture_output=True, timeout=LIMIT)
        at = os.lseek(file.fileno(), 0, os.SEEK_CUR)
    if run.stdout != listed(data):
        failed("from a file", data, listed(data), run.stdout)
    if at > ROOM:
        failed("%d bytes were read" % at, data, b"", b"")


def unreadable(stdin, words, **how):
    """Input that cannot be read: a bad record, and one line of words about it."""
    run = subprocess.run(RUN, stdin=stdin, capture_output=True, timeout=LIMIT, **how)
    meant = b"guide lister\n0 bad record\nend 0\n"
    if run.stdout != meant or run.returncode:
        failed("input that cannot be read", b"", meant, run.stdout)
    if run.stderr != words:
        failed("the words on input that cannot be read", b"", words, run.stderr)


def broken_off(data, seen, rest):
    """A connection that is reset when `seen` came out of `data`; `rest`: what comes then."""
    with socket.create_server(("127.0.0.1", 0)) as server:
        ours = socket.create_connection(server.getsockname())
        theirs, _ = server.accept()
    with theirs:
        run = subprocess.Popen(RUN, stdin=theirs, stdout=subprocess.PIPE, stderr=subprocess.PIPE, bufsize=0)
    try:
        ours.sendall(data)
        found = heard(run.stdout, len(seen), time.monotonic() + LIMIT)
        ours.setsockopt(socket.SOL_SOCKET, socket.SO_LINGER, struct.pack("ii", 1, 0))
        ours.close()
        out, words = run.communicate(timeout=LIMIT)
        if found + out != seen + rest or run.returncode:
            failed("a connection that is reset", data, seen + rest, found + out)
        if words != b"lister: cannot read the input: Connection reset by peer\n":
            failed("the words on a connection that is reset", data, b"", words)
    finally:
        run.kill()
        run.wait()


def unwritable(stdout, status, **how):
    """Where the output takes no more the lister ends, though the input goes on."""
    ours, theirs = os.pipe()
    run = subprocess.Popen(RUN, stdin=ours, stdout=stdout, stderr=subprocess.PIPE, **how)
    os.close(ours)
    try:
        _, words = run.communicate(timeout=LIMIT)
        if run.returncode != status or words:
            failed("an output that takes no more: exit %d, errors %r" % (run.returncode, words), b"", b"", b"")
    finally:
        os.close(theirs)
        run.kill()
        run.wait()


def no_reader():
    """A pipe that nobody reads."""
    ours, theirs = os.pipe()
    os.close(ours)
    return theirs


def heard(pipe, n, until):
    """What comes out, up to n bytes."""
    out = b""
    while len(out) < n and select.select([pipe], [], [], max(0, until - time.monotonic()))[0]:
        piece = os.read(pipe.fileno(), n - len(out))
        if not piece:
            break
        out += piece
    return out


def answered(them, piece):
    """Records that come in pieces of so many bytes: what is whole is answered before more is sent."""
    until = time.monotonic() + LIMIT
    stream, ends = b"".join(them), list(itertools.accumulate(map(len, them)))
    whole_output = listed(stream)
    # where the lines of each record begin, and the last line
    lines = [m.start() for m in re.finditer(rb"^(?=\d|end)", whole_output, re.M)]
    seen = b""
    run = subprocess.Popen(RUN, stdin=subprocess.PIPE, stdout=subprocess.PIPE, bufsize=0)
    try:
        for start in range(-piece, len(stream), piece):
            run.stdin.write(stream[max(start, 0):start + piece])
            sent = min(start + piece, len(stream))
            meant = whole_output[:lines[bisect.bisect_right(ends, sent)]]
            seen += heard(run.stdout, len(meant) - len(seen), until)
            if seen != meant:
                failed("a record is not answered as it comes", stream[:sent], meant, seen)
        run.stdin.close()
        seen += heard(run.stdout, 100, until)
        if seen != whole_output or run.wait(LIMIT):
            failed("from a slow pipe", stream, whole_output, seen)
    finally:
        run.kill()
        run.wait()


def main():
    if not os.path.exists(RUN[0]):
        sys.exit("FAILED lister: there is no %s" % RUN[0])
    with concurrent.futures.ThreadPoolExecutor(os.cpu_count()) as pool:
        for wrong in pool.map(compared, inputs):
            if wrong:
                pool.shutdown(wait=False, cancel_futures=True)
                failed(*wrong)
    left_unread(GOOD + b"\xa5\x5b" + GOOD[2:] + GOOD * 5000)
    left_unread(b"\0" + GOOD * 5000)
    slow = [GOOD, record(b"\0\0\0"), BLANK_EIT, GOOD]
    sizes = range(1, len(GOOD) + 20)
    with concurrent.futures.ThreadPoolExecutor(os.cpu_count()) as pool:
        list(pool.map(lambda size: answered(slow, size), sizes))
    for size in (1000, 4096, 5000):
        answered([GOOD, BLANK_EIT, record(b"\0\0\0"), longest_record, GOOD] * 20, size)
    unreadable(os.open("/", os.O_RDONLY), b"lister: cannot read the input: Is a directory\n")
    unreadable(os.open("/dev/null", os.O_WRONLY), b"lister: cannot read the input: Bad file descriptor\n")
    unreadable(None, b"lister: cannot read the input: Bad file descriptor\n", preexec_fn=lambda: os.close(0))
    lines = ("guide lister\n" + GOOD_LINES[0] % 0 + "\n" + GOOD_LINES[1] + "\n").encode()
    broken_off(GOOD, lines, b"1 bad record\nend 1\n")
    broken_off(GOOD + GOOD[:20], lines, b"1 bad record\nend 1\n")
    # a program of the kit ignores SIGPIPE from its start on, whatever it was started with
    unwritable(no_reader(), 0)
    unwritable(no_reader(), 0, restore_signals=False)
    unwritable(os.open("/dev/full", os.O_WRONLY), 0)
    sorts = dict.fromkeys(sort for sort, _, _ in inputs)
    print("%d inputs of %d sorts, %d bytes; 2 more from files, %d from slow pipes, 5 that cannot be read, 3 outputs that take no more"
          % (len(inputs), len(sorts), sum(len(data) for _, data, _ in inputs), len(sizes) + 3))


main()
