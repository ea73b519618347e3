"""Vectors for the fields of the five tables and for the rating question, with the answers.

test_reading.py writes them out. The answers come from the reader in tables.py, from SCOPE 2
and 3 and from nothing of the library; where a vector says what its answer is meant to be, the
reader must agree. The high four bits of an op are the table's (ORDER), and its low four bits ask for
  1  the table's own fields
  2  entry a: an event, a table, a channel, a dimension
  3  the rows of all entries, in a lent list of a numbers that are 7 before; of an RRT instead
     value b of dimension a, and by 4 the rows of all dimensions, by 5 those of all values
  4  the rating of event a for region b and dimension c
  5  descriptor b of event a
  6  the advisory text of event a for region b
Texts and descriptor lists are answered by the offset of their first byte and their length. After
the answer for rows stands the whole list.
"""
import random

from body_vectors import (D, TEA, TWO, advisory, descriptor, list_of, region, string, strings,
                          text_of)
from sections import EIT, ETT, MGT, RRT, TVCT, Refused, section, spoiled
from tables import ADVISORY, advisory_text, entry, first_advisory, read, read_descriptors

ORDER = (EIT, ETT, MGT, TVCT, RRT)  # by the high four bits of an op
ASKED = {EIT: (1, 2, 3, 4, 5, 6), ETT: (1,), MGT: (1, 2, 3), TVCT: (1, 2, 3),
         RRT: (1, 2, 3, 4, 5)}
ROWS = {(EIT, 3), (MGT, 3), (TVCT, 3), (RRT, 4), (RRT, 5)}  # what is answered in a lent list
FAR = 2**64 - 1


# ---- the answers
def spaced(numbers):
    return " ".join(map(str, numbers))


def event_answer(s, event):
    start, length = event[4:6]
    title = "text %d %d" % (start, length)
    if length == 0:
        title = "none"
    elif length == 1 and s[start] == 0:
        title = "empty"
    return "%s %s %s" % (spaced(event[:4]), title, spaced(event[6:]))


def rows_of(kind, asked, entries):
    """The rows of all entries; of an RRT those of its dimensions or of their values."""
    if kind != RRT:
        return entries
    if asked == 4:
        return [one[:4] for one in entries]
    return [[i, j, *texts] for i, one in enumerate(entries) for j, texts in enumerate(one[4])]


def rows_answer(rows, lent):
    numbers = sum(rows, [])
    if len(lent) < len(numbers):
        raise Refused(12)
    lent[:len(numbers)] = numbers
    return "rows %d" % len(rows)


def rating_answer(regions, region, dimension):
    if regions is None:
        return "no advisory"
    found = [pairs for number, pairs, _ in regions if number == region]
    if not found:
        return "region absent"
    values = [value for number, value in found[0] if number == dimension]
    return "value %d" % values[0] if values else "dimension absent"


def answer(op, a, b, c, s, lent):
    kind, asked = ORDER[op >> 4], op & 15
    fields, entries = read(s, kind)
    if asked == 1:
        return spaced(fields)
    if (kind, asked) in ROWS:
        return rows_answer(rows_of(kind, asked, entries), lent)
    one = entry(entries, a)
    if kind == RRT:
        return spaced(one[:4] if asked == 2 else entry(one[4], b))
    if kind != EIT:
        return spaced(one)
    if asked == 2:
        return event_answer(s, one)
    if asked == 4:
        return rating_answer(first_advisory(s, one), b, c)
    if asked == 5:
        return spaced(entry(read_descriptors(s, *one[6:]), b))
    return spaced(advisory_text(first_advisory(s, one), b))


vectors = []  # (op, numbers, bytes, answer)


def add(kind, asked, s, a=0, b=0, c=0, meant=""):
    """`meant`: the words that the answer is to begin with."""
    op = ORDER.index(kind) << 4 | asked
    rows = (kind, asked) in ROWS
    lent = [7] * a if rows else []
    try:
        said = answer(op, a, b, c, s, lent)
    except Refused as refused:
        said = "refused %d" % refused.args
    assert said.split()[:len(meant.split())] == meant.split(), (op, a, b, c, meant, said, s.hex())
    vectors.append((op, (a, b, c), s, said + ":" * rows + "".join(" %d" % n for n in lent)))


# ---- the builder: fields are strings of bits
# the widths of an entry's fields before its lengths; those of reserved bits are negative
EVENT = [-2, 14, 32, -2, 2, 20]
TABLE = [16, -3, 13, -3, 5, 32]
CHANNEL = [16] * 7 + [-4, 10, 10, 8, 32, 16, 16, 2, 1, 1, 6, 6, 16]
ROW = {EIT: 8, MGT: 6, TVCT: 21}  # numbers in the row of an entry


def bits(n, width):
    return format(n, "0%db" % width)


def raw(data):
    return "".join(bits(byte, 8) for byte in data)


def sized(width, data, reserved=""):
    return reserved + bits(len(data), width) + raw(data)


def packed(kind, *fields, **words):
    body = "".join(fields)
    return section(kind, int(body, 2).to_bytes(len(body) // 8, "big"), **words)


def event(head, r, d=b"", title=b""):
    return head + sized(8, title) + sized(12, d, r * 4)


def table(head, r, d=b""):
    return head + sized(12, d, r * 4)


def channel(head, r, d=b""):
    return head + sized(10, d, r * 6)


def eit(events, **words):
    return packed(EIT, bits(len(events), 8), *events, **words)


def ett(etm_id, text, **words):
    return packed(ETT, etm_id, raw(text), **words)


def mgt(tables, d=b"", r="1", **words):
    return packed(MGT, bits(len(tables), 16), *tables, sized(12, d, r * 4), **words)


def tvct(channels, d=b"", r="1", **words):
    return packed(TVCT, bits(len(channels), 8), *channels, sized(10, d, r * 6), **words)


def value(short=b"", long=b""):
    return sized(8, short) + sized(8, long)


def dimension(name, values, scale="0", r="1"):
    return sized(8, name) + r * 3 + scale + bits(len(values), 4) + "".join(values)


def rrt(name, dimensions, d=b"", r="1", **words):
    return packed(RRT, sized(8, name), bits(len(dimensions), 8), *dimensions,
                  sized(10, d, r * 6), **words)


BUILT = {EIT: (EVENT, event, eit), MGT: (TABLE, table, mgt), TVCT: (CHANNEL, channel, tvct)}


def inverse(bit):
    return "10"[int(bit)]


def patterns(width):
    """All ones, all zeros, alternating bits, between the inverses of their first and last bit."""
    for pair in ("11", "00", "01", "10") if width > 1 else "10":
        field = (pair * width)[:width]
        yield inverse(field[0]), field, inverse(field[-1])


def filled(kind, bit):
    """The fields of an entry before its lengths, every bit of them the same."""
    return bit * sum(map(abs, BUILT[kind][0]))


def entry_patterns(kind):
    """The same fields, with each of them at each pattern; every bit before the field is the inverse
    of its first one, and every bit after it of its last one."""
    for k, width in enumerate(BUILT[kind][0]):
        if width > 0:
            at = sum(map(abs, BUILT[kind][0][:k]))
            for before, field, after in patterns(width):
                yield before, before * at + field + filled(kind, after)[at + width:], after


def numbers(kind, head):
    """The answer that these fields are meant to have."""
    out = []
    for width in BUILT[kind][0]:
        if width > 0:
            out.append(int(head[:width], 2))
        head = head[abs(width):]
    return spaced(out)


# ---- the fields of events, tables and channels, in the middle one of three
for kind, (_, build, whole) in BUILT.items():
    for before, head, after in entry_patterns(kind):
        s = whole([build(filled(kind, before), before, D), build(head, after, D),
                   build(filled(kind, after), after)])
        add(kind, 2, s, 1, meant=numbers(kind, head))
        add(kind, 3, s, 3 * ROW[kind], meant="rows 3")

# ---- extensions, and the ETT's own field before a text of 255 strings or of one
for _, field, after in patterns(16):
    n = int(after)
    words = {"extension": int(field, 2), "reserved": 3 * n, "version": 31 * n, "current": n}
    add(EIT, 1, eit([event(filled(EIT, after), after)], **words), meant="%d 1" % int(field, 2))
    add(ETT, 1, ett(after * 32, TEA, **words),
        meant="%d %d 13 11" % (int(field, 2), int(after * 32, 2)))
    add(TVCT, 1, tvct([], **words), meant="%d 0 12 0" % int(field, 2))
    for low in (field[8:], after * 8):
        words["extension"] = int(field[:8] + low, 2)
        add(RRT, 1, rrt(TEA, [dimension(b"", [value()])], **words),
            meant="%d %d 10 11 1" % (words["extension"], int(low, 2)))
for _, field, after in patterns(32):
    text = b"\xff" + b"\xff\xff\xff\0" * 255 if after == "1" else TEA
    add(ETT, 1, ett(field, text), meant="0 %d 13 %d" % (int(field, 2), len(text)))
for text in (b"\0", b"\1eng\0", TWO, strings(string(*[bytes(255)] * 15, bytes(201)))):
    add(ETT, 1, ett("10" * 16, text), meant="0 %d 13 %d" % (0xAAAAAAAA, len(text)))

# ---- counts; the first entry's bits are the inverse of the count's last one
COUNTS = {EIT: (0, 1, 85, 170, 255), MGT: (0, 1, 256, 341, 370), TVCT: (0, 1, 10, 21, 31)}
for kind, (_, build, whole) in BUILT.items():
    for count in COUNTS[kind]:
        bit = "10"[count % 2]
        s = whole([build(filled(kind, bit), bit)] * count)
        add(kind, 1, s)
        if count:
            add(kind, 2, s, count - 1, meant=numbers(kind, filled(kind, bit)))
        add(kind, 2, s, count, meant="refused 13")
    add(kind, 3, s, ROW[kind] * count, meant="rows %d" % count)
    add(kind, 3, s, ROW[kind] * count - 1, meant="refused 12")
    for room in (0, 5):
        add(kind, 3, whole([]), room, meant="rows 0")

# ---- lengths of descriptor lists: reserved bits and length alternate, or the longest list
LENGTHS = {EIT: (0x555, 0xAAA, 4070), MGT: (0x555, 0xAAA, 4068), TVCT: (0x155, 0x2AA, 976)}
for kind, (_, build, whole) in BUILT.items():
    for r, length in zip("100", LENGTHS[kind]):
        add(kind, 2, whole([build(filled(kind, inverse(r)), r, list_of(length))]))
BLANK = dimension(b"", [value()])
for r, length in zip("0100", (2, 0x555, 0xAAA, 4079)):
    add(MGT, 1, mgt([], list_of(length), r), meant="0 13 %d" % length)
for r, length in zip("0100", (2, 0x155, 0x2AA, 1003)):
    add(TVCT, 1, tvct([], list_of(length), r), meant="0 0 12 %d" % length)
    add(RRT, 1, rrt(b"", [BLANK], list_of(length), r), meant="0 0 10 0 1 17 %d" % length)

# ---- descriptors of every sort; outside of an EIT no advisory is looked into
tags = [descriptor(tag, bytes(length)) for tag, length in
        ((0, 0), (255, 255), (0x86, 0x55), (0x55, 0xAA), (0xAA, 1), (0x88, 0x87))]
s = eit([event(filled(EIT, "0"), "1", D), event(filled(EIT, "1"), "0", b"".join(tags)),
         event(filled(EIT, "0"), "1", D)])
for b, one in enumerate(tags):
    add(EIT, 5, s, 1, b, meant=str(one[0]))
for a, b in (1, 6), (1, 256), (1, FAR), (0, 1), (2, 1), (3, 0), (FAR, 0), (FAR, FAR):
    add(EIT, 5, s, a, b, meant="refused 13")
for a in (0, 2):
    add(EIT, 5, s, a, 0, meant="128")
cut = descriptor(ADVISORY, b"")
add(MGT, 1, mgt([], cut), meant="0 13 2")
add(TVCT, 1, tvct([], cut), meant="0 0 12 2")
add(RRT, 1, rrt(b"", [BLANK], cut), meant="0 0 10 0 1 17 2")

# ---- titles
TITLES = {b"": "none", b"\0": "empty", b"\1eng\0": "text 36 5", TEA: "text 36 11",
          TWO: "text 36 20", text_of(0x55): "text 36 85", text_of(0xAA): "text 36 170",
          text_of(255): "text 36 255"}
for title, meant in TITLES.items():
    for bit in "01":
        head = filled(EIT, bit)
        s = eit([event(head, bit, D), event(head, inverse(bit), D, title),
                 event(head, bit, b"", b"\0")])
        add(EIT, 2, s, 1, meant="%s %s %d 4" % (numbers(EIT, head), meant, 38 + len(title)))
        add(EIT, 2, s, 2, meant="%s empty" % numbers(EIT, head))
    add(EIT, 3, s, 24, meant="rows 3")

# ---- dimensions of a rating table and their values
def add_values(s, count):
    """The rows of all values, of which there are so many, with room for them and one number less."""
    add(RRT, 5, s, 6 * count, meant="rows %d" % count)
    add(RRT, 5, s, 6 * count - 1, meant="refused 12")


for values in (1, 5, 10, 15):
    for scale in "01":
        for r in "01":
            others = inverse(scale), inverse(r)
            s = rrt(TEA, [dimension(TEA, [value()] * 8, *others),
                          dimension(TWO, [value(TEA, b"\0")] * values, scale, r),
                          dimension(b"", [value()] * 15, *others)])
            add(RRT, 2, s, 1, meant="52 20 %s %d" % (scale, values))
            add(RRT, 4, s, 12, meant="rows 3")
    add_values(s, 23 + values)
    add(RRT, 3, s, 1, values - 1)
    add(RRT, 3, s, 1, values, meant="refused 13")
for count in (1, 0x55, 0xAA, 251):
    s = rrt(b"", [dimension(b"", [value()], "10"[n % 2]) for n in range(count)])
    add(RRT, 1, s, meant="0 0 10 0 %d %d 0" % (count, 13 + 4 * count))
    add(RRT, 2, s, count - 1, meant="%d 0 %d 1" % (8 + 4 * count, count % 2))
    add(RRT, 3, s, count - 1, meant="%d 0 %d 0" % (10 + 4 * count, 11 + 4 * count))
    add(RRT, 2, s, count, meant="refused 13")
    add(RRT, 4, s, 4 * count, meant="rows %d" % count)
    add(RRT, 4, s, 4 * count - 1, meant="refused 12")
    add_values(s, count)
add_values(rrt(b"", [dimension(b"", [value()] * n) for n in [15] * 31 + [6]]), 471)
for text in (b"", b"\0", b"\1eng\0", text_of(0x55), text_of(0xAA), text_of(255)):
    n = len(text)
    s = rrt(text, [BLANK, dimension(b"", [value(b"", TEA), value(TEA)])], extension=0xFF01)
    add(RRT, 1, s, meant="65281 1 10 %d 2" % n)
    add(RRT, 3, s, 1, 1, meant="%d 11 %d 0" % (n + 31, n + 43))
    add(RRT, 4, s, 8, meant="rows 2")
    add_values(s, 3)
    s = rrt(b"", [BLANK, dimension(text, [value()])])
    add(RRT, 2, s, 1, meant="16 %d 0 1" % n)
    add(RRT, 4, s, 8, meant="rows 2")
    s = rrt(b"", [dimension(b"", [value(text, TEA), value(TEA, text), value()])])
    add(RRT, 3, s, 0, 0, meant="14 %d %d 11" % (n, n + 15))
    add(RRT, 3, s, 0, 1, meant="%d 11 %d %d" % (n + 27, n + 39, n))
    add(RRT, 3, s, 0, 2, meant="%d 0 %d 0" % (2 * n + 40, 2 * n + 41))
    add_values(s, 3)
s = rrt(TEA, [dimension(b"", [value(TEA)] * 2), dimension(TEA, [value(b"", TEA)] * 5, "1"),
              dimension(b"\0", [value()])], D)
for a, count in enumerate((2, 5, 1)):
    for b in (0, count - 1, count, count + 1, 16, 256, FAR):
        add(RRT, 3, s, a, b, meant="refused 13" if b >= count else "")
for a in (3, 256, FAR):
    for b in (0, FAR):
        add(RRT, 3, s, a, b, meant="refused 13")

# ---- ratings: descriptor lists, and the answers meant for some of their questions
PLAIN = advisory(region(1, [(0, 3), (1, 4)], TEA))
NO, NO_REGION, NO_DIMENSION = "no advisory", "region absent", "dimension absent"
RATINGS = [
    (b"", {(1, 0): NO, (FAR, FAR): NO}),
    (D, {(1, 0): NO, (256, 0): NO}),
    (descriptor(0x86, PLAIN[2:]) + descriptor(0x88, PLAIN[2:]) + descriptor(0x07, PLAIN),
     {(1, 0): NO}),
    (advisory(), {(0, 0): NO_REGION, (1, 0): NO_REGION}),
    (advisory(r=0) + PLAIN, {(1, 0): NO_REGION, (1, 2): NO_REGION}),
    (advisory(region(1, [])) + PLAIN, {(1, 0): NO_DIMENSION, (2, 0): NO_REGION}),
    (advisory(region(1, [], TEA), region(1, [(0, 5)]), region(0, [(0, 6)])),
     {(1, 0): NO_DIMENSION, (0, 0): "value 6", (0, 1): NO_DIMENSION}),
    (D + PLAIN + advisory(region(1, [(0, 9), (2, 8)]), region(2, [(0, 7)])),
     {(1, 0): "value 3", (1, 1): "value 4", (1, 2): NO_DIMENSION, (2, 0): NO_REGION,
      (257, 0): NO_REGION, (1, 256): NO_DIMENSION, (1, 257): NO_DIMENSION}),
    (advisory(region(1, [(2, 5), (0, 0), (1, 15), (0, 15), (1, 0), (2, 10)], b"\0"),
              region(2, [(0, 15)]), region(1, [(0, 1), (3, 2)]), region(2, [(0, 0), (1, 1)]),
              r=0) + D,
     {(1, 0): "value 0", (1, 1): "value 15", (1, 2): "value 5", (1, 3): NO_DIMENSION,
      (2, 0): "value 15", (2, 1): NO_DIMENSION, (3, 0): NO_REGION}),
    (advisory(region(255, [(255, 0), (0, 15), (255, 8)], TWO),
              region(0, [(0, 15), (1, 0), (255, 10)])),
     {(255, 255): "value 0", (255, 0): "value 15", (255, 1): NO_DIMENSION, (0, 0): "value 15",
      (0, 1): "value 0", (0, 255): "value 10", (FAR, FAR): NO_REGION, (255, FAR): NO_DIMENSION,
      (256, 0): NO_REGION, (0, 256): NO_DIMENSION}),
    (descriptor(0, b"\x87\1\0")
     + advisory(region(3, [(1, 1)], b"\1eng\1\0\0\5\1\1\0\xf2\0"), region(1, [(0, 2)])),
     {(1, 0): "value 2", (3, 1): "value 1", (3, 0): NO_DIMENSION, (0, 0): NO_REGION}),
]
QUESTIONS = [(0, 0), (0, 1), (0, 255), (1, 0), (1, 1), (1, 255), (1, 256), (1, FAR), (255, 0),
             (255, 255), (255, 256), (256, 0), (FAR, 0)]


def rated(d):
    """An EIT in which the event of this list is between two others that are rated otherwise."""
    before = advisory(region(1, [(0, 14), (7, 13)], TEA))
    after = advisory(region(1, [(0, 12), (8, 11)]), region(9, []))
    return eit([event(filled(EIT, "0"), "1", before),
                event(filled(EIT, "1"), "0", d, b"\1\x87\x87\x87\0"),
                event(filled(EIT, "0"), "1", after)])


for d, meant in RATINGS:
    s = rated(d)
    for b, c in dict.fromkeys([*meant, *QUESTIONS]):
        add(EIT, 4, s, 1, b, c, meant=meant.get((b, c), ""))
    for b in (0, 1, 255, 256, FAR):
        add(EIT, 6, s, 1, b)
    for b in (0, 1):
        add(EIT, 5, s, 1, b)
for a, c, meant in ((0, 0, "value 14"), (0, 7, "value 13"), (0, 8, NO_DIMENSION),
                    (2, 0, "value 12"), (2, 8, "value 11"), (2, 7, NO_DIMENSION),
                    (3, 0, "refused 13"), (256, 0, "refused 13"), (FAR, FAR, "refused 13")):
    add(EIT, 4, s, a, 1, c, meant=meant)
    add(EIT, 6, s, a, 1, meant="refused 13" if a > 2 else "")
s = rated(advisory(region(1, [(n, n % 16) for n in range(125)])))
for c in (*range(16), 124, 125):
    add(EIT, 4, s, 1, 1, c, meant="value %d" % (c % 16) if c < 125 else NO_DIMENSION)
s = rated(advisory(*[region(4 * n, [(n, n % 16)] * (n % 2)) for n in range(63)]))
for n in (0, 1, 2, 31, 61, 62, 63):
    present = "value %d" % (n % 16) if n % 2 else NO_DIMENSION
    add(EIT, 4, s, 1, 4 * n, n, meant=present if n < 63 else NO_REGION)
    add(EIT, 6, s, 1, 4 * n, meant="" if n < 63 else "refused 13")
for text in (b"", b"\0", TEA, text_of(0x55), text_of(0xAA), text_of(248)):
    s = rated(advisory(region(5, [(0, 1)], text)) + PLAIN)
    add(EIT, 4, s, 1, 5, 0, meant="value 1")
    add(EIT, 6, s, 1, 5, meant="68 %d" % len(text))
for a in (0, 1, 2, 3):  # every advisory is judged, not only the one that answers
    for asked in (4, 5, 6):
        add(EIT, asked, rated(PLAIN + cut), a, 1, meant="refused 9")

# ---- entries and rows: the first, the last, past the last, room of every sort
SAMPLES = {
    EIT: eit([event("10" * 36, "1", D + PLAIN, TEA), event("01" * 36, "0", PLAIN, b"\0"),
              event("10" * 36, "1")]),
    ETT: ett("01" * 16, TEA, extension=0x5AA5),
    MGT: mgt([table("10" * 36, "1", D), table("01" * 36, "0"), table("10" * 36, "1", D)], D),
    TVCT: tvct([channel("10" * 120, "1", D), channel("01" * 120, "0"),
                channel("10" * 120, "1", D)], D),
    RRT: rrt(TEA, [dimension(TEA, [value(TEA, TEA), value()], "1"),
                   dimension(b"", [value()] * 4), BLANK], D),
}
for kind, s in SAMPLES.items():
    if kind != ETT:
        for a in (0, 1, 2, 3, 255, 256, 2**32, FAR):
            add(kind, 2, s, a, meant="refused 13" if a > 2 else "")
SIZES = [(kind, 3, row, 3) for kind, row in ROW.items()] + [(RRT, 4, 4, 3), (RRT, 5, 6, 7)]
for kind, asked, row, count in SIZES:
    size = row * count
    for room in (size, size - 1, size - row, 1, 0, size + 1, 300, 4000):
        add(kind, asked, SAMPLES[kind], room,
            meant="rows %d" % count if room >= size else "refused 12")

# ---- chance
chance = random.Random(65)
for kind, (_, build, whole) in BUILT.items():
    width = len(filled(kind, "0"))
    for _ in range(8):
        heads = [bits(chance.getrandbits(width), width) for _ in range(3)]
        lists = [(b"", D, PLAIN, D + PLAIN)[chance.getrandbits(2)] for _ in heads]
        s = whole([build(head, "01"[chance.getrandbits(1)], d) for head, d in zip(heads, lists)],
                  extension=chance.getrandbits(16), version=chance.getrandbits(5))
        add(kind, 1, s)
        add(kind, 3, s, 3 * ROW[kind] + 2, meant="rows 3")
        for a, head in enumerate(heads):
            add(kind, 2, s, a, meant=numbers(kind, head))

for _ in range(16):
    texts = [chance.choice((b"", b"\0", TEA, TWO, text_of(0x55))) for _ in range(8)]
    s = rrt(texts[0], [dimension(chance.choice(texts),
                                 [value(chance.choice(texts[:3]), chance.choice(texts[:3]))
                                  for _ in range(chance.randint(1, 3))], chance.choice("01"))
                       for _ in range(chance.randint(1, 3))], extension=chance.getrandbits(16))
    add(RRT, 4, s, 13)
    add(RRT, 5, s, chance.choice((12, 30, 55)))

# ---- refusals 1 to 9 before 13 and 12, and the sections of other kinds
for kind, s in SAMPLES.items():
    for asked in ASKED[kind]:
        rows = (kind, asked) in ROWS
        for k, other in enumerate(spoiled(s), 1):
            add(kind, asked, other, 1 if rows else FAR, meant="refused %d" % k)
        for other in ORDER:
            if other != kind:
                add(kind, asked, SAMPLES[other], 70 if rows else 0, meant="refused 2")
