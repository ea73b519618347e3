"""Vectors for the texts of a section, with the answers that the rules give; test_text.py writes them out.

The answers are those of the readers in tables.py and text_vectors.py, one after the other, from docs/SCOPE.md and from
nothing of the library. Where a vector says which text it was given, or by which number it is to be refused, the readers must agree.
"""
import random

from body_vectors import (BLANK, D, LONGEST, SAMPLES, TEA, advisory, dimension, eit, ett, event, made, region, rrt, text_of,
                          value)
from sections import EIT, ETT, KINDS, RRT, Refused, spoiled
from tables import advisory_text, entry, first_advisory, read
from text_vectors import LAST, ROOM, THREE, answers
from texts import made as strings
from texts import BROKEN, ODD, UNREAD, packed, parsed, plain, units, wide

TITLE, ADVISED, EXTENDED, REGION, DIMENSION, SHORT, LONG = range(16, 23)
KIND = {TITLE: EIT, ADVISED: EIT, EXTENDED: ETT, REGION: RRT, DIMENSION: RRT, SHORT: RRT, LONG: RRT}
PAST = (255, 256, 2**32, LAST)
vectors = []  # (sort, (a, b, k, room), bytes, answer)


# ---- the reader
def field(s, sort, a, b):
    """The bytes of the text asked for: 1 to 9, then 13."""
    fields, entries = read(s, KIND[sort])
    if sort in (EXTENDED, REGION):
        start, length = fields[2:4]
    elif sort == TITLE:
        start, length = entry(entries, a)[4:6]
    elif sort == ADVISED:
        start, length = advisory_text(first_advisory(s, entry(entries, a)), b)
    elif sort == DIMENSION:
        start, length = entry(entries, a)[:2]
    else:
        both = entry(entry(entries, a)[4], b)
        start, length = both[:2] if sort == SHORT else both[2:]
    return s[start:start + length]


def refused(n):
    """All four calls are refused by the same number."""
    return "strings refused %d language refused %d units refused %d text refused %d changed 0:" % (n, n, n, n)


def add(sort, s, a, b, k=0, room=ROOM, meant=None):
    try:
        said = answers(field(s, sort, a, b), k, room)
    except Refused as r:
        said = refused(r.args[0])
    assert meant in (None, said), (sort, a, b, k, room, meant, said, s.hex())
    vectors.append((sort, (a, b, k, room), s, said))


# ---- sections that hold a text in one place, and others in all other places of its kind
def rated(t, other, number=2):
    """Descriptors whose first advisory has the text for a region; the same region once more has another text, and so has the second
    advisory."""
    first = advisory(region(number ^ 1, [(0, 1)], other), region(number, [(0, 3), (1, 2)], t), region(number, [], other))
    return D + first + advisory(region(number, [], other), region(7, [], other))


def events(i, one, other):
    """Event i of three."""
    return made(EIT, eit([one if n == i else event(other, rated(other, other)) for n in range(3)]))


def dimensions(i, one, other, name=None):
    """Dimension i of three, which have 2, 3 and 2 values."""
    blank = [dimension(other, [value(other, other)] * (2 + n % 2)) for n in range(3)]
    return made(RRT, rrt(other if name is None else name, [one if n == i else blank[n] for n in range(3)], D))


def values(i, j, one, other):
    """Value j of dimension i."""
    return dimensions(i, dimension(other, [one if n == j else value(other, other) for n in range(2 + i % 2)]), other)


def holding(sort, t, other):
    """(section, a, b), the text in the first, a middle or the last place."""
    if sort == TITLE:
        return [(events(i, event(t, rated(other, other)), other), i, 0) for i in (1, 0, 2)]
    if sort == ADVISED:
        return [(events(i, event(other, rated(t, other, number)), other), i, number) for i, number in ((1, 2), (0, 0), (2, 255))]
    if sort == EXTENDED:
        return [(made(ETT, ett(t)), 0, 0)]
    if sort == REGION:
        return [(dimensions(3, None, other, t), 0, 0)]
    if sort == DIMENSION:
        return [(dimensions(i, dimension(t, [value(other, other)] * 2), other), i, 0) for i in (1, 0, 2)]
    texts = (t, other) if sort == SHORT else (other, t)
    return [(values(i, j, value(*texts), other), i, j) for i, j in ((1, 2), (0, 0), (1, 1), (2, 1))]


def asks(t):
    """(k, room): every string, with room, with exactly enough and with one unit less; and one past the last."""
    count = len(parsed(t))
    for k in range(count):
        try:
            size = len(units(t, k))
        except Refused:
            size = 1
        for room in sorted({ROOM, size, max(size - 1, 0)}):
            yield k, room
    for k in (count, LAST):
        yield k, ROOM


# ---- every sort of text in every place; texts that are not asked for are broken or not read, or are other texts
FIRST = packed(1, b"The next")
MIXED = [plain(b"On: "), FIRST, wide(" Ω😀 "), packed(2, b"A story."), FIRST, plain(b"")]
BLANKS = (b"", b"\0", strings([]), strings([plain(b"")], []))
READABLE = (TEA, THREE, strings([wide("Tea Ω")]), strings([FIRST]), strings([packed(2, b"A story.")]), strings([], MIXED))
FAULTY = (strings([UNREAD]), strings([BROKEN]), strings([ODD]), strings([(2, 0, b"")]), strings([(1, 255, b"")]),
          strings([plain(b"ab"), UNREAD, BROKEN], [plain(b"cd"), BROKEN, UNREAD], [plain(b"ef")]))
OTHERS = (strings([BROKEN]), strings([UNREAD]), strings([plain(b"no")]), b"")
for sort in KIND:
    for n, t in enumerate(BLANKS + READABLE + FAULTY):
        if sort == EXTENDED and t == b"":
            continue
        s, a, b = holding(sort, t, OTHERS[n % 2])[0]
        for k, room in asks(t):
            add(sort, s, a, b, k, room, meant=answers(t, k, room))
    for t in (b"\0", TEA, strings([BROKEN], [plain(b"ab")])):
        for other in OTHERS:
            for s, a, b in holding(sort, t, other)[1:]:
                for k in (0, 1):
                    add(sort, s, a, b, k, meant=answers(t, k, ROOM))

# ---- 13 for the entry: one past the last, far past it, and b past what entry a has
for sort in KIND:
    s, a, b = holding(sort, TEA, strings([plain(b"no")]))[0]
    if sort in (EXTENDED, REGION):
        for n in PAST:  # these have no entry
            add(sort, s, n, n, meant=answers(TEA, 0, ROOM))
        continue
    for n in (3, 4, *PAST):
        add(sort, s, n, b, meant=refused(13))
        add(sort, s, n, LAST, LAST, 0, meant=refused(13))
    for n in (1, 4, 7, 256 + b, *PAST):  # region 7 is in the second advisory only
        absent = sort == ADVISED or sort in (SHORT, LONG) and n > 2
        add(sort, s, a, n, meant=refused(13) if absent else None)
for sort in (SHORT, LONG):
    s = made(RRT, rrt(TEA, [dimension(b"", [value(TEA, THREE)] * n) for n in (1, 15, 2)]))
    for a, n in enumerate((1, 15, 2)):
        for b in range(16):
            add(sort, s, a, b, 1, meant=None if b < n else refused(13))
# an event without an advisory, with one of no regions, and with a region in the second one only
for d in (b"", D, advisory(), advisory() + rated(TEA, TEA), advisory(region(1, [], TEA)) + rated(TEA, TEA)):
    s = made(EIT, eit([event(TEA, rated(TEA, TEA)), event(TEA, d), event(TEA, rated(TEA, TEA))]))
    for a in (0, 1, 2):
        add(ADVISED, s, a, 2, meant=refused(13) if a == 1 else answers(TEA, 0, ROOM))
add(TITLE, made(EIT, eit([])), 0, 0, meant=refused(13))
add(ADVISED, made(EIT, eit([])), 0, 0, meant=refused(13))

# ---- 1 to 9 before 13, in their order, and sections of every other kind
for sort, kind in KIND.items():
    s, a, b = holding(sort, TEA, strings([BROKEN]))[0]
    for n, other in enumerate(spoiled(s), 1):
        add(sort, other, a, b, meant=refused(n))
        add(sort, other, LAST, LAST, LAST, 0, meant=refused(n))
    for other in KINDS:
        if other != kind:
            for n in (0, LAST):
                add(sort, made(other, SAMPLES[other]), n, n, n, meant=refused(2))
    # every text of the section is judged, and not only the one asked for
    for fault in (TEA + b"\0", TEA[:-1], b"\0\0"):
        if sort != EXTENDED:
            for s, a, b in holding(sort, TEA, fault):
                add(sort, s, a, b, meant=refused(9))
        for s, a, b in holding(sort, fault, TEA):
            add(sort, s, a, b, LAST, 0, meant=refused(9))
add(EXTENDED, made(ETT, ett(b"")), 0, 0, meant=refused(4))

# ---- headers of other values, and reserved bits of 0
for words in ({"ones": 0}, {"version": 31, "current": 0, "extension": 0xFFFF}):
    add(TITLE, made(EIT, eit([event(b"", D), event(THREE, D)]), number=3, last=5, **words), 1, 0, 1, meant=answers(THREE, 1, ROOM))
    add(EXTENDED, made(ETT, ett(THREE), **words), 0, 0, 2, meant=answers(THREE, 2, ROOM))
    add(SHORT, made(RRT, rrt(TEA, [BLANK, dimension(TEA, [value(THREE, TEA)])], D), **words), 1, 0, 1, meant=answers(THREE, 1, ROOM))

# ---- the longest: of entries, of fields, of texts
s = made(EIT, eit([event()] * 254 + [event(TEA)]))
for a, t in (0, b""), (253, b""), (254, TEA):
    add(TITLE, s, a, 0, meant=answers(t, 0, ROOM))
add(TITLE, s, 255, 0, meant=refused(13))
s = made(RRT, rrt(b"", [dimension(b"", [value()] * 15)] * 30 + [dimension(b"", [value()] * 14 + [value(b"\0", TEA)])]))
add(SHORT, s, 30, 14, meant=answers(b"\0", 0, ROOM))
add(LONG, s, 30, 14, meant=answers(TEA, 0, ROOM))
add(LONG, s, 29, 14, meant=answers(b"", 0, ROOM))
FULL = text_of(255)
s = made(RRT, rrt(FULL, [dimension(FULL, [value(FULL, text_of(238))])]))
for sort, n in (REGION, 247), (DIMENSION, 247), (SHORT, 247), (LONG, 230):
    for room in (n - 1, n, n + 1):
        add(sort, s, 0, 0, 0, room, meant=answers(text_of(n + 8), 0, room))
ROLL = strings([packed(1, b"The e " * 40 + b"e.")], [plain(b"z")])
size = len(units(ROLL, 0))
assert len(ROLL) < size
for room in (size - 1, size, size + 1):
    add(TITLE, made(EIT, eit([event(TEA), event(ROLL)])), 1, 0, 0, room, meant=answers(ROLL, 0, room))
size = len(units(LONGEST, 0))
for room in (0, size - 1, size, size + 1):
    add(EXTENDED, made(ETT, ett(LONGEST)), 0, 0, 0, room, meant=answers(LONGEST, 0, room))
MANY = strings(*[[plain(bytes([i]))] for i in range(255)])
for k in (0, 127, 254, 255, 256):
    add(EXTENDED, made(ETT, ett(MANY)), 0, 0, k, meant=answers(MANY, k, ROOM))

# ---- chance
chance = random.Random(65)
POOL = BLANKS + READABLE[:5] + FAULTY[:5]


def pick():
    return chance.choice(POOL)


def drawn(kind):
    if kind == EIT:
        lists = [chance.choice((b"", D, rated(pick(), pick(), chance.randrange(3)))) for _ in range(chance.randrange(1, 4))]
        return eit([event(pick(), d) for d in lists])
    if kind == ETT:
        return ett(pick() or b"\0")
    counts = [chance.randrange(1, 4) for _ in range(chance.randrange(1, 4))]
    return rrt(pick(), [dimension(pick(), [value(pick(), pick()) for _ in range(n)]) for n in counts], chance.choice((b"", D)))


for _ in range(400):
    sort = TITLE + chance.randrange(7)
    add(sort, made(KIND[sort], drawn(KIND[sort])), chance.randrange(3), chance.randrange(3), chance.randrange(2),
        chance.choice((ROOM, ROOM, 3)))
