"""Vectors for all events of an EIT with their titles, asked at once, with the answers that the rules give; test_text.py writes them out.

The answers are made of the readers in tables.py and texts.py, from docs/SCOPE.md and from nothing of the library. Where a vector says
how many units there are, or by which number it is to be refused, the readers must agree.
"""
import random

from body_vectors import D, SAMPLES, TEA, eit, event, made, text_of
from section_text_vectors import BLANKS, FAULTY, READABLE, ROLL, rated
from sections import EIT, KINDS, Refused, spoiled
from tables import read
from texts import BROKEN, ODD, UNREAD, packed, plain, units, wide
from texts import made as strings
from written import digest

TITLES = 23
ROWS, UNITS = 3084, 32800  # the lists, of which a part is lent
WIDTH = 12
NO_TITLE, NO_STRINGS, TEXT = 1, 2, 3
BLANK = [0xFFFFFFFF] * 3
vectors = []  # (op, (rows, units), bytes, answer)


# ---- the reader
def title(field, begin):
    """The four numbers of a title, and its units."""
    if field == b"":
        return [NO_TITLE] + BLANK, []
    if field == b"\0":
        return [NO_STRINGS] + BLANK, []
    try:
        us = units(field, 0)
    except Refused as r:
        return [r.args[0]] + BLANK, []
    return [TEXT, begin, len(us), 0], us


def told(s):
    """The rows and the units of all events: 1 to 9."""
    rows, text = [], []
    for one in read(s, EIT)[1]:
        four, us = title(s[one[4]:one[4] + one[5]], len(text))
        rows += [*one, *four]
        text += us
    return rows, text


def answer(s, rows, units):
    """What is answered, and the digests of both lists afterwards."""
    lists = [7] * ROWS, [65535] * UNITS
    try:
        both = told(s)
        if len(both[0]) > rows or len(both[1]) > units:
            raise Refused(12)
        for to, new in zip(lists, both):
            to[:len(new)] = new
        said = "events %d units %d" % (len(both[0]) // WIDTH, len(both[1]))
    except Refused as r:
        said = "refused %d" % r.args[0]
    return "%s rows %d text %d" % (said, digest(lists[0]), digest(lists[1]))


def add(s, rows=ROWS, units=UNITS, meant=None):
    """`meant`: how many units there are, or ("refused", number)."""
    said = answer(s, rows, units)
    wanted = "refused %d rows" % meant[1] if isinstance(meant, tuple) else "units %s rows" % meant
    assert meant is None or wanted in said, (meant, said, s.hex())
    vectors.append((TITLES, (rows, units), s, said))


def lent(s, size):
    """Both lists exactly long enough, longer, and one of them one too short; where the text's has eight units for each byte of the
    section nothing is counted before it is stored."""
    rows, most = WIDTH * len(read(s, EIT)[1]), 8 * len(s)
    for room in (rows, size), (rows + 1, size + 1), (rows, most - 1), (rows, most), (ROWS, UNITS):
        add(s, *room, meant=size)
    if rows:
        for units in (size, most):
            add(s, rows - 1, units, meant=("refused", 12))
    if size:
        for units in {0, size - 1}:
            add(s, rows, units, meant=("refused", 12))


def eits(*titles, d=b""):
    return made(EIT, eit([event(t, d) for t in titles]))


# ---- every sort of title alone and between two others, which the units of a refused one must not move
NONE, EMPTY = b"", b"\0"
SEGMENTS = strings([plain(b"ab"), UNREAD, BROKEN], [plain(b"cd")])
EVERY = BLANKS + READABLE + FAULTY + (SEGMENTS, strings([plain(b"ab"), ODD]), strings([], [plain(b"no")]), ROLL)
lent(eits(), 0)
for t in EVERY:
    size = len(title(t, 0)[1])
    lent(eits(t), size)
    lent(eits(TEA, t, TEA, d=D), 6 + size)
    lent(eits(t, TEA, t, d=rated(TEA, TEA)), 3 + 2 * size)
lent(eits(TEA, SEGMENTS, NONE, TEA, strings([ODD]), EMPTY, strings([plain(b"")]), TEA), 9)
lent(eits(*EVERY), sum(len(title(t, 0)[1]) for t in EVERY))

# ---- the longest: of events, of titles, of texts
lent(eits(*[NONE] * 255), 0)
lent(eits(*[NONE] * 254, TEA), 3)
lent(eits(*[strings([plain(b"")])] * 200), 0)
lent(eits(text_of(255), text_of(255), SEGMENTS, text_of(255)), 3 * 247)
BIG = strings([packed(1, b"The e " * 75 + b"e.")])
assert len(BIG) <= 255
lent(eits(*[BIG] * 14), 14 * len(units(BIG, 0)))

# ---- 1 to 9 before 12, in their order, and sections of every other kind
s = eits(TEA, SEGMENTS, TEA)
for n, other in enumerate(spoiled(s), 1):
    for rows, room in (ROWS, UNITS), (0, 0):
        add(other, rows, room, meant=("refused", n))
for other in KINDS:
    if other != EIT:
        for rows, room in (ROWS, UNITS), (0, 0):
            add(made(other, SAMPLES[other]), rows, room, meant=("refused", 2))
for fault in (TEA + b"\0", TEA[:-1], b"\0\0"):
    add(eits(TEA, fault), meant=("refused", 9))
for n in range(len(s)):
    add(s[:n], meant=("refused", 1 if n < 3 else 5))
add(b"", 0, 0, meant=("refused", 1))

# ---- headers of other values, and reserved bits of 0
for words in ({"ones": 0}, {"version": 31, "current": 0, "extension": 0xFFFF}):
    add(made(EIT, eit([event(TEA, D), event(strings([wide("Tea Ω")]), D)]), number=3, last=5, **words), meant=8)

# ---- chance
chance = random.Random(66)
for _ in range(150):
    s = eits(*[chance.choice(EVERY[:-1]) for _ in range(chance.randrange(9))], d=chance.choice((b"", D)))
    rows, text = told(s)
    add(s, chance.choice((len(rows), ROWS)), chance.choice((len(text), len(text), 8 * len(s), max(len(text) - 1, 0))))
