"""Vectors for the questions to a descriptor list alone, with the answers that the rules give.

test_reading.py writes them out. Each answer is found twice, from the lists as they were put together
and by a reader of their bytes, and the two must agree. Whether a list alone is filled exactly is told by
the walk of bodies.py.
"""
import random

from bodies import Fault, Part, descriptors

LARGEST = 2**64 - 1
NO_ADVISORY, NO_REGION, NO_DIMENSION = "no advisory", "region absent", "dimension absent"
NO_DESCRIPTOR, NO_TEXT = "no descriptor", "no text"


# ---- lists, as they are put together: (tag, content), where an advisory's content is its regions
class Region:
    def __init__(self, number, dimensions, text=b""):
        self.number, self.dimensions, self.text = number, dimensions, text

    def bytes(self):
        said = bytes([self.number, len(self.dimensions)])
        return said + b"".join(bytes(pair) for pair in self.dimensions) + bytes([len(self.text)]) + self.text


def content(regions, reserved=0xC0):
    return bytes([reserved | len(regions)]) + b"".join(region.bytes() for region in regions)


def descriptor(tag, inside):
    said = inside if isinstance(inside, bytes) else content(inside)
    assert len(said) < 256
    return bytes([tag, len(said)]) + said


def string(text=b"Tea"):
    return b"\1eng\1\0\0" + bytes([len(text)]) + text


def rating_of(listed, region, dimension):
    for tag, inside in listed:
        if tag == 0x87:
            for r in inside:
                if r.number == region:
                    for number, value in r.dimensions:
                        if number == dimension:
                            return "value %d" % (value & 15)
                    return NO_DIMENSION
            return NO_REGION
    return NO_ADVISORY


def descriptor_of(listed, start, k):
    for i, (tag, inside) in enumerate(listed):
        size = len(descriptor(tag, inside)) - 2
        if i == k:
            return "tag %d at %d size %d" % (tag, start + 2, size)
        start += 2 + size
    return NO_DESCRIPTOR


def text_of(listed, start, region):
    for tag, inside in listed:
        if tag == 0x87:
            start += 3
            for r in inside:
                if r.number == region:
                    return "text at %d size %d" % (start + 3 + 2 * len(r.dimensions), len(r.text))
                start += len(r.bytes())
            return NO_TEXT
        start += len(descriptor(tag, inside))
    return NO_TEXT


# ---- a reader of the bytes: what does not fit into its container is not there
def descriptors_at(s, start, end):
    while start + 2 <= end and start + 2 <= len(s) and start + 2 + s[start + 1] <= end:
        yield s[start], start + 2, s[start + 1]
        start += 2 + s[start + 1]


def regions_at(s, start, size):
    at = start + 1
    for _ in range(s[start] & 63 if size else 0):
        text = at + 2 + 2 * s[at + 1]
        yield s[at], at + 2, s[at + 1], text + 1, s[text]
        at = text + 1 + s[text]


def advisory_in(s, start, end):
    for tag, at, size in descriptors_at(s, start, end):
        if tag == 0x87:
            return at, size
    return None


def read_rating(s, start, end, region, dimension):
    advisory = advisory_in(s, start, end)
    if advisory is None:
        return NO_ADVISORY
    for number, at, count, _, _ in regions_at(s, *advisory):
        if number == region:
            pairs = [s[at + 2 * i:at + 2 * i + 2] for i in range(count)]
            values = [value % 16 for name, value in pairs if name == dimension]
            return "value %d" % values[0] if values else NO_DIMENSION
    return NO_REGION


def read_descriptor(s, start, end, k):
    found = list(descriptors_at(s, start, end))
    return "tag %d at %d size %d" % found[k] if k < len(found) else NO_DESCRIPTOR


def read_text(s, start, end, region):
    advisory = advisory_in(s, start, end)
    for number, _, _, at, size in regions_at(s, *advisory) if advisory else ():
        if number == region:
            return "text at %d size %d" % (at, size)
    return NO_TEXT


# ---- the vectors
RATING, DESCRIPTOR, TEXT = 0x51, 0x52, 0x53
LIST_RATING, LIST_DESCRIPTOR, LIST_TEXT = 0x07, 0x08, 0x09  # judged alone: 9, and 13 for what is not there
vectors = []  # (op, (what is asked for, dimension, start, end), bytes, answer)
# before a list and after it stand advisories that are not the list's
BEFORE = descriptor(0x87, [Region(1, [(0, 9)], string(b"before"))])
AFTER = descriptor(0x87, [Region(1, [(0, 8)], string(b"after"))])


def numbers(said):
    """The words of an answer that is judged: 13, or its numbers alone."""
    return "refused 13" if said in (NO_DESCRIPTOR, NO_TEXT) else " ".join(word for word in said.split() if word.isdigit())


def filled(inner):
    try:
        descriptors(Part(inner, 0, len(inner)), advised=True)
    except Fault:
        return False
    return True


def ask_alone(listed, inner, regions, dimensions):
    """All questions to a list that is judged by itself."""
    whole = filled(inner)
    for region in regions:
        for dimension in dimensions:
            vectors.append((LIST_RATING, (region, dimension, 0, 0), inner, rating_of(listed, region, dimension) if whole else "refused 9"))
        vectors.append((LIST_TEXT, (region, 0, 0, 0), inner, numbers(text_of(listed, 0, region)) if whole else "refused 9"))
    for k in [*range(len(listed) + 2), LARGEST]:
        vectors.append((LIST_DESCRIPTOR, (k, 0, 0, 0), inner, numbers(descriptor_of(listed, 0, k)) if whole else "refused 9"))


def ask(listed, regions, dimensions, before=BEFORE, after=AFTER):
    """All questions to a list."""
    inner = b"".join(descriptor(tag, inside) for tag, inside in listed)
    s, start, end = before + inner + after, len(before), len(before) + len(inner)
    ask_alone(listed, inner, regions, dimensions)
    for region in regions:
        for dimension in dimensions:
            said = rating_of(listed, region, dimension)
            assert said == read_rating(s, start, end, region, dimension), (said, s.hex())
            vectors.append((RATING, (region, dimension, start, end), s, said))
        said = text_of(listed, start, region)
        assert said == read_text(s, start, end, region), (said, s.hex())
        vectors.append((TEXT, (region, 0, start, end), s, said))
    for k in [*range(len(listed) + 2), LARGEST]:
        said = descriptor_of(listed, start, k)
        assert said == read_descriptor(s, start, end, k), (said, s.hex())
        vectors.append((DESCRIPTOR, (k, 0, start, end), s, said))


WIDE = [256, 2**32, LARGEST]  # no byte is one of these

# ---- no advisory: an empty list, other tags, the number 0x87 elsewhere than in a tag
ask([], [0, 1, *WIDE], [0, 1])
ask([(0x86, b""), (0xA0, b"\x87\x03\x87")], [0, 1], [0, 1])
ask([(0x81, b"\x87" * 0x87), (0x00, b"\x87\x05\xc1\x01\x00\x00\x00")], [1], [0])

# ---- an advisory without regions: the region is absent
ask([(0x87, [])], [0, 1, 192, *WIDE], [0, 192])
ask([(0x87, []), (0x87, [Region(1, [(0, 5)])])], [1], [0])

# ---- every value, with the reserved bits 0 and 1
ask([(0x87, [Region(1, [(n, n) for n in range(16)], b"\0")])], [1], range(17))
ask([(0x87, [Region(1, [(n, 0xF0 | n) for n in range(16)], b"\0")])], [1], range(17))

# ---- absent is not 0: a dimension of value 0, a region without dimensions
ask([(0x87, [Region(1, [(4, 0)]), Region(2, [])])], [0, 1, 2, 3], [0, 4, 5])

# ---- the numbers' ends
ask([(0x87, [Region(0, [(0, 1), (255, 2)]), Region(255, [(255, 3), (0, 4)])])], [0, 1, 254, 255, *WIDE], [0, 1, 254, 255, *WIDE])

# ---- only the first 0x87 counts
ask(
    [(0x86, b"xy"), (0x87, [Region(1, [(0, 1)], string())]), (0x87, [Region(1, [(0, 2), (1, 3)]), Region(2, [(0, 4)], string())])],
    [1, 2, 3], [0, 1, 2])

# ---- only the first such region counts, and in it the first such dimension
ask(
    [(0x87, [Region(1, [(0, 1), (0, 2)], string(b"one")), Region(1, [(0, 3), (1, 4)], string(b"two")), Region(2, [(1, 5), (0, 6), (1, 7)])])],
    [1, 2, 3], [0, 1, 2])

# ---- a region that is only named in a text, and a dimension that is only a value
ask([(0x87, [Region(3, [(7, 9)], string(b"\5\1\2\3")), Region(6, [(9, 7)])])], [3, 5, 6, 9], [2, 7, 9])

# ---- as many as there can be: 63 regions, 125 dimensions, a long text
ask([(0x87, [Region(n, []) for n in range(63)])], [0, 1, 61, 62, 63], [0])
ask([(0x87, [Region(1, [(n, n % 16) for n in range(125)])])], [1], [0, 1, 123, 124, 125])
ask([(0x87, [Region(1, [], string(bytes(200))), Region(2, [(1, 1)], string(bytes(20)))])], [1, 2], [1])
ask([(n, b"") for n in range(0x70, 0x90) if n != 0x87] + [(0x87, [Region(1, [(1, 1)])])], [1], [1])

# ---- lists of every sort
chance = random.Random(65)
TEXTS = [b"", b"\0", string(), string(b"\x87\1\1\0")]


def some_region():
    pairs = [(chance.randrange(4), chance.randrange(256)) for _ in range(chance.randrange(4))]
    return Region(chance.randrange(4), pairs, chance.choice(TEXTS))


for _ in range(40):
    listed = []
    for _ in range(chance.randrange(5)):
        if chance.random() < 0.6:
            listed.append((0x87, [some_region() for _ in range(chance.randrange(5))]))
        else:
            listed.append((chance.choice([0x80, 0x86, 0x88, 0xA0]), chance.randbytes(chance.randrange(9))))
    ask(listed, range(4), range(4), *chance.choice([(BEFORE, AFTER), (b"", AFTER), (BEFORE, b""), (b"", b"")]))

# ---- what does not fit into the list is not there, wherever the list is said to stand
CUT = descriptor(0x86, b"xy") + descriptor(0x87, [Region(1, [(0, 5)], string())])
for start, end in [(0, len(CUT) - 1), (0, 5), (4, 4), (5, 4), (len(CUT), len(CUT)), (LARGEST, 4), (LARGEST, LARGEST), (LARGEST - 1, LARGEST), (LARGEST - 2, LARGEST)]:
    vectors.append((RATING, (1, 0, start, end), CUT, NO_ADVISORY))
    vectors.append((TEXT, (1, 0, start, end), CUT, NO_TEXT))
    for k in (1, LARGEST):
        vectors.append((DESCRIPTOR, (k, 0, start, end), CUT, NO_DESCRIPTOR))

# ---- a list that is not filled exactly is 9, whatever is asked: cut at every byte, a byte more, an advisory that is not filled
SOUND = [(0x86, b"xy"), (0x87, [Region(1, [(0, 5)], string())]), (0x88, b"")]
WHOLE = b"".join(descriptor(tag, inside) for tag, inside in SOUND)
ENDS = [0, 4, 4 + len(descriptor(*SOUND[1])), len(WHOLE)]
for cut in range(len(WHOLE)):
    if cut not in ENDS:
        assert not filled(WHOLE[:cut])
        ask_alone([], WHOLE[:cut], [1], [0])
for broken in (
        WHOLE + b"\x87",
        b"\x87\0",  # no room for the region count
        b"\x87\2\xc0\0",  # a byte left over behind no regions
        descriptor(0x87, content([Region(1, [(0, 5)], string())]) + b"\0"),
        descriptor(0x87, content([Region(1, [(0, 5)], string())])[:-1]),
        descriptor(0x87, content([Region(1, [], b"\1eng\1")])),  # a text cut short
        descriptor(0x87, content([Region(1, [], b"\0\0")])),  # a text with a byte left over
        descriptor(0x86, b"") + descriptor(0x87, bytes([0xC2]) + Region(1, [(0, 5)]).bytes())):
    assert not filled(broken)
    ask_alone([], broken, [1, 2], [0])

answers = {said.split()[0] + " " + said.split()[1] for question, *_, said in vectors if question == RATING}
assert {NO_ADVISORY, NO_REGION, NO_DIMENSION, *("value %d" % v for v in range(16))} == answers, answers
assert sum(question == RATING for question, *_ in vectors) >= 100
