"""Vectors of text fields, with the answers that the rules give; test_text.py writes them out.

What is expected of the program is computed here and in texts.py alone.
"""
import random
import struct

from annex_c_coder import encode, pack
from sections import Refused
from texts import BROKEN, ODD, UNREAD, made, packed, parsed, plain, string, units, wide

LAST = 2**64 - 1
ROOM = 4096


def text(field, k, room):
    out = units(field, k)
    if len(out) > room:
        raise Refused(12)
    return out


def told(name, ask):
    try:
        return "%s %s" % (name, ask())
    except Refused as r:
        return "%s refused %d" % (name, r.args[0])


def shown_text(field, k, room):
    try:
        out = text(field, k, room)
        return "text %d changed 0:%s" % (len(out), "".join(" %d" % u for u in out))
    except Refused as r:
        return "text refused %d changed 0:" % r.args[0]


def answers(field, k, room):
    """What all four calls tell of a field."""
    return " ".join((
        told("strings", lambda: len(parsed(field))),
        told("language", lambda: "%d segments %d" % (string(field, k)[0], len(string(field, k)[1]))),
        told("units", lambda: len(units(field, k))), shown_text(field, k, room)))


def line(field, k, room):
    out = answers(field, k, room)
    try:
        parsed(field)
        out += " inside " + shown_text(field, k, room)
    except Refused:
        pass
    return out


TEA = made([plain(b"Tea")])
THREE = made([plain(b"one")], [packed(1, b"The next"), wide("Ω")], [packed(2, b"A story.")])


def fields():
    # nothing, no strings, and no strings with more bytes
    for field in (b"", b"\x00", b"\x00\x00", b"\x00eng\x00"):
        for k in (0, 1, LAST):
            yield field, k, ROOM
    # one string; one past the last; the largest number
    for k in (0, 1, 2, 255, 256, 2**32, 2**63, LAST - 1, LAST):
        yield TEA, k, ROOM
    # 255 strings, of no segments and of one
    for field in (made(*[[]] * 255), made(*[[plain(bytes([i]))] for i in range(255)])):
        for k in (0, 1, 127, 253, 254, 255, 256, LAST):
            yield field, k, ROOM
    # a string of 255 segments, whose parts are empty, plain, wide and compressed
    many = [[plain(b""), plain(b"ab"), wide("é"), packed(1, b"A.")][i % 4] for i in range(255)]
    yield made(many), 0, ROOM
    yield made([], many, [plain(b"z")]), 1, ROOM
    yield made([], many, [plain(b"z")]), 2, ROOM
    # every byte is a unit in mode 0; the highest and lowest units and lone surrogates of UTF-16 pass
    yield made([plain(bytes(range(255)))], [plain(b"\xff\x80\x00")]), 0, ROOM
    yield made([plain(bytes(range(255)))], [plain(b"\xff\x80\x00")]), 1, ROOM
    for units_ in ([0xD83D, 0xDE00], [0xDE00, 0xD83D], [0xD800], [0xFEFF, 0xFFFE, 0xFFFF, 0, 1, 256, 255]):
        yield made([(0, 0x3F, b"".join(struct.pack(">H", u) for u in units_))]), 0, ROOM
    # UTF-16 of 0 to 5 bytes, and of 254 and 255
    for size in (0, 1, 2, 3, 4, 5, 254, 255):
        yield made([(0, 0x3F, b"\x12\x34" * 128)[:2] + ((b"\x12\x34" * 128)[:size],)]), 0, ROOM
    # all of the pairs about the read ones
    for compression in (0, 1, 2, 3, 4, 62, 63, 127, 128, 255):
        for mode in (0, 1, 2, 3, 4, 61, 62, 63, 64, 127, 128, 191, 255):
            for data in (b"", pack(encode(1, b"The next")), pack(encode(2, b"A.")), b"\x00\x41\x00"):
                yield made([(compression, mode, data)]), 0, ROOM
    # mixed pairs in one string: joined, and each compressed segment starts anew
    mixed = [plain(b"On: "), packed(1, b"The next"), wide(" Ω😀 "), packed(2, b"A story."), packed(1, b"The next"), plain(b"")]
    yield made(mixed), 0, ROOM
    yield made(list(reversed(mixed))), 0, ROOM
    yield made([packed(1, b"qu."), packed(1, b"u."), packed(2, b"qu."), packed(2, b"u.")]), 0, ROOM
    # the first faulty segment decides, and 12 comes after
    faulty = {"broken": BROKEN, "unread": UNREAD, "odd": ODD, "empty": (2, 0, b"")}
    for a in faulty.values():
        for room in (0, 1, 2, ROOM):
            yield made([plain(b"ab"), a, plain(b"cd")]), 0, room
            yield made([a]), 0, room
        for b in faulty.values():
            yield made([a, b]), 0, ROOM
            yield made([plain(b"ab"), a, wide("cd"), b, packed(1, b"e.")]), 0, ROOM
            # the fault of another string is not this one's
            for k in range(4):
                yield made([plain(b"ab")], [a], [packed(1, b"The next")], [b]), k, ROOM
    # room: exactly enough, one short, one more, none
    for strings in (THREE, made(mixed), TEA, made([]), made([packed(1, b"The next")])):
        for k in range(3):
            try:
                size = len(units(strings, k))
            except Refused:
                size = 0
            for room in {0, max(size - 1, 0), size, size + 1, ROOM}:
                yield strings, k, room
    # long texts, whose units are many more than their bytes
    long = [packed(1, b"The e " * 20 + b"e.")] * 20 + [packed(2, b"the e " * 20 + b"e.")] * 10
    size = len(units(made(long), 0))
    for room in (size - 1, size, size + 1):
        yield made(long), 0, room
    # a field cut after each byte, with a byte more, and with each byte changed: 9 before 13, 10, 11 and 12
    for field in (THREE, made([plain(b"ab"), UNREAD], [BROKEN])):
        for size in range(len(field)):
            for k in (0, 2, LAST):
                yield field[:size], k, 0
        for k in (0, 2, 3):
            yield field + b"\x00", k, ROOM
            yield field + TEA, k, ROOM
        for i in range(len(field)):
            for value in (0, 1, field[i] ^ 1, field[i] ^ 128, 255):
                for k in (0, 1):
                    yield field[:i] + bytes([value]) + field[i + 1:], k, ROOM
    # chance
    rng = random.Random(1997)
    letters = b"etaoin shrdlu.ABCTHE'-,:;!?0123xyz~\x7f"
    for _ in range(300):
        strings = []
        for _ in range(rng.randrange(1, 5)):
            segments = []
            for _ in range(rng.randrange(0, 5)):
                words = bytes(rng.choice(letters) for _ in range(rng.randrange(0, 20)))
                segments.append(rng.choice([
                    plain(words), wide(words.decode("latin-1")), packed(1, words + b"."), packed(2, words + b"."),
                    (rng.randrange(4), rng.choice((0, 0, 63, 255)), words)]))
            strings.append(segments)
        field = made(*strings)
        k = rng.randrange(len(strings) + 1)
        yield field, k, rng.choice((ROOM, ROOM, 5))
    for _ in range(200):
        yield bytes(rng.choice((0, 1, 2, 3, 4, 65, 255)) for _ in range(rng.randrange(30))), rng.randrange(3), ROOM


FIELD = 3
# a field that is sound is also read as a part of these bytes
BEFORE, AFTER = b"\x01en", b"\0g\xff"


def vector(field, k, room):
    start = len(BEFORE)
    return FIELD, (start, start + len(field), k, room), BEFORE + field + AFTER, line(field, k, room)


vectors = [vector(*asked) for asked in fields()]
