"""Sections that are given to be written: what is asked, and what is to stand in the buffer afterwards (SCOPE 2.4, 2.5 and 6). A section that is
written is read and written again, which gives its old bytes (SCOPE 12.4).

Everything that is written is made here from the rules: `sections.py` has header and checksum, `bodies.py` judges a title, a list and a text.
"""
import random
import struct
import zlib

import bodies
from sections import EIT, ETT, KINDS, Refused, register, section
from texts import made, plain, wide

EIT_OP, ETT_OP, SHOWN_OP = 1, 2, 3
FILLED = 0xA5  # every byte of the buffer before
vectors = []


def accepted(judge, data):
    """Does a judge of bodies.py take these bytes on their own?"""
    try:
        judge(bodies.Part(data, 0, len(data)))
    except bodies.Fault:
        return False
    return True


def tested(kind, extension, version, current, number, last, fields):
    """23 and then 8; `fields`: pairs of a number and the bits of its field."""
    for value, bits in [(extension, 16), (version, 5), (current, 1), (number, 8), (last, 8)] + fields:
        if value >= 1 << bits:
            raise Refused(23)
    if number > last or last > KINDS[kind][3]:
        raise Refused(8)


def bounded(kind, s, room):
    """24."""
    if len(s) > KINDS[kind][2] + 3 or len(s) > room:
        raise Refused(24)
    return s


def eit(head, count, rows, data, room):
    """The section's bytes; `rows` are the numbers one after the other, `data` the bytes that places point into."""
    whole = [rows[i:i + 8] for i in range(0, len(rows) - 7, 8)][:count]
    widths = (14, 32, 2, 20, None, 8, None, 12)
    tested(EIT, *head, [(count, 8)] + [(n, bits) for row in whole for n, bits in zip(row, widths) if bits])
    if len(rows) != 8 * count:
        raise Refused(9)
    body = bytes([count])
    for event, start, etm, seconds, t, tn, d, dn in whole:
        if t + tn > len(data) or d + dn > len(data):
            raise Refused(9)
        title, listed = data[t:t + tn], data[d:d + dn]
        if not accepted(bodies.text, title) or not accepted(lambda part: bodies.descriptors(part, True), listed):
            raise Refused(9)
        body += (0b11 << 14 | event).to_bytes(2, "big") + start.to_bytes(4, "big")
        body += (0b11 << 22 | etm << 20 | seconds).to_bytes(3, "big")
        body += bytes([tn]) + title + (0b1111 << 12 | dn).to_bytes(2, "big") + listed
    if len(body) > 5000:
        raise Refused(24)
    return bounded(EIT, made_section(EIT, head, body), room)


def ett(head, etm_id, text, room):
    tested(ETT, *head, [(etm_id, 32)])
    if not text or not accepted(bodies.text, text):
        raise Refused(9)
    if len(text) > 5000:
        raise Refused(24)
    return bounded(ETT, made_section(ETT, head, etm_id.to_bytes(4, "big") + text), room)


def made_section(kind, head, body):
    """A body too long for the 12 bits of section_length is refused by its length alone."""
    extension, version, current, number, last = head
    length = 6 + len(body) + 4
    return section(kind, body, extension, version, current, number, last, length=length & 0xFFF)


def standing(s, room):
    """A buffer of so many bytes with these at its start."""
    return s + bytes([FILLED]) * (room - len(s))


def answered(write, room, shown=lambda buffer: "%d" % zlib.adler32(buffer)):
    """The line: the answer, and the whole buffer afterwards; then the same of a buffer of ROOM bytes, into which the section is written again."""
    try:
        s = write()
    except Refused as refused:
        return "refused %d: %s" % (refused.args[0], shown(standing(b"", room)))
    return "written %d: %s again written %d: %d" % (len(s), shown(standing(s, room)), len(s), zlib.adler32(standing(s, ROOM)))


def packed(numbers):
    return struct.pack(">%dI" % len(numbers), *numbers)


def add_eit(head, count, rows, data, room, meant=None):
    said = answered(lambda: eit(head, count, rows, data, room), room)
    assert meant is None or said.startswith(meant), (meant, said)
    vectors.append((EIT_OP, (count, len(rows), room), packed(head) + packed(rows) + data, said))


def add_ett(head, etm_id, text, room, meant=None):
    said = answered(lambda: ett(head, etm_id, text, room), room)
    assert meant is None or said.startswith(meant), (meant, said)
    vectors.append((ETT_OP, (etm_id, 0, room), packed(head) + text, said))


HEAD = (7, 3, 1, 0, 0)
TEA = made([plain(b"Tea")])
ADVISED = bytes([0x87, 6, 0xC1, 1, 1, 0, 0xF3, 0])  # region 1, dimension 0, value 3, no text
ROOM = 4200


def row(event=5, start=1000, etm=0, seconds=1800, title=(0, 0), listed=(0, 0)):
    return [event, start, etm, seconds, *title, *listed]


# ---- the section of P9, byte by byte as SCOPE 1.3, 2.4, 4.1 and 8.2 have it
P9 = [
    0xCB, 0xF0, 34, 0, 7, 0xC7, 0, 0, 0,  # header: section_length 34, source 7, version 3, current, section 0 of 0
    1, 0xC0, 5, 0, 0, 3, 232, 0xC0, 7, 8,  # one event: event_id 5, start 1000, length 1800
    11, 1, 0x65, 0x6E, 0x67, 1, 0, 0, 3, 0x54, 0x65, 0x61,  # title: one string, "eng", one segment, plain, "Tea"
    0xF0, 0,  # no descriptors
    0xCF, 0x03, 0x90, 0x0B,  # the checksum
]
assert len(P9) == 37 and register(P9) == 0 and bytes(P9) == eit(HEAD, 1, row(title=(0, 11)), TEA, ROOM)
shown = answered(lambda: bytes(P9), 37, lambda buffer: " ".join(map(str, buffer)))
vectors.append((SHOWN_OP, (1, 8, 37), packed(HEAD) + packed(row(title=(0, 11))) + TEA, shown))
add_eit(HEAD, 1, row(title=(0, 11)), TEA, 36, "refused 24")
add_eit(HEAD, 0, [], b"", ROOM, "written 14")
add_eit(HEAD, 1, row(title=(0, 11), listed=(11, 8)), TEA + ADVISED, ROOM, "written 45")
add_ett(HEAD, 0x00070002, TEA, ROOM, "written 28")
add_ett(HEAD, 0x00070002, TEA, 28, "written 28")
add_ett(HEAD, 0x00070002, TEA, 27, "refused 24")
add_ett(HEAD, 1, b"\x00", ROOM, "written 18")

# ---- 23: each number at its edge, and one above it
HEADS = [(0, 65535), (1, 31), (2, 1), (3, 255), (4, 255)]
for place, most in HEADS:
    for value, meant in (most, "written"), (most + 1, "refused 23"):
        head = list(HEAD)
        head[place] = value
        if place == 3:
            head[4] = 255
        add_eit(head, 0, [], b"", ROOM, meant)
        if place < 3:
            add_ett(head, 1, TEA, ROOM, meant)
for name, most in ("event", 16383), ("start", 2**32 - 1), ("etm", 3), ("seconds", 2**20 - 1):
    add_eit(HEAD, 1, row(**{name: most}), b"", ROOM, "written")
    if name != "start":  # 32 bits hold no number above
        add_eit(HEAD, 1, row(**{name: most + 1}), b"", ROOM, "refused 23")
        add_eit(HEAD, 2, row() + row(**{name: most + 1}), b"", ROOM, "refused 23")
add_ett(HEAD, 2**32 - 1, TEA, ROOM, "written")
add_ett(HEAD, 2**32, TEA, ROOM, "refused 23")
LONG = made([plain(bytes(247))])
assert len(LONG) == 255
add_eit(HEAD, 1, row(title=(0, 255)), LONG, ROOM, "written")
add_eit(HEAD, 1, row(title=(0, 256)), LONG + b"\x00", ROOM, "refused 23")
OPAQUE = bytes([0x80, 255]) + bytes(255)
LISTED = OPAQUE * 15 + bytes([0x80, 213]) + bytes(213)
assert len(LISTED) == 4070
add_eit(HEAD, 1, row(listed=(0, 4070)), LISTED, ROOM, "written 4096")
add_eit(HEAD, 1, row(listed=(0, 4071)), OPAQUE * 15 + bytes([0x80, 214]) + bytes(214), ROOM, "refused 24")
add_eit(HEAD, 1, row(listed=(0, 4095)), OPAQUE * 15 + bytes([0x80, 238]) + bytes(238), ROOM, "refused 24")
add_eit(HEAD, 1, row(listed=(0, 4096)), OPAQUE * 15 + bytes([0x80, 239]) + bytes(239), ROOM, "refused 23")
add_eit(HEAD, 255, row() * 255, b"", ROOM, "written 3074")
add_eit(HEAD, 256, row() * 256, b"", ROOM, "refused 23")

# ---- 8
add_eit((7, 3, 1, 3, 3), 0, [], b"", ROOM, "written")
add_eit((7, 3, 1, 4, 3), 0, [], b"", ROOM, "refused 8")
add_ett((7, 3, 1, 0, 1), 1, TEA, ROOM, "refused 8")
add_ett((7, 3, 1, 1, 0), 1, TEA, ROOM, "refused 8")

# ---- 9
BROKEN = [b"\x01", TEA[:-1], TEA + b"\x00", b"\x00\x00"]
for t in BROKEN:
    add_eit(HEAD, 1, row(title=(0, len(t))), t, ROOM, "refused 9")
    add_eit(HEAD, 2, row() + row(title=(0, len(t))), t, ROOM, "refused 9")
    add_ett(HEAD, 1, t, ROOM, "refused 9")
add_ett(HEAD, 1, b"", ROOM, "refused 9")
for d in b"\x80", b"\x80\x01", ADVISED[:-1], ADVISED[:1] + b"\x07" + ADVISED[2:] + b"\x00", bytes([0x87, 0]):
    add_eit(HEAD, 1, row(listed=(0, len(d))), d, ROOM, "refused 9")
for place in "title", "listed":
    add_eit(HEAD, 1, row(**{place: (0, 0)}), b"", ROOM, "written")
    add_eit(HEAD, 1, row(**{place: (1, 0)}), b"", ROOM, "refused 9")
    add_eit(HEAD, 1, row(**{place: (2**32 - 1, 255)}), TEA, ROOM, "refused 9")
add_eit(HEAD, 1, row(title=(1, 11)), TEA, ROOM, "refused 9")
add_eit(HEAD, 1, [], b"", ROOM, "refused 9")
add_eit(HEAD, 1, row()[:7], b"", ROOM, "refused 9")
add_eit(HEAD, 1, row() + [0], b"", ROOM, "refused 9")
add_eit(HEAD, 0, row(), b"", ROOM, "refused 9")

# ---- 24
add_ett(HEAD, 1, made([plain(bytes(255))] * 15 + [plain(bytes(201))]), ROOM, "written 4096")
add_ett(HEAD, 1, made([plain(bytes(255))] * 15 + [plain(bytes(202))]), ROOM, "refused 24")
add_ett(HEAD, 1, made([plain(bytes(255))] * 15 + [plain(bytes(201))]), 4095, "refused 24")
add_eit(HEAD, 1, row(listed=(0, 4070)), LISTED, 4095, "refused 24")
add_eit(HEAD, 0, [], b"", 0, "refused 24")

# ---- two faults: the lower number of the order 23, 8, 9, 24 is given
add_eit((7, 32, 1, 4, 3), 0, [], b"", ROOM, "refused 23")
add_eit((7, 3, 1, 4, 3), 2, row() + row(event=16384), b"", ROOM, "refused 23")
add_eit(HEAD, 2, row(event=16384), b"", ROOM, "refused 23")
add_eit(HEAD, 2, row(title=(9, 9)) + row(etm=4), b"", ROOM, "refused 23")
add_eit(HEAD, 1, row(title=(0, 256)), bytes(256), ROOM, "refused 23")
add_eit((7, 3, 1, 4, 3), 1, row(title=(0, 1)), b"\x01", ROOM, "refused 8")
add_eit((7, 3, 1, 4, 3), 1, [], b"", ROOM, "refused 8")
add_eit(HEAD, 1, row(title=(0, 1)), b"\x01", 0, "refused 9")
add_eit(HEAD, 2, row(listed=(0, 4070)) + row(title=(4070, 1)), LISTED + b"\x01", ROOM, "refused 9")
add_ett((7, 32, 1, 0, 1), 1, b"", 0, "refused 23")
add_ett((7, 3, 1, 0, 1), 1, b"", 0, "refused 8")
add_ett(HEAD, 1, b"", 0, "refused 9")

# ---- random sections up to the limits, and those with one fault
chance = random.Random(65)


def random_text(most):
    """A text of at most so many bytes, or none."""
    segments, left = [], min(most, chance.choice((0, 20, 80, 255))) - 5
    while left >= 3 and len(segments) < 4:
        data = bytes(chance.randrange(256) for _ in range(chance.randrange(min(left - 3, 255) + 1)))
        segments.append(chance.choice((plain(data), (chance.randrange(256), chance.randrange(256), data))))
        left -= 3 + len(data)
    return made(segments) if segments else chance.choice((b"", b"\x00"))[:max(most, 0)]


def random_list(most):
    out = b""
    while chance.random() < 0.6:
        if chance.random() < 0.3:
            regions = [bytes([chance.randrange(4), 1, chance.randrange(8), chance.randrange(256), 0]) for _ in range(chance.randrange(3))]
            content, tag = bytes([0xC0 | len(regions)]) + b"".join(regions), 0x87
        else:
            content, tag = bytes(chance.randrange(256) for _ in range(chance.choice((0, 3, 40, 255)))), chance.choice((0x80, 0x81, 0xA0))
        if len(out) + 2 + len(content) > most:
            break
        out += bytes([tag, len(content)]) + content
    return out


def random_eit():
    """Rows and bytes of a section that is mostly sound; parts stand in the bytes in any order, with gaps."""
    rows, data, left = [], b"", chance.choice((100, 1000, 4082))
    count = 0
    while count < 255 and left >= 12 and chance.random() < 0.95:
        title = random_text(min(left - 12, 255))
        listed = random_list(left - 12 - len(title))
        left -= 12 + len(title) + len(listed)
        places = []
        for part in (title, listed):
            data += bytes(chance.randrange(3))
            places.append((len(data), len(part)))
            data += part
        rows += row(chance.randrange(1 << 14), chance.randrange(1 << 32), chance.randrange(4), chance.randrange(1 << 20), *places)
        count += 1
    return count, rows, data


def random_head(last):
    number = chance.randrange(last + 1)
    return chance.randrange(1 << 16), chance.randrange(32), chance.randrange(2), number, chance.randrange(number, last + 1)


for _ in range(400):
    count, rows, data = random_eit()
    head = random_head(255)
    if rows and chance.random() < 0.3:
        rows[chance.randrange(len(rows))] += chance.choice((1, 2, 200))
        rows = [n % (1 << 32) for n in rows]
    add_eit(head, count, rows, data, chance.choice((ROOM, ROOM, 4096, 500)))
for _ in range(200):
    text = random_text(255) or made([wide("Tea")])
    if chance.random() < 0.2:
        text = text[:-1]
    add_ett(random_head(0), chance.randrange(1 << 32), text, chance.choice((ROOM, 100)))
