#!/usr/bin/env python3
"""Vectors for test 9, the bodies of sections, with the answers that the rules give.

Run by itself it says how many vectors there are of each sort; test_judging.py writes them out.
Each vector but the random ones says which answer it is meant to have, the offset of a failure by
where the fault was put, and the rules, written out in bodies.py, must agree.
"""
import collections
import random

from bodies import section_outcome
from sections import EIT, ETT, KINDS, MGT, RRT, TVCT, sealed, section

HEAD = {"extension": 0x0107, "version": 3, "current": 1, "number": 0, "last": 0}
RESERVED = {  # field: its reserved bits
    "PID": 0xE000, "table_version": 0xE0, "list12": 0xF000, "major_minor": 0xF00000,
    "list10": 0xFC00, "values": 0xE0, "event_id": 0xC000, "ETM_duration": 0xC00000,
}
vectors = []  # (sort, asked, bytes, answer)


# ---- a body is a list of fields (name, bytes), without their reserved bits
def number(name, n, size=1):
    return [(name, n.to_bytes(size, "big"))]


def text(t):
    return number("text_length", len(t)) + [("text", t)]


def list10(d):
    return number("list10", len(d), 2) + [("list", d)]


def list12(d):
    return number("list12", len(d), 2) + [("list", d)]


def table(d=b"", table_type=0x0100):
    return (number("table_type", table_type, 2) + number("PID", 0x1D00, 2)
            + number("table_version", 3) + number("number_bytes", 37, 4) + list12(d))


def mgt(tables, d=b""):
    return number("count", len(tables), 2) + sum(tables, []) + list12(d)


def channel(d=b"", short_name="WSPG-TV", flags_type=0x0002):
    """`flags_type`: ETM_location, access_controlled, hidden, the six bits, service_type."""
    return ([("short_name", short_name.encode("utf-16-be"))]
            + number("major_minor", 7 << 10 | 1, 3) + number("modulation", 4)
            + number("carrier", 0, 4) + number("channel_TSID", 0x0BEE, 2)
            + number("program_number", 3, 2) + number("flags_type", flags_type, 2)
            + number("source_id", 7, 2) + list10(d))


def tvct(channels, d=b""):
    return number("count", len(channels)) + sum(channels, []) + list10(d)


def value(short=b"", long=b""):
    return text(short) + text(long)


def dimension(name, values, graduated=0):
    return text(name) + number("values", graduated << 4 | len(values)) + sum(values, [])


def rrt(name, dimensions, d=b""):
    return text(name) + number("count", len(dimensions)) + sum(dimensions, []) + list10(d)


def event(title=b"", d=b"", event_id=5, start=1000, length=1800):
    return (number("event_id", event_id, 2) + number("start_time", start, 4)
            + number("ETM_duration", length, 3) + text(title) + list12(d))


def eit(events):
    return number("count", len(events)) + sum(events, [])


def ett(t):
    return number("ETM_id", 0x00070016, 4) + [("text", t)]


def over(data):
    return [("over", data)]


def joined(fields, ones=-1):
    """The body's bytes. Every field's reserved bits are the low bits of `ones`: -1 sets them all."""
    out = b""
    for name, data in fields:
        mask = RESERVED.get(name, 0)
        n = int.from_bytes(data, "big") | ones * (mask & -mask) & mask
        out += n.to_bytes(len(data), "big")
    return out


def index(fields, name, k):
    return [i for i, field in enumerate(fields) if field[0] == name][k]


def place(fields, name, k=0):
    """The offset in the section of the k-th field of that name."""
    return end(fields[:index(fields, name, k)])


def end(fields):
    return 9 + len(joined(fields))


def off(fields, name, by, k=0):
    """The k-th length or count of that name says `by` more than there is."""
    i = index(fields, name, k)
    data = fields[i][1]
    return (fields[:i] + number(name, int.from_bytes(data, "big") + by, len(data))
            + fields[i + 1:])


# ---- texts and descriptor lists are bytes
def string(*segments, language=b"eng"):
    return language + bytes([len(segments)]) + b"".join(
        bytes([0, 0, len(segment)]) + segment for segment in segments)


def strings(*them):
    return bytes([len(them)]) + b"".join(them)


def text_of(n):
    return strings(string(bytes(n - 8)))


def descriptor(tag, content):
    return bytes([tag, len(content)]) + content


def advisory(*regions, r=3):
    return descriptor(0x87, bytes([r << 6 | len(regions)]) + b"".join(regions))


def region(number, pairs, text=b""):
    """The reserved bits before a value are its bits inverted."""
    rows = b"".join(bytes([dimension, (value ^ 15) << 4 | value]) for dimension, value in pairs)
    return bytes([number, len(pairs)]) + rows + bytes([len(text)]) + text


def list_of(n):
    return descriptor(0x80, bytes(255)) * (n // 257) + descriptor(0x80, bytes(n % 257 - 2))


def put(data, i, byte):
    return data[:i] + bytes([byte]) + data[i + 1:]


# ---- vectors and the answers that they are meant to have
def made(table_id, fields, ones=-1, **words):
    return section(table_id, joined(fields, ones), **{
        "flags": 0xC | ones & 3, "reserved": ones & 3, **HEAD, **words})


def add(meant, s, asked=0):
    said = section_outcome(s, asked)
    assert said == meant, (sort, meant, said, s[:80].hex())
    vectors.append((sort, asked, s, said))


def passes(table_id, fields, asked=0, size=None, **words):
    """`size`: the section_length that the vector is meant to have."""
    s = made(table_id, fields, **words)
    assert size in (None, len(s) - 3), (size, len(s) - 3)
    add((table_id, *({**HEAD, **words}[word] for word in HEAD)), s, asked)


def fails(at, table_id, fields, asked=0, **words):
    add(("9", at), made(table_id, fields, **words), asked)


TEA = b"\1eng\1\0\0\3Tea"
TWO = b"\2eng\1\0\0\3Teafra\1\0\0\2th"
D = b"\x80\2ab"
ADVISORY = b"\xc1\1\1\0\xf3\x0b" + TEA
RATED = descriptor(0x87, ADVISORY)  # 19 bytes
BLANK = dimension(b"", [value()])
SMALLEST = {MGT: mgt([]), TVCT: tvct([]), RRT: rrt(b"", [BLANK]), EIT: eit([]), ETT: ett(b"\0")}
SAMPLES = {
    MGT: mgt([table(D), table(), table(D)], D),
    TVCT: tvct([channel(D), channel(), channel(D)], D),
    RRT: rrt(TEA, [dimension(TEA, [value(TEA, TEA), value()], graduated=1),
                   dimension(b"", [value(), value(TEA, b"\0")])], D),
    EIT: eit([event(TEA, RATED + D), event(b"\0", D), event()]),
    ETT: ett(strings(string(b"Tea", b"", b" at ten"), string(), string(b"th", language=b"fra"))),
}

sort = "sound and small"
for table_id, (_, smallest, _, _) in KINDS.items():
    for ones in (0, -1):
        passes(table_id, SMALLEST[table_id], ones=ones, size=smallest)
        passes(table_id, SAMPLES[table_id], ones=ones)
passes(EIT, eit([event(TEA)]), size=34)
passes(EIT, eit([event(), event(b"\0"), event(TEA)]), number=3, last=3, current=0)
passes(EIT, SAMPLES[EIT], extension=0xFFFF, version=31, number=0, last=255)
passes(TVCT, SAMPLES[TVCT], extension=0, version=0, number=255, last=255)

sort = "sound and large"
passes(MGT, mgt([table()] * 370, list_of(9)), size=4093)
passes(MGT, mgt([table()] * 256), ones=0)
passes(MGT, mgt([table(list_of(4068))]), size=4093)
passes(MGT, mgt([], list_of(4079)), size=4093)
passes(MGT, mgt([], b"\x80\0" * 2039), size=4092)
passes(TVCT, tvct([channel()] * 31, list_of(16)), size=1021)
passes(TVCT, tvct([channel(list_of(976))]), size=1021)
passes(TVCT, tvct([], list_of(1008)), size=1021)
passes(RRT, rrt(b"", [dimension(b"", [value()] * 15)] * 31, list_of(15)), size=1021)
passes(RRT, rrt(b"", [BLANK] * 251, list_of(3)), size=1021)
FULL = text_of(255)
passes(RRT, rrt(FULL, [dimension(FULL, [value(FULL, text_of(238))])]), size=1021)
passes(EIT, eit([event(FULL)] * 2 + [event(b"", list_of(512))] + [event()] * 252), size=4093)
passes(EIT, eit([event()] * 255), size=3071)
passes(EIT, eit([event(b"", list_of(4070))]), size=4093)
passes(EIT, eit([event(b"", b"\x80\0" * 2035)]), size=4093)
passes(EIT, eit([event(b"", b"\x87\1\xc0" * 1356)]), size=4091)
LONGEST = strings(string(*[bytes(255)] * 15, bytes(201)))
passes(ETT, ett(LONGEST), size=4093)
passes(ETT, ett(strings(*[string()] * 255)))
passes(ETT, ett(strings(*[string(b"", b"", b"")] * 255)))
passes(ETT, ett(strings(string(*[b""] * 255))))

sort = "faulty at the end of the largest"
fails(4092, MGT, mgt([table(list_of(4070))])[:-2])
fails(4091, MGT, mgt([], list_of(4078)) + over(b"\0"))
fails(1020, TVCT, tvct([channel(list_of(978))])[:-2])
fails(1019, TVCT, tvct([], list_of(1007)) + over(b"\0"))
fails(1020, RRT, rrt(FULL, [dimension(FULL, [value(FULL, text_of(240))])])[:-2])
fails(1019, RRT, rrt(b"", [BLANK] * 251, list_of(2)) + over(b"\0"))
fails(4092, EIT, off(eit([event(b"", list_of(4070))]), "count", 1))
fails(4091, EIT, eit([event(b"", list_of(4069))]) + over(b"\0"))
fails(3068, EIT, off(eit([event()] * 255), "list12", 1, -1))
fails(3058, EIT, off(eit([event()] * 254), "count", 1))
fails(4092, ETT, ett(put(LONGEST, 0, 2)))
fails(4091, ETT, ett(strings(string(*[bytes(255)] * 15, bytes(200))) + b"\0"))
fails(1030, ETT, ett(put(strings(*[string()] * 255), 0, 254)))
fails(780, ETT, ett(put(strings(string(*[b""] * 255)), 4, 254)))

sort = "text"
TEXT_CUTS = [0, 1, 1, 1, 4, 5, 6, 7, 7, 7, 7]  # the field to blame where so much of TEA is there
SOUND_TEXTS = [
    b"\0", TEA, TWO, strings(string()), strings(string(b"")), strings(string(b"a", b"", b"c")),
    b"\1\0\0\0\1\3\x55\2ab", b"\1\xff\xff\xff\1\0\x3f\3abc", b"\1eng\2\1\0\0\2\xff\1a",
    strings(*[string()] * 62), strings(string(*[b""] * 82)), text_of(251),
]
FAULTY_TEXTS = [(TEA[:n], TEXT_CUTS[n]) for n in range(1, 11)] + [
    (b"\0\0", 1), (b"\0" + TEA, 1), (TEA + b"\0", 11), (TEA + TEA, 11),
    (put(TEA, 0, 0), 1), (put(TEA, 0, 2), 11), (put(TEA, 0, 255), 11),
    (put(TEA, 4, 0), 5), (put(TEA, 4, 2), 11), (put(TEA, 4, 255), 11),
    (put(TEA, 7, 0), 8), (put(TEA, 7, 2), 10), (put(TEA, 7, 4), 7), (put(TEA, 7, 255), 7),
    (put(TWO, 0, 1), 11), (put(TWO, 0, 3), 20),
    (put(TWO, 4, 0), 11), (put(TWO, 4, 2), 13), (put(TWO, 7, 2), 19), (put(TWO, 7, 4), 16),
    (put(TWO, 14, 0), 15), (put(TWO, 14, 2), 20), (put(TWO, 17, 1), 19), (put(TWO, 17, 3), 17),
    (put(text_of(251), 7, 242), 250), (put(text_of(251), 7, 244), 7),
]


def with_text(t):
    """Sections with the text in each place for one, and its offset."""
    yield EIT, eit([event(t)]), 20
    yield EIT, eit([event(b"", descriptor(0x87, b"\xc1\1\0" + bytes([len(t)]) + t))]), 28
    yield ETT, ett(t), 13
    yield RRT, rrt(t, [BLANK]), 10
    yield RRT, rrt(b"", [dimension(t, [value()])]), 12
    yield RRT, rrt(b"", [dimension(b"", [value(t, b"")])]), 14
    yield RRT, rrt(b"", [dimension(b"", [value(b"", t)])]), 15


for t in SOUND_TEXTS:
    for table_id, fields, _ in with_text(t):
        passes(table_id, fields)
for t, fault in FAULTY_TEXTS:
    for table_id, fields, at in with_text(t):
        fails(at + fault, table_id, fields)

sort = "descriptor list"
SOUND_LISTS = [
    b"\x80\0", b"\0\0", b"\xff\0", b"\x80\1\0", D + D, descriptor(0x80, bytes(255)),
    b"\x80\2\x87\0", b"\xa0\1\1", b"\xa3\2\0\0" + D,
    b"".join(bytes([tag, 0]) for tag in range(256) if tag != 0x87),
]
FAULTY_LISTS = [
    (b"\x80", 1), (b"\0", 1), (b"\x87", 1), (b"\x80\1", 1), (b"\x80\3ab", 1),
    (b"\x80\xff" + bytes(254), 1), (b"\x80\1ab", 4), (b"\x80\0ab", 3), (b"\x80\0\0", 3),
    (D + b"\x80", 5), (D + b"\x80\1", 5), (b"\x80\2\x87\0\x87", 5), (b"\x87\3\xc0\0", 1),
]


def with_list(d):
    """Sections with the list in each place for one, and its offset."""
    yield MGT, mgt([table(d)]), 22
    yield MGT, mgt([], d), 13
    yield TVCT, tvct([channel(d)]), 42
    yield TVCT, tvct([], d), 12
    yield RRT, rrt(b"", [BLANK], d), 17
    yield EIT, eit([event(b"", d)]), 22


for d in SOUND_LISTS:
    for table_id, fields, _ in with_list(d):
        passes(table_id, fields)
for d, fault in FAULTY_LISTS:
    for table_id, fields, at in with_list(d):
        fails(at + fault, table_id, fields)

sort = "advisory"
SOUND_ADVISORIES = [
    b"\0", b"\x40", b"\x80", b"\xc0", b"\1\1\0\0", b"\xc1\1\0\0", b"\1\1\1\0\3\0",
    b"\xc1\1\1\0\xf3\0", b"\xc1\1\0\1\0", ADVISORY, b"\xc2\1\1\0\xf3\0\1\0\0",
    b"\x3f" + b"\1\0\0" * 63, b"\xff" + b"\1\0\0" * 63, b"\xc1\1\x7d" + b"\0\xff" * 125 + b"\0",
    b"\xc1\1\0\xfb" + text_of(251),
]
FAULTY_ADVISORIES = [(ADVISORY[:n], min(n, 5)) for n in range(17)] + [
    (ADVISORY + b"\0", 17), (b"\0\0", 1), (b"\xc0\xff", 1),
    (put(ADVISORY, 0, 0xC0), 1), (put(ADVISORY, 0, 0xC2), 17), (put(ADVISORY, 0, 0x3F), 17),
    (b"\xc2\1\0\0", 4), (b"\xc1\1\0\0\2\0\0", 4),
    (b"\xc1\1\0\0\xf3\0", 4), (b"\xc1\1\0\xc8\xf3\0", 3), (b"\xc1\1\2\0\xf3\0", 6),
    (b"\xc1\1\xff\0\xf3\0", 6), (put(ADVISORY, 2, 2), 7),
    (put(ADVISORY, 5, 0), 6), (put(ADVISORY, 5, 10), 13), (put(ADVISORY, 5, 12), 5),
    (put(ADVISORY, 5, 255), 5),
    (b"\xc2\1\1\0\xf3\0\2\0\1", 8), (b"\xc2\1\0\2\0\0\2\0\0", 5), (b"\xc2\1\0\1\0\2\0\2\0\0", 9),
]
for content in SOUND_ADVISORIES:
    passes(EIT, eit([event(TEA, descriptor(0x87, content))]))
for content, fault in FAULTY_ADVISORIES:
    fails(24 + fault, EIT, eit([event(b"", descriptor(0x87, content)), event()]))
for d in (b"\x87\0", b"".join(descriptor(0x87, content) for content, _ in FAULTY_ADVISORIES)):
    for table_id, fields, _ in with_list(d):
        if table_id != EIT:
            passes(table_id, fields)
for d, fault in (
    (RATED + b"\x87\0", 21), (b"\x87\0" + RATED, 2), (D + b"\x87\0", 6),
    (b"\x87\1\xc0\x87\2\xc0\0", 6), (RATED + RATED + b"\x87", 39),
    (put(RATED, 1, 16), 7), (put(RATED, 1, 18), 1), (put(RATED, 1, 18) + D, 19),
):
    fails(22 + fault, EIT, eit([event(b"", d)]))
    fails(34 + fault, EIT, eit([event(), event(b"", d)]))

sort = "cut"
TABLE = [0, 0, 2, 2, 4] + [5] * 4 + [9, 9]  # the field to blame where so much of the entry is there
CHANNEL = [0] * 14 + [14, 14, 15, 17] + [18] * 4 + [22, 22, 24, 24, 26, 26, 28, 28, 30, 30]
EVENT = [0, 0] + [2] * 4 + [6] * 3 + [9]


def cut(table_id, fields, *parts):
    """The body ends at each byte. `parts`: where each begins in the body, whom to blame in it."""
    body = joined(fields)
    blamed = [start + at for start, part in parts for at in part]
    assert len(blamed) == len(body)
    for n in range(KINDS[table_id][1] - 10, len(body)):
        fails(9 + blamed[n], table_id, [("cut", joined(fields, -(n % 2))[:n])])


cut(MGT, mgt([table(), table(D)], D), (0, [0] * 2), (2, TABLE), (13, TABLE + [9] * 4), (28, [0] * 6))
cut(TVCT, tvct([channel(), channel(D)], D), (0, [0]), (1, CHANNEL), (33, CHANNEL + [30] * 4),
    (69, [0] * 6))
cut(RRT, rrt(TEA, [dimension(TEA, [value(TEA, TEA)]), BLANK], D), (0, [0] * 12 + [12]),
    (13, [0] * 12 + [12]), (26, [0] * 12 + [12] * 12), (50, [0, 1, 2, 3]), (54, [0] * 6))
cut(EIT, eit([event(), event(TEA, RATED + D)]), (0, [0]), (1, EVENT + [10] * 2),
    (13, EVENT + [9] * 11 + [21] * 25))
cut(ETT, ett(TEA), (0, [0] * 4), (4, TEXT_CUTS))

sort = "left over in the body"
for sections in (SMALLEST, SAMPLES):
    for table_id, fields in sections.items():
        for data in (b"\0", b"\xff", bytes(20)):
            fails(end(fields), table_id, fields + over(data))

sort = "length or count"
p = SAMPLES[MGT]
fails(place(p, "list12", 3) + 5, MGT, off(p, "count", 1))
fails(place(p, "list12", 3) + 5, MGT, off(p, "count", 256))
fails(place(p, "table_type", 2), MGT, off(p, "count", -1))
fails(place(p, "table_type", 1) + 1, MGT, off(p, "list12", 1))
fails(place(p, "list") + 1, MGT, off(p, "list12", -1))
fails(place(p, "list12", 3) + 1, MGT, off(p, "list12", 1, 2))
fails(place(p, "list", 2) + 1, MGT, off(p, "list12", -1, 2))
fails(place(p, "list12", 3), MGT, off(p, "list12", 1, 3))
fails(place(p, "list", 3) + 1, MGT, off(p, "list12", -1, 3))
fails(place(p, "list", 3), MGT, off(p, "list12", -4, 3))
for by in (256, 512, 1024, 2048):
    for k in (0, 3):
        fails(place(p, "list12", k), MGT, off(p, "list12", by, k))
fails(13, MGT, off(mgt([]), "count", 1))
fails(13, MGT, off(mgt([]), "count", 65535))
fails(13, MGT, off(mgt([table(table_type=0)] * 256), "count", -256), ones=0)

p = SAMPLES[TVCT]
fails(place(p, "list10", 3), TVCT, off(p, "count", 1))
fails(place(p, "short_name", 2), TVCT, off(p, "count", -1))
fails(place(p, "short_name", 1) + 1, TVCT, off(p, "list10", 1))
fails(place(p, "list") + 1, TVCT, off(p, "list10", -1))
fails(place(p, "list10", 3) + 1, TVCT, off(p, "list10", 1, 2))
fails(place(p, "list", 2) + 1, TVCT, off(p, "list10", -1, 2))
fails(place(p, "list10", 3), TVCT, off(p, "list10", 1, 3))
fails(place(p, "list", 3) + 1, TVCT, off(p, "list10", -1, 3))
fails(place(p, "list", 3), TVCT, off(p, "list10", -4, 3))
for by in (256, 512):
    for k in (0, 3):
        fails(place(p, "list10", k), TVCT, off(p, "list10", by, k))
fails(10, TVCT, off(tvct([]), "count", 255))
fails(12, TVCT, off(tvct([channel(short_name="\0" * 7)]), "count", -1))

p = SAMPLES[RRT]  # text 0: region; 1: name; 2 to 5: values; 6: name; 7 to 10: values
fails(place(p, "count"), RRT, off(p, "text_length", 1))
fails(place(p, "text") + 7, RRT, off(p, "text_length", -1))
fails(place(p, "list10"), RRT, off(p, "count", 1))
fails(place(p, "list"), RRT, off(p, "count", 1), ones=0)
fails(place(p, "text_length", 6), RRT, off(p, "count", -1))
fails(place(p, "values"), RRT, off(p, "text_length", 1, 1))
fails(place(p, "text", 1) + 7, RRT, off(p, "text_length", -1, 1))
fails(place(p, "values", 1), RRT, off(p, "values", 1))
fails(place(p, "text_length", 5), RRT, off(p, "values", -1))
fails(place(p, "text_length", 3), RRT, off(p, "text_length", 1, 2))
fails(place(p, "text", 2) + 7, RRT, off(p, "text_length", -1, 2))
fails(place(p, "text_length", 4), RRT, off(p, "text_length", 1, 3))
fails(place(p, "text", 3) + 7, RRT, off(p, "text_length", -1, 3))
fails(place(p, "values", 1) + 1, RRT, off(p, "text_length", 1, 6))
fails(place(p, "list10"), RRT, off(p, "values", 1, 1))
fails(place(p, "text_length", 9), RRT, off(p, "values", -1, 1))
fails(place(p, "list10"), RRT, off(p, "text_length", 1, 10))
fails(place(p, "text", 10), RRT, off(p, "text_length", -1, 10))
for k in range(11):
    fails(place(p, "text_length", k), RRT, off(p, "text_length", 200, k))
for by in (1, 256, 512):
    fails(place(p, "list10"), RRT, off(p, "list10", by))
fails(place(p, "list") + 1, RRT, off(p, "list10", -1))
fails(place(p, "list"), RRT, off(p, "list10", -4))

p = SAMPLES[EIT]
fails(end(p), EIT, off(p, "count", 1))
fails(end(p), EIT, off(p, "count", 252))
fails(place(p, "event_id", 2), EIT, off(p, "count", -1))
fails(place(p, "event_id"), EIT, off(p, "count", -3))
fails(place(p, "list12"), EIT, off(p, "text_length", 1))
fails(place(p, "text") + 7, EIT, off(p, "text_length", -1))
fails(place(p, "list12", 1), EIT, off(p, "text_length", 1, 1))
fails(place(p, "text", 1), EIT, off(p, "text_length", -1, 1))
for ones in (0, -1):
    fails(place(p, "list12", 2) + 1, EIT, off(p, "text_length", 1, 2), ones=ones)
for k in range(3):
    fails(place(p, "text_length", k), EIT, off(p, "text_length", 200, k))
fails(place(p, "event_id", 1) + 1, EIT, off(p, "list12", 1))
fails(place(p, "list") + 20, EIT, off(p, "list12", -1))
fails(place(p, "event_id", 2) + 1, EIT, off(p, "list12", 1, 1))
fails(place(p, "list", 1) + 1, EIT, off(p, "list12", -1, 1))
fails(place(p, "list12", 2), EIT, off(p, "list12", 1, 2))
for by in (256, 512, 1024, 2048):
    for k in (0, 2):
        fails(place(p, "list12", k), EIT, off(p, "list12", by, k))
p = eit([event(TEA, D)])
fails(place(p, "list12"), EIT, off(p, "text_length", 6))
fails(place(p, "text_length"), EIT, off(p, "text_length", 7))
for by, fault in ((-1, 1), (-2, 1), (-3, 1), (-4, 0)):
    fails(place(p, "list") + fault, EIT, off(p, "list12", by))

sort = "RRT count of 0"
p = SAMPLES[RRT]
fails(place(p, "count"), RRT, off(p, "count", -2))
fails(place(p, "values"), RRT, off(p, "values", -2))
fails(place(p, "values", 1), RRT, off(p, "values", -2, 1))
fails(10, RRT, rrt(b"", [], list_of(4)))
fails(21, RRT, rrt(TEA, [], D))
fails(16, RRT, off(SMALLEST[RRT], "count", 1), ones=0)
for bits in range(16):
    fails(12, RRT, rrt(b"", [dimension(b"", [], bits & 1)], D), ones=bits >> 1)
    passes(RRT, rrt(b"", [dimension(b"", [value()], bits & 1)], D), ones=bits >> 1)

sort = "reserved bits, the six bits"
for ones in range(64):
    passes(TVCT, tvct([channel(D, flags_type=ones % 16 << 12 | ones << 6 | 63 - ones)], D), ones=ones)
for ones in range(1, 15):
    for table_id in (MGT, RRT, EIT):
        passes(table_id, SAMPLES[table_id], ones=ones)

sort = "two faults"
BAD = b"\0\0"  # as a text: a byte left over at 1
p = eit([event(BAD, b"\x87\0"), event(BAD)])
fails(21, EIT, p)
fails(21, EIT, off(p, "list12", 100))
fails(21, EIT, off(p, "count", 1))
fails(19, EIT, off(p, "text_length", 100))
p = eit([event(b"", b"\x87\2\xc0\0\x80\5"), event(BAD)])
fails(25, EIT, p)
fails(25, EIT, off(p, "count", 1))
fails(20, EIT, off(p, "list12", 100))
fails(23, EIT, eit([event(b"", b"\x80\5\x87\0")]))
fails(29, EIT, eit([event(b"", descriptor(0x87, b"\xc1\1\0\2" + BAD) + b"\x87\0")]))
fails(27, EIT, eit([event(b"", descriptor(0x87, b"\xc1\1\0\3" + BAD))]))
p = rrt(BAD, [dimension(BAD, [value(BAD, BAD)])], b"\x80")
fails(11, RRT, p)
fails(11, RRT, off(p, "count", -1))
fails(13, RRT, rrt(b"", [dimension(BAD, [])], b"\x80"))
fails(12, RRT, rrt(b"", [dimension(b"", [])], b"\x80\5"))
fails(15, RRT, off(rrt(b"", [dimension(b"", [value(BAD)])]), "text_length", 100, 3))
fails(25, MGT, mgt([table()], b"\x80") + over(b"\0"))
for by in (0, 1):
    fails(23, MGT, off(mgt([table(b"\x80"), table(b"\x80")], b"\x80"), "count", by))
    fails(43, TVCT, off(tvct([channel(b"\x80"), channel(b"\x80")], b"\x80"), "count", by))

sort = "order of the tests, and the kind asked for"
for table_id, (_, smallest, largest, most) in KINDS.items():
    p = SAMPLES[table_id]
    faulty = p + over(b"\0")
    s = made(table_id, faulty)
    add(3, made(table_id, faulty, flags=0x7))
    add(4, made(table_id, over(bytes(smallest - 11))))
    add(4, made(table_id, SMALLEST[table_id] + over(bytes(largest + 1 - smallest))))
    add(5, s + b"\0")
    add(6, put(s, len(s) - 1, s[-1] ^ 1))
    add(7, made(table_id, faulty, protocol=1))
    add(8, made(table_id, faulty, number=1))
    if most == 0:
        add(8, made(table_id, faulty, last=1))
    else:
        fails(end(p), table_id, faulty, number=1, last=1)
    for other in KINDS:
        if other != table_id:
            add(2, s, other)
    fails(end(p), table_id, faulty, table_id)
    passes(table_id, p, table_id)

sort = "random"
chance = random.Random(65)
for table_id, fields in SAMPLES.items():
    s = made(table_id, fields)[:-4]
    for _ in range(20):
        i = 9 + int(chance.random() * (len(s) - 9))
        changed = sealed(put(s, i, s[i] ^ 1 + int(chance.random() * 255)))
        add(section_outcome(changed), changed)


def answer(said):
    """The words of an answer, and the numbers after them."""
    if isinstance(said, int):
        return "refused %d" % said, ""
    if said[0] == "9":
        return "refused 9", " at %d" % said[1]
    return "passes", "".join(" %d" % n for n in said)


if __name__ == "__main__":
    rows = collections.defaultdict(collections.Counter)
    for column in range(3):
        for sort, _, s, said in vectors:
            row = (sort, KINDS[s[0]][0], "all")[column]
            rows[row].update((answer(said)[0], "all"))
    columns = sorted(rows["all"])
    print("%-42s" % "" + "".join("%10s" % column for column in columns))
    for row, counts in rows.items():
        print("%-42s" % row + "".join("%10d" % counts[column] for column in columns))
