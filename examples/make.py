#!/usr/bin/env python3
"""Makes the examples and what the lister prints of them, or compares the files with what it makes (--check)."""
import datetime
import pathlib
import sys

HERE = pathlib.Path(__file__).resolve().parent
sys.path.insert(0, str(HERE.parent / "tests"))
from annex_c_coder import encode, pack
from body_vectors import descriptor, dimension, eit, event, joined, list10, list12, mgt, number, rrt, tvct, value
from lister import MARK, listed
from sections import EIT, ETT, MGT, RRT, TVCT, section
from texts import made, packed, plain, wide

BASE, EVENTS, TEXTS = 0x1FFB, 0x1D00, 0x1E00  # PIDs


def record(pid, s):
    return MARK + pid.to_bytes(2, "big") + s


def whole(table_id, fields, **words):
    return section(table_id, joined(fields), **words)


# ---- two_eits: the example of SCOPE 8.2; its output is written out, so that it hangs on no program
TWO_EITS = b"".join(record(EVENTS, s) for s in (
    whole(EIT, eit([event(made([plain(b"Tea")]), event_id=5, start=1000, length=1800)]), extension=7, version=3),
    whole(EIT, eit([]), extension=8, version=3),
))
TWO_EITS_LISTED = b"""\
guide lister
0 pid 7424 eit 7 v3 0/0 events 1
event 5 start 1000 length 1800 title "Tea"
1 pid 7424 eit 8 v3 0/0 events 0
end 2
"""

# ---- all_kinds: a morning of a small guide, with every sort of title
MORNING = datetime.datetime(2026, 11, 16, 8, 30)
LEAP_SECONDS = 18  # start_time counts seconds since 1980-01-06, leap seconds included


def at(minutes):
    start = MORNING + datetime.timedelta(minutes=minutes) - datetime.datetime(1980, 1, 6)
    return int(start.total_seconds()) + LEAP_SECONDS


def programmes(first, titles, advisory=b""):
    """Events one after the other, 20 minutes each; the first of them is the day's event `first`."""
    return eit([event(title, advisory, n, at(20 * (n - 1)), 20 * 60) for n, title in enumerate(titles, first)])


def table(table_type, pid, version, sections):
    return (number("table_type", table_type, 2) + number("PID", pid, 2) + number("table_version", version)
            + number("number_bytes", sum(map(len, sections)), 4) + list12(b""))


def channel(name, major, minor, source):
    return ([("short_name", name.ljust(7, "\0").encode("utf-16-be"))] + number("major_minor", major << 10 | minor, 3)
            + number("modulation", 4) + number("carrier", 0, 4) + number("channel_TSID", 0x0BEE, 2)
            + number("program_number", minor + 2, 2) + number("flags_type", 1 << 14 | 2, 2) + number("source_id", source, 2)
            + list10(b""))


def about(source, event_id, text):
    """An event's own text: its ETM_id is made of the source and the event."""
    return number("ETM_id", source << 16 | event_id << 2 | 2, 4) + [("text", text)]


SUITS_ALL = descriptor(0x87, b"\xc1\x05\x01\x00\xf1" + bytes([15]) + made([plain(b"For all")]))
LESSONS = [
    made([plain(b"Morning News for Schools")]),
    made([wide("Mañana: los números")]),
    made([packed(1, b"The Nature Club")]),
    made([packed(2, b"A story of bees and honey.")]),
    made([plain(b"Sums with "), wide("π"), packed(1, b" at the Garden Gate")]),
    made([plain(b'Poems: "The Tyger"')]),
    made([plain(b"Weather")], [plain(b"El tiempo")]),
]
BLANKS = [
    b"",  # none
    b"\0",  # no strings
    made([]),  # a string without segments
    made([(1, 0xFF, pack(encode(1, b"The Nature Club")))]),  # 10: compressed segments have mode 0
    made([(2, 0, pack(encode(2, b"Life in the pond", end=False)))]),  # 11: the bits end early
]
DAY = whole(EIT, programmes(1, LESSONS, SUITS_ALL), extension=7, version=12, last=1)
LATER = whole(EIT, programmes(8, BLANKS), extension=7, version=12, number=1, last=1)
SILENT = whole(EIT, eit([]), extension=8, version=12)
ABOUT = whole(ETT, about(7, 1, made([plain(b"News of the week, read by pupils.")])), version=5)
CHANNELS = whole(TVCT, tvct([channel("SCHOOL1", 7, 1, 7), channel("SCHOOL2", 7, 2, 8)]), extension=0x0BEE, version=2)
RATINGS = whole(RRT, rrt(made([plain(b"School co-operative")]), [dimension(made([plain(b"Age")]), [
    value(made([plain(short)]), made([plain(long)]))
    for short, long in ((b"", b"Not rated"), (b"All", b"For all"), (b"7", b"From seven"), (b"10", b"From ten"))
], graduated=1)]), extension=0xFF05, version=1)
MASTER = whole(MGT, mgt([
    table(0x0000, BASE, 2, [CHANNELS]), table(0x0100, EVENTS, 12, [DAY, LATER, SILENT]),
    table(0x0200, TEXTS, 5, [ABOUT]), table(0x0305, BASE, 1, [RATINGS]),
]), version=9)
ALL_KINDS = b"".join(record(pid, s) for pid, s in (
    (BASE, MASTER), (BASE, CHANNELS), (BASE, RATINGS), (EVENTS, DAY), (EVENTS, LATER), (EVENTS, SILENT), (TEXTS, ABOUT),
    (EVENTS, DAY[:-1] + bytes([DAY[-1] ^ 1])),  # 6: a bit of the checksum is wrong
    (8192, SILENT),  # 15
))

# ---- the day sheets that examples/c/day_sheet.c prints, written out, so that they hang on no program
DAY_SHEET = """\
7.1 SCHOOL1
  %d for 1200 s: "Morning News for Schools", Age: All
  %d for 1200 s: "Mañana: los números", Age: All
  %d for 1200 s: "The Nature Club", Age: All
  %d for 1200 s: "A story of bees and honey.", Age: All
  %d for 1200 s: "Sums with π at the Garden Gate", Age: All
  %d for 1200 s: "Poems: "The Tyger"", Age: All
  %d for 1200 s: "Weather", Age: All
  %d for 1200 s: no title, not rated
  %d for 1200 s: a title without text, not rated
  %d for 1200 s: "", not rated
  %d for 1200 s: a title that is not readable (10), not rated
  %d for 1200 s: a title that is not readable (11), not rated
7.2 SCHOOL2
  no programmes
""" % tuple(at(20 * n) for n in range(12))

# half_heard: the same guide when one of two sections of SCHOOL1 and the ratings are still to come
ONE = whole(EIT, programmes(1, LESSONS[:1], SUITS_ALL), extension=8, version=12)
HALF_HEARD = b"".join(record(pid, s) for pid, s in ((EVENTS, DAY), (BASE, CHANNELS), (EVENTS, ONE), (BASE, MASTER)))
HALF_SHEET = """\
7.1 SCHOOL1
  not yet heard
7.2 SCHOOL2
  %d for 1200 s: "Morning News for Schools", rating not yet heard
""" % at(0)

# rt runs the lister on its crate's own stdin: the first example
LISTER = HERE.parent / "crates" / "lister"
for path, data in ((HERE / "two_eits.bin", TWO_EITS), (HERE / "two_eits.txt", TWO_EITS_LISTED),
                   (LISTER / "stdin", TWO_EITS), (LISTER / "stdout", TWO_EITS_LISTED),
                   (HERE / "all_kinds.bin", ALL_KINDS), (HERE / "all_kinds.txt", listed(ALL_KINDS)),
                   (HERE / "c" / "all_kinds.txt", DAY_SHEET.encode()),
                   (HERE / "half_heard.bin", HALF_HEARD), (HERE / "half_heard.txt", listed(HALF_HEARD)),
                   (HERE / "c" / "half_heard.txt", HALF_SHEET.encode())):
    if sys.argv[1:] != ["--check"]:
        path.write_bytes(data)
    elif path.read_bytes() != data:
        sys.exit("%s is not what examples/make.py makes" % path)
if listed(TWO_EITS) != TWO_EITS_LISTED:
    sys.exit("tests/lister.py does not give examples/two_eits.txt")
