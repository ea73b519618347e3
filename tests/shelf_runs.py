"""Histories of random calls on shelves of all sizes, with what docs/SCOPE.md says after each call; test_shelf.py writes them out.

The shelf is written out here from SCOPE 5 and from nothing of the library: a list of watches, for each place what it holds,
and the lent area. After each call the line has the answer, a digest of all records and places, and a digest of the whole area, whose
bytes stay where nothing is stored. Adler-32 serves, and no checksum register: that cannot tell one sound section from another of its
length.
"""
import collections
import random
import zlib

from bodies import section_outcome
from sections import EIT, ETT, KINDS, MGT, RRT, TVCT, Refused, sealed, section
from written import digest

PLACE, PLACES = 4096, 64


Watch = collections.namedtuple("Watch", "key quota edition")
Held = collections.namedtuple("Held", "watch number length")


class Shelf:
    def __init__(self, places, records, area):
        self.places, self.records, self.area = [None] * places, [None] * records, area

    def numbers(self):
        """The sizes and every record; a closed watch and a free place are all 0."""
        yield len(self.records)
        for w in self.records:
            version, last = w and w.edition or (0, 0)
            yield from (1, *w.key, w.quota, int(w.edition is not None), version, last) if w else (0,) * 8
        yield len(self.places)
        for p in self.places:
            yield from (1, *p) if p else (0,) * 4

    def lent(self, size):
        if size != len(self.places) * PLACE:
            raise Refused(14)

    def find(self, key):
        for i, w in enumerate(self.records):
            if w and w.key == key:
                return i
        raise Refused(17)

    def edition(self, key):
        return next((w.edition for w in self.records if w and w.key == key), None)

    def place(self, w, number):
        return next((i for i, p in enumerate(self.places) if p and p[:2] == (w, number)), None)

    def holds(self, key, number):
        return any(p and p.number == number and self.records[p.watch].key == key for p in self.places)

    def drop(self, w):
        self.places = [None if p and p.watch == w else p for p in self.places]

    def open(self, key, quota):
        if key[0] > 8191 or key[1] not in KINDS or not 1 <= quota <= 64:
            raise Refused(15)
        if any(w and w.key == key for w in self.records):
            raise Refused(19)
        if None not in self.records:
            raise Refused(20)
        if sum(w.quota for w in self.records if w) + quota > len(self.places):
            raise Refused(21)
        self.records[self.records.index(None)] = Watch(key, quota, None)
        return "done"

    def close(self, key):
        w = self.find(key)
        self.drop(w)
        self.records[w] = None
        return "done"

    def status(self, key):
        w = self.find(key)
        edition = self.records[w].edition
        if edition is None:
            return "nothing heard"
        n = edition[1] + 1
        c = len({p.number for p in self.places if p and p.watch == w})
        return f"complete {n}" if c == n else f"{c} of {n}"

    def fetch(self, key, number):
        i = self.place(self.find(key), number)
        if i is None:
            raise Refused(22)
        start, length = i * PLACE, self.places[i].length
        return f"{start} {length} {zlib.adler32(self.area[start:start + length])}"

    def deliver(self, pid, s):
        if pid > 8191:
            raise Refused(15)
        said = section_outcome(s)
        if isinstance(said, int):
            raise Refused(said)
        if said[0] == "9":
            raise Refused(9)
        table_id, extension, version, current, number, last = said
        if not current:
            raise Refused(16)
        w = self.find((pid, table_id, extension))
        if last + 1 > self.records[w].quota:
            raise Refused(18)
        if self.records[w].edition != (version, last):
            self.drop(w)
            self.records[w] = self.records[w]._replace(edition=(version, last))
        i = self.place(w, number)
        if i is None:
            i = self.places.index(None)
        self.places[i] = Held(w, number, len(s))
        self.area[i * PLACE:i * PLACE + len(s)] = s
        return "done"


# ---- sections
def descriptors(rng, n):
    """A list of n bytes: opaque descriptors, and two bytes at least."""
    out = b""
    while n:
        size = n if n <= 257 else min(257, n - 2)
        out += bytes([0x80, size - 2]) + rng.randbytes(size - 2)
        n -= size
    return out


def body(rng, table_id, size):
    """A sound body with random bytes; an EIT's fills a section of about `size` bytes."""
    few = descriptors(rng, rng.choice((0, 2, 9)))
    if table_id == EIT:
        n = size - 26
        if n < 0:
            return b"\0"
        n -= n == 1
        return b"\1\xC0" + rng.randbytes(5) + b"\xC0\7\x08\0" + (0xF000 | n).to_bytes(2, "big") + descriptors(rng, n)
    if table_id == ETT:
        return rng.randbytes(4) + b"\0"
    if table_id == MGT:
        return b"\0\0" + (0xF000 | len(few)).to_bytes(2, "big") + few
    return (b"\0" if table_id == TVCT else b"\0\1\0\xE1\0\0") + (0xFC00 | len(few)).to_bytes(2, "big") + few


def broken(rng, s):
    """The section with a fault that one of the tests 1 to 9 finds, or not current."""
    return rng.choice((
        s[:2], b"\xC9" + s[1:], s[:1] + bytes([s[1] & 0x7F]) + s[2:], s[:1] + b"\xF0\x05" + s[3:], s + b"\0",
        s[:-1] + bytes([s[-1] ^ 1]), sealed(s[:8] + b"\1" + s[9:-4]), sealed(s[:6] + bytes([s[7] + 1]) + s[7:-4]),
        sealed(s[:9] + b"\xFF" * (len(s) - 13)), sealed(s[:5] + bytes([s[5] & 0xFE]) + s[6:-4])))


def size(rng):
    return rng.choice((14, 27, rng.randrange(26, 60), rng.randrange(26, 60), rng.randrange(26, 300)) * 9
                      + (rng.randrange(300, 2000), rng.randrange(300, 2000), rng.choice((4093, 4094, 4095, 4096))))


# ---- histories
class History:
    """The calls as vectors, on one area that stays from shelf to shelf; and how often what arose."""

    def __init__(self, seed):
        self.rng, self.area = random.Random(seed), bytearray(PLACES * PLACE)
        self.vectors, self.counts = [], collections.Counter()
        self.shelf, self.before = Shelf(1, 1, self.area), []

    def call(self, letter, data, name, answer, lent=None):
        """`answer` is what the shelf does; before it comes the test of the area that is lent."""
        if lent is None:
            lent = len(self.shelf.places) * PLACE
        try:
            if letter != "n":
                self.shelf.lent(lent)
            said = answer()
        except Refused as refusal:
            said = f"refused {refusal.args[0]}"
        self.counts[f"{name} {said}" if "refused" in said else name] += 1
        self.counts["all places taken"] += None not in self.shelf.places
        self.counts["64 sections held"] += None not in self.shelf.places and len(self.shelf.places) == PLACES
        self.vectors.append((ord(letter), (lent,), data,
                             f"{name} {said} {digest(self.shelf.numbers())} {zlib.adler32(self.area)}"))

    def empty(self, places, records):
        def made():
            if not (1 <= places <= PLACES and 1 <= records <= 16):
                raise Refused(14)
            self.shelf = Shelf(places, records, self.area)
            return "done"
        self.call("n", bytes([places, records]), "empty", made)

    def section(self, key, lasts, versions, turn):
        """A sound section of the edition that its watch has, or with the chance `turn` of another."""
        rng = self.rng
        edition = self.shelf.edition(key)
        if not edition or rng.random() < turn:
            edition = rng.choice(versions), rng.choice(lasts)
        version, last = edition
        table_id = key[1] if key[1] in KINDS else EIT
        numbers = range(min(last, KINDS[table_id][3]) + 1)
        missing = [n for n in numbers if not self.shelf.holds(key, n)]
        number = rng.choice(missing if missing and rng.random() < 0.5 else numbers)
        return section(table_id, body(rng, table_id, size(rng)), key[2], version, 1, number, numbers[-1])

    def deliver(self, pid, s, lent):
        def delivered():
            was, key = list(self.shelf.numbers()), (pid, s[0], int.from_bytes(s[3:5], "big"))
            edition, area = self.shelf.edition(key), bytes(self.area)
            said = self.shelf.deliver(pid, s)
            now = self.shelf.edition(key)
            self.counts["another edition"] += edition not in (None, now)
            self.counts["version 0 after 31"] += edition is not None and (edition[0], now[0]) == (31, 0)
            self.counts["equal bytes"] += (was, area) == (list(self.shelf.numbers()), self.area)
            return said
        self.call("d", pid.to_bytes(2, "big") + s, "deliver", delivered, lent)

    def run(self, count, keys, quotas, lasts, versions, turn=0.12, shut=0.02):
        """`turn`, `shut`: how often an edition changes, and a watch is closed."""
        rng = self.rng
        for _ in range(count):
            shelf, what, lent = self.shelf, rng.random(), None
            if rng.random() < 0.02:
                own = len(shelf.places) * PLACE
                lent = rng.choice([n for n in (0, own - 1, own + 1, own - PLACE, own + PLACE, PLACES * PLACE)
                                   if n != own and n <= PLACES * PLACE])
            watched = [w.key for w in shelf.records if w]
            key = rng.choice(watched) if watched and what > 0.1 and rng.random() < 0.85 else rng.choice(keys)
            if rng.random() < 0.03:
                key = rng.choice(((9000, EIT, 7), (0x1D00, 0xC9, 7), (5, EIT, 7), (key[0], key[1], key[2] ^ 0x100)))
            named = key[0].to_bytes(2, "big") + bytes([key[1]]) + key[2].to_bytes(2, "big")
            if what < 0.1 or not watched:
                quota = rng.choice(quotas) if rng.random() < 0.95 else rng.choice((0, 17, 64, 65, 255))
                self.call("o", named + bytes([quota]), "open", lambda: shelf.open(key, quota), lent)
            elif what < 0.1 + shut:
                self.call("c", named, "close", lambda: shelf.close(key), lent)
            elif what < 0.22:
                self.call("s", named, "status", lambda: shelf.status(key), lent)
            elif what < 0.34:
                number = rng.randrange((shelf.edition(key) or (0, 5))[1] + 1) if rng.random() < 0.9 else rng.choice((63, 255, 256, 65535))
                self.call("f", named + number.to_bytes(2, "big"), "fetch", lambda: shelf.fetch(key, number), lent)
            else:
                pid, s = key[0], self.section(key, lasts, versions, turn)
                if self.before and rng.random() < 0.15:
                    pid, s = rng.choice(self.before[-8:])
                self.before.append((pid, s))
                self.deliver(pid, broken(rng, s) if rng.random() < 0.04 else s, lent)


def histories():
    h = History(11)
    rng = h.rng
    eits = [(pid, EIT, e) for pid in (0x1D00, 0x1D01) for e in (7, 8, 0x0107, 0xFFFF)]
    others = [(0x1FFB, MGT, 0), (0x1FFB, TVCT, 7), (0x1FFB, RRT, 0xFF01), (0x1FFB, RRT, 1), (0x1E00, ETT, 0)]
    many = [(0x1D00 + k, EIT, k) for k in range(18)]
    for _ in range(30):  # small shelves, soon full
        h.empty(rng.randrange(1, 9), rng.randrange(1, 5))
        h.run(60, eits[:4], (1, 1, 2, 3, 4), (0, 0, 1, 2, 2, 3), (3, 3, 0, 31))
    for _ in range(24):  # all sizes and kinds
        h.empty(rng.randrange(1, 65), rng.randrange(1, 17))
        h.run(80, eits + others, (1, 2, 3, 4, 6, 9), (0, 1, 2, 3, 5), tuple(range(32)))
    for sizes in (0, 1), (1, 0), (65, 1), (1, 17), (255, 255):
        h.empty(*sizes)
    for turn, shut in (0, 0), (0.3, 0.02):  # sixteen watches that share all places: steady, then not
        h.empty(64, 16)
        h.run(700, many, (4,), (3,), (31, 0), turn, shut)
    for turn, shut in (0, 0), (0.1, 0.02):  # one watch with all places
        h.empty(64, 1)
        h.run(400, eits[:1], (64,), (63,), (31, 0), turn, shut)
    return h


history = histories()
vectors = history.vectors
met = {int(name.split()[-1]) for name in history.counts if "refused" in name}
assert met == {*range(1, 10), *range(14, 23)}, met
for name in "all places taken", "64 sections held", "another edition", "version 0 after 31", "equal bytes":
    assert history.counts[name] > 30, name
