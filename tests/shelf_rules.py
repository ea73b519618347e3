"""Shelves that break one rule each, and some that break none, with the refusals that the rules give; test_shelf.py writes them out.

The rules are written out here from SCOPE 5 and from nothing of the library; each shelf that is made to break a rule names it,
and the rules as written here must say that it breaks that rule and no other. Random shelves follow.
"""
import random

EIT = 0xCB
IDS = (0xC7, 0xC8, 0xCA, 0xCB, 0xCC)


class Watch:
    def __init__(self, live=0, pid=0, table_id=0, extension=0, quota=0, heard=0, version=0, last=0):
        self.live, self.pid, self.table_id, self.extension = live, pid, table_id, extension
        self.quota, self.heard, self.version, self.last = quota, heard, version, last

    def key(self):
        return self.pid, self.table_id, self.extension

    def bytes(self):
        return (bytes([self.live]) + self.pid.to_bytes(2, "big") + bytes([self.table_id])
                + self.extension.to_bytes(2, "big") + bytes([self.quota, self.heard, self.version, self.last]))


class Place:
    def __init__(self, used=0, watch=0, number=0, length=0):
        self.used, self.watch, self.number, self.length = used, watch, number, length

    def bytes(self):
        return bytes([self.used, self.watch, self.number]) + self.length.to_bytes(2, "big")


class Shelf:
    """Four places, three records: two open watches, the first with two of its three sections."""

    def __init__(self):
        self.records, self.count, self.area = 3, 4, 4 * 4096
        self.watches = [Watch() for _ in range(16)]
        self.places = [Place() for _ in range(64)]
        self.watches[0] = Watch(1, 0x1D00, EIT, 7, 3, 1, 5, 2)
        self.watches[2] = Watch(1, 0x1D00, EIT, 8, 1, 0, 0, 0)
        self.places[0] = Place(1, 0, 2, 4096)
        self.places[3] = Place(1, 0, 0, 14)

    def bytes(self):
        return (bytes([self.records, self.count]) + self.area.to_bytes(2, "big")
                + b"".join(w.bytes() for w in self.watches) + b"".join(p.bytes() for p in self.places))


def broken(s):
    """The rules that the shelf breaks, by the words of SCOPE 5.3."""
    out = set()
    if not (1 <= s.records <= 16 and 1 <= s.count <= 64 and s.area == s.count * 4096):
        return {"sizes"}
    live = [w for w in s.watches[:s.records] if w.live]
    used = [p for p in s.places[:s.count] if p.used]
    if len({w.key() for w in live}) != len(live):
        out.add("keys of open watches differ")
    if sum(w.quota for w in live) > s.count:
        out.add("quotas add up to at most the places")
    for p in used:
        owner = s.watches[p.watch] if p.watch < s.records else Watch()
        if not owner.live or p.number > owner.last:
            out.add("a place holds a section of an open watch, numbered at most its last")
        elif not owner.heard:
            out.add("a watch with no edition holds nothing")
        if p.length > 4096:
            out.add("lengths are at most 4096")
    if len({(p.watch, p.number) for p in used}) != len(used):
        out.add("no watch holds a number twice")
    for i, w in enumerate(s.watches[:s.records]):
        if not w.live:
            continue
        if sum(p.watch == i for p in used) > w.quota:
            out.add("no watch holds more than its quota")
        if w.heard and w.last >= w.quota:
            out.add("last is below the quota")
        if w.pid > 8191 or w.table_id not in IDS or not 1 <= w.quota <= 64:
            out.add("keys and quotas are in range")
    return out


def answer(s):
    """The line of a shelf: what each call of the program is refused, and whether anything changed."""
    if broken(s):
        return "deliver 14 open 14 status 14 fetch 14 close 14 same"
    live = [(i, w) for i, w in enumerate(s.watches[:s.records]) if w.live]
    keys = {w.key(): i for i, w in live}
    opened = (19 if (0x1D01, EIT, 9) in keys else 20 if len(live) == s.records
              else 21 if sum(w.quota for _, w in live) + 1 > s.count else 0)
    own = keys.get((0x1D00, EIT, 7))
    asked = 17 if own is None else 0
    held = any(p.used and p.watch == own and p.number == 0 for p in s.places[:s.count])
    fetched = asked or (0 if held else 22)
    return (f"deliver 1 open {opened} status {asked} fetch {fetched} close {asked} "
            + ("same" if opened and asked else "changed"))


cases = []


def case(rule, *changes):
    """A shelf with these changes, which breaks this rule alone (None: no rule)."""
    s = Shelf()
    for change in changes:
        change(s)
    assert broken(s) == ({rule} if rule else set()), (rule, broken(s))
    cases.append(s)


def watch(i, **fields):
    return lambda s: [setattr(s.watches[i], k, v) for k, v in fields.items()]


def place(i, **fields):
    return lambda s: [setattr(s.places[i], k, v) for k, v in fields.items()]


def sizes(**fields):
    return lambda s: [setattr(s, k, v) for k, v in fields.items()]


# ---- the sizes and the area
case("sizes", sizes(records=0))
case("sizes", sizes(records=17))
case("sizes", sizes(count=0, area=0))
case("sizes", sizes(count=65, area=65 * 4096 % 65536))
case("sizes", sizes(area=4 * 4096 - 1))
case("sizes", sizes(area=4 * 4096 + 1))
# ---- each rule alone
case("keys of open watches differ", watch(2, extension=7))
case("quotas add up to at most the places", watch(2, quota=2))
case("a place holds a section of an open watch, numbered at most its last", place(3, watch=3))
case("a place holds a section of an open watch, numbered at most its last", place(3, watch=255))
case("a place holds a section of an open watch, numbered at most its last", place(3, watch=1))
case("a place holds a section of an open watch, numbered at most its last", place(0, number=3))
case("no watch holds a number twice", place(3, number=2))
case("last is below the quota", watch(0, last=3))
case("last is below the quota", watch(2, heard=1, last=1))
case("a watch with no edition holds nothing", place(1, used=1, watch=2))
case("lengths are at most 4096", place(0, length=4097))
case("keys and quotas are in range", watch(0, pid=8192))
case("keys and quotas are in range", watch(2, table_id=0xC9))
case("keys and quotas are in range", watch(2, quota=0))
case("keys and quotas are in range", sizes(count=4, area=4 * 4096), watch(2, pid=65535))
# ---- none: closed records, free places, entries beyond the sizes, versions and kept lengths are not judged
case(None)
case(None, watch(1, pid=9000, table_id=1, quota=200, heard=1, last=255))
case(None, place(1, watch=9, number=200, length=65535))
case(None, watch(3, live=1, pid=0x1D00, table_id=EIT, extension=7, quota=255))
case(None, place(4, used=1, watch=0, number=2, length=9999))
case(None, watch(0, version=255), place(3, length=0))
case(None, watch(2, heard=1))
case(None, watch(2, extension=0xFF07))
# ---- a shelf on which a refusal other than 14 is due
case(None, watch(2, pid=0x1D01, extension=9))
case(None, watch(1, live=1, pid=1, table_id=0xC7, extension=0, quota=1), watch(0, quota=2, last=1), place(0, number=1))
case(None, watch(0, quota=3), sizes(records=4))
case(None, watch(0, live=0), place(0, used=0), place(3, used=0))
case(None, place(3, number=1))


def random_shelf(rng):
    """A sound shelf, with a few of its numbers changed."""
    s = Shelf()
    s.records, s.count = rng.randrange(1, 17), rng.randrange(1, 16)
    s.area = s.count * 4096
    left, free = s.count, list(range(s.count))
    rng.shuffle(free)
    for i in range(16):
        s.watches[i] = Watch()
    for i in range(64):
        s.places[i] = Place()
    for i in range(s.records):
        if not left or rng.random() < 0.4:
            continue
        quota = rng.randrange(1, min(left, 6) + 1)
        left -= quota
        heard, last = rng.random() < 0.8, rng.randrange(quota)
        s.watches[i] = Watch(1, rng.choice((0x1D00, 0x1D01)), rng.choice((EIT, 0xC8)), i if rng.random() < 0.9 else 7, quota, int(heard), rng.randrange(32), last)
        for number in range(last + 1):
            if heard and rng.random() < 0.7:
                s.places[free.pop()] = Place(1, i, number, rng.randrange(14, 4097))
    for _ in range(rng.choice((0, 0, 1, 2))):
        w, p = rng.choice(s.watches), rng.choice(s.places[:s.count])
        rng.choice((lambda: setattr(w, "quota", rng.randrange(70)), lambda: setattr(w, "last", rng.randrange(8)),
                    lambda: setattr(w, "live", 1 - w.live), lambda: setattr(w, "heard", 1 - w.heard),
                    lambda: setattr(p, "used", 1 - p.used), lambda: setattr(p, "watch", rng.randrange(17)),
                    lambda: setattr(p, "number", rng.randrange(8)), lambda: setattr(p, "length", rng.randrange(4090, 4103)),
                    lambda: setattr(w, "pid", rng.choice((8191, 8192)))))()
    return s


rng = random.Random(7)
vectors = [(ord("r"), (), s.bytes(), answer(s)) for s in cases + [random_shelf(rng) for _ in range(400)]]
