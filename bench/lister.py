#!/usr/bin/env python3
"""Streams of records for bench/lister.sh: writes NAME-10.bin and NAME-100.bin (megabytes) into the folder that is named.

The sections are some hundreds of each sort, over and over: the lister keeps nothing of one for the next. Each
stream's last line of output is written beside it, as NAME-10.end.
"""
import os
import random
import sys
import zlib

HERE = os.path.dirname(os.path.abspath(__file__))
sys.path.insert(0, os.path.join(HERE, "..", "tests"))
from annex_c_coder import encode, pack
from sections import EIT, ETT, MGT, TVCT, register

WORDS = ("The News at Ten Morning with Tea and Garden School Nature of World Weather Evening Sports "
         "Cookery Children's Hour Story Music Live from Our Town History Today Science Club").split()
ADVISORY = b"\x87\x06\xc1\x01\x01\x00\xf3\x00"
MIRRORED = bytes(int(format(n, "08b")[::-1], 2) for n in range(256))
chance = random.Random(65)


def sealed(data):
    """As in sections.py, by zlib's checksum of the mirrored bits, since megabytes are made here."""
    r = zlib.crc32(data.translate(MIRRORED)) ^ 0xFFFFFFFF
    return data + int(format(r, "032b")[::-1], 2).to_bytes(4, "big")


def section(table_id, body):
    head = bytes([table_id]) + (0xF000 | len(body) + 10).to_bytes(2, "big")
    return sealed(head + chance.getrandbits(8).to_bytes(2, "big") + b"\xc7\0\0\0" + body)


def plain(letters):
    words = " ".join(chance.choice(WORDS) for _ in range(8))[:letters].encode()
    return b"\1eng\1\0\0" + bytes([len(words)]) + words


def packed():
    """Type 1, of one to six words; the end has a code after each of their last letters."""
    data = pack(encode(1, " ".join(chance.choice(WORDS) for _ in range(chance.randrange(1, 7))).encode()))
    return b"\1eng\1\1\0" + bytes([len(data)]) + data


def event(title, descriptors=b""):
    return (bytes([0xC0 | chance.getrandbits(6), chance.getrandbits(8)]) + chance.getrandbits(32).to_bytes(4, "big")
            + (0xC00000 | chance.randrange(60, 14400, 60)).to_bytes(3, "big") + bytes([len(title)]) + title
            + (0xF000 | len(descriptors)).to_bytes(2, "big") + descriptors)


def eit(events):
    return section(EIT, bytes([len(events)]) + b"".join(events))


def titled():
    return eit([event(plain(26), ADVISORY) for _ in range(75)])


def compressed():
    return eit([event(packed(), ADVISORY) for _ in range(75)])


def lists():
    """Two to five events, and descriptors of 0 to 30 bytes up to about 4 KB in all."""
    count = chance.randrange(2, 6)
    them = []
    for _ in range(count):
        d = ADVISORY
        while len(d) < 3600 // count:
            size = chance.randrange(31)
            d += bytes([chance.choice((0x80, 0x81, 0xA0, 0xA3)), size]) + bytes(size)
        them.append(event(plain(chance.randrange(5, 40)), d))
    return eit(them)


def small():
    """14 to 60 bytes: EITs of no or one event, and the other kinds but the RRT."""
    return chance.choice((
        lambda: eit([]),
        lambda: eit([event(b"")]),
        lambda: eit([event(plain(chance.randrange(3, 26)))]),
        lambda: section(MGT, b"\0\0\xf0\0"),
        lambda: section(TVCT, b"\0\xfc\0"),
        lambda: section(ETT, chance.getrandbits(32).to_bytes(4, "big") + plain(chance.randrange(3, 30))),
    ))()


def mixed():
    return chance.choice((titled, compressed, lists) + (small,) * 9)()


def stream(sections, size):
    """The record's bytes in turn, up to about `size`, and how many records they are."""
    records = [b"\xa5\x5a\x1d\x00" + s for s in sections]
    block = b"".join(records)
    whole, rest = divmod(size, len(block))
    count, out = whole * len(records), [block] * whole
    for record in records:
        if rest < len(record):
            break
        rest -= len(record)
        out.append(record)
        count += 1
    return b"".join(out), count


assert sealed(b"123456789")[-4:] == register(b"123456789").to_bytes(4, "big")
folder = sys.argv[1]
for name, make, count in (("titled", titled, 300), ("compressed", compressed, 300), ("lists", lists, 300),
                          ("small", small, 20000), ("mixed", mixed, 1000)):
    sections = [make() for _ in range(count)]
    if name == "small":
        assert 14 == min(map(len, sections)) and max(map(len, sections)) <= 60
    for megabytes in (10, 100):
        data, records = stream(sections, megabytes * 10**6)
        with open(os.path.join(folder, "%s-%d.bin" % (name, megabytes)), "wb") as out:
            out.write(data)
        if megabytes == 10:
            with open(os.path.join(folder, name + "-10.end"), "w") as out:
                out.write("end %d\n" % records)
