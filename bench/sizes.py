#!/usr/bin/env python3
"""Inputs of growing size for bench/sizes.sh, in the folder that is named: judge-N.bin, EITs of N bytes; plain-N.bin, titles-N.bin and descriptions-N.bin, text fields of
one string of N letters in segments as long as they may be, plain or compressed by one of the two tables."""
import os
import random
import sys

HERE = os.path.dirname(os.path.abspath(__file__))
sys.path.insert(0, os.path.join(HERE, "..", "tests"))
from annex_c_coder import encode, pack
from sections import EIT, section

WORDS = ("The News at Ten Morning with Tea and Garden School Nature of World Weather Evening Sports "
         "Cookery Children's Hour Story Music Live from Our Town History Today Science Club").split()
chance = random.Random(65)


def words(n):
    """n letters of words with a full stop at the end, since the table of descriptions has a code for the end only behind one."""
    out = ""
    while len(out) < n:
        out += chance.choice(WORDS) + " "
    return out[:n - 1].encode() + b"."


def event(i, title, descriptors):
    return ((0xC000 | i).to_bytes(2, "big") + (1000 + 1800 * i).to_bytes(4, "big") + b"\xc0\x07\x08" + bytes([len(title)]) + title
            + (0xF000 | len(descriptors)).to_bytes(2, "big") + descriptors)


def eit(n):
    """Events with a title of about 20 letters and an advisory; the last one's list fills what is left."""
    body, i = b"", 0
    while len(body) + 14 + 80 <= n:
        body += event(i, b"\1eng\1\0\0" + bytes([21]) + words(21), b"\x87\x06\xc1\x01\x01\x00\xf3\x00")
        i += 1
    left = n - 14 - len(body)
    if left:
        fill = b""
        while len(fill) < left - 12:
            size = min(left - 12 - len(fill), 40) - 2
            fill += bytes([0x80, size]) + bytes(size)
        body += event(i, b"", fill)
        i += 1
    return section(EIT, bytes([i]) + body, extension=7)


def field(compression, n):
    """Segments of at most 100 letters, so that each is at most 255 bytes."""
    text, segments = words(n), b""
    parts = [text[k:k + 100] for k in range(0, n, 100)]
    for part in parts:
        part = part[:-1] + b"." if compression else part
        data = pack(encode(compression, part)) if compression else part
        segments += bytes([compression, 0, len(data)]) + data
    return b"\1eng" + bytes([len(parts)]) + segments


def write(name, data):
    with open(os.path.join(sys.argv[1], name), "wb") as out:
        out.write(data)


for n in (14, 37, 90, 255, 1024, 1700, 4096):
    data = eit(n)
    assert len(data) == n, (n, len(data))
    write("judge-%d.bin" % n, data)
for n in (10, 30, 100, 300, 1000, 4000):
    for compression, name in enumerate(("plain", "titles", "descriptions")):
        write("%s-%d.bin" % (name, n), field(compression, n))
