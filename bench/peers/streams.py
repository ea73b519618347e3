#!/usr/bin/env python3
"""Sections for the programs of bench/peers, in the folder that is named. A stream (.bin) has a length of two bytes and the section, each.

plain.bin, type1.bin: EITs of forty events, their titles plain or compressed by the table of titles. type2.bin: ETTs of a description
compressed by the table of descriptions. The streams of `EVENTS` are EITs to be judged and read, of one source, each with another version than the one before it, since
one of the libraries reads a table again only then.
cases.txt: an EIT with one thing wrong a line: the rule of SCOPE, the library's refusal (0: none), what is wrong, the bytes.
"""
import os
import random
import sys

HERE = os.path.dirname(os.path.abspath(__file__))
sys.path.insert(0, os.path.join(HERE, "..", "..", "tests"))
from annex_c_coder import encode, pack
from sections import EIT, ETT, section

WORDS = ("The News at Ten Morning with Tea and Garden School Nature of World Weather Evening Sports "
         "Cookery Children's Hour Story Music Live from Our Town History Today Science Club").split()
chance = random.Random(65)


def some_words(least, most):
    return " ".join(chance.choice(WORDS) for _ in range(chance.randrange(least, most))).encode()


def text(compression, words):
    """A structure of one string of one segment."""
    data = pack(encode(compression, words)) if compression else words
    return b"\x01eng\x01" + bytes([compression, 0, len(data)]) + data


def eit(compression):
    body = bytes([40])
    for i in range(40):
        title = text(compression, some_words(2, 7))
        body += (0xC000 | i).to_bytes(2, "big") + (1000 + 1800 * i).to_bytes(4, "big")
        body += (0xC00000 | 1800).to_bytes(3, "big") + bytes([len(title)]) + title + b"\xf0\x00"
    return section(EIT, body, extension=7)


def ett():
    """The table of descriptions has a code for the end only behind a full stop and a quotation mark."""
    return section(ETT, b"\x00\x07\x00\x16" + text(2, some_words(30, 40) + b"."))


def stream(name, make):
    with open(os.path.join(sys.argv[1], name), "wb") as out:
        for _ in range(200):
            s = make()
            out.write(len(s).to_bytes(2, "big") + s)


# ---- EITs to be judged and read
ADVISORY = b"\x87\x06\xc1\x01\x01\x00\xf3\x00"
versions = 0


def event(title=b"", descriptors=b"", i=5):
    return ((0xC000 | i).to_bytes(2, "big") + (1000 + 1800 * i).to_bytes(4, "big") + (0xC00000 | 1800).to_bytes(3, "big") + bytes([len(title)])
            + title + (0xF000 | len(descriptors)).to_bytes(2, "big") + descriptors)


def numbered(events):
    global versions
    versions += 1
    return section(EIT, bytes([len(events)]) + b"".join(events), extension=7, version=versions % 32)


def listed():
    d = ADVISORY
    while len(d) < 900:
        size = chance.randrange(31)
        d += bytes([chance.choice((0x80, 0x81, 0xA0, 0xA3)), size]) + bytes(size)
    return d


EVENTS = {
    "none.bin": lambda: numbered([]),
    "one.bin": lambda: numbered([event(text(0, b"Tea"))]),
    "ten.bin": lambda: numbered([event(text(0, some_words(2, 6)), ADVISORY, i) for i in range(10)]),
    "seventy.bin": lambda: numbered([event(text(0, some_words(2, 6)), ADVISORY, i) for i in range(70)]),
    "untitled.bin": lambda: numbered([event(i=i) for i in range(255)]),
    "lists.bin": lambda: numbered([event(text(0, some_words(2, 6)), listed(), i) for i in range(4)]),
}

# ---- one thing wrong
TEA = text(0, b"Tea")


def eit_of(body, **words):
    return section(EIT, body, extension=7, **words)


def unsealed(s):
    return s[:-1] + bytes([s[-1] ^ 1])


def filling(n):
    """Descriptors of n bytes in all."""
    out = b""
    while len(out) < n:
        size = min(n - len(out), 130) - 2
        out += bytes([0x80, size]) + bytes(size)
    return out


def one(title=TEA, descriptors=b"", **words):
    return eit_of(b"\1" + event(title, descriptors), **words)


CASES = [
    ("6.1", 0, "nothing", one()),
    ("3.1", 0, "nothing: no title", one(b"")),
    ("3.1", 0, "nothing: a title of no strings", one(b"\0")),
    ("1.3", 0, "nothing: current_next_indicator is 0", one(current=0)),
    ("6", 3, "section_syntax_indicator is 0", one(flags=0x7)),
    ("6", 3, "private_indicator is 0", one(flags=0xB)),
    ("6", 4, "section_length is 4094", eit_of(b"\1" + event(TEA, filling(4094 - 10 - 1 - len(event(TEA)))))),
    ("6", 5, "a byte after the section", one() + b"\xff"),
    ("6", 5, "the last byte is missing", one()[:-1]),
    ("6", 6, "a wrong checksum", unsealed(one())),
    ("6", 7, "protocol_version is 1", one(protocol=1)),
    ("6", 8, "section_number is above last_section_number", one(number=1)),
    ("2.4", 9, "one event more counted than there are", eit_of(b"\2" + event(TEA))),
    ("2.4", 9, "a byte left over behind the last event", eit_of(b"\1" + event(TEA) + b"\0")),
    ("2.4", 9, "title_length runs past the section", eit_of(b"\1" + event(TEA).replace(b"\x0b\x01eng", b"\x3f\x01eng"))),
    ("2.4", 9, "descriptors_length runs past the section", eit_of(b"\1" + event(TEA)[:-2] + b"\xf0\x40")),
    ("4.1", 9, "a second string counted that is not there", one(b"\2" + TEA[1:])),
    ("4.1", 9, "a byte left over in the title", one(TEA + b"\0")),
    ("4.1", 9, "a segment runs past its title", one(TEA.replace(b"\x03Tea", b"\x04Tea"))),
    ("2.6", 9, "a descriptor runs past its list", one(TEA, b"\x80\x05\1")),
    ("2.6", 9, "a lone tag at the list's end", one(TEA, b"\x80\x00\x80")),
    ("2.7", 9, "a content advisory with a byte left over", one(TEA, b"\x87\x07\xc1\x01\x01\x00\xf3\x00\x00")),
    ("2.7", 9, "a content advisory that counts two regions and has one", one(TEA, b"\x87\x06\xc2\x01\x01\x00\xf3\x00")),
]

stream("plain.bin", lambda: eit(0))
stream("type1.bin", lambda: eit(1))
stream("type2.bin", ett)
for name, make in EVENTS.items():
    stream(name, make)
with open(os.path.join(sys.argv[1], "cases.txt"), "w") as out:
    for rule, refusal, what, s in CASES:
        out.write("%s|%d|%s|%s\n" % (rule, refusal, what, s.hex()))
