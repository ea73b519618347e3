#!/usr/bin/env python3
"""Vectors for the tests of a section, with the answers that the rules give.

Without a word: writes crates/test_judging/stdin and stdout, these vectors and those of
body_vectors.py. With --check: fails where those files are not what this script makes. Each vector
says which answer it is meant to have, and the rules, written out in sections.py and bodies.py,
must agree.
"""

import body_vectors
from bodies import section_outcome
from body_vectors import BLANK, answer, eit, ett, event, joined, list_of, mgt, rrt, string, strings, tvct
from sections import EIT, ETT, KINDS, MGT, RRT, TVCT, section
from written import written

vectors = []  # (asked, bytes, answer)


def add(meant, s, asked=0):
    """`meant`: the refusal's number, ("9", the offset to blame), or 0 for a section that passes."""
    said = section_outcome(s, asked)
    assert said == meant or meant == 0 and said[0] == s[0], (meant, said, s[:16].hex())
    vectors.append((asked, s, said))


def filler(n):
    return list_of(n) if n else b""


def text_of(n):
    """A text of n bytes: no strings, or one string with as many segments as it takes."""
    if n == 1:
        return b"\0"
    whole, rest = divmod(n - 5, 258)
    return strings(string(*[bytes(255)] * whole, bytes(rest - 3)))


def body_for(table_id, length):
    """A sound body for a section of this length, or nothing but zeros where there is none."""
    rest = length - KINDS[table_id][1] if table_id in KINDS else -1
    if rest < 0:
        return bytes(length - 10)
    return joined({
        MGT: lambda: mgt([], filler(rest)),
        TVCT: lambda: tvct([], filler(rest)),
        RRT: lambda: rrt(b"", [BLANK], filler(rest)),
        EIT: lambda: eit([event(b"", filler(rest - 12))] if rest else []),
        ETT: lambda: ett(text_of(rest + 1)),
    }[table_id]())


def of_length(table_id, length, **words):
    return section(table_id, body_for(table_id, length), **words)


def spoiled(s):
    """A wrong checksum, nothing else wrong."""
    return s[:-1] + bytes([s[-1] ^ 1])


# ---- sizes of every sort
add(1, b"")
add(1, b"\xcb")
add(1, b"\xcb\xf0")
add(5, b"\xcb\xf0\x0b")
add(2, bytes(3))
add(2, bytes(4096))
add(2, b"\xff" * 4096)
add(2, bytes(5000))
add(0, of_length(EIT, 4093))
add(5, of_length(EIT, 4093) + bytes(904))

# ---- each kind at its limits, by any call and by its own, and refused by the others' calls
for table_id, (_, smallest, largest, most) in KINDS.items():
    for length in (smallest, largest):
        add(0, of_length(table_id, length))
        add(0, of_length(table_id, length), table_id)
    add(4, of_length(table_id, smallest - 1))
    add(4, of_length(table_id, largest + 1))
    add(4, of_length(table_id, 9 + 1))
    add(8, of_length(table_id, smallest, number=1, last=0))
    if most == 0:
        add(8, of_length(table_id, smallest, number=0, last=1))
        add(8, of_length(table_id, smallest, number=1, last=1))
    else:
        add(0, of_length(table_id, smallest, number=255, last=255))
        add(0, of_length(table_id, smallest, number=0, last=255))
    for other in KINDS:
        if other != table_id:
            add(2, of_length(table_id, smallest), other)

# ---- the fields at their extremes, reserved bits of every sort
for extension in (0, 1, 0x00FF, 0xFF00, 0xFFFF):
    add(0, of_length(EIT, 11, extension=extension))
for version in (0, 1, 15, 16, 31):
    add(0, of_length(EIT, 11, version=version))
for reserved in range(4):
    add(0, of_length(EIT, 11, reserved=reserved, current=0))
    add(0, of_length(EIT, 11, flags=0xC | reserved))
add(0, of_length(EIT, 11, number=3, last=3))
add(8, of_length(EIT, 11, number=4, last=3))
add(8, of_length(EIT, 11, number=255, last=254))

# ---- 2: table_ids beside the five, the cable table's among them
for table_id in (0x00, 0xC6, 0xC9, 0xCD, 0xFF):
    add(2, of_length(table_id, 20))

# ---- 3: each indicator alone, and both
for flags in (0x7, 0xB, 0x3, 0x0):
    add(3, of_length(EIT, 30, flags=flags))

# ---- 5: a byte too few, one too many, many too many
add(5, of_length(EIT, 30)[:-1])
add(5, of_length(EIT, 30) + b"\0")
add(5, of_length(TVCT, 1021)[:500])
add(5, b"\xcb\xf0\x0b\x00")

# ---- 6: each bit of the last byte, a byte of the header, a byte of the body
for k in range(8):
    s = of_length(ETT, 30)
    add(6, s[:-1] + bytes([s[-1] ^ 1 << k]))
s = of_length(MGT, 400)
add(6, s[:4] + b"\1" + s[5:])
add(6, s[:300] + b"\1" + s[301:])

# ---- 7
for protocol in (1, 2, 128, 255):
    add(7, of_length(RRT, 40, protocol=protocol))

# ---- from outside: what the writers of GStreamer 1.22 make
# an MGT of no tables
add(0, bytes.fromhex("c7f00e0000c10000000000f000719e42ac"))
# an MGT of two tables, which lacks the number of bytes of each: what stands for the first one's descriptors_length, byte 20, says 3,329
add(("9", 20), bytes.fromhex("c7f0240000c100000000020101fd01e4f0000101fd01e4f000f00003546561f003800081826f9b"))
# an RRT of one dimension and two values, with a byte too many behind the descriptors, byte 62
add(("9", 62), bytes.fromhex(
    "caf040ff01c100000001000100e20901656e6701000001300b01656e6701000003616c6c0901656e670100000137"
    "0d01656e6701000005736576656efc003e45180250"))
# the same with names, where the dimension's has bytes of the region's: a text of one byte, which counts 101 strings and has none
add(("9", 31), bytes.fromhex(
    "caf05bff01c10000001201656e670100000a4f757220726567696f6e0b01656e670100000a4f757220726567696f"
    "6ee20901656e6701000001300b01656e6701000003616c6c0901656e6701000001370d01656e6701000005737e9a"
    "4309"))

# ---- neighbours: a section that fails both tests has the lower number
add(1, b"\x00\x00")
add(2, of_length(0xC9, 20, flags=0x3))
add(3, of_length(EIT, 10, flags=0x7))
add(4, of_length(EIT, 10) + b"\0")
add(5, spoiled(of_length(EIT, 30)) + b"\0")
add(6, spoiled(of_length(EIT, 30, protocol=1)))
add(7, of_length(EIT, 30, protocol=1, number=4, last=3))

# ---- a call for one kind has the same order
add(1, b"", EIT)
add(2, of_length(ETT, 15, flags=0x3), EIT)
add(3, of_length(EIT, 10, flags=0x7), EIT)
add(4, of_length(EIT, 10) + b"\0", EIT)
add(5, spoiled(of_length(EIT, 30)) + b"\0", EIT)
add(6, spoiled(of_length(EIT, 30, protocol=1)), EIT)
add(7, of_length(EIT, 30, protocol=1, number=4, last=3), EIT)
add(8, of_length(EIT, 30, number=4, last=3), EIT)

vectors += [vector[1:] for vector in body_vectors.vectors]
written("test_judging", [(asked, (), s, "%s%s" % answer(said)) for asked, s, said in vectors])
