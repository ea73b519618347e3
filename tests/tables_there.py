#!/usr/bin/env python3
"""Looks in the built library for the tables of the checksum: fails where one is missing, or stands in memory that can be written.

The sources have no table. The compiler makes one of each loop of eight shifts (in crates/checksum `byte_in`, and `byte_ahead` for each number of bytes), or does not and
leaves a loop that is right and many times slower, which no proof and no other test would see. The tables are worked out here from the
polynomial and sought as they lie in memory, in the object for x86-64 and in that for Arm. Run it in any folder; an
archive that is named is looked at in place of those.
"""
import os
import struct
import subprocess
import sys

ROOT = os.path.join(os.path.dirname(os.path.abspath(__file__)), "..")
POLY = 0x104C11DB7
BITS = range(40, 168, 8)
WRITE, ALLOC = 1, 2


def zeros(bits, register):
    for _ in range(bits):
        register <<= 1
        if register >> 32:
            register ^= POLY
    return register


def times(byte, constant):
    """The product without carries."""
    product = 0
    for k in range(8):
        if byte >> k & 1:
            product ^= constant << k
    return product


def tables():
    """{name: its bytes}"""
    made = {"byte_in": struct.pack("<256I", *(zeros(32, byte) for byte in range(256)))}
    for bits in BITS:
        constant = zeros(bits, 1)
        made["byte_ahead::<%d>" % (bits // 8)] = struct.pack("<256Q", *(times(byte, constant) for byte in range(256)))
    return made


def members(archive):
    """The files of an archive."""
    at = 8
    while at < len(archive):
        size = int(archive[at + 48:at + 58])
        yield archive[at + 60:at + 60 + size]
        at += 60 + size + size % 2


def read_only(member):
    """What an object of 64 bits, low byte first, holds in memory that is only read."""
    if member[:6] != b"\x7fELF\x02\x01":
        return
    start, = struct.unpack_from("<Q", member, 0x28)
    size, count = struct.unpack_from("<HH", member, 0x3A)
    for k in range(count):
        _, _, flags, _, offset, length = struct.unpack_from("<IIQQQQ", member, start + k * size)
        if flags & (ALLOC | WRITE) == ALLOC:
            yield member[offset:offset + length]


def missing(path):
    with open(path, "rb") as f:
        held = [part for member in members(f.read()) for part in read_only(member)]
    return [name for name, table in tables().items() if not any(table in part for part in held)]


def built():
    for arch in ("x86_64", "aarch64"):
        subprocess.run(["sh", "tools/staticlib.sh", "guide_c", arch], cwd=ROOT, check=True)
        yield "target/lib/%s/libguide_c.a" % arch


def main():
    failed = False
    for path in sys.argv[1:] or built():
        lost = missing(os.path.join(ROOT, path))
        for name in lost:
            print("%s: the compiler made no table of %s" % (path, name))
        print("%s: %d tables of %d" % (path, len(tables()) - len(lost), len(tables())))
        failed = failed or bool(lost)
    sys.exit(1 if failed else 0)


main()
