"""What a script of vectors has made goes to its program's stdin and stdout, or is compared with them (README.md); and the digest that
stands in a line for a long list of numbers."""
import itertools
import pathlib
import struct
import sys
import zlib


def digest(numbers):
    """Adler-32, of numbers that need not be bytes."""
    sums = list(itertools.accumulate(numbers, initial=1))
    return (sum(sums) - 1) % 65521 << 16 | sums[-1] % 65521


assert digest(b"123456789") == zlib.adler32(b"123456789")


def vector(op, numbers, data):
    """A vector as its program reads it; numbers that are left out are 0."""
    return struct.pack(">B4QH", op, *numbers, *[0] * (4 - len(numbers)), len(data)) + data


def written(crate, vectors):
    """Writes crates/CRATE/stdin and stdout; with --check fails where those are not what was made.

    `vectors`: of each its op, its numbers, its bytes, and the words of the line that is to answer it.
    """
    stdin = b"".join(vector(*asked) for *asked, _ in vectors)
    lines = ["%d %s\n" % (n, said) for n, (*_, said) in enumerate(vectors)] + ["%d vectors\n" % len(vectors)]
    folder = pathlib.Path(__file__).resolve().parent.parent / "crates" / crate
    for name, data in ("stdin", stdin), ("stdout", "".join(lines).encode()):
        if sys.argv[1:] != ["--check"]:
            (folder / name).write_bytes(data)
        elif (folder / name).read_bytes() != data:
            sys.exit("%s is not what its script makes" % (folder / name))
    print("%s: %d vectors, %d bytes" % (crate, len(vectors), len(stdin)))
