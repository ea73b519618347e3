#!/usr/bin/env python3
"""Re-verify the four annex C files of data/.

  annex-c-N-decode.txt   lines "offset: b b b ..." (decimal bytes, 16 a line)
  annex-c-N-codes.txt    lines "prior symbol code" (decimal, decimal, 0/1 string)

Last line printed: "N checks passed, M failed". Exit status 1 if M is not 0.
"""
import hashlib
import os
import sys
from fractions import Fraction

HERE = sys.argv[1] if len(sys.argv) > 1 else os.path.join(os.path.dirname(os.path.abspath(__file__)), "..", "data")
LENGTH = {1: 1940, 2: 1782}
CODES = {1: 913, 2: 832}
LONGEST = {1: 10, 2: 11}
NODES = {1: 842, 2: 763}
BIGGEST = {1: 43, 2: 58}            # nodes in the largest tree (prior 32)
BOTH155 = {
    1: list(range(1, 32)) + [34, 35, 37, 40, 41, 43, 47, 53, 54, 59, 60, 61, 62, 64, 88,
                             91, 92, 93, 94, 95, 96, 123, 124, 125, 126, 127],
    2: list(range(1, 32)) + [33, 35, 36, 37, 38, 40, 42, 43, 54, 56, 60, 61, 62, 64, 81, 88,
                             90, 91, 92, 93, 94, 95, 96, 123, 124, 125, 126, 127],
}
SHA = {  # of the raw table bytes
    1: "9f7e22007069ac341a7d470e670149ba77be3376b2ba20d91074ed75f5fd56f4",
    2: "941213accd866ca1e9441c4379077a69632b7f1461c4bae18f22e835f25f2488",
}
ESC = 27
passed = failed = 0


def check(ok, *what):
    global passed, failed
    if ok:
        passed += 1
    else:
        failed += 1
        if failed <= 40:
            print("FAILED:", *what)
    return ok


def read_decode(n):
    out = []
    with open(os.path.join(HERE, "annex-c-%d-decode.txt" % n)) as f:
        for no, line in enumerate(f, 1):
            off, _, rest = line.partition(":")
            check(int(off) == len(out), "table", n, "decode line", no, "offset", off)
            row = [int(w) for w in rest.split()]
            check(len(row) == 16 or len(out) + len(row) == LENGTH[n], "table", n, "decode line", no, "width")
            check(all(0 <= b <= 255 for b in row), "table", n, "decode line", no, "byte range")
            out += row
    return out


def read_codes(n):
    out = []
    with open(os.path.join(HERE, "annex-c-%d-codes.txt" % n)) as f:
        for no, line in enumerate(f, 1):
            p, s, c = line.split()
            p, s = int(p), int(s)
            check(0 <= p <= 127 and 0 <= s <= 127 and c and set(c) <= {"0", "1"},
                  "table", n, "codes line", no)
            out.append((p, s, c))
    return out


def step(tab, root, bits):
    """Walk from a root along bits; (symbol, bits used), or None when the bits run out
    or the walk leaves the table."""
    node = 0
    for used, b in enumerate(bits, 1):
        at = root + 2 * node + int(b)
        if at >= len(tab):
            return None
        x = tab[at]
        if x & 0x80:
            return x & 0x7F, used
        node = x
    return None


def leaves(tab, root, limit):
    """All (code, symbol) below a root, and the nodes met (a list: repeats show)."""
    out, met, todo = [], [], [(0, "")]
    while todo:
        node, code = todo.pop()
        met.append(node)
        if len(code) >= limit or len(met) > 128:
            return out, met, False
        for b in (0, 1):
            at = root + 2 * node + b
            if not 256 <= at < len(tab):
                return out, met, False
            x = tab[at]
            if x & 0x80:
                out.append((code + str(b), x & 0x7F))
            else:
                todo.append((x, code + str(b)))
    return out, met, True


def rebuild(pairs):
    """The tree bytes that a complete code gives by the table's numbering rule: node 0 is the
    root; the others count from 1, deepest level first, left to right within a level."""
    leaf = dict(pairs)
    inner = {c[:i] for c in leaf for i in range(len(c))}
    number = {"": 0}
    for i, prefix in enumerate(sorted((x for x in inner if x), key=lambda x: (-len(x), x)), 1):
        number[prefix] = i
    out = [0] * (2 * len(inner))
    for prefix, i in number.items():
        for b in "01":
            c = prefix + b
            if c in leaf:
                out[2 * i + int(b)] = 0x80 | leaf[c]
            elif c in number:
                out[2 * i + int(b)] = number[c]
            else:
                return None
    return out


def table(n):
    tab = read_decode(n)
    codes = read_codes(n)
    if not check(len(tab) == LENGTH[n], "table", n, "length", len(tab)):
        return None
    check(len(codes) == CODES[n], "table", n, "number of codes", len(codes))
    check(hashlib.sha256(bytes(tab)).hexdigest() == SHA[n], "table", n, "sha256")
    check([(p, s) for p, s, _ in codes] == sorted({(p, s) for p, s, _ in codes}),
          "table", n, "codes sorted by prior and symbol, no pair twice")
    check(tab[-10:] == [155] * 10, "table", n, "last ten bytes")

    root = [256 * tab[2 * p] + tab[2 * p + 1] for p in range(128)]
    check(root[0] == 256, "table", n, "first root")
    by_prior = {p: [] for p in range(128)}
    for p, s, c in codes:
        by_prior[p].append((c, s))

    both, nodes, biggest, longest, whole = [], 0, 0, 0, []
    for p in range(128):
        name = ("table", n, "prior", p)
        r = root[p]
        end = root[p + 1] if p < 127 else len(tab)
        check(r % 2 == 0 and 256 <= r < end <= len(tab), *name, "root even, in range, growing")
        out, met, ok = leaves(tab, r, LONGEST[n])
        if not check(ok, *name, "every walk ends in a leaf within", LONGEST[n], "bits, inside the table"):
            continue
        check(sorted(met) == list(range((end - r) // 2)), *name, "each node of the tree met exactly once")
        check(all(1 <= tab[r + 2 * i + b] < i for i in range(1, len(met)) for b in (0, 1)
                  if tab[r + 2 * i + b] < 0x80), *name, "inner child number below its own, above 0")
        check(sum(Fraction(1, 2 ** len(c)) for c, _ in out) == 1, *name, "tree Kraft sum 1")
        nodes += len(met)
        biggest = max(biggest, len(met))
        longest = max([longest] + [len(c) for c, _ in out])
        printed = by_prior[p]
        if tab[r:end] == [155, 155]:
            both.append(p)
            check(printed == [("1", ESC)], *name, "two bytes 155, printed code 1 for 27 only")
            full = [("0", ESC), ("1", ESC)]
        else:
            check([s for _, s in out].count(ESC) == 1, *name, "one escape leaf")
            check(len({s for _, s in out}) == len(out), *name, "leaf symbols differ")
            check(sorted(out) == sorted(printed), *name, "tree leaves are the printed codes, no more, no fewer")
            check(sum(Fraction(1, 2 ** len(c)) for c, _ in printed) == 1, *name, "printed Kraft sum 1")
            full = printed
        cs = sorted(c for c, _ in printed)
        check(all(not b.startswith(a) for a, b in zip(cs, cs[1:])), *name, "printed codes prefix-free")
        made = rebuild(full)
        check(made == tab[r:end], *name, "tree bytes rebuilt from the printed codes")
        whole += made or []
    check(both == BOTH155[n], "table", n, "priors with two bytes 155", both)
    check(nodes == NODES[n] and 256 + 2 * nodes == LENGTH[n], "table", n, "node count", nodes)
    check(biggest == BIGGEST[n], "table", n, "largest tree", biggest)
    check(longest == LONGEST[n] == max(len(c) for _, _, c in codes), "table", n, "longest code", longest)
    check(whole == tab[256:], "table", n, "all trees rebuilt from the printed codes")
    for p, s, c in codes:
        check(step(tab, root[p], c) == (s, len(c)), "table", n, "code", p, s, c, "gives its symbol")
    return tab, root, codes


def example(tab, root, codes):
    """Annex F, F2.4: "The next" in type 1 takes 39 bits; after x the bits are 01010."""
    code = {(p, s): c for p, s, c in codes}
    text, prior, bits, after_x = "The next", 0, "", None
    for ch in [ord(x) for x in text] + [0]:
        if (prior, ch) in code:
            bits += code[prior, ch]
        else:
            bits += code.get((prior, ESC), "") + format(ch, "08b")
        prior = ch
        if ch == ord("x"):
            after_x = len(bits)
    check(len(bits) == 39, "F2.4 length", len(bits))
    check(bits[after_x:] == "01010", "F2.4 bits after x", bits[after_x:])
    got, prior, at = "", 0, 0
    while True:
        r = step(tab, root[prior], bits[at:])
        if r is None:
            break
        s, used = r
        at += used
        if s == 0:
            break
        if s == ESC:
            raw = bits[at:at + 8]
            s = int(raw, 2) if len(raw) == 8 else 128
            at += 8
            if s > 127:
                break
        got += chr(s)
        prior = s
    check(got == text and at == len(bits), "F2.4 decoded back", got)


one = table(1)
two = table(2)
if one:
    example(*one)
print("%d checks passed, %d failed" % (passed, failed))
sys.exit(1 if failed else 0)
