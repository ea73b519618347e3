#!/usr/bin/env python3
"""Writes the tables of crates/annex_c, crates/trees and crates/steps from data/: the two decode tables as constants (src/) and
as lists (specs/), the two printed lists of codes (specs/); of trees the tables as matches of eight bytes an arm, and of steps
the step tables as matches of four entries an arm, with the answer that each arm takes. Run it in any folder; the files that it writes are committed, and `--check` says whether they are
still those that data/ gives."""
import os
import sys

HERE = os.path.join(os.path.dirname(os.path.abspath(__file__)), "..")
CRATES = os.path.join(HERE, "crates")
WHAT = {1: "titles", 2: "descriptions"}


def table(kind):
    out = []
    for line in open(os.path.join(HERE, "data", "annex-c-%d-decode.txt" % kind)):
        out += [int(word) for word in line.partition(":")[2].split()]
    return out


def codes(kind):
    return [line.split() for line in open(os.path.join(HERE, "data", "annex-c-%d-codes.txt" % kind))]


def lines(items, width):
    return [items[i:i + width] for i in range(0, len(items), width)]


def constant(kind, bytes_):
    rows = "\\\n".join("".join("\\x%02x" % b for b in row) for row in lines(bytes_, 16))
    return """// Annex C, type %d (%s): the decode table, 16 bytes a line. Made by tools/annex_c.py.
pub const TABLE: [u8; %d] = *b"\\
%s";
""" % (kind, WHAT[kind], len(bytes_), rows)


def as_list(kind, bytes_):
    rows = "\n".join("    " + "".join("%d ∷ " % b for b in row).rstrip() for row in lines(bytes_, 16))
    return """-- Annex C, type %d (%s): the decode table, bytes 0 to %d, 16 a line. Made by tools/annex_c.py.
use Rattle.std.specs.Prelude.{ℕ, List, [], ◌∷◌}

unfoldable pub table%d : List ℕ
table%d =
%s
    []
""" % (kind, WHAT[kind], len(bytes_) - 1, kind, kind, rows)


def printed(kind, rows):
    body = "\n".join("    code %s %s (%s ∷ []) ∷" % (p, s, " ∷ ".join(c)) for p, s, c in rows)
    return """-- Annex C, type %d (%s): the printed list of codes, a row each: prior symbol, symbol, code. Made by tools/annex_c.py.
use Rattle.std.specs.Prelude.{List, [], ◌∷◌}
use Rattle.annex_c.specs.Codes.{Code, code}

unfoldable pub printed%d : List Code
printed%d =
%s
    []
""" % (kind, WHAT[kind], kind, kind, body)


def words(bytes_):
    return [int.from_bytes(bytes(row), "little") for row in lines(bytes_, 8)]


def step(bytes_, prior, bits):
    """Where four bits lead from the root: 16 times the byte, and the number of bits that are used."""
    root, node = 256 * bytes_[2 * prior] + bytes_[2 * prior + 1], 0
    for used in range(1, 5):
        node = bytes_[root + 2 * node + (bits >> (4 - used)) % 2]
        if node >= 128:
            return 16 * node + used
    return 16 * node + 4


def step_words(bytes_):
    entries = [step(bytes_, i // 16, i % 16) for i in range(2048)]
    return [sum(entry << (16 * k) for k, entry in enumerate(row)) for row in lines(entries, 4)]


def as_words(kind, what, name, items):
    rows = "\n".join("    %d ∷" % w for w in items)
    return """-- Annex C, type %d (%s): the %s, the first lowest. Made by tools/annex_c.py.
use Rattle.std.specs.Prelude.{ℕ, List, [], ◌∷◌}

unfoldable pub %s%d : List ℕ
%s%d =
%s
    []
""" % (kind, WHAT[kind], what, name, kind, name, kind, rows)


def match(public, name, said, items):
    arms = "".join("        %d => 0x%016x,\n" % arm for arm in enumerate(items))
    return """
%sfn %s(i: usize) -> u64
    ensures { result ≡ get_or %s i 0 }
{
    match i {
%s        _ => 0,
    }
}
""" % (public, name, said, arms)


def tree_matches(kind, items):
    return """// Annex C, type %d (%s): the decode table, eight bytes an arm, and alone its first 64 words, which are the offsets. Made by
// tools/annex_c.py.
ghost use Rattle.std.specs.Prelude.{◌≡◌, get_or, take};
ghost use Rattle.trees.specs.Words%d.{words%d};
""" % (kind, WHAT[kind], kind, kind) + match("pub ", "row", "words%d" % kind, items) + match(
        "pub ", "head", "(take 64 words%d)" % kind, items[:64])


def step_part(kind, part):
    return "(take 128 (drop %d steps%d))" % (128 * part, kind)


def step_matches(kind, items):
    return """// Annex C, type %d (%s): the step table, four entries an arm, in four parts. Made by tools/annex_c.py.
ghost use Rattle.std.specs.Prelude.{◌≡◌, get_or, take, drop};
ghost use Rattle.steps.specs.Words%d.{steps%d};
""" % (kind, WHAT[kind], kind, kind) + "".join(
        match("", "row%d" % k, step_part(kind, k), items[128 * k:128 * k + 128]) for k in range(4)) + """
// Word i.
pub fn row(i: usize) -> u64
    ensures { result ≡ get_or steps%d i 0 }
{
    let j = i %% 128;
    match i / 128 {
        0 => row0(j),
        1 => row1(j),
        2 => row2(j),
        3 => row3(j),
        _ => 0,
    }
}
""" % kind


def answers(crate, kind, function, listed, said, taken, count):
    arms = "".join("""
pub returns-in-%d : goal.returns-in-%d
unfolding %s
returns-in-%d c = at c.in-%d.is
""" % (k, k, listed, k, k) for k in range(count))
    return """-- `type%d::%s` meets its contract: each arm is its word. Made by tools/annex_c.py.
use mathlib.Core.Path.{◌≡◌, sym, ap}
use Prim.Native.Nat.{ℕ}
use lib.ListN.{get_or, %sget_or-eq_default}
use Rattle.%s.specs.Words%d.{%s}
use Rattle.trees.proofs.Past.{Nots, past}
use Rattle.%s.proofs.type%d.%s.Goals as goal

at : {i k : ℕ} → i ≡ k → get_or %s k 0 ≡ get_or %s i 0
at e = sym (ap (λ (n : ℕ). get_or %s n 0) e)

past_end : (i : ℕ) → Nots %d i → 0 ≡ get_or %s i 0
unfolding %s
past_end i h = sym (get_or-eq_default %s 0 (past %d h))
%s
pub returns-in_default : goal.returns-in_default
unfolding Nots
returns-in_default c = search past_end
""" % (kind, function, taken, crate, kind, listed, crate, kind, function, said, said, said, count, said, listed, said, count, arms)


def main():
    files = {}
    for kind in (1, 2):
        items, steps = words(table(kind)), step_words(table(kind))
        files["annex_c/src/type%d.rt" % kind] = constant(kind, table(kind))
        files["annex_c/specs/Table%d.antt" % kind] = as_list(kind, table(kind))
        files["annex_c/specs/Printed%d.antt" % kind] = printed(kind, codes(kind))
        listed = "words%d" % kind
        files["trees/specs/Words%d.antt" % kind] = as_words(kind, "decode table as words of eight bytes", "words", items)
        files["trees/src/type%d.rt" % kind] = tree_matches(kind, items)
        files["trees/proofs/type%d/row/Answers.antt" % kind] = answers("trees", kind, "row", listed, listed, "", len(items))
        files["trees/proofs/type%d/head/Answers.antt" % kind] = answers(
            "trees", kind, "head", listed, "(take 64 %s)" % listed, "take, ", 64)
        files["steps/specs/Words%d.antt" % kind] = as_words(kind, "step table as words of four entries", "steps", steps)
        files["steps/src/type%d.rt" % kind] = step_matches(kind, steps)
        for part in range(4):
            files["steps/proofs/type%d/row%d/Answers.antt" % (kind, part)] = answers(
                "steps", kind, "row%d" % part, "steps%d" % kind, step_part(kind, part), "take, drop, ", 128)
    stale = 0
    for name, text in files.items():
        path = os.path.join(CRATES, name)
        if "--check" in sys.argv:
            if open(path, encoding="utf-8").read() != text:
                stale += 1
                print("differs:", name)
        else:
            os.makedirs(os.path.dirname(path), exist_ok=True)
            open(path, "w", encoding="utf-8").write(text)
    print("%d files, %d differ" % (len(files), stale))
    sys.exit(1 if stale else 0)


main()
