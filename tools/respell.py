#!/usr/bin/env python3
"""Brings the names of this repository's own definitions, lemmas, constructors and fields in specs/ and proofs/ to snake case.

usage: python3 tools/respell.py [--check]      once, at the top, right after the kit's port.py

A name of words is written with `_` between them: `orRefuse` is `or_refuse`, `none-there` is `none_there`. NAMED holds the names that are respelled
otherwise, each with its reason. Names from src/, of strings and of generated goals keep their spelling: only names that a file of specs/ or
a lemma file of proofs/ declares are turned, and only in .antt files, in the clauses and ghost imports of .rt files and in must-fail edits.
--check writes nothing, and prints the new names that stand already in a file that has the old one.
"""

import collections
import glob
import os
import re
import sys

TOKEN = re.compile(r"--[^\n]*|\"(?:[^\"\\]|\\.)*\"|[^\s(){}.;,@\"«»\[\]\\]+")
NAMED = {
    # `result` is a word of clauses now: what a function returns
    "result": "resulted",
}
# Lemmas that would have the name of a definition beside them, each with the part of a path in which it is turned.
LEMMAS = {
    "four_bytes": "crates/section/proofs/",
    "header_read": "crates/writing_laws/proofs/",
    "of_field": "crates/guide_laws/proofs/",
    "part_sound": "crates/eit/proofs/GivenLaws",
    "row_fits": "crates/writing_laws/proofs/EitLaws",
    "rows_told": "crates/writing_laws/",
    "of_entry": "crates/section_laws/proofs/",
    "same_key": "crates/shelf_laws/proofs/DeliverLaws",
    "byte-at": "crates/text/proofs/UnitLaws",
    "in-range": "",
    "bit-xor": "",
}
RESULT = re.compile(r"use Rattle\.refusal\.specs\.Outcomes\.\{[^}]*\bresult\b")
RETURNS = re.compile(r"(requires|ensures)\*?( \w+)? \{ λ (\w+)\. ⌜ (.*?) ⌝ \}", re.S)


def snake(name):
    if not re.match(r"[a-z]", name):
        return name
    return re.sub(r"(?<=[a-z0-9'])([A-Z])", lambda m: "_" + m[1].lower(), name).replace("-", "_")


def declared(path):
    """The names that a file declares: at its head, in its modules and records, and beside a proof."""
    found = []
    for line in open(path, encoding="utf-8"):
        m = re.match(r"\s*(?:abbrev |unfoldable |pub )*(?:data|record) (\S+)", line) or re.match(
            r"\s*(?:abbrev |unfoldable |pub )*([^\s:(){}]+)\s*:(?!=)", line
        )
        if m and not line.lstrip().startswith(("--", "use ")):
            found.append(m[1])
    return found


def sources(root):
    return sorted(p for p in glob.glob(root + "/crates/*/specs/**/*.antt", recursive=True)) + sorted(
        p for p in glob.glob(root + "/crates/*/proofs/**/*.antt", recursive=True) if os.path.basename(p) != "Proof.antt"
    )


def names(root):
    found = set(n for p in sources(root) for n in declared(p))
    turn = {}
    for n in sorted(found):
        to = NAMED.get(n, snake(n))
        if to != n:
            turn[n] = to
    by = collections.defaultdict(list)
    for n, to in turn.items():
        by[to].append(n)
    for to, olds in sorted(by.items()):
        for n in olds:
            if len(olds) > 1 and "-" in n:
                turn[n] = to + "_lem"
    return turn


def word(m, turn, text, own):
    n = m[0]
    if n == "result" and text[: m.start()].endswith("."):
        return n
    return own.get(n) or turn.get(n, n)


def turned(text, turn, own):
    """Of an import the names in braces are turned, and not the path."""
    out = []
    for line in text.split("\n"):
        at = line.index("{") if re.match(r"(?:ghost |pub )*use .*\{", line) else len(line) if re.match(r"(?:ghost |pub )*use ", line) else 0
        rest = line[at:]
        out.append(line[:at] + TOKEN.sub(lambda m: word(m, turn, rest, own), rest))
    return "\n".join(out)


def clauses(text, turn):
    """A .rt file's ghost imports and clauses: lines from `ghost`, `requires`, `ensures` to the brace that closes them."""
    turn = dict(turn)
    if RESULT.search(text):
        # here `result` is the repository's own, and what is returned is bound by a λ
        text = RETURNS.sub(returned, text)
    out, depth, inside = [], 0, False
    for line in text.split("\n"):
        if inside or re.match(r"\s*(?:pub )?(?:ghost|requires|ensures)\b", line):
            own = RESULT.search(line) or (RESULT.search(text) and "requires" in line)
            new = turned(line, turn if own else {k: v for k, v in turn.items() if k != "result"}, {})
            depth += line.count("{") - line.count("}")
            inside = depth > 0
            out.append(new)
        else:
            out.append(line)
    return "\n".join(out)


def returned(m):
    own = re.sub(r"(?<![\w.-])result(?![\w-])", "resulted", m[4])
    plain = re.sub(r"(?<![\w.-])%s(?![\w-])" % re.escape(m[3]), "result", own)
    return m[1] + (m[2] or "") + " { " + plain + " }"


def main(argv):
    turn = names(".")
    check = "--check" in argv
    for p in sorted(glob.glob("crates/*/**/*", recursive=True)):
        if "/out/" in p or not p.endswith((".antt", ".rt", ".edit")):
            continue
        text = open(p, encoding="utf-8").read()
        own = {n: snake(n) + "_lem" for n, where in LEMMAS.items() if where in p and not p.endswith(".rt")}
        new = clauses(text, turn) if p.endswith(".rt") else turned(text, turn, own)
        if check:
            tokens = set(TOKEN.findall(text))
            for n in sorted(tokens & set(turn)):
                if n not in own and turn[n] not in own and turn[n] in tokens:
                    print(f"both: {p}: {n} {turn[n]}")
        elif new != text:
            open(p, "w", encoding="utf-8").write(new)
    print(len(turn), "names")


if __name__ == "__main__":
    main(sys.argv[1:])
