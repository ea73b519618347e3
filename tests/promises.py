#!/usr/bin/env python3
"""Holds the public entries to the rule that each has a promise and asks nothing of its caller (SCOPE 12.2): of every function of a public crate that can be
reached from outside, and stands in no module called `inner`, that it has an `ensures`, no `requires`, and is named in docs/PROMISES.md. Run from the
repository's root; it prints what is missing and fails."""
import re
import sys
from pathlib import Path

# the crates that a user names (README.md, "What is here"); the others are inner crates, programs, tests and what is measured
PUBLIC = "section reading writing rows text section_text titles shelf lent lent_c guide guide_c listing lines record part refusal kind shelf_state".split()

page = Path("docs/PROMISES.md").read_text()
wrong, entries = [], 0


def functions(text, words=""):
    """The public functions of a file: each with what stands between its name and its body."""
    return re.findall(rf"^ *pub {words}fn (\w+)(.*?)^ *\{{$", text, re.M | re.S)


def reached(folder, file):
    """The public functions that a module gives outside: its own, those of its public modules, and those that it passes on by name."""
    text = file.read_text()
    yield from functions(text)
    for module in re.findall(r"^pub mod (\w+);", text, re.M):
        if module != "inner":
            yield from reached(folder / module, folder / f"{module}.rt")
    for path, names in re.findall(r"^pub use (?:crate::)?([\w:]+)::(\w+|\{[^}]*\});", text, re.M):
        crate = Path("crates") / path.split("::")[0] / "src"
        files = list(crate.rglob("*.rt")) if crate.is_dir() else [folder / (path.replace("::", "/") + ".rt")]
        for name in re.findall(r"\w+", names):
            yield from (found for source in files for found in functions(source.read_text()) if found[0] == name)


for crate in PUBLIC:
    source = Path("crates") / crate / "src"
    exported = [found for file in sorted(source.rglob("*.rt")) for found in functions(file.read_text(), 'extern "C" ')]
    for name, contract in [*reached(source, source / "lib.rt"), *exported]:
        entries += 1
        where = f"{crate}: {name}"
        if not re.search(r"^ *ensures\b", contract, re.M):
            wrong.append(f"{where}: no promise")
        if re.search(r"^ *requires\b", contract, re.M):
            wrong.append(f"{where}: asks something of its caller")
        if not re.search(rf"`(?:[\w]+::)*{name}[`(]", page):
            wrong.append(f"{where}: not in docs/PROMISES.md")
if entries < 140:
    wrong.append(f"only {entries} entries were found")

for line in wrong:
    print(line)
sys.exit(1 if wrong else 0)
