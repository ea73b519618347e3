#!/usr/bin/env python3
"""Holds the must-fail edits to their rules: at most four a crate, each old line stands exactly once in its file, docs/PROMISES.md names every edit and no other,
and each was tried by the run of `rt ci` whose output is named, python3 tests/edits.py OUTPUT, and none was refused for a name or a shape alone. With no output
named only the first three are looked at. Run from the repository's root; it prints what is wrong and fails."""
import re
import sys
from pathlib import Path

wrong = []
page = Path("docs/PROMISES.md").read_text()
edits = {}
for file in sorted(Path("crates").glob("*/must-fail/*.edit")):
    edits[f"{file.parts[1]}/{file.stem}"] = file
for crate in sorted({name.split("/")[0] for name in edits}):
    if sum(name.startswith(crate + "/") for name in edits) > 4:
        wrong.append(f"{crate}: more than four edits")

for name, file in edits.items():
    source = None
    for key, text in re.findall(r"^(file|old): ?(.*)$", file.read_text(), re.M):
        if key == "file":
            source = (file.parent.parent / text.strip()).read_text()
        elif source.count(text) != 1:
            wrong.append(f"{name}: `{text.strip()}` stands {source.count(text)} times")
    if f"`{name}`" not in page and not re.search(rf"[`(]{name}[`,;)]", page):
        wrong.append(f"{name}: not in docs/PROMISES.md")
for name in sorted(set(re.findall(r"`((?:" + "|".join(sorted({n.split("/")[0] for n in edits})) + r")/[a-z_0-9]+)`", page))):
    if name not in edits and not (Path("crates") / name).exists():
        wrong.append(f"{name}: docs/PROMISES.md names it, and there is no such edit")

# what `rt ci` says first of an edit is what was refused: a name that is not there, or a proof that no longer fits, is no fact
if len(sys.argv) > 1:
    said = dict(re.findall(r"^rt: must-fail (\w+/\w+)\.edit: (.*)$", Path(sys.argv[1]).read_text(), re.M))
    for name in edits:
        if not said.get(name, "").startswith("refused, as it must be"):
            wrong.append(f"{name}: not refused: {said.get(name, 'not tried')[:120]}")
        elif re.search(r"only because a proof file names|not in scope|that can be named from here|has no field|was not admitted|a declaration is", said[name]):
            wrong.append(f"{name}: refused for no fact: {said[name][:200]}")

for line in wrong:
    print(line)
sys.exit(1 if wrong else 0)
