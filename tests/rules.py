#!/usr/bin/env python3
"""Holds docs/RULES.md to the repository: every file of specs/ has one row there, every file that it names is there, every theorem is declared with the type
that the page says, and the core has as many lines as the page says. Run from the repository's root; it prints what is wrong and fails."""
import re
import sys
from pathlib import Path

sys.path.insert(0, "tools")
import core  # noqa: E402

page = Path("docs/RULES.md").read_text()
wrong = []

rows = [file for _, file, _ in core.rows()]
wrong += [f"{file}: named, and not there" for file in rows if not file.is_file()]
wrong += [f"{file}: two rows" for file in sorted(set(rows)) if rows.count(file) > 1]


def apart(file):
    """What the page's text names and not its tables: laws, plumbing, samples, and what is beside the trees or measured."""
    return (file.name in ("Lib.antt", "Inner.antt", "Samples.antt", "Useless.antt") or "Laws" in file.parts or file == Path("crates/format/specs/Laws.antt")
            or file.parts[1] in ("steps", "bench_calls"))


wrong += [f"{file}: not in docs/RULES.md" for file in sorted(Path("crates").glob("*/specs/**/*.antt")) if file not in rows and not apart(file)]

# the theorems, as they are declared
proofs = "".join(file.read_text() for file in sorted(Path("crates").glob("*/proofs/*.antt")))
theorems = re.findall(r"`([a-z_]+ : [^`]+)`", page.split("## The signs", 1)[0])
wrong += [f"{theorem}: not declared so" for theorem in theorems if f"\npub {theorem}\n" not in proofs]
if len(theorems) < 6:
    wrong.append("the theorems are no longer found")

# how long the core is, to the next fifty
lines = sum(1 for file, _ in core.core() if file.is_file() for line in file.read_text().split("\n") if line.strip() and not line.startswith("use "))
said = int(re.search(r"some ([\d,]+) lines without imports", page).group(1).replace(",", ""))
if abs(lines - said) > 50:
    wrong.append(f"the core has {lines} lines, and docs/RULES.md says {said}")

for line in wrong:
    print(line)
sys.exit(1 if wrong else 0)
