#!/usr/bin/env python3
"""Holds chapter 13 of docs/SCOPE.md to the repository: every rule has a row, and every definition, law, statement, edit, test, decision and entry that a
row names is where the row says. Run from the repository's root; it prints what is missing and fails."""
import re
import sys
from pathlib import Path

text = Path("docs/SCOPE.md").read_text()
rules, table = text.split("## 13 ", 1)
decisions = Path("docs/DECISIONS.md").read_text()
missing = []


def expect(there, row, what):
    if not there:
        missing.append(f"{row}: {what}")


def defines(source, name):
    """Whether a file of the logic declares the name: a definition, a field, a type, or a case of one."""
    return re.search(rf"^\s*(abbrev |unfoldable )*(pub )?((record|data) )?{re.escape(name)}( |$)[^=\n]*:", source, re.M) is not None


def defined_in(folder, name):
    return any(defines(file.read_text(), name) for file in folder.rglob("*.antt"))


def carried(row, cell):
    """The middle column: files of specs/ with the names that stand there, or a page."""
    for piece in cell.split("; "):
        path, _, names = piece.partition(": ")
        path = path.strip("` ")
        file = Path(path) if not path.endswith(".antt") else Path("crates") / path
        expect(file.is_file(), row, path)
        if file.is_file() and names:
            for name in re.findall(r"`([^`]+)`", names):
                expect(defines(file.read_text(), name), row, f"{name} in {path}")


def held(row, cell):
    """The last column: pieces that begin with what they name."""
    for piece in cell.split("; "):
        sort = piece.split(" ", 1)[0].rstrip("s")
        for name in re.findall(r"`([^`]+)`", piece):
            if sort in ("law", "statement"):
                crate, _, law = name.partition(": ")
                expect(defined_in(Path("crates") / crate / ("proofs" if sort == "law" else "specs"), law), row, name)
            elif sort == "edit":
                crate, _, edit = name.partition("/")
                expect((Path("crates") / crate / "must-fail" / f"{edit}.edit").is_file(), row, name)
            elif sort == "test":
                expect(Path(name).exists(), row, name)
            elif sort == "entry":
                crate, _, function = name.partition(": ")
                sources = "".join(file.read_text() for file in (Path("crates") / crate / "src").rglob("*.rt"))
                expect(re.search(rf"\bfn {function}\(", sources), row, name)
        if sort == "decision":
            number = re.match(r"decision (\d+)", piece).group(1)
            expect(re.search(rf"^{number}\. ", decisions, re.M), row, f"decision {number}")


rows = re.findall(r"^\| ([\d.]+) \| (.*?) \| (.*?) \|$", table, re.M)
for row, written, holding in rows:
    carried(row, written)
    held(row, holding)

tests = re.findall(r"^\| ([\d, ]+) \| ([^|]+) \|$", table, re.M)
for row, written in tests:
    carried(f"number {row}", written)
tested = sorted(int(number) for row, _ in tests for number in row.split(", "))
expect(tested == list(range(1, 25)), "chapter 6", "a test for each number")

numbers = re.findall(r"^(?:- )?\*\*(\d+\.\d+)\b", rules, re.M) + ["6", "9"]
expect(len(numbers) > 60, "SCOPE", "its rules are no longer found")
told = [row for row, _, _ in rows]
for number in numbers:
    expect(told.count(number) == 1, number, "one row")
for row in told:
    expect(row in numbers, row, "no such rule")

for line in missing:
    print(line)
sys.exit(1 if missing else 0)
