#!/usr/bin/env python3
"""Prints the core of docs/RULES.md as one text in reading order: each file of definitions behind the rules of docs/SCOPE.md that it writes out, without
its imports. What a file takes from outside the core stands before it: types of the code whole, and of other words the comment and the type. Of a record's
format what leads back from bytes to the record, and the proofs, are left out (`..`). Run from the repository's root; a word that is not found fails."""
import re
import sys
from pathlib import Path

PAGE = Path("docs/RULES.md")
SCOPE = Path("docs/SCOPE.md")
# the words of formats are said by Language.antt, and the printed lists are data
SAID_ELSEWHERE = {Path(f"crates/format/specs/{name}.antt") for name in ("Formats", "Steps", "Named", "Heads", "Told", "Lawful")} | {
    Path(f"crates/annex_c/specs/Printed{n}.antt") for n in (1, 2)}


def rows():
    """The files of the page's tables, in order: mark, file, rules."""
    for mark, file, rules in re.findall(r"^\| ?([★●○]?) ?\| `([^`]+\.antt)` \|[^|]*\| ?([^|]*?) ?\|$", PAGE.read_text(), re.M):
        yield mark.strip(), Path("crates") / file, rules


def core():
    return [(file, rules) for mark, file, rules in rows() if mark == "★"]


# ---- the rules
def scope_rules():
    """Each rule's text by its number, and each row of the refusals' table by its own."""
    text = SCOPE.read_text().split("## 13 ", 1)[0]
    told = {}
    for part in re.split(r"^(?=\*\*\d+\.\d+)|^(?=## \d+ )", text, flags=re.M):
        number = re.match(r"\*\*(\d+\.\d+)\b", part)
        if number:
            told[number.group(1)] = part.strip()
    table = text.split("## 6 ", 1)[1].split("**6.1**", 1)[0]
    for line in re.findall(r"^\| \d+ \| .*\|$", table, re.M):
        told["number " + line.split("|")[1].strip()] = line
    # what two chapters say of all their rules
    told["2.1"] = re.search(r"^## 2 .*?\n\n(.*?)\*\*2\.1", text, re.M | re.S).group(1) + told["2.1"]
    told["number 9"] += "\n" + table.split("|\n\n")[-1].strip()
    return told


def numbers(cell):
    """The rules of a cell such as `1.2 to 1.5; 6, numbers 1 to 8 and 12`."""
    found = []
    for piece in cell.split(";"):
        piece = piece.strip()
        chapter = re.match(r"6, numbers? (.*)", piece)
        for first, last in re.findall(r"(\d+(?:\.\d+)?)(?: to (\d+(?:\.\d+)?))?", chapter.group(1) if chapter else piece):
            if chapter:
                found += [f"number {n}" for n in range(int(first), int(last or first) + 1)]
            elif "." not in first:
                continue  # a whole chapter: its rules stand with the files of their own
            elif last:
                head = first.split(".")[0]
                found += [f"{head}.{n}" for n in range(int(first.split(".")[1]), int(last.split(".")[1]) + 1)]
            else:
                found.append(first)
    return found


# ---- words from outside the core
def block(text, at):
    """The lines without a blank one between them that stand around a place."""
    before = text.rfind("\n\n", 0, at) + 2
    end = text.find("\n\n", at)
    return text[before if before > 1 else 0:end if end >= 0 else len(text)]


def declared(crate, name):
    """A struct or an enum of the code."""
    for file in sorted((Path("crates") / crate / "src").rglob("*.rt")):
        text = file.read_text()
        found = re.search(rf"^(?://[^\n]*\n)*(?:#\[[^\n]*\n)*pub (?:struct|enum) {name} \{{.*?^\}}", text, re.M | re.S)
        if found:
            text = re.sub(r"^ *#\[[^\n]*\n", "", found.group(0), flags=re.M)
            return re.sub(r"^( *)pub (struct |enum )?", r"\1\2", text, flags=re.M)
    return None


def signed(file, name):
    """The comment and the type of a word; a type whole."""
    text = file.read_text()
    found = re.search(rf"^ *(?:(?:abbrev|unfoldable) )*(?:pub )?(data|record)? ?{re.escape(name)}\b[^=\n]*:.*$", text, re.M)
    if not found:
        return None
    whole = block(text, found.start()).split("\n")
    line = text[found.start():found.end()]
    first = whole.index(line)
    comment = []
    while first > 0 and whole[first - 1].lstrip().startswith("--"):
        first -= 1
        comment.insert(0, whole[first])
    return plain("\n".join(comment + (whole[whole.index(line):] if found.group(1) else [line])))


def taken(file, starred):
    """What a file takes from outside the core: (where it stands, name, text)."""
    text = file.read_text()
    body = re.sub(r"^use .*\n", "", text, flags=re.M)
    for crate, path, names, alias in re.findall(r"^use Rattle\.(?!std\.)(\w+)\.specs\.([\w.]+?)(?:\.\{([^}]*)\}| as (\w+))$", text, re.M):
        if path.startswith("declared."):
            name = path.replace(".TheVariants", "").split(".")[-1]
            if name != "Refusal":  # its names stand in Numbers.antt, one by one
                yield f"the code of {crate}", name, declared(crate, name)
            continue
        used = Path("crates") / crate / "specs" / (path.replace(".", "/") + ".antt")
        if used in starred or used in SAID_ELSEWHERE or "Laws" in used.parts:
            continue
        words = [name.strip().split(" as ")[0] for name in names.split(",")] if names else re.findall(rf"\b{alias}\.(\w+)", body)
        for word in dict.fromkeys(words):
            yield str(used), word, signed(used, word)


# ---- a file
def plain(text):
    """Without the marks that say how proofs may use a definition."""
    return re.sub(r"^( *)(?:(?:abbrev|unfoldable|pub) )+", r"\1", text, flags=re.M)


def argument(text, at):
    """Where the bracketed argument that begins at `at` ends."""
    depth = 0
    for i in range(at, len(text)):
        depth += text[i] in "({"
        depth -= text[i] in ")}"
        if depth == 0:
            return i + 1
    return len(text)


def without_back(text):
    """`under f {Y = R} to ..`: what follows `to` leads back from bytes to the record, or is a proof."""
    out, at = "", 0
    for found in re.finditer(r"\b(?:under|under_all) (?=\()", text):
        if found.start() < at or re.search(r"--[^\n]*$", text[:found.start()]):
            continue
        end = found.end()
        for _ in range(3):  # the format, the record's type, and the function from the record
            end = argument(text, re.compile(r"\s*").match(text, end).end())
        rest = text.find("\n\n", end)
        out += text[at:end] + " .."
        at = rest if rest >= 0 else len(text)
    return out + text[at:]


def shown(file):
    text = re.sub(r"^use .*\n", "", file.read_text(), flags=re.M).strip()
    text = re.sub(r"^ *unfolding [^\n]*\n", "", text, flags=re.M)
    text = plain(text)
    # functions back from a head's numbers to the record
    text = re.sub(r"(?:^--[^\n]*\n)?^\w+ : Vals \w+ → (?:.+\n)+", "", text + "\n", flags=re.M)
    return re.sub(r"\n{3,}", "\n\n", without_back(text)).strip()


def book():
    told, lost = scope_rules(), []
    starred = {file for file, _ in core()}
    rules_done, words_done = set(), set()
    for file, cell in core():
        print("=" * 100)
        print(file, f"(SCOPE {cell})" if cell else "")
        print("=" * 100)
        for number in numbers(cell):
            if number not in rules_done:
                rules_done.add(number)
                lost += [] if number in told else [f"SCOPE {number}"]
                print(("" if number.startswith("number") else "\n") + told.get(number, ""))
        last = None
        for where, word, text in taken(file, starred):
            if (where, word) not in words_done:
                words_done.add((where, word))
                lost += [] if text else [f"{word} of {where}"]
                print(f"\n-- taken from {where}:" if where != last else "", text, sep="\n" if where != last or "\n" in (text or "") else "")
                last = where
        print("\n" + shown(file) + "\n")
    return lost


if __name__ == "__main__":
    missing = book()
    for line in missing:
        print(f"core.py: {line}: not found", file=sys.stderr)
    sys.exit(1 if missing else 0)
