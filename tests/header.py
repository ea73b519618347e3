#!/usr/bin/env python3
"""Holds include/guide.h to the sources: fails where a call, its parameters or their order, the layout of a struct, or a refusal's number differs.

The C side is what the compiler makes of the header: sizes and offsets are asked of gcc. The other side is the text of the crates
`guide_c`, `lent_c`, `lent_memory`, `shelf_state` and `refusal`. A call for C must promise, word for word, what the call of `guide` or `lent` that it makes does.
"""
import os
import re
import subprocess
import sys
import tempfile

ROOT = os.path.join(os.path.dirname(os.path.abspath(__file__)), "..")
WIDTHS = {"u8": 1, "u16": 2, "u32": 4}
C_NUMBERS = {"uint8_t": "u8", "uint16_t": "u16", "uint32_t": "u32"}


def text_of(*path):
    with open(os.path.join(ROOT, *path), encoding="utf-8") as f:
        return f.read()


def failed(what):
    print("guide.h: " + what)
    sys.exit(1)


# ---- the header
HEADER = re.sub(r"/\*.*?\*/", " ", text_of("include", "guide.h"), flags=re.S).replace("\\\n", " ")


def c_parameters(words):
    """[(type without const, whether const, whether a pointer)]"""
    out = []
    for word in words.split(","):
        kind = re.match(r"\s*(const )?(\w+) (\*?)", word)
        out.append((kind.group(2), bool(kind.group(1)), bool(kind.group(3))))
    return out


def c_calls():
    shape = re.search(r"#define GUIDE_SHELF_CALL\(name\)\s+uint32_t name\((.*?)\)", HEADER).group(1)
    calls = {name: c_parameters(words) for name, words in re.findall(r"^uint32_t (\w+)\(([^)]*)\);", HEADER, flags=re.M)}
    calls.update((name, c_parameters(shape)) for name in re.findall(r"^GUIDE_SHELF_CALL\((\w+)\);", HEADER, flags=re.M))
    return calls


def compiled(lines):
    """What a program that includes the header prints, one number a line."""
    with tempfile.TemporaryDirectory() as folder:
        source, program = os.path.join(folder, "a.c"), os.path.join(folder, "a")
        with open(source, "w") as f:
            f.write("#include <guide.h>\n#include <stdio.h>\nint main(void) {\n%s    return 0;\n}\n"
                    % "".join('    printf("%%zu\\n", (size_t)(%s));\n' % line for line in lines))
        subprocess.run(["gcc", "-std=c99", "-Wall", "-Wextra", "-Werror", "-I" + os.path.join(ROOT, "include"), "-o", program, source], check=True)
        return [int(n) for n in subprocess.run([program], check=True, capture_output=True, text=True).stdout.split()]


# ---- the sources
def functions(crate, before):
    """Each function of a crate that begins so and answers a u32 with a promise: {name: (its parameters, its clauses, its body)}."""
    folder = os.path.join(ROOT, "crates", crate, "src")
    found, text = {}, "".join(text_of("crates", crate, "src", name) for name in sorted(os.listdir(folder)))
    for name, words, clauses, body in re.findall(before + r"fn (\w+)\(([^)]*)\) -> u32\s+(ensures.*?)^\{\n(.*?)^\}", text, flags=re.S | re.M):
        found[name] = [re.sub(r"\s+", " ", word).strip() for word in words.split(",") if word.strip()], clauses, body
    return found, text


def source_calls(crate):
    exported, text = functions(crate + "_c", r'#\[unsafe\(no_mangle\)\]\s+pub extern "C" ')
    if len(exported) != len(re.findall("no_mangle", text)):
        failed("a call of %s_c does not answer a u32" % crate)
    own, _ = functions(crate, "^pub ")
    for name, (parameters, clauses, body) in exported.items():
        if own.get(name, ())[:2] != (parameters, clauses):
            failed("%s_c promises otherwise of %s than %s" % (crate, name, crate))
        if not re.fullmatch(r"\s*%s::(\w+::)?%s\(%s\)\s*" % (crate, name, ", ".join(word.split(": ")[0] for word in parameters)), body):
            failed("%s of %s_c does more than it hands on" % (name, crate))
    return {name: [word.split(": ")[1] for word in parameters] for name, (parameters, _, _) in exported.items()}


def expected(kind):
    """What one parameter of the sources is in C: [(element, whether const, whether a pointer, how many numbers)]; None stands for any number."""
    if kind == "u32":
        return [("u32", False, False, None)]
    shared, element, many = re.fullmatch(r"&(mut )?\[(\w+)(?:; (\d+))?\]", kind).groups()
    first = (element, not shared, True, int(many) if many else None)
    return [first] if many else [first, ("size_t", False, False, None)]


def same(given, wanted, sizes):
    kind, const, pointer = given
    element, wanted_const, wanted_pointer, many = wanted
    if const != wanted_const or pointer != wanted_pointer:
        return False
    if element == "size_t":
        return kind == "size_t"
    if element == "LentWatch":
        return kind == "guide_watch"
    if not pointer or element != "u32":
        return C_NUMBERS.get(kind) == element
    if many is None:
        return kind in sizes and sizes[kind] % 4 == 0
    return sizes.get(kind, 4 if kind == "uint32_t" else 0) == 4 * many


def layout(name, structs):
    """The size, alignment and fields (path, offset, size) of a struct of the sources, by C's rules."""
    at, align, fields = 0, 1, []
    for field, kind in structs[name]:
        size, own, inner = (WIDTHS[kind], WIDTHS[kind], None) if kind in WIDTHS else layout(kind, structs)
        at = -(-at // own) * own
        fields += [(field + "." + path, at + x, n) for path, x, n in inner] if inner else [(field, at, size)]
        at, align = at + size, max(align, own)
    return -(-at // align) * align, align, fields


def main():
    calls = c_calls()
    sources = {**source_calls("guide"), **source_calls("lent")}
    if set(calls) != set(sources):
        failed("only on one side: %s" % " ".join(sorted(set(calls) ^ set(sources))))
    kinds = sorted({kind for words in calls.values() for kind, _, pointer in words if pointer and kind.startswith("guide_")})
    sizes = dict(zip(kinds, compiled(["sizeof(%s)" % kind for kind in kinds])))
    for name in sorted(calls):
        wanted = [w for kind in sources[name] for w in expected(kind)]
        if len(wanted) != len(calls[name]) or not all(same(g, w, sizes) for g, w in zip(calls[name], wanted)):
            failed("%s%s differs from %s" % (name, calls[name], sources[name]))

    # structs of numbers of 32 bits have nothing but those; the watch record has the layout of the sources
    for kind in kinds:
        body = re.search(r"typedef struct \{((?:[^{}]|\{[^{}]*\})*)\} %s;" % kind, HEADER).group(1)
        if kind != "guide_watch" and re.search(r"\b(?!uint32_t\b|guide_part\b)\w+ \w+[^;]*;", body):
            failed("%s has another field than numbers of 32 bits" % kind)
    structs = {}
    for path in (("lent_memory", "records.rt"), ("shelf_state", "records.rt")):
        for name, body in re.findall(r"pub struct (\w+) \{(.*?)\n\}", text_of("crates", path[0], "src", path[1]), flags=re.S):
            structs.setdefault(name, re.findall(r"pub (\w+): (\w+),", body))
    size, _, fields = layout("LentWatch", structs)
    asked = [words % path for path, _, _ in fields for words in ("offsetof(guide_watch, %s)", "sizeof((guide_watch *)0)->%s")]
    found = compiled(["sizeof(guide_watch)"] + asked)
    if found != [size] + [n for _, at, width in fields for n in (at, width)]:
        failed("guide_watch is laid out otherwise than LentWatch: %s, %s" % (found, fields))

    # refusals by name and number
    names = {re.sub(r"(?<!^)(?=[A-Z])", "_", name).upper(): int(n)
             for name, n in re.findall(r"^number_of (\w+) = (\d+)", text_of("crates", "refusal", "specs", "Numbers.antt"), flags=re.M)}
    told = {name: int(n) for name, n in re.findall(r"GUIDE_(\w+) = (\d+),", re.search(r"enum guide_refusal \{(.*?)\}", HEADER, flags=re.S).group(1))}
    if told.pop("DONE") != 0 or told != names:
        failed("the refusals differ: %s" % sorted(set(told.items()) ^ set(names.items())))
    print("guide.h: %d calls, %d structs and %d refusals as in the sources" % (len(calls), len(kinds), len(names)))


main()
