#!/usr/bin/env python3
"""Holds what the judge reaches to small arrays: no function and no type of `section`, nor of a crate that it is built on, names an array above 64
bytes, and none of their constants is an array, since a constant that a function names is stored on its stack. The same of `reading`, `rows` and `writing`.
Whole crates are looked at, so more than what is called. Where the words of an array do not tell its size it counts as too large, and a number without a
type as eight bytes; what `narrow` answers and what is given to `put_all` are numbers of 32 bits, and an array of as many things as a const parameter says
has the size of what is given for it, where that is written. Run it from the repository's root; it prints what breaks the rule and fails."""
import re
import sys
from pathlib import Path

ROOTS = "section", "reading", "rows", "writing"
MOST = 64

SIZES = {"bool": 1, "u8": 1, "i8": 1, "u16": 2, "i16": 2, "u32": 4, "i32": 4, "f32": 4, "u64": 8, "i64": 8, "usize": 8, "isize": 8, "f64": 8}
TOKEN = re.compile(r"""//[^\n]*|(/\*|b?"(?:\\.|[^"\\])*"|br#*"|b'(?:\\.|[^'\\])+'|'\w+|\w+|\S)""")
NUMBER = re.compile(r"(0x[0-9a-f_]+?|0b[01_]+|[0-9][0-9_]*)([ui](?:8|16|32|64|size))?$", re.I)
# a bracket opens an array behind these words, and an index behind any other
BEFORE_A_VALUE = {"return", "break", "in", "if", "while", "match", "else", "mut"}

# the rule tried on what it must find and on what it must leave, each time
BROKEN = (
    "let a = [0u8; 65];", "let a = [0; 9];", "fn f(a: [u8; N]) {}", "struct S { a: [u16; 33] }", "fn f(a: &[u8; 65]) {}", "let a = [blank; 2];",
    "let a = [1u32, 2, 3, 4, 5, 6, 7, 8, 9, 10];", "g(&[x, y])", "let a = [[0u8; 2]; 2];", "let a = [0u8; M];", "return [0u64; 9]", "let a = [0u8; 0x1f8];",
    "const T: [u8; 2] = [1, 2];", 'let t = b"ab";', 'let t = br"ab";', 'let t = br#"ab"#;', "f(&[LIMITS])", "/* ghost */ let a = [0u8; 65];",
    "ghost use a.{[]}; let a = [0u8; 65];", "ensures { [] } { [0u8; 65] }", "ensures b { [] } { [0u8; 65] }", "fn f() ghost { a } { [0u8; 65] }",
    "struct S { ghost p { a }, t: [u8; 65] }", "ghost let a = 1; { [0u8; 65] }", "impl A { ghost g = { a }; t: [u8; 65] }",
    "put_all(out, p, [a, a, a, a, a, a, a, a, a, a, a, a, a, a, a, a, a]);", "put(out, p, [n.n0, n.n1]);", "let a = [n.n0, n.n1]; put_all(out, p, b);", "let a = [narrow(x), y];",
    "fn f<const N: usize>(a: [u32; M]) {}", "fn f<const N: usize>(a: [S; N]) {}",
)  # fmt: skip
SOUND = (
    "let a = [0u8; 64];", "let a = [0; 8];", "struct S { a: [u16; 32] }", "fn f<'a>(s: &'a [u8], t: &'a mut [LentWatch], u: &[kind::Limits]) {}", "s[65]",
    "f(s)[65]", "// [0u8; 65]", "ghost use a.{[]};", "ensures { [0u8; 65] } {}", "ensures b { [0u8; 65] } {}", "fn f() ghost { [0u8; 65] } {}",
    "#[unsafe(no_mangle)]", "#![tactic(auto)]",
    "impl A { ghost g = { [] }; fn f() {} }", "put_all(out, p, [n.n0, f(n, 1),]);", "let a = [n.n0, n.n1]; put_all(out, p, a);", "let a = [narrow(x + 1), narrow(f(y, 2))];",
    "fn f<const K: usize>(a: [u32; K]) {}",
    "const N: usize = 65;", "fn f<const N: usize, const M: usize>(s: &[u8]) {}", "let a = [1u8, 2, 3,];", "let a = [0u8; 0x40];",
)  # fmt: skip


def end_of(tokens, i):
    """Where the bracket at i is closed."""
    depth = 0
    for k in range(i, len(tokens)):
        depth += (tokens[k] in "([{") - (tokens[k] in ")]}")
        if not depth:
            return k
    sys.exit(f"a bracket is not closed: {' '.join(tokens[i:i + 9])}")


def code(text):
    """The tokens of a source, without comments, what is `ghost`, and contracts. What is not read here stands alone."""
    tokens = [token for token in TOKEN.findall(text) if token]
    kept, i = [], 0
    while i < len(tokens):
        if tokens[i : i + 2] == ["ghost", "use"]:
            i = tokens.index(";", i)
        elif tokens[i] in ("ghost", "requires", "ensures") and "{" in tokens[i + 1 : i + 3]:
            i = end_of(tokens, tokens.index("{", i))
        elif tokens[i] == "ghost" and tokens[i + 2 : i + 4] == ["=", "{"]:
            i = end_of(tokens, i + 3)
        elif tokens[i] in ("ghost", "requires", "ensures", "/*"):
            return [tokens[i]]
        else:
            kept.append(tokens[i])
        i += 1
    return kept


def value_of(number):
    return int(number[1].replace("_", ""), 0)


def size_of(element):
    """The bytes of a number or of its type. None of anything else."""
    number = NUMBER.match(element)
    return SIZES[number[2] or "u64"] if number else SIZES.get(element)


def count_of(length, constants):
    number = NUMBER.match(length)
    return value_of(number) if number else constants.get(length)


def elements(inside):
    """What stands between the commas of an array."""
    depth, found = 0, [[]]
    for token in inside:
        depth += (token in "([{") - (token in ")]}")
        if token == "," and not depth:
            found.append([])
        else:
            found[-1].append(token)
    return [element for element in found if element]


def is_put(tokens, i):
    """Whether the bracket at i is an argument of `put_all`, or the value of a local that is one in the next call."""
    if tokens[i - 3 : i - 2] == ["let"] and tokens[i - 1] == "=":
        after = end_of(tokens, i) + 2
        return tokens[after : after + 2] == ["put_all", "("] and tokens[end_of(tokens, after + 1) - 1] == tokens[i - 2]
    depth = 0
    for k in range(i - 1, 0, -1):
        depth += (tokens[k] in ")]}") - (tokens[k] in "([{")
        if depth < 0:
            return tokens[k] == "(" and tokens[k - 1] == "put_all"
    return False


def array_size(inside, constants, put, generic):
    """The bytes of the array with this between its brackets, or None where that is not told."""
    if put:
        return 4 * len(elements(inside))
    if len(inside) == 3 and inside[1] == ";" and inside[0] in SIZES and inside[2] in generic:
        return 0
    if len(inside) > 1 and all(element[:2] == ["narrow", "("] for element in elements(inside)):
        return 4 * len(elements(inside))
    if len(inside) == 3 and inside[1] == ";":
        each, count = size_of(inside[0]), count_of(inside[2], constants)
        return None if each is None or count is None else each * count
    sizes = [size_of(element) for element in inside[::2]]
    return None if None in sizes or set(inside[1::2]) - {","} else sum(sizes)


def is_slice(before, inside):
    """Whether a bracket behind these words is the type of a slice: a reference to things of one type, whose name is not all capitals."""
    lent = before[:-1] if before[-1] == "mut" else before
    name = "".join(inside).split("::")[-1]
    return (lent[-1] == "&" or lent[-1][0] == "'") and (name in SIZES or (name.isalnum() and name[0].isupper() and name != name.upper()))


def breaks(tokens, constants):
    """What these tokens name against the rule."""
    generic = set(re.findall(r"[<,] const (\w+) : usize", " ".join(tokens)))
    for i, token in enumerate(tokens):
        before = ["-", "-", *tokens[max(i - 2, 0) : i]]
        if token in ("ghost", "requires", "ensures", "/*"):
            yield f"what follows `{token}` is not read here"
        elif re.match(r'br?#*"', token):
            yield f"constant bytes, {token[:20]}"
        elif token == "const" and before[-1] not in ("<", ",") and "[" in tokens[i : tokens.index(";", i)]:
            yield f"an array for a constant, {tokens[i + 1]}"
        elif token == "[" and before[-1] not in ("#", ")", "]") and before[-2:] != ["#", "!"] and (before[-1] in BEFORE_A_VALUE or not re.match(r"\w", before[-1])):
            inside = tokens[i + 1 : end_of(tokens, i)]
            size = array_size(inside, constants, is_put(tokens, i), generic)
            if not is_slice(before, inside) and (size is None or size > MOST):
                yield f"an array of {size or 'who knows how many'} bytes, [{' '.join(inside)}]"


def constants_in(tokens):
    """The names and values of the lengths in a source."""
    found = re.findall(r"\bconst (\w+) : usize = (\w+) ;", " ".join(tokens))
    return [(name, value_of(NUMBER.match(value))) for name, value in found if NUMBER.match(value)]


for source in BROKEN:
    assert list(breaks(code(source), {"N": 65})), f"not found: {source}"
for source in SOUND:
    assert not list(breaks(code(source), {})), f"found: {source}"

listed = dict(re.findall(r"^(\w+):(.*)$", Path("crates.txt").read_text(), re.M))
reached, waiting = set(), list(ROOTS)
while waiting:
    crate = waiting.pop()
    if crate not in reached:
        reached.add(crate)
        waiting += listed[crate].split()

sources = {file: code(file.read_text()) for crate in sorted(reached) for file in sorted(Path("crates", crate, "src").rglob("*.rt"))}
# of two of one name, the larger
constants = dict(sorted(pair for tokens in sources.values() for pair in constants_in(tokens)))
wrong = [f"{file}: {fault}" for file, tokens in sources.items() for fault in breaks(tokens, constants)]
if len(sources) < 20:
    wrong.append(f"only {len(sources)} sources were found")
for line in wrong:
    print(line)
sys.exit(1 if wrong else 0)
