#!/usr/bin/env python3
"""Holds the programs that README.md and guide.h show to what the repository has: the one in Rattle is the crate `first_program`, with its line of crates.txt;
the one in Rust is an example of bindings/rust, which its test.sh runs; the one in C compiles, links and prints what it should; the example in guide.h compiles. Run it where the library is built (tools/lib.sh)."""
import os
import platform
import subprocess
import sys
import tempfile

ROOT = os.path.join(os.path.dirname(os.path.abspath(__file__)), "..")
LIBRARY = os.path.join(ROOT, "target", "guide", platform.machine(), "libguide.a")
GCC = ["gcc", "-std=c99", "-Wall", "-Wextra", "-Werror", "-I" + os.path.join(ROOT, "include")]


def text_of(*path):
    with open(os.path.join(ROOT, *path), encoding="utf-8") as f:
        return f.read()


def failed(what):
    print("README: " + what)
    sys.exit(1)


def block_with(text, first, indent):
    """The lines from the one that begins so, without the indent, as long as they have it or are empty."""
    lines = text.splitlines()
    at = next((k for k, line in enumerate(lines) if line.startswith(indent + first)), None)
    if at is None:
        failed("no lines that begin with '%s'" % first)
    out = []
    for line in lines[at:]:
        if line.strip() not in ("", indent.strip()) and not line.startswith(indent):
            break
        out.append(line[len(indent):])
    return "\n".join(out).rstrip() + "\n"


def main():
    readme, source, crates = text_of("README.md"), text_of("crates", "first_program", "src", "main.rt"), text_of("crates.txt")
    if block_with(readme, source.splitlines()[0], "    ") != source:
        failed("the program in Rattle is not that of the crate first_program")
    rust = text_of("bindings", "rust", "examples", "first.rs")
    if block_with(readme, rust.splitlines()[0], "    ") != rust:
        failed("the program in Rust is not bindings/rust/examples/first.rs")
    line = block_with(readme, "first_program: ", "    ").splitlines()[0]
    if line not in crates.splitlines():
        failed("crates.txt has no line '%s'" % line)

    eit = open(os.path.join(ROOT, "examples", "two_eits.bin"), "rb").read()[4:41]
    with tempfile.TemporaryDirectory() as folder:
        for name, text, words in (("first", block_with(readme, "#include <guide.h>", "    "), ["-o", os.path.join(folder, "first"), LIBRARY]),
                                  ("header", block_with(text_of("include", "guide.h"), "#include <guide.h>", " *     "), ["-o", os.path.join(folder, "header.o"), "-c"])):
            path = os.path.join(folder, name + ".c")
            with open(path, "w", encoding="utf-8") as f:
                f.write(text)
            subprocess.run(GCC + [path] + words, check=True)
        # "Tea" starts at second 1000; cut short, the section is refused by 5
        for section, printed, status in ((eit, "1000 has a text\n", 0), (eit[:-1], "", 5)):
            ran = subprocess.run([os.path.join(folder, "first")], input=section, capture_output=True)
            if (ran.stdout.decode(), ran.returncode) != (printed, status):
                failed("the program in C prints %r and ends with %d" % (ran.stdout, ran.returncode))
    print("README: the three programs and the header's example as they should be")


main()
