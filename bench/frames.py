#!/usr/bin/env python3
"""The stack that each call of guide.h can take on any input, for x86-64 and for Arm, from the code of the library: a function takes its frame and what the
deepest of its callees takes. Nothing in that code calls itself or calls by pointer, and no frame is of a size that depends on data; where one did,
this fails. Run it from the repository's root, behind bench/stack.sh: it fails where a call takes more than 6 KiB, or more than the table of docs/SPEED.md
says, on any input or where it was painted."""
import re
import subprocess
import sys
from pathlib import Path

ALLOWED = 6 << 10
# what a call puts on the stack before the callee runs; and what is not the library's but the program's that links it
RETURN_ADDRESS = {"x86_64": 8, "aarch64": 0}
OUTSIDE = "memcpy", "memset"
# the words that the assembly is assembled with: on x86-64 those that fill gaps with the instructions that the compiler fills them with
AS_WRITTEN = {"x86_64": ["-march=x86-64-v2"], "aarch64": []}
# a painted call has beside its own stack the arguments that are passed there, six at most, and the frame of who passes them
CALLER = 64

CALL = re.compile(r"\s+(callq?|jmpq?|j[a-z]+|blr?|br?|b\.[a-z]+|cbn?z|tbn?z)\s+(?:[\w#]+, )*(.*?)(?:@PLT)?(?:\s+(?:#|//).*)?$")
wrong = []


def functions(text):
    """The lines of each function."""
    name, lines = None, []
    for line in text.splitlines():
        begun = re.match(r'"([^"]+)":|(\w+):', line)
        if begun:
            name, lines = begun[1] or begun[2], []
        elif line.startswith(".Lfunc_end"):
            yield name, lines
        else:
            lines.append(line)


def is_in_the_library(arch, crate):
    """Whether the assembly makes, byte for byte, what the library has."""
    tools, again = subprocess.check_output(["sh", "tools/kit.sh"], text=True).strip() + "/toolchain/bin", f"target/bench/stack/{arch}-{crate}.o"
    words = [f"--target={arch}-unknown-linux-gnu", *AS_WRITTEN[arch], "-c", f"target/lib/{arch}/{crate}.s", "-o", again]
    subprocess.run([f"{tools}/clang", *words], check=True)
    return Path(again).read_bytes() == subprocess.check_output([f"{tools}/llvm-ar", "p", f"target/lib/{arch}/lib{crate}.a"])


class Code:
    """The functions of the library on one sort of machine."""

    def __init__(self, arch):
        self.arch, self.frames, self.below, self.callees, self.heirs, self.known = arch, {}, {}, {}, {}, {}
        for crate in "guide_c", "lent_c":
            subprocess.run(["sh", "tools/staticlib.sh", crate, arch], check=True)
            self.read(crate)
            if not is_in_the_library(arch, crate):
                wrong.append(f"{arch}: the code of {crate} that is counted is not that of the library")

    def read(self, crate):
        of_crate = {}
        for line in Path(f"target/lib/{self.arch}/{crate}.su").read_text().splitlines():
            name, size, sort = line.split(":", 1)[1].split("\t")
            of_crate[name] = int(size)
            if sort != "static":
                wrong.append(f"{self.arch}: the frame of {name} is {sort}")
        for name, lines in functions(Path(f"target/lib/{self.arch}/{crate}.s").read_text()):
            # a function of both crates stands in each by itself
            key = (crate, name)
            self.frames[key] = of_crate.pop(name)
            self.callees[key], self.heirs[key] = set(), set()
            for line in lines:
                self.note(key, line, lines)
            # a function that calls none may use what lies below its frame
            below = [int(n) for line in lines for n in re.findall(r"-(\d+)\(%rsp", line)]
            self.below[key] = 0 if self.callees[key] else max(below, default=0)
        wrong.extend(f"{self.arch}: {name} has a frame and no code" for name in of_crate)

    def note(self, key, line, lines):
        """Notes whom a line calls, or whom it leaves the rest to."""
        found = CALL.match(line)
        if not found or found[2].startswith(".LBB"):
            return
        how, whom = found[1], found[2].strip('"')
        by_pointer = whom.startswith("*") or how in ("br", "blr")
        if by_pointer and (how in ("call", "callq", "blr") or not any(".LJTI" in other for other in lines)):
            wrong.append(f"{self.arch}: {key[1]} calls by pointer: {line.strip()}")
        elif not by_pointer:
            (self.callees if how in ("call", "callq", "bl") else self.heirs)[key].add(whom if whom in OUTSIDE else (key[0], whom))

    def stack(self, key, above=()):
        """What a function takes with all that it calls; `above` are those that led to it."""
        if key in OUTSIDE:
            return RETURN_ADDRESS[self.arch]
        if key in above or key not in self.frames:
            wrong.append(f"{self.arch}: {above[-1][1]} calls {key[-1]}, which " + ("leads back to it" if key in above else "is not the library's"))
            return 0
        if key not in self.known:
            deepest = max([self.stack(callee, (*above, key)) for callee in self.callees[key]], default=0)
            own = RETURN_ADDRESS[self.arch] + self.frames[key] + max(deepest, self.below[key])
            self.known[key] = max([own, *(self.stack(heir, (*above, key)) for heir in self.heirs[key])])
        return self.known[key]


def painted_of(arch):
    """What was painted of each call: for Arm of none, where no Arm code runs."""
    lines = Path(f"target/bench/stack/{arch}.txt")
    found = re.findall(r"^(\w+): (\d+) bytes of stack", lines.read_text(), re.M) if lines.exists() else []
    return {name: int(figure) for name, figure in found}


header = Path("include/guide.h").read_text()
calls = re.findall(r"^(?:uint32_t |GUIDE_SHELF_CALL\()(\w+)[()]", header, re.M)
code = Code("x86_64"), Code("aarch64")
painted = {machine.arch: painted_of(machine.arch) for machine in code}
table = re.findall(r"^\| `(\w+)` \| ([\d,]+) \| ([\d,]+) \| ([\d,]+) \|$", Path("docs/SPEED.md").read_text(), re.M)
told = {name: [int(n.replace(",", "")) for n in figures] for name, *figures in table}

if len(calls) < 39 or list(told) != calls:
    wrong.append("the rows of docs/SPEED.md are not the calls of guide.h, in their order")
for name in calls:
    crate = "lent_c" if name.startswith("lent_") else "guide_c"
    found = [painted["x86_64"].get(name, 0), *(machine.stack((crate, name)) for machine in code)]
    print(f"| `{name}` | {found[0]:,} | {found[1]:,} | {found[2]:,} |")
    if not found[0]:
        wrong.append(f"{name} was not painted")
    if any(painted[machine.arch].get(name, 0) > machine.stack((crate, name)) + CALLER for machine in code):
        wrong.append(f"{name}: more was painted than its frames have")
    if max(found) > ALLOWED:
        wrong.append(f"{name}: above {ALLOWED} bytes")
    if any(is_now > was for is_now, was in zip(found, told.get(name, []))):
        wrong.append(f"{name}: more than docs/SPEED.md says")

for line in wrong:
    print("FAILED stack:", line)
sys.exit(1 if wrong else 0)
