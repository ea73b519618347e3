#!/bin/sh
# A coverage-guided run of the C face: tests/fuzz/run.sh [SECONDS], 300 where none are named. It needs clang with libFuzzer (Debian: clang,
# libclang-rt-14-dev) and an Arm machine, to which target/guide/aarch64/libguide.a is brought from where the kit runs (tools/lib.sh aarch64), and is no part of
# the gate. The corpus stays in target/fuzz/corpus. Run it from the repository's root.
set -e
[ "$(uname -m)" = aarch64 ] || { echo "tests/fuzz finds the blocks of Arm code alone"; exit 1; }
[ -e target/guide/aarch64/libguide.a ] || sh tools/lib.sh
made=target/fuzz
mkdir -p $made/corpus
echo 'SECTIONS { guide_text : { *(.text .text.*) } }' >$made/one_section.ld
ld -r --whole-archive -o $made/library.o -T $made/one_section.ld target/guide/aarch64/libguide.a
clang -std=gnu11 -O2 -g -Wall -Wextra -fsanitize=fuzzer -Iinclude -o $made/fuzz tests/fuzz/fuzz.c $made/library.o
# The examples' sections, to begin with: asked about, written again and delivered.
python3 - $made/corpus examples/*.bin <<'END'
import sys
for name in sys.argv[2:]:
    capture, at = open(name, "rb").read(), 0
    while at + 7 <= len(capture):
        n = 3 + ((capture[at + 5] & 0x0F) << 8 | capture[at + 6])
        for does in (4, 6, 3):
            with open("%s/%s-%d-%d" % (sys.argv[1], name.split("/")[-1], at, does), "wb") as f:
                f.write(bytes([does]) + capture[at + 4:at + 4 + n] + bytes(range(32)))
        at += 4 + n
END
# A block counts once, so an input that reached it first is not to be replaced by a shorter one.
$made/fuzz -max_total_time="${1:-300}" -max_len=4200 -reduce_inputs=0 -print_final_stats=1 -artifact_prefix=$made/ $made/corpus
