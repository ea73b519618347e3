#!/bin/sh
# Calls the C symbols of `lent`: the histories of calls, compared with what the rules give, and memory that no rule allows. Run it from the
# repository's root. The kit's clang makes programs for x86-64, with no C library.
set -e
kit=$(sh tools/kit.sh)
mkdir -p target/lent
sh tools/staticlib.sh lent_c x86_64
for program in histories unruly; do
    "$kit/toolchain/bin/clang" --target=x86_64-unknown-linux-gnu -std=gnu11 -O2 -Wall -Wextra -ffreestanding -nostdinc -nostdlib -static -fuse-ld=lld \
        -Iinclude -Itests/lent -Itests/bare -o target/lent/$program tests/lent/$program.c target/lib/x86_64/liblent_c.a
done
target/lent/histories <crates/test_lent/stdin | diff crates/test_lent/stdout -
target/lent/unruly
