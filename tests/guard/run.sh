#!/bin/sh
# Damaged input through every call from C, between guard pages and under valgrind: tests/guard/run.sh [MEGABYTES [CALLS]], 100 and a million where none are
# named. It takes minutes and is no part of the gate. Run it from the repository's root.
set -e
sh tools/lib.sh
mkdir -p target/guard
gcc -std=gnu11 -O2 -g -Wall -Wextra -Iinclude -o target/guard/guard tests/guard/guard.c "target/guide/$(uname -m)/libguide.a"
echo "between guard pages:"
target/guard/guard "${1:-100}" "${2:-1000000}" examples/all_kinds.bin examples/two_eits.bin examples/half_heard.bin
echo "under valgrind:"
valgrind -q --error-exitcode=1 target/guard/guard 2 20000 examples/all_kinds.bin examples/two_eits.bin examples/half_heard.bin
