#!/bin/sh
# Measures the calls on lent memory. Run it from the repository's root.
set -e
mkdir -p target/bench
sh tools/staticlib.sh lent_c
gcc -std=gnu11 -O3 -Wall -Wextra -Ibench -Iinclude -Itests/lent -o target/bench/lent bench/lent.c target/lib/$(uname -m)/liblent_c.a
target/bench/lent
