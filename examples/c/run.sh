#!/bin/sh
# Compiles the day sheet for this machine and compares what it prints of the examples. Run it from the repository's root.
set -e
sh tools/lib.sh
mkdir -p target/examples
gcc -std=c99 -O2 -Wall -Wextra -Werror -Iinclude -o target/examples/day_sheet examples/c/day_sheet.c target/guide/$(uname -m)/libguide.a
for name in all_kinds half_heard; do
    target/examples/day_sheet examples/$name.bin | diff examples/c/$name.txt -
done
