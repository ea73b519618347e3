#!/bin/sh
# Measures the decoding of compressed titles. Run it from the repository's root.
set -e
mkdir -p target/bench
sh tools/staticlib.sh bench_calls
python3 bench/titles.py target/bench
gcc -std=gnu11 -O3 -Wall -Wextra -Ibench -Itarget/bench -o target/bench/titles bench/titles.c target/lib/$(uname -m)/libbench_calls.a
target/bench/titles target/bench/titles.bin
