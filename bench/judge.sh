#!/bin/sh
# Measures judging a whole section. Run it from the repository's root.
set -e
mkdir -p target/bench
sh tools/staticlib.sh bench_calls
gcc -std=gnu11 -O3 -Wall -Wextra -o target/bench/judge bench/judge.c target/lib/$(uname -m)/libbench_calls.a
target/bench/judge
